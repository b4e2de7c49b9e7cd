"""The places that are drawn."""
from __future__ import annotations

from dataclasses import dataclass


@dataclass(frozen=True)
class Span:
    """The places from the first to the last. Place 0, where task 0 and finish 0 begin, belongs to place 1."""

    first: int
    last: int

    @property
    def start(self):
        return 0 if self.first == 1 else self.first

    def has(self, place):
        return self.first <= place <= self.last

    def is_open_before(self, begun):
        return begun < self.start

    def is_open_after(self, ended):
        return ended is None or ended > self.last

    def meets(self, begun, ended):
        """Whether what goes from one place to another, or on without end, is partly in it."""
        return begun <= self.last and (ended is None or ended >= self.start)

    def open_words(self, begun, ended):
        """How a drawing says that something goes on past its ends."""
        before, after = self.is_open_before(begun), self.is_open_after(ended)
        ends = "both ends" if before and after else "the start" if before else "the end"
        return f" (open at {ends})" if before or after else ""
