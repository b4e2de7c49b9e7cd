"""What is raised if a call or a text is refused."""
from __future__ import annotations

__all__ = ["Refusal"]


class Refusal(Exception):
    """A call, a text or an event was refused.

    `answer` is the number of the answer, as in paldwosk.h and docs/rules.md. The text says what it
    means and what to do. A refused call changed nothing; only a `next` or `single` whose pass is
    refused has signalled.

    >>> from paldwosk import Phaser
    >>> try:
    ...     Phaser(bound=0)
    ... except Refusal as refusal:
    ...     print(refusal.answer)
    71
    """

    answer: int

    def __init__(self, answer: int, text: str) -> None:
        super().__init__(answer, text)
        self.answer = answer

    def __str__(self) -> str:
        return str(self.args[1])
