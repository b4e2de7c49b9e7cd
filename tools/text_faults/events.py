"""The form of an events file: docs/formats.md, "The events file"."""
from __future__ import annotations

from .forms import MOST_BOUND, WORD, Form

# By call, how many items have to follow the name, and which may.
CALLS = {
    "make": (2, "t,mode"), "reg": (3, "q,t,mode"), "sig": (1, "t,n"), "pass": (1, "t"), "did": (1, "t"),
    "send": (3, "t,a,v"), "look": (2, "t,a"), "drop": (1, "t"),
}
NUMBERS = {"t": (0, WORD), "q": (0, WORD), "n": (0, WORD), "a": (0, 255), "v": (-2**31, 2**31 - 1)}


class Events(Form):
    kind = "events"

    def more(self, outer):
        if "accs" in outer:
            self.operators(outer["accs"], ("accs",))
        if "bound" in outer:
            self.number(outer["bound"], ("bound",), "a bound", 1, MOST_BOUND)

    def read(self, value):
        calls = self.outer(value)
        for at, call in enumerate(calls):
            self.place, self.part = at + 1, "calls[%d]" % at
            self.call(call, ("calls", at))
        return calls

    def call(self, value, path):
        name = self.named(value, path, CALLS, "a call", '["pass",0]')
        least, form = CALLS[name]
        self.counted(value, path, 1, least, form)
        for at, item in enumerate(form.split(",")[:len(value) - 1], 1):
            if item == "mode":
                self.mode(value[at], (*path, at))
            else:
                self.number(value[at], (*path, at), item, *NUMBERS[item])
