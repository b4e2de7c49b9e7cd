"""The form of a trace, version 1 or 2: docs/formats.md, "The text of a trace"."""
from __future__ import annotations

from dataclasses import dataclass

from .forms import MOST_BOUND, MOST_PAIRS, WORD, Form, is_whole, shown

STEPS = {
    "make": "t,mode,[ops],b", "reg": "q,t,mode", "sig": "t,n", "claim": "t", "did": "t", "pass": "t", "send": "t,a,v",
    "look": "t,a,seen", "drop": "t",
}
FINISH_EVENTS = {"opened": "t", "spawned": "t", "ended": "t", "shut": ""}
ENTRIES = {"begin": "begun", "refuse": "act,number", "fail": "number"}
BEGUN = {"async": "child,pairs", "signal": "", "wait": "", "next": "", "single": "n", "shut": "", "end": ""}
TRIED = {**BEGUN, "new": "ph,mode,[ops],b", "open": "f", "send": "ph,a,v", "look": "ph,a"}
OF_KIND = {"p": STEPS, "f": FINISH_EVENTS, "t": ENTRIES}
NUMBERED = {"p": "a phaser's number", "f": "a finish's number", "t": "a task's number"}
RANGES = {
    "t": (0, WORD), "q": (0, WORD), "child": (0, WORD), "n": (0, WORD), "ph": (0, WORD), "f": (0, WORD), "a": (0, 255),
    "v": (-2**31, 2**31 - 1), "number": (1, 26), "b": (1, MOST_BOUND), "seen": (-2**63, 2**63 - 1),
}
NAMES = {"number": "a refusal's number", "seen": "what was seen", "b": "a bound"}
OR_NULL = {"b": "none", "seen": "nothing"}
MOST_TICKET = 2**64 - 1


@dataclass
class Event:
    ticket: int
    kind: str  # p, f or t
    number: int  # of the phaser, the finish or the task
    name: str
    items: list  # what follows the name; a bound is there in both versions


class Trace(Form):
    kind = "trace"
    ranges = RANGES

    def __init__(self):
        super().__init__()
        self.version = 2

    def more(self, outer):
        if "version" not in outer:
            self.fault((), 'a trace has the key "version", which is 1 or 2, and it is missing')
        if not is_whole(outer["version"], 1, 2):
            self.fault(("version",), "the version is 1 or 2, but found %s" % shown(outer["version"]))
        self.version = outer["version"]

    def read(self, value):
        """The limits and the events, or the first fault."""
        events = []
        for at, event in enumerate(self.outer(value)):
            self.place, self.part = at + 1, "events[%d]" % at
            events.append(self.event(event, ("events", at)))
        return self.limits(value), events

    def head(self, value, before):
        """How a form begins, up to its name: an event with its ticket, an act with its name."""
        of = 'ticket,"%s",%s,' % (value[1], "ph" if value[1] == "p" else value[1]) if before == 4 else ""
        return '%s"%s"' % (of, value[before - 1])

    def event(self, value, path):
        if not isinstance(value, list) or not value:
            here = "an empty list" if value == [] else shown(value)
            self.fault(path, 'an event is a list, as [1,"p",0,"sig",0], but found %s' % here)
        self.number(value[0], (*path, 0), "the ticket", 0, MOST_TICKET)
        if len(value) < 4:
            self.fault(path, "an event has a ticket, \"p\", \"f\" or \"t\", a number and a name, and here stand %d items" % len(value))
        kind = value[1]
        self.one_of(kind, (*path, 1), "what follows the ticket", tuple(OF_KIND))
        self.number(value[2], (*path, 2), NUMBERED[kind], *self.ranges["ph"])
        whose = {"p": "phaser's event", "f": "finish's event", "t": "task's entry"}[kind]
        name = self.name_at(value, path, 3, OF_KIND[kind], "a " + whose.split()[1])
        items = self.items(value, path, 4, OF_KIND[kind][name])
        return Event(value[0], kind, value[2], name, items)

    def items(self, value, path, before, form):
        """What follows a name, with no bound where version 1 has no item for it."""
        bare = form[:-2] if self.version == 1 and form.endswith(",b") else form
        names = bare.split(",") if bare else []
        self.counted(value, path, before, len(names) - ("n" in names and before == 4), bare.replace("begun", "act"))
        items = [self.item(name, value[at], (*path, at)) for at, name in enumerate(names, before) if at < len(value)]
        return items + [None] * (bare != form)

    def item(self, name, value, path):
        if name == "mode":
            self.mode(value, path)
        elif name == "[ops]":
            self.operators(value, path)
        elif name == "pairs":
            return self.pairs(value, path)
        elif name in ("begun", "act"):
            return self.act(value, path, BEGUN if name == "begun" else TRIED)
        elif value is not None or name not in OR_NULL:
            what = NAMES.get(name, name) + (", or null for %s," % OR_NULL[name] if name in OR_NULL else "")
            self.number(value, path, what, *self.ranges[name])
        return value

    def pairs(self, value, path):
        self.list(value, path, "what follows the child (the pairs)")
        for at, pair in enumerate(value):
            if not isinstance(pair, list) or len(pair) != 2:
                self.fault((*path, at), 'a child is registered by a pair, as [0,"SIG"], but found %s' % shown(pair))
            self.number(pair[0], (*path, at, 0), "ph", 0, WORD)
            self.mode(pair[1], (*path, at, 1))
        if len(value) > MOST_PAIRS:
            self.fault((*path, MOST_PAIRS), "a spawn has at most %d pairs, and this is one more" % MOST_PAIRS)
        return value

    def act(self, value, path, forms):
        """An act of a task's log, as a list with a bound in both versions. What is one event is never begun."""
        name = self.named(value, path, forms, "an act", '["next"]')
        return [name, *self.items(value, path, 1, forms[name])]
