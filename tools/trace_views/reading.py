"""The text of a trace or of a log, as events: docs/formats.md, "The text of a trace" and "Lines of events"."""
from __future__ import annotations

import json
from dataclasses import dataclass

from text_faults.logs import LineFault, read_log

MODES = {"SIG": (True, False), "WAIT": (False, True), "SIG_WAIT": (True, True), "SINGLE": (True, True)}
FOLDS = {
    "sum": sum,
    "least": lambda values: min(values, default=None),
    "greatest": lambda values: max(values, default=None),
}
LIMITS = ("acts", "finishes", "history", "phasers", "regs", "tasks")
WORD, VALUE, SEEN, REFUSAL, BOUND = 2**32 - 1, "value", "seen", "refusal", "bound"
# what follows the name of each event in version 2: the greatest number, or the kind of thing
STEPS = {
    "make": (WORD, "mode", "ops", BOUND), "reg": (WORD, WORD, "mode"), "sig": (WORD,), "claim": (WORD,),
    "did": (WORD,), "pass": (WORD,), "send": (WORD, 255, VALUE), "look": (WORD, 255, SEEN), "drop": (WORD,),
}
FINISH_EVENTS = {"opened": (WORD,), "spawned": (WORD,), "ended": (WORD,), "shut": ()}
ENTRIES = {"begin": ("begun",), "refuse": ("act", REFUSAL), "fail": (REFUSAL,)}
BEGUN = {"async": (WORD, "pairs"), "signal": (), "wait": (), "next": (), "single": (WORD,), "shut": (), "end": ()}
ACTS = {**BEGUN, "new": (WORD, "mode", "ops", BOUND), "open": (WORD,), "send": (WORD, 255, VALUE), "look": (WORD, 255)}
OF_KIND = {"p": STEPS, "f": FINISH_EVENTS, "t": ENTRIES}


class NoTrace(Exception):
    """The text is no trace, or one that can't be drawn; the place of the fault, and why."""

    def __init__(self, place, why):
        super().__init__(place, why)
        self.place, self.why = place, why


@dataclass
class Event:
    place: int  # from 1; in a log the line
    ticket: int
    kind: str  # p, f or t
    number: int  # of the phaser, the finish or the task
    name: str
    rest: list  # what follows the name in version 2
    items: list  # all of it, as it stands in the trace

    def text(self):
        """The event as it stands in the trace."""
        return json.dumps(self.items, separators=(",", ":"))


def is_whole(thing, least, most):
    return isinstance(thing, int) and not isinstance(thing, bool) and least <= thing <= most


def is_list_of(thing, most, one):
    return isinstance(thing, list) and len(thing) <= most and all(map(one, thing))


def is_pair(thing):
    return isinstance(thing, list) and len(thing) == 2 and fits(thing[0], WORD) and fits(thing[1], "mode")


def is_act(thing, forms):
    return isinstance(thing, list) and thing[:1] != [] and has_form(forms, thing)


KINDS = {
    "begun": lambda thing: is_act(thing, BEGUN),
    "act": lambda thing: is_act(thing, ACTS),
    "mode": lambda thing: isinstance(thing, str) and thing in MODES,
    "ops": lambda thing: is_list_of(thing, 4, lambda op: isinstance(op, str) and op in FOLDS),
    "pairs": lambda thing: is_list_of(thing, 16, is_pair),
    VALUE: lambda thing: is_whole(thing, -2**31, 2**31 - 1),
    SEEN: lambda thing: thing is None or is_whole(thing, -2**63, 2**63 - 1),
    REFUSAL: lambda thing: is_whole(thing, 1, 26),
    BOUND: lambda thing: thing is None or is_whole(thing, 1, 65536),
}


def fits(thing, kind):
    """Whether a value is of a kind that stands in an event."""
    return is_whole(thing, 0, kind) if isinstance(kind, int) else KINDS[kind](thing)


def has_form(forms, items):
    """Whether a name and what follows it are of one of these forms."""
    name, rest = items[0], items[1:]
    if not isinstance(name, str) or name not in forms:
        return False
    kinds = forms[name]
    if forms is STEPS and name == "sig" and len(rest) == 2:
        kinds = (WORD, WORD)
    return len(rest) == len(kinds) and all(map(fits, rest, kinds))


def unbounded(named):
    """A name and what follows it in version 1, as in version 2: no phaser has a bound."""
    name, *rest = named
    if name == "make":
        return [*named, None]
    if name == "refuse" and rest and isinstance(rest[0], list) and rest[0][:1] == ["new"]:
        return [name, [*rest[0], None], *rest[1:]]
    return named


def event_of(place, items, version):
    """The event of a list, or NoTrace at its place."""
    if not isinstance(items, list) or len(items) < 4 or not is_whole(items[0], 0, 2**64 - 1):
        raise NoTrace(place, "an event is a list that begins with its ticket")
    kind, number = items[1], items[2]
    named = unbounded(items[3:]) if version == 1 else items[3:]
    known = isinstance(kind, str) and kind in OF_KIND and fits(number, WORD)
    if not known or not has_form(OF_KIND[kind], named):
        raise NoTrace(place, "this is the form of no event")
    return Event(place, items[0], kind, number, named[0], named[1:], items)


def events_of_log(lines):
    """The events of phasers in the lines of a log, one by one, or NoTrace at the first line that is of no form."""
    try:
        for number, value, event in read_log(lines):
            if event.kind == "p":
                yield Event(number, event.ticket, "p", event.number, event.name, value[4:], value)
    except LineFault as fault:
        raise NoTrace(fault.line, fault.why) from None


def events_of(data):
    """The events of a trace's bytes, or NoTrace at the first that is of no form."""
    try:
        trace = json.loads(data.decode())
    except (ValueError, RecursionError):  # no UTF-8, no JSON, or nested too deep
        raise NoTrace(0, "the text is no JSON") from None
    if not isinstance(trace, dict) or not set(trace) <= {"events", "limits", "version"}:
        raise NoTrace(0, "a trace is an object with the keys events, limits and version")
    if not is_whole(trace.get("version"), 1, 2):
        raise NoTrace(0, "the versions that are drawn are 1 and 2")
    limits = trace.get("limits", {})
    if not isinstance(limits, dict) or not all(key in LIMITS and fits(n, WORD) for key, n in limits.items()):
        raise NoTrace(0, "the limits aren't as they must be")
    if not isinstance(trace.get("events"), list):
        raise NoTrace(0, "there is no list of events")
    return [event_of(place, items, trace["version"]) for place, items in enumerate(trace["events"], 1)]
