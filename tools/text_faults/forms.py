"""What the forms of all texts share: faults, limits, numbers, modes, operators, and what stands in a place."""
from __future__ import annotations

import difflib
import json

from .json_text import Key, Real

LIMITS = {
    "acts": (1, 65536), "finishes": (1, 1024), "history": (4, 65536), "phasers": (1, 64), "regs": (1, 256), "tasks": (1, 4096),
}
DEFAULTS = {"acts": 4096, "finishes": 64, "history": 4096, "phasers": 64, "regs": 256, "tasks": 256}
MODES = ("SIG", "WAIT", "SIG_WAIT", "SINGLE")
OPERATORS = ("sum", "least", "greatest")
WORD, MOST_OPERATORS, MOST_PAIRS, MOST_BOUND = 2**32 - 1, 4, 16, 65536
# By kind, the key of what it lists, all its keys, the most bytes, what an item is called, and who reads it.
KINDS = {
    "program": ("main", ("limits", "main"), 1 << 20, "act", "run and schedule"),
    "events": ("calls", ("limits", "accs", "bound", "calls"), 1 << 20, "call", "events"),
    "trace": ("events", ("events", "limits", "version"), 1 << 26, "event", "replay"),
}
CALLED = {"program": "a program", "events": "an events file", "trace": "a trace"}
# Words of other runtimes and languages that nothing here is called by, and what is meant.
MEANT = {
    "max": "greatest", "maximum": "greatest", "min": "least", "minimum": "least", "add": "sum", "plus": "sum", "arrive": "sig",
    "register": "reg", "deregister": "drop", "leave": "drop", "wait": "pass",
}


class Fault(Exception):
    """The text is refused: the place that the program names, the path to what is wrong, what it is part of, and why."""

    def __init__(self, place, path, part, why):
        super().__init__(place, path, part, why)
        self.place, self.path, self.part, self.why = place, path, part, why


# ---- words


def is_whole(value, least, most):
    return isinstance(value, int) and not isinstance(value, bool) and least <= value <= most


def shown(value):
    """What stands in a place, as it is written where it is short."""
    if isinstance(value, Real):
        return value.text[:40]
    if isinstance(value, list):
        return "a list"
    if isinstance(value, dict):
        return "an object"
    text = json.dumps(value, ensure_ascii=False)
    return text if len(text) <= 40 else text[:36] + '.."'


def near(word, words):
    """The word of these that was meant, if one is like it."""
    if not isinstance(word, str):
        return ""
    meant = MEANT.get(word.lower())
    if meant in words:
        return '; did you mean "%s"?' % meant
    by_size = {it.upper(): it for it in words}
    found = difflib.get_close_matches(word.upper().replace("-", "_").strip(), by_size, 1, 0.6)
    return '; did you mean "%s"?' % by_size[found[0]] if found else ""


def count_of(number, word):
    return "%s %s%s" % (format(number, ","), word, "" if number == 1 else "s")


def quoted(words):
    return ", ".join('"%s"' % it for it in words)


class Form:
    """Looks at a value of one kind, and raises the fault of the least place. It has the act, call or event under way."""

    kind = ""

    def __init__(self):
        self.place, self.part = 0, ""

    def fault(self, path, why):
        raise Fault(self.place, path, self.part, why)

    # ---- what stands in an item

    def number(self, value, path, name, least, most):
        if is_whole(value, least, most):
            return
        why = "%s is a whole number of %s to %s, but found %s" % (name, format(least, ","), format(most, ","), shown(value))
        if isinstance(value, Real):
            why += ", which isn't one in digits alone" if len(value.text) < 19 else ", which is past 64 bits"
        elif isinstance(value, str) and value.lstrip("-").isdigit():
            why += ": a number has no quotes"
        self.fault(path, why)

    def one_of(self, value, path, name, words):
        if not isinstance(value, str) or value not in words:
            self.fault(path, "%s is one of %s, but found %s%s" % (name, quoted(words), shown(value), near(value, words)))

    def mode(self, value, path):
        self.one_of(value, path, "a mode", MODES)

    def list(self, value, path, name):
        if not isinstance(value, list):
            self.fault(path, "%s is a list, but found %s" % (name, shown(value)))

    def operators(self, value, path):
        self.list(value, path, "what says the operators")
        for at, operator in enumerate(value):
            self.one_of(operator, (*path, at), "an operator", OPERATORS)
        if len(value) > MOST_OPERATORS:
            self.fault((*path, MOST_OPERATORS), "a phaser has at most %d accumulators, and this is one more" % MOST_OPERATORS)

    def named(self, value, path, forms, what, example):
        """The name of an act, a call or an event, which is a list that begins with it."""
        if not isinstance(value, list) or not value:
            here = "an empty list" if value == [] else shown(value)
            self.fault(path, "%s is a list, as %s, but found %s" % (what, example, here))
        return self.name_at(value, path, 0, forms, what)

    def name_at(self, value, path, index, forms, what):
        name = value[index]
        if not isinstance(name, str) or name not in forms:
            here = shown(name) if isinstance(name, str) else "whose name is %s" % shown(name)
            meant = near(name, forms) or "; there is %s" % ", ".join(forms)
            self.fault((*path, index), "there is no %s %s%s" % (what.split()[-1], here, meant))
        return name

    def counted(self, value, path, before, least, form):
        """The items after the name: as many as the form has, of which those after the least may be absent."""
        names = form.split(",") if form else []
        here = len(value) - before
        stand = 'here %s %s after "%s"' % ("stands" if here == 1 else "stand", count_of(here, "item"), value[before - 1])
        whole = "[%s]" % ",".join([self.head(value, before), *names])
        if here < least:
            self.fault(path, "the form is %s, and %s: %s is missing" % (whole, stand, names[here]))
        if here > len(names):
            last = names[-1] if names else "the name"
            self.fault((*path, before + len(names)), "the form is %s, and %s: nothing follows %s" % (whole, stand, last))

    def head(self, value, before):
        return '"%s"' % value[before - 1]

    # ---- the outer object

    def keys(self, value, path, known, what):
        if not isinstance(value, dict):
            self.fault(path, "%s is an object, but found %s" % (what, shown(value)))
        for key in value:
            if key not in known:
                why = "unknown key %s in %s; known keys are %s" % (shown(key), what, quoted(known))
                self.fault((*path, Key(key)), why + near(key, known))

    def limits(self, outer):
        if "limits" not in outer:
            return dict(DEFAULTS)
        limits = outer["limits"]
        self.keys(limits, ("limits",), tuple(LIMITS), "what says the limits")
        for key, value in limits.items():
            self.number(value, ("limits", key), "the limit %s" % key, *LIMITS[key])
        return {**DEFAULTS, **limits}

    def outer(self, value):
        """The list of the outer object."""
        listed, known = KINDS[self.kind][:2]
        what = CALLED[self.kind]
        self.keys(value, (), known, what)
        self.limits(value)
        self.more(value)
        if listed not in value:
            self.fault((), '%s has the key "%s", and it is missing' % (what, listed))
        self.list(value[listed], (listed,), '"%s"' % listed)
        return value[listed]

    def more(self, outer):
        """What else the outer object has."""
