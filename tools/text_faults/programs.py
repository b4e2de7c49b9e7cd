"""The form of a program: docs/formats.md, "The program"."""
from __future__ import annotations

import re
from dataclasses import dataclass

from .forms import MOST_BOUND, MOST_PAIRS, WORD, Fault, Form, shown

# By act, how many items have to follow the name, and which may.
ACTS = {
    "new": (3, "name,mode,[ops],b"), "async": (2, "[[name,mode],..],[acts]"), "async_all": (1, "[acts]"), "open": (0, ""),
    "shut": (0, ""), "signal": (0, ""), "wait": (0, ""), "next": (0, ""), "single": (1, "n"), "send": (3, "name,a,v"),
    "look": (2, "name,a"), "repeat": (2, "k,[acts]"),
}
FORMS = {"async": "pairs,[acts]"}  # those whose items have commas of their own
NAME = re.compile("[A-Za-z0-9_]{1,32}")
MOST_ACTS, MOST_NAMES, MOST_TIMES = 10000, 64, 1000


def unnamed(acts, known=()):
    """The acts that name a phaser which no act before names in their task, or in those that spawned it: of each the name and
    the names that are known. A task ends at the first, so what follows it in its body isn't looked at."""
    found = []
    names_in(acts, set(known), found)
    return found


def names_in(acts, known, found):
    """Adds what is found, and the names that the acts make known. Whether the task goes on after them."""
    return all(name_in(act, known, found) for act in acts if act.word != "repeat" or act.items[0])


def name_in(act, known, found):
    if act.word == "repeat":
        return names_in(act.inner, known, found)
    named = [pair[0] for pair in act.items[0]] if act.word == "async" else act.items[:1] if act.word in ("send", "look") else []
    missing = [name for name in named if name not in known]
    if missing:
        found.append((act, missing[0], sorted(known)))
        return False
    if act.word == "new":
        known.add(act.items[0])
    if act.inner is not None:
        names_in(act.inner, set(known), found)
    return True


@dataclass
class Act:
    place: int
    part: str  # as main[1].acts[0]
    path: tuple
    word: str
    items: list  # what follows the name
    inner: list | None  # the acts inside it


def written(acts):
    """The acts as a task makes them, each repeat written out."""
    for act in acts:
        if act.word == "repeat":
            for _ in range(act.items[0]):
                yield from written(act.inner)
        else:
            yield act


class Program(Form):
    kind = "program"

    def __init__(self):
        super().__init__()
        self.last, self.names, self.noted = 0, set(), []

    def read(self, value):
        """The acts of the root, or the fault of the least place. Names and lengths are noted, and the reading goes on."""
        outer = self.outer(value)
        try:
            acts = self.acts(outer, ("main",), "main")[0]
        except Fault as fault:
            self.noted.append(fault)
        if self.noted:
            raise min(self.noted, key=lambda fault: fault.place)
        return acts

    def note(self, place, path, part, why):
        self.noted.append(Fault(place, path, part, why))

    def acts(self, values, path, part, is_body=True):
        """The acts of a list, and how many they are once written out. A body may not be too long; a repeat looks itself."""
        acts, length = [], 0
        for at, value in enumerate(values):
            act, count = self.act(value, (*path, at), "%s[%d]" % (part, at))
            acts.append(act)
            if is_body and length <= MOST_ACTS < length + count:
                why = "with this act the body comes to %s acts, and at most %s may stand in one"
                self.note(act.place, act.path, act.part, why % (format(length + count, ","), format(MOST_ACTS, ",")))
            length += count
        return acts, length

    def act(self, value, path, part):
        """An act, and as how many it counts in its list."""
        self.last += 1
        place, self.place, self.part = self.last, self.last, part
        word = self.named(value, path, ACTS, "an act", '["next"]')
        self.counted(value, path, 1, ACTS[word][0], FORMS.get(word, ACTS[word][1]))
        items = value[1:]
        getattr(self, "is_" + word, self.is_plain)(items, path)
        act = Act(place, part, path, word, items, None)
        if word not in ("async", "async_all", "repeat"):
            return act, 1
        inner = items[-1]
        self.list(inner, (*path, len(items)), "[acts]")
        act.inner, length = self.acts(inner, (*path, len(items)), part + ".acts", word != "repeat")
        if word != "repeat":
            return act, 1
        if items[0] * length > MOST_ACTS:
            why = "the repeat comes to %s acts, and at most %s may stand in a body"
            self.note(place, path, part, why % (format(items[0] * length, ","), format(MOST_ACTS, ",")))
        return act, items[0] * length

    # ---- the items of each act

    def name(self, value, path):
        if not isinstance(value, str) or not NAME.fullmatch(value):
            why = "a name is 1 to 32 letters of ASCII, digits and underscores, but found %s"
            self.fault(path, why % shown(value) + (", which has %d" % len(value) if isinstance(value, str) and len(value) > 32 else ""))

    def number_name(self, value, path):
        """Numbers a name, once the whole act is of its form."""
        if value not in self.names and len(self.names) == MOST_NAMES:
            why = "%s is the 65th name, and a program has at most %d different ones" % (shown(value), MOST_NAMES)
            self.note(self.place, path, self.part, why)
            return
        self.names.add(value)

    def is_plain(self, items, path):
        pass

    def is_new(self, items, path):
        self.name(items[0], (*path, 1))
        self.mode(items[1], (*path, 2))
        self.operators(items[2], (*path, 3))
        if len(items) == 4:
            self.number(items[3], (*path, 4), "a bound", 1, MOST_BOUND)
        self.number_name(items[0], (*path, 1))

    def is_async(self, items, path):
        self.list(items[0], (*path, 1), "what follows \"async\" (the pairs)")
        for at, pair in enumerate(items[0]):
            place = (*path, 1, at)
            if not isinstance(pair, list) or len(pair) != 2:
                here = "a list of %d" % len(pair) if isinstance(pair, list) else shown(pair)
                self.fault(place, 'a child is registered by a pair, as ["p","SIG"], but found %s' % here)
            self.name(pair[0], (*place, 0))
            self.mode(pair[1], (*place, 1))
        if len(items[0]) > MOST_PAIRS:
            self.fault((*path, 1, MOST_PAIRS), "a spawn has at most %d pairs, and this is one more" % MOST_PAIRS)
        self.list(items[1], (*path, 2), "[acts]")
        for at, pair in enumerate(items[0]):
            self.number_name(pair[0], (*path, 1, at, 0))

    def is_repeat(self, items, path):
        self.number(items[0], (*path, 1), "k, how often it is made,", 0, MOST_TIMES)

    def is_single(self, items, path):
        self.number(items[0], (*path, 1), "n", 0, WORD)

    def is_send(self, items, path):
        self.name(items[0], (*path, 1))
        self.number(items[1], (*path, 2), "a", 0, 255)
        self.number(items[2], (*path, 3), "v", -2**31, 2**31 - 1)
        self.number_name(items[0], (*path, 1))

    def is_look(self, items, path):
        self.name(items[0], (*path, 1))
        self.number(items[1], (*path, 2), "a", 0, 255)
        self.number_name(items[0], (*path, 1))
