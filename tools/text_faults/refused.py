"""Which act of a program a task was refused: the acts of a trace's tasks, beside those of the program that they were given."""
from __future__ import annotations

import re
from dataclasses import dataclass

from .programs import written
from .world import refusal
from .world import written as spelled

NO_PHASER = 2**32 - 1  # what a name without a meaning stands for
AS_ACT = {"make": "new", "opened": "open", "send": "send", "look": "look"}
ALIKE = {"async": ("async", "async_all")}


class OtherProgram(Exception):
    """The trace isn't one of the program: the place of the event that shows it, and why."""

    def __init__(self, place, why):
        super().__init__(place, why)
        self.place, self.why = place, why


@dataclass
class Seat:
    """Where a task is in its body: what its names mean, and the acts that it still has to make."""
    names: dict
    acts: object
    body: tuple  # the path to it
    act: object = None  # the one that it is about


@dataclass
class Refused:
    path: tuple  # to the act, or to the body where its acts had all been made
    why: str


def act_of(event):
    """The act that an event tries, and whether it is refused; none where the event is no act."""
    kind, number, name, *items = event
    if kind == "t":
        return (items[0], name == "refuse") if name in ("begin", "refuse") else None
    if name in AS_ACT:
        return [AS_ACT[name], number, *items[1:]], False
    return None


class Follower:
    """Goes along a trace with the program, act by act, and keeps the tasks that were refused."""

    def __init__(self, acts):
        self.seats = {0: Seat({}, iter(written(acts)), ("main",))}
        self.refused = []

    def see(self, world, place, event):
        """Looks at an event before it is made."""
        tried = act_of(event)
        if event[0] == "t" and event[2] == "fail":
            following = world.next_event(world.task(event[1]))
            self.keep(event[1], event[-1], following and world.part_of(following))
        elif tried:
            self.see_act(world, place, event, *tried)

    def see_act(self, world, place, event, act, is_refused):
        task = event[1] if event[0] == "t" else event[3]
        seat = self.seats[task]
        seat.act = next(seat.acts, None)
        self.compare(place, task, seat.act, act, seat)
        if is_refused:
            self.keep(task, event[-1], world.why_no_act(world.task(task), act))
        elif act[0] == "new":
            seat.names[seat.act.items[0]] = act[1]
        elif act[0] == "async":
            self.seats[act[1]] = Seat(dict(seat.names), iter(written(seat.act.inner)), (*seat.act.path, len(seat.act.items)))

    def compare(self, place, task, wanted, act, seat):
        word = wanted.word if wanted else "end"
        if word in ALIKE.get(act[0], (act[0],)) and self.same_items(wanted, act, seat):
            return
        has = "act %d, %s" % (wanted.place, spelled([wanted.word, *wanted.items])[:80]) if wanted else "its end"
        why = "task %d tries %s, and what the program has for it there is %s"
        raise OtherProgram(place, why % (task, spelled(act)[:80], has))

    def same_items(self, wanted, act, seat):
        """Whether the items of the act are those of the program's, its names and the new numbers aside."""
        word, *items = act
        if word in ("send", "look"):
            named, *rest = wanted.items
            return items[0] == seat.names.get(named, NO_PHASER) and items[1:1 + len(rest)] == rest
        if word == "new":
            return items[1:] == [*wanted.items[1:3], wanted.items[3] if len(wanted.items) == 4 else None]
        if word == "async" and wanted.word == "async":
            return items[1] == [[seat.names.get(name, NO_PHASER), mode] for name, mode in wanted.items[0]]
        return word != "single" or items == wanted.items

    def keep(self, task, number, reason):
        seat = self.seats[task]
        why = "task %d is refused by %s" % (task, refusal(number))
        if reason:
            why += ": " + self.named(reason[1], seat)
        elif number == 23:
            why += ": it went without memory, which no trace explains"
        elif number == 14:
            why += ": registrations were at the limit when it asked"
        where = "act %d, %s" % (seat.act.place, seat.act.part) if seat.act else "at the end of this body"
        self.refused.append(Refused(seat.act.path if seat.act else seat.body, "%s: %s" % (where, why)))

    def named(self, text, seat):
        """The words with the names that phasers have in the task's acts."""
        without = ['"%s"' % it for it in self.names_in(seat.act) if it not in seat.names]
        if without and "phaser %d " % NO_PHASER in text:
            why = 'the name %s means no phaser there: the task made none of that name before, nor did who spawned it'
            return why % without[0]
        names = {}
        for name, number in seat.names.items():
            names.setdefault(number, []).append('"%s"' % name)
        return re.sub(r"\bphaser (\d+)", lambda found: found[0] + self.name_of(names.get(int(found[1]), [])), text)

    def name_of(self, names):
        return " (%s)" % ", ".join(names) if names else " (which has no name there)"

    def names_in(self, act):
        if act is None or act.word not in ("async", "send", "look"):
            return []
        return [name for name, _ in act.items[0]] if act.word == "async" else [act.items[0]]
