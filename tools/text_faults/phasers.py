"""A phaser of a trace, as its events leave it, and why it doesn't make one: docs/rules.md."""
from __future__ import annotations

import math
import operator
from dataclasses import dataclass, field

from .forms import count_of

# By mode, whether it can signal, wait and run singles.
CAN = {"SIG": (True, False, False), "WAIT": (False, True, False), "SIG_WAIT": (True, True, False), "SINGLE": (True, True, True)}
FOLDS = {"sum": operator.add, "least": min, "greatest": max}


def is_within(mode, other):
    return all(has or not wants for wants, has in zip(CAN[mode], CAN[other]))


def all_of(tasks):
    """Tasks by their numbers, as `tasks 1, 2 and 3`."""
    words = [str(it) for it in sorted(tasks)]
    if len(words) == 1:
        return "task " + words[0]
    if len(words) > 9:
        words = words[:8] + ["%d more" % (len(words) - 8)]
    return "tasks %s and %s" % (", ".join(words[:-1]), words[-1])


@dataclass
class Registration:
    mode: str
    waits: int = 0
    signals: int = 0
    is_live: bool = True

    @property
    def can_signal(self):
        return CAN[self.mode][0]

    @property
    def can_wait(self):
        return CAN[self.mode][1]

    @property
    def is_ahead(self):
        return self.can_signal and self.signals != self.waits

    @property
    def is_behind(self):
        return self.can_signal and self.signals == self.waits


@dataclass
class Single:
    """The single of a phase: its number, who proposed it, who claimed it, and whether it is done."""
    number: int
    proposers: set = field(default_factory=set)
    claimer: int | None = None
    is_done: bool = False


class Phaser:
    """One phaser. A reason is a pair: the refusal's number, 0 where the answer is "not yet", and why in words."""

    def __init__(self, limits, number):
        self.limits, self.number = limits, number
        self.operators, self.bound, self.enclosing, self.made_by = [], None, 0, None
        self.on, self.count, self.singles, self.values = {}, 0, {}, {}
        self.undone = {}  # the singles that are proposed and not done, by phase
        self.alive, self.levels, self.least = 0, {}, 0  # how many are on it, and how many of them signalled so many phases

    # ---- what is known

    def is_made(self):
        return self.count > 0

    def live(self):
        return {task: it for task, it in self.on.items() if it.is_live}

    def is_live(self, task):
        return task in self.on and self.on[task].is_live

    def is_closed(self, phase):
        """Whether each who is registered and can signal has signalled the phase."""
        while self.levels and self.least not in self.levels:
            self.least += 1
        return not self.levels or phase < self.least

    def owing(self, phase):
        """Who is registered, can signal, and hasn't signalled the phase."""
        return [task for task, it in self.live().items() if it.can_signal and it.signals <= phase]

    def may_claim(self, task):
        it = self.on.get(task)
        single = it and it.is_live and self.singles.get(it.waits)
        return bool(single) and task in single.proposers and single.claimer is None and self.is_closed(it.waits)

    def may_report(self, task):
        it = self.on.get(task)
        single = it and it.is_live and self.singles.get(it.waits)
        return bool(single) and single.claimer == task and not single.is_done

    def owed(self):
        """How many events the open single needs still."""
        return 2 if any(it.claimer is None for it in self.undone.values()) else min(len(self.undone), 1)

    def seen(self, task, accumulator):
        nothing = 0 if self.operators[accumulator] == "sum" else None
        return self.values.get((accumulator, self.on[task].waits - 1), nothing)

    def __str__(self):
        return "phaser %d" % self.number

    # ---- why an event isn't made

    def not_on(self, task):
        if self.is_live(task):
            return None
        if not self.is_made():
            return 1, "%s was never made" % self
        return 1, "task %d %s %s" % (task, "has left" if task in self.on else "isn't on", self)

    def full(self, live=0, owed=None):
        """The reason where the history has no room for an event, after which so many more are on it."""
        room = self.count + 1 + self.alive + live + (self.owed() if owed is None else owed)
        if room <= self.limits["history"]:
            return None
        kept = "%d events, room is kept for the %d on it to leave" % (self.count, self.alive)
        return 15, "the history of %s is full: it has %s, and the limit is %d" % (self, kept, self.limits["history"])

    def why_no_make(self, task):
        if self.is_made():
            return 22, "%s was made already" % self
        if task >= self.limits["tasks"]:
            return 17, "task %d isn't below the limit of %d tasks" % (task, self.limits["tasks"])
        return self.full(live=1)

    def why_no_reg(self, parent, child, mode):
        if not self.is_live(parent):
            return self.not_on(parent)
        if not is_within(mode, self.on[parent].mode):
            return 11, "%s isn't within %s, the mode of task %d on %s" % (mode, self.on[parent].mode, parent, self)
        if child >= self.limits["tasks"]:
            return 17, "task %d isn't below the limit of %d tasks" % (child, self.limits["tasks"])
        if child in self.on:
            return 13, "task %d was registered on %s before" % (child, self)
        if self.alive >= self.limits["regs"]:
            return 14, "%s has %d registrations, which is the limit" % (self, self.limits["regs"])
        return self.full(live=1)

    def why_no_sig(self, task, number):
        it = self.on.get(task)
        if not self.is_live(task):
            return self.not_on(task)
        if not it.can_signal:
            return 2, "task %d is on %s in mode %s, which can't signal" % (task, self, it.mode)
        if number is not None and it.mode != "SINGLE":
            return 4, "task %d is on %s in mode %s, and a single asks for SINGLE" % (task, self, it.mode)
        if it.is_ahead:
            return 5, "task %d has signalled phase %d of %s already" % (task, it.waits, self)
        single = self.singles.get(it.signals)
        if number is not None and single and single.number != number:
            return 7, "single %d stands for phase %d of %s, and task %d proposes %d" % (single.number, it.signals, self, task, number)
        return self.held_back(it) or self.full(owed=None if number is None or single else 2)

    def held_back(self, it):
        if self.bound is None or it.signals < self.bound:
            return None
        late = [task for task, other in self.live().items() if other.can_wait and other.waits + self.bound <= it.signals]
        if not late:
            return None
        why = "phase %d of %s may not be signalled yet: its bound is %d, and %s %s ended %s"
        ended = "so many turns: " + ", ".join(str(self.on[it].waits) for it in sorted(late))
        have = "has" if len(late) == 1 else "have"
        return 0, why % (it.signals, self, self.bound, all_of(late), have, ended)

    def why_no_pass(self, task):
        if not self.is_live(task):
            return self.not_on(task)
        it = self.on[task]
        if it.is_behind:
            return 6, "task %d hasn't signalled phase %d of %s itself" % (task, it.waits, self)
        if not it.can_wait:
            return self.full()
        single = self.undone.get(it.waits)
        if not self.is_closed(it.waits):
            owing = self.owing(it.waits)
            have = "hasn't" if len(owing) == 1 else "haven't"
            return 0, "phase %d of %s isn't closed: %s %s signalled it" % (it.waits, self, all_of(owing), have)
        if single and single.claimer is None:
            why = "single %d of phase %d of %s isn't claimed: %s proposed it"
            return 0, why % (single.number, it.waits, self, all_of(single.proposers))
        if single:
            why = "single %d of phase %d of %s isn't done: task %d claimed it and hasn't reported it done"
            return 0, why % (single.number, it.waits, self, single.claimer)
        return self.full()

    def why_no_send(self, task, accumulator, _value):
        if not self.is_live(task):
            return self.not_on(task)
        if not self.on[task].can_signal:
            return 2, "task %d is on %s in mode %s, which can't signal, so it can't send" % (task, self, self.on[task].mode)
        return self.no_accumulator(accumulator) or self.full()

    def why_no_look(self, task, accumulator):
        if not self.is_live(task):
            return self.not_on(task)
        if not self.on[task].can_wait:
            return 3, "task %d is on %s in mode %s, which can't wait, so it can't look" % (task, self, self.on[task].mode)
        if self.no_accumulator(accumulator):
            return self.no_accumulator(accumulator)
        if self.on[task].waits == 0:
            return 10, "task %d hasn't finished a turn on %s yet" % (task, self)
        return self.full()

    def no_accumulator(self, accumulator):
        if accumulator < len(self.operators):
            return None
        has = count_of(len(self.operators), "accumulator")
        return 9, "%s has %s, counted from 0, so none of index %d" % (self, has, accumulator)

    def why_no_drop(self, task):
        if not self.is_live(task):
            return self.not_on(task)
        owes = any(task in it.proposers for it in self.undone.values())
        return (22, "the single that task %d proposed on %s isn't done" % (task, self)) if owes else None

    # ---- what events leave

    def count_signals(self, it, change):
        """Counts a registration among those that signalled so many phases, or no more."""
        if it.can_signal:
            self.levels[it.signals] = self.levels.get(it.signals, 0) + change
            if not self.levels[it.signals]:
                del self.levels[it.signals]

    def join(self, task, it):
        self.on[task] = it
        self.alive += 1
        self.count_signals(it, 1)

    def make(self, task, mode, operators, bound, enclosing):
        self.operators, self.bound, self.enclosing, self.made_by = operators, bound, enclosing, task
        self.join(task, Registration(mode))

    def reg(self, parent, child, mode):
        stands = self.on[parent]
        self.join(child, Registration(mode, stands.waits, stands.signals))

    def sig(self, task, number=None):
        it = self.on[task]
        if number is not None:
            single = self.singles.setdefault(it.signals, Single(number))
            single.proposers.add(task)
            self.undone[it.signals] = single
        self.count_signals(it, -1)
        it.signals += 1
        self.count_signals(it, 1)

    def claim(self, task):
        self.singles[self.on[task].waits].claimer = task

    def did(self, task):
        self.undone.pop(self.on[task].waits).is_done = True

    def pass_(self, task):
        self.on[task].waits += 1

    def send(self, task, accumulator, value):
        at, fold = (accumulator, self.on[task].signals), FOLDS[self.operators[accumulator]]
        self.values[at] = fold(self.values[at], value) if at in self.values else value

    def look(self, task, accumulator, seen):
        pass

    def drop(self, task):
        self.on[task].is_live = False
        self.alive -= 1
        self.count_signals(self.on[task], -1)


class LoggedPhaser(Phaser):
    """A phaser of a log. A task that has left may come again, and what nobody can see any more is forgotten."""

    LIMITS = {"history": math.inf, "regs": 256, "tasks": math.inf}

    def __init__(self, number):
        super().__init__(self.LIMITS, number)
        self.kept = 1000  # more phases with values or singles than these, and they are looked through

    def is_made(self):
        return True

    def why_no_claim(self, task):
        if not self.is_live(task):
            return self.not_on(task)
        return None if self.may_claim(task) else self.why_no_pass(task) or (22, "task %d has no single to claim there" % task)

    def why_no_did(self, task):
        if not self.is_live(task):
            return self.not_on(task)
        return None if self.may_report(task) else (22, "task %d has claimed no single there, or has reported it done" % task)

    def why_no_pass(self, task):
        if self.may_claim(task):
            return 22, "task %d has the single of phase %d to claim first" % (task, self.on[task].waits)
        return super().why_no_pass(task)

    def why_no_look(self, task, accumulator, saw):
        reason = super().why_no_look(task, accumulator)
        if reason:
            return reason
        sees = self.seen(task, accumulator)
        words = ["nothing" if it is None else str(it) for it in (sees, saw)]
        return None if sees == saw else (22, "task %d sees %s there, and not %s" % (task, *words))

    def pass_(self, task):
        super().pass_(task)
        if len(self.values) + len(self.singles) > self.kept:
            self.forget()

    def drop(self, task):
        super().drop(task)
        del self.on[task]

    def forget(self):
        """Forgets the phases before the last turn of each task."""
        least = min(it.waits for it in self.on.values()) - 1
        self.values = {at: value for at, value in self.values.items() if at[1] >= least}
        self.singles = {phase: single for phase, single in self.singles.items() if phase >= least}
        self.kept = 1000 + 2 * (len(self.values) + len(self.singles))
