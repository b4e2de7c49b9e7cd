"""The events of a trace, made again one by one: where one can't be made, and why. The rules are those of docs/world.md."""
from __future__ import annotations

import json
from dataclasses import dataclass, field

from .phasers import Phaser, all_of, is_within

REFUSALS = (
    "", "NotRegistered", "NoSignal", "NoWait", "NoSingle", "AlreadySignalled", "NotSignalled", "SingleMismatch",
    "OnePhaserOnly", "NoAccumulator", "NoPhaseYet", "MoreThanParent", "OutsideScope", "RegisteredTwice", "RegsFull",
    "HistoryFull", "PhasersFull", "TasksFull", "FinishesFull", "ActsFull", "FinishOpen", "NoFinish", "NotNow", "Memory",
    "BadText", "NotExplained", "SharesDiffer",
)
MOST_HELD = 16  # phasers that a task is on at once
# What an event says, by what it is of and its name; {n} is the number of its phaser, finish or task.
SAID = {
    "pmake": "task {0} makes phaser {n}", "preg": "task {0} registers task {1} on phaser {n}, in mode {2}",
    "psig": "task {0} signals phaser {n}", "pclaim": "task {0} claims the single of phaser {n}",
    "pdid": "task {0} reports the single of phaser {n} done", "ppass": "task {0} passes phaser {n}",
    "psend": "task {0} sends {2} to accumulator {1} of phaser {n}", "plook": "task {0} looks at accumulator {1} of phaser {n}",
    "pdrop": "task {0} leaves phaser {n}", "fopened": "task {0} opens finish {n}", "fspawned": "task {0} is spawned in finish {n}",
    "fended": "task {0} ends in finish {n}", "fshut": "finish {n} is shut",
}


def written(act):
    return json.dumps(act, separators=(",", ":"))


def refusal(number):
    return "%d %s" % (number, REFUSALS[number])


def said(event):
    """An event in words; it is what it is of, its number, its name, and what follows."""
    kind, number, name, *items = event
    if kind == "t":
        doing = {"begin": "begins", "refuse": "is refused", "fail": "gives up"}[name]
        what = " " + written(items[0]) if name != "fail" else ""
        return "task %d %s%s%s" % (number, doing, what, "" if name == "begin" else " by " + refusal(items[-1]))
    text = SAID[kind + name].format(*items, n=number)
    return text + (" and proposes single %d" % items[1] if name == "sig" and items[1] is not None else "")


@dataclass
class Task:
    number: int
    spawner: int = 0
    home: int = 0
    is_named: bool = False
    is_born: bool = False
    is_ended: bool = False
    acts: int = 0
    joined: list = field(default_factory=list)  # phasers, in the order in which it came to them
    opened: list = field(default_factory=list)  # finishes, the newest last
    named: list = field(default_factory=list)  # children, the newest last
    due: list = field(default_factory=list)
    entry: str = ""  # what it is about


@dataclass
class Finish:
    owner: int
    spawned: set = field(default_factory=set)
    ended: set = field(default_factory=set)
    is_shut: bool = False


class World:
    def __init__(self, limits):
        self.limits = limits
        self.phasers, self.finishes, self.tasks = {}, {0: Finish(0)}, {}
        root = self.task(0)
        root.is_named = root.is_born = True
        self.is_over = False

    # ---- what is known

    def task(self, number):
        return self.tasks.setdefault(number, Task(number))

    def phaser(self, number):
        return self.phasers.get(number) or Phaser(self.limits, number)

    def on(self, task):
        """The phasers that the task is on, in the order in which it came to them."""
        return [self.phasers[n] for n in task.joined if self.phasers[n].is_live(task.number)]

    def open_finishes(self, task):
        """Its own open finishes, the innermost first."""
        return [f for f in reversed(task.opened) if not self.finishes[f].is_shut]

    def inner(self, task):
        return (self.open_finishes(task) or [task.home])[0]

    def actor(self, event):
        """The task that makes the event: of a child that isn't spawned yet its spawner, of a shut the finish's owner."""
        kind, number, name, *items = event
        if kind == "t":
            return number
        if name == "shut":
            return self.finishes[number].owner if number in self.finishes else 0
        if name == "spawned" or name == "drop" and not self.task(items[0]).is_born:
            return self.task(items[0]).spawner
        return items[0]

    # ---- what is due

    def ending(self, task):
        due = [("p", phaser.number, "drop", task.number) for phaser in self.on(task)]
        due += [("f", f, "shut") for f in self.open_finishes(task)]
        return due + [("f", 0, "shut") if task.number == 0 else ("f", task.home, "ended", task.number)]

    def signals(self, task, number=None):
        return [("p", it.number, "sig", task.number, number) for it in self.on(task) if it.on[task.number].is_behind]

    def passes(self, task):
        return [("p", it.number, "pass", task.number) for it in self.on(task)]

    def fixed_by(self, task, act):
        """The events that an act fixes which the task begins."""
        word, *items = act
        if word == "async":
            due = [("p", n, "reg", task.number, items[0], mode) for n, mode in items[1]]
            return due + [("f", self.inner(task), "spawned", items[0])]
        if word == "shut":
            finish = self.inner(task)
            due = [("p", it.number, "drop", task.number) for it in self.on(task) if it.enclosing == finish]
            return due + [("f", finish, "shut")]
        if word == "end":
            return self.ending(task)
        signals = [] if word == "wait" else self.signals(task, items[0] if word == "single" else None)
        return signals + ([] if word == "signal" else self.passes(task))

    def fixed(self, event):
        """The events that an entry of a task's log fixes."""
        _, number, name, *items = event
        task = self.task(number)
        if name == "begin":
            return self.fixed_by(task, items[0])
        unborn = [self.task(c) for c in reversed(task.named) if not self.task(c).is_born] if name == "fail" else []
        return [("p", it.number, "drop", child.number) for child in unborn for it in self.on(child)] + self.ending(task)

    def next_event(self, task):
        if not task.due:
            return None
        event = task.due[0]
        if event[2] == "pass":
            phaser = self.phaser(event[1])
            name = "claim" if phaser.may_claim(event[3]) else "did" if phaser.may_report(event[3]) else "pass"
            return (*event[:2], name, event[3])
        return event

    # ---- why an event isn't made: a pair of a number and words, or none

    def not_idle(self, task):
        if not task.is_born:
            return 22, "task %d %s" % (task.number, "isn't spawned yet" if task.is_named else "was never spawned")
        if task.is_ended:
            return 22, "task %d has ended" % task.number
        if task.due:
            return 22, "task %d is about %s, and its next event is: %s" % (task.number, task.entry, said(self.next_event(task)))
        return None

    def why_no_act(self, task, act):
        """Why the task can't begin or make an act, by the conditions of docs/world.md in their order."""
        word, *items = act
        reasons = getattr(self, "why_no_" + word, lambda *_: None)
        return (self.not_idle(task) or self.number_used(word, items) or self.acts_full(task, word)
                or reasons(task, *items) or self.part_refuses(task, word, items))

    def number_used(self, word, items):
        if word == "new" and items[0] in self.phasers:
            return 22, "phaser %d was made already" % items[0]
        if word == "open" and items[0] in self.finishes:
            return 22, "finish %d was opened already" % items[0]
        if word == "async" and self.task(items[0]).is_named:
            return 22, "task %d was named by a spawn already" % items[0] if items[0] else "task 0 is the root"
        return None

    def acts_full(self, task, word):
        if word == "end" or task.acts < self.limits["acts"]:
            return None
        return 19, "task %d has made %d acts, which is the limit" % (task.number, task.acts)

    def part_refuses(self, task, word, items):
        """Why the phaser refuses an act that is one event."""
        if word == "new":
            return self.phaser(items[0]).why_no_make(task.number)
        if word == "send":
            return self.phaser(items[0]).why_no_send(task.number, *items[1:])
        if word == "look":
            return self.phaser(items[0]).why_no_look(task.number, items[1])
        return None

    def why_no_new(self, task, number, *_):
        if number >= self.limits["phasers"]:
            return 16, "phaser %d isn't below the limit of %d phasers" % (number, self.limits["phasers"])
        if len(self.on(task)) >= MOST_HELD:
            return 16, "task %d is on %d phasers, and more it can't be on" % (task.number, MOST_HELD)
        return None

    def why_no_open(self, _, number):
        if number < self.limits["finishes"]:
            return None
        return 18, "finish %d isn't below the limit of %d finishes" % (number, self.limits["finishes"])

    def why_no_async(self, task, child, pairs):
        if child >= self.limits["tasks"]:
            return 17, "task %d isn't below the limit of %d tasks" % (child, self.limits["tasks"])
        before = set()
        for number, mode in pairs:
            reason = self.why_no_pair(task, number, mode, before)
            if reason:
                return reason
            before.add(number)
        return None

    def why_no_pair(self, task, number, mode, before):
        phaser, inner = self.phaser(number), self.inner(task)
        if not phaser.is_live(task.number):
            return phaser.not_on(task.number)
        has = phaser.on[task.number].mode
        if not is_within(mode, has):
            return 11, "%s isn't within %s, the mode of task %d on %s" % (mode, has, task.number, phaser)
        if phaser.enclosing != inner:
            why = "%s was made in finish %d, and the innermost finish of task %d is finish %d"
            return 12, why % (phaser, phaser.enclosing, task.number, inner)
        return (13, "the spawn names %s twice" % phaser) if number in before else None

    def why_no_signal(self, task):
        ahead = [it for it in self.on(task) if it.on[task.number].is_ahead]
        if not ahead:
            return None
        return 5, "task %d has signalled phase %d of %s already" % (task.number, ahead[0].on[task.number].waits, ahead[0])

    def why_no_wait(self, task):
        behind = [it for it in self.on(task) if it.on[task.number].is_behind]
        if not behind:
            return None
        return 6, "task %d hasn't signalled phase %d of %s itself" % (task.number, behind[0].on[task.number].waits, behind[0])

    def why_no_single(self, task, _):
        on = self.on(task)
        if len(on) != 1:
            return 8, "task %d is on %d phasers, and a single asks for exactly one" % (task.number, len(on))
        mode = on[0].on[task.number].mode
        if mode != "SINGLE":
            return 4, "task %d is on %s in mode %s, and a single asks for SINGLE" % (task.number, on[0], mode)
        return self.why_no_signal(task)

    def why_no_shut(self, task):
        return None if self.open_finishes(task) else (21, "task %d has no open finish of its own" % task.number)

    def why_no_end(self, task):
        own = self.open_finishes(task)
        return (20, "task %d has finish %d open still" % (task.number, own[0])) if own else None

    def why_no_entry(self, task, name, items):
        """Why a task may not note a refusal or that it gives up."""
        number = items[-1]
        if name == "refuse":
            reason = self.why_no_act(task, items[0])
            if reason and reason[0] == number and number not in (22, 23):
                return None
            if reason is None:
                return 22, "the act isn't refused there: it would be made"
            return 22, "the act isn't refused by that there: %s" % told(reason)
        return None if self.may_fail(task, number) else (22, self.why_no_fail(task, number))

    def may_fail(self, task, number):
        event = self.next_event(task)
        if number in (7, 15):
            reason = event and self.part_of(event)
            return bool(reason) and reason[0] == number
        return number == 14 and bool(event) and event[2] == "reg" or number == 23 and not self.not_idle(task)

    def why_no_fail(self, task, number):
        if number not in (7, 14, 15, 23):
            return "a task gives up by 7, 14, 15 or 23 alone"
        event = self.next_event(task)
        if event is None or number == 23:
            return (self.not_idle(task) or (0, "task %d is idle, so there is nothing to give up" % task.number))[1]
        reason = self.part_of(event)
        return "its next event is: %s; %s" % (said(event), told(reason) if reason else "which can be made")

    def part_of(self, event):
        """What the phaser or the finish has against an event that continues an act."""
        kind, number, name, *items = event
        if kind == "p":
            phaser = self.phaser(number)
            return None if name in ("claim", "did") else getattr(phaser, "why_no_" + name)(*items)
        finish = self.finishes.get(number)
        if finish is None or finish.is_shut:
            return 22, "finish %d isn't open" % number
        if name == "spawned" and items[0] >= self.limits["tasks"]:
            return 17, "task %d isn't below the limit of %d tasks" % (items[0], self.limits["tasks"])
        going = finish.spawned - finish.ended
        if name == "shut" and going:
            have = "hasn't" if len(going) == 1 else "haven't"
            return 0, "%s, spawned in finish %d, %s ended" % (all_of(going), number, have)
        return None

    def why_not(self, event):
        """Why the event can't be made now; none where it can."""
        kind, number, name, *items = event
        task = self.task(self.actor(event))
        if kind == "t":
            return self.why_no_act(task, items[0]) if name == "begin" else self.why_no_entry(task, name, items)
        if name == "opened":
            return self.why_no_act(task, ["open", number])
        if name in ("make", "send", "look"):
            act = {"make": "new"}.get(name, name)
            return self.why_no_act(task, [act, number, *items[1:]]) or self.saw_other(number, name, items)
        expected = self.next_event(task)
        if expected == event:
            return self.part_of(event)
        if expected is None:
            return self.not_idle(task) or (22, "task %d is idle: it has begun no act of which this is an event" % task.number)
        return self.not_idle(task)

    def saw_other(self, number, name, items):
        if name != "look":
            return None
        task, accumulator, saw = items
        sees = self.phasers[number].seen(task, accumulator)
        words = ["nothing" if it is None else str(it) for it in (sees, saw)]
        return None if sees == saw else (22, "task %d sees %s there, and not %s" % (task, *words))

    # ---- what an event leaves

    def make(self, event):
        """Makes an event that can be made."""
        kind, number, name, *items = event
        task = self.task(self.actor(event))
        if kind == "t":
            self.note(task, event)
            return
        if name in ("make", "send", "look", "opened"):
            task.acts += 1
        elif name not in ("claim", "did"):
            task.due.pop(0)
        if kind == "p":
            self.step(task, number, name, items)
        else:
            self.finish_event(task, number, name, items)

    def note(self, task, event):
        name, act = event[2], event[3]
        task.due = self.fixed(event)
        task.entry = "%s" % written(act) if name == "begin" else "its end"
        task.acts += name == "begin" and act[0] != "end"
        if name == "begin" and act[0] == "async":
            child = self.task(act[1])
            child.is_named, child.spawner = True, task.number
            task.named.append(child.number)

    def step(self, task, number, name, items):
        if name == "make":
            self.phasers[number] = Phaser(self.limits, number)
            items = [*items, self.inner(task)]
        phaser = self.phasers[number]
        getattr(phaser, "pass_" if name == "pass" else name)(*items)
        phaser.count += 1
        if name in ("make", "reg"):
            self.task(items[name == "reg"]).joined.append(number)

    def finish_event(self, task, number, name, items):
        if name == "opened":
            self.finishes[number] = Finish(task.number)
            task.opened.append(number)
        elif name == "spawned":
            child = self.task(items[0])
            child.is_born, child.home = True, number
            self.finishes[number].spawned.add(items[0])
        elif name == "ended":
            self.task(items[0]).is_ended = True
            self.finishes[number].ended.add(items[0])
        else:
            self.finishes[number].is_shut = True
            if number == 0:
                self.is_over = self.task(0).is_ended = True

    def why_not_over(self):
        """Why the run hasn't ended, where all events were made."""
        going = [it for it in self.tasks.values() if it.is_born and not it.is_ended]
        able = [(it, self.next_event(it)) for it in going]
        words = ["task %d %s" % (it.number, "is idle" if event is None else "has to make: " + said(event)) for it, event in able]
        more = ["%d tasks more" % (len(words) - 6)] if len(words) > 6 else []
        return "finish 0 isn't shut, with which a run ends: " + "; ".join(words[:6] + more)


def told(reason):
    """A reason, with the refusal by which the world answers."""
    number, why = reason
    return why if number in (0, 22) else "%s (%s)" % (why, refusal(number))


def event_of(event):
    """A trace's event as the world takes it."""
    items = event.items
    if event.name == "sig" and len(items) == 1:
        items = [*items, None]
    return (event.kind, event.number, event.name, *items)


def first_fault(limits, events, seen=lambda world, place, event: None):
    """The place of the first event that can't be made, and why; none where all are, and the run has ended.

    Before each event is made it is shown to `seen`.
    """
    world, last = World(limits), None
    for place, traced in enumerate(events, 1):
        if last is not None and traced.ticket <= last:
            return place, "its ticket, %d, isn't greater than that of the event before it, %d" % (traced.ticket, last)
        event = event_of(traced)
        reason = world.why_not(event)
        if reason:
            return place, "%s: %s" % (said(event), told(reason))
        seen(world, place, event)
        world.make(event)
        last = traced.ticket
    return None if world.is_over else (len(events) + 1, world.why_not_over())
