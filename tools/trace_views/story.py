"""What the events of a trace say of each task, phaser and finish."""
from __future__ import annotations

from array import array
from dataclasses import dataclass, field

from .reading import FOLDS, MODES, NoTrace


@dataclass
class Registration:
    mode: str
    phase: int = 0
    ahead: bool = False

    def signals(self):
        return self.phase + self.ahead

    def can_signal(self):
        return MODES[self.mode][0]

    def can_wait(self):
        return MODES[self.mode][1]


@dataclass
class Phaser:
    number: int
    made: int  # the place of its making
    ops: list
    bound: int | None = None
    live: dict = field(default_factory=dict)  # task -> Registration
    signalled: dict = field(default_factory=dict)  # number of signals -> how many live signallers made so many
    least: int = 0  # no live signaller made fewer signals
    silent: int | None = None  # the place from which on no live task can signal
    sent: dict = field(default_factory=dict)  # (phase, accumulator) -> values
    begun: array = field(default_factory=lambda: array("Q"))  # the place of the first signal, pass or value of each phase
    closings: array = field(default_factory=lambda: array("Q"))  # the place at which each phase was closed
    passes: list = field(default_factory=list)  # (place, phase) of each pass by a task that can wait
    left: int = 0  # the place at which the last task left it

    def __str__(self):
        return f"phaser {self.number}"

    def join(self, place, task, reg):
        self.live[task] = reg
        if reg.can_signal():
            self.count(reg.signals(), 1, place)
        elif not self.signalled and self.silent is None:
            self.silent = place

    def leave(self, place, task):
        reg = self.live.pop(task)
        if reg.can_signal():
            self.count(reg.signals(), -1, place)
        self.left = place

    def move(self, place, reg, phase, ahead):
        """Sets how far a task is."""
        before = reg.signals()
        reg.phase, reg.ahead = phase, ahead
        if reg.can_signal():
            self.count(reg.signals(), 1, place)
            self.count(before, -1, place)

    def count(self, signals, change, place):
        """Counts a signaller in or out, so that closing a phase needs no look at all tasks."""
        self.signalled[signals] = self.signalled.get(signals, 0) + change
        if not self.signalled[signals]:
            del self.signalled[signals]
        self.least = min(self.least, signals)
        self.silent = None if self.signalled else place

    def begin(self, place, phase):
        """Notes an event of a phase. Nobody is in a phase before somebody had an event of each phase below it."""
        if phase == len(self.begun):
            self.begun.append(place)

    def close(self, place):
        """Notes the phases that are closed after the event at this place."""
        while self.signalled and self.least not in self.signalled:
            self.least += 1
        below = self.least if self.signalled else len(self.begun)
        self.closings.extend([place] * (below - len(self.closings)))

    def values(self, phase):
        """What each accumulator came to in a phase."""
        return [FOLDS[op](self.sent.get((phase, a), [])) for a, op in enumerate(self.ops)]

    def closer(self, phase):
        """The place of the event that closed a phase; after the last signaller left, of its leaving."""
        closed = self.closings[phase]
        return closed if self.silent is None else min(closed, self.silent)

    def let_go(self):
        """Of each pass that had to wait for a closing: the place of the event that closed its phase, and its own."""
        for place, phase in self.passes:
            closed = self.closer(phase) if phase < len(self.closings) else place
            if self.made < closed < place:  # a phaser that is made for WAIT alone has all its phases closed
                yield closed, place


@dataclass
class Act:
    first: int
    last: int
    name: str
    words: str


@dataclass
class Task:
    number: int
    born: int
    spawner: int | None = None
    ended: int | None = None
    acts: list = field(default_factory=list)
    marks: list = field(default_factory=list)  # (place, shape, phaser, words)
    refused: tuple | None = None  # (place, number, words)


@dataclass
class Finish:
    number: int
    owner: int
    opened: int
    shut: int | None = None
    spawned: list = field(default_factory=list)  # places
    ended: list = field(default_factory=list)


SAID = {
    "sig": "signals", "claim": "claims the single of", "did": "reports the single of", "pass": "passes",
}


class Story:
    """What the events say of each task, phaser and finish.

    Without a fault, the first event that can't be told is NoTrace. With the place of one, where a replay refused,
    what can't be told from there on is left out: the events before it are a run's, and those after it anything.
    """

    PLACE, UNIT = "place", "event"  # what the numbers of events are called, and what has one
    TIME = "1 microsecond is 1 event: the event at place p, counted from 1, goes from p to p + 1"
    REFUSED, RANGE = "where a replay refused", "--from and --to"

    def __init__(self, events, fault=None):
        self.fault = fault
        self.events = {}  # by place, those that were told and those after them
        self.tasks, self.finishes = self.at_start()
        self.phasers = {}  # by number, those that are there
        self.all_phasers = []
        self.spawners = {}  # of the children that were named
        self.actors = {}  # of each place, the task that made the event
        self.told = 0  # the place of the last event that was told
        self.ticket_before = -1
        self.stop = None  # why no more was told
        self.end = 0  # the place of the last event
        try:
            for event in events:
                self.take(event)
        except NoTrace as stop:  # what is read one by one may end in what can't be read
            self.stop_at(stop)
        self.last = max(self.told, fault or 0)  # the last place that there is to draw

    def at_start(self):
        """The tasks and the finishes before the first event."""
        return {0: Task(0, 0)}, {0: Finish(0, 0, 0)}

    def take(self, event):
        self.events[event.place], self.end = event, event.place
        if self.stop is None:
            try:
                self.tell(event)
            except NoTrace as stop:
                self.stop_at(stop)

    def stop_at(self, stop):
        """Nothing is told from here on. That may not be before the fault."""
        if self.fault is None or stop.place < self.fault:
            raise stop
        self.stop, self.end = self.stop or stop, max(self.end, stop.place)

    def ticket(self, place):
        return self.events[place].ticket

    def stamp(self, place):
        """The ticket of an event, and its place where that is another number."""
        ticket = self.ticket(place)
        return f"ticket {ticket}" if ticket == place else f"ticket {ticket}, {self.PLACE} {place}"

    def counted(self, **counts):
        one = {"events": "event", "tasks": "task", "phasers": "phaser", "finishes": "finish"}
        return ", ".join(f"{n} {one[more] if n == 1 else more}" for more, n in counts.items())

    def heading(self, span, tasks, phasers, finishes):
        """What is drawn, and how many there are of each."""
        words = self.counted(events=len(self.events), tasks=tasks, phasers=phasers, finishes=finishes)
        whole = (span.first, span.last) == (1, self.last)
        return words if whole else f"places {span.first} to {span.last} of {words}"

    def origin(self, task):
        return "the root" if task.spawner is None else f"spawned by task {task.spawner}"

    def fault_words(self):
        return f"refused 25 NotExplained at {self.fault}"

    def fault_details(self):
        """What stands at the fault, and from where on nothing is told."""
        if self.fault > self.end:
            return ["the trace ends, and the run hasn't ended"]
        details = [self.events[self.fault].text()]
        if self.stop:
            details.append(f"from {self.PLACE} {self.stop.place} on nothing is drawn: {self.stop.why}")
        return details

    def tell(self, event):
        self.event = event
        actor = self.actors[event.place] = self.actor()
        if event.ticket <= self.ticket_before:
            raise self.wrong(f"ticket {event.ticket} isn't greater than the one before, {self.ticket_before}")
        if actor is not None:
            self.task(actor)  # before anything is noted: an event is told whole or not at all
        {"p": self.step, "f": self.finish_event, "t": self.entry}[event.kind]()
        self.told, self.ticket_before = event.place, event.ticket

    def actor(self):
        """The number of the task that makes the event, or None where nobody is known to."""
        kind, number, name, rest = self.event.kind, self.event.number, self.event.name, self.event.rest
        if kind == "t":
            return number
        if name == "shut":
            return self.finishes[number].owner if number in self.finishes else None
        if name == "spawned":
            return self.spawners.get(rest[0])
        if name == "drop" and rest[0] not in self.tasks:  # a child that was never spawned
            return self.spawners.get(rest[0], rest[0])
        return rest[0]

    def wrong(self, why):
        return NoTrace(self.event.place, why)

    def task(self, number):
        """A task that goes on."""
        task = self.tasks.get(number)
        if task is None or task.ended is not None:
            raise self.wrong(f"task {number} wasn't spawned" if task is None else f"task {number} has ended")
        return task

    def mark(self, number, shape, phaser, words):
        """A mark on a task's line; the act that the task is about goes on to here."""
        task = self.task(number)
        task.marks.append((self.event.place, shape, phaser, words))
        if task.acts:
            task.acts[-1].last = self.event.place

    def step(self):
        place, n, name, rest = self.event.place, self.event.number, self.event.name, self.event.rest
        if name == "make":
            if n in self.phasers:
                raise self.wrong(f"phaser {n} was made before")
            phaser = self.phasers[n] = Phaser(n, place, *rest[2:])
            self.all_phasers.append(phaser)
            phaser.join(place, rest[0], Registration(rest[1]))
            words = f"makes phaser {n}, {rest[1]}"
            self.own_act(rest[0], "make", n, words + (f", bound {phaser.bound}" if phaser.bound else ""))
            return
        phaser = self.phasers.get(n)
        if phaser is None:
            raise self.wrong(f"phaser {n} wasn't made")
        reg = phaser.live.get(rest[0])
        if reg is None:
            raise self.wrong(f"task {rest[0]} isn't registered on phaser {n}")
        steps = {"reg": self.register, "send": self.send, "look": self.look, "drop": self.drop}
        steps.get(name, self.turn)(phaser, reg)
        phaser.close(place)

    def own_act(self, number, shape, phaser, words):
        """An act that is one event."""
        task = self.task(number)
        task.acts.append(Act(self.event.place, self.event.place, shape, words))
        self.mark(number, shape, phaser, words)

    def register(self, phaser, reg):
        parent, child, mode = self.event.rest
        if child in phaser.live:
            raise self.wrong(f"task {child} is registered on phaser {phaser.number} already")
        phaser.join(self.event.place, child, Registration(mode, reg.phase, reg.ahead and MODES[mode][0]))
        self.mark(parent, "reg", phaser.number, f"registers task {child} on phaser {phaser.number}, {mode}")

    def send(self, phaser, reg):
        task, a, value = self.event.rest
        phase = reg.signals()
        phaser.sent.setdefault((phase, a), []).append(value)
        phaser.begin(self.event.place, phase)
        words = f"sends {value} to accumulator {a} of phaser {phaser.number}, phase {phase}"
        self.own_act(task, "send", phaser.number, words)

    def look(self, phaser, reg):
        task, a, seen = self.event.rest
        what = "nothing" if seen is None else seen
        words = f"sees {what} at accumulator {a} of phaser {phaser.number}, phase {reg.phase - 1}"
        self.own_act(task, "look", phaser.number, words)

    def drop(self, phaser, reg):
        task, actor = self.event.rest[0], self.actors[self.event.place]
        phaser.leave(self.event.place, task)
        whom = "leaves" if actor == task else f"takes task {task} off"
        self.mark(actor, "drop", phaser.number, f"{whom} phaser {phaser.number}")

    def turn(self, phaser, reg):
        """A signal, a claim, a report or a pass."""
        place, name, task, phase = self.event.place, self.event.name, self.event.rest[0], reg.phase
        words = f"{SAID[name]} phaser {phaser.number}, phase {phase}"
        if name == "sig":
            phaser.move(place, reg, phase, True)
            if len(self.event.rest) == 2:
                words += f", and proposes single {self.event.rest[1]}"
        if name == "pass":
            phaser.move(place, reg, phase + 1, False)
            if reg.can_wait():
                phaser.passes.append((place, phase))
        if name in ("sig", "pass"):
            phaser.begin(place, phase)
        self.mark(task, name, phaser.number, words)

    def finish_event(self):
        f, name, rest, place = self.event.number, self.event.name, self.event.rest, self.event.place
        if name == "opened":
            if f in self.finishes:
                raise self.wrong(f"finish {f} was opened before")
            self.finishes[f] = Finish(f, rest[0], place)
            self.own_act(rest[0], "opened", None, f"opens finish {f}")
            return
        finish = self.finishes.get(f)
        if finish is None or finish.shut is not None:
            raise self.wrong(f"finish {f} isn't open")
        {"spawned": self.spawned, "ended": self.ended, "shut": self.shut}[name](finish)

    def spawned(self, finish):
        child = self.event.rest[0]
        if child in self.tasks or child not in self.spawners:
            raise self.wrong(f"nobody is about to spawn task {child}")
        spawner = self.spawners[child]
        finish.spawned.append(self.event.place)
        self.mark(spawner, "spawned", None, f"spawns task {child} in finish {finish.number}")
        self.tasks[child] = Task(child, self.event.place, spawner)

    def ended(self, finish):
        number = self.event.rest[0]
        finish.ended.append(self.event.place)
        self.mark(number, "ended", None, f"ends, spawned in finish {finish.number}")
        self.tasks[number].ended = self.event.place

    def shut(self, finish):
        finish.shut = self.event.place
        self.mark(finish.owner, "shut", None, f"shuts finish {finish.number}")
        if finish.number == 0:
            self.tasks[0].ended = self.event.place

    def entry(self):
        number, name, rest, place = self.event.number, self.event.name, self.event.rest, self.event.place
        task = self.task(number)
        if name == "begin":
            act, *args = rest[0]
            if act == "async":
                self.spawners.setdefault(args[0], number)
            words = " ".join([act, *(str(arg) for arg in args[:1])])
            task.acts.append(Act(place, place, act, words))
            return
        refusal = rest[-1]
        words = f"{rest[0][0]} is refused by {refusal}" if name == "refuse" else f"gives up by {refusal}"
        task.acts.append(Act(place, place, "end", words))
        task.refused = (place, refusal, words)
