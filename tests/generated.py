"""Programs that are drawn at random: small ones, of at most some 60 tasks and some hundred events. Some of their
phasers are bounded, most of those by 1.

A program is of one of four kinds, by what its report depends on:

- numbered: the root alone spawns, makes phasers and opens finishes. So all numbers are the same in every
  order.
- alike: all tasks do. Which of them gets which number is the order's; the report but for the numbers isn't.
- alone: the same, but no phaser is handed on. So a history that is full is full in every order.
- raced: the limits are small, and singles of one phaser differ. Who is refused is the order's.
"""
import random

KINDS = ["numbered", "alike", "alone", "raced"]
SIGNALS, WAITS, SINGLES = 1, 2, 4
MODES = {"SIG": SIGNALS, "WAIT": WAITS, "SIG_WAIT": SIGNALS | WAITS, "SINGLE": SIGNALS | WAITS | SINGLES}
OPS = ["sum", "least", "greatest"]
BOUNDS = [1, 1, 1, 2, 3, 65536]
NAMES = ["p", "q", "r", "s", "t", "u"]
NOBODYS = "nobodys"  # a name that no task gives a meaning
# What a program has at most, each act counted as often as it may be made: one that is refused takes its
# number too.
MOST = {"events": 500, "tasks": 60, "phasers": 20, "finishes": 20}
DEEPEST = 4  # how deep spawns go
# Limits that no such program comes to. The defaults are larger, and take longer to set up.
AMPLE = {"acts": 1024, "finishes": 24, "history": 1024, "phasers": 24, "regs": 64, "tasks": 64}
SMALL = {  # what a small limit may be, by the kinds that have it
    "numbered": {"acts": 12, "finishes": 3, "phasers": 5, "tasks": 10},
    "alike": {"acts": 12},
    "alone": {"acts": 12, "history": 30},
    "raced": {"acts": 12, "finishes": 4, "history": 30, "phasers": 6, "regs": 6, "tasks": 12},
}
LEAST = {"history": 4}  # of the limits; of the others 1


class Held:
    """A phaser that a task is on, as far as its program shows."""

    def __init__(self, name, mode, scope, accs, ahead=False, turns=0):
        self.name, self.mode, self.scope, self.accs = name, mode, scope, accs
        self.ahead, self.turns = ahead, turns

    def can(self, what):
        return bool(MODES[self.mode] & what)

    def for_child(self, mode):
        is_ahead = self.ahead and bool(MODES[mode] & SIGNALS)
        return Held(self.name, mode, self.scope, self.accs, is_ahead, self.turns)


class Task:
    """A task while its acts are drawn: how often its body is made, how deep it stands, whether it makes and
    spawns, the phasers that it is on, and its finishes, the innermost last. Once an act is refused it is
    over."""

    def __init__(self, times, depth, makes, held, finishes):
        self.times, self.depth, self.makes, self.held, self.finishes = times, depth, makes, held, finishes
        self.over = False

    def named(self, capability=0):
        """The phasers that it can name, of those on which it can do so much."""
        return [it for it in self.held if it.name and it.can(capability or SIGNALS | WAITS)]

    def inner(self):
        """Those that it can name in a spawn: made in its innermost finish."""
        return [it for it in self.named() if it.scope is self.finishes[-1]]

    def ends_turn(self):
        for it in self.held:
            it.ahead, it.turns = False, it.turns + 1


class Writer:
    """Draws one program."""

    def __init__(self, chance, kind):
        self.chance, self.kind = chance, kind
        self.left = dict(MOST)

    def program(self):
        main = Task(1, 0, True, [], [object()])
        acts = self.beginning(main)
        acts += self.body(main, self.chance.randint(3, 20))
        limits = dict(AMPLE) if self.chance.random() < 0.9 else {}
        for name, most in SMALL[self.kind].items():
            if self.chance.random() < 0.3:
                limits[name] = self.chance.randint(LEAST.get(name, 1), most)
        return {"limits": limits, "main": acts} if limits else {"main": acts}

    # ---- what is left of what a program may have

    def takes(self, task, what, count=1):
        """Whether the program may have so many more; they are taken then."""
        if self.left[what] < task.times * count:
            return False
        self.left[what] -= task.times * count
        return True

    def goes_on(self, task, acts):
        """Whether there are events left for these acts, about one for each phaser in each."""
        return self.takes(task, "events", len(acts) * (1 + 2 * len(task.held)))

    # ---- bodies

    def beginning(self, task):
        """The first phasers of the root. Sometimes there is one in mode SINGLE, and no other in the program:
        so tasks stay on one alone, and their singles are made."""
        if self.chance.random() < 0.2:
            acts = self.new(task, "SINGLE")
            self.left["phasers"] = 0
            return acts
        return [act for _ in range(self.chance.choice([0, 1, 1, 2, 3])) for act in self.new(task)]

    def body(self, task, length):
        """The acts of a task. An act that is refused is its last; sometimes others stand after it."""
        acts = []
        while length and not task.over:
            length -= 1
            more = self.some(task)
            if not self.goes_on(task, more):
                break
            acts += more
        if task.over:
            return acts + self.chance.choice([[], [["next"]], [["signal"], ["next"]]])
        return acts + [["shut"]] * (len(task.finishes) - 1)

    def some(self, task):
        """Some acts of a task, perhaps none."""
        if self.chance.random() < 0.05:
            task.over = True
            return self.refused(task)
        ways = {self.turn: 5, self.half: 3, self.single: 5, self.send: 5, self.look: 4, self.repeat: 2}
        if task.makes:
            ways.update({self.new: 2, self.spawn: 6, self.spawn_all: 4, self.open: 1, self.shut: 2})
        way, = self.chance.choices(list(ways), list(ways.values()))
        return way(task)

    def repeat(self, task):
        """A repeat of turns and of acts between them, each time as at first."""
        count = self.chance.randint(2, 4)
        task.times *= count
        ways = [self.turn, self.send, self.look, self.single] + [self.spawn, self.scope] * task.makes
        acts = [["next"]]
        task.ends_turn()
        for _ in range(self.chance.randint(0, 3)):
            acts += self.chance.choice(ways)(task)
        enough = self.goes_on(task, acts)
        task.times //= count
        return [["repeat", count, acts]] if enough else []

    def scope(self, task):
        """A finish that is opened and shut, with phasers and tasks of its own."""
        acts = self.open(task)
        if acts:
            for way in [self.new, self.spawn, self.turn]:
                acts += way(task)
            acts += self.shut(task)
        return acts

    # ---- acts that are made

    def new(self, task, mode=None):
        if len(task.held) >= 15 or not self.takes(task, "phasers"):
            return []
        name = self.chance.choice(NAMES)
        mode = mode or self.chance.choice([*MODES, "SIG_WAIT", "SIG_WAIT", "SINGLE"])
        ops = [self.chance.choice(OPS) for _ in range(self.chance.choice([0, 1, 1, 2, 4]))]
        bound = [self.chance.choice(BOUNDS)] if self.chance.random() < 0.4 else []
        for it in task.held:
            it.name = None if it.name == name else it.name
        task.held.append(Held(name, mode, task.finishes[-1], len(ops)))
        return [["new", name, mode, ops, *bound]]

    def spawned(self, task, held):
        """The acts of a child that is on these phasers."""
        makes = self.kind != "numbered"
        child = Task(task.times, task.depth + 1, makes, held, [task.finishes[-1]])
        return self.body(child, self.chance.randint(0, 9))

    def spawn(self, task):
        if task.depth >= DEEPEST or not self.takes(task, "tasks"):
            return []
        handed = [] if self.kind == "alone" else [it for it in task.inner() if self.chance.random() < 0.8]
        children = [it.for_child(self.within(it.mode)) for it in handed]
        pairs = [[it.name, it.mode] for it in children]
        return [["async", pairs, self.spawned(task, children)]]

    def spawn_all(self, task):
        are_all = all(it.scope is task.finishes[-1] for it in task.held)
        may_hand = are_all and not (task.held and self.kind == "alone")
        if task.depth >= DEEPEST or not may_hand or not self.takes(task, "tasks"):
            return []
        return [["async_all", self.spawned(task, [it.for_child(it.mode) for it in task.held])]]

    def within(self, mode):
        """A mode of a child's, mostly its parent's."""
        ways = [it for it in MODES if MODES[it] & ~MODES[mode] == 0]
        return self.chance.choice(ways + [mode] * 4)

    def open(self, task):
        if len(task.finishes) > 4 or not self.takes(task, "finishes"):
            return []
        task.finishes.append(object())
        return [["open"]]

    def shut(self, task):
        if len(task.finishes) == 1:
            return []
        shut = task.finishes.pop()
        task.held = [it for it in task.held if it.scope is not shut]
        return [["shut"]]

    def turn(self, task):
        """A turn, as one act or as its two halves."""
        is_ahead = any(it.ahead for it in task.held)
        acts = [["next"]] if is_ahead or self.chance.random() < 0.7 else [["signal"], ["wait"]]
        task.ends_turn()
        return acts

    def half(self, task):
        """The half of a turn that comes next."""
        if any(it.ahead for it in task.held):
            task.ends_turn()
            return [["wait"]]
        for it in task.held:
            it.ahead = it.can(SIGNALS)
        return [["signal"]]

    def single(self, task):
        """A turn with a statement, where the task may propose one."""
        if len(task.held) != 1 or not task.held[0].can(SINGLES) or task.held[0].ahead:
            return []
        task.ends_turn()
        return [["single", self.number()]]

    def number(self):
        """The number of a statement: everywhere the same, so that nobody's differs, but where they may."""
        return self.chance.choice([1, 2]) if self.kind == "raced" else 7

    def value(self):
        return self.chance.choice([self.chance.randint(-9, 9), 2147483647, -2147483648])

    def send(self, task):
        ways = [it for it in task.named(SIGNALS) if it.accs]
        if not ways:
            return []
        it = self.chance.choice(ways)
        return [["send", it.name, self.chance.randrange(it.accs), self.value()]]

    def look(self, task):
        ways = [it for it in task.named(WAITS) if it.accs and it.turns]
        if not ways:
            return []
        it = self.chance.choice(ways)
        return [["look", it.name, self.chance.randrange(it.accs)]]

    # ---- acts of which the last is refused

    def refused(self, task):
        ways = [self.unnamed, self.wrong_modes, self.no_accumulator, self.twice, self.unready, self.no_finish]
        if task.makes:
            ways += [self.unfit_spawn, self.far_spawn, self.same_spawn, self.left_open, self.many_phasers]
        return self.chance.choice(ways)(task)

    def unnamed(self, task):
        spawn = [["async", [[NOBODYS, "SIG"]], [["next"]]]]
        acts = [[["send", NOBODYS, 0, 1]], [["look", NOBODYS, 0]]]
        return self.chance.choice(acts + [spawn] * (task.makes and self.takes(task, "tasks")))

    def wrong_modes(self, task):
        acts = [["look", it.name, 0] for it in task.named(SIGNALS) if not it.can(WAITS)]
        acts += [["send", it.name, 0, 1] for it in task.named(WAITS) if not it.can(SIGNALS)]
        return [self.chance.choice(acts)] if acts else self.unnamed(task)

    def no_accumulator(self, task):
        acts = [["send", it.name, it.accs, 1] for it in task.named(SIGNALS)]
        acts += [["look", it.name, 255] for it in task.named(WAITS)]
        acts += [["look", it.name, 0] for it in task.named(WAITS) if not it.turns]
        return [self.chance.choice(acts)] if acts else self.unnamed(task)

    def twice(self, task):
        return [["signal"], ["signal"]] if task.named(SIGNALS) else [["single", self.number()]]

    def unready(self, task):
        return [self.chance.choice([["wait"], ["single", self.number()]])]

    def no_finish(self, task):
        return [["shut"]] * len(task.finishes)

    def unfit_spawn(self, task):
        unfit = [(it.name, mode) for it in task.named() for mode in MODES if MODES[mode] & ~MODES[it.mode]]
        if not unfit or not self.takes(task, "tasks"):
            return self.unnamed(task)
        name, mode = self.chance.choice(unfit)
        before = [[it.name, it.mode] for it in task.inner() if it.name != name]
        return [["async", before + [[name, mode]], [["next"]]]]

    def far_spawn(self, task):
        far = [it for it in task.named() if it.scope is not task.finishes[-1]]
        if not far or not self.takes(task, "tasks"):
            return self.left_open(task)
        return [["async", [[self.chance.choice(far).name, "SIG"]], []]]

    def same_spawn(self, task):
        inner = task.inner()
        if not inner or not self.takes(task, "tasks"):
            return self.unnamed(task)
        it = self.chance.choice(inner)
        return [["async", [[it.name, it.mode]] * 2, []]]

    def left_open(self, task):
        """An end with an open finish, sometimes with a child in it that still goes on."""
        if not self.takes(task, "finishes"):
            return self.unnamed(task)
        child = [["async", [], [["next"], ["next"]]]] if self.takes(task, "tasks") else []
        return [["open"]] + child

    def many_phasers(self, task):
        if not self.takes(task, "phasers", 17):
            return self.unnamed(task)
        return [["repeat", 17, [["new", "m", self.chance.choice(list(MODES)), ["sum"]]]]]


def program_of(seed, number):
    """The program of this number under this seed, and its kind."""
    chance = random.Random("%d of %d" % (number, seed))
    kind = KINDS[number % len(KINDS)]
    return Writer(chance, kind).program(), kind


def without_numbers(report):
    """What a report says, whatever numbers phasers, tasks and finishes have: for each an entry. The root and
    its finish keep theirs, 0."""
    entries = []
    for line in report.splitlines():
        words = line.split()
        if words[0] == "phaser" and words[2] != "phases":
            entries[-1] += ", " + " ".join(words[2:])
        elif words[0] == "phaser" or words[0] in ("task", "finish") and words[1] != "0":
            entries.append(" ".join([words[0], *words[2:]]))
        else:
            entries.append(line)
    return entries
