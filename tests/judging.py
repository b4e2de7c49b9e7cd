"""A second judge of the events of phasers, beside that of the program: written from the definitions in
crates/phase_model/specs alone, short and slow. It reads no text: an event is a list, as JSON has it."""
import collections

SIGNALS, WAITS, SINGLES = "signals", "waits", "singles"
MODES = {"SIG": {SIGNALS}, "WAIT": {WAITS}, "SIG_WAIT": {SIGNALS, WAITS}, "SINGLE": {SIGNALS, WAITS, SINGLES}}
MOST_TASKS = 256  # on a phaser at once
NO_BOUND = 65536  # by which a phaser without a bound is judged
COUNTED = {"make": "registered", "reg": "registered", "sig": "signals", "pass": "passes", "drop": "drops", "send": "sends"}


class Task:
    """A task from its registration until it leaves: what it can do, how many turns it has ended, how many phases it has
    signalled, and for which phases it has proposed and claimed a single."""

    def __init__(self, mode, waits, signals):
        self.can, self.waits, self.signals = MODES[mode], waits, signals
        self.proposed, self.claimed = set(), set()


class Phaser:
    """A phaser that is made. Each method is an event: it says whether it can happen, and then it has happened."""

    def __init__(self, maker, mode, ops, bound):
        self.ops, self.bound = ops, bound or NO_BOUND
        self.tasks = {maker: Task(mode, 0, 0)}
        self.sent = collections.defaultdict(list)  # by accumulator and phase
        self.single, self.claimed, self.done = {}, set(), set()  # by phase the number that was proposed; phases

    def who(self, can):
        return [it for it in self.tasks.values() if can in it.can]

    def is_closed(self, phase):
        return all(it.signals > phase for it in self.who(SIGNALS))

    def is_settled(self, phase):
        return phase not in self.single or phase in self.done

    def seen(self, accumulator, phase):
        values = self.sent[accumulator, phase]
        if self.ops[accumulator] == "sum":
            return sum(values)
        choose = {"least": min, "greatest": max}[self.ops[accumulator]]
        return choose(values) if values else None

    def reg(self, parent, child, mode):
        by = self.tasks.get(parent)
        if not by or child in self.tasks or not MODES[mode] <= by.can or len(self.tasks) == MOST_TASKS:
            return False
        self.tasks[child] = Task(mode, by.waits, by.signals)
        return True

    def sig(self, task, number=None):
        it = self.tasks.get(task)
        if not it or SIGNALS not in it.can or it.signals != it.waits:
            return False
        phase = it.signals
        if number is not None and (SINGLES not in it.can or self.single.get(phase, number) != number):
            return False
        if any(phase >= other.waits + self.bound for other in self.who(WAITS)):
            return False
        if number is not None:
            self.single[phase] = number
            it.proposed.add(phase)
        it.signals += 1
        return True

    def claim(self, task):
        it = self.tasks.get(task)
        if not it or it.waits not in it.proposed or not self.is_closed(it.waits) or it.waits in self.claimed:
            return False
        self.claimed.add(it.waits)
        it.claimed.add(it.waits)
        return True

    def did(self, task):
        it = self.tasks.get(task)
        if not it or it.waits not in it.claimed or it.waits in self.done:
            return False
        self.done.add(it.waits)
        return True

    def pass_(self, task):
        it = self.tasks.get(task)
        if not it or SIGNALS in it.can and it.signals != it.waits + 1:
            return False
        if WAITS in it.can and not (self.is_closed(it.waits) and self.is_settled(it.waits)):
            return False
        it.waits += 1
        return True

    def owing(self, what, task, *_):
        """For whom a pass or a claim of the task has to wait: the phase at which it stands, and the tasks that haven't signalled it, in the order
        of their registrations; None if for none."""
        it = self.tasks.get(task)
        if what not in ("pass", "claim") or not it or WAITS not in it.can or SIGNALS in it.can and it.signals != it.waits + 1:
            return None
        tasks = [name for name, other in self.tasks.items() if SIGNALS in other.can and other.signals <= it.waits]
        return (it.waits, tasks) if tasks else None

    def send(self, task, accumulator, value):
        it = self.tasks.get(task)
        if not it or SIGNALS not in it.can or accumulator >= len(self.ops):
            return False
        self.sent[accumulator, it.signals].append(value)
        return True

    def look(self, task, accumulator, saw):
        it = self.tasks.get(task)
        if not it or WAITS not in it.can or accumulator >= len(self.ops) or not it.waits:
            return False
        return self.seen(accumulator, it.waits - 1) == saw

    def drop(self, task):
        it = self.tasks.get(task)
        if not it or not all(map(self.is_settled, it.proposed)):
            return False
        del self.tasks[task]
        return True


class Judge:
    """The phasers that are there, the last ticket, and what was counted."""

    def __init__(self):
        self.phasers, self.ticket, self.counts = {}, -1, collections.Counter()

    def happens(self, phaser, what, *items):
        if what == "make":
            if phaser in self.phasers:
                return False
            self.phasers[phaser] = Phaser(*items)
            return True
        if phaser not in self.phasers or not getattr(self.phasers[phaser], "pass_" if what == "pass" else what)(*items):
            return False
        if not self.phasers[phaser].tasks:
            del self.phasers[phaser]
        return True

    def takes(self, event):
        """Whether the event can happen after those that were taken; then it is taken. Of tasks and finishes there is nothing
        to judge but the ticket."""
        ticket, of, *rest = event
        if ticket <= self.ticket or of == "p" and not self.happens(*rest):
            return False
        self.ticket = ticket
        if of == "p":
            self.counts.update(["events", rest[1], COUNTED.get(rest[1])])
        return True

    def said(self):
        """The three lines of what was judged."""
        count = self.counts
        totals = ["%s %d" % (word, count[word]) for word in ("registered", "signals", "passes", "drops", "sends")]
        return "events %d\nphasers made %d there %d\ntotals %s\n" % (
            count["events"], count["make"], len(self.phasers), " ".join(totals))


def judged(events):
    """The number of the line at which these events are refused, of which the first stands at line 2, and the three lines of what was judged
    before; None in place of the number if all can happen."""
    judge = Judge()
    for line, event in enumerate(events, 2):
        if not judge.takes(event):
            return line, judge.said()
    return None, judge.said()


def owing(events):
    """If these events are refused at a pass or a claim whose phase isn't closed: the phaser, the phase, and the tasks that haven't signalled
    it. Else None."""
    judge = Judge()
    for event in events:
        ticket, of, phaser, *rest = event if event[1] == "p" else [*event[:2], None]
        found = phaser in judge.phasers and ticket > judge.ticket and judge.phasers[phaser].owing(*rest)
        if not judge.takes(event):
            return (phaser, *found) if found else None
    return None
