#!/usr/bin/env python3
"""Answers an events file as a user might script it: `peer.py FILE` prints a line for each call.

It knows the modes SIG, WAIT and SIG_WAIT and accumulators that sum, and no singles. It keeps no
history, and so it knows no limits either: it is for files that stay within them.
"""
import json
import sys

CAN_SIGNAL = {"SIG", "SIG_WAIT"}
CAN_WAIT = {"WAIT", "SIG_WAIT"}
NEVER = float("inf")


class Task:
    """A registration: how many phases the task has signalled, and how many it has passed."""

    __slots__ = ("mode", "signals", "waits")

    def __init__(self, mode, signals, waits):
        self.mode = mode
        self.signals = signals
        self.waits = waits


class Phaser:
    """The tasks that are registered, who was ever, and what each accumulator got for each phase."""

    def __init__(self, accumulators):
        self.tasks = {}
        self.known = set()
        self.sums = [{} for _ in range(accumulators)]
        self.least = NEVER  # the fewest signals of any task that can signal
        self.behind = 0  # how many tasks stand there

    def count(self):
        """Finds the fewest signals anew."""
        signals = [task.signals for task in self.tasks.values() if task.mode in CAN_SIGNAL]
        self.least = min(signals, default=NEVER)
        self.behind = signals.count(self.least)

    def make(self, number, mode):
        if self.known:
            return "refused 22 NotNow"
        self.tasks[number] = Task(mode, 0, 0)
        self.known.add(number)
        self.count()
        return "ok"

    def reg(self, parent, number, mode):
        task = self.tasks.get(parent)
        if task is None:
            return "refused 1 NotRegistered"
        if mode != task.mode and task.mode != "SIG_WAIT":
            return "refused 11 MoreThanParent"
        if number in self.known:
            return "refused 13 RegisteredTwice"
        signals = task.signals if mode in CAN_SIGNAL else task.waits
        self.tasks[number] = Task(mode, signals, task.waits)
        self.known.add(number)
        self.count()
        return "ok"

    def sig(self, number):
        task = self.tasks.get(number)
        if task is None:
            return "refused 1 NotRegistered"
        if task.mode not in CAN_SIGNAL:
            return "refused 2 NoSignal"
        if task.signals > task.waits:
            return "refused 5 AlreadySignalled"
        task.signals += 1
        if task.signals == self.least + 1:
            self.behind -= 1
            if self.behind == 0:
                self.count()
        return "ok"

    def pass_(self, number):
        task = self.tasks.get(number)
        if task is None:
            return "refused 1 NotRegistered"
        if task.mode in CAN_SIGNAL and task.signals == task.waits:
            return "refused 6 NotSignalled"
        if task.mode in CAN_WAIT and self.least <= task.waits:
            return "not yet"
        phase = task.waits
        task.waits += 1
        if task.mode not in CAN_SIGNAL:
            task.signals = task.waits
        return "ok phase %d" % phase

    def send(self, number, accumulator, value):
        task = self.tasks.get(number)
        if task is None:
            return "refused 1 NotRegistered"
        if task.mode not in CAN_SIGNAL:
            return "refused 2 NoSignal"
        if accumulator >= len(self.sums):
            return "refused 9 NoAccumulator"
        sums = self.sums[accumulator]
        sums[task.signals] = sums.get(task.signals, 0) + value
        return "ok"

    def look(self, number, accumulator):
        task = self.tasks.get(number)
        if task is None:
            return "refused 1 NotRegistered"
        if task.mode not in CAN_WAIT:
            return "refused 3 NoWait"
        if accumulator >= len(self.sums):
            return "refused 9 NoAccumulator"
        if task.waits == 0:
            return "refused 10 NoPhaseYet"
        return "value %d" % self.sums[accumulator].get(task.waits - 1, 0)

    def drop(self, number):
        if number not in self.tasks:
            return "refused 1 NotRegistered"
        del self.tasks[number]
        self.count()
        return "ok"


def main(name):
    with open(name) as file:
        document = json.load(file)
    phaser = Phaser(len(document.get("accs", [])))
    calls = {
        "make": phaser.make,
        "reg": phaser.reg,
        "sig": phaser.sig,
        "pass": phaser.pass_,
        "send": phaser.send,
        "look": phaser.look,
        "drop": phaser.drop,
    }
    lines = [calls[call[0]](*call[1:]) for call in document["calls"]]
    sys.stdout.write("".join(line + "\n" for line in lines))


if __name__ == "__main__":
    if len(sys.argv) != 2:
        sys.exit("usage: peer.py FILE")
    main(sys.argv[1])
