"""What the lines of a log say of each task and phaser. Its places are the numbers of lines."""
from __future__ import annotations

from collections import Counter

from .story import Story, Task

KEPT = 4096  # lines after which it is looked through what isn't drawn


class LogStory(Story):
    """A task is there from its first registration until it has left its last phaser; it may come again, and so may a
    phaser once nobody is on it. A log may be of any length: what is before the first line that is drawn is forgotten,
    but for how far each task is.
    """

    PLACE, UNIT = "line", "line"
    TIME = "1 microsecond is 1 line: the event of line n goes from n to n + 1"
    REFUSED, RANGE = "where judge refused", "--lines"

    def __init__(self, events, first, fault=None):
        self.first = first
        self.on = Counter()  # on how many phasers each task is
        super().__init__(events, fault)

    def at_start(self):
        return {}, {}

    def heading(self, span, tasks, phasers, finishes):
        events = sum(map(span.has, self.events))
        return f"lines {span.first} to {span.last}: " + self.counted(events=events, tasks=tasks, phasers=phasers)

    def origin(self, task):
        return "makes a phaser" if task.spawner is None else f"registered by task {task.spawner}"

    def fault_words(self):
        return f"refused at {self.fault}"

    def fault_details(self):
        event = self.events.get(self.fault)
        details = [event.text() if event else "this line is no event of a phaser"]
        if self.stop:
            details.append(f"from line {self.stop.place} on nothing is drawn: {self.stop.why}")
        return details

    # ---- lines

    def tell(self, event):
        super().tell(event)
        if event.place < self.first and event.place % KEPT == 0:
            self.forget()

    def forget(self):
        """Forgets what was before, but for the tasks and phasers that are there."""
        self.tasks = {number: task for number, task in self.tasks.items() if task.ended is None}
        for task in self.tasks.values():
            task.acts.clear()
            task.marks.clear()
        self.all_phasers = list(self.phasers.values())
        for phaser in self.all_phasers:
            phaser.passes.clear()
            phaser.sent = {at: values for at, values in phaser.sent.items() if at[0] >= len(phaser.closings)}
        kept = {phaser.silent for phaser in self.all_phasers}
        self.events = {place: event for place, event in self.events.items() if place in kept}
        self.actors = {place: task for place, task in self.actors.items() if place in kept}

    def task(self, number):
        """A task that is on a phaser, or makes one here."""
        task = self.tasks.get(number)
        if self.event.name == "make":
            return self.come(number)
        if task is None or task.ended is not None:
            raise self.wrong(f"task {number} is on no phaser")
        return task

    def come(self, number, spawner=None):
        task = self.tasks.setdefault(number, Task(number, self.event.place, spawner))
        task.ended = None
        return task

    def mark(self, number, shape, phaser, words):
        self.task(number).marks.append((self.event.place, shape, phaser, words))

    def step(self):
        super().step()
        name, rest = self.event.name, self.event.rest
        if name == "make":
            self.on[rest[0]] += 1
        elif name == "reg":
            self.come(rest[1], rest[0])
            self.on[rest[1]] += 1
        elif name == "drop":
            self.leave(rest[0])

    def leave(self, number):
        self.on[number] -= 1
        if not self.on[number]:
            del self.on[number]
            self.tasks[number].ended = self.event.place
        if not self.phasers[self.event.number].live:
            del self.phasers[self.event.number]
