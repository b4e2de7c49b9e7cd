"""A story as Chrome trace events: JSON that ui.perfetto.dev and chrome://tracing open.

The event at place p takes the time from p to p + 1, in microseconds. Each task and each phaser is a thread, since a
viewer gives each thread a track of its own; what is on at a time stands on the track as slices, one in the other.
"""
from __future__ import annotations

import json
from itertools import groupby

FAULTS, TASKS, PHASERS = 1, 2, 3  # the processes
NAMES = {FAULTS: "fault", TASKS: "tasks (1 us is 1 %s)", PHASERS: "phasers (1 us is 1 %s)"}
FIRST_THREAD = 10  # viewers take thread 0, and a thread with its process's number, for something else
NAME_OF_RED = "terrible"  # what chrome://tracing calls its red; Perfetto gives colours by the slices' names


text_of = json.JSONEncoder(separators=(",", ":")).encode


def closed_phases(phaser):
    """Of each closed phase where its slice begins and ends. Slices of one track may not overlap: a phase that was
    begun before the one below it was closed waits for that, and phases closed by one event share its time."""
    until = 0
    for place, group in groupby(range(len(phaser.closings)), key=phaser.closings.__getitem__):
        phases = list(group)
        for count, phase in enumerate(phases, 1):
            begun = max(phaser.begun[phase], until)
            until = place + 1 if phase == phases[-1] else round(place + count / len(phases), 3)
            yield phase, begun, until


class Export:
    """What a story says of the places of a span, as rows of a trace of Chrome's."""

    def __init__(self, story, span):
        self.story, self.span = story, span
        self.start, self.end = span.start, max(span.last, 1) + 1  # in time
        self.threads = {}  # (process, number) -> thread
        self.processes = set()  # that are named
        self.names, self.rows = [], []
        self.arrow_count = 0

    def text(self):
        """One row a line, by rising time."""
        for task in sorted(self.story.tasks.values(), key=lambda task: task.number):
            if self.span.meets(task.born, task.ended):
                self.task(task)
        for phaser in sorted(self.story.all_phasers, key=lambda phaser: (phaser.number, phaser.made)):
            if self.span.meets(phaser.made, None if phaser.live else phaser.left):
                self.phaser(phaser)
        self.arrows()
        if self.story.fault:
            self.fault()
        # where rows have one time this keeps their order: an outer slice before an inner one, and arrows after both,
        # since a viewer ties an arrow to the slice that began last
        self.rows.sort(key=lambda row: row["ts"])
        rows = ",\n".join(map(text_of, self.names + self.rows))
        about = text_of({"time": self.story.TIME, "written by": "trace_picture --perfetto"})
        return f'{{"traceEvents":[\n{rows}\n],\n"displayTimeUnit":"ns",\n"otherData":{about}}}\n'

    # ---- rows

    def name(self, kind, whose, **args):
        self.names.append({"name": kind, "cat": "__metadata", "ph": "M", "ts": 0, **whose, "args": args})

    def track(self, process, number, name):
        """The thread of a task or of a phaser, named as it is first asked for."""
        if process not in self.processes:
            self.processes.add(process)
            self.name("process_name", {"pid": process}, name=NAMES[process].replace("%s", self.story.UNIT))
            self.name("process_sort_index", {"pid": process}, sort_index=process)
        thread = self.threads[process, number] = FIRST_THREAD + len(self.threads)
        whose = {"pid": process, "tid": thread}
        self.name("thread_name", whose, name=name)
        self.name("thread_sort_index", whose, sort_index=thread)
        return process, thread

    def slice(self, track, category, name, begun, until, args, **more):
        """A slice from a time to another, or on without end (None); its part in the span is written."""
        start, end = max(begun, self.start), self.end if until is None else min(until, self.end)
        if start < end:
            name += self.span.open_words(begun, None if until is None else until - 1)
            process, thread = track
            self.rows.append({
                "name": name, "cat": category, "ph": "X", "ts": start, "dur": round(end - start, 3), "pid": process,
                "tid": thread, "args": args, **more,
            })

    def known(self, **args):
        """What isn't None of it."""
        return {key: value for key, value in args.items() if value is not None}

    def places(self, first, last):
        """From where to where something goes; without a last one it goes on."""
        return self.known(**{self.story.PLACE: first, f"last_{self.story.PLACE}": last})

    # ---- tasks

    def task(self, task):
        track = self.track(TASKS, task.number, f"task {task.number}")
        until = None if task.ended is None else task.ended + 1
        name = f"task {task.number}, {self.story.origin(task)}"
        self.slice(track, "task", name, task.born, until, self.places(task.born, task.ended))
        acts = {act.first: act for act in task.acts}
        said = {place: words for place, _, _, words in task.marks}
        for place in sorted({*acts, *said}):
            if place in acts:
                self.act(track, acts[place], said.get(place))
            else:
                self.slice(track, "event", said[place], place, place + 1, self.at(place))

    def act(self, track, act, words):
        """An act; one that is a single event says what that does."""
        named = f"async task {act.words.split()[1]}" if act.name == "async" else act.words
        args = {**self.at(act.first), **({f"last_{self.story.PLACE}": act.last} if act.last > act.first else {})}
        self.slice(track, "act", words or named, act.first, act.last + 1, args)

    def at(self, place):
        return {self.story.PLACE: place, "ticket": self.story.ticket(place)}

    # ---- phasers

    def phaser(self, phaser):
        track = self.track(PHASERS, phaser.number, f"phaser {phaser.number}")
        left = None if phaser.live else phaser.left
        accumulators = ", ".join(phaser.ops) or None
        args = {**self.places(phaser.made, left), **self.known(accumulators=accumulators, bound=phaser.bound)}
        until = None if left is None else left + 1
        self.slice(track, "phaser", f"phaser {phaser.number}", phaser.made, until, args)
        after = phaser.made
        for phase, begun, until in closed_phases(phaser):
            after = until
            if until <= self.start:
                continue
            closer = phaser.closer(phase)
            closed_by = f"task {self.story.actors[closer]} at {self.story.PLACE} {closer}"
            args = {**self.first(phaser, phase), "closed_by": closed_by, **self.values(phaser, phase)}
            self.slice(track, "phase", f"phase {phase}", begun, until, args)
        phase = len(phaser.closings)
        if phase < len(phaser.begun):  # of the phases that aren't closed the first alone: later ones would overlap
            args = {**self.first(phaser, phase), **self.values(phaser, phase)}
            self.slice(track, "phase", f"phase {phase}", max(phaser.begun[phase], after), None, args)

    def first(self, phaser, phase):
        return {f"first_{self.story.PLACE}": phaser.begun[phase]}

    def values(self, phaser, phase):
        """What each accumulator came to in a phase, up to now where it isn't closed."""
        values = enumerate(zip(phaser.ops, phaser.values(phase)))
        return {f"accumulator_{a}_{op}": "none" if value is None else value for a, (op, value) in values}

    # ---- arrows

    def arrows(self):
        """From each event that closed a phase to each pass that it let go, where both are in the span."""
        for phaser in sorted(self.story.all_phasers, key=lambda phaser: (phaser.number, phaser.made)):
            for closed, passed in phaser.let_go():
                if self.span.has(closed) and self.span.has(passed):
                    self.arrow_count += 1
                    self.arrow_end("s", closed, f"{phaser} lets go")
                    self.arrow_end("f", passed, f"{phaser} lets go", bp="e")  # to the slice there, not the next

    def arrow_end(self, end, place, name, **more):
        thread = self.threads[TASKS, self.story.actors[place]]
        self.rows.append({
            "name": name, "cat": "let go", "ph": end, "id": self.arrow_count, "ts": place, "pid": TASKS, "tid": thread,
            **more,
        })

    # ---- a fault

    def fault(self):
        """A slice on a track of its own and on that of its task, and a line across all tracks."""
        place = self.story.fault
        name = f"FAULT: {self.story.fault_words()}"
        args = {self.story.PLACE: place, "details": "; ".join(self.story.fault_details())}
        tracks = [self.track(FAULTS, 0, self.story.REFUSED)]
        thread = self.threads.get((TASKS, self.story.actors.get(place)))
        if thread is not None:
            tracks.append((TASKS, thread))
        for track in tracks:
            self.slice(track, "fault", name, place, place + 1, args, cname=NAME_OF_RED)
        process, thread = tracks[0]
        self.rows.append({
            "name": name, "cat": "fault", "ph": "i", "s": "g", "ts": place, "pid": process, "tid": thread,
        })
