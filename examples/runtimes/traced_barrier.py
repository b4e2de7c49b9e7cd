"""A barrier of threading that leaves a trace of its run: write `from traced_barrier import Barrier` for
`from threading import Barrier`. The trace is written when the program ends, into the file that the environment variable
PHASER_TRACE names, else into trace.json; that of the program's second barrier has the ending .2, and so on.

Each thread keeps a list of its own: a ticket before each wait, and a ticket after it. The trace is made of these lists
when it is written. An arrival stands where its wait was begun, and a pass where it was over: so an arrival never stands
after a pass that it let go. What a trace can't tell is said on standard error, and the trace then ends in an event that a
replay refuses.

If PHASER_TRACE is fd:N, or names a pipe, or ends in .jsonl, the log is written line by line as it comes, for
`phaser_run judge`: all barriers in one log, of any length. So a run is judged while it goes on:
`mkfifo log; phaser_run judge log & PHASER_TRACE=log python3 program.py`. See _Lines.
"""
import atexit
import collections
import itertools
import json
import os
import pathlib
import re
import select
import signal
import stat
import sys
import threading
import time
import weakref

MOST_EVENTS = 65536  # on a phaser of a trace
MOST_TICKETS = 2 * MOST_EVENTS
MOST_AT_ONCE = 256  # tasks on the phaser
BOUND = 2  # of a phaser in lines: nobody is further ahead, and a judge needs less room
LIMITS = {"acts": 65536, "history": MOST_EVENTS}
START = '{"events":['  # of the text of a trace
PASSED, THREW = "passed", "threw"
MADE, GONE = "made", "gone"  # of lines alone
MOST_WAITING = 65536  # entries of a log by lines that aren't written yet
PIECE = 4096  # bytes that a pipe takes at once: so a line is never cut

_traced = []  # the barriers
_lock = threading.RLock()  # one writes at a time; a signal may come while its own thread writes
_process = None  # that made the first barrier; one that it forks off writes nothing
_lines = None  # the log by lines, if one is asked for


class Barrier(threading.Barrier):
    def __init__(self, parties, action=None, timeout=None):
        super().__init__(parties, action, timeout)
        self._tickets = itertools.count()
        self._own = threading.local()
        self._logs = []
        self._is_full = False
        with _lock:
            if _process is None:
                _prepare()
            self._told = _lines and _lines.made(self)
            if not _lines:
                _traced.append(self)

    def wait(self, timeout=None):
        log = self._log()
        self._note(log, None)
        answer = THREW
        try:
            index = super().wait(timeout)
            answer = PASSED
            return index
        finally:
            self._note(log, answer)

    def _log(self):
        """What this thread logs to."""
        if _lines:
            return None
        if not hasattr(self._own, "log"):
            self._own.log = _Log()
            with _lock:
                for log in self._logs:
                    if log.dead is None and not log.thread.is_alive():
                        log.dead = next(self._tickets)  # drawn for this alone
                        log.entries.append((log.dead, None))
                self._logs.append(self._own.log)
        return self._own.log

    def _note(self, log, answer):
        if _lines:
            _lines.draw(self._told, answer)
        elif not self._is_full:
            ticket = next(self._tickets)
            self._is_full = ticket >= MOST_TICKETS
            log.entries.append((ticket, answer))


class _Log:
    """What a thread did: tickets, each with the answer of the wait that was over then, None where it was begun. The thread
    alone adds to it; once it is dead, who sees that adds one more."""

    def __init__(self):
        self.thread = threading.current_thread()
        self.entries = []
        self.dead = None  # the ticket that was drawn when the thread was seen dead


class _Call:
    def __init__(self, log, begun):
        self.log, self.begun = log, begun
        self.over = self.answer = None  # its last ticket, and how it ended
        self.task = None


class _Task:
    def __init__(self, number):
        self.number = number
        self.arrived = self.passed = 0  # in how many phases, and how many phases
        self.turn = None  # the place of its turn under way
        self.begun = None  # when its last arrival was
        self.given_up = None  # its last wait, where that threw; it may have let others go
        self.owner = None  # the thread that came as it last


class _Trace:
    """The trace of a barrier, as far as its threads have logged it."""

    def __init__(self, barrier):
        self.events, self.on_phaser = [], 0
        self.is_false = False  # the last event is for the replay to refuse
        self.note = None  # what is to be said
        calls = self.collect(barrier)
        self.tasks = [_Task(number) for number in range(1, barrier.parties + 1)]
        self.begin()
        steps = [(call.begun, False, call) for call in calls if call.begun < self.cut]
        steps += [(call.over, True, call) for call in calls if call.answer == PASSED and call.over < self.cut]
        for _, is_over, call in sorted(steps, key=lambda step: step[:2]):
            if self.is_false or not self.has_room():
                break
            if is_over:
                self.let_go(call)
                self.move_on(call.task)
            else:
                self.arrive(call)
        if not self.is_false:
            self.end()

    def collect(self, barrier):
        """The calls. Tickets have no gaps: one that isn't here was drawn by a thread that still runs. There the trace is cut."""
        calls, tickets = [], set()
        for log in list(barrier._logs):
            call = None
            for ticket, answer in list(log.entries):
                tickets.add(ticket)
                if answer is not None:
                    call.over, call.answer = ticket, answer
                elif ticket != log.dead:
                    call = _Call(log, ticket)
                    calls.append(call)
        self.cut = next(ticket for ticket in itertools.count() if ticket not in tickets)
        self.waiting = sorted(call.log.thread.name for call in calls if call.answer is None and call.begun < self.cut)
        self.is_full = barrier._is_full
        if tickets and self.cut < max(tickets) and not self.is_full:
            self.note = "threads still ran: it tells the run up to where each of them was known"
        return calls

    def begin(self):
        self.phaser("make", 0, "SIG_WAIT", [], None)
        for task in self.tasks:
            self.act(0, "async", task.number, [[0, "SIG_WAIT"]])
            self.phaser("reg", 0, task.number, "SIG_WAIT")
            if task.number >= MOST_AT_ONCE:  # the replay has no room for it either
                self.is_false, self.note = True, "more than 255 parties"
                return
            self.events.append(["f", 0, "spawned", task.number])
        self.leave(0)

    def arrive(self, call):
        task = self.task_of(call)
        if task is None:
            self.refuse("%s came where the parties are other threads" % call.log.thread.name)
            return
        task.owner, call.task = call.log, task
        task.given_up = call if call.answer == THREW else None
        if task.given_up is None:
            if task.passed < task.arrived:  # its wait was given up, and its phase went on before it came again
                self.move_on(task)
            task.turn, task.begun = len(self.events), call.begun
            self.signal(task, "next")

    def task_of(self, call):
        """The thread's own party, or nobody's, or that of a thread which was seen dead before."""
        fits = (lambda owner: owner is call.log, lambda owner: owner is None,
                lambda owner: owner.dead is not None and owner.dead < call.begun)
        return next((task for fit in fits for task in self.tasks if fit(task.owner)), None)

    def let_go(self, call):
        """A wait was over. Those of its phase that were given up let it go too, if all had come before they were."""
        phase = call.task.passed
        came = max(task.begun for task in self.tasks if task.arrived > phase)
        late = [task for task in self.tasks if task.arrived == phase]
        if all(task.given_up and came < task.given_up.over for task in late):
            for task in late:
                if task.passed < task.arrived:
                    self.move_on(task)
                task.begun, task.given_up = task.given_up.begun, None
                self.signal(task, "signal")

    def move_on(self, task):
        if task.turn is None:
            self.act(task.number, "wait")
        self.phaser("pass", task.number)
        task.passed += 1
        task.turn = None

    def signal(self, task, act):
        self.act(task.number, act)
        self.phaser("sig", task.number)
        task.arrived += 1

    def end(self):
        """All leave. Who still waits only signalled, and so did who gave up."""
        for task in self.tasks:
            if task.turn is not None:
                self.events[task.turn] = ["t", task.number, "begin", ["signal"]]
            elif task.given_up and task.passed == task.arrived and self.has_room():
                self.signal(task, "signal")
            self.leave(task.number)
            self.events.append(["f", 0, "ended", task.number])
        self.events.append(["f", 0, "shut"])

    def refuse(self, why):
        """An event that no run makes: of a task that isn't there."""
        self.is_false, self.note = True, why
        self.act(len(self.tasks) + 1, "next")

    def has_room(self):  # for what a call does at once, and for the leaving of all
        return self.on_phaser + 3 * len(self.tasks) + 8 <= MOST_EVENTS

    def act(self, task, *act):
        self.events.append(["t", task, "begin", list(act)])

    def phaser(self, *event):
        self.events.append(["p", 0, *event])
        self.on_phaser += 1

    def leave(self, task):
        self.act(task, "end")
        self.phaser("drop", task)

    def hang(self):
        """Who waits in which phase, and who is missing there; None where that can't be told, or nobody is missing."""
        phase = min(task.arrived for task in self.tasks)
        missing = sorted({task.owner.thread.name if task.owner else "a party that no thread came as"
                          for task in self.tasks if task.arrived == phase} - set(self.waiting))
        if not self.waiting or not missing or self.is_full:
            return None
        return "in phase %d %s wait; %s didn't arrive" % (phase, ", ".join(self.waiting), ", ".join(missing))

    def write(self, name):
        with open(name, "w", encoding="utf-8") as out:
            lines = (json.dumps([ticket, *event], separators=(",", ":")) for ticket, event in enumerate(self.events, 1))
            out.write('%s\n%s],"limits":%s,"version":2}\n' % (START, ",\n".join(lines), json.dumps(LIMITS)))
        if self.is_false:
            _say(name, "the trace can't tell this, and a replay refuses it: " + self.note)
        elif self.is_full or not self.has_room():
            _say(name, "no more room: the trace ends there, with the leaving of all")
        elif self.note:
            _say(name, self.note)
        if self.hang():
            _say(name, self.hang())


class _Lines:
    """The log line by line. An entry is put into a queue: an arrival before its wait, and what came of it after. A thread of
    its own takes them out, and tells them as events. If too many wait the program waits for the reader; if the reader is
    gone it goes on without a log."""

    def __init__(self, name):
        self.entries = collections.deque()  # each with the barrier and the thread
        self.text, self.length = ['{"version":2}\n'], 14
        self.tickets, self.phasers = itertools.count(1), itertools.count()
        self.there = {}  # the barriers, by their phaser
        self.is_on, self.is_ending, self.says_who = False, False, False
        self.pieces = 0  # that were written
        try:
            number = int(name[3:]) if name.startswith("fd:") else None
            self.file = os.open(name, os.O_WRONLY | os.O_CREAT | os.O_TRUNC, 0o666) if number is None else os.dup(number)
            if number is not None and number > 2:
                os.close(number)  # else its reader wouldn't see the end of the log before that of the program
            self.is_on = True
            threading.Thread(target=self.write, name="traced_barrier", daemon=True).start()
        except (OSError, ValueError, RuntimeError) as fault:
            self.is_on = False
            _say(name, "the log can't be written: %s" % fault)
        if hasattr(os, "register_at_fork"):
            os.register_at_fork(after_in_child=self.leave)

    def leave(self):
        """A forked child logs nothing."""
        if self.is_on:
            self.is_on = False
            os.close(self.file)

    def made(self, barrier):
        told = _Told(self, next(self.phasers), barrier.parties)
        self.draw(told, MADE)
        weakref.finalize(barrier, self.entries.append, (told, None, GONE)).atexit = False
        return told

    def draw(self, told, what):
        while self.is_on and len(self.entries) >= MOST_WAITING:
            time.sleep(0.001)
        if self.is_on:
            self.entries.append((told, threading.current_thread(), what))

    def write(self):
        """What the writer does, each some milliseconds, until the end of the program, or of the log."""
        pause, why = 0.001, None
        try:
            signal.pthread_sigmask(signal.SIG_BLOCK, {signal.SIGPIPE})
        except AttributeError:
            pass  # there is no such signal
        try:
            is_last = False
            while not is_last and self.is_on:
                is_last, says_who, number = self.is_ending, self.says_who, len(self.entries)
                for _ in range(number):
                    told, thread, what = self.entries.popleft()
                    told.tell(thread, what)
                self.flush()
                if says_who:
                    self.says_who = False
                    for told in self.there.values():
                        told.say_who()
                pause = 0.001 if number else min(2 * pause, 0.016)
                if not is_last:
                    time.sleep(pause)
        except BrokenPipeError:
            why = "its reader is gone"
        except Exception as fault:  # whatever it is, the program goes on
            why = repr(fault)
        self.leave()
        self.entries.clear()
        if why:
            _say(_named(), "the log ends: " + why)

    def line(self, phaser, *event):
        line = json.dumps([next(self.tickets), "p", phaser, *event], separators=(",", ":")) + "\n"
        if self.length + len(line) > PIECE:
            self.flush()
        self.text.append(line)
        self.length += len(line)

    def flush(self):
        text, self.text, self.length = "".join(self.text).encode(), [], 0
        while text:
            try:
                text = text[os.write(self.file, text):]
                self.pieces += 1
            except BlockingIOError:
                select.select([], [self.file], [])

    def end(self, patience):
        """Has all written, unless the reader takes nothing for so many seconds."""
        self.says_who = True
        self.is_ending = True
        pieces, since = self.pieces, time.monotonic()
        while self.is_on and time.monotonic() - since < patience:
            time.sleep(0.001)
            if self.pieces != pieces:
                pieces, since = self.pieces, time.monotonic()


class _Told:
    """A barrier as its lines tell it. The writer alone uses it, once it is made."""

    def __init__(self, lines, phaser, parties):
        self.lines, self.phaser, self.parties = lines, phaser, parties
        self.tasks = []  # none where nothing more is told

    def tell(self, thread, what):
        if what == MADE:
            self.make()
        elif what == GONE:
            for task in self.tasks:
                self.line("drop", task.number)
            self.stop()
        elif self.tasks and what == THREW:
            self.stop("a wait of %s was given up or broken" % thread.name)
        elif self.tasks and what == PASSED:
            task = next(task for task in self.tasks if task.owner is thread and task.arrived > task.passed)
            self.line("pass", task.number)
            task.passed += 1
        elif self.tasks:
            self.arrive(thread)

    def make(self):
        if self.parties > MOST_AT_ONCE:
            self.stop("more than 256 parties")
            return
        self.lines.there[self.phaser] = self
        self.tasks = [_Task(number) for number in range(1, self.parties + 1)]
        for task in self.tasks:
            if task.number == 1:
                self.line("make", 1, "SIG_WAIT", [], BOUND)
            else:
                self.line("reg", 1, task.number, "SIG_WAIT")

    def arrive(self, thread):
        """The thread's own party arrives, else that of all whose turn has ended which has taken fewest turns."""
        idle = [task for task in self.tasks if task.arrived == task.passed]
        if not idle:
            self.stop("more threads than parties are at the barrier at once")
            return
        task = min(idle, key=lambda task: (task.owner is not thread, task.arrived, task.owner is not None))
        task.owner = thread
        task.arrived += 1
        self.line("sig", task.number)

    def line(self, *event):
        self.lines.line(self.phaser, *event)

    def stop(self, why=None):
        self.tasks = []
        self.lines.there.pop(self.phaser, None)
        if why:
            _say(_named(), "the log of phaser %d ends, since it can't tell this: %s" % (self.phaser, why))

    def say_who(self):
        """Says who waits in which phase, and who is missing there; nothing if nobody is."""
        phase = min(task.arrived for task in self.tasks)
        waiting = sorted(task.owner.name for task in self.tasks if task.arrived > max(phase, task.passed))
        missing = sorted(task.owner.name if task.owner else "a party that no thread came as"
                         for task in self.tasks if task.arrived == phase)
        if waiting:
            _say(_named(), "phaser %d: in phase %d %s wait; %s didn't arrive" % (
                self.phaser, phase, ", ".join(waiting), ", ".join(missing)))


def _say(name, what):
    try:
        print("traced_barrier: %s: %s" % (name, what), file=sys.stderr, flush=True)
    except (AttributeError, OSError, ValueError):
        pass  # there is no standard error any more


def _named():
    return os.environ.get("PHASER_TRACE", "trace.json")


def _asks_for_lines(name):
    try:
        is_pipe = stat.S_ISFIFO(os.stat(name).st_mode)
    except (OSError, ValueError):
        is_pipe = False
    return is_pipe or name.endswith(".jsonl") or re.fullmatch("fd:[0-9]+", name)


def _prepare():
    """Takes yesterday's traces away, and has today's written: once for the whole program."""
    global _process, _lines
    _process = os.getpid()
    if _asks_for_lines(_named()):
        _lines = _Lines(_named())
    else:
        _remove()
    atexit.register(_write_all)
    after = os.environ.get("PHASER_TRACE_AFTER")
    try:
        if after:
            threading.Thread(target=_write_later, args=(float(after),), daemon=True).start()
    except (ValueError, RuntimeError) as fault:
        _say(_named(), "nothing is written after the seconds of PHASER_TRACE_AFTER: %s" % fault)
    if threading.current_thread() is threading.main_thread():
        for number in (signal.SIGTERM, getattr(signal, "SIGQUIT", signal.SIGTERM)):
            if signal.getsignal(number) is signal.SIG_DFL:
                signal.signal(number, _on_signal)


def _remove():
    """Takes yesterday's traces away."""
    try:
        path = pathlib.Path(os.path.abspath(_named()))
        if path.parts[1:2] not in (("dev",), ("proc",)):
            ending = re.compile(re.escape(path.name) + r"(\.[1-9][0-9]*)?")
            for file in list(path.parent.iterdir()):
                if ending.fullmatch(file.name) and file.is_file():
                    with open(file, "rb") as old:
                        is_trace = old.read(len(START)) == START.encode()
                    if is_trace or file == path:
                        file.unlink()
    except OSError as fault:
        _say(_named(), "an old trace may be left: %s" % fault)


def _on_signal(number, frame):
    """Writes, and ends the program as the signal does."""
    _write_all(patience=2)
    signal.signal(number, signal.SIG_DFL)
    os.kill(os.getpid(), number)


def _write_later(seconds):
    time.sleep(seconds)
    if _lines:
        _lines.says_who = True
    else:
        _write_all()


def _write_all(patience=float("inf")):
    if os.getpid() != _process:
        return
    if _lines:
        _lines.end(patience)
        return
    with _lock:
        for number, barrier in enumerate(_traced, 1):
            name = _named() + (".%d" % number if number > 1 else "")
            try:
                _Trace(barrier).write(name)
            except Exception as fault:  # whatever it is, the program goes on
                _say(name, "no trace was written: %r" % fault)
