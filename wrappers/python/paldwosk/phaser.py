"""A phaser for threads, and the tasks by which they take part."""
from __future__ import annotations

import ctypes
import math
import threading
import time
import weakref
from ctypes import c_int32, c_int64, c_size_t, c_uint64
from typing import Callable, Dict, Generator, Iterable, Iterator, List, Optional

from ._library import (CALLS, NOT_NOW, NOTHING, STATEMENT, TIMED_OUT, HeldTask, must, text_of,
                       within, written)
from .modes import Mode, Operator
from .refusal import Refusal

__all__ = ["Phaser", "Task"]

_MOST_TASKS = 256
_ALIGNMENT = 16

# For how many seconds the main thread waits in one call: between two of them Ctrl-C comes.
_SLICE = 0.05
_LONGEST = 1000000.0  # the same of other threads: the library takes less than 2^32 milliseconds


class Phaser:
    """A phaser without tasks. It is freed once neither it nor a task of it is used any more.

    `bound` is 1 to 65,536 phases: a signal waits while a waiting task is so many phases behind. If
    each task signals and waits, 2 adds no wait; between producers and consumers it is the length
    of the queue. `operators` are at most four, one of each accumulator. `traced` keeps a trace, in
    1 MB more. `Refusal` 70 (BadOperators) for more than four operators, 71 (BadBound), 23
    (Memory). `ValueError` for what is no operator and for a bound that is no number of 32 bits.

    >>> phaser = Phaser(operators=[Operator.GREATEST])
    >>> with phaser.make(Mode.SIG_WAIT) as task:
    ...     task.send(0, 7)
    ...     task.next()
    ...     task.look(0)
    0
    7
    """

    def __init__(self, bound: int = 2, operators: Iterable[int] = (), traced: bool = False) -> None:
        numbers = [Operator(it) for it in operators]
        memory = ctypes.create_string_buffer(CALLS["barrier_size"]() + _ALIGNMENT)
        self._at = ctypes.addressof(memory) + -ctypes.addressof(memory) % _ALIGNMENT
        self._tasks: Dict[int, HeldTask] = {}  # those that haven't left, by their numbers
        new = CALLS["barrier_new_traced" if traced else "barrier_new"]
        bound = within(bound, 0, 2**32 - 1, "a bound")
        must(new(self._at, bound, (c_int32 * len(numbers))(*numbers), len(numbers)))
        # The memory stays until the barrier is freed. At the end of the program threads may still
        # be in calls.
        weakref.finalize(self, _free, self._at, self._tasks, memory).atexit = False

    def make(self, mode: int) -> Task:
        """The first `Task`, in phase 0. `Refusal` 22 (NotNow) if it was made before;
        `ValueError` for what is no `Mode`."""
        held = HeldTask()
        must(CALLS["barrier_make"](self._at, Mode(mode), held))
        return Task(self, held)

    def missing(self) -> List[int]:
        """The numbers of the tasks that keep others waiting, the least first; none if nobody
        waits. It looks at all tasks, so it is for finding a fault.

        >>> Phaser().missing()
        []
        """
        tasks, count = (c_uint64 * _MOST_TASKS)(), c_size_t()
        must(CALLS["barrier_missing"](self._at, tasks, _MOST_TASKS, count))
        return list(tasks[:count.value])

    def trace(self) -> bytes:
        """The trace of the run so far, as bytes for `replay` or a file. It is a whole run: a task
        that is still there ends by an act that is refused, and its line of the report says so.
        `Refusal` 35 (NotKept) if the phaser isn't traced.

        >>> from paldwosk import replay
        >>> phaser = Phaser(traced=True)
        >>> with phaser.make(Mode.SIG_WAIT) as task:
        ...     task.next()
        0
        >>> replay(phaser.trace()).splitlines()[0]
        'phaser 0 phases 1'
        """
        answer, text = written("barrier_trace", self._at)
        must(answer)
        return text

    def trace_has_ended(self) -> bool:
        """Whether the trace tells only the beginning of the run: it has room for 60,000 events and
        task numbers to 4,095.

        >>> Phaser(traced=True).trace_has_ended()
        False
        """
        return bool(CALLS["barrier_trace_ended"](self._at))


def _free(at: int, tasks: Dict[int, HeldTask], memory: object) -> None:
    """Frees a barrier, whose memory has to be there until then. A call whose time was over ends
    by a leave. In a forked child all is refused, and the barrier is left."""
    if CALLS["barrier_free"](at) == NOT_NOW:
        for held in tasks.values():
            CALLS["barrier_leave"](held)
        CALLS["barrier_free"](at)


class Task:
    """What one thread has of a phaser. `Phaser.make` and `Task.join` make it.

    Others wait for it until it leaves: by `leave`, or at the end of a `with`, and not when it is
    no longer used. Each call is refused by 1 (NotRegistered) if it has left, and by 22 (NotNow) if
    another thread uses it while it waits.

    `timeout` is how many seconds a call waits at most; `None` is without end. If it isn't answered
    by then, it raises `TimeoutError`, but it goes on without its thread: a signal stands. The same
    call made again waits for its answer, and doesn't signal once more. Until then the task may
    send, look, join and leave; its other calls are refused by 22 (NotNow). In the main thread a
    KeyboardInterrupt comes within some 0.05 seconds. After it the same is so: make the call again.

    >>> with Phaser().make(Mode.SIG_WAIT) as one, one.join(Mode.SIG) as other:
    ...     other.signal()  # goes on at once
    ...     one.next()      # the other has signalled
    0
    """

    def __init__(self, phaser: Phaser, held: HeldTask) -> None:
        self._phaser, self._held = phaser, held
        # The phase that it passed last, and that of which its thread was told last. The library
        # writes the first, so an interrupt just after a call loses no answer.
        self._phase = c_uint64(2**64 - 1)
        self._told = self._phase.value
        phaser._tasks[self.number] = held

    def __enter__(self) -> Task:
        return self

    def __exit__(self, kind: object, error: object, traceback: object) -> None:
        try:
            if self.number in self._phaser._tasks:
                self.leave()
        except Refusal:
            if error is None:  # else that is told, and not that its single isn't done
                raise

    @property
    def number(self) -> int:
        """The number of the task, from 0; no other task of the phaser has it or had it."""
        number: int = self._held.number
        return number

    def join(self, mode: int) -> Task:
        """A new task, in a mode within this one's. It begins in this one's phase, and as having
        signalled if this one has. `Refusal` 11 (MoreThanParent), 14 (RegsFull) if there are 256
        tasks; `ValueError` for what is no `Mode`."""
        held = HeldTask()
        must(CALLS["barrier_join"](self._held, Mode(mode), held))
        return Task(self._phaser, held)

    def next(self, timeout: Optional[float] = None) -> int:
        """Signals, and waits until each task that signals has signalled the phase. The number
        of the phase, from 0. `TimeoutError`. `Refusal` 2 (NoSignal), 5 (AlreadySignalled)."""
        return self._pass("next", timeout, (), (self._phase,))

    def signal(self, timeout: Optional[float] = None) -> None:
        """Signals the phase, and goes on. It waits for the bound alone. `TimeoutError`.
        `Refusal` 2 (NoSignal), 5 (AlreadySignalled)."""
        self._told = self._phase.value
        self._call("signal", timeout, (), ())

    def wait(self, timeout: Optional[float] = None) -> int:
        """Waits until each task that signals has signalled the phase, this one first. The number
        of the phase, from 0. A task that only signals doesn't wait: its next phase begins.
        `TimeoutError`. `Refusal` 6 (NotSignalled).

        >>> one = Phaser().make(Mode.SIG_WAIT)
        >>> other = one.join(Mode.SIG_WAIT)
        >>> one.signal()
        >>> try:
        ...     one.wait(timeout=0.001)
        ... except TimeoutError:
        ...     other.signal()
        >>> one.wait(timeout=0.001)
        0
        """
        return self._pass("wait", timeout, (), (self._phase,))

    def single(self, run: Callable[[], object], number: int = 0,
               timeout: Optional[float] = None) -> int:
        """As `next`, and one of the tasks that propose this number calls `run` between this phase
        and the next.

        It runs once all have signalled, and the other waiting tasks are held until it returns. If
        it raises, it counts as done, and the exception goes on in its thread. In it the task may
        send, look and join. `timeout` is for the waiting, not for `run`. A task that was timed out
        or interrupted can't leave: it has to come back with the same number, and all wait for it
        if it is the one that is to run. The number of the phase, from 0. `TimeoutError`. `Refusal`
        2 (NoSignal), 4 (NoSingle), 5 (AlreadySignalled), 7 (SingleMismatch) if another number is
        proposed in this phase; `ValueError` if the number isn't 0 to 2^32 - 1.

        >>> task = Phaser().make(Mode.SINGLE)
        >>> task.single(lambda: print("all are here"))
        all are here
        0
        """
        failures: List[BaseException] = []
        statement = _statement(run, failures)
        next(statement)
        number = within(number, 0, 2**32 - 1, "a number")
        after = (STATEMENT(statement.send), None, self._phase)
        phase = self._pass("single", timeout, (number,), after)
        if failures:
            raise failures[0]
        return phase

    def _pass(self, name: str, timeout: Optional[float], before: tuple[object, ...],
              after: tuple[object, ...]) -> int:
        """Makes a call that passes a phase, unless that was done by one that was interrupted."""
        if self._told == self._phase.value:
            self._call(name, timeout, before, after)
        self._told = self._phase.value
        return self._told

    def _call(self, name: str, timeout: Optional[float], before: tuple[object, ...],
              after: tuple[object, ...]) -> None:
        """Makes a call that may wait: as a whole, or in slices. A slice that ends unanswered
        goes on by the next call."""
        if timeout is None and not _is_interruptible():
            must(CALLS["barrier_" + name](self._held, *before, *after))
            return
        call = CALLS["barrier_" + name + "_for"]
        for milliseconds in _slices(timeout):
            answer = call(self._held, *before, milliseconds, *after)
            if answer != TIMED_OUT:
                must(answer)
                return
        raise TimeoutError(text_of(TIMED_OUT))

    def send(self, index: int, value: int) -> None:
        """Sends a value to the accumulator of this index, from 0, for the phase that this task
        hasn't signalled yet. `Refusal` 2 (NoSignal), 9 (NoAccumulator); `ValueError` if the
        value isn't -2^31 to 2^31 - 1."""
        value = within(value, -2**31, 2**31 - 1, "a value")
        must(CALLS["barrier_send"](self._held, within(index, 0, 2**32 - 1, "an index"), value))

    def look(self, index: int) -> Optional[int]:
        """What the accumulator of this index holds of the phase that this task passed last.
        `None` for the least and the greatest of no values. `Refusal` 3 (NoWait), 9
        (NoAccumulator), 10 (NoPhaseYet), 36 (TooGreat)."""
        value = c_int64()
        answer = CALLS["barrier_look"](self._held, within(index, 0, 2**32 - 1, "an index"), value)
        if answer == NOTHING:
            return None
        must(answer)
        return value.value

    def leave(self) -> None:
        """No task waits for this one any more. What it has sent counts. `Refusal` 1
        (NotRegistered) if it has left before, 22 (NotNow) if it has proposed a single that
        isn't done."""
        must(CALLS["barrier_leave"](self._held))
        self._phaser._tasks.pop(self.number, None)


def _passes_of(task: Task) -> int:
    """How many phases a task has passed that began in phase 0."""
    return (task._phase.value + 1) % 2**64


def _statement(run: Callable[[], object],
               failures: List[BaseException]) -> Generator[None, None, None]:
    """What the library calls in a single, by `send`. It stands in the `try` by then: else a
    KeyboardInterrupt that came while the thread waited would be raised before it, and ctypes
    would only print it."""
    try:
        yield
        run()
    except GeneratorExit:
        return  # another task has run it
    except BaseException as failure:
        failures.append(failure)
    yield


def _is_interruptible() -> bool:
    """Whether signal handlers of Python run in this thread."""
    return threading.get_ident() == threading.main_thread().ident


def _slices(timeout: Optional[float]) -> Iterator[int]:
    """How many milliseconds each call of a wait waits, until its time is over."""
    if timeout is not None and math.isnan(timeout):
        raise ValueError("a timeout has to be a number of seconds, and is nan")
    longest = _SLICE if _is_interruptible() else _LONGEST
    end = math.inf if timeout is None else time.monotonic() + timeout
    while True:
        yield math.ceil(1000 * max(0.0, min(longest, end - time.monotonic())))
        if time.monotonic() >= end:
            return
