"""A barrier in the form of `threading.Barrier`, whose phaser decides that all have come."""
from __future__ import annotations

import queue
import threading
from threading import BrokenBarrierError
from typing import Callable, List, Optional, TypeVar

from ._library import NOT_REGISTERED, NOT_SIGNALLED
from .modes import Mode
from .phaser import _passes_of, Phaser
from .refusal import Refusal

__all__ = ["Barrier", "BrokenBarrierError"]

_Result = TypeVar("_Result")


class Barrier:
    """As `threading.Barrier`: any so many threads may meet at it, again and again.

    `parties` is 1 to 256. One of the threads calls `action` once all have come, before any of them
    goes on. `timeout` is the default of `wait`, in seconds. `ValueError` for fewer parties,
    `Refusal` 14 (RegsFull) for more.

    A thread goes on because its call of the library is answered so: docs/barrier.md says what is
    proved of that. What is decided here is only tested: which thread has which place, that a
    barrier is broken, and that it is reset. So is that an action runs between two phases of the
    library.

    It differs from `threading.Barrier` in this. A thread that comes early for the next meeting
    needn't wait until all have gone from the last one. Threads that were let go before an `abort`
    go on. While the action runs, `abort` doesn't wait for it.

    >>> barrier = Barrier(1, action=lambda: print("all are here"))
    >>> barrier.wait()
    all are here
    0
    """

    def __init__(self, parties: int, action: Optional[Callable[[], object]] = None,
                 timeout: Optional[float] = None) -> None:
        if parties < 1:
            raise ValueError("parties has to be 1 to 256, and is %d" % parties)
        self._parties, self._action, self._timeout = parties, action, timeout
        self._resetting = threading.Lock()
        self._places = _Places(parties, action)

    def __repr__(self) -> str:
        state = "broken" if self.broken else "waiters=%d/%d" % (self.n_waiting, self.parties)
        return "<%s.%s at %#x: %s>" % (__package__, type(self).__qualname__, id(self), state)

    def wait(self, timeout: Optional[float] = None) -> int:
        """Waits until as many threads have come as the barrier is for. A number from 0 to
        `parties - 1`, each once a meeting.

        `BrokenBarrierError` if the barrier is broken, or breaks or is reset meanwhile. It breaks
        if a thread has waited for more than `timeout` seconds, or if the action raises: that goes
        on in its thread. In the main thread a KeyboardInterrupt comes within some 0.05 seconds. It
        doesn't break the barrier: the thread just hasn't come.

        >>> barrier = Barrier(2)
        >>> try:
        ...     barrier.wait(timeout=0.01)
        ... except BrokenBarrierError:
        ...     print(barrier.broken)
        True
        """
        return self._places.wait(self._timeout if timeout is None else timeout)

    def abort(self) -> None:
        """Breaks the barrier: all who wait, and all who come until it is reset, get a
        `BrokenBarrierError`.

        >>> barrier = Barrier(2)
        >>> barrier.abort()
        >>> barrier.broken
        True
        """
        self._places.abort()

    def reset(self) -> None:
        """Makes the barrier as it was when it was new. All who wait get a `BrokenBarrierError`.

        >>> barrier = Barrier(2)
        >>> barrier.abort()
        >>> barrier.reset()
        >>> barrier.broken
        False
        """
        with self._resetting:
            before, after = self._places, _Places(self._parties, self._action)
            try:
                self._places = after  # first: a thread that is freed may come again at once
            finally:
                before.abort()

    @property
    def parties(self) -> int:
        """How many threads meet."""
        return self._parties

    @property
    def n_waiting(self) -> int:
        """How many threads wait now. 0 if the barrier is broken."""
        return self._places.waiting()

    @property
    def broken(self) -> bool:
        """Whether the barrier is broken."""
        return self._places.is_broken


class _Visit:
    """A thread's call of `wait`, and for which meeting at these places it has come."""

    meeting = -1


_GIVEN_UP = _Visit()  # has the place of a thread that was interrupted after it had signalled


class _Places:
    """The places of a barrier until it is reset, with a task of one phaser at each, for one
    meeting after the other.

    A thread takes a place, and its task signals: both under one lock. So of a place that a thread
    has, the task has signalled, and the phaser lets all go on when the last place is taken. A
    place that nobody has holds them, so to break it each task that has signalled leaves: its
    thread's call is refused, and nobody goes on by that.

    With an action a meeting takes two phases. In the first all come. In the second the thread at
    place 0 acts before it signals, and the others signal at once.

    An interrupt may come between any two steps. Who has a place is one item of a list, so it is
    never half taken.
    """

    def __init__(self, parties: int, action: Optional[Callable[[], object]]) -> None:
        first = Phaser().make(Mode.SIG_WAIT)
        self._tasks = [first, *(first.join(Mode.SIG_WAIT) for _ in range(parties - 1))]
        self._holders: List[Optional[_Visit]] = [None] * parties
        self._action, self._phases = action, 1 if action is None else 2
        self._lock = threading.Lock()
        # At least one for each place that can be taken.
        self._hints: queue.SimpleQueue[None] = queue.SimpleQueue()
        self.is_broken = False
        self._hint(parties)

    def _hint(self, count: int) -> None:
        for _ in range(count):
            self._hints.put(None)

    def wait(self, timeout: Optional[float]) -> int:
        me = _Visit()
        try:
            at = self._arrive(me)
            self._wait_for_all(at, timeout)
            if self._action is not None:
                self._act(at, self._action)
            self._depart(at)
            return at
        except BaseException:
            self._give_up(me)
            raise

    def _arrive(self, me: _Visit) -> int:
        """Takes a place and signals. If there are more threads than places it waits for one:
        those who have them go."""
        while True:
            self._hints.get()
            with self._lock:
                if self.is_broken:
                    raise BrokenBarrierError
                at = self._free_place()
                if at is None:
                    continue
                is_signalled = self._holders[at] is _GIVEN_UP and self._stands(at)
                me.meeting = self._meeting_of(at)
                self._holders[at] = me
                if not is_signalled:
                    self._tasks[at].signal()
                return at

    def _free_place(self) -> Optional[int]:
        """One that was given up comes first, or its signal would count for nobody."""
        if _GIVEN_UP in self._holders:
            for at, holder in enumerate(self._holders):
                if holder is _GIVEN_UP and not (self._stands(at) and self._is_acting(at)):
                    return at
        return self._holders.index(None) if None in self._holders else None

    def _stands(self, at: int) -> bool:
        """Whether a task has signalled a phase that isn't over."""
        try:
            self._tasks[at].wait(timeout=0)
        except TimeoutError:
            return True
        except Refusal as refusal:
            if refusal.answer != NOT_SIGNALLED:
                raise
        return False

    def _is_acting(self, at: int) -> bool:
        """Whether all have come, and the action isn't over as far as this task knows."""
        return _passes_of(self._tasks[at]) % self._phases == 1

    def _wait_for_all(self, at: int, timeout: Optional[float]) -> None:
        try:
            _unless_broken(lambda: self._tasks[at].wait(timeout))
        except TimeoutError:
            with self._lock:
                if _unless_broken(lambda: self._stands(at)):
                    self._break()
                    raise BrokenBarrierError from None

    def _act(self, at: int, action: Callable[[], object]) -> None:
        if at == 0:
            action()
        _unless_broken(self._tasks[at].signal)
        _unless_broken(self._tasks[at].wait)

    def _depart(self, at: int) -> None:
        self._holders[at] = None
        # One also for each place that was given up during the action: it can be taken now.
        self._hint(1 + self._holders.count(_GIVEN_UP))

    def _give_up(self, me: _Visit) -> None:
        """Gives back the place of a thread that doesn't go on, if it has one."""
        with self._lock:
            if me in self._holders and not self.is_broken:
                at = self._holders.index(me)
                stands = self._stands(at)
                self._holders[at] = _GIVEN_UP if stands or self._is_acting(at) else None
                if self._is_acting(at) and not stands:
                    self._go_without(at)
        self._hint(1)

    def _go_without(self, at: int) -> None:
        """All have come, and this thread doesn't do its part of the second phase."""
        if at == 0:
            self._break()
        else:
            self._tasks[at].signal()

    def _break(self) -> None:
        """With the lock. Place 0 comes last: the action may not be done, so that it holds the
        others."""
        self.is_broken = True
        for at in reversed(range(len(self._tasks))):
            if self._holders[at] is not None:
                self._leave(at)
        self._hint(1)

    def _leave(self, at: int) -> None:
        try:
            self._tasks[at].leave()
        except Refusal as refusal:
            if refusal.answer != NOT_REGISTERED:
                raise

    def abort(self) -> None:
        with self._lock:
            self._break()

    def waiting(self) -> int:
        """How many threads have come. Those who have been let go don't count, though they may
        be on their way out."""
        if self.is_broken:
            return 0
        now = max(map(self._meeting_of, range(len(self._tasks))))
        return sum(holder is not None and holder.meeting == now for holder in self._holders)

    def _meeting_of(self, at: int) -> int:
        return _passes_of(self._tasks[at]) // self._phases


def _unless_broken(call: Callable[[], _Result]) -> _Result:
    """What the call of a task gives. It has left if the barrier was broken."""
    try:
        return call()
    except Refusal as refusal:
        if refusal.answer != NOT_REGISTERED:
            raise
        raise BrokenBarrierError from None
