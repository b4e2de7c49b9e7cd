"""A judge of the events of phasers, while a program runs; and the events that it is handed.

Each event says what a task did at a phaser. Phasers and tasks have any numbers of 64 bits. A
number may be another's once that has left or is gone.
"""
from __future__ import annotations

import threading
import weakref
from ctypes import c_void_p
from dataclasses import dataclass
from typing import NamedTuple, Optional, Sequence, Tuple

from ._library import CALLS, HeldEvent, HeldTotals, HeldWhy, must, text_of, within
from .modes import Mode, Operator
from .refusal import Refusal

__all__ = ["Claim", "Did", "Event", "EventRefusal", "Join", "Judge", "Leave", "Look", "Make",
           "Pass", "Send", "Signal", "Totals"]


@dataclass(frozen=True)
class Event:
    """What a task did at a phaser. Its kinds are `Make`, `Join`, `Signal`, `Claim`, `Did`, `Pass`,
    `Send`, `Look` and `Leave`.

    >>> Send(phaser=0, task=1, index=0, value=7)
    Send(phaser=0, task=1, index=0, value=7)
    """

    phaser: int
    task: int


@dataclass(frozen=True)
class Make(Event):
    """The task made the phaser, and was registered in `mode`. `bound` is 1 to 65,536 phases, or
    `None`."""

    mode: int
    operators: Sequence[int] = ()
    bound: Optional[int] = None


@dataclass(frozen=True)
class Join(Event):
    """The task registered `child` in `mode`."""

    child: int
    mode: int


@dataclass(frozen=True)
class Signal(Event):
    """The task signalled its phase, and proposed the single of this number, if it isn't `None`."""

    single: Optional[int] = None


@dataclass(frozen=True)
class Claim(Event):
    """The task claimed the single of its phase, to run it."""


@dataclass(frozen=True)
class Did(Event):
    """The task reported the single done that it had claimed."""


@dataclass(frozen=True)
class Pass(Event):
    """The task ended its turn: it has waited."""


@dataclass(frozen=True)
class Send(Event):
    """The task sent a value to the accumulator of this index, from 0."""

    index: int
    value: int


@dataclass(frozen=True)
class Look(Event):
    """The task looked at the accumulator of this index, and saw a value. `None` is the least or
    the greatest of no values."""

    index: int
    seen: Optional[int]


@dataclass(frozen=True)
class Leave(Event):
    """The task left the phaser, which is gone with its last task."""


class Totals(NamedTuple):
    """What a judge counted of the events that it accepted."""

    events: int
    made: int  # phasers that were made
    there: int  # phasers that are there now; of a judge that is over it says nothing
    registrations: int  # those of the makers among them
    signals: int
    passes: int
    drops: int
    sends: int
    is_over: bool  # an event was refused


class EventRefusal(Refusal):
    """An event was refused.

    If a pass or a claim had to wait, `phase` is that at which its task stands, `count` says how
    many tasks are registered, can signal, and haven't signalled it, and `tasks` has the first 16
    of them, in the order of their registration. Else they are 0, 0 and `()`.
    """

    phase: int
    count: int
    tasks: Tuple[int, ...]

    def __init__(self, answer: int, text: str, phase: int = 0, count: int = 0,
                 tasks: Tuple[int, ...] = ()) -> None:
        super().__init__(answer, text)
        self.phase, self.count, self.tasks = phase, count, tasks


class Judge:
    """Says of each event whether it can be, after those before it.

    It stores no event: its memory is that of the phasers that are there. One takes 272 bytes for
    each phase of its bound, and 18 MB if it has none: at a barrier a bound of 2 says the same as
    none. `Refusal` 23 (Memory).

    Under one lock for all events, note a pass, a look and a claim just after they are done, and
    each other event just before. Any thread may hand them over. What the library answers is
    proved; this class is tested.

    >>> judge = Judge()
    >>> judge.event(Make(phaser=0, task=0, mode=Mode.SIG_WAIT, bound=2))
    >>> judge.event(Join(phaser=0, task=0, child=1, mode=Mode.SIG_WAIT))
    >>> judge.event(Signal(phaser=0, task=0))
    >>> try:
    ...     judge.event(Pass(phaser=0, task=0))  # task 1 hasn't signalled
    ... except EventRefusal as refusal:
    ...     print(refusal.answer, refusal.phase, refusal.tasks)
    ...     print(str(refusal)[:14], str(refusal).rpartition("; ")[2])
    83 0 (1,)
    HadToWait (83) phase 0 isn't signalled by task 1: Pass(phaser=0, task=0)
    """

    def __init__(self) -> None:
        self._held, self._lock = c_void_p(), threading.Lock()
        must(CALLS["judge_new"](self._held))
        # At the end of the program threads may still be in calls.
        weakref.finalize(self, CALLS["judge_free"], self._held).atexit = False

    def event(self, event: Event) -> None:
        """Judges one event more.

        `EventRefusal` says why it can't be: by 80 (NotMade) to 86 (SawOther), or by the answer that a
        phaser gives to such a call, as 5 (AlreadySignalled). Then the judge is over, and refuses
        each event by 87 (Over). It isn't over after 70 (BadOperators) for more than four, nor
        after 23 (Memory): the event may be handed over again. `ValueError` for a number that isn't
        in its range, and for what is no `Operator`; `TypeError` for what is no event.
        """
        held, why = _held(event), HeldWhy()
        with self._lock:
            answer = CALLS["judge_event_with_owing"](self._held, held, why)
        if answer:
            raise _refusal(answer, event, why)

    def totals(self) -> Totals:
        """What it counted of the events that it accepted.

        >>> Judge().totals().events
        0
        """
        held = HeldTotals()
        with self._lock:
            must(CALLS["judge_totals"](self._held, held))
        counts = [getattr(held, name) for name in Totals._fields[:-1]]
        return Totals._make([*counts, bool(held.over)])


# Of each kind of event its number in the library, and of each field its least and its greatest.
_KINDS = {Make: 0, Join: 1, Signal: 2, Claim: 4, Did: 5, Pass: 6, Send: 7, Look: 8, Leave: 10}
_SIGNAL_AND_PROPOSE, _LOOK_AT_NOTHING = 3, 9
_BITS_32, _BITS_64 = (0, 2**32 - 1), (0, 2**64 - 1)
_RANGES = {"phaser": _BITS_64, "task": _BITS_64, "child": _BITS_64, "single": _BITS_32,
           "index": _BITS_32, "bound": (1, 65536), "value": (-2**31, 2**31 - 1),
           "seen": (-2**63, 2**63 - 1), "mode": (0, 3)}


def _refusal(answer: int, event: Event, why: HeldWhy) -> EventRefusal:
    """Why the event can't be, and for whom it had to wait."""
    tasks, owing = tuple(why.tasks[:min(why.count, len(why.tasks))]), ""
    if tasks:
        owing = "; phase %d isn't signalled by task %s" % (why.phase, ", ".join(map(str, tasks)))
    if why.count > len(tasks):
        owing += ", and by %d more" % (why.count - len(tasks))
    text = "%s%s: %r" % (text_of(answer), owing, event)
    return EventRefusal(answer, text, why.phase, why.count, tasks)


def _held(event: Event) -> HeldEvent:
    """The event as the library takes it."""
    if type(event) not in _KINDS:
        raise TypeError("an event has to be a Make to a Leave of paldwosk.judge, and is %r"
                        % (event,))
    held = HeldEvent(kind=_kind_of(event))
    for name, value in vars(event).items():
        if name in _RANGES and value is not None:
            number = within(value, *_RANGES[name], "the field " + name)
            setattr(held, "accumulator" if name == "index" else name, number)
    if isinstance(event, Make):
        operators = [Operator(it) for it in event.operators]
        held.operator_count, held.operators[:len(operators[:4])] = len(operators), operators[:4]
    return held


def _kind_of(event: Event) -> int:
    if isinstance(event, Signal) and event.single is not None:
        return _SIGNAL_AND_PROPOSE
    if isinstance(event, Look) and event.seen is None:
        return _LOOK_AT_NOTHING
    return _KINDS[type(event)]
