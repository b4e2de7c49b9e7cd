"""The shared library by ctypes: where it is found, what its calls take, and what they answer."""
from __future__ import annotations

import ctypes
import operator
import os
import pathlib
from ctypes import POINTER, c_char_p, c_int32, c_int64, c_size_t, c_uint32, c_uint64, c_void_p
from typing import Any, Callable, Dict

from .refusal import Refusal

_FILE = "libpaldwosk.so.0"

# The answers that aren't told by a Refusal alone.
NOT_REGISTERED, NOT_SIGNALLED, NOT_NOW, NOTHING, TIMED_OUT, SHORT = 1, 6, 22, 34, 48, 67


class HeldTask(ctypes.Structure):
    """A paldwosk_task."""

    _fields_ = [("barrier", c_void_p), ("number", c_uint64), ("seat", c_uint32)]


class HeldEvent(ctypes.Structure):
    """A paldwosk_judged_event."""

    _fields_ = [("phaser", c_uint64), ("task", c_uint64), ("child", c_uint64), ("seen", c_int64),
                ("value", c_int32), ("single", c_uint32), ("kind", c_uint32), ("mode", c_uint32),
                ("accumulator", c_uint32), ("bound", c_uint32), ("operator_count", c_uint32),
                ("operators", c_uint32 * 4)]


class HeldTotals(ctypes.Structure):
    """A paldwosk_judged_totals."""

    _fields_ = [("events", c_uint64), ("made", c_uint64), ("there", c_uint64),
                ("registrations", c_uint64), ("signals", c_uint64), ("passes", c_uint64),
                ("drops", c_uint64), ("sends", c_uint64), ("over", c_uint32)]


class HeldWhy(ctypes.Structure):
    """A paldwosk_judged_why."""

    _fields_ = [("phase", c_uint64), ("count", c_uint64), ("tasks", c_uint64 * 16)]


STATEMENT = ctypes.CFUNCTYPE(None, c_void_p)  # what runs in a single

# Of each function what it takes. Each answers a number of 32 bits, but for those of _RESULTS.
_TASK, _PHASE, _COUNT = POINTER(HeldTask), POINTER(c_uint64), POINTER(c_size_t)
_MILLISECONDS = c_uint32
_RUN = [STATEMENT, c_void_p, _PHASE]
_MAKING = [c_void_p, c_uint32, POINTER(c_int32), c_size_t]
_FUNCTIONS: Dict[str, Any] = {
    "answer_text": [c_int32],
    "barrier_size": [],
    "barrier_new": _MAKING,
    "barrier_new_traced": _MAKING,
    "barrier_free": [c_void_p],
    "barrier_make": [c_void_p, c_int32, _TASK],
    "barrier_join": [_TASK, c_int32, _TASK],
    "barrier_next": [_TASK, _PHASE],
    "barrier_next_for": [_TASK, _MILLISECONDS, _PHASE],
    "barrier_signal": [_TASK],
    "barrier_signal_for": [_TASK, _MILLISECONDS],
    "barrier_wait": [_TASK, _PHASE],
    "barrier_wait_for": [_TASK, _MILLISECONDS, _PHASE],
    "barrier_single": [_TASK, c_uint32, *_RUN],
    "barrier_single_for": [_TASK, c_uint32, _MILLISECONDS, *_RUN],
    "barrier_send": [_TASK, c_uint32, c_int32],
    "barrier_look": [_TASK, c_uint32, POINTER(c_int64)],
    "barrier_leave": [_TASK],
    "barrier_missing": [c_void_p, _PHASE, c_size_t, _COUNT],
    "barrier_trace": [c_void_p, c_char_p, c_size_t, _COUNT],
    "barrier_trace_ended": [c_void_p],
    "replay": [c_char_p, c_size_t, c_char_p, c_size_t, _COUNT],
    "events": [c_char_p, c_size_t, c_char_p, c_size_t, _COUNT],
    "judge_new": [POINTER(c_void_p)],
    "judge_free": [POINTER(c_void_p)],
    "judge_event_with_owing": [POINTER(c_void_p), POINTER(HeldEvent), POINTER(HeldWhy)],
    "judge_totals": [POINTER(c_void_p), POINTER(HeldTotals)],
}
_RESULTS: Dict[str, Any] = {"answer_text": c_char_p, "barrier_size": c_size_t, "judge_free": None}


def _place() -> str:
    """What the loader is asked for."""
    named, here = os.environ.get("PALDWOSK_LIBRARY"), pathlib.Path(__file__).resolve()
    if named:
        return os.path.abspath(named)  # without a slash the loader would search for it
    places = [here.parent / _FILE]
    if here.parts[-5:-2] == ("share", "paldwosk", "python"):
        places.append(here.parents[4] / "lib" / _FILE)
    return next((str(it) for it in places if it.exists()), _FILE)


def _load() -> Dict[str, Callable[..., Any]]:
    place, functions = _place(), {}
    try:
        library = ctypes.CDLL(place)
        for name, arguments in _FUNCTIONS.items():
            function = functions[name] = getattr(library, "paldwosk_so_" + name)
            function.argtypes, function.restype = arguments, _RESULTS.get(name, c_int32)
    except (OSError, AttributeError) as error:
        raise ImportError("paldwosk can't use the shared library %s: %s; install a release, or "
                          "name its %s by the environment variable PALDWOSK_LIBRARY"
                          % (place, error, _FILE)) from None
    return functions


CALLS = _load()


def text_of(answer: int) -> str:
    """What an answer means, and what to do about it."""
    text: bytes = CALLS["answer_text"](answer)
    return text.decode()


def must(answer: int) -> None:
    """Raises a `Refusal`, unless the call was done."""
    if answer:
        raise Refusal(answer, text_of(answer))


def within(number: int, least: int, greatest: int, name: str) -> int:
    """The number, which ctypes would cut to its lowest bits."""
    if not least <= operator.index(number) <= greatest:
        raise ValueError("%s has to be %d to %d, and is %d" % (name, least, greatest, number))
    return number


def written(function: str, *arguments: object) -> tuple[int, bytes]:
    """The answer of a function, and what it wrote into a room that is made to fit. What is to
    be written may grow meanwhile."""
    room, count = 4096, c_size_t()
    while True:
        text = ctypes.create_string_buffer(room)
        answer: int = CALLS[function](*arguments, text, room, count)
        if answer != SHORT:
            return answer, text.raw[:count.value]
        room = count.value
