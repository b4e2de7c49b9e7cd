"""What judges a whole text: a trace or an events file."""
from __future__ import annotations

import importlib
import pathlib
from typing import List, Union

from ._library import written
from .refusal import Refusal

__all__ = ["check", "events", "replay"]


def replay(trace: bytes) -> str:
    """The report of a trace's replay, line by line.

    `trace` is at most 67,108,864 bytes. If they aren't a run, `Refusal` with the line of the
    refusal, as `refused 25 NotExplained at 7`.

    >>> try:
    ...     replay(b"no trace")
    ... except Refusal as refusal:
    ...     print(refusal.answer, refusal)
    24 refused 24 BadText at 0
    """
    return _lines_of("replay", trace)


def events(file: bytes) -> str:
    """The line of each reply to the calls of an events file.

    `file` is at most 1,048,576 bytes. If they aren't such a file, `Refusal` with the line of the
    refusal.

    >>> events(b'{"accs":["sum"],"calls":[["make",0,"SIG_WAIT"],["send",0,0,1],["look",0,0]]}')
    'ok\\nok\\nrefused 10 NoPhaseYet\\n'
    """
    return _lines_of("events", file)


def check(trace: Union[str, bytes]) -> List[str]:
    """The list of lines that `phaser-check --trace FILE` prints of a trace that no run makes:
    where it is wrong, and why.

    It is empty if the trace is a run. `trace` is its text. In the lines `trace` stands for the
    file's name. `ImportError` if the checker isn't in the package, as in a checkout.

    The checker makes the events again in Python, and nothing of it is proved. What counts is
    `replay`.

    >>> made = '[1,"p",0,"make",0,"SIG_WAIT",[],null]'
    >>> check('{"version":2,"limits":{},"events":[%s,\\n[2,"t",1,"begin",["next"]]]}' % made)
    ['trace:2:1: event 2, ticket 2: task 1 begins ["next"]: task 1 was never spawned']
    """
    try:
        command = importlib.import_module(".text_faults.command", __package__)
    except ModuleNotFoundError:
        raise ImportError("paldwosk.check finds no checker: there is no folder text_faults in %s; "
                          "install the wheel or the tarball of a release, or a checkout by "
                          "`make install`" % pathlib.Path(__file__).parent) from None
    text = trace.encode() if isinstance(trace, str) else trace
    lines: List[str] = command.faults_of_trace("trace", text)
    return lines


def _lines_of(function: str, text: bytes) -> str:
    status, lines = written(function, text, len(text))
    if status:
        raise Refusal(int(lines.split()[1]), lines.decode().rstrip())
    return lines.decode()
