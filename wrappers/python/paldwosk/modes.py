"""What a task may do, and how values are folded."""
from __future__ import annotations

import enum

__all__ = ["Mode", "Operator"]


class Mode(enum.IntEnum):
    """What a task may do.

    `SIG` signals and waits for nobody. `WAIT` waits, and nobody waits for it. `SIG_WAIT` does
    both, and `SINGLE` may also run a statement alone between two phases.

    >>> Mode.SIG_WAIT.value
    2
    """

    SIG = 0
    WAIT = 1
    SIG_WAIT = 2
    SINGLE = 3


class Operator(enum.IntEnum):
    """How an accumulator folds the values of a phase: to their sum, the least or the greatest of
    them.

    >>> [it.name for it in Operator]
    ['SUM', 'LEAST', 'GREATEST']
    """

    SUM = 0
    LEAST = 1
    GREATEST = 2
