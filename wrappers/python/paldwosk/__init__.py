"""Barriers and phasers for threads, over the shared library of Paldwosk.

`Barrier` has the form of `threading.Barrier`. A `Phaser` is a barrier whose tasks may join and
leave, and whose values of a phase are folded:

>>> import threading
>>> from paldwosk import Mode, Operator, Phaser
>>> phaser = Phaser(operators=[Operator.SUM])
>>> def add(task, value):
...     with task:
...         task.send(0, value)
...         task.next()  # waits for both
...         sums.append(task.look(0))
>>> sums = []
>>> one = phaser.make(Mode.SIG_WAIT)
>>> thread = threading.Thread(target=add, args=(one.join(Mode.SIG_WAIT), 30))
>>> thread.start()
>>> add(one, 4)
>>> thread.join()
>>> sums
[34, 34]

A `Judge` is handed the events of any phasers, and says of each whether it can be. `replay` and
`check` judge a trace.

A call that waits lets other threads run Python: ctypes releases the GIL for each call. No signal
handler of Python runs during a call, so the main thread waits by calls of 0.05 seconds each:
between two of them Ctrl-C comes. Times are in seconds.

After a fork the child makes barriers of its own; calls on its parent's are refused.

The shared library is the file that the environment variable PALDWOSK_LIBRARY names. Else it stands
in this folder, in the `lib` of the installed release, or where the system's loader looks.

This package is tested, not proved.
"""
from .barrier import Barrier, BrokenBarrierError
from .judge import Judge, Totals
from .modes import Mode, Operator
from .phaser import Phaser, Task
from .refusal import Refusal
from .texts import check, events, replay

__all__ = ["Barrier", "BrokenBarrierError", "Judge", "Mode", "Operator", "Phaser", "Refusal",
           "Task", "Totals", "check", "events", "replay"]
__version__ = "0.1.0"
