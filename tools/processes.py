"""What the scripts of this folder share: what they print, the signals that end them, and the processes that they start."""
import contextlib
import ctypes
import fcntl
import os
import signal
import sys
import time
from pathlib import Path

TOP = Path(__file__).resolve().parent.parent
PROGRAM = "phaser_run"  # what ./phaser_run runs
ENDING = (signal.SIGINT, signal.SIGTERM, signal.SIGHUP)
SET_DEATH_SIGNAL, SET_SUBREAPER = 1, 36  # of prctl
LIBC = ctypes.CDLL(None)

caught = []


class Stopped(Exception):
    """A signal asks this process to end."""


def say(name, text):
    """Prints a line on standard error. One that can't be written, as after the end of a terminal, stops nothing."""
    try:
        print("%s: %s" % (name, text), file=sys.stderr, flush=True)
    except OSError:
        pass


def note(number, _frame):
    caught.append(number)


def stop_at_once(number, _frame):
    """Stops the process wherever it is. One such signal is enough."""
    for it in ENDING:
        signal.signal(it, signal.SIG_IGN)
    caught.append(number)
    raise Stopped


def catch_signals(handler=note):
    """From here on the signals that end a process go to the handler: `note` has `pause` stop. Those that the caller has
    ignored, as nohup does, stay so."""
    for number in ENDING:
        if signal.getsignal(number) is not signal.SIG_IGN:
            signal.signal(number, handler)


def pause(seconds=0.1):
    if not caught:
        time.sleep(seconds)
    if caught:
        raise Stopped


def end_by_signal():
    """Ends this process by the signal that was caught, so that its caller sees it."""
    signal.signal(caught[0], signal.SIG_DFL)
    os.kill(os.getpid(), caught[0])


def dying_with_this(number):
    """What a child calls before it starts, so that it gets the signal if this process ends, however that ends."""
    return lambda: LIBC.prctl(SET_DEATH_SIGNAL, int(number))


@contextlib.contextmanager
def turn(name, file):
    """Waits until no other build in this tree holds the file, and keeps others out."""
    with open(str(file), "w") as lock:
        is_told = False
        while True:
            try:
                fcntl.flock(lock, fcntl.LOCK_EX | fcntl.LOCK_NB)
                break
            except BlockingIOError:
                if not is_told:
                    say(name, "waiting for another build in %s to end" % TOP)
                is_told = True
                pause()
        yield


def adopt_orphans(is_wanted):
    """Whether a process whose parent has ended becomes a child of this one, if this one started its parent. Then nobody else
    waits for it: see `reap_orphans`."""
    LIBC.prctl(SET_SUBREAPER, int(is_wanted))


def reap_orphans(own):
    """Waits for each child that has ended, but for the processes of these numbers: their status is for the code that started them.

    `rt` leaves a shell that guards what it starts, and that ends with it. Without this it would stay as a zombie, for each crate
    one. One of the own that has ended hides the others until it is waited for, so this is called again and again."""
    while True:
        try:
            ended = os.waitid(os.P_ALL, 0, os.WEXITED | os.WNOHANG | os.WNOWAIT)
        except ChildProcessError:
            return
        if ended is None or ended.si_pid in own:
            return
        os.waitpid(ended.si_pid, 0)


def parent_of(process):
    """The number of the process's parent; 0 if the process is gone."""
    try:
        return int(Path("/proc", process, "stat").read_text(errors="replace").rpartition(")")[2].split()[1])
    except OSError:
        return 0


def children():
    """The processes whose parent this one is."""
    return [int(it) for it in os.listdir("/proc") if it.isdigit() and parent_of(it) == os.getpid()]


def end_all_children():
    """Kills all that this process started, and what that started, and waits until it is gone."""
    while True:
        for child in children():
            os.kill(child, signal.SIGKILL)
        try:
            os.waitpid(-1, 0)
        except ChildProcessError:
            return
