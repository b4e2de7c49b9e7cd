"""The cases of tests/runtimes for Python: runtimes_programs/kinds.py on examples/runtimes/traced_barrier.py."""
import os
import pathlib
import shutil
import signal
import subprocess
import sys
import time

from running import each, gave
from runtimes_live import kinds, long_example, long_runs

KINDS = pathlib.Path(__file__).resolve().parent / "runtimes_programs/kinds.py"
SECONDS = 60  # that one run may take
AT_ONCE = 2
# Right programs whose whole run is told; right ones that are cut, so that there may be no trace; and ones that are not
# to be accepted.
WHOLE = ["short_threads", "action", "action_throws", "timeout", "abort", "reset", "reset_at_will", "no_parties"]
RUNNING = ["daemons", "leave", "half"]
UNTOLD = ["two_pools", "crowded"]
FAULTS = ["early", "twice", "impatient"]


def ran(kind, trace, *flags):
    """What a program of this kind gave."""
    return gave(SECONDS, sys.executable, KINDS, kind, *flags, env={**os.environ, "PHASER_TRACE": str(trace)})


def fault_of(told, trace, judge, may_lack=False, is_wrong=False):
    """What is wrong with a run: one that is right is accepted, one that is wrong is refused, or said to have no trace."""
    if told.status != 0:
        return "the program ended with %s: %s" % (told.status, told.err)
    if not trace.exists():
        return "" if may_lack or is_wrong and told.err else "no trace: " + told.err
    answer = judge(trace)
    if is_wrong:
        return "accepted: %s%s" % (answer.out, told.err) if answer.status != 1 else ""
    return "" if answer.status == 0 else "%s%s" % (answer.err, told.err)


def case(folder, judge, kind, number, flags=(), out=None, **how):
    """What is wrong with one run, in a folder of its own."""
    place = folder / ("%s-%s-%d" % (kind, "".join(flags), number))
    place.mkdir()
    told = ran(kind, place / "trace.json", *flags)
    wrong = fault_of(told, place / "trace.json", judge, **how)
    shutil.rmtree(place)
    return wrong if out in (None, told.out) else "it printed %r and not %r" % (told.out, out)


def several(folder, judge, kind, times, flags=(), **how):
    todo = range(times)
    for number, wrong in enumerate(each(AT_ONCE, lambda it: case(folder, judge, kind, it, flags, **how), todo)):
        yield "%s %s %d" % (kind, " ".join(flags), number), wrong


def hanging(folder, judge):
    """A run that hangs is stopped, or writes after a while: who waits and who is missing is said."""
    ways = [("SIGTERM", signal.SIGTERM, {}), ("SIGQUIT", signal.SIGQUIT, {}),
            ("PHASER_TRACE_AFTER", signal.SIGKILL, {"PHASER_TRACE_AFTER": "1"})]
    for name, number, more in ways:
        trace, log = folder / (name + ".json"), folder / (name + ".err")
        trace.write_text("yesterday's")
        with open(log, "wb") as err:
            given = {**os.environ, "PHASER_TRACE": str(trace), **more}
            process = subprocess.Popen([sys.executable, str(KINDS), "hang"], stderr=err, env=given)
            end = time.monotonic() + 20
            time.sleep(1)
            while more and time.monotonic() < end and "didn't arrive" not in log.read_text():
                time.sleep(0.05)
            process.send_signal(number)
            status = process.wait()
        wanted = "in phase 2 first, second wait; third didn't arrive" in log.read_text() and status == -number
        answer = judge(trace) if trace.exists() else None
        yield "hang, " + name, "" if wanted and answer and answer.status == 0 else "%s %s" % (log.read_text(), answer)


def cases(folder, times, judge):
    for kind in WHOLE:
        out = ran(kind, folder / "plain.json", "--plain").out
        yield from several(folder, judge, kind, times, out=out)
    for kind in RUNNING:
        yield from several(folder, judge, kind, times, may_lack=True)
    for kind in UNTOLD:
        yield from several(folder, judge, kind, min(times, 20), is_wrong=True)
    for fault in FAULTS:
        yield from several(folder, judge, "faulty", min(times, 100), ["--fault", fault], is_wrong=True)
    trace = folder / "long.json"
    told = ran("long_run", trace)
    yield "full", fault_of(told, trace, judge) or ("" if "no more room" in told.err else "it wasn't said: " + told.err)
    yield from hanging(folder, judge)
    old = [folder / ("old.json" + ending) for ending in ("", ".2", ".7")]
    for file in old:
        file.write_text('{"events":[],"version":2}')
    ran("leave", old[0])
    yield "yesterday's traces", "".join(str(file) for file in old if file.exists())
    now = '\n        print("now", flush=True)\n        __import__("time").sleep(5)'
    source = long_example(folder / "live", "three_threads.py", "passed.acquire()", now)
    yield from long_runs(judge, folder, [sys.executable, source], 0)
    words = [sys.executable, KINDS]
    yield from kinds(judge, folder, words, ["short_threads", "action", "two_pools"], says="")
    yield from kinds(judge, folder, words, [kind for kind in RUNNING if kind != "leave"] + ["reset_at_will"])
    yield from kinds(judge, folder, words, ["leave"], may_be_empty=True)
    yield from kinds(judge, folder, words, ["action_throws", "timeout", "abort", "reset", "no_parties"], says="given up or broken")
    yield from kinds(judge, folder, words, ["hang"], status=-signal.SIGTERM, stop_after=1, says="in phase 2 first, second wait; third")
    for fault in FAULTS:
        yield from kinds(judge, folder, words, ["faulty"], ["--fault", fault], is_wrong=True)
