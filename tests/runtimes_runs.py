"""How runtimes_c and runtimes_rust run a program below a drop-in, and what they ask of it and its traces."""
import collections
import json
import os
import pathlib
import random
import shutil
import signal
import subprocess
import time

from running import TOP, Gave

RUNTIMES = TOP / "examples/runtimes"
PROGRAMS = TOP / "tests/runtimes_programs"
YESTERDAY = TOP / "examples/traces/smallest_trace.json"
SECONDS = 30  # that one run may take

# The status, standard error, the traces that were written, and what the judge gave of each.
Ran = collections.namedtuple("Ran", "status err traces gave")


def is_built(*words):
    return subprocess.run(list(map(str, words)), stdin=subprocess.DEVNULL).returncode == 0


def lacking(language, *tools):
    """Whether a tool isn't here, which is said."""
    lacks = [tool for tool in tools if shutil.which(tool) is None]
    if lacks:
        print("runtimes: NOT RUN: %s, since there is no %s" % (language, " and no ".join(lacks)))
    return lacks


def all_wait(process):
    """Whether all threads of a process sleep."""
    try:
        tasks = pathlib.Path("/proc/%d/task" % process.pid).glob("*/stat")
        return all(task.read_text().rsplit(")", 1)[1].split()[0] == "S" for task in tasks)
    except OSError:
        return False


def until(seconds, holds, often=1):
    """Waits until it holds so often on end, some milliseconds apart."""
    end, held = time.monotonic() + seconds, 0
    while held < often and time.monotonic() < end:
        held = held + 1 if holds() else 0
        time.sleep(0.01 if often > 1 else 0.001)


def text_in(file):
    """What stands in a file; None where there is none."""
    try:
        return file.read_bytes()
    except OSError:
        return None


def heed():
    """A shell has a program in the background ignore these, and a drop-in leaves them ignored."""
    for number in (signal.SIGINT, signal.SIGQUIT):
        signal.signal(number, signal.SIG_DFL)


def ran(judge, folder, words, stop=None, hangs=False, wait=0, **settings):
    """Runs a program where the traces of an earlier run stand. With a signal to stop by, it gets it once it waits, if
    it hangs, and else so many seconds after the first barrier has begun to be made."""
    here = pathlib.Path(folder, "run")
    shutil.rmtree(str(here), ignore_errors=True)
    here.mkdir()
    first = here / "trace.json"
    for name in ("trace.json", "trace.json.2", "trace.json.3", "trace.json.70"):
        shutil.copy(str(YESTERDAY), str(here / name))
    plain = {name: word for name, word in os.environ.items() if name != "PHASER_TRACE_AFTER"}
    given = {**plain, "PHASER_TRACE": str(first), **settings}
    pipes = {"stdin": subprocess.DEVNULL, "stdout": subprocess.DEVNULL, "stderr": subprocess.PIPE, "preexec_fn": heed}
    process = subprocess.Popen(list(map(str, words)), cwd=str(here), env=given, **pipes)
    try:
        if stop is not None:
            until(SECONDS, lambda: text_in(first) != text_in(YESTERDAY))
            if hangs:
                until(SECONDS, lambda: all_wait(process), 3)
                time.sleep(3 * float(settings.get("PHASER_TRACE_AFTER", 0)))
            else:
                time.sleep(wait)
            process.send_signal(stop)
        err = process.communicate(timeout=SECONDS)[1].decode(errors="replace")
    except subprocess.TimeoutExpired:
        process.kill()
        process.communicate()
        return Ran(None, "it did not end within %d seconds" % SECONDS, [], [])
    traces = sorted(file for file in here.iterdir() if file.name.startswith("trace.json"))
    return Ran(process.returncode, err, traces, [judge(trace) for trace in traces])


def early_pass(trace):
    """The place of the first pass of a phase that not all have signalled; 0 where there is none. Nobody leaves early."""
    tasks, signals, turns = 0, collections.Counter(), collections.Counter()
    for place, event in enumerate(json.loads(trace.read_text())["events"], 1):
        if event[1] != "p" or event[3] not in ("reg", "sig", "pass"):
            continue
        phase = turns[event[3], event[4]]
        turns[event[3], event[4]] += 1
        tasks += event[3] == "reg"
        signals[phase] += event[3] == "sig"
        if event[3] == "pass" and signals[phase] < tasks:
            return place
    return 0


def as_right(run, status=0, says="", traces=None, totals=""):
    """What is wrong with a right run. Where it left no trace, it has to say so."""
    if run.status != status:
        return "status %s, not %s: %s" % (run.status, status, run.err)
    if says not in run.err or not says and run.err and " no trace is written: " not in run.err:
        return "it says %r, not %r" % (run.err, says)
    if traces is not None and len(run.traces) != traces:
        return "%d traces, not %d: %s" % (len(run.traces), traces, run.err)
    if not run.traces and " no trace is written: " not in run.err and "can't be written" not in run.err:
        return "neither a trace nor a word about it"
    for trace, gave in zip(run.traces, run.gave):
        if gave.status != 0 or "finish 0 tasks 0" in gave.out:
            return "%s: %s%s" % (trace.name, gave.err, gave.out)
        if totals not in gave.out:
            return "%s: not %r: %s" % (trace.name, totals, gave.out)
    return ""


def as_wrong(run, status=0):
    """What is wrong with the traces of a barrier that let somebody go too early in its third turn."""
    if run.status != status:
        return "status %s, not %s: %s" % (run.status, status, run.err)
    if not run.traces:
        return "" if " no trace is written: " in run.err else "neither a trace nor a word about it"
    place = early_pass(run.traces[0])
    must = "", "refused 25 NotExplained at %d\n" % place, 1
    return "" if place and tuple(run.gave[0]) == must else "early at %d: %s" % (place, run.gave[0])


def full(judge, folder, times, program):
    """A run that is longer than its log. Its trace is judged in the long form alone: by the unproved program that takes
    half a minute."""
    return ran(judge if times > 2 else lambda trace: Gave("", "", 0), folder, [program, "full"])


def stopped(judge, folder, times, program):
    """A program that hangs, with two of three threads, and one whose threads take turns, which are stopped."""
    waiting = "tasks that wait in phase 0: 1 2; missing: 3 (nobody yet)\n"
    for number in (signal.SIGINT, signal.SIGQUIT, signal.SIGTERM):
        run = ran(judge, folder, [program, "hang"], number, True)
        yield "hang, stopped by %d" % number, as_right(run, -number, waiting, 1, "signals 2 passes 0")
    run = ran(judge, folder, [program, "hang"], signal.SIGKILL, True, PHASER_TRACE_AFTER="0.2")
    yield "hang, after 0.2 seconds", as_right(run, -signal.SIGKILL, waiting, 1, "signals 2 passes 0")
    yield from turning(judge, folder, times, program)


def turning(judge, folder, times, program):
    """A program whose threads take turns, which is stopped at any time. On a busy machine that may be before its barrier is
    there: then there is nothing to write, and it is stopped later."""
    for time_of in range(times):
        for wait in (random.uniform(0, 0.01), 0.1, 1):
            run = ran(judge, folder, [program, "turning_for_ever"], signal.SIGTERM, wait=wait)
            if run.traces or run.err:
                break
        wrong = as_right(run._replace(err=""), -signal.SIGTERM, traces=1)
        yield "turning_for_ever, stopped, run %d" % time_of, wrong and wrong + run.err


def again(judge, folder, times, program, names, ask, **more):
    for name in names:
        for time_of in range(times):
            yield "%s, run %d" % (name, time_of), ask(ran(judge, folder, [program, name]), **more)
