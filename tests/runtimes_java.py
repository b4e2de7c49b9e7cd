"""The cases of tests/runtimes for Java: runtimes_programs/Kinds.java on examples/runtimes/TracedPhaser.java."""
import os
import pathlib
import shutil
import signal
import subprocess
import time

from running import TOP, Missing, each, gave
from runtimes_live import kinds, long_example, long_runs

HERE = pathlib.Path(__file__).resolve().parent / "runtimes_programs"
DROPIN = TOP / "examples/runtimes/TracedPhaser.java"
SECONDS = 60  # that one run may take
AT_ONCE = 2
FLAGS = ["-XX:+UseSerialGC", "-XX:TieredStopAtLevel=1", "-Xshare:auto"]  # for less processor time
# Right programs whose whole run is told; right ones that are cut, so that there may be no trace; and ones that are not
# to be accepted.
WHOLE = ["shortThreads", "action", "watcher", "split", "register", "registerFromOutside", "force", "interrupts", "tooMany"]
RUNNING = ["daemons", "exit", "crowd"]
UNTOLD = ["twoPools", "crowded", "tier"]
FAULTS = ["early", "twice", "impatient"]
PACKAGE = "package some.where;\n"
USER = """import some.where.TracedPhaser;
class User { public static void main(String[] words) { new TracedPhaser(1).arriveAndAwaitAdvance(); } }
"""


def compiled(folder, *files):
    words = ["javac", "-Xlint:all", "-Werror", "-d", folder, *files]
    ran = subprocess.run([str(word) for word in words], stdout=subprocess.PIPE, stderr=subprocess.STDOUT)
    return ran.stdout.decode()


def ran(classes, kind, trace, *flags, **more):
    """What a program of this kind gave."""
    given = {**os.environ, "PHASER_TRACE": str(trace), **more}
    return gave(SECONDS, "java", *FLAGS, *flags, "-cp", classes, "Kinds", kind, env=given)


def fault_of(told, trace, judge, may_lack=False, is_wrong=False, silent=False):
    """What is wrong with a run: one that is right is accepted, one that is wrong is refused, or said to have no trace."""
    if told.status != 0:
        return "the program ended with %s: %s" % (told.status, told.err)
    if not trace.exists():
        return "" if may_lack or is_wrong and told.err else "no trace: " + told.err
    answer = judge(trace)
    if is_wrong:
        said = "" if not silent or told.err else ", and nothing was said"
        return "accepted: %s%s" % (answer.out, told.err) if answer.status != 1 else said
    return "" if answer.status == 0 else "%s%s" % (answer.err, told.err)


def case(folder, classes, judge, kind, number, flags=(), **how):
    """One run, in a folder of its own."""
    place = folder / ("%s-%s-%d" % (kind, "".join(flags).replace("=", ""), number))
    place.mkdir()
    trace = place / "trace.json"
    told = ran(classes, kind, trace, *flags)
    wrong = fault_of(told, trace, judge, **how)
    shutil.rmtree(place)
    return wrong, told.out


def several(folder, classes, judge, kind, times, flags=(), out=None, **how):
    """Runs of one kind: a case."""
    todo = range(times)
    for number, (wrong, printed) in enumerate(each(AT_ONCE, lambda it: case(folder, classes, judge, kind, it, flags, **how), todo)):
        if out is not None and printed != out:
            wrong = "it printed %r and not %r" % (printed, out)
        yield "%s %s %d" % (kind, " ".join(flags), number), wrong


def hanging(folder, classes, judge):
    """A run that hangs is stopped, or writes after a while: who waits and who is missing is said."""
    for name, more in (("SIGTERM", {}), ("PHASER_TRACE_AFTER", {"PHASER_TRACE_AFTER": "1.5"})):
        trace, log = folder / (name + ".json"), folder / (name + ".err")
        trace.write_text("yesterday's")
        with open(log, "wb") as err:
            process = subprocess.Popen(["java", *FLAGS, "-cp", str(classes), "Kinds", "hang"], stderr=err,
                                       env={**os.environ, "PHASER_TRACE": str(trace), **more})
            end = time.monotonic() + 20
            while more and time.monotonic() < end and "didn't arrive" not in log.read_text():
                time.sleep(0.05)
            if not more:
                time.sleep(2)
            process.send_signal(signal.SIGKILL if more else signal.SIGTERM)
            process.wait()
        said = log.read_text()
        wanted = "in phase 2 first, second wait; third didn't arrive" in said
        answer = judge(trace) if trace.exists() else None
        yield "hang, " + name, "" if wanted and answer and answer.status == 0 else "%s %s" % (said, answer)


def cases(folder, times, judge):
    if not (shutil.which("javac") and shutil.which("java")):
        raise Missing("javac with java")
    classes, faulty, packaged = folder / "classes", folder / "faulty", folder / "packaged"
    wrong = compiled(classes, DROPIN, HERE / "Kinds.java")
    yield "compiled", wrong
    if wrong:
        return
    for kind in WHOLE:
        out = ran(classes, kind, folder / "plain.json", "-Dplain=yes").out
        yield from several(folder, classes, judge, kind, times, out=out)
    for kind in RUNNING:
        yield from several(folder, classes, judge, kind, times, may_lack=True)
    for kind in UNTOLD:
        yield from several(folder, classes, judge, kind, min(times, 20), is_wrong=True, silent=True)
    planted = folder / "TracedPhaser.java"
    planted.write_text(DROPIN.read_text().replace("extends Phaser {", "extends FaultyPhaser {"))
    yield "compiled with faults", compiled(faulty, planted, HERE / "Kinds.java", HERE / "FaultyPhaser.java")
    for fault in FAULTS:
        yield from several(folder, faulty, judge, "faulty", min(times, 100), ["-Dfault=" + fault], is_wrong=True)
    yield "full", once(folder, classes, judge, "longRun", "no more room")
    yield from hanging(folder, classes, judge)
    trace = folder / "old.json"
    for old in (trace, folder / "old.json.2", folder / "old.json.7"):
        old.write_text('{"events":[],"version":2}')
    ran(classes, "halt", trace)
    yield "yesterday's traces", "".join(str(old) for old in folder.glob("old.json*"))
    began = time.monotonic()
    ran(classes, "many", folder / "many.json")
    took = time.monotonic() - began
    yield "many phasers", "" if took < 20 and (folder / "many.json.20000").exists() else "it took %.0f seconds" % took
    planted.write_text(PACKAGE + DROPIN.read_text())
    (folder / "User.java").write_text(USER)
    yield "in a package", compiled(packaged, planted, folder / "User.java")
    told = gave(SECONDS, "java", *FLAGS, "-cp", packaged, "User", cwd=folder)
    yield "run from a package", fault_of(told, folder / "trace.json", judge)
    now = ' System.out.println("now"); Thread.sleep(5000);'
    source, live = long_example(folder / "live", "ThreeThreads.java", "othersPassed.await();", now), folder / "live_classes"
    yield "live, compiled", compiled(live, source, DROPIN)
    yield from long_runs(judge, folder, ["java", *FLAGS, "-cp", live, "ThreeThreads"], 0)
    words = ["java", *FLAGS, "-cp", classes, "Kinds"]
    yield from kinds(judge, folder, words, [kind for kind in WHOLE if kind != "force"], says="")
    yield from kinds(judge, folder, words, [*RUNNING, "force", "many", "twoPools"])
    yield from kinds(judge, folder, words, ["crowded"], says="it can't tell this: more than 256 parties at once")
    yield from kinds(judge, folder, words, ["hang"], status=143, stop_after=2, says="in phase 2 first, second wait; third didn't arrive")
    for fault in FAULTS:
        words = ["java", *FLAGS, "-Dfault=" + fault, "-cp", faulty, "Kinds"]
        yield from kinds(judge, folder, words, ["faulty"], is_wrong=True)


def once(folder, classes, judge, kind, said):
    """A right run, of which this is said."""
    trace = folder / (kind + ".json")
    told = ran(classes, kind, trace)
    return fault_of(told, trace, judge) or ("" if said in told.err else "it wasn't said: " + told.err)
