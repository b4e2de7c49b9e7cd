"""What the cases of tests/runtimes ask of logs that are written line by line: they are judged while the program runs."""
import os
import pathlib
import re
import shutil
import signal
import subprocess
import time

from running import Gave, gave
from runtimes_runs import RUNTIMES, heed

SECONDS = 120  # that one run may take; an unproved program judges slowly
TURNS = 20_000
SOON = 1  # seconds in which a fault is named
DROPINS = ("traced_barrier.h", "traced_barrier.hpp", "traced_barrier.rs", "traced_barrier.py", "TracedPhaser.java")


def long_example(folder, name, after, now):
    """The example with 20,000 turns, beside the drop-ins. With --early-pass it says "now" once the others have passed too
    early, after the line that is named, and does nothing for some seconds."""
    folder.mkdir(exist_ok=True)
    for dropin in DROPINS:
        shutil.copy(str(RUNTIMES / dropin), str(folder))
    text, changed = re.subn(r"(TURNS\b[^\n]*= (?:3, )?)3\b", r"\g<1>%d" % TURNS, (RUNTIMES / name).read_text(), count=1)
    assert changed == 1 and text.count(after) == 1, name
    (folder / name).write_text(text.replace(after, after + now))
    return folder / name


def piped(judge, words, reader=None, **settings):
    """What `judge` gave of the lines that a program wrote into a pipe, and what the program gave."""
    here, there = os.pipe()
    given = {**os.environ, "PHASER_TRACE": "fd:%d" % there, **settings}
    with subprocess.Popen(reader or [str(judge.program), "judge", "-"], stdin=here, stdout=subprocess.PIPE,
                          stderr=subprocess.PIPE) as judging:
        os.close(here)
        told = gave(SECONDS, *words, env=given, pass_fds=[there], preexec_fn=heed)
        os.close(there)
        out, err = judging.communicate(timeout=SECONDS)
    return Gave(out.decode(), err.decode(), judging.returncode), told


def three(events, made, there, registered, signals, passes, drops):
    """The lines of what was judged."""
    return "events %d\nphasers made %d there %d\ntotals registered %d signals %d passes %d drops %d sends 0\n" % (
        events, made, there, registered, signals, passes, drops)


def right(judge, words, drops):
    """Three threads that take 20,000 turns are judged to the end; where the barrier is gone then, so are its tasks."""
    turns = 3 * TURNS
    wanted = three(3 + 2 * turns + drops, 1, 0 if drops else 1, 3, turns, turns, drops)
    judged, told = piped(judge, words)
    is_right = judged == Gave(wanted, "", 0) and told.status == 0 and not told.err
    return "" if is_right else "wanted %r, got %s; the program gave %s" % (wanted, judged, told)


def early(judge, words):
    """The first early pass is named soon after it was, though nothing else comes."""
    here, there = os.pipe()
    judging = subprocess.Popen([str(judge.program), "judge", "-"], stdin=here, stdout=subprocess.PIPE, stderr=subprocess.PIPE)
    program = subprocess.Popen([*map(str, words), "--early-pass"], stdout=subprocess.PIPE, stderr=subprocess.PIPE,
                               pass_fds=[there], env={**os.environ, "PHASER_TRACE": "fd:%d" % there})
    os.close(here)
    os.close(there)
    with judging, program:
        said = program.stdout.readline()
        began = time.monotonic()
        try:
            err = judging.communicate(timeout=SECONDS)[1].decode()
        finally:
            took, is_over = time.monotonic() - began, program.poll() is not None
            program.kill()
            judging.kill()
    is_named = judging.returncode == 1 and re.match("refused 25 NotExplained at 7\nline 7: ", err)
    if said == b"now\n" and is_named and took < SOON and not is_over:
        return ""
    return "it said %r, and after %.2f seconds judge gave %s: %s" % (said, took, judging.returncode, err)


def fifo(judge, folder, words, turns):
    """A pipe that has a name."""
    name = folder / "log"
    os.mkfifo(str(name))
    with subprocess.Popen([str(judge.program), "judge", str(name)], stdout=subprocess.PIPE, stderr=subprocess.PIPE) as judging:
        told = gave(SECONDS, *words, env={**os.environ, "PHASER_TRACE": str(name)})
        try:
            out, err = judging.communicate(timeout=SECONDS)
        except subprocess.TimeoutExpired:
            judging.kill()
            raise
    name.unlink()
    is_right = judging.returncode == 0 and b" signals %d passes %d " % (turns, turns) in out and told.status == 0
    return "" if is_right else "%s; the program gave %s" % ((out, err), told)


def gone(judge, words):
    """If its reader goes away, the program ends as ever, and says that once."""
    told = piped(judge, words, ["head", "-n", "1"])[1]
    is_right = told.status == 0 and re.fullmatch("[^\n]*: the log ends: its reader is gone\n", told.err)
    return "" if is_right else "the program gave %s" % (told,)


def long_runs(judge, folder, words, drops):
    """A long run of the example that these words run."""
    yield "live, 20,000 turns", right(judge, words, drops)
    yield "live, early pass", early(judge, words)
    yield "live, a named pipe", fifo(judge, folder, words, 3 * TURNS)
    yield "live, the reader goes away", gone(judge, words)


def into_file(judge, folder, words, stop_after=None, **settings):
    """What `judge` gave of the lines that a program wrote into a file, and what the program gave."""
    log = folder / "log.jsonl"
    log.write_text("yesterday's")
    given = {**os.environ, "PHASER_TRACE": str(log), **settings}
    with subprocess.Popen(list(map(str, words)), stdin=subprocess.DEVNULL, stdout=subprocess.PIPE, stderr=subprocess.PIPE,
                          env=given, preexec_fn=heed) as program:
        if stop_after is not None:
            time.sleep(stop_after)
            program.send_signal(signal.SIGTERM)
        out, err = program.communicate(timeout=SECONDS)
    told = Gave(out.decode(errors="replace"), err.decode(errors="replace"), program.returncode)
    return gave(SECONDS, judge.program, "judge", log), told


def is_bounded(log):
    """Whether each phaser of a log has the bound 2, by which nobody at a barrier is held back."""
    makes = [line for line in log.read_text().splitlines() if '"make"' in line]
    return all(line.endswith('"SIG_WAIT",[],2]') for line in makes)


def kinds(judge, folder, words, names, flags=(), status=0, says=None, is_wrong=False, may_be_empty=False, **more):
    """Programs that are right are accepted, cut or not; programs that are wrong are refused, or said not to be told. A log
    may be empty if its program ends before the writer has written."""
    for name in names:
        judged, told = into_file(judge, folder, [*words, name, *flags], **more)
        bounded = is_bounded(folder / "log.jsonl")
        is_right = judged.status == 0 and (may_be_empty or not judged.out.startswith("events 0\n"))
        if is_wrong:
            is_right = judged.status == 1 and judged.err.startswith("refused 25 ")
        is_right &= bounded and told.status == status and (says is None or says in told.err)
        yield "live, " + name, "" if is_right else "%s; the program gave %s" % (judged, told)
