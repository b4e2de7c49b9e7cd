"""The runs of tests/failing_streams in which one read, or one write, of a job fails: each of those that it makes, in turn.

By a preload, tests/failing_turns.c, a read gives at most PIECE bytes and a write takes at most so many. So a text of n bytes
takes n / PIECE reads, rounded up, and one that finds its end, and as many writes. What each run has to give and to leave is
worked out here from docs/formats.md: a trace and a report are formed whole before the first of their bytes is written, the
trace first, and OUT of a replay is the old file or the whole new one. After a read or a write that failed there is no other.
But `events` writes its lines through a buffer, and tries once more to write what is left in it; so there all writes fail from
one on.
"""
import collections
import os
import pathlib
import tempfile

from running import TOP, Gave, each, gave, preload

EXAMPLES = TOP / "examples"
PIECE = 8
SECONDS = 20  # that one run may take
FAULTS = {"read": Gave("", "fault read\n", 3), "write": Gave("", "fault write\n", 3)}
BEGINNING = '{"events":[['  # of each trace
FILE, OUT = "file.json", "out.json"

# The words of a job, the text of FILE or of standard input, the report, and of OUT what is written to it and what it held
# before; none where there is no such file. The trace of a run on threads is ANY: it differs from run to run.
Job = collections.namedtuple("Job", "words text report out before")
ANY = object()

# What a run gave and left: its output, faults and status; OUT; how many reads and writes it made; the files there.
Turned = collections.namedtuple("Turned", "gave out reads writes files")


# ---- the jobs


def stored(name):
    return (EXAMPLES / name).read_text()


def jobs():
    smallest = stored("schedules/smallest_trace.json"), stored("schedules/smallest_trace.out"), stored("schedules/smallest_trace.trace")
    older, older_report = stored("replays/smallest_trace.json"), stored("replays/smallest_trace.out")
    senders, report = stored("schedules/two_senders.json"), stored("schedules/two_senders.out")
    for file in (FILE, "-"):
        yield Job(["events", file], stored("events/two_tasks_turn.json"), stored("events/two_tasks_turn.out"), None, None)
        yield Job(["schedule", file], senders, report, None, None)
        yield Job(["schedule", file, "--trace", OUT], *smallest, "mine\n")
        yield Job(["run", file], senders, report, None, None)
        yield Job(["run", file, "--trace", OUT], senders, report, ANY, None)
        yield Job(["replay", file], stored("traces/two_senders.json"), report, None, None)
        yield Job(["replay", file, "--upgrade", OUT], older, older_report, smallest[2], "mine\n")
        yield Job(["certify", file], senders, report + "certain\n", None, None)
        yield Job(["run", file, "--certain", "--trace", OUT], senders, report + "certain\n", ANY, None)
    yield Job(["replay", FILE, "--upgrade", OUT], older, older_report, smallest[2], None)
    yield Job(["replay", OUT, "--upgrade", OUT], older, older_report, smallest[2], older)
    yield Job(["run", FILE, "--workers", "1", "--trace", OUT], senders, report, ANY, "mine\n")
    for name in ("stencil_one_cell", "pipeline_two_stages"):
        words = stored("commands/%s.words" % name).splitlines()[0].split()
        yield Job(words, None, stored("commands/%s.out" % name), None, None)


def name_of(job):
    return " ".join(job.words) + ("" if job.before is None else ", OUT is there")


# ---- a run


def turned(program, library, job, **fails):
    """The run of a job in a folder of its own, with one read or write failing."""
    with tempfile.TemporaryDirectory(prefix="phaser_run-tests-") as name:
        folder = pathlib.Path(name)
        for file, text in ((FILE, job.text), (OUT, job.before)):
            if text is not None:
                (folder / file).write_text(text)
        given = {**os.environ, "LD_PRELOAD": str(library), "COUNTED": str(folder / "counted"), "PIECE": str(PIECE), **fails}
        with open(str(folder / FILE) if "-" in job.words else os.devnull) as stdin:
            ran = gave(SECONDS, program, *job.words, stdin=stdin, env=given, cwd=str(folder))
        counts = (folder / "counted").read_text() if (folder / "counted").exists() else "-1 -1"
        left = (folder / OUT).read_text() if (folder / OUT).exists() else None
        files = sorted(it.name for it in folder.iterdir() if it.name not in (FILE, OUT, "counted"))
        return Turned(ran, left, *map(int, counts.split()), files)


# ---- what it must give and leave


def pieces(text):
    return -(-len(text) // PIECE)


def reads_of(job):
    """How many reads a job makes, the last of which finds the end."""
    return 0 if job.text is None else pieces(job.text) + 1


def trace_of(job, left):
    """The trace that a job writes, some of which may have been left; what isn't known of it is made up."""
    if job.out is not ANY:
        return job.out or ""
    return left if left and left.endswith("\n") else (left or BEGINNING) + PIECE * "?"


def cut(job, trace, taken):
    """What a job leaves in OUT, and its report, where so many writes were taken."""
    of_trace = pieces(trace)
    report = job.report[:max(taken - of_trace, 0) * PIECE]
    if job.out is None or "--upgrade" in job.words and taken < of_trace:
        return job.before, report
    return trace[:taken * PIECE], report


def wanted_where_read_fails(job, number):
    """OUT of a trace is made or emptied before FILE is read; that of a replay isn't."""
    left = "" if "--trace" in job.words else job.before
    return Turned(FAULTS["read"], left, number, 0, [])


def is_buffered(job):
    return job.words[0] == "events"


def wanted_where_write_fails(job, number, run):
    out, report = cut(job, trace_of(job, run.out), number - 1)
    writes = run.writes if is_buffered(job) else number
    return Turned(FAULTS["write"]._replace(out=report), out, reads_of(job), writes, [])


def wanted_of_whole(job, left):
    trace = trace_of(job, left)
    out = job.before if job.out is None else trace
    return Turned(Gave(job.report, "", 0), out, reads_of(job), pieces(trace) + pieces(job.report), [])


def report_of(job):
    """The report of a job without the line of a certificate, as a replay of the run's trace prints it."""
    certain = "certain\n"
    return job.report[: -len(certain)] if job.report.endswith(certain) else job.report


def replayed(program, run):
    """What the replay of the trace that a run left gave."""
    with tempfile.NamedTemporaryFile("w", prefix="phaser_run-tests-") as file:
        file.write(run.out)
        file.flush()
        return gave(SECONDS, program, "replay", file.name)


# ---- all of them


def turns_of(program, library, job, at_once):
    """The runs of a job, by name: what each gave and left, and must."""
    whole = turned(program, library, job)
    yield name_of(job) + ", in pieces", whole, wanted_of_whole(job, whole.out)
    numbers = range(1, reads_of(job) + 1)
    for number, run in zip(numbers, each(at_once, lambda it: turned(program, library, job, FAIL_READ=str(it)), numbers)):
        yield "%s, read %d fails" % (name_of(job), number), run, wanted_where_read_fails(job, number)
    way, numbers = "FAIL_WRITES_FROM" if is_buffered(job) else "FAIL_WRITE", range(1, whole.writes + 1)
    for number, run in zip(numbers, each(at_once, lambda it: turned(program, library, job, **{way: str(it)}), numbers)):
        name = "%s, write %d fails" % (name_of(job), number)
        yield name, run, wanted_where_write_fails(job, number, run)
        if job.out is ANY and run.out and run.out.endswith("\n"):
            yield name + ", its trace replayed", replayed(program, run), Gave(report_of(job), "", 0)


def turns(program, at_once):
    """The runs of all jobs, by name: what each gave and left, and must. Missing where there is no C compiler."""
    with tempfile.TemporaryDirectory(prefix="phaser_run-tests-") as folder:
        library = preload("failing_turns", folder)
        for job in jobs():
            yield from turns_of(program, library, job, at_once)
