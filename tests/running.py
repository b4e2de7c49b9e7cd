"""What the scripts of this folder share: how they are called, and how they call the program."""
import argparse
import collections
import concurrent.futures
import os
import pathlib
import shutil
import subprocess
import sys
import tempfile

TOP = pathlib.Path(__file__).resolve().parent.parent
PROGRAM = TOP / "crates/phaser_run/out/phaser_run"
NOBODY = 65534  # the number of the user nobody, and of its group

# What the program printed, and its exit status; None where it had to be stopped.
Gave = collections.namedtuple("Gave", "out err status")


def path_of(name):
    return pathlib.Path(name).resolve()


def words_of(text, at_once=True):
    """The words that the scripts take, to which each adds its own. One that runs one case at a time takes no
    number of jobs."""
    layout = argparse.RawDescriptionHelpFormatter
    words = argparse.ArgumentParser(description=text, formatter_class=layout)
    words.add_argument("--program", default=PROGRAM, type=path_of, help="what is run (%(default)s)")
    if at_once:
        words.add_argument("--jobs", default=os.cpu_count(), type=int, help="how many at once (%(default)s)")
    return words


def as_nobody():
    """Leaves root, in a child."""
    os.setgroups([])
    os.setgid(NOBODY)
    os.setuid(NOBODY)


def is_root():
    return os.geteuid() == 0


def is_there(program):
    """Whether there is a program to run."""
    return program.is_file() and os.access(program, os.X_OK)


def gave(seconds, program, *words, **more):
    """What the program gives on these words in so many seconds; more is for subprocess.run."""
    how = {"stdin": subprocess.DEVNULL, "stdout": subprocess.PIPE, "stderr": subprocess.PIPE, **more}
    try:
        ran = subprocess.run([program, *map(str, words)], timeout=seconds, **how)
    except subprocess.TimeoutExpired:
        return Gave("", "it did not end within %d seconds" % seconds, None)
    out, err = (text.decode(errors="replace") for text in (ran.stdout, ran.stderr))
    return Gave(out, err, ran.returncode)


def run_on_threads(seconds, program, file, workers):
    """What a run of the file's program by so many workers gave, and what the replay of its trace did. Where
    the run isn't done nothing is replayed."""
    with tempfile.TemporaryDirectory(prefix="phaser_run-tests-") as folder:
        trace = pathlib.Path(folder, "trace.json")
        ran = gave(seconds, program, "run", file, "--workers", workers, "--trace", trace)
        return ran, gave(seconds, program, "replay", trace) if ran.status == 0 else ran


def each(jobs, judge, cases):
    """What is judged of each case, in their order, so many at once."""
    with concurrent.futures.ThreadPoolExecutor(max_workers=jobs) as several:
        yield from several.map(judge, cases)


# A program of a user's may be of any of these standards, and have all these warnings as errors.
STANDARDS = {"gcc": ["c11", "c17", "c2x"], "clang": ["c11", "c17", "c2x"],
             "g++": ["c++17", "c++20", "c++2b"], "clang++": ["c++17", "c++20", "c++2b"]}
WARNINGS = ["-Wall", "-Wextra", "-Wconversion", "-Wsign-conversion", "-Wshadow", "-Wpedantic", "-Werror"]


def knows(compiler, standard):
    """Whether the compiler is here, and has this standard."""
    words = [compiler, "-std=" + standard, "-fsyntax-only", "-x", "c++" if "+" in compiler else "c", os.devnull]
    return bool(shutil.which(compiler)) and gave(60, *words).status == 0


def in_standards(jobs, name, sources, forms=((),)):
    """Has each source, in each of these forms, checked by each compiler of its language in each standard: how many
    checks were made, and how many told nothing."""
    known = []
    for compiler, standards in STANDARDS.items():
        has = [(compiler, standard) for standard in standards if knows(compiler, standard)]
        known += has
        if len(has) < len(standards):
            print("%s: NOT RUN: %s knows %d of its %d standards" % (name, compiler, len(has), len(standards)), flush=True)
    todo = [(compiler, "-std=" + standard, *form, source) for compiler, standard in known for form in forms
            for source in sources if ("+" in compiler) == (source.suffix == ".cpp")]
    words = ["-fsyntax-only", "-pthread", "-I", TOP / "include", *WARNINGS]
    good = 0
    for case, ran in zip(todo, each(jobs, lambda it: gave(120, *it, *words), todo)):
        good += tuple(ran) == ("", "", 0)
        if tuple(ran) != ("", "", 0):
            print("%s: %s:\n%s" % (name, " ".join(map(str, case)), (ran.out + ran.err)[:2000]), flush=True)
    return len(todo), good


def has_priorities():
    """Whether a program may have threads of a priority that others don't take the processor from."""
    asks = "import os; os.sched_setscheduler(0, os.SCHED_FIFO, os.sched_param(20))"
    return gave(60, sys.executable, "-c", asks).status == 0


class Missing(Exception):
    """The tools that a part of a test needs and that aren't here."""


def preload(name, folder):
    """The preload of tests/NAME.c, compiled into the folder. Where that fails cc has said why."""
    if not shutil.which("cc"):
        raise Missing("C compiler (cc)")
    made = pathlib.Path(folder, name + ".so")
    words = ["cc", "-shared", "-fPIC", "-O1", "-o", str(made), str(TOP / "tests" / (name + ".c")), "-ldl", "-pthread"]
    subprocess.run(words, check=True)
    return made
