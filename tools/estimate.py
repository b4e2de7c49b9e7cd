"""How long crates take to prove side by side, and how much of the disk. It is a guess to plan by.

A crate takes what its proofs took when bench/gate_minutes.tsv was recorded; one without a row is guessed by its lines. What a line
takes was measured on four processors of 2.5 GHz, by 23 crates, of which each takes half to twice what is said here. While a
build goes on its pace is taken into account, so the guess gets better.
"""
import collections
from pathlib import Path

KINDS = ("proofs", "tests", "edits", "programs")
RECORDED = Path(__file__).resolve().parent.parent / "bench/gate_minutes.tsv"
EACH, OF_CODE, OF_PROOF, OF_CODE_BELOW = 15, 0.17, 0.01, 0.006  # seconds, for a crate and for a line
BYTES_OF_LINE = 95000  # of the disk, for a line of any kind
GAIN = {1: 1.0, 2: 1.5, 3: 1.8, 4: 2.0}  # how much sooner a crate is proved by so many processors
SLOWER = 1.6  # how much longer than the recorded table a slower machine took: 245 minutes of processor time, and not 155
MOST_SHARE = max(GAIN)  # processors that one crate gets

# The lines of a crate: of code, of definitions and proofs, and of the code of all crates below it.
Lines = collections.namedtuple("Lines", "code proof below")
# A crate that is being proved: for how many seconds, and by how many processors.
Begun = collections.namedtuple("Begun", "seconds share")


def table_in(file=RECORDED):
    """The seconds of each crate and kind that the table has; none if there is no table."""
    try:
        rows = [line.split("\t") for line in file.read_text().splitlines()[1:]]
    except OSError:
        return {}
    return {(crate, kind): float(seconds) for crate, kind, seconds in rows}


def weights_of(lines):
    """By crate, the seconds that it takes on one processor, where these are the lines of each."""
    table = table_in()
    return {crate: table.get((crate, "proofs")) or weight(it) for crate, it in lines.items()}


def weight(lines):
    """The seconds that a crate of these lines takes on one processor."""
    return EACH + OF_CODE * lines.code + OF_PROOF * lines.proof + OF_CODE_BELOW * lines.below


def disk_bytes(lines):
    """The bytes of the disk that is taken by crates of these lines."""
    return BYTES_OF_LINE * sum(it.code + it.proof for it in lines)


def share_of(is_first, idle, waiting, most):
    """How many of the idle processors a crate gets, if so many wait, it among them.

    The first of those that wait has the longest way up, and gets two if it can: while it is proved at one,
    what is above it waits, and processors idle."""
    least = 2 if is_first and most > 3 else 1
    return min(max(idle // waiting, least), idle, MOST_SHARE)


def seconds_left(weights, uses, rank, most, begun, pace):
    """How long it takes until all crates with a weight are proved, those that have begun among them.

    A crate is proved once those that it uses are. Of those that wait the one of the highest rank begins first. At pace 2
    all takes twice as long as its weight says."""
    left, running, now = set(weights) - set(begun), {}, 0.0
    for crate, it in begun.items():
        whole = pace * weights[crate] / GAIN[it.share]
        running[crate] = (max(whole - it.seconds, EACH), it.share)
    while left or running:
        open_crates = left | set(running)
        ready = sorted((it for it in left if open_crates.isdisjoint(uses[it])), key=lambda it: -rank[it])
        for at, crate in enumerate(ready):
            idle = most - sum(share for _, share in running.values())
            if idle < 1:
                break
            share = share_of(at == 0, idle, len(ready) - at, most)
            running[crate] = (now + pace * weights[crate] / GAIN[share], share)
            left.remove(crate)
        crate = min(running, key=lambda it: running[it][0])
        now = running.pop(crate)[0]
    return now


def first_build_text(seconds):
    """In words, what a first build takes on four processors: of the machine of the recorded table, and of a slower one."""
    least, most = (10 * max(1, round(it / 600)) for it in (seconds, SLOWER * seconds))
    return "some %d to %d minutes on four processors, by the machine, longer on fewer" % (least, most)
