"""The table of tests, tests/table.tsv: its rows, and the tables of docs/contributing.md that are written of them.

A row names a script, or a crate of tests. Its columns:

- needs: `nothing`; `program`, for which the unproved one serves; `proved`, the proved program, since time, memory or allocations
  are measured, or since the unproved one takes too long; `archive`, the static library; `gate`, programs that the gate alone
  builds; `rt`, for a crate of tests that is only tried. A row of `hand` is never run here.
- runs: `beside` others; `1`, the same with `--jobs 1`; `alone`, since it measures time or needs quiet; `first`, alone and
  before the others.
- quick: words that it has in `./check --quick`, where the unproved program would take too long without.
- short, long: seconds of the short form, and of the long one, whose words stand beside them, with the change that asks for it; `?`
  if nobody has measured them. `tools/run_tests --record` writes those of short forms.
"""
import collections
from pathlib import Path

TABLE = Path(__file__).resolve().parent.parent / "tests/table.tsv"
Test = collections.namedtuple("Test", "script needs runs quick short long words change what")
NONE, UNKNOWN = "-", "?"
GUESS = 60.0  # seconds that a script is taken to run whose time nobody has measured
NEEDED = {"nothing": "-", "program": "program", "proved": "proved program", "archive": "archive", "gate": "the gate's programs",
          "rt": "-", "hand": "-"}


def tests():
    """The rows, in their order."""
    return [Test(*line.split("\t")) for line in TABLE.read_text().splitlines()[1:]]


def short_seconds():
    """By script, the seconds of its short form."""
    return {test.script: GUESS if test.short == UNKNOWN else float(test.short) for test in tests()}


def write_seconds(taken):
    """Writes the seconds that short forms took into the table, by script; the others stay as they are."""
    heading = TABLE.read_text().splitlines()[0]
    new = {script: "%.0f" % max(1, seconds) for script, seconds in taken.items()}
    rows = [test._replace(short=new.get(test.script, test.short)) for test in tests()]
    TABLE.write_text("".join("\t".join(row) + "\n" for row in [heading.split("\t"), *rows]))


def how_of(test):
    """In a word, where the script is run."""
    return "by hand" if test.needs == "hand" else "alone" if test.runs in ("alone", "first") else "beside others"


def rows_of_scripts():
    yield "| Script | What it does | Needs | Runs | Short form, s |"
    yield "|---|---|---|---|---|"
    for test in tests():
        cells = "`%s`" % test.script, test.what, NEEDED[test.needs], how_of(test), test.short
        yield "| %s |" % " | ".join(cells)


def rows_of_changes():
    yield "| You change | Run, in so many seconds |"
    yield "|---|---|"
    by_change = collections.defaultdict(list)
    for test in tests():
        if test.change != NONE:
            call = test.script if test.words == NONE else "%s %s" % (test.script, test.words)
            by_change[test.change].append("`%s` (%s)" % (call, test.long))
    for change, calls in by_change.items():
        yield "| %s | %s |" % (change, ", ".join(calls))


# The tables of the page, by the words of the comments between which they stand.
TABLES = {"tests/table.tsv: scripts": rows_of_scripts, "tests/table.tsv: changes": rows_of_changes}


def between_marks(name):
    """A table as it stands on the page, with the comments before and after it."""
    return "\n".join(["<!-- %s -->" % name, *TABLES[name](), "<!-- end -->"])
