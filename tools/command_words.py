"""The words of ./phaser_run, as the program reads them (crates/command_words), for the scripts that read them without it."""
import os
import re

from processes import PROGRAM, TOP

WORDS = TOP / "crates/command_words/src/words.rt"  # has the program's version
HELP = TOP / "tools/help.txt"  # what the built program prints on --help, and after each command

# By command, its words and what it does.
COMMANDS = {
    "run": (
        "FILE [--workers N] [--trace OUT] [--certain] [--live] [--progress]",
        "runs a program on threads, and prints its report",
    ),
    "schedule": ("FILE [--picks LIST] [--trace OUT]", "runs a program without threads, the same each time"),
    "replay": ("FILE [--upgrade OUT]", "replays a trace, and prints its report"),
    "certify": ("FILE", "says what each run of a program comes to, where one run tells it"),
    "judge": ("FILE [--every N]", "judges the events of a log line by line"),
    "stencil": (
        "--first LIST --steps S [--workers N] [--live] [--progress]",
        "runs a stencil on threads, and prints its cells",
    ),
    "pipeline": (
        "--stages K --items N [--workers N] [--live] [--progress]",
        "runs a pipeline on threads, and prints its items",
    ),
    "events": ("FILE", "answers the calls of an events file"),
}
FLAG = re.compile(r"\[--(\w+)\]")  # an option that has no value
# By option, how many numbers its value may have, their range, and what is said of another value. OUT is any text.
VALUES = {
    "picks": (10000, 0, 4294967295, "LIST is 1 to 10,000 numbers of 0 to 4294967295 with commas between them"),
    "first": (16, 0, 1000000, "LIST is 1 to 16 numbers of 0 to 1000000 with commas between them"),
    "steps": (1, 0, 100, "S is a number of 0 to 100"),
    "stages": (1, 1, 15, "K is a number of 1 to 15"),
    "items": (1, 0, 100, "the items are a number of 0 to 100"),
    "workers": (1, 1, 16, "the workers are a number of 1 to 16"),
    "every": (1, 1, 18446744073709551615, "N is a number of 1 to 18446744073709551615, or one with an s after it"),
}
# The same of a kernel that keeps no events.
LIVE_VALUES = {
    "steps": (1, 0, 4294967295, "S is a number of 0 to 4294967295"),
    "items": (1, 0, 2000000000, "the items are a number of 0 to 2000000000"),
}
# Flags that don't go with the words beside them, and what is said of them.
LIVE = "--live keeps no events: leave --trace and --certain out"
PROGRESS = "--progress goes with --live"
UNBUILT = """\
phaser_run isn't built from these sources yet, and this help doesn't build it. Once built it prints this:

"""
NEXT = """
Try: ./phaser_run events examples/events/two_tasks_turn.json
./program_check FILE says where and why a text is refused.
"""


class NoJob(Exception):
    """The words name no job; the text says why, or is what they ask for."""


# ---- what is printed


def usage():
    """The lines of all commands."""
    lines = ["%s %s" % (PROGRAM, ("%s %s" % (name, words)).ljust(50) + does) for name, (words, does) in COMMANDS.items()]
    return "Usage: " + "\n       ".join(lines)


def help_of(words):
    """What the program prints on these words and --help, as tools/help.txt has it."""
    called = "$ " + " ".join([PROGRAM, *words, "--help"]) + "\n"
    return HELP.read_text().partition(called)[2].partition("\n$ ")[0].rstrip("\n") + "\n"


def help_text(*words):
    return UNBUILT + help_of(words) + NEXT


def version_text():
    """What the program says, with the version in its source."""
    found = re.search(r'const VERSION: &str = "(.*)"', WORDS.read_text())
    return "%s %s\n" % (PROGRAM, found[1] if found else "of a version that isn't found")


def bad(text, command=None):
    """The fault of words, with the usage of their command or of all."""
    of = "Usage: %s %s %s" % (PROGRAM, command, COMMANDS[command][0]) if command else usage()
    return NoJob("error: %s\n\n%s\n" % (text, of))


# ---- the words


def command_of(words):
    """The command that the first word names."""
    first = words[0] if words else "--help"
    if first.startswith("-h") or first == "--help":
        raise NoJob(help_text())
    if first.startswith("-V") or first == "--version":
        raise NoJob(version_text())
    if first not in COMMANDS:
        raise bad("there is no command '%s'" % first)
    return first


def read_words(words):
    """The command, the place of FILE among the words if there is one, and the values of the options."""
    command = command_of(words)
    takes, flags = re.findall(r"--(\w+)", COMMANDS[command][0]), FLAG.findall(COMMANDS[command][0])
    place, values, waiting, are_over = None, {}, None, False
    for at, word in enumerate(words[1:], 1):
        is_plain = are_over or not word.startswith("-") or word == "-"
        option, _, value = word[2:].partition("=")
        if waiting and not is_plain:
            raise bad("--%s wants a value" % waiting, command)
        if waiting:
            values[waiting], waiting = word, None
        elif is_plain and place is None and "FILE" in COMMANDS[command][0]:
            place = at
        elif word == "--" and not are_over:
            are_over = True
        elif not is_plain and (word.startswith("-h") or word == "--help"):
            raise NoJob(help_text(command))
        elif is_plain or not word.startswith("--") or option not in takes:
            raise bad("unexpected argument '%s'" % word, command)
        elif option in values:
            raise bad("--%s stands there twice" % option, command)
        elif option in flags and "=" in word:
            raise bad("--%s has no value" % option, command)
        elif option in flags or "=" in word:
            values[option] = value
        else:
            waiting = option
    if waiting:
        raise bad("--%s wants a value" % waiting, command)
    return command, place, values


def look_for_all(command, place, values):
    """Stops where a word is missing that the command needs."""
    needed = re.sub(r"\[.*?\]", "", COMMANDS[command][0])
    missing = [word for word in re.findall(r"--(\w+)", needed) if word not in values]
    if missing:
        raise bad("--%s is missing" % missing[0], command)
    if place is None and "FILE" in needed:
        raise bad("FILE is missing", command)


def is_number(text, least, greatest):
    is_short = re.fullmatch("[0-9]+", text) and len(text.lstrip("0")) <= 20
    return bool(is_short) and least <= int(text) <= greatest


def look_at_values(command, values):
    """Stops at the first value that is out of its range."""
    of = LIVE_VALUES if "live" in values else VALUES
    for option in re.findall(r"--(\w+)", COMMANDS[command][0]):
        if option not in values or option not in VALUES:
            continue
        most, least, greatest, wanted = of.get(option, VALUES[option])
        value = values[option].removesuffix("s") if option == "every" else values[option]
        pieces = value.split(",")
        if len(pieces) > most or not all(is_number(it, least, greatest) for it in pieces):
            raise NoJob("error: %s\n" % wanted)


def look_at_flags(values):
    """Stops at a flag that doesn't go with the other words."""
    if "live" in values and ("trace" in values or "certain" in values):
        raise NoJob("error: %s\n" % LIVE)
    if "progress" in values and "live" not in values:
        raise NoJob("error: %s\n" % PROGRESS)


def is_text(word):
    try:
        os.fsencode(word).decode("utf-8")
    except UnicodeDecodeError:
        return False
    return True


def job_of(words):
    """The place of FILE and the values of the options, where the words name a job."""
    if not all(map(is_text, words)):
        raise NoJob("error: an argument isn't valid UTF-8\n")
    command, place, values = read_words(words)
    look_for_all(command, place, values)
    look_at_values(command, values)
    look_at_flags(values)
    return place, values


def out_of(values):
    """OUT, where an option names it."""
    return values.get("trace", values.get("upgrade"))
