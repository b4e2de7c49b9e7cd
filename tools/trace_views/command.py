"""The words of the command line, the files and the statuses."""
from __future__ import annotations

import itertools
import os
import re
from dataclasses import dataclass

from text_faults.logs import head_of, is_log, pieces_of

from .log_story import LogStory
from .perfetto import Export
from .picture import MOST_DRAWN, Picture
from .reading import NoTrace, events_of, events_of_log
from .span import Span
from .story import Story

USAGE = """\
usage: trace_picture [OPTIONS] TRACE > OUT
       trace_picture [OPTIONS] LOG > OUT

Draws a trace as an SVG, or a log, as judge reads it. TRACE or LOG is a file, or - for standard input.

  --perfetto    writes Chrome trace events, in JSON, in place of the SVG: for ui.perfetto.dev or chrome://tracing
  --from N      draws a trace from place N on; a place is the number of an event, counted from 1, and not its ticket
  --to M        draws it up to place M, or to the last place where the trace has fewer
  --lines A-B   draws lines A to B of a log, of which the header is 1; the lines after B aren't read
  --fault N     marks place or line N in red, where a replay or judge was "refused 25 NotExplained at N"; what can't be
                drawn from there on is left out
  -h, --help    prints this

Status 0: drawn. 1: standard output was closed before all was written; nothing is said. 2: wrong words, or a place
that the trace doesn't have. 3: TRACE can't be read, is no trace or can't be drawn, or standard output can't be
written; nothing, or a part, is on it. With 2 and 3 one line on standard error says why; of a trace it names the first
place at fault, which is 0 for what stands outside the events, and of a log the line.
"""
NUMBERS = {"--from": "first", "--to": "last", "--fault": "fault"}
OUTPUT, ERRORS = 1, 2


class Refused(Exception):
    """Nothing is drawn: the status, and why."""

    def __init__(self, status, why):
        super().__init__(status, why)
        self.status, self.why = status, why


@dataclass
class Wanted:
    trace: str | None = None
    perfetto: bool | None = None
    first: int | None = None
    last: int | None = None
    lines: tuple | None = None
    fault: int | None = None


def wrong_words(why):
    return Refused(2, f"{why}; trace_picture --help says more")


def place_of(option, words):
    """The place that stands after an option."""
    word = words.pop(0) if words else ""
    if not (word.isascii() and word.isdigit() and len(word) <= 10 and int(word) > 0):
        raise wrong_words(f"after {option} stands a place, a whole number of 1 to 9,999,999,999")
    return int(word)


def lines_of(words):
    """The lines that stand after --lines."""
    found = re.fullmatch("([0-9]{1,19})-([0-9]{1,19})", words.pop(0) if words else "", re.ASCII)
    first, last = map(int, found.groups()) if found else (0, 0)
    if not 1 <= first <= last:
        raise wrong_words("after --lines stand two lines, as 1-100, counted from 1, the first not after the last")
    return first, last


def wanted_of(words):
    """What the words ask for."""
    wanted, words = Wanted(), list(words)
    while words:
        word = words.pop(0)
        if word == "-" or not word.startswith("-"):
            name, value = "trace", word
        elif word == "--perfetto":
            name, value = "perfetto", True
        elif word in NUMBERS:
            name, value = NUMBERS[word], place_of(word, words)
        elif word == "--lines":
            name, value = "lines", lines_of(words)
        else:
            raise wrong_words(f"there is no option {word}")
        if getattr(wanted, name) is not None:
            raise wrong_words(f"{word} is one too many")
        setattr(wanted, name, value)
    if wanted.trace is None:
        raise wrong_words("no TRACE is named")
    return wanted


def called(name):
    return "standard input" if name == "-" else name


def told(wanted):
    """What the file tells. Standard input by its number: Python has no file for one that is closed."""
    name = wanted.trace
    try:
        with open(0 if name == "-" else name, "rb", closefd=name != "-") as file:
            return told_of(file, wanted)
    except OSError as error:
        raise Refused(3, f"{called(name)} can't be read: {error.strerror}") from None
    except NoTrace as fault:
        raise Refused(3, f"{called(name)} isn't drawn: at {fault.place}: {fault.why}") from None


def told_of(file, wanted):
    head = head_of(file)
    if not head or not is_log(head[-1]):
        if wanted.lines:
            raise wrong_words("--lines is for a log: of a trace a range is drawn by --from and --to")
        return Story(events_of(b"".join(head) + file.read()), wanted.fault)
    if wanted.first or wanted.last:
        raise wrong_words("--from and --to are for a trace: of a log a range is drawn by --lines A-B")
    wanted.first, wanted.last = wanted.lines or (None, None)
    lines = itertools.islice(itertools.chain(head, pieces_of(file)), wanted.last)
    try:
        return LogStory(events_of_log(lines), wanted.first or 1, wanted.fault)
    except NoTrace as fault:
        more = f"; --lines 1-{fault.place - 1} draws the lines before" if fault.place > 2 else ""
        raise NoTrace(fault.place, fault.why + more) from None


def span_of(story, wanted):
    """The places that are drawn."""
    first, last = wanted.first or 1, min(wanted.last or story.last, story.last)
    if wanted.fault and wanted.fault > story.end + 1:
        raise Refused(2, f"there is no {story.PLACE} {wanted.fault}: the last {story.UNIT} is {story.end}")
    if first > last and (wanted.first or wanted.last):
        if wanted.first and wanted.last and wanted.first > wanted.last:
            raise wrong_words(f"--from {wanted.first} is after --to {wanted.last}")
        raise Refused(2, f"nothing is drawn from {story.PLACE} {first} on: the last {story.PLACE} is {story.last}")
    span = Span(first, last)
    if wanted.fault and not span.has(wanted.fault):
        raise Refused(2, f"the fault at {wanted.fault} isn't in the range, {first} to {last}")
    return span


def drawn(wanted):
    """What is to be written."""
    story = told(wanted)
    span = span_of(story, wanted)
    if wanted.perfetto:
        return Export(story, span).text()
    count = span.last - span.first + 1
    if count > MOST_DRAWN:
        many = f"{called(wanted.trace)} isn't drawn: an SVG has at most {MOST_DRAWN:,} events, and these are {count:,}"
        raise Refused(3, f"{many}; draw fewer by {story.RANGE}, or write them all by --perfetto")
    return Picture(story, span).svg()


def write(data, file):
    """Writes all bytes. Python's own files would keep back what can't be written, and fail again at the end."""
    left = memoryview(data)
    while left:
        left = left[os.write(file, left):]


def say(words):
    """A message; that it can't be written changes nothing."""
    try:
        write(os.fsencode(words), ERRORS)
    except OSError:
        pass


def put(words):
    """Writes to standard output; the status."""
    try:
        write(words.encode(), OUTPUT)
    except BrokenPipeError:
        return 1  # whoever reads has enough, as head does
    except OSError as error:
        raise Refused(3, f"standard output can't be written: {error.strerror}") from None
    return 0


def main(words):
    try:
        if "-h" in words or "--help" in words:
            return put(USAGE)
        return put(drawn(wanted_of(words)))
    except Refused as refused:
        say(f"trace_picture: {refused.why}\n")
        return refused.status
