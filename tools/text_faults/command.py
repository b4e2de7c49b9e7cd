"""The words of the command line, the files, the lines and the statuses."""
from __future__ import annotations

import io
import itertools
import os
from dataclasses import dataclass

from .events import Events
from .forms import CALLED, KINDS, Fault, count_of, near, shown
from .json_text import NoJson, keys_twice, line_and_column, offset_of, value_of, why_no_text
from .logs import LineFault, head_of, is_log, judged, pieces_of
from .programs import Program, unnamed
from .refused import Follower, OtherProgram
from .traces import Trace
from .world import first_fault

USAGE = """\
usage: program_check [--kind KIND] FILE
       program_check --trace TRACE
       program_check PROGRAM --trace TRACE

Says where and why ./phaser_run refuses a text: file, line, column, the number of the act, call or event, and why. It judges
nothing: what counts is the program's answer. FILE is a program, an events file, a trace or a log, or - for standard input.

  --kind KIND   what FILE is: program, events, trace or log; without it that is found by its keys, of a log by its first line
  --trace TRACE a trace; where no run makes it: its first event that can't be made, and why
  -h, --help    prints this

With PROGRAM and a TRACE of its run: of each task that was refused, the act in PROGRAM, the phaser by its name there, and why.

Status 0: nothing is wrong, or there are warnings alone. 1: something is wrong, or standard output was closed. 2: wrong words.
3: a file can't be read, or standard output can't be written.
"""
FORMS = {"program": Program, "events": Events, "trace": Trace}
NAMES = (*FORMS, "log")  # of kinds
MOST_READ = max(most for _, _, most, _, _ in KINDS.values()) + 1
OUTPUT, ERRORS = 1, 2
DONE, WRONG, BAD_WORDS, FAULT = 0, 1, 2, 3


class Stop(Exception):
    """The status, the line that says why, and the place of the fault, if a text has one."""

    def __init__(self, status, line, place=None):
        super().__init__(status, line, place)
        self.status, self.line, self.place = status, line, place


@dataclass
class Wanted:
    file: str | None = None
    kind: str | None = None
    trace: str | None = None


# ---- the words


def wrong_words(why):
    return Stop(BAD_WORDS, "%s; program_check --help says more" % why)


def wanted_of(words):
    wanted, words = Wanted(), list(words)
    while words:
        word = words.pop(0)
        name, is_option = ("file", False) if word == "-" or not word.startswith("-") else (word[2:], True)
        if is_option and word not in ("--kind", "--trace", "--"):
            raise wrong_words("there is no option %s" % word)
        if is_option and not words:
            raise wrong_words("%s wants a value" % word)
        if word == "--":
            name = "file"
        if getattr(wanted, name) is not None:
            raise wrong_words("%s is one too many" % word)
        setattr(wanted, name, words.pop(0) if is_option else word)
    if wanted.file is None and wanted.trace is None:
        raise wrong_words("no FILE is named")
    if wanted.kind is not None and wanted.kind not in NAMES:
        raise wrong_words("a kind is one of %s" % ", ".join(NAMES) + near(wanted.kind, NAMES))
    if wanted.file is not None and wanted.trace is not None and wanted.kind not in (None, "program"):
        raise wrong_words("with --trace FILE is a program")
    return wanted


# ---- the files


def called(name):
    return "standard input" if name == "-" else name


def of_file(name, read):
    """What is read from a file of this name. Standard input by its number: it may be closed."""
    try:
        with open(0 if name == "-" else name, "rb", closefd=name != "-") as file:
            return read(file)
    except OSError as error:
        raise Stop(FAULT, "%s can't be read: %s" % (called(name), error.strerror)) from None


def kind_by_keys(words):
    """The kind of which most keys are among the words; of what is of none, a program."""
    def score(kind):
        listed, known = KINDS[kind][:2]
        own = [it for it in known if it != "limits"]
        return sum(it in words for it in own) + 2 * (listed in words), sum(bool(near(word, own)) for word in words)
    return max(KINDS, key=score)


@dataclass
class Text:
    """A file as it was read, and its value."""
    name: str
    text: str
    kind: str
    value: object

    def line(self, at, words):
        return "%s:%d:%d: %s" % (called(self.name), *line_and_column(self.text, at), words)

    def at(self, path, words):
        return self.line(offset_of(self.text, path), words)


def decoded(name, raw):
    try:
        return raw.decode()
    except UnicodeDecodeError as error:
        before = Text(name, raw[:error.start].decode(), "", None)
        raise Stop(WRONG, before.line(len(before.text), why_no_text(raw, error)), 0) from None


def text_of(name, kind):
    """The text of a file with its JSON value, but for what is past every limit."""
    return text_in(name, of_file(name, lambda file: file.read(MOST_READ)), kind)


def text_in(name, raw, kind):
    guess = kind or kind_by_keys([it for kind in KINDS.values() for it in kind[1] if ('"%s"' % it).encode() in raw])
    most = KINDS[guess][2]
    if len(raw) > most:
        before = Text(name, raw[:most].decode(errors="replace"), "", None)
        why = "the text goes on, and %s has at most %s bytes" % (CALLED[guess], format(most, ","))
        raise Stop(WRONG, before.line(len(before.text), why), 0)
    text = decoded(name, raw)
    try:
        value = value_of(text)
    except NoJson as fault:
        at, why = fault.at, "not JSON: %s" % fault.why
        if is_log_text(raw):
            at, why = 0, "this is a log and no %s: judge reads it, and program_check --kind log says what is wrong with it" % guess
        raise Stop(WRONG, Text(name, text, guess, None).line(at, why), 0) from None
    return Text(name, text, kind or kind_by_keys(list(value) if isinstance(value, dict) else []), value)


def is_log_text(raw):
    return is_log(b"".join(head_of(io.BytesIO(raw))[-1:]))


# ---- what is said


def checked(text):
    """What the text of its kind spells. Stops where it is refused."""
    try:
        return FORMS[text.kind]().read(text.value)
    except Fault as fault:
        item = KINDS[text.kind][3]
        where = "%s %d, %s: " % (item, fault.place, fault.part) if fault.place else ""
        why = fault.why
        own = kind_by_keys(list(text.value)) if isinstance(text.value, dict) else text.kind
        if not fault.place and own != text.kind:
            why += "; by its keys the file is %s, which %s read%s" % (CALLED[own], KINDS[own][4], "" if " and " in KINDS[own][4] else "s")
        raise Stop(WRONG, text.at(fault.path, where + why), fault.place) from None


def event_at(text, place, why):
    """The line of an event of a trace, or of what is missing after the last."""
    events = text.value["events"]
    if place > len(events):
        return text.at(("events",), "event %d, after the last: %s" % (place, why))
    return text.at(("events", place - 1), "event %d, ticket %d: %s" % (place, events[place - 1][0], why))


def replayed(text, seen=None):
    """Makes the events of a trace again; stops at the first that can't be made."""
    limits, events = checked(text)
    fault = first_fault(limits, events, *[seen] * (seen is not None))
    if fault:
        raise Stop(WRONG, event_at(text, *fault), fault[0])
    return events


def refused_tasks(events):
    return sum(it.kind == "t" and it.name in ("refuse", "fail") for it in events)


def fine(text, what, warnings=()):
    twice = keys_twice(text.text)
    if twice:
        what += "; the key %s stands twice in one object, and which counts isn't specified" % shown(twice[0])
    good = "its form is right" if warnings else "nothing is wrong"
    return ["%s: %s: %s %s" % (called(text.name), good, CALLED[text.kind], what)]


def said_of_trace(text):
    events = replayed(text)
    refused = refused_tasks(events)
    what = "of %s, which a run makes" % count_of(len(events), "event")
    if refused:
        which = "program_check PROGRAM --trace %s says which act, where PROGRAM is what was run" % text.name
        what += "; %s refused in it: %s" % ("1 task is" if refused == 1 else "%d tasks are" % refused, which)
    return DONE, fine(text, what)


def said_of_program(text):
    """Whatever task comes to an act that names no phaser is refused it, so that is a warning."""
    acts = checked(text)
    why = 'warning: act %d, %s: nothing before names phaser "%s"%s; a task is refused this act by 1 NotRegistered'
    warnings = [text.at(act.path, why % (act.place, act.part, name, near(name, known))) for act, name, known in unnamed(acts)]
    return DONE, [*warnings, *fine(text, "whose root has " + count_of(len(acts), "act"), warnings)]


def said_of_text(text):
    if text.kind == "trace":
        return said_of_trace(text)
    if text.kind == "program":
        return said_of_program(text)
    return DONE, fine(text, "of " + count_of(len(checked(text)), "call"))


def said_of_log(name, pieces):
    try:
        events = judged(pieces)
    except LineFault as fault:
        line = "%s:%d:%d: %s" % (called(name), fault.line, fault.at + 1, fault.why)
        raise Stop(WRONG, line, fault.line) from None
    return DONE, ["%s: nothing is wrong: a log of %s of phasers" % (called(name), count_of(events, "event"))]


def said_of_file(name, file, kind):
    """What is said of an open file. A log is read line by line, since it may be of any length."""
    head = head_of(file) if kind in (None, "log") else []
    if kind == "log" or head and is_log(head[-1]):
        return said_of_log(name, itertools.chain(head, pieces_of(file)))
    return said_of_text(text_in(name, b"".join(head) + file.read(MOST_READ), kind))


def said_of_run(program, trace):
    """Of each task that was refused in the trace of a run of the program: its act, and why."""
    follower = Follower(checked(program))
    try:
        replayed(trace, follower.see)
    except OtherProgram as other:
        why = "this isn't a trace of %s, so nothing is known of its acts: %s" % (called(program.name), other.why)
        raise Stop(WRONG, event_at(trace, other.place, why)) from None
    if not follower.refused:
        return DONE, ["%s: nothing is wrong: no task was refused in %s" % (called(program.name), called(trace.name))]
    return WRONG, [program.at(it.path, it.why) for it in follower.refused]


def said(wanted):
    if wanted.trace is None:
        return of_file(wanted.file, lambda file: said_of_file(wanted.file, file, wanted.kind))
    if wanted.file is None:
        return said_of_text(text_of(wanted.trace, "trace"))
    return said_of_run(text_of(wanted.file, "program"), text_of(wanted.trace, "trace"))


def place_of_fault(raw, kind):
    """The place at which a text of this kind is refused; none where it isn't."""
    try:
        said_of_file("-", io.BytesIO(raw), kind)
    except Stop as stop:
        return stop.place
    return None


def faults_of_trace(name, raw):
    """The lines that say why the bytes are the trace of no run; none if a run makes them."""
    try:
        said_of_trace(text_in(name, raw, "trace"))
    except Stop as stop:
        return [stop.line]
    return []


# ---- the streams


def write(data, file):
    """Writes all bytes. Python's own files would keep back what can't be written, and fail again at the end."""
    left = memoryview(data)
    while left:
        left = left[os.write(file, left):]


def put(lines, status):
    """Writes lines to standard output; the status."""
    try:
        write(os.fsencode("".join("%s\n" % it.encode("utf-8", "surrogateescape").decode("utf-8", "replace") for it in lines)), OUTPUT)
    except BrokenPipeError:
        return WRONG  # whoever reads has enough, as head does
    except OSError as error:
        raise Stop(FAULT, "standard output can't be written: %s" % error.strerror) from None
    return status


def main(words):
    try:
        if "-h" in words or "--help" in words:
            return put([USAGE.rstrip("\n")], DONE)
        try:
            status, lines = said(wanted_of(words))
        except Stop as stop:
            if stop.status != WRONG:
                raise
            status, lines = WRONG, [stop.line]
        return put(lines, status)
    except Stop as stop:
        try:
            write(os.fsencode("program_check: %s\n" % stop.line), ERRORS)
        except OSError:
            pass
        return stop.status
