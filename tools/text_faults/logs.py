"""A log: the form of its lines, and which of them a judge refuses. docs/formats.md, "Lines of events"."""
from __future__ import annotations

import json

from .forms import CALLED, KINDS, Fault, Form, is_whole, near, shown
from .json_text import Key, NoJson, Real, keys_twice, no_constant, offset_of, value_of, why_no_text, whole_of
from .phasers import LoggedPhaser
from .traces import MOST_TICKET, RANGES, Event, Trace
from .world import event_of, said, told

HEADER = '{"version":2}'
EXAMPLE = '[1,"p",0,"sig",0]'
MOST_BYTES = 65536  # of a line, its newline not among them
BLANKS = b" \t\r\n"
DEEPEST = 128  # lists and objects in one another
MOST_BOUND = 65536  # by which a phaser without one is judged
MARKS = ("p", "f", "t")


class LineFault(Exception):
    """A line is refused: its number, the offset of the fault in it, and why."""

    def __init__(self, line, at, why):
        super().__init__(line, at, why)
        self.line, self.at, self.why = line, at, why


# ---- lines


def pieces_of(file):
    """The lines of a file, each as far as a line may go and one byte more."""
    return iter(lambda: file.readline(MOST_BYTES + 2), b"")


def is_blank(line):
    return not line.strip(BLANKS)


def head_of(file):
    """The lines of a file up to the first that isn't blank."""
    head = []
    for line in pieces_of(file):
        head.append(line)
        if not is_blank(line):
            break
    return head


def is_header_like(value):
    return len(value) == 1 and near(next(iter(value)), ("version",)) != ""


def is_log(line):
    """Whether a text is a log, by its first line that isn't blank: the header, or an event."""
    try:
        value = json.loads(line.decode())
    except (ValueError, RecursionError):
        return False
    if isinstance(value, dict):
        return is_header_like(value)
    return isinstance(value, list) and value[1:2] != [] and value[1] in MARKS


# ---- the value of a line

# Numbers of any size are JSON here: those of tasks and finishes aren't looked at.
QUICK = json.JSONDecoder(parse_int=lambda text: whole_of(text, Real), parse_float=Real, parse_constant=no_constant)


def what_to_do(text, at, is_whole_line):
    """How a line that is no JSON is mended, as far as its place tells."""
    rest = text[at:].strip()
    if not rest or rest.startswith('"') and rest.count('"') == 1:
        return "an event stands on one line" if is_whole_line else "the log breaks off here: leave this line out"
    if text[:at].rstrip().endswith("]"):
        return "no comma stands between lines" if rest == "," else "each event has a line of its own"
    return ""


def read_value(number, raw):
    """The text and the value of a line; none of a blank one."""
    line = raw[:-1] if raw.endswith(b"\n") else raw
    if len(line) > MOST_BYTES:
        why = "a line has at most %s bytes, and this one has more: each event has a line of its own"
        raise LineFault(number, 0, why % format(MOST_BYTES, ","))
    if is_blank(line):
        return None
    try:
        text = line.decode()
    except UnicodeDecodeError as error:
        raise LineFault(number, len(line[:error.start].decode()), why_no_text(line, error)) from None
    try:
        return text, value_of(text, QUICK, Real, DEEPEST, number)
    except NoJson as fault:
        words = ["not JSON: %s" % fault.why, what_to_do(text, fault.at, raw.endswith(b"\n"))]
        raise LineFault(number, fault.at, "; ".join(filter(None, words))) from None


# ---- the form of a line


class Header(Form):
    kind = "log"

    def read(self, value, text):
        if isinstance(value, list):
            self.fault((), "the header is missing: write %s as the first line, before this" % HEADER)
        if not isinstance(value, dict):
            self.fault((), "a log begins with the header %s, but found %s" % (HEADER, shown(value)))
        for kind, (listed, *_, reader) in KINDS.items():
            if listed in value:
                self.fault((), "this is %s and no log: %s read%s it" % (CALLED[kind], reader, "" if " and " in reader else "s"))
        for key in value:
            if key != "version":
                self.fault((Key(key),), "the header is %s, and has no key %s%s" % (HEADER, shown(key), near(key, ("version",))))
        if keys_twice(text):
            self.fault((Key("version"),), "the version stands twice in the header, which is %s" % HEADER)
        if not value:
            self.fault((), "the header is %s, but found an empty object" % HEADER)
        if not is_whole(value["version"], 2, 2):
            self.fault(("version",), "the header is %s, but found %s" % (HEADER, shown(value["version"])))


class Line(Trace):
    kind = "log"
    ranges = {**RANGES, **{name: (0, MOST_TICKET) for name in ("ph", "t", "q")}}

    def read(self, value):
        """The event of a line. One of a task or of a finish has nothing but its ticket."""
        if not isinstance(value, list) or not value:
            again = ": a log has one header, in its first line" if isinstance(value, dict) and is_header_like(value) else ""
            here = "an empty list" if value == [] else shown(value)
            self.fault((), "a line is an event, a list as %s, but found %s%s" % (EXAMPLE, here, again))
        self.number(value[0], (0,), "the ticket", 0, MOST_TICKET)
        if len(value) == 1:
            self.fault((), 'a ticket is followed by "p", "f" or "t", and here nothing follows it')
        self.one_of(value[1], (1,), "what follows the ticket", MARKS)
        return self.event(value, ()) if value[1] == "p" else Event(value[0], value[1], 0, "", [])


def form_of(number, text, read, *given):
    """What a reader of forms makes of a line."""
    try:
        return read(*given)
    except Fault as fault:
        raise LineFault(number, offset_of(text, fault.path), fault.why) from None


def read_log(pieces):
    """The lines of a log after its header, but for blank ones: the number of each, its value and its event. Stops with
    LineFault at the first that is of no form."""
    has_header, number = False, 0
    for number, raw in enumerate(pieces, 1):
        found = read_value(number, raw)
        if found is None:
            continue
        text, value = found
        if has_header:
            yield number, value, form_of(number, text, Line().read, value)
        else:
            form_of(number, text, Header().read, value, text)
            has_header = True
    if not has_header:
        raise LineFault(number + 1, 0, "the log is empty: its first line is the header %s" % HEADER)


# ---- what can happen


class Judge:
    """The phasers that are there, and the ticket of the last line. An event is made if nothing is against it."""

    def __init__(self):
        self.phasers, self.ticket, self.events = {}, None, 0

    def why_not(self, traced):
        """Why a line is refused; none if it isn't, and then its event has happened."""
        if self.ticket is not None and traced.ticket <= self.ticket:
            return "its ticket, %d, isn't greater than that of the line before, %d" % (traced.ticket, self.ticket)
        self.ticket = traced.ticket
        if traced.kind != "p":
            return None
        _, number, name, *items = event = event_of(traced)
        why = self.why_no_event(number, name, items)
        if why:
            return "%s: %s" % (said(event), why)
        self.make(number, name, items)
        return None

    def why_no_event(self, number, name, items):
        phaser = self.phasers.get(number)
        if name == "make":
            return phaser and "%s was made already, and tasks are on it still" % phaser
        if phaser is None:
            return "phaser %d isn't made, or its last task has left it" % number
        reason = getattr(phaser, "why_no_" + name)(*items)
        return reason and told(reason)

    def make(self, number, name, items):
        self.events += 1
        if name == "make":
            task, mode, operators, bound = items
            phaser = self.phasers[number] = LoggedPhaser(number)
            phaser.make(task, mode, operators, bound or MOST_BOUND, 0)
            return
        phaser = self.phasers[number]
        getattr(phaser, "pass_" if name == "pass" else name)(*items)
        if not phaser.alive:
            del self.phasers[number]


def judged(pieces):
    """How many events of phasers a log has. Stops with LineFault at the line that a judge refuses."""
    judge = Judge()
    for number, _, event in read_log(pieces):
        why = judge.why_not(event)
        if why:
            raise LineFault(number, 0, "ticket %d: %s" % (event.ticket, why))
    return judge.events
