"""JSON as the program reads it: the value of a text, or where and why it is none, and where a value of it stands."""
from __future__ import annotations

import json
import math
import re

DEEPEST = 127  # lists and objects in one another
SPACE = re.compile(r"[ \t\n\r]*")
PLAIN = re.compile(r'[^"\\\x00-\x1f]*')
NUMBER = re.compile(r"-?(?:0|[1-9][0-9]*)(?:\.[0-9]+)?(?:[eE][+-]?[0-9]+)?")
ESCAPE = re.compile(r'\\(?:["\\/bfnrt]|u[0-9a-fA-F]{4})')
SURROGATE = re.compile(r"\\u[dD][89a-fA-F]")
PAIR = re.compile(r"\\u[dD][89abAB][0-9a-fA-F]{2}\\u[dD][c-fC-F][0-9a-fA-F]{2}")
WORD = re.compile(r"[A-Za-z_][A-Za-z0-9_]*")
LITERALS = {"true": True, "false": False, "null": None}


class NoJson(Exception):
    """The text is no JSON: the offset of the fault, and why."""

    def __init__(self, at, why):
        super().__init__(at, why)
        self.at, self.why = at, why


class Real:
    """A number that is no whole number of 64 bits, as it is written: 1.0, 1e0, -0."""

    def __init__(self, text):
        self.text = text


def real_of(text):
    """One that a float has room for."""
    if math.isinf(float(text)):
        raise ValueError("too large for a float")
    return Real(text)


class Key(str):
    """A step of a path to the key itself, and not to its value."""


# ---- the value


def whole_of(text, real=real_of):
    number = int(text) if len(text) <= 20 else 2**64
    return number if -2**63 <= number < 2**64 and text != "-0" else real(text)


def no_constant(text):
    raise ValueError(text)


def why_no_text(raw, error):
    """Why bytes are no text, where Python's own reader stops."""
    if raw[:2] in (b"\xff\xfe", b"\xfe\xff"):
        return "the file is UTF-16: save it as UTF-8, without a byte order mark"
    return "the byte 0x%02x isn't UTF-8" % raw[error.start]


def is_too_deep(value, deepest=DEEPEST):
    level = [value]
    for _ in range(deepest):
        level = [it for it in level if isinstance(it, (list, dict))]
        if not level:
            return False
        level = [inner for it in level for inner in (it.values() if isinstance(it, dict) else it)]
    return any(isinstance(it, (list, dict)) for it in level)


QUICK = json.JSONDecoder(parse_int=whole_of, parse_float=real_of, parse_constant=no_constant)


def value_of(text, quick=QUICK, real=real_of, deepest=DEEPEST, line=1):
    """The value of the text, or NoJson. Python's own reader is quick, and where it stops the slow one says why. The caller may
    say which numbers are too large, what is nested too deep, and the number of the text's first line."""
    try:
        value = quick.decode(text)
        if not SURROGATE.search(text) and not is_too_deep(value, deepest):
            return value
    except (ValueError, RecursionError):
        pass
    return Reader(text, real, deepest, line).whole()


class Reader:
    """Reads a text step by step, up to its first fault."""

    def __init__(self, text, real=real_of, deepest=DEEPEST, line=1):
        self.text, self.real, self.deepest, self.line = text, real, deepest, line

    def skip(self, at):
        return SPACE.match(self.text, at).end()

    def sign(self, at):
        return self.text[at:at + 1]

    def here(self, at):
        """What stands at an offset, in words."""
        sign, word = self.sign(at), WORD.match(self.text, at)
        if not sign:
            return "found the end of the text"
        if sign == "/" and self.sign(at + 1) in ("/", "*") or sign == "#":
            return "found a comment; JSON has none"
        if word:
            return "found %s without double quotes" % word[0][:32]
        if sign in "'\u2018\u2019\u201c\u201d`":
            return "found %s: texts stand in double quotes" % sign
        return "found %s" % (sign if sign.isprintable() and sign != " " else "the sign U+%04X" % ord(sign))

    def whole(self):
        if not self.text.strip(" \t\n\r"):
            raise NoJson(0, "the text is empty")
        if self.text.startswith("\ufeff"):
            raise NoJson(0, "the file begins with a byte order mark: save it as UTF-8 without one")
        value, at = self.value(0, 0)
        at = self.skip(at)
        if at < len(self.text):
            raise NoJson(at, "unexpected text after the end of the JSON value: %s" % self.here(at))
        return value

    def value(self, at, depth):
        """The value that begins here, and where it ends."""
        at = self.skip(at)
        sign = self.sign(at)
        if sign and sign in "[{":
            if depth == self.deepest:
                raise NoJson(at, "lists and objects are nested more than %d deep" % self.deepest)
            return self.list(at, depth + 1) if sign == "[" else self.object(at, depth + 1)
        if sign == '"':
            return self.string(at)
        if sign and sign in "-0123456789":
            return self.number(at)
        word = WORD.match(self.text, at)
        if word and word[0] in LITERALS:
            return LITERALS[word[0]], word.end()
        raise NoJson(at, "expected a value, but %s" % self.here(at))

    def closed(self, at, closing, what, began):
        """Where the next item begins; none where the list or the object is closed. After an item stands a comma or its end."""
        at = self.skip(at)
        if self.sign(at) == closing:
            return None, at + 1
        if self.sign(at) != ",":
            line, column = line_and_column(self.text, began)
            of = "of the %s that begins at %d:%d" % (what, self.line - 1 + line, column)
            raise NoJson(at, "expected a comma or the %s %s, but %s" % (closing, of, self.here(at)))
        following = self.skip(at + 1)
        if self.sign(following) == closing:
            raise NoJson(at, "unexpected comma after the last item of the %s: expected %s" % (what, closing))
        return following, at

    def list(self, began, depth):
        items, at = [], self.skip(began + 1)
        if self.sign(at) == "]":
            return items, at + 1
        while True:
            value, at = self.value(at, depth)
            items.append(value)
            following, at = self.closed(at, "]", "list", began)
            if following is None:
                return items, at
            at = following

    def object(self, began, depth):
        members, at = {}, self.skip(began + 1)
        if self.sign(at) == "}":
            return members, at + 1
        while True:
            if self.sign(at) != '"':
                raise NoJson(at, "expected a key in double quotes, but %s" % self.here(at))
            key, at = self.string(at)
            at = self.skip(at)
            if self.sign(at) != ":":
                raise NoJson(at, "expected a colon after the key, but %s" % self.here(at))
            members[key], at = self.value(at + 1, depth)
            following, at = self.closed(at, "}", "object", began)
            if following is None:
                return members, at
            at = following

    def string(self, began):
        at = began + 1
        while True:
            at = PLAIN.match(self.text, at).end()
            sign = self.sign(at)
            if sign == '"':
                return json.loads(self.text[began:at + 1]), at + 1
            if sign in ("", "\n", "\r"):
                raise NoJson(began, "the text that begins here isn't closed: expected its second double quote")
            if sign != "\\":
                raise NoJson(at, "a text has the sign U+%04X, which is written \\u%04x there" % (ord(sign), ord(sign)))
            at = self.escape(at)

    def escape(self, at):
        found = ESCAPE.match(self.text, at)
        if not found:
            raise NoJson(at, "expected one of \" \\ / b f n r t after \\ in a text, or u and four hexadecimal digits")
        if not SURROGATE.match(self.text, at):
            return found.end()
        pair = PAIR.match(self.text, at)
        if not pair:
            raise NoJson(at, "%s is half of a pair, and the other half isn't beside it" % found[0])
        return pair.end()

    def number(self, at):
        found = NUMBER.match(self.text, at)
        if not found:
            raise NoJson(at, "expected digits after -")
        end = found.end()
        following = self.sign(end)
        if following.isdigit():
            raise NoJson(at, "a number of more than one digit doesn't begin with 0")
        if following and following in ".eE":
            raise NoJson(end, "expected digits after %s in a number" % following)
        try:
            return whole_of(found[0], self.real) if found[0].lstrip("-").isdigit() else self.real(found[0]), end
        except ValueError:
            raise NoJson(at, "this number is too large for a float of 64 bits") from None


def keys_twice(text):
    """The keys that an object of the text names twice, which is JSON, and means what isn't specified."""
    found = []

    def look(members):
        keys = [key for key, _ in members]
        found.extend(key for at, key in enumerate(keys) if key in keys[:at])
        return dict(members)

    json.loads(text, object_pairs_hook=look, parse_int=str, parse_float=str)
    return found


# ---- where a value stands

SKIPPER = json.JSONDecoder(parse_int=str, parse_float=str)


def end_of(text, at):
    """Where the value that begins here ends. The text is JSON."""
    return SKIPPER.raw_decode(text, at)[1]


def item_at(text, at, index):
    """The offset of an item of the list that begins here."""
    at = SPACE.match(text, at + 1).end()
    for _ in range(index):
        at = SPACE.match(text, end_of(text, at)).end()  # at the comma
        at = SPACE.match(text, at + 1).end()
    return at


def member_at(text, at, key):
    """The offset of the value at a key of the object that begins here, or of the key itself. Of two, the last one's."""
    found, at = None, SPACE.match(text, at + 1).end()
    while text[at] != "}":
        key_at, end = at, end_of(text, at)
        at = SPACE.match(text, SPACE.match(text, end).end() + 1).end()
        if json.loads(text[key_at:end]) == key:
            found = key_at if isinstance(key, Key) else at
        at = SPACE.match(text, end_of(text, at)).end()
        if text[at] == ",":
            at = SPACE.match(text, at + 1).end()
    return found


def offset_of(text, path):
    """The offset of the value to which the path leads, by keys and indexes from the outermost value."""
    at = SPACE.match(text).end()
    for step in path:
        at = member_at(text, at, step) if isinstance(step, str) else item_at(text, at, step)
    return at


def line_and_column(text, at):
    """The line and the column of an offset, both counted from 1, in signs."""
    return text.count("\n", 0, at) + 1, at - text.rfind("\n", 0, at)
