"""JSON with places: what steer reads as JSON, and where in the text each value stands.

Scalars are Python's own (a numeral with point or exponent, or minus zero, is a Numeral); lists
and objects know the offset of each member. Offsets count characters of the text from 0.
"""

from __future__ import annotations

import bisect
import re
import sys
from array import array
from typing import Any, Tuple

from . import limits

_BLANKS = re.compile(r"[ \t\n\r]*")
_PLAIN = re.compile(r'"([^"\\\x00-\x1f]*)"')
_MEMBER = re.compile(
    r'[ \t\n\r]*("([^"\\\x00-\x1f]*)"|0|[1-9][0-9]{0,17})[ \t\n\r]*,')
_RUN = re.compile(r'[^"\\\x00-\x1f]*')
_NUMERAL = re.compile(r"-?(?:0|[1-9][0-9]*)(\.[0-9]+)?([eE][-+]?[0-9]+)?")
_HEXADECIMAL = re.compile(r"[0-9a-fA-F]{4}")
_WORDS = {"true": True, "false": False, "null": None}
_ESCAPES = {'"': '"', "\\": "\\", "/": "/", "b": "\b", "f": "\f", "n": "\n", "r": "\r",
            "t": "\t"}


class Fault(Exception):
    """The text is no JSON: the offset of the place, and what is wrong there."""

    def __init__(self, offset: int, reason: str) -> None:
        super().__init__(offset, reason)
        self.offset = offset
        self.reason = reason


class Numeral(str):
    """A number that is no whole number without sign and exponent, as it is written."""


# A value that was read: a scalar, a Numeral, a List or an Object. Member: a name of an Object with
# the offset of the name, the value, and the offset of the value.
Value = Any
Member = Tuple[str, int, Value, int]


class List:
    """A list: its `values`, and the offset `starts[i]` of value i."""

    __slots__ = ("values", "starts")

    def __init__(self) -> None:
        self.values: list[Value] = []
        self.starts = array("Q")


class Object:
    """An object: `members` of (name, offset of the name, value, offset of the value)."""

    __slots__ = ("members",)

    def __init__(self) -> None:
        self.members: list[Member] = []

    def last(self) -> dict[str, Member]:
        """The member that counts for each name, which is its last, by name in their order."""
        return {member[0]: member for member in self.members}


class Places:
    """Lines and columns of a text."""

    def __init__(self, text: str) -> None:
        self.starts = [0] + [found.end() for found in re.finditer("\n", text)]

    def of(self, offset: int) -> tuple[int, int]:
        """Line and column of an offset, both from 1."""
        line = bisect.bisect_right(self.starts, offset)
        return line, offset - self.starts[line - 1] + 1


def skip_blanks(text: str, offset: int) -> int:
    """The offset of the first character from here on that is no blank."""
    found = _BLANKS.match(text, offset)
    return found.end() if found else offset


def _code_unit(text, offset):
    found = _HEXADECIMAL.match(text, offset + 2)
    if text[offset:offset + 2] != "\\u" or not found:
        return None
    return int(found.group(), 16)


def _escape(text, offset):
    """The character of the escape here, and the offset behind it."""
    letter = text[offset + 1:offset + 2]
    if letter in _ESCAPES and letter:
        return _ESCAPES[letter], offset + 2
    unit = _code_unit(text, offset)
    if unit is None:
        raise Fault(offset, "`\\%s` is no escape of JSON" % letter)
    if not 0xd800 <= unit < 0xe000:
        return chr(unit), offset + 6
    second = _code_unit(text, offset + 6)
    if unit >= 0xdc00 or second is None or not 0xdc00 <= second < 0xe000:
        raise Fault(offset, "a surrogate that stands alone")
    return chr(0x10000 + ((unit - 0xd800) << 10) + (second - 0xdc00)), offset + 12


def string(text: str, offset: int) -> tuple[str, int]:
    """The text whose opening quotation mark is here, and the offset behind it."""
    found = _PLAIN.match(text, offset)
    if found:
        return sys.intern(found.group(1)), found.end()
    parts, begin, offset = [], offset, offset + 1
    while True:
        found = _RUN.match(text, offset)
        if found:
            parts.append(found.group())
            offset = found.end()
        if offset == len(text):
            raise Fault(begin, "a text without its closing quotation mark")
        if text[offset] == '"':
            return "".join(parts), offset + 1
        if text[offset] != "\\":
            raise Fault(offset, "a %s inside a text"
                        % ("line break" if text[offset] == "\n" else
                           "control character 0x%02x" % ord(text[offset])))
        character, offset = _escape(text, offset)
        parts.append(character)


def _numeral(text, offset):
    found = _NUMERAL.match(text, offset)
    if not found:
        raise Fault(offset, "a sign without a number")
    written = found.group()
    if float(written) in (float("inf"), float("-inf")):
        raise Fault(offset, "a number beyond the largest that there is")
    if found.group(1) or found.group(2) or written == "-0" or len(written) > 40:
        return Numeral(written), found.end()
    return int(written), found.end()


def _list(text, offset, depth):
    read, begin = List(), offset
    offset = skip_blanks(text, offset + 1)
    if text[offset:offset + 1] in ("]", ""):
        return read, _closed(text, offset, "]", begin)
    while True:
        found = _MEMBER.match(text, offset)
        while found:
            words = found.group(2)
            read.values.append(int(found.group(1)) if words is None else sys.intern(words))
            read.starts.append(found.start(1))
            offset = found.end()
            found = _MEMBER.match(text, offset)
        offset = skip_blanks(text, offset)
        read.starts.append(offset)
        value, offset = value_at(text, offset, depth)
        read.values.append(value)
        offset = skip_blanks(text, offset)
        if text[offset:offset + 1] != ",":
            return read, _closed(text, offset, "]", begin)
        offset += 1


def _closed(text, offset, bracket, begin):
    """The offset behind the closing bracket, which has to be here."""
    if text[offset:offset + 1] == bracket:
        return offset + 1
    if offset == len(text):
        raise Fault(begin, "a bracket that is never closed")
    raise Fault(offset, "neither a comma nor `%s`" % bracket)


def _object(text, offset, depth):
    read, begin = Object(), offset
    offset = skip_blanks(text, offset + 1)
    if text[offset:offset + 1] in ("}", ""):
        return read, _closed(text, offset, "}", begin)
    while True:
        start = offset
        if text[offset:offset + 1] != '"':
            raise Fault(offset, "no key in quotation marks")
        name, offset = string(text, offset)
        offset = skip_blanks(text, offset)
        if text[offset:offset + 1] != ":":
            raise Fault(offset, "no colon behind the key `%s`" % name)
        offset = skip_blanks(text, offset + 1)
        value, end = value_at(text, offset, depth)
        read.members.append((name, start, value, offset))
        offset = skip_blanks(text, end)
        if text[offset:offset + 1] != ",":
            return read, _closed(text, offset, "}", begin)
        offset = skip_blanks(text, offset + 1)


def value_at(text: str, offset: int, depth: int = 0) -> tuple[Value, int]:
    """The value that begins here, inside `depth` open brackets, and the offset behind it."""
    first = text[offset:offset + 1]
    if first == '"':
        return string(text, offset)
    if first in ("[", "{") and first:
        if depth >= limits.MOST_BRACKETS:
            raise Fault(offset, "more than %d brackets open at once" % limits.MOST_BRACKETS)
        return (_list if first == "[" else _object)(text, offset, depth + 1)
    if first in "-0123456789" and first:
        return _numeral(text, offset)
    for word in _WORDS:
        if text.startswith(word, offset):
            return _WORDS[word], offset + len(word)
    raise Fault(offset, "no value" if first else "the text ends where a value should be")


def parse(text: str) -> tuple[Value, int]:
    """The value that is the whole text, and the offset of its beginning. Raises Fault."""
    start = skip_blanks(text, 0)
    value, end = value_at(text, start)
    end = skip_blanks(text, end)
    if end != len(text):
        raise Fault(end, "something behind the end of the value")
    return value, start


def plain(value: Value) -> Any:
    """A read value as Python's own lists and dicts; of equal names the last stays."""
    if isinstance(value, List):
        return [plain(member) for member in value.values]
    if isinstance(value, Object):
        return {name: plain(member[2]) for name, member in value.last().items()}
    return value
