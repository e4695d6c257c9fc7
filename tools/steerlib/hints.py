"""What the writer of a wrong plan may have meant."""

from __future__ import annotations

import difflib
import functools
import re
from typing import Iterable

from . import processors

# Names on the machine, and what a plan calls them.
MACHINE_NAMES = {
    "rps_cpus": "mask", "rps_flow_cnt": "flows", "rps_sock_flow_entries": "sock",
    "netdev_max_backlog": "backlog", "flow_limit_cpu_bitmap": "limited", "xps_cpus": "cpus",
    "xps_rxqs": "queues", "smp_affinity_list": "home", "irq": "home", "affinity": "home",
    "hkey": "key", "indir": "reta", "table": "reta", "readers": "apps", "cpu": "home",
    "processors": "cpus", "rx": "queues",
}

# What a value has to be changed for, where the plan's is another than the machine's.
MEANINGS = {
    "netdev_max_backlog": ", which is one more",
    "flow_limit_cpu_bitmap": ", which names the processors that are put to, and not those that put",
}

CAPTURE_MAGICS = (b"\xd4\xc3\xb2\xa1", b"\xa1\xb2\xc3\xd4", b"\x4d\x3c\xb2\xa1",
                  b"\xa1\xb2\x3c\x4d", b"\x0a\x0d\x0d\x0a")


@functools.lru_cache(maxsize=None)
def _letters(word):
    return frozenset(word)


def near(word: str, known: Iterable[str], least: float = 0.5) -> str | None:
    """The one of the `known` words that `word` is most like, or None."""
    letters = set(word.lower())
    alike = [one for one in known if 2 * len(letters & _letters(one)) >= len(_letters(one))]
    meant = difflib.get_close_matches(word.lower(), alike, 1, least)
    return meant[0] if meant else None


def of_key(name: str, known: Iterable[str]) -> str:
    """A suffix that says which of the `known` keys `name` may be, or nothing."""
    meant = MACHINE_NAMES.get(name.lower())
    if meant is None or meant not in known:
        meant = near(name, known)
    return ", is it `%s`%s?" % (meant, MEANINGS.get(name.lower(), "")) if meant else ""


def of_set(value: object) -> str:
    """A suffix that reads a text as a mask or list of sysfs, or nothing."""
    if not isinstance(value, str):
        return "; a set of one is [%d]" % value if type(value) is int and value >= 0 else ""
    parse, form = processors.parse_mask, "as a hexadecimal mask"
    if re.fullmatch("[0-9]+(-[0-9]+)?(,[0-9]+(-[0-9]+)?)*", value) and "-" in value:
        parse, form = processors.parse_list, "as a list of sysfs"
    try:
        members = parse(value)
    except ValueError:
        return ""
    return "; %s that is [%s]" % (form, ", ".join(map(str, members)))


def of_number(value: object) -> str:
    """A suffix that gives the number which a text or numeral may stand for, or nothing."""
    if not isinstance(value, str):
        return ""
    try:
        number = float(value)
    except ValueError:
        return ""
    if number == int(number) and 0 <= number < 2 ** 53:
        return "; written as digits alone it is %d" % number
    return ""


def of_receive_key(value: object) -> str:
    """A suffix for a receive hash key of another form or length."""
    if not isinstance(value, str):
        return ""
    digits = re.sub("[: ]", "", value)
    if not re.fullmatch("[0-9a-fA-F]*", digits):
        return ""
    if len(digits) < 80:
        return "; these are %d" % len(digits)
    bare = "; without colons that is %s" if ":" in value else "; its first 80 are %s"
    beyond = " (the rest of %d is never read)" % len(digits) if len(digits) > 80 else ""
    return bare % digits[:80] + beyond


def _of_word(rest, before):
    found = re.match(r"(?:0[xX])?([0-9a-fA-F]+(?:,[0-9a-fA-F]{8})*)\b", rest)
    digits = re.search(r"(?:0[xX]?|\b[0-9]+)$", before)
    if digits and re.match("[xX]?[0-9a-fA-F]+", rest):
        word = digits.group() + re.match("[xX]?[0-9a-fA-F]+", rest).group()
    elif found and not rest[0].isdigit():
        word = found.group()
    else:
        return ""
    try:
        members = processors.parse_mask(word)
    except ValueError:
        return ""
    return "numbers are decimal; if `%s` is a mask, that is [%s]" % (
        word, ", ".join(map(str, members)))


_LITERALS = {"True": "true", "False": "false", "None": "null"}


def of_json(text: str, offset: int, reason: str) -> str:
    """What may have been meant where the JSON goes wrong for this reason, or the empty text."""
    rest, before = text[offset:offset + 200], text[max(0, offset - 200):offset].rstrip()
    line = before.split("\n")[-1] + rest.split("\n")[0]
    if text.startswith("\ufeff"):
        return "a byte order mark stands before the plan; save as UTF-8 without it"
    if rest.startswith(("//", "/*", "#")) or re.match(r"\s*(//|/\*|#)", line):
        return "JSON has no comments"
    if rest.startswith("'"):
        return "texts stand in double quotation marks"
    if before.endswith(",") and rest[:1] in ("]", "}"):
        return "a comma stands before the closing bracket"
    for literal, meant in _LITERALS.items():
        if rest.startswith(literal):
            return "`%s` is `%s` in JSON" % (literal, meant)
    if rest.startswith(("+", ".")):
        return "a number begins with a digit"
    if re.search(r"(^|[^0-9.])0$", before) and rest[:1].isdigit():
        return "a number has no leading zeros"
    if re.match(r"[A-Za-z_]\w*\s*:", rest):
        return "keys stand in double quotation marks"
    word = _of_word(rest, before)
    if word:
        return word
    if reason.startswith("neither a comma") and rest[:1] in tuple('"{[0123456789'):
        return "a comma may be missing before it"
    if not text.lstrip().startswith(("{", "[")):
        return "a plan is JSON and begins with `{`"
    return ""
