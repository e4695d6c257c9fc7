"""The texts of steps: their grammar, their ranges, and what a wrong one may have meant."""

from __future__ import annotations

import re

from . import hints
from . import limits
from . import processors

# What stands behind each word, a letter for each argument.
GRAMMAR = {
    "arrive": "", "sweep": "", "expire": "",
    "take": "q", "enter": "q", "look": "q", "weigh": "q", "put": "q", "ask": "q", "leave": "q",
    "poll": "q", "pull": "c", "deliver": "c", "retire": "c", "drain": "c", "record": "n",
    "send": "a", "tenter": "a", "tweigh": "a", "tput": "a", "tleave": "a", "reply": "a",
    "serve": "a", "tpull": "t", "tdeliver": "t", "tretire": "t", "ship": "t",
    "mask": "qC", "flows": "qf", "sock": "s", "offline": "c", "online": "c", "xcpus": "tC",
    "xqueues": "tQ", "reta": "iq", "stand": "ac",
}

NAMES = {
    "q": "receive queue", "c": "processor", "a": "application", "t": "transmit queue",
    "n": "flow number", "i": "table entry", "f": "flow count", "s": "socket table size",
    "C": "set of processors", "Q": "set of receive queues",
}

_NUMBER = re.compile("[0-9]{1,10}")
_SET = re.compile("[0-9]{1,10}(?:,[0-9]{1,10})*")


class Bounds:
    """How many of each there are in a plan, which bounds the numbers of its steps."""

    def __init__(self, queues: int, cpus: int, apps: int, transmit: int) -> None:
        self.highest = {
            "q": queues - 1, "c": cpus - 1, "a": apps - 1, "t": transmit - 1,
            "n": limits.MOST_PACKETS - 1, "i": limits.TABLE_ENTRIES - 1,
            "f": limits.MOST_FLOWS, "s": limits.MOST_SOCKET_ENTRIES,
            "C": cpus - 1, "Q": queues - 1,
        }


def _wanted(letters, bounds):
    """What has to stand behind a word, in words."""
    if not letters:
        return "nothing behind it"
    return " and ".join("a %s (%s)" % (
        NAMES[letter], "numbers with commas, or -" if letter in "CQ" else
        "0 to %d" % bounds.highest[letter]) for letter in letters)


def _no_set(word):
    try:
        members = processors.parse_mask(word)
    except ValueError:
        members = []
    try:
        members = processors.parse_list(word) if "-" in word else members
    except ValueError:
        pass
    meant = "; meant may be %s" % ",".join(map(str, members)) if members else ""
    return "`%s` is no set, which is numbers with commas and no blank, or -%s" % (word, meant)


def _argument(word, letter, bounds):
    """What is wrong with one argument, or None; and whether that is its range."""
    if letter in "CQ":
        if word != "-" and not _SET.fullmatch(word):
            return _no_set(word), False
        numbers = [] if word == "-" else [int(number) for number in word.split(",")]
    else:
        if not _NUMBER.fullmatch(word):
            return "`%s` is no %s, which is one to ten digits" % (word, NAMES[letter]), False
        numbers = [int(word)]
    high = bounds.highest[letter]
    over = [number for number in numbers if number > high]
    if over:
        return "%s %d is not in 0 to %d" % (NAMES[letter], over[0], high), True
    return None, False


def _no_word(word):
    meant = hints.near(word, GRAMMAR)
    return "no such step" + (", is it `%s`?" % meant if meant else "")


def fault(text: str, bounds: Bounds) -> str | None:
    """What is wrong with this step's text under these Bounds, in words, or None."""
    words = text.split(" ")
    letters = GRAMMAR.get(words[0])
    if letters is None:
        kept = text.split()
        if kept and kept[0] in GRAMMAR:
            return "a step begins with its word; blanks stand between words alone, one each"
        return _no_word(words[0])
    if len(words) - 1 != len(letters):
        if "" in words or (", " in text and "C" in letters + "Q"):
            return "one blank stands between words, and none elsewhere"
        return "`%s` wants behind it %s" % (words[0], _wanted(letters, bounds))
    found = [_argument(word, letter, bounds) for word, letter in zip(words[1:], letters)]
    wrong = [reason for reason, of_range in found if reason and not of_range]
    wrong = wrong or [reason for reason, of_range in found if reason]
    return "; ".join(wrong) or None
