"""Numbers on the command line, as types for argparse: each refuses with the range that it takes."""

from __future__ import annotations

import argparse
import math
from typing import Callable

from . import limits

MOST_SEEDS = 100000
LEAST_RATE, MOST_RATE = 0.001, 1e12


def whole_number(least: int, most: int | None = None) -> Callable[[str], int]:
    """The type of a whole number from `least` to `most`, where that is not None."""
    asked = "a whole number from %d %s" % (least, "on" if most is None else "to %d" % most)

    def read(text: str) -> int:
        digits = text.isascii() and text.isdigit() and len(text) <= 20
        if not digits or int(text) < least or most is not None and int(text) > most:
            raise argparse.ArgumentTypeError("%s is not %s" % (text, asked))
        return int(text)

    return read


def rate(text: str) -> float:
    """The type of a rate or a factor, with a decimal point or without, such as 2000, 0.5, 1e6."""
    try:
        number = float(text)
    except ValueError:
        number = math.nan
    if not 0 < number < math.inf:
        raise argparse.ArgumentTypeError("%s is not a number above 0" % text)
    if not LEAST_RATE <= number <= MOST_RATE:
        raise argparse.ArgumentTypeError("%s is not in %g to %g" % (text, LEAST_RATE, MOST_RATE))
    return number


def number_text(number: float) -> str:
    """A number as short as can be that reads as the same one, a whole one by its digits."""
    return "%d" % number if number == int(number) else repr(number)


def seeds(text: str) -> range:
    """The type of N, which is the seeds 1 to N, or A-B, which is the seeds A to B."""
    least, dash, most = text.partition("-")
    read = whole_number(0 if dash else 1, limits.MOST_NUMBER)
    first, last = (read(least), read(most)) if dash else (1, read(least))
    if not 0 <= last - first < MOST_SEEDS:
        raise argparse.ArgumentTypeError("%s is not 1 to %d seeds" % (text, MOST_SEEDS))
    return range(first, last + 1)


def rates(text: str) -> list[float]:
    """The type of A,B,..: positive numbers, each once."""
    return list(dict.fromkeys(rate(part) for part in text.split(",")))


def own_rate(text: str) -> tuple[int, float]:
    """The type of C=N: a processor, and a rate of its own."""
    cpu, equals, own = text.partition("=")
    if not equals:
        raise argparse.ArgumentTypeError("%s is not C=N, a processor and its rate" % text)
    return whole_number(0)(cpu), rate(own)


def add_load(parser: argparse.ArgumentParser) -> None:
    """Adds the words that say what the processors do, beside their rate; `load_of` reads them."""
    parser.add_argument("--cpu", metavar="C=N", action="append", default=[], type=own_rate,
                        help="processor C serves N packets a second instead; may be repeated")
    parser.add_argument("--read", dest="reads", action="store_true",
                        help="the reader of a packet reads it at once when it is delivered, which "
                             "RFS needs to see where the reader is")
    parser.add_argument("--reply", dest="replies", action="store_true",
                        help="the reader replies at once; the replies leave the transmit queues at "
                             "the end")
    parser.add_argument("--speed", metavar="X", default=1.0, type=rate,
                        help="the packets come X times as fast as they were recorded")
