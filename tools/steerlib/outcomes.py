"""Outcomes of trials: what a report says in a few numbers, and the line that keeps these.

The line is a JSON object. Its key `question` is a digest of all that the trial was made of, so that
a later call knows whether it asks the same.
"""

from __future__ import annotations

import hashlib
import json
import os
from typing import NamedTuple

from . import cli, report, waits

TIMES = ".times"


class Outcome(NamedTuple):
    """What a report says in one line; `offered` are the packets of each processor, with drops.

    `waits` are those of a schedule by times, else None.
    """

    packets: int
    drops: int
    moves: int
    offered: list[int]
    waits: waits.Waits | None


def outcome_of(name: str) -> Outcome:
    """The Outcome that the report in the file `name` has, and the file of times beside it."""
    rep = report.read_file(name, told=False)
    beside = os.path.splitext(name)[0] + TIMES
    found = None
    if os.path.exists(beside):
        found = waits.of_report(waits.read_file(beside), rep, beside)
    return Outcome(rep.end.total, sum(row.dropped for row in rep.cpus),
                   sum(packet.why in report.MOVES for packet in rep.packets),
                   [row.accepted + row.dropped for row in rep.cpus], found)


def outcome_or_text(name: str) -> Outcome | str:
    """The Outcome of a report in a file, or the text of why it has none."""
    try:
        return outcome_of(name)
    except (cli.Refused, cli.NotThatFile) as fault:
        return str(fault)


def digest(*parts: object) -> str:
    """A text of 32 digits that stands for these parts, which JSON can write."""
    data = json.dumps(parts, sort_keys=True).encode()
    return hashlib.sha256(data).hexdigest()[:32]


def digest_of_file(name: str) -> str:
    """The digest of the bytes of a file."""
    return hashlib.sha256(cli.read_bytes(name)).hexdigest()[:32]


def line_of(outcome: Outcome, question: str) -> str:
    """The line that keeps an Outcome, and the digest of its question."""
    kept = outcome._asdict()
    kept["waits"] = outcome.waits and outcome.waits._asdict()
    return json.dumps(dict(kept, question=question)) + "\n"


def read_line(name: str) -> tuple[Outcome, str]:
    """The Outcome and the digest that the file `name` keeps. NotThatFile where it keeps none."""
    try:
        kept = json.loads(cli.read_text(name))
        question = kept.pop("question")
        times = kept.pop("waits")
        outcome = Outcome(waits=times and waits.Waits(**times), **kept)
        numbers = [outcome.packets, outcome.drops, outcome.moves, *outcome.offered]
    except (ValueError, TypeError, KeyError, AttributeError, RecursionError):
        raise cli.NotThatFile(name, "no line of results that steer-try keeps") from None
    if not all(isinstance(number, int) for number in numbers) or not outcome.offered:
        raise cli.NotThatFile(name, "no line of results that steer-try keeps")
    return outcome, question
