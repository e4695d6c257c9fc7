"""Tables: rows of a report as CSV or JSON lines, and columns of text with bars."""

from __future__ import annotations

import csv
import json
from typing import Any, Iterable, Iterator, Sequence, TextIO

from . import report

KINDS = ("p", "r", "queue", "cpu", "tx", "w", "c")
"""The kinds of lines that can be had as rows."""

BAR = 24


def columns(kind: str) -> list[str]:
    """The names of the columns of a kind; they are those of the report's fields."""
    return [name.rstrip("_") for name in report.ROWS[kind]._fields]


def write_csv(rows: Iterable[Sequence[Any]], names: Sequence[str], out: TextIO) -> None:
    """Rows as CSV with a first line of names; an absent value is an empty field."""
    writer = csv.writer(out, lineterminator="\n")
    writer.writerow(names)
    writer.writerows(rows)


def write_json(rows: Iterable[Sequence[Any]], names: Sequence[str], out: TextIO) -> None:
    """Rows as JSON, an object a line; an absent value is null, and numbers stay numbers."""
    encode = json.JSONEncoder().encode
    for row in rows:
        out.write(encode(dict(zip(names, row))) + "\n")


def share(part: float, whole: float) -> str:
    """A part in per cent of the whole, such as `42.5%`; of nothing it is `0.0%`."""
    return "%.1f%%" % (100.0 * part / whole if whole else 0.0)


def bar(part: float, largest: float) -> str:
    """A bar of # whose length is to BAR as the part is to the largest."""
    return "#" * (round(BAR * part / largest) if largest else 0)


def aligned(header: Sequence[str], rows: Iterable[Sequence[object]]) -> Iterator[str]:
    """Lines of a table: all columns but the last are aligned to the right, by their widest."""
    lines = [list(header)] + [[str(field) for field in row] for row in rows]
    widths = [max(len(line[place]) for line in lines) for place in range(len(header) - 1)]
    for line in lines:
        fields = [field.rjust(width) for field, width in zip(line, widths)]
        yield "  ".join(fields + line[-1:]).rstrip()
