"""Rows of a report of `steer replay` as CSV or JSON lines."""

from __future__ import annotations

import argparse
import sys
from typing import Any, Iterable, NoReturn, Sequence

from .. import cli, flows, report, tables, waits

DESCRIPTION = """\
Writes the lines of one kind in a report of `steer replay` as rows, for a spreadsheet, jq or pandas.
Columns are named as the fields of the report are. An absent value is an empty field in CSV and
null in JSON. A drop's number and its two counts are `drop`, `drop_accepted`, `drop_pulled`, and
`flow_offers` is set if the flow limit dropped the packet; `inbox` is the report's `in`.

KIND is p (packets), r (replies), queue, cpu, tx, w (writes of the socket table) or c (commands).

With HASH packets and replies have one more column, the last: `flow`, as steer-top names it.

With the times of the schedule (steer-steps --times) packets have four more columns, in nanoseconds
from the first packet by the clock of the schedule: `arrival`, `begin` and `end` of the service,
and `wait` from the arrival to the begin; and processors have the column `load`, the part of the
time from the first packet to the last in which they served, from 0 to 1."""

EXAMPLE = """\
steer-rows csv p report > packets.csv
steer-rows csv p report --times times | cut -d , -f 1,8,21
steer hash own.pcap > hash.txt
steer-rows csv p report hash.txt | cut -d , -f 1,8,18
steer-rows json p report | jq -r 'select(.place == "drop") | .id'"""


def main(words: list[str]) -> None:
    parser = cli.parser(DESCRIPTION, EXAMPLE)
    parser.add_argument("form", choices=("csv", "json"), metavar="csv|json")
    parser.add_argument("kind", choices=tables.KINDS, metavar="KIND",
                        help="one of " + ", ".join(tables.KINDS))
    parser.add_argument("report", metavar="REPORT", help="output of `steer replay`; - is input")
    parser.add_argument("hash", metavar="HASH", nargs="?",
                        help=flows.HELP + "; of the kinds p and r")
    parser.add_argument("--times", metavar="FILE",
                        help="what steer-steps --times wrote for the schedule of the report; of "
                             "the kinds p and cpu")
    given = parser.parse_intermixed_args(words)
    check(given)
    rep = report.read_file(given.report)
    rows, names = rep.by_kind()[given.kind], tables.columns(given.kind)
    further = []
    if given.times is not None:
        further.append(with_times(rep, given.kind, given.times))
    if given.hash is not None:
        further.append(with_flows(rep, rows, given.hash))
    for more, columns in further:
        rows, names = [(*row, *others) for row, others in zip(rows, more)], names + columns
    write = tables.write_csv if given.form == "csv" else tables.write_json
    write(rows, names, sys.stdout)


def check(given: argparse.Namespace) -> None:
    """Raises WrongWords where words do not go together."""
    if given.times is not None and given.kind not in ("p", "cpu"):
        raise cli.WrongWords("--times goes with the kinds p and cpu")
    if given.hash is not None and given.kind not in ("p", "r"):
        raise cli.WrongWords("HASH goes with the kinds p and r")
    if [given.report, given.hash, given.times].count("-") > 1:
        raise cli.WrongWords("only one of REPORT, HASH and --times can be standard input")


def with_times(rep: report.Report, kind: str, name: str) -> tuple[Iterable[tuple], list[str]]:
    """The further columns that the times in a file give the rows of a kind, and their names."""
    times, source = waits.read_file(name), cli.source_name(name)
    if kind == "cpu":
        return [(load,) for load in waits.of_report(times, rep, source).loads], ["load"]
    waits.check(times, rep, source)
    return zip(*times, waits.waits_of(times)), ["arrival", "begin", "end", "wait"]


def with_flows(rep: report.Report, rows: Sequence[Any],
               name: str) -> tuple[Iterable[tuple], list[str]]:
    """The further column that the flows in a file give packets or replies, and its name."""
    found = flows.of_report(name, rep)
    return [(flows.name(found[row.id]),) for row in rows], ["flow"]


def entry() -> NoReturn:
    """Runs this program by the words of its command line, and ends the process."""
    cli.run(main)
