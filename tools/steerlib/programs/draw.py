"""A report of `steer replay` as a picture, in the terminal or as SVG."""

from __future__ import annotations

import sys
from typing import NoReturn

from .. import cli, drawing, flows, report

DESCRIPTION = """\
Draws the packets of each processor over the packet numbers, not over time. For the terminal: the
darker a mark, the more of the packets of its column went to that processor; `x` is a column of
which more than half was dropped there, `'` one of which some were, `^` one in which a flow moved.
With --svg: as SVG on standard output, with drops in red.

With HASH the five flows that have the most packets have a row each, with the flow as steer-top
names it; in SVG the texts that a pointer shows name flows as well."""

EXAMPLE = """\
steer-draw report
steer-draw --svg report > report.svg
steer hash own.pcap > hash.txt
steer-draw --svg report hash.txt > report.svg"""


def main(words: list[str]) -> None:
    parser = cli.parser(DESCRIPTION, EXAMPLE)
    parser.add_argument("--svg", action="store_true", help="write SVG")
    parser.add_argument("report", metavar="REPORT", help="output of `steer replay`; - is input")
    parser.add_argument("hash", metavar="HASH", nargs="?", help=flows.HELP)
    told = parser.parse_intermixed_args(words)
    if told.report == told.hash == "-":
        raise cli.WrongWords("REPORT and HASH cannot both be standard input")
    rep = report.read_file(told.report)
    names = None if told.hash is None else flows.of_report(told.hash, rep)
    if told.svg:
        sys.stdout.write(drawing.svg(rep, cli.printable(cli.source_name(told.report)), names))
        return
    for line in drawing.text(rep, names):
        print(line)


def entry() -> NoReturn:
    """Runs this program by the words of its command line, and ends the process."""
    cli.run(main)
