"""A report of `steer replay` or `steer run` as one HTML page."""

from __future__ import annotations

import argparse
import sys
from typing import NoReturn

from .. import cli, flows, plan, report
from ..page import axis, backlogs, document
from ..page.sums import Flows

DESCRIPTION = """\
Writes one HTML page that shows a report: the packets, drops and backlogs of each processor, the
receive queues and the moves of flows, over time. The page is one file; it loads nothing else and
needs no network. Its charts can be zoomed by pointer and keyboard, and the numbers are there as
tables too, which need no script.

With --capture the axis is the time of each packet in the capture, else the number of the packet.
With --hash the flows with the most packets are named, and the charts show one of them alone on
request. With --plan, the plan that was replayed, the length of each backlog is shown; it follows
from the order of the plan's steps, so a report of `steer run` has none."""

EXAMPLE = """\
steer replay plan.json own.pcap > report
steer hash own.pcap > hash.txt
steer-page report --capture own.pcap --hash hash.txt --plan plan.json > report.html"""


def words_of(words: list[str]) -> argparse.Namespace:
    """The options that these words give."""
    parser = cli.parser(DESCRIPTION, EXAMPLE)
    parser.add_argument("report", metavar="REPORT",
                        help="output of `steer replay` or `steer run`; - is input")
    parser.add_argument("--capture", metavar="CAPTURE", help="the capture of the report")
    parser.add_argument("--hash", metavar="HASH", help=flows.HELP)
    parser.add_argument("--plan", metavar="PLAN", help="the plan of the report, with its steps")
    told = parser.parse_args(words)
    if [told.report, told.capture, told.hash, told.plan].count("-") > 1:
        raise cli.WrongWords("only one of the files can be standard input")
    return told


def main(words: list[str]) -> None:
    told = words_of(words)
    rep = report.read_file(told.report)
    places = axis.read(rep, told.capture)
    lengths = found = None
    if told.plan is not None:
        lengths = backlogs.follow(rep, plan.read_plan(told.plan), cli.source_name(told.plan))
    if told.hash is not None:
        found = Flows(rep, flows.of_report(told.hash, rep))
    title = cli.printable(cli.source_name(told.report))
    for line in document.lines(rep, title, places, lengths, found):
        sys.stdout.write(line + "\n")


def entry() -> NoReturn:
    """Runs this program by the words of its command line, and ends the process."""
    cli.run(main)
