"""What differs between two reports of `steer replay` on one capture."""

from __future__ import annotations

import argparse
from typing import NoReturn

from .. import cli, comparison, flows, report, waits

DESCRIPTION = """\
Compares two reports of one capture and writes a line for each sum that differs, for each packet
and each reply that went another way or for another reason, for writes of the socket table, commands
and taps, and last a line of sums. Status 0 means that the reports are equal in every line, 1 that
they differ. Positions and other numbers that differ in an otherwise equal line are only counted. A
sum that changes exactly as the first of its line does (`pulled` as `accepted`) is not shown.
With HASH the lines of packets and replies end with the flow, as steer-top names it.

With the times of both schedules (steer-steps --times) the first lines are the waits and the loads
of processors that differ, as steer-top shows them; the status does not depend on them.

A report does not name its capture: two captures with as many packets, and a cut as long, are not
told apart."""

EXAMPLE = """\
steer replay a.json own.pcap > a; steer replay b.json own.pcap > b
steer-diff -q a b
steer-diff -q a b --times a.times b.times
steer hash own.pcap > hash.txt; steer-diff a b hash.txt"""


def words_of(words: list[str]) -> argparse.Namespace:
    parser = cli.parser(DESCRIPTION, EXAMPLE)
    parser.add_argument("-q", dest="quiet", action="store_true",
                        help="leave out the lines of packets and replies")
    parser.add_argument("old", metavar="OLD", help="a report; - is standard input")
    parser.add_argument("new", metavar="NEW", help="a report of the same capture")
    parser.add_argument("hash", metavar="HASH", nargs="?", help=flows.HELP)
    parser.add_argument("--times", metavar=("OLD", "NEW"), nargs=2,
                        help="what steer-steps --times wrote for the schedules of the two reports")
    told = parser.parse_intermixed_args(words)
    if [told.old, told.new, told.hash].count("-") > 1:
        raise cli.WrongWords("only one of OLD, NEW and HASH can be standard input")
    if told.quiet and told.hash is not None:
        raise cli.WrongWords("-q leaves out the lines in which HASH names flows")
    return told


def main(words: list[str]) -> int:
    told = words_of(words)
    old, new = report.read_file(told.old), report.read_file(told.new)
    comparison.check_comparable(old, new, cli.source_name(told.old), cli.source_name(told.new))
    if told.times is not None:
        both = [waits.of_report(waits.read_file(name), rep, cli.source_name(name))
                for name, rep in zip(told.times, (old, new))]
        for line in waits.changes(*both):
            print(line)
    names = None if told.hash is None else flows.of_report(told.hash, old)
    compared = comparison.Comparison(old, new, names)
    for line in compared.lines(told.quiet):
        print(line)
    return cli.DIFFERS if compared.differ() else cli.DONE


def entry() -> NoReturn:
    """Runs this program by the words of its command line, and ends the process."""
    cli.run(main)
