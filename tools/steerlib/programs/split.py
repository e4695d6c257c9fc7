"""steer-split PLAN CAPTURE --to FOLDER: a machine that is wider than a plan, taken apart."""

from __future__ import annotations

import argparse
from typing import NoReturn

from .. import cli, flows, limits, parts, plan, splitting, summary

DESCRIPTION = """\
Queues that share no processor of their homes and masks are machines of their own. PLAN has
the form of a plan and may have up to 128 queues and 1024 processors, as steer-plan --wide
writes it. It is taken apart into plans of at most 16 queues and 32 processors, and CAPTURE
by the queue of each packet. FOLDER then has part-N.json and part-N.pcap for each part, and
split.json with the machine's names. With RFS queues also share the readers that their flows
can have, and entries of rps_sock_flow_entries. What does not come apart is refused, with
what shares what. steer replays each part, and its packets' queues are compared.

A part has the sweep as its steps: steer-steps makes a schedule for each by its own times,
the same as that of the whole machine. Replies, transmit queues and the plan's own steps are
left out; without RFS readers are left out too.

--join reads the reports of all parts together, part-N.report in FOLDER or those that are
named in the order of the parts, and shows them as steer-top does, by the machine's names.
"""
EXAMPLE = """\
steer-plan --wide eth0.snap > wide.json
steer-split wide.json own.pcap --to parts
for plan in parts/part-*.json; do
  part=${plan%.json}
  steer-steps $plan $part.pcap --pps 20000 > $part.timed
  steer replay $part.timed $part.pcap > $part.report
done
steer-split --join parts
"""


def words_of(words: list[str]) -> argparse.Namespace:
    parser = cli.parser(DESCRIPTION, EXAMPLE, usage="%(prog)s PLAN CAPTURE --to FOLDER\n"
                        "       %(prog)s --join FOLDER [--hash HASH] [REPORT ..]")
    parser.add_argument("files", metavar="PLAN CAPTURE", nargs="*",
                        help="a plan, which may be wide, and a capture")
    parser.add_argument("--to", metavar="FOLDER", help="the folder that the parts are written to")
    parser.add_argument("--join", metavar="FOLDER", help="the folder of which reports are joined")
    parser.add_argument("--hash", metavar="HASH",
                        help="with --join: output of `steer hash` on the whole capture")
    given = parser.parse_intermixed_args(words)
    if (given.to is None) == (given.join is None):
        raise cli.WrongWords("either --to FOLDER or --join FOLDER (--help says more)")
    if given.to is not None and (len(given.files) != 2 or given.hash is not None):
        raise cli.WrongWords("--to takes a PLAN and a CAPTURE")
    if "-" in given.files:
        raise cli.WrongWords("standard input is not read")
    return given


def say_left_out(wide: plan.Plan) -> None:
    """Notes what of a plan is in no part."""
    if wide["steps"] != ["sweep"]:
        cli.note("its steps are left out: steer-steps makes those of each part")
    if wide.get("detach"):
        cli.note("detach is left out: it counts the packets of the whole machine")
    if not parts.has_rfs(wide):
        cli.note("replies, transmit queues and readers are left out (no RFS)")
    else:
        cli.note("replies and transmit queues are left out")


def main(words: list[str]) -> int:
    given = words_of(words)
    if given.join is not None:
        rep = splitting.joined(given.join, given.files)
        names = None if given.hash is None else flows.of_report(given.hash, rep)
        for line in summary.screen(rep, names):
            print(line)
        return cli.DONE
    wide = plan.read_plan(given.files[0], limits.WIDE)
    say_left_out(wide)
    named = splitting.split(wide, given.files[0], given.files[1], given.to)
    for number, part in enumerate(named):
        print(splitting.line_of(number, part))
    return cli.DONE


def entry() -> NoReturn:
    """Runs this program by the words of its command line, and ends the process."""
    cli.run(main)
