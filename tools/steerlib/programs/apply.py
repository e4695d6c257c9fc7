"""steer-apply: the commands that set a plan on a device, or bring a snapshot back."""

from __future__ import annotations

import argparse
import re
from typing import NoReturn

from .. import applying, cli, plan, snapshot
from ..findings import Findings

DESCRIPTION = """\
Prints the commands that set PLAN on the network device DEV: writes to sysfs (masks, flow counts,
transmit maps), calls of ethtool (key, redirection table, hash fields) and sysctls (socket table,
backlog, flow limit). With --undo it prints those that bring back what a snapshot of steer-snap has,
on its device or on DEV. It writes nothing itself: read what it prints, then run it by sh as root.

A plan's processors are taken to have the machine's numbers, which does not hold where steer-plan
noted that it renumbered them. The sysctls are of the whole machine, and a network namespace other
than the first has none: --only leaves them out there. A kernel rounds table sizes up to a power of
two. What a plan has and these commands do not set is noted."""

EXAMPLE = """\
steer-snap eth0 > before.snap
steer-apply plan.json eth0 > set.sh
steer-apply --undo before.snap > undo.sh
steer-apply --only sysfs plan.json veth0"""


def ways(text: str) -> list[str]:
    """The words of --only."""
    chosen = text.split(",")
    for way in chosen:
        if way not in applying.WAYS:
            raise argparse.ArgumentTypeError("%s is none of %s" % (way, ", ".join(applying.WAYS)))
    return chosen


def words_of(words: list[str]) -> argparse.Namespace:
    parser = cli.parser(DESCRIPTION, EXAMPLE, usage="%(prog)s [options] PLAN DEV\n"
                        "       %(prog)s [options] --undo SNAP [DEV]")
    parser.add_argument("names", metavar="PLAN DEV", nargs="*",
                        help="a plan as steer replays it, and the name of a device")
    parser.add_argument("--undo", metavar="SNAP",
                        help="bring back what this snapshot has")
    parser.add_argument("--only", metavar="LIST", type=ways, default=list(applying.WAYS),
                        help="only these, of sysfs, ethtool and sysctl")
    told = parser.parse_intermixed_args(words)
    if told.undo is None and len(told.names) != 2:
        raise cli.WrongWords("a PLAN and a DEV are needed (--help says more)")
    if told.undo is not None and len(told.names) > 1:
        raise cli.WrongWords("--undo takes a SNAP and at most a DEV (--help says more)")
    return told


def named(text: str) -> str:
    """The name of a device; WrongWords where it can be none."""
    if not re.fullmatch(r"[^\s/]{1,15}", text) or text in (".", "..") or not text.isprintable():
        raise cli.WrongWords("%r is no name of a device" % text)
    return text


def main(words: list[str]) -> None:
    told, findings = words_of(words), Findings()
    if told.undo is not None:
        snap = snapshot.read_snapshot(told.undo)
        device = named(told.names[0] if told.names else snap.device)
        title = "Brings back %s on %s" % (cli.source_name(told.undo), device)
        commands = list(applying.of_snapshot(snap, device, findings))
    else:
        name, device = told.names[0], named(told.names[1])
        title = "Sets %s on %s" % (cli.source_name(name), device)
        commands = list(applying.of_plan(plan.read_plan(name), device, findings))
    for text in findings.notes:
        cli.note(text)
    chosen = [command for command in commands if command.way in told.only]
    for line in applying.script(chosen, device, title):
        print(line)


def entry() -> NoReturn:
    """Runs this program by the words of its command line, and ends the process."""
    cli.run(main)
