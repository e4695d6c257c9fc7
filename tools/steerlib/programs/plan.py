"""steer-plan SNAP: the plan of the machine that steer-snap looked at."""

from __future__ import annotations

import argparse
import re
import sys
from typing import NoReturn

from .. import cli
from .. import limits
from .. import machine
from .. import plan
from .. import processors
from .. import snapshot

DESCRIPTION = """\
Writes the plan of the machine of which SNAP is the snapshot that steer-snap wrote.
Each guess is a note on standard error; notes that change the answer come first. The backlog
is one more than netdev_max_backlog, since a kernel lets so many packets wait, and limited has
the processors to which those of flow_limit_cpu_bitmap put packets.

What a plan cannot hold is refused by name and value: more than 16 receive queues, more than 32
processors in use, a table that does not fold to 128 entries, another hash than Toeplitz over
addresses and ports. Where processors above 31 are in use they are renumbered, and the map is
noted as PLAN=MACHINE. --wide writes a plan of up to 128 queues and 1024 processors, which steer
itself does not read and steer-split takes apart.
The steps are one `sweep`; steer-steps makes a schedule from a capture's times.
"""
EXAMPLE = """\
steer-snap eth0 > eth0.snap
steer-plan eth0.snap --apps 4-7 > plan.json
note: 8 queues over a mask of 4: a queue reaches 1 of them by the manual's modulo, and 4
  in a kernel (docs/kernel.md)
"""


def words_of(arguments: list[str]) -> argparse.Namespace:
    parser = cli.parser(DESCRIPTION, EXAMPLE)
    parser.add_argument("snap", metavar="SNAP", help="what steer-snap wrote; - is standard input")
    parser.add_argument("--apps", metavar="LIST", help="the processors on which readers stand, "
                        "such as 4-7,12; one for each online processor unless said, or where "
                        "these are over 32 one for each of the masks and homes")
    parser.add_argument("--home", metavar="Q=CPU,..", help="the processor that takes the "
                        "interrupts of receive queue Q, in place of what the interrupts say")
    parser.add_argument("--wide", action="store_true", help="a plan for steer-split, with up to "
                        "128 queues and 1024 processors")
    parser.add_argument("--nearest", action="store_true", help="take the first 128 entries of "
                        "a table that does not fold, and note how many hashes differ")
    return parser.parse_args(arguments)


def readers(text: str, online: list[int], most: int) -> list[int]:
    """The list of --apps."""
    try:
        apps = processors.parse_list(text)
    except ValueError as fault:
        raise cli.WrongWords("--apps: %s" % fault) from None
    if not 1 <= len(apps) <= most:
        raise cli.WrongWords("--apps %s: %d readers, and a plan has 1 to %d"
                             % (text, len(apps), most))
    for cpu in apps:
        if cpu not in online:
            raise cli.WrongWords("--apps %s: processor %d is not online (%s is)"
                                 % (text, cpu, processors.list_text(online)))
    return apps


def named_homes(text: str, queues: int, online: list[int]) -> dict[int, int]:
    """The queues and processors of --home."""
    homes = {}
    for part in text.split(","):
        found = re.fullmatch("([0-9]{1,6})=([0-9]{1,6})", part)
        if not found:
            raise cli.WrongWords("--home %s: `%s` is not of the form Q=CPU" % (text, part))
        queue, cpu = int(found.group(1)), int(found.group(2))
        if queue >= queues:
            raise cli.WrongWords("--home %s: receive queue %d is not in 0 to %d"
                                 % (text, queue, queues - 1))
        if cpu not in online:
            raise cli.WrongWords("--home %s: processor %d is not online (%s is)"
                                 % (text, cpu, processors.list_text(online)))
        homes[queue] = cpu
    return homes


def main(arguments: list[str]) -> int:
    words = words_of(arguments)
    read = snapshot.read_snapshot(words.snap)
    online = read.cpus("online")
    most = limits.WIDE if words.wide else limits.PLAN
    apps = None if words.apps is None else readers(words.apps, online, most.readers)
    home = {} if words.home is None else named_homes(words.home, len(read.queues["rx"]), online)
    made, findings = machine.plan_of(read, apps, home, words.nearest, most)
    for text in findings.notes:
        cli.note(text)
    if findings.refusals:
        raise cli.Refused(cli.source_name(words.snap), *findings.refusals)
    sys.stdout.write(plan.plan_text(made))
    return cli.DONE


def entry() -> NoReturn:
    """Runs this program by the words of its command line, and ends the process."""
    cli.run(main)
