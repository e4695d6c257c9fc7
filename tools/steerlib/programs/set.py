"""steer-set PLAN NAME=VALUE ..: a plan with settings changed, named as on the machine."""

from __future__ import annotations

import sys
from typing import NoReturn

from .. import cli
from .. import settings

DESCRIPTION = """\
Writes PLAN with these settings changed; they have the names that they have in sysfs, in
procfs and with ethtool, and the values that one writes there. All else stays byte for byte.

  rx-Q/rps_cpus=MASK          rx-Q/rps_flow_cnt=N       rx-Q/home=CPU
  tx-T/xps_cpus=MASK          tx-T/xps_rxqs=MASK
  rps_sock_flow_entries=N     netdev_max_backlog=N      flow_limit_cpu_bitmap=MASK
  indir=equal:N               indir=weight:W0,W1,..     indir=default
  hkey=BYTES                  rx-flow-hash/KIND=sdfn    rx-flow-hash/KIND=sd
  apps=LIST                   (the processors on which readers stand: 4-7,12)

* in place of Q or T is every queue. Masks are hexadecimal, as in sysfs: f0 is processors 4
to 7. Home is the processor that takes the interrupts of the queue. Processors are numbered
as in the plan. Settings are made in their order, so that a later one wins.

netdev_max_backlog=N gives the plan a backlog of N + 1, since a kernel lets one packet more wait
than the setting says. The bitmap of the flow limit names processors that put packets, and a plan
those that are put to: it is translated by the homes and masks that the plan then has.
"""
EXAMPLE = """\
steer-set plan.json 'rx-*/rps_cpus=f0' netdev_max_backlog=2000 > other.json
steer-set plan.json indir=weight:6,2 | steer-lint -
"""


def main(words: list[str]) -> int:
    parser = cli.parser(DESCRIPTION, EXAMPLE)
    parser.add_argument("plan", metavar="PLAN", help="a plan in JSON; - is standard input")
    parser.add_argument("settings", metavar="NAME=VALUE", nargs="+", help="a setting, as above")
    given = parser.parse_args(words)
    changed = settings.Settings(cli.read_bytes(given.plan), cli.source_name(given.plan))
    for word in given.settings:
        changed.set(word)
    written = changed.written()
    for text in changed.notes():
        cli.note(text)
    sys.stdout.write(written)
    return cli.DONE


def entry() -> NoReturn:
    """Runs this program by the words of its command line, and ends the process."""
    cli.run(main)
