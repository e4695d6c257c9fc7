"""steer-rules SNAP: the n-tuple rules of a card, as `steer place` reads them."""

from __future__ import annotations

import json
import sys
from typing import Any, NoReturn

from .. import cli
from .. import rules
from .. import snapshot

DESCRIPTION = """\
Writes the n-tuple rules that the card of the snapshot SNAP has, as the rules that
`steer place` reads. The masks are turned: ethtool prints a 1 for each bit that is not
compared. A rule that compares a VLAN tag, a type of service, a protocol, an Ethernet
address or user-defined bytes is refused, and so is one that drops or leads elsewhere than
to a receive queue. Where no rule matches, `place` takes its own key and the even table.
"""
EXAMPLE = """\
steer-snap eth0 > eth0.snap
steer-rules eth0.snap > rules.json
steer place rules.json own.pcap
"""


def rules_text(made: dict[str, Any]) -> str:
    """Rules as JSON, a rule a line."""
    head = ", ".join("%s: %s" % (json.dumps(name), json.dumps(value))
                     for name, value in made.items() if name != "rules")
    lines = "".join("%s\n  %s" % ("," if at else "", json.dumps(rule))
                    for at, rule in enumerate(made["rules"]))
    return "{%s, \"rules\": [%s]}\n" % (head, lines)


def main(words: list[str]) -> int:
    parser = cli.parser(DESCRIPTION, EXAMPLE)
    parser.add_argument("snap", metavar="SNAP", help="what steer-snap wrote; - is standard input")
    name = parser.parse_args(words).snap
    made, findings = rules.rules_of(snapshot.read_snapshot(name))
    for text in findings.notes:
        cli.note(text)
    if findings.refusals:
        raise cli.Refused(cli.source_name(name), *findings.refusals)
    sys.stdout.write(rules_text(made))
    return cli.DONE


def entry() -> NoReturn:
    """Runs this program by the words of its command line, and ends the process."""
    cli.run(main)
