"""steer-lint PLAN: what is wrong with a plan, all of it, with its place and what was meant."""

from __future__ import annotations

from typing import NoReturn

from .. import cli
from .. import jsontext
from .. import lint

DESCRIPTION = """\
Says `PLAN: ok` where steer takes this plan, and else each fault on a line of standard
output: line and column, the path in the plan, the value, its range, and what may have been
meant. Where the text is no JSON, the first place that shows it is the only one named.
The status is 0 without a fault, 3 with one, as that of steer replay, and 4 where the text is
no JSON.
That it takes what steer takes is tested and not proved; steer itself has the last word.
"""
EXAMPLE = """\
steer-lint plan.json
plan.json:3:21: queues/0/mask: "f0" is no list of numbers, 0 to 15; as a hexadecimal mask
  that is [4, 5, 6, 7]
"""


def main(words: list[str]) -> int:
    parser = cli.parser(DESCRIPTION, EXAMPLE)
    parser.add_argument("plan", metavar="PLAN", help="a plan in JSON; - is standard input")
    name = parser.parse_args(words).plan
    with cli.open_bytes(name, unpacked=False) as stream:
        text, _, faults, notes = lint.judge(stream.read())
    source = cli.source_name(name)
    for one in notes:
        cli.note("%s: %s" % (source, one))
    places = jsontext.Places(text)
    for fault in faults:
        line, column = places.of(fault.offset)
        path = "" if fault.path is None else "%s: " % (fault.path or "the plan")
        print(cli.printable("%s:%d:%d: %s%s" % (source, line, column, path, fault.reason)))
        if fault.path is None and text:
            print(cli.printable(lint.pointed(text, fault.offset)))
    if not faults:
        print("%s: ok" % cli.printable(source))
    if any(fault.path is None for fault in faults):
        return cli.NOT_THAT_FILE
    return cli.REFUSED if faults else cli.DONE


def entry() -> NoReturn:
    """Runs this program by the words of its command line, and ends the process."""
    cli.run(main)
