"""steer-aim FILE: where a flow typed in words comes in, and which source ports reach a queue."""

from __future__ import annotations

import argparse
import itertools
import re
from typing import Iterable, NoReturn

from .. import aiming, cli, flows, numbers, remap, tables

DESCRIPTION = """\
Shows where a flow comes in that is typed in words: its hash by the card's own key, the entry
of the table, the receive queue, and the processor that RPS picks at first. FILE is a plan, or a
snapshot of steer-snap; of a snapshot the card's n-tuple rules, its RSS contexts and a table of
any size are followed too, and its machine may have more queues and processors than a plan.

A FLOW is three words: tcp or udp with ADDRESS:PORT twice, or ip with ADDRESS twice, which is
as a fragment or another protocol is hashed. IPv6 is [ADDRESS]:PORT.

With --from, --to and --queue or --cpu it shows which source ports reach that queue or that
processor: the first --count of the range --ports, which is Linux's own range for clients
(ip_local_port_range) unless it is said.

The column `manual` is the processor by the kernel's manual, which a replay follows, `kernel`
the one that a running kernel picks; --kernel has --cpu mean this one. Both are the first
choice: where RFS knows a reader of the flow, its packets go to that. For packets that the
card hashes without ports a kernel makes a hash of its own, by a key that it drew, and `kernel`
is then ?. steer-aim computes all of this itself, without steer.
"""
EXAMPLE = """\
steer-aim plan.json tcp 192.0.2.1:1234 198.51.100.7:443
steer-aim eth0.snap --from 192.0.2.1 --to 198.51.100.7:443 --tcp --queue 3 --count 4
"""
HEADER = ("hash", "entry", "queue", "manual", "kernel", "flow")


def port_range(text: str) -> range:
    """The type of A-B, source ports."""
    found = re.fullmatch("([0-9]{1,5})-([0-9]{1,5})", text)
    if not found or not int(found[1]) <= int(found[2]) <= 65535:
        raise argparse.ArgumentTypeError("%s is no range A-B of ports, 0 to 65535" % text)
    return range(int(found[1]), int(found[2]) + 1)


def end(text: str) -> aiming.End:
    """The type of an address, with a port or without."""
    try:
        return aiming.end_of(text)
    except ValueError as fault:
        raise argparse.ArgumentTypeError(str(fault)) from None


def words_of(words: list[str]) -> argparse.Namespace:
    parser = cli.parser(DESCRIPTION, EXAMPLE, usage="%(prog)s FILE FLOW ..\n"
                        "       %(prog)s FILE --from ADDRESS --to ADDRESS:PORT [options]")
    parser.add_argument("file", metavar="FILE", help="a plan or a snapshot; - is standard input")
    parser.add_argument("flows", metavar="FLOW", nargs="*", help="three words for each flow")
    parser.add_argument("--from", dest="source", metavar="ADDRESS", type=end,
                        help="the source address of the flows to be found")
    parser.add_argument("--to", dest="target", metavar="ADDRESS:PORT", type=end,
                        help="their destination")
    kind = parser.add_mutually_exclusive_group()
    kind.add_argument("--tcp", action="store_true", help="flows of TCP (so unless --udp)")
    kind.add_argument("--udp", action="store_true", help="flows of UDP")
    parser.add_argument("--queue", metavar="Q", type=numbers.whole_number(0),
                        help="ports that reach receive queue Q")
    parser.add_argument("--cpu", metavar="C", type=numbers.whole_number(0),
                        help="ports whose flow goes to processor C")
    parser.add_argument("--kernel", action="store_true", help="--cpu is by a kernel's rule")
    parser.add_argument("--ports", metavar="A-B", type=port_range, default=range(32768, 61000),
                        help="the source ports that are tried (32768-60999)")
    parser.add_argument("--count", metavar="N", type=numbers.whole_number(1, 65536), default=1,
                        help="the first N ports (1)")
    given = parser.parse_intermixed_args(words)
    check(given)
    return given


def check(given: argparse.Namespace) -> None:
    """Raises WrongWords where words do not go together."""
    aims = given.queue is not None or given.cpu is not None
    if given.flows and (given.source or given.target or aims):
        raise cli.WrongWords("either flows, or --from and --to with --queue or --cpu")
    if not given.flows and not (given.source and given.target and aims):
        raise cli.WrongWords("a flow is needed, or --from and --to with --queue or --cpu (--help "
                             "says more)")
    if given.source and given.source.port is not None:
        raise cli.WrongWords("--from is an address without a port: --ports has those to be tried")
    if given.kernel and given.cpu is None:
        raise cli.WrongWords("--kernel goes with --cpu")


def rows(found: Iterable[tuple[remap.Flow, aiming.Way]]) -> list[tuple[object, ...]]:
    """The rows of the table."""
    return [("-" if way.value is None else "%08x" % way.value,
             way.by if way.entry is None else way.entry, way.queue, way.manual,
             "?" if way.kernel is None else way.kernel, name_of(flow)) for flow, way in found]


def name_of(flow: remap.Flow) -> str:
    """A flow as steer-top writes it."""
    both, data = remap.address_bytes(flow.kind), flow.data
    ends = [data[:both // 2].hex(), data[both // 2:both].hex()]
    ports = [str(int.from_bytes(data[at:at + 2], "big")) for at in range(both, len(data), 2)]
    return flows.name(" ".join([flow.kind] + ends + ports))


def searched(given: argparse.Namespace, aim: aiming.Aim) -> list[tuple[remap.Flow, aiming.Way]]:
    """The flows that reach what is asked for. Refused where there is none."""
    source = given.source._replace(port=given.ports[0])
    try:
        flow = aiming.flow_of("udp" if given.udp else "tcp", source, given.target)
    except ValueError as fault:
        raise cli.WrongWords("--from and --to: %s" % fault) from None
    shown = cli.source_name(given.file)
    if given.queue is not None and given.queue >= len(aim.queues):
        raise cli.Refused(shown, "receive queue %d is not in 0 to %d"
                          % (given.queue, len(aim.queues) - 1))
    found = list(itertools.islice(aiming.ports_to(aim, flow, given.ports, given.queue, given.cpu,
                                                  given.kernel), given.count))
    if len(found) < given.count:
        wanted = [text % number for text, number in (
            ("queue %d", given.queue), ("processor %d", given.cpu)) if number is not None]
        text = "%s of the source ports %d-%d %s %s" % (
            "only %d" % len(found) if found else "none", given.ports[0], given.ports[-1],
            "reach" if found[1:] else "reaches", " and ".join(wanted))
        hashed = aim.hashed(flow)
        if hashed is None or len(hashed) <= remap.address_bytes(flow.kind):
            text += "; the card hashes %s without ports" % flow.kind
        if not found:
            raise cli.Refused(shown, text)
        cli.note(text)
    return found


def main(words: list[str]) -> int:
    given = words_of(words)
    try:
        typed = aiming.typed(" ".join(given.flows).split())
    except ValueError as fault:
        raise cli.WrongWords(str(fault)) from None
    aim = aiming.of_file(given.file)
    found = [(flow, aim.way_of(flow)) for flow in typed] if typed else searched(given, aim)
    for line in tables.aligned(HEADER, rows(found)):
        print(line)
    return cli.DONE


def entry() -> NoReturn:
    """Runs this program by the words of its command line, and ends the process."""
    cli.run(main)
