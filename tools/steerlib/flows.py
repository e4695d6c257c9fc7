"""Names the flows of a capture, as `steer hash` and `steer place` write them."""

from __future__ import annotations

import functools
import ipaddress
import re

from . import cli
from .report import Report

PACKET = re.compile(
    rb"packet (0|[1-9]\d{0,9}) (none|two4(?: [0-9a-f]{8}){2}|two6(?: [0-9a-f]{32}){2}"
    rb"|(?:tcp|udp)4(?: [0-9a-f]{8}){2}(?: \d{1,5}){2}"
    rb"|(?:tcp|udp)6(?: [0-9a-f]{32}){2}(?: \d{1,5}){2}) hash [^\n]*\n")
FLOW = re.compile(rb"^packet \d+ ([^\n]*) hash ", re.MULTILINE)
COUNT = re.compile(rb"packets (0|[1-9]\d{0,9})(?: cut \d+)?\n")
LONGEST_LINE = 512
HELP = ("output of `steer hash` or `steer place` on the same capture, or on that from which "
        "steer-remap made it, which has the first names")
"""What the help of a program says of the file that names the flows of a report."""


def read_file(name: str) -> list[str]:
    """The flow of each packet, as text, in the output of `steer hash` or `steer place` in a file.

    Raises NotThatFile for a line of another form, and Refused if the output is cut short.
    """
    source = cli.source_name(name)
    flows: list[str] = []
    texts: dict[bytes, str] = {}
    with cli.open_bytes(name) as stream:
        line = stream.readline(LONGEST_LINE)
        while True:
            found = PACKET.fullmatch(line)
            if found is None:
                break
            if int(found.group(1)) != len(flows):
                raise cli.Refused(source, "line %d is of packet %s, expected %d"
                                  % (len(flows) + 1, found.group(1).decode(), len(flows)))
            flow = found.group(2)
            flows.append(texts.setdefault(flow, flow.decode()))
            line = stream.readline(LONGEST_LINE)
    _check_count(line, flows, source)
    return flows


def of_report(name: str, report: Report) -> list[str]:
    """The flow of each packet of a report's capture, by the output of `steer hash` in a file.

    Packets keep their numbers in a remap, so the file may be of the capture that was rewritten.
    Raises Refused where it has another number of packets, and what read_file raises.
    """
    flows = read_file(name)
    if len(flows) != report.end.total:
        raise cli.Refused(cli.source_name(name), "has %d packets, and the report is of %d"
                          % (len(flows), report.end.total))
    return flows


def _check_count(line, flows, source):
    """The last line must count the packets before it."""
    found = COUNT.fullmatch(line)
    if found is None:
        if flows and not line.endswith(b"\n"):
            raise cli.Refused(source, "cut short after line %d (no line `packets`)" % len(flows))
        raise cli.NotThatFile(source, "line %d is not output of `steer hash`" % (len(flows) + 1))
    if int(found.group(1)) != len(flows):
        raise cli.Refused(source, "the last line counts %s packets, and there are %d"
                          % (found.group(1).decode(), len(flows)))


def _address(digits):
    """Addresses of 8 hexadecimal digits are IPv4, those of 32 IPv6."""
    return ipaddress.ip_address(bytes.fromhex(digits))


@functools.lru_cache(maxsize=None)
def name(flow: str) -> str:
    """A flow as people write it: `tcp4 10.0.0.11:40001 > 10.0.0.1:80`, `no IP` for `none`."""
    if flow == "none":
        return "no IP"
    kind, source, target, *ports = flow.split(" ")
    ends = [_address(source), _address(target)]
    if ports:
        form = "[%s]:%s" if ends[0].version == 6 else "%s:%s"
        ends = [form % end for end in zip(ends, ports)]
    return "%s %s > %s" % (kind, ends[0], ends[1])
