"""steer-cap: a capture of another kind as a pcap file that steer reads."""

from __future__ import annotations

import argparse
import sys
from typing import NoReturn

from .. import capture, cli, limits, numbers

DESCRIPTION = """\
Reads a capture and writes a pcap file of Ethernet frames with nanoseconds on standard output, of
what steer reads: at most 262144 packets and 268435456 bytes.

CAPTURE is pcap (either byte order, micro- or nanoseconds) or pcapng (several sections and
interfaces, each with its unit of time; enhanced, simple and obsolete packet blocks), also packed
as gz, xz or zst, the last one by the Python module zstandard or the program zstd; - is standard
input. Frames may be of Ethernet (link type 1), cooked (113 and 276, which
tcpdump -i any writes) or raw IP (12, 101, 228, 229); those that are not of Ethernet get a header
with zero addresses. steer itself reads Ethernet alone.

A VLAN tag may be missing in a cooked frame, where the kernel took it off before; flow and hash are
the same without it. -i any shows a packet once for each device that it passes, so record on the
card itself where you can.

What was written stays written where a later part of the file cannot be read (status 4)."""

EXAMPLE = """\
tcpdump -i any -s 128 -w any.pcap
steer-cap --in any.pcap > in.pcap
steer hash in.pcap
steer-cap --from 262144 long.pcapng.gz > second.pcap"""


def words_of(words: list[str]) -> argparse.Namespace:
    parser = cli.parser(DESCRIPTION, EXAMPLE)
    parser.add_argument("capture", metavar="CAPTURE", help="the capture to read")
    parser.add_argument("--in", dest="incoming", action="store_true",
                        help="leave out frames that the machine itself sent, which only cooked "
                             "frames tell")
    parser.add_argument("--from", dest="first", metavar="N", default=0,
                        type=numbers.whole_number(0, None),
                        help="leave out the first N of the frames that would be written")
    parser.add_argument("--count", metavar="N", default=limits.MOST_PACKETS,
                        type=numbers.whole_number(0, limits.MOST_PACKETS),
                        help="write at most N frames (%(default)s)")
    return parser.parse_args(words)


def summary(writer: capture.PcapWriter, conversion: capture.Conversion, first: int,
            more: bool) -> str:
    text = "%d frames written" % writer.frames
    if conversion.incoming and conversion.outgoing:
        text += ", %d outgoing left out" % conversion.outgoing
    if more:
        text += "; more follow: --from %d" % (first + writer.frames)
    return text


def main(words: list[str]) -> None:
    told = words_of(words)
    if sys.stdout.isatty():
        raise cli.WrongWords("a capture is not written to a terminal: add > FILE")
    source = cli.source_name(told.capture)
    with cli.open_bytes(told.capture) as stream:
        conversion = capture.Conversion(capture.Capture(stream, source), told.incoming)
        writer = capture.PcapWriter(sys.stdout.buffer, source)
        more = capture.copy(conversion, writer, told.first, told.count)
    conversion.say(writer.frames)
    cli.note(summary(writer, conversion, told.first, more))


def entry() -> NoReturn:
    """Runs this program by the words of its command line, and ends the process."""
    cli.run(main)
