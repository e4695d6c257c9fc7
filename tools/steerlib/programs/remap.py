"""steer-remap: a plan and a capture by which steer gives a kernel's own choices."""

from __future__ import annotations

import argparse
import os
import shutil
import sys
import tempfile
from typing import NoReturn

from .. import cli, plan, remap, remap_files, remap_words

DESCRIPTION = """\
Writes a plan and a capture, of which a replay gives each packet the receive queue, the processor,
the reader and the transmit queue that a kernel gives it. A plan follows the kernel's manual, by
which a hash picks a member of a mask by its remainder; the kernel's code takes the high bits of
hash times size (docs/kernel.md). So each flow of CAPTURE gets another source address and port,
whose hash has the remainders by which steer picks what the kernel does. Packets keep their
numbers, times and lengths, no two flows become one, and checksums are not made anew.

The low bits of each hash stay, and with them the table's entry, the flow table's, the socket
table's and the bucket of the flow limit. Where they cannot (a table that has not 128 entries,
rules, --hash32, hashes that the kernel makes) the pairs of flows are counted that share an entry
here and not in a kernel, or there and not here. A mask of even size gets a spare processor, the
readers and transmit queues may get spare ones; no packet goes to any of them.

A reader is that of the plan, the card's hash modulo their number, unless --reader or --sockets
says its processor. A hash that the card makes without ports, or none, is made by the kernel itself
with a random key: --draw N draws it, so try several. Packets without IP stay as they are.

The result is replayed by steer and compared with the kernel's rule in each packet; where one is
elsewhere nothing is written, and the status is 3. Flows in a report have rewritten addresses; give
steer-top, steer-page, steer-rows, steer-diff and steer-draw the hashes of the first CAPTURE, and
they name them as they were.

steer-steps, steer-try and steer-best do all of this in one go with --kernel.

One of PLAN and CAPTURE may be - for standard input, and both may be packed as gz, xz or zst."""

EXAMPLE = """\
steer-remap plan.json own.pcap --plan kernel.json --capture kernel.pcap
steer replay kernel.json kernel.pcap > report
steer hash own.pcap > hash.txt
steer-top report hash.txt"""


def words_of(words: list[str]) -> argparse.Namespace:
    parser = cli.parser(DESCRIPTION, EXAMPLE)
    parser.add_argument("plan", metavar="PLAN", help="a plan of steer")
    parser.add_argument("capture", metavar="CAPTURE", help="pcap or pcapng of Ethernet frames")
    parser.add_argument("--plan", dest="new_plan", metavar="OUT", required=True,
                        help="the plan that is written; - is standard output")
    parser.add_argument("--capture", dest="new_capture", metavar="OUT", required=True,
                        help="the capture that is written, as pcap")
    remap_words.add_options(parser)
    told = parser.parse_args(words)
    if told.plan == told.capture == "-":
        raise cli.WrongWords("PLAN and CAPTURE cannot both be standard input")
    remap_files.check_name(told.new_capture, (told.plan, told.capture))
    if told.new_plan != "-":
        remap_files.check_name(told.new_plan, (told.plan, told.capture))
    return told


def _written(told: argparse.Namespace, result: remap.Remapped, made: str) -> None:
    """Writes the plan and the capture, which is in the file `made`, under their names."""
    text = plan.plan_text(result.plan)
    shutil.copyfile(made, told.new_capture)
    if told.new_plan == "-":
        sys.stdout.write(text)
        return
    with open(told.new_plan, "w", encoding="utf-8") as out:
        out.write(text)


def main(words: list[str]) -> None:
    told = words_of(words)
    settings, source = plan.read_plan(told.plan), cli.source_name(told.plan)
    options = remap_words.options_of(told, settings)
    with tempfile.TemporaryDirectory() as folder:
        made = os.path.join(folder, "new.pcap")
        result = remap_files.remapped(settings, source, told.capture,
                                      cli.source_name(told.capture), options, made, folder)
        _written(told, result, made)
    for text in result.notes:
        cli.note(text)
    cli.note("each of %d packets is where the kernel's rule has it" % len(result.frames))


def entry() -> NoReturn:
    """Runs this program by the words of its command line, and ends the process."""
    cli.run(main)
