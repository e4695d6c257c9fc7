"""steer-steps: a plan's steps from the times of a capture and rates of service."""

from __future__ import annotations

import argparse
import os
import shutil
import sys
import tempfile
from typing import NoReturn

from .. import cli, numbers, offline, plan, ready, remap_check, remap_files, remap_words, schedule
from .. import waits

DESCRIPTION = """\
Writes PLAN with the steps that the times of CAPTURE and a rate of service for each processor give,
so that a replay shows which packets find a full backlog. Steps that the plan has are replaced.

Each packet arrives and is put into the backlog of its processor at its time in the capture. A
processor that is idle takes the first one that waits, and is done with it 1/N seconds later. Where
the rate is high enough, nothing waits; where a backlog is full, the packet is dropped.

By RFS and its filters the place of a packet depends on the steps themselves. So the places are
guessed, at first by the rule of RFS; steer replays the steps of the guess, and what its report
says is the next guess, until the report agrees with the guess in the queue, the processor and the
drop of each packet. Standard error shows each round. Without agreement after 500 rounds there is
no plan and the status is 3.

A processor serves all packets at one rate, whatever their size; a kernel takes them from the
backlog by batches of 64, and a plan without masks has its backlog where a kernel has the ring of
the card. So drops compare settings; they foretell no number on a machine (docs/kernel.md).

A plan has at most 1,000,000 steps, and a packet up to 7. A longer capture is refused before any
work; with --fit its first packets are taken, as many as fit, and written to OUT.

With --kernel each packet goes to the processor that a kernel picks of a mask, by another capture
that is written to OUT (steer-remap --help says how). The plan is for that capture and no other.

One of PLAN and CAPTURE may be - for standard input, and both may be packed as gz, xz or zst."""

EXAMPLE = """\
steer-steps plan.json own.pcap --pps 200000 --read > timed.json
steer replay timed.json own.pcap > report
steer-steps plan.json own.pcap --pps 200000 --kernel --capture k.pcap > k.json
steer replay k.json k.pcap > report"""


def words_of(words: list[str]) -> argparse.Namespace:
    parser = cli.parser(DESCRIPTION, EXAMPLE)
    parser.add_argument("plan", metavar="PLAN", help="a plan of steer, with any steps")
    parser.add_argument("capture", metavar="CAPTURE",
                        help="pcap or pcapng of Ethernet frames with times")
    parser.add_argument("--pps", metavar="N", required=True, type=numbers.rate,
                        help="packets that a processor serves in a second")
    parser.add_argument("--times", metavar="FILE",
                        help="write there when each packet arrives and is served, for --times of "
                             "steer-top, steer-rows and steer-diff")
    numbers.add_load(parser)
    offline.add_option(parser)
    parser.add_argument("--fit", action="store_true",
                        help="take the first packets where not all fit into a plan")
    parser.add_argument("--kernel", action="store_true",
                        help="by a kernel's own choices; the words from --reader on go with it")
    parser.add_argument("--capture", dest="new_capture", metavar="OUT",
                        help="where the capture is written for which the plan is then")
    remap_words.add_options(parser)
    told = parser.parse_args(words)
    check(told, parser)
    return told


def check(told: argparse.Namespace, parser: argparse.ArgumentParser) -> None:
    """Raises WrongWords where words do not go together."""
    if told.plan == told.capture == "-":
        raise cli.WrongWords("PLAN and CAPTURE cannot both be standard input")
    if told.times is not None:
        waits.check_name(told.times, (told.plan, told.capture))
    remap_words.check_kernel(told, parser)
    if (told.kernel or told.fit) != (told.new_capture is not None):
        raise cli.WrongWords("--kernel or --fit, and --capture OUT go together")
    if told.new_capture is not None:
        remap_files.check_name(told.new_capture, (told.plan, told.capture))


def say_result(times: list[int], load: schedule.Load, agreed: schedule.Agreed) -> None:
    own = "".join(", %g at cpu %d" % (rate, cpu) for cpu, rate in load.own_rates)
    seconds = (max(times) - times[0]) / 1e9 if times else 0
    cli.note("agreed in round %d: the replay has each packet where the steps assume it"
             % agreed.rounds)
    if agreed.desk.drops:
        cli.note("a kernel takes a whole backlog off at once, so there drops come in runs and hit "
                 "other packets (docs/kernel.md)")
    if agreed.desk.hurried:
        cli.note("--offline %s: packets that waited there or were in hand, and are handled at once: %d"
                 % (load.offline and load.offline.text, agreed.desk.hurried))
    cli.note("%d packets in %.3f s, %d steps, %g packets/s a processor%s, %d dropped"
             % (len(times), seconds, agreed.desk.count(), load.rate, own, len(agreed.desk.drops)))


def fitting(times: list[int], load: schedule.Load, capture: str, source: str,
            folder: str) -> tuple[list[int], str]:
    """The times and a capture of the first packets, as many as a plan has room for."""
    most = schedule.most_packets(load)
    if len(times) <= most:
        return times, capture
    name = os.path.join(folder, "fit.pcap")
    remap_check.write_frames(remap_files.frames_of(capture, source)[:most], name, source)
    cli.note("the first %d of %d packets are taken" % (most, len(times)))
    return times[:most], name


def write_times(name: str, agreed: schedule.Agreed) -> None:
    """Writes the times of a schedule to the file of this name."""
    with open(name, "wb") as out:
        waits.write(waits.times_of(agreed.desk), out)


def main(words: list[str]) -> None:
    told = words_of(words)
    load = schedule.load_of(told, told.pps)
    with tempfile.TemporaryDirectory() as folder, schedule.plain_file(told.capture) as capture:
        source = cli.source_name(told.capture)
        settings, plan_source = plan.read_plan(told.plan), cli.source_name(told.plan)
        times = schedule.times_of(capture, source)
        if told.fit:
            times, capture = fitting(times, load, capture, source, folder)
        schedule.check_fit(times, load, source, "; --fit takes them")
        for text in schedule.notes_about(settings, load, capture, told.kernel, told.kernel):
            cli.note("%s: %s" % (plan_source, text))
        settings = dict(settings, steps=[])
        options = remap_words.options_of(told, settings) if told.kernel else None
        made = ready.made(settings, plan_source, capture, source, options, told.offline, folder)
        for text in made.notes:
            cli.note(text)
        replays = schedule.Replays(made.plan, plan_source, made.capture, source, folder)
        agreed = schedule.timed_steps(replays, times, load, cli.say)
        if told.new_capture is not None:
            shutil.copyfile(made.capture, told.new_capture)
        if told.times is not None:
            write_times(told.times, agreed)
        sys.stdout.write(plan.plan_text(dict(made.plan, steps=agreed.desk.steps())))
    say_result(times, load, agreed)


def entry() -> NoReturn:
    """Runs this program by the words of its command line, and ends the process."""
    cli.run(main)
