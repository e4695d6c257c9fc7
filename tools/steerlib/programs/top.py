"""A report of `steer replay` on one screen, or a capture and a plan that are replayed for it."""

from __future__ import annotations

import argparse
import os
import tempfile
from typing import Iterator, NoReturn

from .. import capture as captures
from .. import cli, flows, numbers, offline, plan, ready, remap_words, report, schedule, summary
from .. import trial, waits

DESCRIPTION = """\
Shows a report of `steer replay` on one screen: drops, moves, and the packets of each processor,
receive queue and transmit queue. With HASH, the ten flows that have the most packets as well, with
the queues by which they came in and the processors that they were sent to, each in ascending order.
The sums are recounted from the packets' lines; a report whose own sums are others is refused.
It says so where most drops are of an overload: since the drop before on the same processor that one
had taken no packet. Of commands that found their gate busy it counts the tries by their kind.
With --plan, drops are marked where a kernel has no backlog: a queue without RPS.

With the times of the schedule (steer-steps --times) it shows how long packets waited, from their
arrival until their processor began with them: half of the packets at most so long, 99 of 100, and
the longest; and the load of each processor, the part of the time from the first packet to the last
in which it served. Both go by the clock of the schedule.

Of a CAPTURE and a PLAN it shows the same at once, with flows and times: with --pps it makes a
schedule as steer-steps does, with the same further words, and has steer replay it; without --pps
it replays the plan's own steps. --kernel goes by a kernel's choices, as steer-remap does. A capture
is known by its first bytes, and may be packed as gz, xz or zst."""

EXAMPLE = """\
steer replay plan.json own.pcap > report
steer hash own.pcap > hash.txt
steer-top report hash.txt
steer-steps plan.json own.pcap --pps 20000 --times times > timed.json
steer replay timed.json own.pcap | steer-top --times times -
steer-top own.pcap plan.json --pps 20000 --read --kernel"""


def words_of(words: list[str]) -> argparse.Namespace:
    parser = cli.parser(DESCRIPTION, EXAMPLE, usage="%(prog)s [options] REPORT [HASH]\n"
                        "       %(prog)s [options] CAPTURE PLAN")
    parser.add_argument("report", metavar="REPORT", help="output of `steer replay`; - is input")
    parser.add_argument("hash", metavar="HASH", nargs="?", help=flows.HELP)
    parser.add_argument("--plan", metavar="PLAN", help="the plan that was replayed")
    parser.add_argument("--times", metavar="FILE",
                        help="what steer-steps --times wrote for the schedule of the report")
    parser.add_argument("--pps", metavar="N", type=numbers.rate,
                        help="packets that a processor serves in a second; this and what follows "
                             "go with CAPTURE and PLAN")
    numbers.add_load(parser)
    offline.add_option(parser)
    parser.add_argument("--kernel", action="store_true",
                        help="by a kernel's own choices; the words from --reader on go with it")
    remap_words.add_options(parser)
    told = parser.parse_intermixed_args(words)
    remap_words.check_kernel(told, parser)
    return told


def check_report(told: argparse.Namespace) -> None:
    """Raises WrongWords where words do not go together with a report."""
    if [told.report, told.hash, told.plan, told.times].count("-") > 1:
        raise cli.WrongWords("only one of REPORT, HASH, PLAN and --times can be standard input")
    if told.pps or told.kernel or has_load(told):
        raise cli.WrongWords("--pps, --kernel and what goes with them are for a CAPTURE and a "
                             "PLAN, and %s is no capture" % cli.source_name(told.report))


def has_load(told: argparse.Namespace) -> bool:
    """Whether there are words that go with --pps."""
    return bool(told.cpu or told.reads or told.replies or told.speed != 1 or told.offline)


def check_capture(told: argparse.Namespace) -> None:
    """Raises WrongWords where words do not go together with a capture."""
    if told.hash is None:
        raise cli.WrongWords("%s is a capture, and a PLAN goes with it" % told.report)
    if told.plan is not None or told.times is not None:
        raise cli.WrongWords("--plan and --times go with a REPORT, and %s is a capture"
                             % told.report)
    if has_load(told) and not told.pps:
        raise cli.WrongWords("--cpu, --read, --reply, --speed and --offline go with --pps")


def screen_of_report(told: argparse.Namespace) -> Iterator[str]:
    """The lines for a REPORT."""
    rep = report.read_file(told.report)
    names = None if told.hash is None else flows.of_report(told.hash, rep)
    of = None if told.plan is None else plan.read_plan(told.plan)
    times = None
    if told.times is not None:
        times = waits.of_report(waits.read_file(told.times), rep, cli.source_name(told.times))
    yield from summary.screen(rep, names, of, cli.source_name(told.plan or "PLAN"), times)


def screen_of_capture(told: argparse.Namespace) -> Iterator[str]:
    """The lines for a CAPTURE and a PLAN."""
    shown, source = told.report, cli.source_name(told.hash)
    settings = plan.read_plan(told.hash)
    with tempfile.TemporaryDirectory() as folder, schedule.plain_file(shown) as capture:
        load = schedule.load_of(told, told.pps) if told.pps else None
        times = schedule.times_of(capture, shown) if told.pps else []
        if load is not None:
            schedule.check_fit(times, load, shown, "; steer-cap --count takes them")
        for text in schedule.notes_about(settings, load, capture, told.kernel):
            cli.note("%s: %s" % (source, text))
        options = remap_words.options_of(told, settings) if told.kernel else None
        made = ready.made(settings if load is None else dict(settings, steps=[]), source, capture,
                          shown, options, told.offline, folder)
        for text in made.notes:
            cli.note(text)
        replays = schedule.Replays(made.plan, source, made.capture, shown, folder)
        if load is None:
            replays.run(made.plan["steps"])
            agreed = None
        else:
            agreed = schedule.timed_steps(replays, times, load)
            replays.run(agreed.desk.text())
        rep = report.read_file(replays.report)
        names = flows_of(capture, shown, folder)
    found = agreed and waits.of_report(waits.times_of(agreed.desk), rep, shown)
    yield from summary.screen(rep, names, made.plan, source, found)
    yield ""
    yield trial.KERNEL if told.kernel else trial.MANUAL


def flows_of(capture: str, shown: str, folder: str) -> list[str]:
    """The flow of each packet of a capture, which messages name `shown`."""
    name = os.path.join(folder, "hash")
    with open(name, "wb") as out:
        try:
            cli.run_steer(["hash", capture], out)
        except cli.NoSteer:
            raise
        except cli.Refused as fault:
            raise cli.Refused(shown, fault.reason) from None
    return flows.read_file(name)


def main(words: list[str]) -> None:
    told = words_of(words)
    if captures.is_capture(told.report):
        check_capture(told)
        lines = screen_of_capture(told)
    else:
        check_report(told)
        lines = screen_of_report(told)
    for line in lines:
        print(line)


def entry() -> NoReturn:
    """Runs this program by the words of its command line, and ends the process."""
    cli.run(main)
