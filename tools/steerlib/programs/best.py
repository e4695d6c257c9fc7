"""steer-best: settings of a plan tried over one capture, the best one first."""

from __future__ import annotations

import argparse
import json
import os
import shlex
import shutil
import sys
import tempfile
from typing import Iterator, NoReturn, Sequence

from .. import best, cli, limits, numbers, plan, progress, readers, remap_words, schedule, tables
from .. import offline as offlines
from .. import trial, waits

DESCRIPTION = """\
Tries settings of PLAN over CAPTURE at a rate of service, and shows them with the best one first:
the one with the fewest drops, then the one where 99 of 100 packets wait the shortest time, then
the one whose busiest processor has the fewest packets, then the one with the fewest moves.

What is tried is each combination of the settings that are named, and the plan as it is. Where
none is named, these are the masks of the first processor of the plan's masks, the first two, and
so on, and then of twice as many up to all.
All receive queues get the same mask and flow count. Each is a schedule as steer-steps makes it and
a replay by steer, and each row has the command line that makes its numbers again.

--offline tries each setting with all processors online and with these offline, once with the masks
as they are, and once written again without them. Their interrupts and readers go to the first
processor that stays. It shows as well how many packets and flows are elsewhere then. Below the
table stands what a kernel does otherwise.

A packet waits from its arrival until its processor begins with it. The load of a processor is the
part of the time from the first packet to the last in which it serves.

--least looks for the smallest backlog, the lowest rate or the fewest members of the mask without
drops, for each combination of the others. The first two by bisection, which takes for granted that
more never loses a packet where less loses none: without RFS that is so. The next smaller value that
was tried is shown with its drops.

--kernel goes by a kernel's choice of a mask's member, as steer-remap does; without it the answer is
by the kernel's manual, and on a machine another setting may be the best one."""

EXAMPLE = """\
steer-best own.pcap plan.json --pps 20000 --read --kernel
steer-best own.pcap plan.json --pps 20000 --mask f0,ff0 --backlog 100,1000
steer-best own.pcap plan.json --pps 20000 --table equal:4 --table weight:6,2
steer-best own.pcap plan.json --pps 20000 --least backlog"""

UNKNOWN = (
    "readers: where a program reads is no part of a capture; it is the plan's `apps`, or --reader",
    "other traffic: each capture is one sample, so try several, and several rates",
    "TCP: senders slow down after a drop or a wait; recorded packets come as they came",
    "cost: each packet takes a processor 1/N s, whatever its size and its way")


def words_of(words: list[str]) -> argparse.Namespace:
    parser = cli.parser(DESCRIPTION, EXAMPLE)
    parser.add_argument("capture", metavar="CAPTURE", help="pcap or pcapng of Ethernet frames")
    parser.add_argument("plan", metavar="PLAN", help="a plan, whose own steps are not used")
    parser.add_argument("--pps", metavar="N", required=True, type=numbers.rate,
                        help="packets that a processor serves in a second")
    add_settings(parser)
    parser.add_argument("--least", choices=sorted(best.LEAST),
                        help="look for the smallest of these without drops: %(choices)s")
    numbers.add_load(parser)
    parser.add_argument("--kernel", action="store_true",
                        help="by a kernel's own choices; the words from --reader on go with it")
    remap_words.add_options(parser)
    parser.add_argument("--jobs", metavar="N", type=numbers.whole_number(1, 1024),
                        default=trial.processors_here(),
                        help="trials at once (as many as processors)")
    told = parser.parse_args(words)
    remap_words.check_kernel(told, parser)
    check(told)
    return told


def add_settings(parser: argparse.ArgumentParser) -> None:
    """Adds the words that name what is tried."""
    parser.add_argument("--mask", metavar="M,M,..", action="append", default=[],
                        help="masks of processors, hexadecimal as in rps_cpus")
    parser.add_argument("--queues", metavar="N,N,..", action="append", default=[],
                        help="numbers of receive queues in use (ethtool -X DEV equal N)")
    parser.add_argument("--table", metavar="TABLE", action="append", default=[],
                        help="a redirection table: equal:N, weight:W0,W1,.. or default; may be "
                             "repeated")
    parser.add_argument("--flows", metavar="N,N,..", action="extend", default=[], type=counts,
                        help="flow counts of each queue (rps_flow_cnt); 0 is no RFS")
    parser.add_argument("--backlog", metavar="N,N,..", action="append", default=[],
                        help="lengths of a backlog (netdev_max_backlog)")
    parser.add_argument("--set", metavar="WORDS", action="append", default=[], type=parts,
                        help="settings as steer-set takes them, several with blanks between; may "
                             "be repeated, and one of them is in force at a time")
    parser.add_argument("--readers", metavar="WORDS", action="append", default=[],
                        type=placement,
                        help="who reads where, with --kernel: WHAT=CPU as of --reader, several "
                             "with blanks between; may be repeated as --set")
    parser.add_argument("--offline", metavar="LIST[@S]", action="append", default=[],
                        type=offlines.told, help=offlines.HELP + "; may be repeated as --set")


def counts(text: str) -> list[int]:
    """The type of N,N,..: flow counts."""
    return [numbers.whole_number(0, limits.MOST_FLOWS)(part) for part in text.split(",")]


def parts(text: str) -> best.Words:
    """The type of words with blanks between them, where quotation marks keep some together."""
    try:
        return tuple(shlex.split(text))
    except ValueError as fault:
        raise argparse.ArgumentTypeError("%s: %s" % (text, fault)) from None


def placement(text: str) -> best.Words:
    """The type of words WHAT=CPU with blanks between them."""
    found = parts(text)
    for word in found:
        readers.told(word)
    return found


def check(told: argparse.Namespace) -> None:
    """Raises WrongWords where words do not go together."""
    if "-" in (told.capture, told.plan):
        raise cli.WrongWords("CAPTURE and PLAN are files, which the command lines name again")
    if told.readers and not told.kernel:
        raise cli.WrongWords("--readers goes with --kernel")
    for least, name in (("backlog", "backlog"), ("members", "mask")):
        if told.least == least and getattr(told, name):
            raise cli.WrongWords("--least %s does not go with --%s" % (least, name))


def split(texts: Sequence[str]) -> list[str]:
    """The values of an option that may be repeated, each once."""
    return list(dict.fromkeys(part for text in texts for part in text.split(",")))


def tried(told: argparse.Namespace,
          question: best.Question) -> dict[best.Setting, best.Setting | None]:
    """The settings that are tried, each plan once, the plan as it is among them.

    For one with processors offline it has the same with all of them online, else None.
    """
    settings = best.plan_with(question, ())
    masks = split(told.mask)
    named = (masks or told.queues or told.table or told.flows or told.backlog or told.set
             or told.readers or told.offline)
    if not named and told.least is None:
        masks = best.masks_of(settings)
    tables_of = ["equal:" + queues for queues in split(told.queues)] + told.table
    words: list[list[best.Words]] = [
        [(best.MASK + mask,) for mask in masks], [("indir=" + name,) for name in tables_of],
        [best.flow_words(settings, count) for count in dict.fromkeys(told.flows)],
        [(best.BACKLOG + length,) for length in split(told.backlog)],
        list(told.set)]
    kinds = [[best.Setting(each) for each in kind] for kind in words if kind]
    if told.readers:
        kinds.append([best.Setting(readers=each) for each in told.readers])
    found: dict[best.Setting, best.Setting | None] = {}
    for setting in [*best.choices(kinds), best.Setting()]:
        found.setdefault(setting, None)
        for offline in told.offline:
            for each in best.with_offline(setting, offline, question):
                found.setdefault(each, setting)
    if len(found) > best.MOST_TRIED + 1:
        raise cli.WrongWords("%d settings, and at most %d are tried"
                             % (len(found) - 1, best.MOST_TRIED))
    first: dict[str, best.Setting] = {}
    for setting in found:
        first.setdefault(sense(setting, question), setting)
    return {setting: base and first[sense(base, question)] for setting, base in found.items()
            if first[sense(setting, question)] == setting}


def sense(setting: best.Setting, question: best.Question) -> str:
    """What the plan with these settings says, and what is said beside it, as text."""
    wanted = best.sense_of(best.plan_with(question, setting.words))
    return json.dumps([wanted, setting.readers, setting.offline], sort_keys=True)


def attempt(setting: best.Setting, question: best.Question) -> best.Result:
    """The row of a setting, or the text of why it was refused."""
    try:
        if question.told.least is None:
            return best.trial(setting, question.load.rate, question)
        return best.LEAST[question.told.least](setting, question.load.rate, question)
    except (cli.Refused, cli.NotThatFile, cli.WrongWords) as fault:
        return str(fault)


def label(row: best.Row, question: best.Question) -> str:
    """How a row names its setting."""
    plain = sense(row.setting, question) == sense(best.Setting(), question)
    said = ["readers " + " ".join(row.setting.readers)] if row.setting.readers else []
    if row.setting.offline:
        said.insert(0, offlines.name(offlines.told(row.setting.offline)))
    words = " ".join([*said, *row.setting.words])
    return ("%s (as it is)" % words).strip() if plain else words


def line_of(row: best.Row, told: argparse.Namespace, number: int) -> str:
    """The command line that makes the numbers of a row again."""
    def named(name):
        return shlex.quote(os.path.join(os.path.dirname(sys.argv[0]), name))

    load = ["--cpu=%d=%s" % (cpu, numbers.number_text(rate)) for cpu, rate in told.cpu]
    load += ["--read"] * told.reads + ["--reply"] * told.replies
    if told.speed != 1:
        load += ["--speed", numbers.number_text(told.speed)]
    if row.setting.offline:
        load += ["--offline", row.setting.offline]
    capture = told.capture
    if told.kernel:
        capture = "best-%d.pcap" % number
        load += ["--kernel", "--capture", capture]
        load += [word for reader in row.setting.readers for word in ("--reader", reader)]
        load += remap_words.again(told)
    files = {"plan": "best-%d.json" % number, "times": "best-%d.times" % number}
    source = shlex.quote(told.plan)
    if row.setting.words:
        source = "-"
        first = "%s %s %s | " % (named("steer-set"), shlex.quote(told.plan),
                                 " ".join(shlex.quote(word) for word in row.setting.words))
    else:
        first = ""
    quoted = " ".join(shlex.quote(word) for word in [
        told.capture, "--pps", numbers.number_text(row.rate), "--times", files["times"]] + load)
    return "%s%s %s %s > %s && %s replay %s %s | %s --times %s -" % (
        first, named("steer-steps"), source, quoted, files["plan"], steer_word(), files["plan"],
        shlex.quote(capture), named("steer-top"), files["times"])


def steer_word() -> str:
    """How a command line names steer: as this program finds it."""
    if os.environ.get("STEER"):
        return '"$STEER"'
    return "steer" if shutil.which("steer") else shlex.quote(cli.find_steer()[0])


def table_of(rows: Sequence[best.Row], question: best.Question) -> Iterator[str]:
    """The lines of the table of rows."""
    def cells(number, row):
        cpu, most, packets = best.busiest(row)
        times = [waits.time_text(time) for time in row.waits[:3]]
        return [number, row.drops, "cpu %d %s" % (cpu, tables.share(most, packets)), row.moves,
                *times, label(row, question)]

    yield from tables.aligned(
        ("", "drops", "busiest", "moves", "half wait", "99% wait", "longest", "setting"),
        [cells(number, row) for number, row in enumerate(rows, 1)])
    used = [cpu for cpu in range(len(rows[0].offered)) if any(row.offered[cpu] for row in rows)]
    yield ""
    yield from tables.aligned(
        [""] + ["cpu %d" % cpu for cpu in used] + ["load"],
        [[number] + [waits.load_text(row.waits.loads[cpu]) for cpu in used]
         + [label(row, question)] for number, row in enumerate(rows, 1)])


def elsewhere_table(rows: Sequence[best.Row], bases: dict[best.Setting, best.Setting | None],
                    question: best.Question) -> Iterator[str]:
    """The lines of the table of what is elsewhere where processors are offline."""
    by_setting = {row.setting: row for row in rows}
    cells = []
    for number, row in enumerate(rows, 1):
        base = by_setting.get(bases.get(row.setting) or row.setting)
        if base is not None and base is not row:
            packets, flows = best.elsewhere(row, base, question.flows)
            cells.append((number, "%d of %d" % (packets, len(row.cpus)),
                          "%d of %d" % (flows, len(set(question.flows))), label(row, question)))
    if cells:
        yield ""
        yield from tables.aligned(
            ("", "packets elsewhere", "flows", "than with all processors online"), cells)


def least_table(results: Sequence[best.Least], question: best.Question) -> Iterator[str]:
    """The lines of the table of the smallest settings without drops."""
    def shown(row):
        text = label(row, question)
        return numbers.number_text(row.rate) + (" " + text if text else "")

    rows = []
    for number, (found, below) in enumerate(results, 1):
        rows.append((number, "-" if below is None else below.drops,
                     "none" if below is None else shown(below),
                     "none" if found is None else shown(found)))
    yield from tables.aligned(("", "drops", "with (packets/s, setting)", "no drops with"), rows)


def screen(told: argparse.Namespace, results: Sequence[best.Result],
           bases: dict[best.Setting, best.Setting | None],
           question: best.Question) -> Iterator[str]:
    """All lines of the answer."""
    order = list(best.ranked(results))
    found = [result for result in order if isinstance(result, best.Least)]
    if found:
        yield from least_table(found, question)
        yield ""
    rows = [row for row in ((result.found or result.below) if isinstance(result, best.Least)
                            else result for result in order) if row is not None]
    if not rows:
        return
    yield from table_of(rows, question)
    yield from elsewhere_table(rows, bases, question)
    yield ""
    for number, row in enumerate(rows, 1):
        yield "%d again: %s" % (number, line_of(row, told, number))
    yield ""
    yield trial.KERNEL if told.kernel else trial.MANUAL + "; --kernel goes by its rule"
    settings = best.plan_with(question, ())
    for offline in told.offline:
        yield from offlines.notes(settings, offline)
    for text in UNKNOWN:
        yield "not known, " + text


def main(words: list[str]) -> int:
    told = words_of(words)
    load = schedule.load_of(told, told.pps)._replace(offline=None)
    shown = cli.source_name(told.capture)
    settings = plan.read_plan(told.plan)
    with schedule.plain_file(told.capture) as capture, \
            tempfile.TemporaryDirectory(prefix="steer-best-") as work:
        times = schedule.times_of(capture, shown)
        schedule.check_fit(times, load, shown, "; steer-cap --count takes them")
        for text in schedule.notes_about(settings, load, capture, told.kernel):
            cli.note("%s: %s" % (told.plan, text))
        flows = schedule.numbers_of(schedule.flow_texts(capture, work)) if told.offline else []
        question = best.Question(cli.read_bytes(told.plan), told.plan, capture, shown, times, flows,
                                 load, told, work)
        some = tried(told, question)
        tell = progress.Progress("settings tried", len(some), at_once=told.jobs)
        results = trial.at_once(attempt, told.jobs, [(each, question) for each in some], tell.at)
    texts = [result for result in results if isinstance(result, str)]
    for text in dict.fromkeys(texts):
        cli.say("%s: %s" % (cli.program_name(), text))
    for line in screen(told, results, some, question):
        print(line)
    return cli.REFUSED if texts else cli.DONE


def entry() -> NoReturn:
    """Runs this program by the words of its command line, and ends the process."""
    cli.run(main)
