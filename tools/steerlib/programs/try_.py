"""steer-try: plans side by side over one capture."""

from __future__ import annotations

import argparse
import os
import re
import shlex
import sys
import tempfile
from typing import Any, Iterator, NamedTuple, NoReturn, Sequence

from .. import cli, cluster, numbers, offline, outcomes, plan, progress, remap_words, schedule
from .. import trial

DESCRIPTION = """\
Replays each PLAN over CAPTURE, once for each seed, rate of service or key, and shows the plans
side by side: the drops, how often a flow left a processor (moves), and the processor with the most
packets, dropped ones among them, with its share.

--seeds mixes the steps by chance, 4 for each packet, and shows the mean of the drops with their
standard deviation between seeds, which is what one seed is worth. --pps makes the steps by the
times of the capture, as steer-steps does, with the same further words, and shows as well the wait
that 99 of 100 packets do not pass and the processor with the highest load, as steer-top --times
does. Beside a report that is kept is a file of these times.

--keys draws keys of the card, each from its number, in place of the plan's own, and shows how many
packets the busiest processor gets, whichever it is: with the best key, in the middle, and with
the worst, and the share of the one in the middle. Packets go where they go at first, without steps.

--kernel gives each packet the processor that a kernel picks, as steer-remap does; its help says
how, and steer-remap itself notes what cannot be had. The hashes that a kernel makes itself are
drawn: --draws N shows a row for each of N draws, and without it each seed or key has its own. Where
it adds processors, the steps of a seed name others than without --kernel.

Each plan with each seed, rate or key is a trial of its own, and trials may be divided over machines
(docs/site.md). --results keeps a line of each, and --resume makes only those that are not there yet
of the same capture, plan and words. --dask has the workers of a Dask cluster make them. --part I/N
makes the I-th of N equal parts, for an array of jobs, and --commands prints commands, a line each,
for whatever runs a line by sh, such as GNU parallel: one trial a line, or with --parts N all of
them in N lines. Their results go into a folder that all can write to, and --collect makes the table
of what is there. The commands run in the folder in which they were printed, and each question needs
a folder of its own.

Never divide a capture: in each part backlogs and flow tables would begin empty. A cut is harmless
only at a pause that is longer than the largest backlog takes, and without flow tables.

A plan that cannot be read, or a trial that is refused, does not keep the other rows from coming;
the status is then 3. CAPTURE may be packed as gz, xz or zst, and - is standard input."""

EXAMPLE = """\
steer-try own.pcap --pps 1000,2000,5000 --read a.json b.json
steer-try own.pcap --seeds 20 a.json b.json
steer-try own.pcap --keys 100 --kernel a.json b.json
steer-try own.pcap --pps 1000,2000 --kernel --draws 5 a.json b.json
steer-try own.pcap --pps 1000,2000 --results out --resume a.json b.json
steer-try own.pcap --pps 1000,2000 --dask 10.0.0.1:8786 a.json b.json
steer-try own.pcap --pps 1000,2000 --commands --parts 2 --results out a.json b.json > lines
parallel --jobs 8 < lines
steer-try --collect out"""


def words_of(words: list[str]) -> argparse.Namespace:
    parser = cli.parser(DESCRIPTION, EXAMPLE, usage="%(prog)s [options] CAPTURE PLAN [PLAN ..]\n"
                        "       %(prog)s [--jobs N] --collect FOLDER")
    parser.add_argument("files", metavar="CAPTURE PLAN", nargs="*",
                        help="the capture, and the plans, whose own steps are not used")
    kind = parser.add_mutually_exclusive_group()
    kind.add_argument("--seeds", metavar="N", type=numbers.seeds,
                      help="the seeds 1 to N, or A-B for those from A to B (8 where none of "
                           "these is said)")
    kind.add_argument("--keys", metavar="N", type=numbers.seeds,
                      help="the drawn keys 1 to N, or A-B for those from A to B")
    kind.add_argument("--pps", metavar="A,B,..", type=numbers.rates,
                      help="packets that a processor serves in a second")
    numbers.add_load(parser)
    offline.add_option(parser)
    parser.add_argument("--kernel", action="store_true",
                        help="by a kernel's own choices; --draws and the words from --reader on "
                             "go with it")
    parser.add_argument("--draws", metavar="N", type=numbers.seeds,
                        help="a row for each of the draws 1 to N, or A to B for A-B")
    remap_words.add_options(parser)
    add_work(parser)
    told = parser.parse_intermixed_args(words)
    check(told)
    remap_words.check_kernel(told, parser)
    return told


def add_work(parser: argparse.ArgumentParser) -> None:
    """Adds the words that say where trials are made and what is kept of them."""
    parser.add_argument("--jobs", metavar="N", type=numbers.whole_number(1, 1024),
                        default=trial.processors_here(),
                        help="trials at once (as many as processors)")
    parser.add_argument("--dask", metavar="HOST:PORT", type=address,
                        help="the workers of the Dask scheduler there make the trials")
    parser.add_argument("--results", metavar="FOLDER",
                        help="keep a line of the results of each trial there")
    parser.add_argument("--resume", action="store_true",
                        help="make no trial whose line is in the folder of --results")
    parser.add_argument("--reports", metavar="FOLDER",
                        help="keep the report of each trial there, and show no table")
    parser.add_argument("--part", metavar="I/N", type=part,
                        help="make the trials I, I+N, I+2N .. of all, and show no table")
    parser.add_argument("--commands", action="store_true",
                        help="print commands that make the trials and keep what --results or "
                             "--reports says, one trial a line")
    parser.add_argument("--parts", metavar="N", type=numbers.whole_number(1, 1000000),
                        help="with --commands: all trials in N lines")
    parser.add_argument("--collect", metavar="FOLDER",
                        help="show the table of the results and reports there")


def address(text: str) -> str:
    """The word of --dask, HOST:PORT."""
    host, _, port = text.rpartition(":")
    if not host or not re.fullmatch("[0-9]{1,5}", port) or int(port) > 65535:
        raise argparse.ArgumentTypeError("%s is no HOST:PORT such as 10.0.0.1:8786" % text)
    return text


def part(text: str) -> tuple[int, int]:
    """The word of --part, I/N."""
    found = re.fullmatch("([0-9]{1,7})/([0-9]{1,7})", text)
    if not found or not 1 <= int(found[1]) <= int(found[2]):
        raise argparse.ArgumentTypeError("%s is no part such as 3/40, of 1/40 to 40/40" % text)
    return int(found[1]), int(found[2])


def check(told: argparse.Namespace) -> None:
    """Raises WrongWords where words do not go together."""
    if told.collect is not None:
        if (told.files or told.seeds or told.pps or told.keys or told.commands or told.reports
                or told.results or told.part or told.dask or told.resume):
            raise cli.WrongWords("--collect takes a folder, and neither files nor trials")
        return
    if len(told.files) < 2:
        raise cli.WrongWords("a CAPTURE and a PLAN at the least are needed (--help says more)")
    if "-" in told.files[1:] or told.commands and told.files[0] == "-":
        raise cli.WrongWords("standard input can only be the CAPTURE, and not with --commands")
    if told.draws and not told.kernel:
        raise cli.WrongWords("--draws goes with --kernel")
    if not told.pps and (told.cpu or told.reads or told.replies or told.speed != 1
                         or told.offline):
        raise cli.WrongWords("--cpu, --read, --reply, --speed and --offline go with --pps")
    check_work(told)


def check_work(told: argparse.Namespace) -> None:
    """Raises WrongWords where the words of add_work do not go together."""
    kept = told.reports is not None or told.results is not None
    for word, there in (("--commands", told.commands), ("--part", told.part)):
        if there and not kept:
            raise cli.WrongWords("%s needs --results FOLDER or --reports FOLDER" % word)
    if told.resume and told.results is None:
        raise cli.WrongWords("--resume needs --results FOLDER")
    if told.parts and not told.commands:
        raise cli.WrongWords("--parts goes with --commands")
    if told.commands and (told.part or told.dask):
        raise cli.WrongWords("--commands goes neither with --part nor with --dask")
    if told.dask and told.reports is not None:
        raise cli.WrongWords("--dask keeps lines of results (--results), and no reports")


def again(told: argparse.Namespace) -> list[str]:
    """The words that all trials share, as they were said, without folders."""
    words = ["--cpu=%d=%s" % (cpu, numbers.number_text(rate)) for cpu, rate in told.cpu]
    words += ["--read"] * told.reads + ["--reply"] * told.replies
    if told.speed != 1:
        words += ["--speed", numbers.number_text(told.speed)]
    if told.offline is not None:
        words += ["--offline", told.offline.text]
    return words + ["--kernel"] * told.kernel + remap_words.again(told)


def command_lines(told: argparse.Namespace) -> Iterator[str]:
    """The lines of --commands."""
    words = again(told) + ["--resume"] * told.resume
    for option, folder in (("--results", told.results), ("--reports", told.reports)):
        words += [option, folder] if folder is not None else []
    capture, plans = told.files[0], told.files[1:]
    if told.parts:
        yield from part_lines(told, words)
        return
    words += ["--part", "1/1"] if told.reports is None else []
    if told.pps:
        values = [("--pps", numbers.number_text(rate)) for rate in told.pps]
    else:
        values = [("--keys" if told.keys else "--seeds", "%d-%d" % (number, number))
                  for number in told.keys or told.seeds]
    for draw in [["--draws", "%d-%d" % (draw, draw)] for draw in told.draws or ()] or [[]]:
        yield from trial.commands(sys.argv[0], capture, plans, values, words + draw)


def part_lines(told: argparse.Namespace, words: list[str]) -> Iterator[str]:
    """The lines of --commands where all trials are in so many of --parts."""
    if told.pps:
        words = words + ["--pps", ",".join(numbers.number_text(rate) for rate in told.pps)]
    else:
        drawn = told.keys or told.seeds
        words = words + ["--keys" if told.keys else "--seeds", "%d-%d" % (drawn[0], drawn[-1])]
    if told.draws:
        words += ["--draws", "%d-%d" % (told.draws[0], told.draws[-1])]
    for number in range(1, told.parts + 1):
        line = [sys.argv[0], told.files[0], *words, "--jobs", "1",
                "--part", "%d/%d" % (number, told.parts), *told.files[1:]]
        yield " ".join(shlex.quote(word) for word in line)


def read_plans(names: list[str]) -> dict[str, Any]:
    """The settings of each plan by its name, or the exception that says why it has none."""
    settings: dict[str, Any] = {}
    for name in dict.fromkeys(names):
        try:
            settings[name] = plan.read_plan(name)
        except (cli.Refused, cli.NotThatFile) as fault:
            settings[name] = fault
    return settings


def prepare(settings: dict[str, Any], load: schedule.Load | None, capture: str,
            kernel: bool) -> None:
    """Notes what a replay of the plans shows otherwise than a kernel; takes their steps away.

    What is to be said of several plans is said once, with their names.
    """
    about: dict[str, list[str]] = {}
    for name, of in settings.items():
        if not isinstance(of, Exception):
            for text in schedule.notes_about(of, load, capture, kernel):
                about.setdefault(text, []).append(name)
            of["steps"] = []
    for text, names in about.items():
        cli.note("%s: %s" % (", ".join(names), text))


class Wanted(NamedTuple):
    """The trials that are asked for: plans with draws, a kind and its values, and which of them."""

    drawn: list[tuple[str, int | None]]
    kind: str
    values: Sequence[float]
    numbers: range


def wanted(told: argparse.Namespace) -> Wanted:
    """The trials that these words ask for."""
    drawn = [(name, draw) for name in told.files[1:] for draw in told.draws or (None,)]
    kind, values = ((trial.RATE, told.pps) if told.pps else
                    (trial.KEY, told.keys) if told.keys else (trial.SEED, told.seeds))
    first, step = told.part or (1, 1)
    return Wanted(drawn, kind, values, range(first - 1, len(drawn) * len(values), step))


def rows_of(told: argparse.Namespace) -> list[trial.Row]:
    """Makes all trials: rows of (plan, results by kind and value)."""
    shown = cli.source_name(told.files[0])
    load = told.pps and schedule.load_of(told)
    want = wanted(told)
    chosen = [(want.drawn[number // len(want.values)], want.values[number % len(want.values)])
              for number in want.numbers]
    settings = read_plans([name for (name, _), _ in chosen])
    with schedule.plain_file(told.files[0]) as capture, \
            tempfile.TemporaryDirectory(dir=told.reports, prefix=".trials-") as work:
        times = schedule.times_of(capture, shown) if told.pps else None
        packets = trial.packets_of(capture, shown) if times is None else len(times)
        if load and times is not None:
            schedule.check_fit(times, load, shown, "; steer-cap --count takes them")
        prepare(settings, load, capture, told.kernel)
        shared = trial.Setting(capture, shown, times, packets, load, work, told.reports,
                               told.results, question(told, capture))
        trials = [trial_of(told, name, draw, settings[name], want.kind, value)
                  for (name, draw), value in chosen]
        results = made(told, trials, shared)
    rows: dict[tuple[str, int | None], dict[tuple[str, float], Any]] = {}
    for (drawn, value), result in zip(chosen, results):
        rows.setdefault(drawn, {})[want.kind, value] = result
    return [(label(*drawn), rows[drawn]) for drawn in want.drawn if drawn in rows]


def question(told: argparse.Namespace, capture: str) -> str:
    """The digest of what all trials share."""
    read = [outcomes.digest_of_file(name) for name in (capture, told.snap) if name is not None]
    return outcomes.digest(again(told), *read)


def made(told: argparse.Namespace, trials: list[trial.Trial],
         shared: trial.Setting) -> list[trial.Outcome | str]:
    """The results of trials, of which those that are kept from an earlier call are not made."""
    kept = [trial.kept_before(one, shared) if told.resume else None for one in trials]
    left = [one for one, result in zip(trials, kept) if result is None]
    if told.resume:
        cli.note("%d of %d trials are in %s and are not made again"
                 % (len(trials) - len(left), len(trials), told.results))
    shown = progress.Progress("trials", len(left), only_terminal=True,
                              at_once=1 if told.dask else told.jobs)
    try:
        if not left:
            new: list[trial.Outcome | str] = []
        elif told.dask:
            new = cluster.at_once(told.dask, left, shared, shown.at)
        else:
            new = trial.at_once(trial.attempt, told.jobs, [(one, shared) for one in left],
                                shown.at)
    finally:
        shown.end()
    results = iter(new)
    return [next(results) if result is None else result for result in kept]


def label(name: str, draw: int | None) -> str:
    """How a table names a plan with a draw, None where no draws are asked for."""
    return name if draw is None else "%s, draw %d" % (name, draw)


def trial_of(told: argparse.Namespace, name: str, draw: int | None, settings: Any, kind: str,
             value: float) -> trial.Trial:
    """The Trial of a plan for a draw and a value."""
    options = None
    if told.kernel and not isinstance(settings, Exception):
        try:
            options = remap_words.options_of(told, settings)
        except (cli.Refused, cli.WrongWords) as fault:
            settings = fault
        else:
            options.seed = draw if draw is not None else (
                options.seed if kind == trial.RATE else int(value))
    return trial.Trial(label(name, draw), settings, kind, value, options)


def main(words: list[str]) -> int:
    told = words_of(words)
    told.seeds = told.seeds or (None if told.pps or told.keys else range(1, 9))
    if told.commands:
        for line in command_lines(told):
            print(line)
        return cli.DONE
    for folder in (told.reports, told.results):
        if folder is not None:
            os.makedirs(folder, exist_ok=True)
    rows = trial.collected(told.collect, told.jobs) if told.collect is not None else rows_of(told)
    texts = [result for _, results in rows for result in results.values()
             if isinstance(result, str)]
    for text in dict.fromkeys(texts):
        cli.say("%s: %s" % (cli.program_name(), text))
    if told.reports is None and told.part is None:
        rule = trial.EITHER if told.collect is not None else (
            trial.KERNEL if told.kernel else trial.MANUAL)
        for line in trial.screen(rows, rule):
            print(line)
    return cli.REFUSED if texts else cli.DONE


def entry() -> NoReturn:
    """Runs this program by the words of its command line, and ends the process."""
    cli.run(main)
