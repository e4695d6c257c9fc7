"""Trials: plans over one capture with seeds, at rates or by keys, and a table of them.

A trial is independent of all others, so they run in any order, at once, or on other machines;
what one leaves is a report, whose name says the plan and the seed, the rate or the key.
"""

from __future__ import annotations

import hashlib
import os
import re
import secrets
import shlex
import signal
import statistics
import tempfile
from concurrent.futures import ProcessPoolExecutor
from concurrent.futures.process import BrokenProcessPool
from typing import Any, Callable, Dict, Iterator, NamedTuple, Sequence, Tuple, Union
from urllib.parse import quote, unquote

from . import cli, limits, numbers, outcomes, ready, remap, schedule, tables, waits
from .outcomes import TIMES, Outcome, outcome_of, outcome_or_text
from .plan import Plan

SEED, RATE, KEY = "seed", "pps", "key"
STEPS_PER_PACKET = 4
MANUAL = "by the manual's rule, hash modulo size; a kernel picks other members (docs/kernel.md)"
KERNEL = "by a kernel's rule, the hash scaled (docs/kernel.md)"
EITHER = "by the manual's rule, hash modulo size, or in trials with --kernel by a kernel's"
REPORT, REFUSED, RESULT = ".report", ".refused", ".result"


class Trial(NamedTuple):
    """One trial: the plan's file, what it has, and the seed, packets a second or drawn key.

    `settings` is an exception where there are none, which says why. `kind` is SEED, RATE or KEY.
    `options` are those of a remap where the choices are to be a kernel's.
    """

    plan: str
    settings: Plan | Exception
    kind: str
    value: float
    options: remap.Options | None = None


class Setting(NamedTuple):
    """What all trials of a call share.

    `capture` is a file that steer reads, which messages name `shown`; `times` are those of its
    packets, or None; `load` is without its rate; `work` is a folder for what is made underway, and
    `folder`, on the same disk, the one where the reports are kept, or None. `results` is the folder
    where lines of results are kept, or None, and `question` the digest of what all trials share.
    """

    capture: str
    shown: str
    times: list[int] | None
    packets: int
    load: schedule.Load | None
    work: str
    folder: str | None
    results: str | None = None
    question: str = ""


# A plan with what was found for each kind and value; a plan's label with that for each value.
Row = Tuple[str, Dict[Tuple[str, float], Union[Outcome, str]]]
ValueRow = Tuple[str, Dict[float, Union[Outcome, str]]]

_NAME = re.compile(r"(.+)\.(seed|pps|key)-([0-9.e+-]+)(\.report|\.refused|\.result)")


def report_name(trial: Trial) -> str:
    """The name of a trial's report, without its folder and ending; it tells the plan's path."""
    return "%s.%s-%s" % (quote(trial.plan, safe=""), trial.kind, numbers.number_text(trial.value))


def trial_of(name: str) -> tuple[str, str, float, str] | None:
    """The plan, kind and value of a report's file name, and its ending; None of another name."""
    found = _NAME.fullmatch(name)
    if found is None:
        return None
    plan, kind, value, ending = found.groups()
    try:
        value = float(value) if kind == RATE else int(value)
    except ValueError:
        return None
    return unquote(plan), kind, value, ending


def drawn_key(number: int) -> str:
    """The key of a card that is drawn for this number, as the digits of a plan: BLAKE2b of it."""
    return hashlib.blake2b(b"%d" % number, digest_size=limits.KEY_DIGITS // 2).hexdigest()


def packets_of(capture: str, shown: str) -> int:
    """How many packets steer reads in a capture, which messages name `shown`."""
    try:
        last = cli.run_steer(["hash", capture]).splitlines()[-1]
    except cli.NoSteer:
        raise
    except cli.Refused as fault:
        raise cli.Refused(shown, fault.reason) from None
    return int(last.split()[1])


def _replay(trial, setting, folder):
    """Replays a trial; the name of its report. Refused too where its plan cannot be read."""
    if isinstance(trial.settings, Exception):
        raise trial.settings
    settings = trial.settings
    if trial.kind == KEY:
        settings = dict(settings, key=drawn_key(int(trial.value)))
    offline = None if setting.load is None else setting.load.offline
    made = ready.made(settings, trial.plan, setting.capture, setting.shown, trial.options, offline,
                      folder)
    replays = schedule.Replays(made.plan, trial.plan, made.capture, setting.shown, folder)
    if trial.kind == SEED:
        count = min(limits.MOST_COUNT, STEPS_PER_PACKET * setting.packets)
        replays.run({"seed": trial.value, "count": count})
    elif trial.kind == KEY:
        replays.run(["sweep"])
    else:
        load = setting.load._replace(rate=trial.value)
        agreed = schedule.timed_steps(replays, setting.times, load)
        if setting.folder is not None:
            replays.run(agreed.desk.text())
        with open(replays.report + TIMES, "wb") as out:
            waits.write(waits.times_of(agreed.desk), out)
    return replays.report


def _keep(trial, folder, name, ending):
    """Moves a file into the folder of reports, where it appears whole under its name."""
    target = os.path.join(folder, report_name(trial))
    for old in (RESULT, REPORT, REFUSED, TIMES):
        if old != ending and os.path.exists(target + old):
            os.remove(target + old)
    if os.path.exists(name + TIMES):
        os.replace(name + TIMES, target + TIMES)
    os.replace(name, target + ending)


def question_of(trial: Trial, setting: Setting) -> str:
    """The digest of all that a trial is made of."""
    drawn = trial.options and trial.options.seed
    return outcomes.digest(setting.question, trial.settings, trial.kind, trial.value, drawn)


def keep_line(trial: Trial, setting: Setting, outcome: Outcome | str) -> None:
    """Keeps the line of a trial, or why it was refused, in place of what was there of it."""
    if setting.results is None:
        return
    target = os.path.join(setting.results, report_name(trial))
    if isinstance(outcome, str):
        ending, text = REFUSED, outcome + "\n"
    else:
        ending, text = RESULT, outcomes.line_of(outcome, question_of(trial, setting))
    for old in (RESULT, REFUSED):
        if old != ending and os.path.exists(target + old):
            os.remove(target + old)
    made = os.path.join(setting.results, ".new-" + secrets.token_hex(8))
    with open(made, "x", encoding="utf-8") as out:
        out.write(text)
    os.replace(made, target + ending)


def kept_before(trial: Trial, setting: Setting) -> Outcome | None:
    """The Outcome that an earlier call kept of the same trial, or None."""
    name = os.path.join(setting.results or "", report_name(trial) + RESULT)
    if isinstance(trial.settings, Exception) or not os.path.exists(name):
        return None
    try:
        outcome, question = outcomes.read_line(name)
    except cli.NotThatFile:
        return None
    return outcome if question == question_of(trial, setting) else None


def attempt(trial: Trial, setting: Setting) -> Outcome | str:
    """The Outcome of a trial, or the text of why it was refused; both are kept where asked."""
    with tempfile.TemporaryDirectory(dir=setting.work) as work:
        try:
            name = _replay(trial, setting, work)
            outcome: Outcome | str = outcome_of(name)
        except (cli.Refused, cli.NotThatFile, cli.WrongWords) as fault:
            outcome = str(fault)
            name = os.path.join(work, "refused")
            with open(name, "w", encoding="utf-8") as out:
                out.write("%s\n" % fault)
        if setting.folder is not None:
            _keep(trial, setting.folder, name, REFUSED if isinstance(outcome, str) else REPORT)
    keep_line(trial, setting, outcome)
    return outcome


def _end_at_interrupt():
    """Lets an interrupt end this process at once; the one that began it removes its files."""
    signal.signal(signal.SIGINT, signal.SIG_DFL)


def processors_here() -> int:
    """How many processors this program may use."""
    if hasattr(os, "sched_getaffinity"):
        return len(os.sched_getaffinity(0))
    return os.cpu_count() or 1


def at_once(function: Callable[..., Any], jobs: int, arguments: Sequence[Sequence[Any]],
            tell: Callable[[int], None] = lambda done: None) -> list[Any]:
    """The results of a function over lists of arguments, in their order, so many at once.

    `tell` is called with the number of results that are there, after each of them.
    """
    results = []
    if jobs == 1 or len(arguments) < 2:
        for each in arguments:
            results.append(function(*each))
            tell(len(results))
        return results
    with ProcessPoolExecutor(min(jobs, len(arguments)), initializer=_end_at_interrupt) as pool:
        futures = []
        try:
            for each in arguments:
                futures.append(pool.submit(function, *each))
            for future in futures:
                results.append(future.result())
                tell(len(results))
            return results
        except BrokenProcessPool:
            raise cli.Refused("--jobs %d" % jobs, "a trial ended without a result, as where memory "
                              "is short; fewer at once may do") from None
        finally:
            for future in futures:
                future.cancel()


def commands(program: str, capture: str, plans: list[str], values: list[tuple[str, str]],
             words: list[str]) -> Iterator[str]:
    """A command a line for each plan and value.

    `values` are pairs of an option and its value; `words` are further words of the user's.
    """
    for plan in plans:
        for option, value in values:
            line = [program, capture, option, value] + words + ["--jobs", "1", plan]
            yield " ".join(shlex.quote(word) for word in line)


def _line_or_text(name):
    """The Outcome of a kept line, or the text of why it has none."""
    try:
        return outcomes.read_line(name)[0]
    except cli.NotThatFile as fault:
        return str(fault)


def collected(folder: str, jobs: int) -> list[Row]:
    """What the reports and lines in a folder say: rows of (plan, {(kind, value): outcome or text}).

    The plans are in the order of their names; a line counts before a report. Refused where two are
    of captures of different lengths.
    """
    names = [(name, trial_of(name)) for name in sorted(os.listdir(folder))]
    kept = [(os.path.join(folder, name), trial) for name, trial in names if trial is not None]
    if not kept:
        raise cli.Refused(folder, "it has no report of a trial")
    lines = {trial[:3] for _, trial in kept if trial[3] == RESULT}
    whole = [(name,) for name, trial in kept if trial[3] == REPORT and trial[:3] not in lines]
    found = dict(zip((name for name, in whole), at_once(outcome_or_text, jobs, whole)))
    rows: dict[str, dict[tuple[str, float], Outcome | str]] = {}
    for name, (plan, kind, value, ending) in kept:
        if ending == REFUSED:
            found[name] = cli.read_text(name).rstrip("\n")
        elif ending == RESULT:
            found[name] = _line_or_text(name)
        if name in found:
            rows.setdefault(plan, {})[kind, value] = found[name]
    lengths = sorted({one.packets for one in found.values() if not isinstance(one, str)})
    if lengths[1:]:
        raise cli.Refused(folder, "it has reports of captures of %d and of %d packets"
                          % (lengths[0], lengths[-1]))
    return sorted(rows.items())


def labels(plans: list[str]) -> list[str]:
    """How plans are named in a table: without their folders, where these names differ."""
    short = [os.path.basename(plan) for plan in plans]
    distinct = len(set(short)) == len(set(plans))
    return short if distinct else list(plans)


def _busiest(outcomes):
    """The processor with the most packets over all outcomes, and its share of them."""
    offered = [sum(counts) for counts in zip(*(outcome.offered for outcome in outcomes))]
    most = max(offered)
    return "cpu %d %s" % (offered.index(most), tables.share(most, sum(offered)))


def _wait(outcome):
    """The wait that 99 of 100 packets do not pass."""
    return "-" if outcome.waits is None else waits.time_text(outcome.waits.most)


def _load(outcome):
    """The processor that serves most of the time, and its load."""
    loads = [load or 0 for load in outcome.waits.loads] if outcome.waits else []
    if not any(loads):
        return "-"
    return "cpu %d %s" % (loads.index(max(loads)), waits.load_text(max(loads)))


def _seed_row(label, results):
    """The row of one plan's outcomes over its seeds."""
    outcomes = [result for result in results if not isinstance(result, str)]
    if not outcomes:
        return (0, "refused", "-", "-", "-", label)
    drops = [outcome.drops for outcome in outcomes]
    spread = statistics.stdev(drops) if drops[1:] else 0.0
    return (len(drops), "%.1f ± %.1f" % (statistics.mean(drops), spread),
            "%d..%d" % (min(drops), max(drops)),
            "%.1f" % statistics.mean(outcome.moves for outcome in outcomes),
            _busiest(outcomes), label)


def _of_kind(rows, kind):
    """The rows with results of a kind: (label, results by value)."""
    some = [(plan, {value: result for (of, value), result in results.items() if of == kind})
            for plan, results in rows]
    some = [(plan, results) for plan, results in some if results]
    return list(zip(labels([plan for plan, _ in some]), [results for _, results in some]))


def seed_table(rows: list[ValueRow]) -> Iterator[str]:
    """Lines of the table over seeds, of rows of (label, results by seed)."""
    return tables.aligned(("seeds", "drops", "range", "moves", "busiest", "plan"),
                          [_seed_row(label, results.values()) for label, results in rows])


def _key_row(label, results):
    """The row of one plan's outcomes over keys."""
    most = sorted(max(result.offered) for result in results if not isinstance(result, str))
    if not most:
        return (0, "refused", "-", "-", "-", label)
    packets = [sum(result.offered) for result in results if not isinstance(result, str)]
    middle = statistics.median(most)
    return (len(most), most[0], numbers.number_text(middle), most[-1],
            tables.share(middle, max(packets)), label)


def key_table(rows: list[ValueRow]) -> Iterator[str]:
    """Lines of the table over keys: the packets of the busiest processor, whichever it is."""
    return tables.aligned(("keys", "least", "median", "most", "share",
                           "plan (packets of the busiest processor)"),
                          [_key_row(label, results.values()) for label, results in rows])


def rate_table(rows: list[ValueRow], title: str,
               text_of: Callable[[Outcome], object]) -> Iterator[str]:
    """Lines of the table over rates, with `text_of` each outcome, `refused`, or `-` for none."""
    rates = sorted({rate for _, results in rows for rate in results})

    def cell(result: Outcome | str | None) -> object:
        if result is None:
            return "-"
        return "refused" if isinstance(result, str) else text_of(result)

    return tables.aligned([numbers.number_text(rate) for rate in rates] + [title],
                          [[cell(results.get(rate)) for rate in rates] + [label]
                           for label, results in rows])


def screen(rows: list[Row], rule: str = MANUAL) -> Iterator[str]:
    """All lines of the tables of rows of (plan, results by kind and value).

    The last line is `rule`, by which the processors were picked.
    """
    by_seed, by_rate, by_key = (_of_kind(rows, kind) for kind in (SEED, RATE, KEY))
    parts = [seed_table(by_seed)] if by_seed else []
    parts += [key_table(by_key)] if by_key else []
    if by_rate:
        parts += [rate_table(by_rate, "drops at packets/s", lambda outcome: outcome.drops),
                  rate_table(by_rate, "moves", lambda outcome: outcome.moves),
                  rate_table(by_rate, "busiest", lambda outcome: _busiest([outcome])),
                  rate_table(by_rate, "wait of 99% at most", _wait),
                  rate_table(by_rate, "load, the highest", _load)]
    for number, part in enumerate(parts):
        if number:
            yield ""
        yield from part
    yield ""
    yield rule
