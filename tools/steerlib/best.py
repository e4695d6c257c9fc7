"""Settings of a plan tried one after another over one capture, and the best of them.

Each is a trial: a schedule by the times of the capture, agreed upon with the replay by steer, whose
report gives the numbers.
"""

from __future__ import annotations

import argparse
import functools
import itertools
import tempfile
from typing import Callable, Iterator, NamedTuple, Sequence, Tuple, Union

from . import limits, plan, processors, readers, ready, remap_words, report, schedule, settings
from . import offline as offlines
from . import waits
from .serving import Desk

Words = Tuple[str, ...]

MOST_TRIED = 1000
MOST_LENGTH = limits.MOST_BACKLOG - 1   # of netdev_max_backlog
MOST_RATE = 1000000000
MASK, BACKLOG = "rx-*/rps_cpus=", "netdev_max_backlog="


class Setting(NamedTuple):
    """What is tried: words as steer-set takes them, and what steer-steps is told beside a plan.

    `readers` are words of --reader, and `offline` is that of --offline, empty where none is.
    """

    words: Words = ()
    readers: Words = ()
    offline: str = ""

    def joined(self, other: Setting) -> Setting:
        """This setting and then another one."""
        return Setting(self.words + other.words, self.readers + other.readers,
                       other.offline or self.offline)


class Question(NamedTuple):
    """What all trials share.

    `data` is the plan as it was read, which messages name `source`; `capture` is a file that steer
    reads, named `shown`, with the `times` of its packets, and their `flows` where these are asked
    for. `told` has the words of a remap, and whether there is one. `work` is a folder for what is
    made underway.
    """

    data: bytes
    source: str
    capture: str
    shown: str
    times: list[int]
    flows: list[int]
    load: schedule.Load
    told: argparse.Namespace
    work: str


class Row(NamedTuple):
    """What a trial gave; `offered` are the packets of each processor, dropped ones among them.

    `cpus` has the processor of each packet.
    """

    setting: Setting
    rate: float
    drops: int
    moves: int
    offered: list[int]
    waits: waits.Waits
    cpus: bytes


class Least(NamedTuple):
    """The smallest setting without drops, and the next smaller one that was tried.

    `found` is None where all that were tried drop packets, `below` where none was smaller.
    """

    found: Row | None
    below: Row | None


# A trial's result: a Row or a Least, or the text of why it was refused.
Result = Union[Row, Least, str]


def plan_with(question: Question, words: Words) -> plan.Plan:
    """The plan with these settings, without its own steps. WrongWords where one cannot be set."""
    changed = settings.Settings(question.data, question.source)
    for word in words:
        changed.set(word)
    return dict(changed.made(), steps=[])


def sense_of(settings: plan.Plan) -> plan.Plan:
    """A plan with all that it leaves out, so that plans of one sense are equal."""
    return {**plan.DEFAULTS, "key": plan.VERIFICATION_KEY, **settings,
            "reta": plan.table_of(settings)}


def members_of(settings: plan.Plan) -> list[int]:
    """The processors of a plan's masks, ascending, or all where no mask has any."""
    members = sorted({cpu for queue in settings["queues"] for cpu in queue["mask"]})
    return members or list(range(settings["cpus"]))


def masks_of(settings: plan.Plan) -> list[str]:
    """Masks of the first processor of those in the plan's masks, the first two, and so on.

    They are followed by twice as many processors, and so on up to all: first those above.
    """
    cpus, members = settings["cpus"], members_of(settings)
    others = list(range(members[-1] + 1, cpus)) + list(range(members[-1]))
    order = list(dict.fromkeys(members + others))
    counts = list(range(1, len(members) + 1))
    while counts[-1] < cpus:
        counts.append(min(cpus, 2 * counts[-1]))
    return [processors.mask_text(order[:count], cpus) for count in counts]


def flow_words(settings: plan.Plan, flows: int) -> Words:
    """The words that give each queue so many flows; the table of readers has room for them all."""
    entries = settings["sock"] if flows else 0
    if flows and not entries:
        entries = min(limits.MOST_SOCKET_ENTRIES, flows * len(settings["queues"]))
    return ("rx-*/rps_flow_cnt=%d" % flows, "rps_sock_flow_entries=%d" % entries)


def choices(parts: Sequence[Sequence[Setting]]) -> list[Setting]:
    """Each combination of one setting of each part."""
    return [functools.reduce(Setting.joined, chosen, Setting())
            for chosen in itertools.product(*parts)]


def with_offline(setting: Setting, offline: offlines.Offline,
                 question: Question) -> Iterator[Setting]:
    """A setting with processors offline, and where that is from the beginning, and some mask has
    them, with the masks written again without them."""
    yield setting.joined(Setting(offline=offline.text))
    settings = plan_with(question, setting.words)
    if not offline.time and any(set(queue["mask"]) & set(offline.cpus)
                                for queue in settings["queues"]):
        yield setting.joined(Setting(without(settings, offline.cpus), offline=offline.text))


def without(settings: plan.Plan, cpus: Sequence[int]) -> Words:
    """The words that take processors out of the masks of a plan."""
    left = [[cpu for cpu in queue["mask"] if cpu not in cpus] for queue in settings["queues"]]
    texts = [processors.mask_text(mask, settings["cpus"]) for mask in left]
    if len(set(texts)) == 1:
        return (MASK + texts[0],)
    return tuple("rx-%d/rps_cpus=%s" % (number, text) for number, (text, mask, queue) in enumerate(
        zip(texts, left, settings["queues"])) if mask != queue["mask"])


class Trials:
    """Trials of one setting, which differ in the rate and the backlog alone: a context.

    Its plan and capture are made once, by a kernel's rule where that is asked for. Each schedule
    begins with the places of the one before it.
    """

    def __init__(self, setting: Setting, question: Question) -> None:
        self.setting = setting
        self.made = tempfile.TemporaryDirectory(dir=question.work)
        try:
            offline = offlines.told(setting.offline) if setting.offline else None
            replays, self.cpus = self._replays(question, offline)
            self.schedules = schedule.Schedules(replays, question.times,
                                                question.load._replace(offline=offline))
        except BaseException:
            self.made.cleanup()
            raise

    def __enter__(self) -> Trials:
        return self

    def __exit__(self, *_: object) -> None:
        self.made.cleanup()

    def _replays(self, question, offline):
        """The Replays of the plan, and how many processors it has before it is rewritten."""
        setting, told = self.setting, question.told
        wanted, shown = plan_with(question, setting.words), question.source
        if setting.words:
            shown = "%s with %s" % (shown, " ".join(setting.words))
        options = None
        if told.kernel:
            first = [readers.told(text) for text in setting.readers]
            options = remap_words.options_of(told, wanted, first)
        made = ready.made(wanted, shown, question.capture, question.shown, options, offline,
                          self.made.name)
        return schedule.Replays(made.plan, shown, made.capture, question.shown,
                                self.made.name), wanted["cpus"]

    def desk(self, rate: float, backlog: int | None = None, until_drop: bool = False) -> Desk:
        """The Desk of a schedule at a rate, with a netdev_max_backlog where that is not the plan's.

        With `until_drop` it says no more than whether there is a drop, where there is one.
        """
        room = None if backlog is None else backlog + 1
        return self.schedules.agreed(rate, room, until_drop=until_drop).desk

    def row(self, rate: float, backlog: int | None = None) -> Row:
        """The Row of such a schedule."""
        setting = self.setting
        if backlog is not None:
            setting = setting.joined(Setting((BACKLOG + "%d" % backlog,)))
        desk = self.desk(rate, backlog)
        with open(self.schedules.replays.report, "rb") as stream:
            return row_of(stream.read(), desk, setting, rate, self.cpus)

    def loses(self, rate: float, backlog: int | None = None) -> bool:
        """Whether packets are dropped then."""
        return bool(self.desk(rate, backlog, until_drop=True).drops)


def trial(setting: Setting, rate: float, question: Question) -> Row:
    """The Row of one setting at a rate."""
    with Trials(setting, question) as trials:
        return trials.row(rate)


def row_of(data: bytes, desk: Desk, setting: Setting, rate: float, cpus: int) -> Row:
    """The Row of the report that the schedule of a Desk was agreed upon with."""
    sums = report.fields_of(data, "cpu", ("accepted", "dropped"))[:cpus]
    packets = report.fields_of(data, "p", ("cpu", "why"))
    moves = sum(why.decode() in report.MOVES for _, why in packets)
    places = bytes(int(cpu) for cpu, _ in packets)
    return Row(setting, rate, sum(int(dropped) for _, dropped in sums), moves,
               [int(accepted) + int(dropped) for accepted, dropped in sums],
               waits.summary(waits.times_of(desk), places, cpus), places)


def smallest(loses: Callable[[int], bool], start: int, low: int, high: int,
             exact: bool) -> tuple[int | None, int | None]:
    """The smallest value from `low` to `high` that loses nothing, and the next smaller one tried.

    The first is None where all lose packets, the other where none was smaller. The values are
    bisected, from `start` on, which takes for granted that none loses packets where a smaller one
    loses none. Unless `exact` it ends where the two are within one in a hundred.
    """
    found: int | None = None
    below: int | None = None
    value = start
    while found is None or below is None:
        if loses(value):
            below = value
            if found is None and value == high:
                return None, below
            value = min(high, max(1, 2 * value))
        else:
            found = value
            if below is None and value == low:
                return found, None
            value = max(low, value // 2)
    while found - below > (1 if exact else max(1, found // 100)):
        middle = (below + found) // 2
        if loses(middle):
            below = middle
        else:
            found = middle
    return found, below


def least_backlog(setting: Setting, rate: float, question: Question) -> Least:
    """The smallest netdev_max_backlog without drops, to the packet.

    As long as nothing is lost, a backlog changes nothing. So where the longest one loses nothing,
    the smallest has room for as many packets as wait at once there. The flow limit acts by the
    length of the backlog, so with it the value is bisected.
    """
    settings = plan_with(question, setting.words)
    with Trials(setting, question) as trials:
        found: int | None
        below: int | None
        if settings.get("limited"):
            start = settings.get("backlog", plan.DEFAULTS["backlog"]) - 1
            found, below = smallest(lambda value: trials.loses(rate, value), start, 0, MOST_LENGTH,
                                    True)
        else:
            desk = trials.desk(rate, MOST_LENGTH, until_drop=True)
            found = None if desk.drops else max(0, desk.deepest() - 1)
            below = MOST_LENGTH if found is None else found - 1 if found else None
        return Least(*(None if value is None else trials.row(rate, value)
                       for value in (found, below)))


def least_rate(setting: Setting, rate: float, question: Question) -> Least:
    """The smallest rate without drops, whole packets a second, to one in a hundred."""
    with Trials(setting, question) as trials:
        values = smallest(trials.loses, max(1, round(rate)), 1, MOST_RATE, False)
        return Least(*(None if value is None else trials.row(value) for value in values))


def least_members(setting: Setting, rate: float, question: Question) -> Least:
    """The fewest members of a mask without drops: each number of them is tried from 1 on.

    More members may lose packets where fewer lose none, so this is no bisection.
    """
    masks = masks_of(plan_with(question, setting.words))
    tried = [setting.joined(Setting((MASK + mask,))) for mask in masks]
    for number, each in enumerate(tried):
        with Trials(each, question) as trials:
            if not trials.loses(rate):
                below = trial(tried[number - 1], rate, question) if number else None
                return Least(trials.row(rate), below)
    return Least(None, trial(tried[-1], rate, question))


LEAST = {"backlog": least_backlog, "pps": least_rate, "members": least_members}


def elsewhere(row: Row, other: Row, flows: Sequence[int]) -> tuple[int, int]:
    """How many packets have another processor in a row than in another one, and how many flows."""
    moved = [flow for flow, cpu, before in zip(flows, row.cpus, other.cpus) if cpu != before]
    return len(moved), len(set(moved))


def busiest(row: Row) -> tuple[int, int, int]:
    """The processor with the most packets, how many these are, and how many all have."""
    most = max(row.offered)
    return row.offered.index(most), most, sum(row.offered)


def order_of(row: Row) -> tuple[int, int, int, int]:
    """What comes first: fewer drops, a shorter wait, a less busy processor, fewer moves."""
    return row.drops, row.waits.most or 0, busiest(row)[1], row.moves


def ranked(results: Sequence[Result]) -> Iterator[Row | Least]:
    """The rows without those that were refused, the best one first."""
    rows = [result for result in results if not isinstance(result, str)]
    return iter(sorted(rows, key=_least_order))


def _least_order(result):
    """The order of rows; among smallest settings none at all is last, and the smallest first."""
    if isinstance(result, Row):
        return (0,) + order_of(result)
    if result.found is None:
        return (1,) + order_of(result.below)
    return (0, _value(result.found)) + order_of(result.found)


def _value(row):
    """What is to be small in a row that was searched: its rate, and its own last word's value."""
    last = row.setting.words[-1] if row.setting.words else ""
    if last.startswith(BACKLOG):
        return int(last[len(BACKLOG):])
    if last.startswith(MASK):
        return len(processors.parse_mask(last[len(MASK):]))
    return row.rate
