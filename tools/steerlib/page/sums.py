"""The tables of a page: the sums of a report by processor, queue, flow and interval."""

from __future__ import annotations

from bisect import bisect_right
from collections import Counter
from typing import Iterable, Iterator, NamedTuple, Sequence

from .. import flows, report, tables
from . import axis as axes
from .backlogs import ARRIVAL, PULL, Backlogs

FLOWS_SHOWN = 20
INTERVALS = 25


class Table(NamedTuple):
    """A table with the names of its columns, rows of texts and numbers, and a note under it."""

    title: str
    header: Sequence[str]
    rows: Sequence[Sequence[object]]
    note: str


def counted(number: int, word: str) -> str:
    """A number with its word: `1 packet`, `2 packets`."""
    return "%d %s%s" % (number, word, "" if number == 1 else "s")


class Flows:
    """The flows of a report's packets, the one with the most packets first.

    `names` is the flow of each packet of the capture, as flows.of_report gives it. `ranks` has the
    number of a packet's flow in this order, which is that of `rows` up to FLOWS_SHOWN.
    """

    def __init__(self, rep: report.Report, names: Sequence[str]) -> None:
        count = Counter(names[:len(rep.packets)])
        ranked = count.most_common()
        rank = {flow: number for number, (flow, _) in enumerate(ranked)}
        self.ranks = [rank[flow] for flow in names[:len(rep.packets)]]
        self.total = len(ranked)
        self.names = [flows.name(flow) for flow, _ in ranked[:FLOWS_SHOWN]]
        dropped: dict[int, int] = Counter()
        moved: dict[int, int] = Counter()
        cpus: dict[int, set[int]] = {}
        for packet, number in zip(rep.packets, self.ranks):
            dropped[number] += packet.place == "drop"
            moved[number] += packet.why in report.MOVES
            if packet.cpu is not None:
                cpus.setdefault(number, set()).add(packet.cpu)
        self.rows = [(packets, tables.share(packets, len(rep.packets)), dropped[number],
                      moved[number], ", ".join(map(str, sorted(cpus.get(number, ())))),
                      flows.name(flow))
                     for number, (flow, packets) in enumerate(ranked[:FLOWS_SHOWN])]
        self.rest = len(rep.packets) - sum(packets for _, packets in ranked[:FLOWS_SHOWN])


def used_cpus(rep: report.Report) -> list[int]:
    """The processors that some packet was sent to."""
    return sorted({packet.cpu for packet in rep.packets if packet.cpu is not None})


def used_queues(rep: report.Report) -> list[int]:
    """The receive queues that some packet arrived at."""
    return [row.queue for row in rep.queues if row.arrived]


def _unused(word: str, numbers: Iterable[int], used: Sequence[int]) -> str:
    left = [number for number in numbers if number not in used]
    return "No packets on %s %s." % (word, ", ".join(map(str, left))) if left else ""


def _longest_at_drops(rep: report.Report) -> dict[int, int]:
    longest: dict[int, int] = Counter()
    for packet in rep.packets:
        cpu, accepted, pulled = packet.cpu, packet.drop_accepted, packet.drop_pulled
        if cpu is not None and accepted is not None and pulled is not None:
            longest[cpu] = max(longest[cpu], accepted - pulled)
    return longest


def _cpus(rep: report.Report, backlogs: Backlogs | None) -> Table:
    offered = Counter(packet.cpu for packet in rep.packets)
    used = used_cpus(rep)
    longest = dict(enumerate(backlogs.longest)) if backlogs else _longest_at_drops(rep)
    rows = [(cpu, offered[cpu], tables.share(offered[cpu], len(rep.packets)),
             rep.cpus[cpu].accepted, rep.cpus[cpu].dropped, longest[cpu]) for cpu in used]
    last = "longest backlog" if backlogs else "longest backlog at a drop"
    note = "A backlog holds %s." % counted(backlogs.limit, "packet") if backlogs else ""
    return Table("Processors", ("cpu", "packets", "share", "accepted", "dropped", last), rows,
                 " ".join(filter(None, (note, _unused("cpu", range(len(rep.cpus)), used)))))


def _queues(rep: report.Report) -> Table:
    dropped = Counter(packet.q for packet in rep.packets if packet.place == "drop")
    filtered = Counter(packet.q for packet in rep.packets if packet.via == "filter")
    used = used_queues(rep)
    rows = [(queue, rep.queues[queue].arrived,
             tables.share(rep.queues[queue].arrived, len(rep.packets)), dropped[queue],
             filtered[queue]) for queue in used]
    return Table("Receive queues", ("queue", "packets", "share", "dropped", "by a filter"), rows,
                 _unused("queue", range(len(rep.queues)), used))


def _transmit_queues(rep: report.Report) -> Table:
    rows = [(row.tx, row.accepted, tables.share(row.accepted, len(rep.replies)))
            for row in rep.tx if row.accepted]
    return Table("Transmit queues", ("tx", "replies", "share"), rows, "")


def _flows(found: Flows) -> Table:
    note = ""
    if found.total > len(found.rows):
        note = "%s more with %s." % (counted(found.total - len(found.rows), "flow"),
                                     counted(found.rest, "packet"))
    return Table("Flows with the most packets",
                 ("packets", "share", "dropped", "moves", "cpus", "flow"), found.rows, note)


def _with_drops(packets: int, drops: int) -> object:
    return "%d, %d dropped" % (packets, drops) if drops else packets


def _by_interval(rep: report.Report, axis: axes.Axis) -> Table:
    """A table of the packets in each interval, of processors and of queues."""
    bounds = axes.intervals(axis, INTERVALS)
    lows = [low for low, _ in bounds]
    cpus, queues = used_cpus(rep), used_queues(rep)
    offered: dict[tuple[int, int | None], int] = Counter()
    dropped: dict[tuple[int, int | None], int] = Counter()
    queued: dict[tuple[int, int], int] = Counter()
    sums = [[0, 0, 0] for _ in bounds]
    for packet, place in zip(rep.packets, axis.places):
        row = bisect_right(lows, place) - 1
        is_dropped = packet.place == "drop"
        sums[row][0] += 1
        sums[row][1] += is_dropped
        sums[row][2] += packet.why in report.MOVES
        offered[row, packet.cpu] += 1
        dropped[row, packet.cpu] += is_dropped
        queued[row, packet.q] += 1
    rows = [[axis.label(low)] + sums[row]
            + [_with_drops(offered[row, cpu], dropped[row, cpu]) for cpu in cpus]
            + [queued[row, queue] for queue in queues] for row, low in enumerate(lows)]
    header = (["from time" if axis.unit else "from packet", "packets", "dropped", "moves"]
              + ["cpu %d" % cpu for cpu in cpus] + ["queue %d" % queue for queue in queues])
    return Table("Packets by interval", header, rows, "")


def _backlogs_by_interval(rep: report.Report, axis: axes.Axis, backlogs: Backlogs) -> Table:
    """A table of the longest backlog of each processor in each interval.

    An interval begins with its first packet, or with the length that the one before it left.
    """
    lows = [low for low, _ in axes.intervals(axis, INTERVALS)]
    cpus = used_cpus(rep)
    lengths = [0] * len(rep.cpus)
    rows, longest = [], list(lengths)
    arrived, row = 0, 0
    for event in backlogs.events:
        if event == ARRIVAL:
            while row + 1 < len(lows) and axis.places[arrived] >= lows[row + 1]:
                rows.append(longest)
                longest = list(lengths)
                row += 1
            arrived += 1
        elif event >= PULL:
            lengths[event - PULL] -= 1
        else:
            lengths[event] += 1
            longest[event] = max(longest[event], lengths[event])
    rows.append(longest)
    return Table("Longest backlog by interval",
                 ["from time" if axis.unit else "from packet"] + ["cpu %d" % cpu for cpu in cpus],
                 [[axis.label(low)] + [longest[cpu] for cpu in cpus]
                  for low, longest in zip(lows, rows)], "")


def tables_of(rep: report.Report, axis: axes.Axis, backlogs: Backlogs | None = None,
              found: Flows | None = None) -> Iterator[Table]:
    """The tables of a report with packets, by its axis, its Backlogs and its Flows."""
    yield _cpus(rep, backlogs)
    yield _queues(rep)
    if any(row.accepted for row in rep.tx):
        yield _transmit_queues(rep)
    if found is not None:
        yield _flows(found)
    yield _by_interval(rep, axis)
    if backlogs is not None:
        yield _backlogs_by_interval(rep, axis, backlogs)
