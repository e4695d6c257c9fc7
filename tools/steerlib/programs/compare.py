"""A report against what the machine counted between two snapshots."""

from __future__ import annotations

import argparse
import re
from typing import Iterator, NoReturn

from .. import cli, counters, report, snapshot, tables

DESCRIPTION = """\
Compares REPORT, of a replay, with what a machine counted while that traffic came: BEFORE and AFTER
are snapshots of steer-snap, one from before the traffic and one from after it. For each receive
queue it shows the packets predicted and counted (by `ethtool -S`), and for each processor the
packets that it handled and the drops at its backlog (/proc/net/softnet_stat), each with the
difference, counted less predicted. Status 0 means that no number differs, 1 that one does.

What the columns of softnet_stat count:
  column 0   packets that the processor handled, of all devices, merged ones (GRO) as one
  column 1   packets dropped at the processor's backlog, full or by the flow limit
  column 9   interrupts by which another processor woke it, not packets; it is shown alone
  column 10  packets that the flow limit dropped, at the processor that put them and not at that
             whose backlog it was, so only the sum over all processors is compared
A replay gives each packet once: where the traffic between the snapshots is not that of the capture,
as other devices have it too, the numbers differ for that reason."""

EXAMPLE = """\
steer-snap eth0 > before; tcpdump -i eth0 -Q in -w own.pcap; steer-snap eth0 > after
steer-compare report before after"""


def words_of(words: list[str]) -> argparse.Namespace:
    parser = cli.parser(DESCRIPTION, EXAMPLE)
    parser.add_argument("report", metavar="REPORT", help="a report; - is standard input")
    parser.add_argument("before", metavar="BEFORE", help="a snapshot from before the traffic")
    parser.add_argument("after", metavar="AFTER", help="a snapshot from after it")
    parser.add_argument("--dev", metavar="DEV", help="refuse snapshots of another device")
    parser.add_argument("--renumbered", metavar="PLAN=MACHINE,..", help="the processors as the "
                        "note of steer-plan has them, where it renumbered them")
    told = parser.parse_args(words)
    if [told.report, told.before, told.after].count("-") > 1:
        raise cli.WrongWords("one word alone can be standard input")
    return told


def numbering(text: str | None, count: int) -> dict[int, int]:
    """The processor of the machine for each of the plan's; where nothing is said, its own."""
    numbers = {cpu: cpu for cpu in range(count)} if text is None else {}
    for part in re.split("[, ]+", text) if text is not None else []:
        found = re.fullmatch("([0-9]{1,6})=([0-9]{1,6})", part)
        if not found:
            raise cli.WrongWords("--renumbered %s: `%s` is not of the form PLAN=MACHINE"
                                 % (text, part))
        numbers[int(found.group(1))] = int(found.group(2))
    return numbers


def _signed(number: int) -> str:
    return "%+d" % number if number else "0"


class Compared:
    """The rows of both tables, and how many numbers in them differ."""

    def __init__(self, rep: report.Report, grown: counters.Growth,
                 numbers: dict[int, int]) -> None:
        self.differing = 0
        self.queues = [[row.queue] + self._three(row.arrived, grown.queues.get(row.queue))
                       for row in rep.queues] if grown.queues else []
        self.cpus: list[list[object]] = []
        for row in rep.cpus:
            cpu = numbers.get(row.cpu, -1)
            counted = grown.cpus.get(cpu)
            if counted is not None or row.accepted + row.dropped:
                self.cpus.append(self._of_processor(
                    row, cpu if cpu >= 0 else "plan's %d" % row.cpu, counted))
        self.elsewhere = sum(columns[counters.HANDLED] for cpu, columns in grown.cpus.items()
                             if cpu not in {row[0] for row in self.cpus})
        self.limited = self._three(
            sum(packet.flow_offers is not None for packet in rep.packets),
            sum(columns[counters.FLOW_LIMIT] for columns in grown.cpus.values()))

    def _of_processor(self, row: report.Cpu, name: object, counted: list[int] | None
                      ) -> list[object]:
        """The row of a processor, by its name; `counted` are the columns of softnet_stat."""
        if counted is None:
            return [name, *self._three(row.delivered, None), *self._three(row.dropped, None), "-"]
        return [name, *self._three(row.delivered, counted[counters.HANDLED]),
                *self._three(row.dropped, counted[counters.DROPPED]),
                counted[counters.INTERRUPTED]]

    def _three(self, predicted: int, counted: int | None) -> list[object]:
        """Predicted, counted and the difference; a counter that is not there is a dash."""
        if counted is None:
            self.differing += predicted > 0
            return [predicted, "-", "-"]
        self.differing += predicted != counted
        return [predicted, counted, _signed(counted - predicted)]

    def lines(self) -> Iterator[str]:
        """All lines of the screen."""
        three = ("predicted", "counted", "difference")
        if self.queues:
            yield from tables.aligned(("queue",) + three, self.queues)
            yield ""
        yield from tables.aligned(("cpu", "handled", "counted", "difference", "dropped", "counted",
                                   "difference", "interrupts"), self.cpus)
        yield ""
        yield "flow limit, all processors: predicted %s, counted %s, difference %s" % tuple(
            self.limited)
        yield ("counted of processors: columns 0 (handled), 1 (dropped), 9 (interrupts, not "
               "packets), 10 (flow limit)")
        yield "numbers that differ: %d" % self.differing


def _two_snapshots(told: argparse.Namespace) -> tuple[snapshot.Snapshot, snapshot.Snapshot]:
    before, after = (snapshot.read_snapshot(name) for name in (told.before, told.after))
    for one in (before, after):
        if told.dev not in (None, one.device):
            raise one.refused("it is of the device %s, not of %s" % (one.device, told.dev))
    return before, after


def main(words: list[str]) -> int:
    told = words_of(words)
    rep = report.read_file(told.report)
    grown = counters.growth(*_two_snapshots(told))
    compared = Compared(rep, grown, numbering(told.renumbered, len(rep.cpus)))
    if not grown.queues:
        cli.note("`ethtool -S` has no counter of packets for each receive queue")
    for name, value in grown.lost.items():
        cli.note("the card counted besides %s %d: packets that no replay has" % (name, value))
    if compared.elsewhere:
        cli.note("%d packets were handled by processors that the report does not have"
                 % compared.elsewhere)
    for line in compared.lines():
        print(line)
    return cli.DIFFERS if compared.differing else cli.DONE


def entry() -> NoReturn:
    """Runs this program by the words of its command line, and ends the process."""
    cli.run(main)
