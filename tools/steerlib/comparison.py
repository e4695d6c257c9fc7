"""What differs between two reports of one capture."""

from __future__ import annotations

from itertools import chain, zip_longest
from typing import Iterator, Sequence

from . import cli, flows
from .report import Report


def check_comparable(old: Report, new: Report, old_source: str, new_source: str) -> None:
    """Refuses two reports whose last lines are not those of one capture."""
    if old.end.total != new.end.total or old.end.cut != new.end.cut:
        raise cli.Refused(new_source, "is of another capture: %s, and that of %s has %s"
                          % (_capture(new.end), old_source, _capture(old.end)))


def _capture(end):
    return "%d packets%s" % (end.total, "" if end.cut is None else " cut %d" % end.cut)


def _shown(value):
    return "-" if value is None else str(value)


def _sums_changed(before, after):
    """`name 1 -> 2 (+1)` for each sum that differs, except those that equal the first in both.

    If all work was done, as many packets are pulled, delivered and retired as were accepted.
    """
    first = (before[1], after[1])
    for place, name in enumerate(before._fields):
        pair = (before[place], after[place])
        if pair[0] != pair[1] and (place == 1 or pair != first):
            yield "%s %d -> %d (%+d)" % ((name,) + pair + (pair[1] - pair[0],))


def _rows_of_sums(kind, old, new):
    """A line for each two rows of sums that differ."""
    for before, after in zip_longest(old, new):
        if before is None or after is None:
            yield "%s %d is %s" % (kind, (before or after)[0], "gone" if after is None else "new")
        elif before != after:
            yield "%s %d %s" % (kind, before[0], ", ".join(_sums_changed(before, after)))


ROUTE = ("q", "via", "cpu", "tx", "why", "place")
"""The fields that say where a packet or a reply went and why; the others are positions."""


def _route_changed(before, after):
    return ["%s %s -> %s" % (name, _shown(getattr(before, name)), _shown(getattr(after, name)))
            for name in before._fields
            if name in ROUTE and getattr(before, name) != getattr(after, name)]


class Comparison:
    """Two reports of one capture, with counts of what differs; `lines` must be run through first.

    `packets` and `replies` went another way or for another reason; `numbers` are packets and
    replies of which only other fields differ. A packet counts once in each of `queue`, `cpu`,
    `saved` (no longer dropped) and `lost` (newly dropped) that holds; `others` are lines of sums,
    writes, commands and taps. `names` has the flow of each packet of the capture, as
    flows.of_report gives it, or is None, and no line names a flow.
    """

    def __init__(self, old: Report, new: Report, names: Sequence[str] | None = None) -> None:
        self.old = old
        self.new = new
        self.names = names
        self.packets = self.queue = self.cpu = self.saved = self.lost = 0
        self.replies = self.tx = self.numbers = self.others = 0

    def lines(self, quiet: bool) -> Iterator[str]:
        """The lines of the comparison; `quiet` leaves out those of packets and replies."""
        for line in self._sums():
            self.others += 1
            yield line
        for line in chain(self._packets(), self._replies()):
            if not quiet:
                yield line
        for line in self._rest():
            self.others += 1
            yield line
        yield self._sum_line()

    def differ(self) -> bool:
        """Whether anything differs, once `lines` was run through."""
        return bool(self.packets or self.replies or self.numbers or self.others)

    def _sums(self):
        yield from _rows_of_sums("queue", self.old.queues, self.new.queues)
        yield from _rows_of_sums("cpu", self.old.cpus, self.new.cpus)
        yield from _rows_of_sums("tx", self.old.tx, self.new.tx)

    def _changes(self, kind, before, after):
        """The line of two rows that differ, or None if only their positions do."""
        number = (before or after).id
        if before is None or after is None:
            text = "is only in the " + ("new" if before is None else "old")
        else:
            text = ", ".join(_route_changed(before, after))
        if not text:
            self.numbers += 1
            return None
        flow = "" if self.names is None else " (%s)" % flows.name(self.names[number])
        return "%s %d %s%s" % (kind, number, text, flow)

    def _packets(self):
        for before, after in zip_longest(self.old.packets, self.new.packets):
            line = None if before == after else self._changes("p", before, after)
            if line is None:
                continue
            self.packets += 1
            if before is not None and after is not None:
                self.queue += before.q != after.q
                self.cpu += before.cpu != after.cpu
                self.saved += before.place == "drop" != after.place
                self.lost += before.place != "drop" == after.place
            yield line

    def _replies(self):
        old = {row.id: row for row in self.old.replies}
        new = {row.id: row for row in self.new.replies}
        for number in sorted(old.keys() | new.keys()):
            before, after = old.get(number), new.get(number)
            line = None if before == after else self._changes("r", before, after)
            if line is None:
                continue
            self.replies += 1
            if before is not None and after is not None:
                self.tx += before.tx != after.tx
            yield line

    def _rest(self):
        writes = sum(old != new for old, new in zip_longest(self.old.writes, self.new.writes))
        if writes:
            yield "w %d lines differ, of %d -> %d" % (
                writes, len(self.old.writes), len(self.new.writes))
        for old, new in zip_longest(self.old.answers, self.new.answers):
            if old != new:
                yield "c %d %s -> %s" % ((old or new).number, _answer(old), _answer(new))
        for old, new in zip_longest(self.old.taps, self.new.taps):
            if old != new:
                yield "tap %d differs" % (old or new).number

    def _sum_line(self):
        text = ("sum %d of %d packets differ: other queue %d, other processor %d, "
                "no longer dropped %d, newly dropped %d; drops %d -> %d"
                % (self.packets, self.old.end.total, self.queue, self.cpu, self.saved, self.lost,
                   _drops(self.old), _drops(self.new)))
        if self.old.replies or self.new.replies:
            text += "; %d replies differ: other transmit queue %d" % (self.replies, self.tx)
        if self.numbers:
            text += "; %d more lines in other fields only" % self.numbers
        return text


def _drops(rep):
    return sum(row.dropped for row in rep.cpus)


def _answer(answer):
    return "-" if answer is None else "%s %s" % (answer.step, answer.answer)
