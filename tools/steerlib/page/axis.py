"""The axis of a page: the times of the packets in their capture, or else their numbers."""

from __future__ import annotations

from datetime import datetime, timedelta
from itertools import accumulate
from typing import Sequence

from .. import cli, schedule
from ..report import Report

LARGEST = (1 << 32) - 1


class Axis:
    """The place of each packet that arrived, in ascending whole numbers below 2^32.

    `unit` is how many nanoseconds one of them is, None where they are packet numbers. With a unit,
    `start` is the time of the first packet in nanoseconds since 1970; without, `reason` says why
    there are no times.
    """

    def __init__(self, count: int, times: Sequence[int] | None = None,
                 reason: str = "no capture was given") -> None:
        self.unit: int | None = None
        self.start = 0
        self.reason = reason
        self.places: Sequence[int] = range(count)
        if times is None or not count:
            return
        latest: list[int] = list(accumulate(times[:count], max))
        if latest[-1] == latest[0]:
            self.reason = "all packets have the same time in the capture"
            return
        self.start = latest[0]
        self.unit = -(-(latest[-1] - latest[0]) // LARGEST)
        self.places = [(time - self.start) // self.unit for time in latest]

    def clock(self) -> str:
        """The time of the first packet as a date, or in seconds where there is none."""
        try:
            date = datetime(1970, 1, 1) + timedelta(microseconds=self.start // 1000)
        except OverflowError:
            return "%d s" % (self.start // 1000000000)
        return date.isoformat(" ") + " UTC"

    @property
    def end(self) -> int:
        """The place behind the last packet."""
        return self.places[-1] + 1 if self.places else 0

    def label(self, place: int) -> str:
        """A place as text: seconds from the first packet, or a packet number."""
        if self.unit is None:
            return "%d" % place
        return "%.9g s" % round(place * self.unit / 1e9, 9)


def read(rep: Report, capture: str | None = None) -> Axis:
    """The Axis of a report, by the file `capture` where one is named."""
    if capture is None:
        return Axis(len(rep.packets))
    source = cli.source_name(capture)
    times = schedule.times_of(capture, source)
    if len(times) != rep.end.total:
        raise cli.Refused(source, "has %d packets, and the report is of %d"
                          % (len(times), rep.end.total))
    return Axis(len(rep.packets), times)


def intervals(axis: Axis, most: int) -> list[tuple[int, int]]:
    """At most so many intervals of one size, 1, 2 or 5 times a power of ten, that cover the axis.

    Pairs of places: the first one of an interval, and the one behind its last.
    """
    unit = axis.unit or 1
    size = next(factor * 10 ** power for power in range(20) for factor in (1, 2, 5)
                if factor * 10 ** power * most >= axis.end * unit)
    lows = [-(-low // unit) for low in range(0, axis.end * unit, size)]
    return list(zip(lows, lows[1:] + [axis.end]))
