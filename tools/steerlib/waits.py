"""How long packets wait and how much processors work, by the clock of a schedule.

A packet waits from its arrival until its processor begins to serve it. The load of a processor is
the part of the time from the first arrival to the last in which it served. Times are whole
nanoseconds from the first arrival. A file of times has a line for each packet of the capture:

    steer-times 1
    ARRIVAL BEGIN END        of a packet that was served
    ARRIVAL - -              of one that was dropped
    end PACKETS
"""

from __future__ import annotations

import os
import re
from typing import BinaryIO, Iterator, NamedTuple, Sequence

from . import cli
from .report import Report
from .serving import Desk

FIRST_LINE = b"steer-times 1\n"
_LINE = re.compile(rb"(\d{1,32}) (?:(\d{1,32}) (\d{1,32})|- -)\n")
_END = re.compile(rb"end (\d{1,9})\n")


class Times(NamedTuple):
    """Of each packet its arrival, and begin and end of its service, None where it was dropped."""

    arrivals: list[int]
    begins: list[int | None]
    ends: list[int | None]


class Waits(NamedTuple):
    """The waits that half of the packets do not pass, that 99 of 100 do not, and the longest.

    They are nanoseconds, None where no packet was served. `loads` are those of the processors, 0 to
    1, None where all packets arrived at once.
    """

    middle: int | None
    most: int | None
    longest: int | None
    loads: list[float | None]


def check_name(name: str, read: Sequence[str]) -> None:
    """Raises WrongWords where times cannot be written to a file of this name."""
    if name == "-":
        raise cli.WrongWords("--times: the times go into a file")
    for other in read:
        if os.path.exists(name) and os.path.exists(other) and os.path.samefile(name, other):
            raise cli.WrongWords("--times: %s is read, and cannot be written" % name)


def times_of(desk: Desk) -> Times:
    """The Times of the packets that a serving.Desk has served."""
    begins, ends = ([None if time is None else round(time) for time in times]
                    for times in desk.times())
    return Times([round(time) for time in desk.arrivals], begins, ends)


def write(times: Times, out: BinaryIO) -> None:
    """Writes Times to a binary stream."""
    out.write(FIRST_LINE)
    out.write("".join(
        "%d - -\n" % arrival if begin is None else "%d %d %s\n" % (arrival, begin, end)
        for arrival, begin, end in zip(*times)).encode("ascii"))
    out.write(b"end %d\n" % len(times.arrivals))


def read_file(name: str) -> Times:
    """The Times that a file has.

    NotThatFile where its first line is another, Refused where it is cut short or a line is wrong.
    """
    source = cli.source_name(name)
    lines = cli.read_bytes(name).splitlines(keepends=True)
    if lines[:1] != [FIRST_LINE]:
        raise cli.NotThatFile(source, "no times: the first line is not `steer-times 1`")
    end = _END.fullmatch(lines[-1])
    if end is None or int(end.group(1)) != len(lines) - 2:
        raise cli.Refused(source, "cut short after line %d (no line `end` with the number of the "
                          "packets)" % len(lines))
    rows = [_row(line, number, source) for number, line in enumerate(lines[1:-1], 2)]
    return Times(*(list(column) for column in zip(*rows))) if rows else Times([], [], [])


def _row(line, number, source):
    """The three times of a line; Refused where it is none, or they do not ascend."""
    found = _LINE.fullmatch(line)
    row = [field and int(field) for field in found.groups()] if found else [1, 0, 0]
    if row[1] is not None and not row[0] <= row[1] <= row[2]:
        raise cli.Refused(source, "line %d is not ARRIVAL BEGIN END, ascending, nor ARRIVAL - -"
                          % number)
    return row


def check(times: Times, rep: Report, source: str) -> None:
    """Refuses Times that are not those of the packets of a report."""
    if len(times.arrivals) != len(rep.packets) or rep.end.arrived != rep.end.total:
        raise cli.Refused(source, "it has times of %d packets, and the report has %d of %d"
                          % (len(times.arrivals), rep.end.arrived, rep.end.total))
    for packet, begin in zip(rep.packets, times.begins):
        if (packet.place == "drop") != (begin is None):
            raise cli.Refused(source, "packet %d is %s in the report, and %s here" % (
                packet.id, "dropped" if begin is not None else "not dropped",
                "served" if begin is not None else "dropped"))


def waits_of(times: Times) -> list[int | None]:
    """How long each packet waited, None where it was dropped."""
    return [None if begin is None else begin - arrival
            for arrival, begin in zip(times.arrivals, times.begins)]


def _rank(ordered, part, whole):
    """The least of the ascending values that `part` of `whole` of them do not pass."""
    return ordered[-(-len(ordered) * part // whole) - 1] if ordered else None


def loads_of(times: Times, cpus: Sequence[int | None], count: int) -> list[float | None]:
    """The load of each of `count` processors; `cpus` has the processor of each packet."""
    last = times.arrivals[-1] if times.arrivals else 0
    if not last:
        return [None] * count
    busy = [0] * count
    for cpu, begin, end in zip(cpus, times.begins, times.ends):
        if cpu is not None and begin is not None and end is not None and begin < last:
            busy[cpu] += min(end, last) - begin
    return [work / last for work in busy]


def summary(times: Times, cpus: Sequence[int | None], count: int) -> Waits:
    """The Waits of packets whose processors are `cpus`, of `count` processors."""
    ordered = sorted(wait for wait in waits_of(times) if wait is not None)
    return Waits(_rank(ordered, 1, 2), _rank(ordered, 99, 100), _rank(ordered, 1, 1),
                 loads_of(times, cpus, count))


UNITS = ((1000000000, "s"), (1000000, "ms"), (1000, "us"))


def time_text(nanoseconds: int | None) -> str:
    """A time with three digits at least, such as `50.0 us`, `12.3 ms`, `0`, or `-` for none."""
    if not nanoseconds:
        return "-" if nanoseconds is None else "0"
    for unit, name in UNITS:
        if nanoseconds >= unit:
            value = nanoseconds / unit
            return "%.*f %s" % (1 if value < 100 else 0, value, name)
    return "%d ns" % nanoseconds


def load_text(load: float | None) -> str:
    """A load in per cent, or `-` for none."""
    return "-" if load is None else "%.0f%%" % (100 * load)


def of_report(times: Times, rep: Report, source: str) -> Waits:
    """The Waits of a report's packets; Refused where `source` has not the times of these."""
    check(times, rep, source)
    return summary(times, [packet.cpu for packet in rep.packets], len(rep.cpus))


def line_of(waits: Waits) -> str:
    """The waits of a schedule in one line."""
    return "wait half %s, 99%% %s, longest %s" % (
        time_text(waits.middle), time_text(waits.most), time_text(waits.longest))


def changes(old: Waits, new: Waits) -> Iterator[str]:
    """A line for the waits and one for each processor's load, where two schedules differ."""
    texts = [(name, time_text(before), time_text(after)) for name, before, after in zip(
        ("half", "99%", "longest"), old[:3], new[:3])]
    if old[:3] != new[:3]:
        yield "wait " + ", ".join("%s %s -> %s" % text for text in texts)
    for cpu, pair in enumerate(zip(old.loads, new.loads)):
        before, after = map(load_text, pair)
        if before != after:
            yield "cpu %d load %s -> %s" % (cpu, before, after)
