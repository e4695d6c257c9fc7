"""Counters of two snapshots: by how much they grew, for each receive queue and each processor.

The queues' are those of `ethtool -S`, whose names are the driver's own. The processors' are the
columns of /proc/net/softnet_stat, which count modulo 2^32.
"""

from __future__ import annotations

import re
from typing import Dict, List, NamedTuple

from . import snapshot

HANDLED, DROPPED, INTERRUPTED, FLOW_LIMIT, NUMBER = 0, 1, 9, 10, 12
"""Columns: packets handled, packets dropped at the backlog, interrupts of RPS, packets dropped by
the flow limit, and the number of the processor."""

WRAP = 1 << 32

# How drivers name the packets of a receive queue; the first form that a card has counts.
NAMES = [re.compile(form) for form in (
    r"rx_queue_(\d{1,4})_packets", r"rx(\d{1,4})_packets", r"rx-(\d{1,4})\.(?:rx_)?packets",
    r"queue_(\d{1,4})_rx_cnt", r"rx_packets\[(\d{1,4})\]",
    r"\[(\d{1,4})\]: rx_[umb]cast_packets")]
_LOST = re.compile(r"rx.*(?:miss|drop|no_buffer|nobuf|discard|over_err|fifo)")
_COUNTER = re.compile(r"\s*(\S.*?): (\d{1,20})\s*")


class Growth(NamedTuple):
    """By how much counters grew.

    `queues` has the packets of each receive queue, and is empty where the driver names none,
    `cpus` for each processor the growth of each column, and `lost` the other counters of the card
    that count lost packets, as far as they grew.
    """

    queues: Dict[int, int]
    cpus: Dict[int, List[int]]
    lost: Dict[str, int]


def card_counters(seen: snapshot.Snapshot) -> dict[str, int]:
    """The counters of `ethtool -S`, by name."""
    found = (_COUNTER.fullmatch(line) for line in seen.ethtool("-S {}"))
    return {one.group(1): int(one.group(2)) for one in found if one}


def _of_queues(grown: dict[str, int]) -> dict[int, int]:
    """The packets of each receive queue, of counters by name."""
    for form in NAMES:
        queues: dict[int, int] = {}
        for name, value in grown.items():
            found = form.fullmatch(name)
            if found:
                number = int(found.group(1))
                queues[number] = queues.get(number, 0) + value
        if queues:
            return queues
    return {}


def _grown(before: snapshot.Snapshot, after: snapshot.Snapshot) -> dict[str, int]:
    """By how much each counter of the card grew that both snapshots have."""
    old, new = card_counters(before), card_counters(after)
    grown = {}
    for name in old.keys() & new.keys():
        grown[name] = new[name] - old[name]
        if grown[name] < 0:
            raise after.refused("%s fell from %d to %d: the card was set anew in between"
                                % (name, old[name], new[name]))
    return grown


def _by_processor(seen: snapshot.Snapshot) -> dict[int, list[int]]:
    """The columns of each processor that was online, by its number."""
    online = sorted(seen.cpus("online"))
    rows = {}
    for place, columns in enumerate(seen.softnet):
        if len(columns) <= FLOW_LIMIT:
            raise seen.refused("softnet %d has %d columns, and %d are read"
                                   % (place, len(columns), FLOW_LIMIT + 1))
        if len(columns) > NUMBER:
            rows[columns[NUMBER]] = columns
        elif place < len(online):
            rows[online[place]] = columns
    return rows


def _check_pair(before: snapshot.Snapshot, after: snapshot.Snapshot) -> None:
    """Refused where the snapshots are not of one device in one kernel, one after the other."""
    for name in ("device", "kernel"):
        one, other = getattr(before, name), getattr(after, name)
        if one != other:
            raise after.refused("it is of the %s %s, and %s of %s"
                                % (name, other, before.source, one))
    if before.taken > after.taken:
        raise after.refused("it was taken at %s, before %s at %s"
                            % (after.taken, before.source, before.taken))
    for one in (before, after):
        if not one.softnet:
            raise one.refused("no line `softnet` in it, as in those of an earlier steer-snap")


def growth(before: snapshot.Snapshot, after: snapshot.Snapshot) -> Growth:
    """The Growth between two snapshots of one device. Refused where they are no such pair."""
    _check_pair(before, after)
    grown = _grown(before, after)
    old, new = _by_processor(before), _by_processor(after)
    cpus = {cpu: [(there - here) % WRAP for here, there in zip(old[cpu], new[cpu])]
            for cpu in sorted(old.keys() & new.keys())}
    lost = {name: value for name, value in sorted(grown.items())
            if value and _LOST.match(name)}
    return Growth(_of_queues(grown), cpus, lost)
