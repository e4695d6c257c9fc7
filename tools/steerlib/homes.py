"""Which processor takes the interrupts of each receive queue, from the interrupts' names.

Drivers name them in many ways: `eth0-TxRx-3`, `virtio2-input.3`, `mlx5_comp3@pci:..`. Names
that differ in their last number alone are one series, and the series of reception is taken.
"""

from __future__ import annotations

import re

from .snapshot import Interrupt

_LAST_NUMBER = re.compile(r"(.*?)([0-9]{1,6})$")
_RECEIVES = ("rx", "input", "comp", "fp")
_OTHERS = ("tx", "output", "async", "config", "mgm", "misc", "ctrl", "control", "event", "lsc",
           "fdir", "other", "mbx", "mailbox", "aux", "cmd", "mac", "wol", "lpi")


def _split(name, device):
    """The series of an interrupt's name, and its number there, or None."""
    bare = re.sub(r"(?<![A-Za-z0-9_])%s(?![A-Za-z0-9_])" % re.escape(device), "#",
                  name.split("@")[0], 1)
    found = _LAST_NUMBER.fullmatch(bare)
    return (found.group(1), int(found.group(2))) if found else (bare, None)


def _rank(series):
    """0 for a series that tells of reception, 1 for one that may, None for any other."""
    words = re.findall("[a-z]+", series.lower())
    if any(word.startswith(other) for word in words for other in _OTHERS
           if not word.startswith("txrx") and "rx" not in words or other == "fdir"):
        return None
    return 0 if any(mark in word for word in words for mark in _RECEIVES) else 1


def _series(interrupts, device):
    """The members of the series of reception, as (number or None, interrupt), ascending."""
    by_series = {}
    for interrupt in interrupts:
        series, number = _split(interrupt.name, device)
        if _rank(series) is not None:
            by_series.setdefault(series, []).append((number, interrupt))
    if not by_series:
        return []
    best = min(by_series, key=lambda series: (_rank(series), -len(by_series[series]), series))
    return sorted(by_series[best], key=lambda member: (member[0] or 0, member[1].number))


def of_queues(interrupts: list[Interrupt], device: str, queues: int) -> dict[int, Interrupt]:
    """The interrupt of each receive queue that has one: by number, else by order."""
    members = _series(interrupts, device)
    numbers = [number for number, _ in members]
    if numbers == [None]:
        return {queue: members[0][1] for queue in range(queues)}
    if None not in numbers and len(set(numbers)) == len(numbers) and max(
            numbers, default=0) < queues:
        return dict(members)
    return {queue: interrupt for queue, (_, interrupt) in enumerate(members[:queues])}


def processor(interrupt: Interrupt) -> tuple[int, bool] | None:
    """The processor of an interrupt and whether that is sure, or None where it is not told."""
    if interrupt.effective:
        return interrupt.effective[0], len(interrupt.effective) == 1
    if interrupt.wanted:
        return interrupt.wanted[0], len(interrupt.wanted) == 1
    return None
