"""Pairs of flows that share an entry of a table in a kernel and not here, or the other way."""

from __future__ import annotations

from collections import Counter
from typing import TYPE_CHECKING, Hashable, Iterator, Sequence

from . import kernel

if TYPE_CHECKING:
    from .remap import Remapped


def _pairs(counts):
    return sum(count * (count - 1) // 2 for count in counts.values())


def compared(here: Sequence[Hashable], there: Sequence[Hashable]) -> tuple[int, int]:
    """How many pairs share a value in `here` and not in `there`, and the other way round.

    Both are lists with a value for each flow.
    """
    both = _pairs(Counter(zip(here, there)))
    return _pairs(Counter(here)) - both, _pairs(Counter(there)) - both


def _classes(result, flows):
    """The classes of flows here and in a kernel, with their queues."""
    old, new = result.shape.flows, [queue["flows"] for queue in result.plan["queues"]]
    by_hash_32 = result.options.hash32
    some = [flow for flow in flows if old[flow.queue]]
    return ([(flow.queue, kernel.flow_entry(flow.target, new[flow.queue])) for flow in some],
            [(flow.queue, kernel.flow_entry(flow.given, old[flow.queue], by_hash_32))
             for flow in some])


def counts(result: Remapped) -> dict[str, tuple[int, int]]:
    """By name of what is shared: (here and not there, there and not here)."""
    flows = [flow for flow in result.flows if flow.value is not None]
    found = {}
    if any(result.shape.flows):
        found["a class"] = compared(*_classes(result, flows))
    size = result.plan["sock"]
    if size:
        found["an entry of the socket table"] = compared(
            [kernel.socket_entry(flow.target, size) for flow in flows],
            [kernel.socket_entry(flow.given, size) for flow in flows])
    if result.plan.get("limited"):
        found["a bucket of the flow limit"] = compared(
            [kernel.limit_bucket(flow.target) for flow in flows],
            [kernel.limit_bucket(flow.given, result.options.hash32) for flow in flows])
    return found


def notes(result: Remapped) -> Iterator[str]:
    """A line for each table of which pairs of flows share other entries than in a kernel."""
    for name, (here, there) in counts(result).items():
        if here or there:
            yield ("pairs of flows that share %s: %d here and not in a kernel, %d there and not "
                   "here" % (name, here, there))
