"""The low bits of each flow's new hash: the table's entry, the class, the socket entry, the bucket.

They are those of the kernel's hash where the plan's table leads it to its queue. Where a card's
table has another size, a rule or a context leads elsewhere, or the kernel makes the hash itself, an
entry that leads to the queue is taken.
"""

from __future__ import annotations

from typing import TYPE_CHECKING, Sequence

from . import cli, kernel, limits
from .shape import Shape

if TYPE_CHECKING:
    from .remap import Flow, Options

ENTRIES = limits.TABLE_ENTRIES
BITS = 17                     # of the low bits that stay where the sizes allow it
LOW = (1 << BITS) - 1
TABLE_BITS = 7
MOST_CLASS_BITS = 15          # a flow table has at most 32,768 entries


class Layout:
    """The new plan's table and its flow tables; lay() gives each flow its low bits."""

    def __init__(self, shape: Shape, options: Options) -> None:
        self.shape = shape
        self.options = options
        self.table = list(shape.table)
        self.flows = list(shape.flows)
        self.bits = shape.low_bits()

    def lay(self, flows: Sequence[Flow]) -> None:
        """Gives each flow with a hash its low bits, in `entry`."""
        hashed = [flow for flow in flows if flow.value is not None]
        if self.options.card is not None:
            self._fold(hashed)
        self._give_each_queue(hashed)
        places: dict[int, list[int]] = {}
        for entry, queue in enumerate(self.table):
            places.setdefault(queue, []).append(entry)
        if self.options.hash32:
            self._enlarge(places)
        for flow in hashed:
            flow.entry = self._word(flow, places)
        moved = self.table != self.shape.table or any(
            (flow.entry ^ flow.given) & (ENTRIES - 1) for flow in hashed)
        if moved and self.shape.tables_change:
            raise cli.Refused("steps", "they change the table (reta) while flows have other "
                              "entries than their hash gives; it fits without these steps")

    def _weights(self, flows):
        """For each entry and queue how many packets have this entry by their hash."""
        weights = [{} for _ in range(ENTRIES)]
        for flow in flows:
            of = weights[flow.given % ENTRIES]
            of[flow.queue] = of.get(flow.queue, 0) + flow.packets
        return weights

    def _fold(self, flows):
        """A table in which the most packets keep their entry."""
        card = self.options.card.table
        self.table = [card[entry % len(card)] for entry in range(ENTRIES)]
        for entry, weight in enumerate(self._weights(flows)):
            if weight:
                self.table[entry] = max(weight, key=lambda queue: (weight[queue], -queue))

    def _give_each_queue(self, flows):
        """Gives each queue that has flows an entry, the one with the fewest packets."""
        missing = sorted({flow.queue for flow in flows} - set(self.table))
        weights = self._weights(flows) if missing else []
        for queue in missing:
            spare = [entry for entry in range(ENTRIES)
                     if self.table.count(self.table[entry]) > 1]
            entry = min(spare, key=lambda at: weights[at].get(self.table[at], 0))
            self.table[entry] = queue

    def _enlarge(self, places):
        """Makes flow tables so large that classes by `hash_32` can stay apart."""
        if self.shape.filters or self.shape.flows_change:
            return
        for queue, entries in places.items():
            if self.flows[queue]:
                wanted = -(-kernel.rounded_up(self.flows[queue]) // len(entries))
                bits = min(TABLE_BITS + kernel.bits_of(wanted), MOST_CLASS_BITS)
                self.flows[queue] = 1 << bits
                self.bits = max(self.bits, bits)

    def _word(self, flow, places):
        """The low bits of the new hash of a flow."""
        low = flow.given & LOW
        entries = places[flow.queue]
        count = self.shape.flows[flow.queue]
        if self.options.hash32 and count:
            index = kernel.flow_entry(flow.given, count, True)
            bits = max(kernel.bits_of(self.flows[flow.queue]), TABLE_BITS)
            upper = index // len(entries) & (1 << bits - TABLE_BITS) - 1
            return low >> bits << bits | upper << TABLE_BITS | entries[index % len(entries)]
        entry = low % ENTRIES
        if self.table[entry] == flow.queue:
            return low
        return low - entry + entries[entry % len(entries)]
