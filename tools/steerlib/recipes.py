"""The sizes of a remapped plan, and the remainders that each flow's new hash has by them."""

from __future__ import annotations

from typing import TYPE_CHECKING, Any, Sequence

from . import cli, kernel, layout, limits, sizes
from .plan import Plan
from .shape import Shape, Spares

if TYPE_CHECKING:
    from .remap import Flow

ORDER = ("cpus", "queues", "key", "kinds", "reta", "sock", "filters", "backlog", "start", "limited",
         "apps", "tx", "workers", "tries", "detach", "steps")
READERS = "readers"


class _Conflict(Exception):
    """One size would need two remainders of a flow, since spares are between the members."""


def size_name(name: Any) -> str:
    """How people name what has a size."""
    return name if name == READERS else "%s of %d" % (
        {"mask": "a mask", "tx": "a transmit map"}[name[0]], name[1])


class Recipes:
    """The sizes, the spares, and by them the new plan and the remainders of each flow."""

    def __init__(self, plan: Plan, shape: Shape, flows: Sequence[Flow], apps: list[int],
                 laid: layout.Layout, transmit: bool) -> None:
        self.old = plan
        self.shape = shape
        self.apps = apps
        self.transmit = transmit
        self.of_queues = [set(one["queues"]) for one in plan["tx"]]
        self.of_cpus = [set(one["cpus"]) for one in plan["tx"]]
        self.stands = shape.stands + [{cpu} for cpu in apps[len(shape.stands):]]
        self.flows = [flow for flow in flows if flow.value is not None]
        self._check_maps()
        self.keeps_readers = self._keeps_readers(len(apps))
        self.kinds_of_flow = {(flow.queue, flow.app) for flow in self.flows}
        self.apart = False
        try:
            self._make(laid)
        except _Conflict:
            self.apart = True
            self._make(laid)
        self._give_transmit_queues()

    def _make(self, laid):
        """Chooses the sizes and the spares, and which remainders each kind of flow needs.

        Masks of one number of members have one size, unless they are to be kept `apart`.
        """
        self._choose(laid.bits)
        self.bits = layout.BITS
        if self._product() << self.bits > 1 << kernel.HASH_BITS:
            self.bits = laid.bits
        self.spares = Spares(self.shape, {
            members: self.chosen.get(self._mask_name(members), len(members))
            for lists in self.shape.lists for members in lists})
        self.recipes = {of: self._recipe(*of) for of in self.kinds_of_flow}

    def _mask_name(self, members):
        return "mask", len(members), members if self.apart else ()

    def _check_maps(self):
        if self.transmit and self.shape.maps_change:
            raise cli.Refused("steps", "they change the maps of XPS (xcpus, xqueues), and the "
                              "transmit queues are asked for; it fits without --tx")

    def _keeps_readers(self, count):
        """Whether so many readers of the plan stay, since the low bits give their factors of two.

        Of another number than there are, a flow's is the card's hash modulo it where none is told.
        """
        twos = count & -count
        if count == len(self.apps) == len(self.old["apps"]):
            return all(flow.entry % twos == flow.app % twos for flow in self.flows)
        told = len(self.apps) != len(self.old["apps"]) or any(
            flow.app != (flow.card or 0) % len(self.apps) for flow in self.flows)
        return not told and all(flow.entry % twos == (flow.card or 0) % twos
                                for flow in self.flows)

    # Names and groups of sizes.

    def _lists(self, queue):
        """The masks that a flow of a queue may meet and that have a choice."""
        return [members for of in self.shape.reachable(queue) for members in self.shape.lists[of]
                if len(members) > 1]

    def _maps(self, queue, app):
        """The sets of transmit queues from which the replies of a flow may be sent."""
        if not self.transmit:
            return []
        found = [kernel.transmit_map(of, cpu, self.of_queues, self.of_cpus)
                 for of in self.shape.reachable(queue) for cpu in sorted(self.stands[app])]
        return [one for one in found if len(one) > 1]

    def _names(self, queue, app):
        names = {self._mask_name(members) for members in self._lists(queue)}
        names |= {("tx", len(one)) for one in self._maps(queue, app)}
        if len(self.apps) > 1 and not (self.keeps_readers
                                       and sizes.odd_part(len(self.apps)) == 1):
            names.add(READERS)
        return frozenset(names)

    def _choices(self, names, more):
        """The sizes from which each name may get one, with `more` spare transmit queues."""
        choices = {}
        most = limits.MOST_PROCESSORS
        for name in names:
            if name == READERS:
                choices[name] = self._reader_sizes(len(self.apps))
            elif name[0] == "mask":
                choices[name] = list(sizes.odd_from(name[1], most))
            elif name[1] == len(self.of_queues):
                choices[name] = [size for size in [name[1] + more] if size % 2]
            else:
                choices[name] = list(sizes.odd_from(name[1], name[1] + more))
        return choices

    def _reader_sizes(self, count):
        """The sizes that so many readers may have."""
        kept = [sizes.odd_part(count)] if self._keeps_readers(count) else []
        return kept + [size for size in sizes.odd_from(count, limits.MOST_READERS)
                       if size not in kept]

    def _choose(self, low_bits):
        """Chooses the sizes, with as few spare transmit queues as can be."""
        self.groups = {self._names(*of) for of in self.kinds_of_flow} - {frozenset()}
        names = set().union(*self.groups) if self.groups else set()
        for name in names:
            if name != READERS and name[1] == limits.MOST_PROCESSORS:
                raise cli.Refused("plan", "%s has no spare member: a plan has at most %d; one of "
                                  "%d fits" % (size_name(name), name[1], name[1] - 1))
        room = 1 << kernel.HASH_BITS - low_bits
        fault = None
        for self.more in range(limits.MOST_TRANSMIT_QUEUES - len(self.of_queues) + 1):
            try:
                self.chosen = sizes.chosen_sizes(self._choices(names, self.more), self.groups,
                                                 room)
                return
            except sizes.NoSizes as found:
                fault = fault or found
            if not any(name[0] == "tx" for name in names):
                break
        raise cli.Refused("plan", self._advice(fault.group, room))

    def _fits(self, group, room, readers=None):
        """Whether there are sizes for these names alone, with so many readers or all."""
        choices = self._choices(group, 0)
        if readers is not None:
            choices[READERS] = self._reader_sizes(readers)
        try:
            sizes.chosen_sizes(choices, [group], room)
        except sizes.NoSizes:
            return False
        return True

    def _fewer_readers(self, group, room):
        """How many readers, at most and fewer than now, let these names have sizes; or None."""
        for count in range(len(self.apps) - 1, 0, -1):
            if self._fits(group, room, count):
                return count
        return None

    def _advice(self, group, room):
        """Why a group of names has no sizes, and by what it would have some."""
        largest = max(sorted(group, key=str), key=lambda name: (
            name != READERS and name[0] == "mask" and name[1]))
        less = (("without --tx", {name for name in group if name[0] != "tx"}),
                ("with masks of one number of members",
                 {name for name in group if name[0] != "mask"} | {largest}))
        fits = [text for text, names in less
                if names < group and self._fits(frozenset(names), room)]
        readers = self._fewer_readers(group, room) if READERS in group else None
        if readers is not None:
            fits.append("with %d reader%s in all" % (readers, "" if readers == 1 else "s"))
        return ("%s: no odd sizes without a common divisor have a product of at most %d, for which "
                "the high bits of a hash have room; it fits %s" % (
                    ", ".join(size_name(name) for name in sorted(group, key=str)), room,
                    " or ".join(fits or ["with smaller masks, or smaller tables"])))

    def _product(self):
        """The largest product of sizes that a flow needs."""
        most = 1
        for group in self.groups:
            product = 1
            for name in group:
                product *= self.chosen[name]
            most = max(most, product)
        return most

    # Remainders.

    def _give_transmit_queues(self):
        """Gives each flow the transmit queue that XPS picks where its reader is at first."""
        if not self.transmit:
            return
        for flow in self.flows:
            found = kernel.transmit_map(flow.queue, self.apps[flow.app], self.of_queues,
                                        self.of_cpus)
            flow.tx = kernel.transmit_choice(flow.sends, found)

    def _recipe(self, queue, app):
        """The sizes that flows of a queue and a reader need, and how their remainders come."""
        parts = {}
        for members in self._lists(queue):
            size = self.chosen[self._mask_name(members)]
            self._add(parts, size, (len(members), False, tuple(self.spares.places[members])))
        for one in self._maps(queue, app):
            self._add(parts, self.chosen["tx", len(one)],
                      (len(one), True, tuple(range(len(one)))))
        if READERS in self._names(queue, app):
            size = self.chosen[READERS]
            self._add(parts, size, (0, False, (app % size,)))
        return sizes.Residues(list(parts), self.bits), list(parts.values())

    @staticmethod
    def _add(parts, size, part):
        if parts.setdefault(size, part) != part:
            raise _Conflict

    def of(self, flow: Flow) -> tuple[sizes.Residues, list[int]]:
        """The Residues for a flow, and its remainders."""
        residues, parts = self.recipes[flow.queue, flow.app]
        return residues, [places[kernel.scaled(flow.sends if sends else flow.given, count)]
                          if count else places[0] for count, sends, places in parts]

    # The new plan.

    def plan(self, laid: layout.Layout, kinds: int, key: str | None) -> Plan:
        """The new plan, with its keys in the order of the old one where it has them."""
        made = dict(self.old)
        made["cpus"] = self.spares.cpus
        made["queues"] = [dict(queue, mask=self.spares.padded[lists[0]], flows=count)
                          for queue, lists, count in zip(self.old["queues"], self.shape.lists,
                                                         laid.flows)]
        if key is not None:
            made["key"] = key
        if kinds != self.old.get("kinds", limits.MOST_KINDS):
            made["kinds"] = kinds
        if laid.table != self.shape.table:
            made["reta"] = laid.table
        wanted = self.chosen.get(READERS, 0)
        made["apps"] = self.apps + [self.apps[0]] * (wanted - len(self.apps))
        if self.transmit:
            made["tx"] = self._transmit_maps()
        made["steps"] = self._steps()
        return {name: made[name] for name in ORDER if name in made}

    def _transmit_maps(self):
        """The transmit queues, with spare ones in each map that needs a member more."""
        maps = [{"cpus": list(one["cpus"]), "queues": list(one["queues"])}
                for one in self.old["tx"]]
        maps += [{"cpus": [], "queues": []} for _ in range(self.more)]
        for name, of, count in (("queues", self.of_queues, len(self.shape.queues)),
                                ("cpus", self.of_cpus, self.shape.cpus)):
            for member in range(count):
                size = sum(member in one for one in of)
                wanted = self.chosen.get(("tx", size), 0) if size else 0
                for spare in range(len(of), len(of) + wanted - size):
                    maps[spare][name].append(member)
        return maps

    def _steps(self):
        """The steps, with spares in the masks that they set."""
        steps = self.old["steps"]
        if not self.shape.step_lists:
            return steps
        steps = list(steps)
        for place, (queue, members) in self.shape.step_lists.items():
            padded = self.spares.padded[members]
            steps[place] = "mask %d %s" % (queue, ",".join(map(str, padded)) or "-")
        return steps
