"""What of a plan a remap reads: its masks, also those of steps, and the sizes of its tables."""

from __future__ import annotations

from typing import Any, Collection, Iterator, Mapping, Sequence, Tuple

from . import kernel, limits
from . import plan as plans

Members = Tuple[int, ...]

WORDS = ("mask", "flows", "sock", "reta", "xcpus", "xqueues", "stand", "offline", "online")


def commands(steps: Any) -> Iterator[tuple[int, str, list[str]]]:
    """The place, word and arguments of each command of a list of steps that sets something."""
    for place, step in enumerate(steps if isinstance(steps, list) else ()):
        word, _, rest = step.partition(" ")
        if word in WORDS:
            yield place, word, rest.split(" ")


def members_of(text: str) -> set[int]:
    """The numbers of a set as steps write it."""
    return set() if text == "-" else {int(part) for part in text.split(",")}


class Shape:
    """A plan's masks and sizes, as they are at first and as its steps change them.

    `lists` has for each queue the lists that its mask may be, the first one first; a list is an
    ascending tuple of processors. `stands` has for each reader the processors on which it may be.
    """

    def __init__(self, plan: plans.Plan, online: Collection[int] | None) -> None:
        self.plan = plan
        self.cpus = plan["cpus"]
        self.queues = plan["queues"]
        self.table = plans.table_of(plan)
        self.lists: list[list[Members]] = [[tuple(kernel.mask_members(queue["mask"], online))]
                      for queue in self.queues]
        self.flows = [queue["flows"] for queue in self.queues]
        self.most_flows = list(self.flows)
        self.socket_entries = plan["sock"]
        self.stands = [{cpu} for cpu in plan["apps"]]
        self.filters = plan.get("filters", 0)
        self.roams = self.filters > 0
        self.tables_change = self.maps_change = self.flows_change = False
        self.step_lists: dict[int, tuple[int, Members]] = {}
        self._read_steps()

    def _read_steps(self) -> None:
        offline: set[int] = set()
        for place, word, words in commands(self.plan["steps"]):
            if word == "mask":
                up = set(range(self.cpus)) - offline
                members = tuple(kernel.mask_members(members_of(words[1]), up))
                self.step_lists[place] = int(words[0]), members
                if members not in self.lists[int(words[0])]:
                    self.lists[int(words[0])].append(members)
            elif word == "offline":
                offline.add(int(words[0]))
            elif word == "online":
                offline.discard(int(words[0]))
            else:
                self._read_size(word, words)

    def _read_size(self, word, words):
        if word == "flows":
            queue, count = map(int, words)
            self.most_flows[queue] = max(self.most_flows[queue], count)
            self.flows_change = True
        elif word == "sock":
            self.socket_entries = max(self.socket_entries, int(words[0]))
        elif word == "stand":
            self.stands[int(words[0])].add(int(words[1]))
        elif word == "reta":
            self.tables_change = self.roams = True
        else:
            self.maps_change = True

    def steers(self, queue: int) -> bool:
        """Whether a kernel looks at the hash of packets of this queue (`get_rps_cpu`)."""
        return any(self.lists[queue]) or bool(self.most_flows[queue] and self.socket_entries)

    def reachable(self, queue: int) -> Sequence[int]:
        """The queues by which a flow of this queue may come in."""
        return range(len(self.queues)) if self.roams else [queue]

    def low_bits(self) -> int:
        """How many low bits of a hash the tables of the plan read."""
        sizes = [limits.TABLE_ENTRIES, self.socket_entries, self.filters & -self.filters]
        sizes += self.most_flows
        if self.plan.get("limited"):
            sizes.append(1 << kernel.MOST_BUCKET_BITS)
        return max(kernel.bits_of(size) for size in sizes)


class Spares:
    """Masks with spare processors, by which they have the sizes that are wanted.

    `sizes` has the wanted size of each list. `cpus` is how many processors the plan needs then.
    """

    def __init__(self, shape: Shape, sizes: Mapping[Members, int]) -> None:
        self.cpus = shape.cpus
        self.padded: dict[Members, list[int]] = {}
        self.places: dict[Members, list[int]] = {}
        for members, size in sorted(sizes.items()):
            self._pad(members, size, shape)

    def _pad(self, members, size, shape):
        """Adds spares: processors above the members where there are any, so that none moves."""
        top = max(members, default=-1)
        above = list(range(top + 1, shape.cpus))
        fresh = list(range(shape.cpus, limits.MOST_PROCESSORS))
        below = [cpu for cpu in range(top) if cpu not in members]
        # A command waits until the lanes of its mask are empty, which those of new ones are.
        order = fresh + above if shape.step_lists else above + fresh
        spares = (order + below)[:size - len(members)]
        whole = sorted(members + tuple(spares))
        self.padded[members] = whole
        self.places[members] = [whole.index(cpu) for cpu in members]
        self.cpus = max(self.cpus, max(whole, default=0) + 1)
