"""Where RFS will have each packet, foretold by its rule, as the first guess of a schedule.

What counts is the replay by steer, with which the schedule has to agree. A guess that is near it
spares rounds, and one that is not costs some. Filters and the flow limit are not followed.
"""

from __future__ import annotations

import struct
from heapq import heappop, heappush, heapreplace
from itertools import chain, count
from typing import NamedTuple, Sequence

from . import kernel, remap, toeplitz
from . import plan as plans
from .serving import NEVER, Desk, Places, Service


class Way(NamedTuple):
    """What decides on the processor of a packet: the choice of RPS, and where RFS looks.

    `class_` is the entry of its queue's flow table, over all queues, and `entry` that of the socket
    table; they are -1 where it has none.
    """

    choice: int
    class_: int
    entry: int


def is_followed(settings: plans.Plan) -> bool:
    """Whether a plan has what is followed here, and nothing that moves packets otherwise."""
    has_rfs = settings["sock"] and any(queue["flows"] for queue in settings["queues"])
    return bool(has_rfs and not settings.get("filters"))


def _flow(text: bytes) -> tuple[str, bytes]:
    """Kind and bytes of a flow as `steer hash` writes it."""
    kind, *parts = text.decode("ascii").split(" ")
    ports = [int(part) for part in parts[2:]]
    return kind, bytes.fromhex("".join(parts[:2])) + struct.pack(">%dH" % len(ports), *ports)


def ways_of(settings: plans.Plan, flows: Sequence[bytes], queues: Sequence[int]) -> list[Way]:
    """The Way of each packet, of these flows and receive queues."""
    hashes = toeplitz.Toeplitz(bytes.fromhex(settings.get("key", plans.VERIFICATION_KEY)))
    kinds = settings.get("kinds", plans.DEFAULTS["kinds"])
    entries = kernel.rounded_up(settings["sock"])
    known: dict[tuple[bytes, int], Way] = {}
    for flow, number in set(zip(flows, queues)):
        queue = settings["queues"][number]
        hashed = remap.hashed_bytes(*_flow(flow), kinds)
        if hashed is None:
            known[flow, number] = Way(queue["home"], -1, -1)
            continue
        value = hashes.hash(hashed)
        members, classes = sorted(set(queue["mask"])), kernel.rounded_up(queue["flows"])
        known[flow, number] = Way(
            members[value % len(members)] if members else queue["home"],
            number << kernel.HASH_BITS | value % classes if classes else -1, value % entries)
    return [known[pair] for pair in zip(flows, queues)]


class Foretelling(Desk):
    """A Desk that finds the places of packets itself; its `cpus` are these then.

    `lanes` has the processor of each class, `tails` the position of its last packet there, `wanted`
    the processor where an entry of the socket table was read. `put` and `done` count the packets of
    each processor.
    """

    def __init__(self, arrivals: list[float], service: Service, settings: plans.Plan,
                 places: Places, ways: list[Way]) -> None:
        super().__init__(arrivals, service, places.apps)
        self.settings = settings
        self.places = places
        self.ways = ways
        self.apps = list(settings["apps"])
        self.lanes: dict[int, int] = {}
        self.tails: dict[int, int] = {}
        self.wanted: dict[int, int] = {}
        self.put = [0] * len(self.cost)
        self.done = [0] * len(self.cost)
        self.order = count(1)

    def foretold(self) -> Places:
        """The Places of all packets."""
        self.serve(self.places._replace(cpus=[]))
        return self.places._replace(cpus=self.cpus, dropped=set(self.drops))

    def _read(self, packet):
        """A packet is done with, and its reader reads it."""
        self.wanted[self.ways[packet].entry] = self.apps[self.places.apps[packet]]

    def _leave(self, state):
        """After the processors left, nothing names them any more."""
        leave = self.service.leave
        for stand in leave.stands:
            app, cpu = map(int, stand.split(" ")[1:])
            self.apps[app] = cpu
        for end, _, cpu, served in sorted(state.under_way):
            if cpu in leave.cpus and end != NEVER:
                for packet in (served, *state.waiting[cpu]):
                    self._read(packet)
        for cpu in leave.cpus:
            self.done[cpu] = self.put[cpu]
        super()._leave(state)
        homes = [queue["home"] for queue in self.settings["queues"]]
        self.ways = [way._replace(choice=homes[queue]) if way.choice in leave.cpus else way
                     for way, queue in zip(self.ways, self.places.queues)]
        for table in (self.lanes, self.wanted):
            for name in [name for name, cpu in table.items() if cpu in leave.cpus]:
                del table[name]

    def _serve(self, places, state, last):
        """As a Desk does, with the rule of RFS in place of the guess."""
        _, waiting, idle, under_way, _, _ = state
        cost, order, backlog, drops, cpus = (self.cost, self.order, self.service.backlog,
                                             self.drops, self.cpus)
        lanes, tails, wanted, put, done = (self.lanes, self.tails, self.wanted, self.put,
                                           self.done)
        next_end = under_way[0][0]
        for packet, time, (choice, class_, entry) in self._arriving(places, state.packet, last):
            while next_end <= time:
                end, _, at, served = under_way[0]
                done[at] += 1
                self._read(served)
                if waiting[at]:
                    heapreplace(under_way, (end + cost[at], next(order), at,
                                            waiting[at].popleft()))
                else:
                    heappop(under_way)
                    idle[at] = True
                next_end = under_way[0][0]
            if packet == last:
                break
            cpu = choice
            if class_ >= 0:
                desired, lane = wanted.get(entry, choice), lanes.get(class_)
                if lane is None or lane != desired and done[lane] >= tails[class_]:
                    lanes[class_], tails[class_] = desired, 0
                    cpu = desired
                else:
                    cpu = lane
            cpus.append(cpu)
            if idle[cpu]:
                idle[cpu] = False
                heappush(under_way, (time + cost[cpu], next(order), cpu, packet))
                next_end = under_way[0][0]
            elif len(waiting[cpu]) < backlog:
                waiting[cpu].append(packet)
            else:
                drops.append(packet)
                continue
            put[cpu] += 1
            tails[class_] = put[cpu]
        return state._replace(packet=last)

    def _arriving(self, places, first, last):
        some = slice(first, last)
        return chain(zip(range(first, last), self.arrivals[some], self.ways[some]),
                     [(last, self._until(last), (0, -1, -1))])
