"""Processors that each serve one packet at a time: the steps of a plan, and the times of service.

Times are nanoseconds from the first packet. The steps are kept as one text each for what happens
at once, as they stand in a plan: with SEPARATOR behind each step but the last.
"""

from __future__ import annotations

import operator
import sys
from bisect import bisect_left
from collections import deque
from heapq import heapify, heappop, heappush, heapreplace
from itertools import chain
from typing import Iterable, NamedTuple, Tuple

from . import limits

SEPARATOR = '","'
MARKS = 16
LEAST_BETWEEN_MARKS = 2048
AFTER_ALL, NEVER = sys.float_info.max, float("inf")

# A service that is under way: its end, a number that grows with each service that begins, the
# processor and the packet.
UnderWay = Tuple[float, int, int, int]


class Places(NamedTuple):
    """Of each packet its queue, processor and application, and the packets that were dropped.

    `limited` are those that the flow limit dropped, which are among `dropped`.
    """

    queues: list[int]
    cpus: list[int]
    apps: list[int]
    dropped: set[int]
    limited: set[int]


class Leave(NamedTuple):
    """Processors that go offline at a time, behind the steps `stands`.

    What they have in hand then, and what waits there, is served at once.
    """

    time: float
    stands: list[str]
    cpus: list[int]


class Service(NamedTuple):
    """What serves packets: a rate for each processor, in packets a second, and the backlog.

    `flows` has the flow number of each packet where packets are read, else it is None. `filters`
    is whether filters lead packets to other queues than the card's table. `leave` says which
    processors go offline, None where none does.
    """

    rates: list[float]
    backlog: int
    flows: list[int] | None
    replies: bool
    filters: bool = False
    leave: Leave | None = None


class _State(NamedTuple):
    """What there is before a packet arrives.

    `waiting` has the packets that wait for each processor, `idle` whether it serves none, and
    `under_way` is a heap of the services, of which the last one never ends. `texts` and `drops`
    are how many of them there are.
    """

    packet: int
    waiting: list[deque[int]]
    idle: list[bool]
    under_way: list[UnderWay]
    texts: int
    drops: int

    def copy(self) -> _State:
        """The same state, which changes apart from this one."""
        return self._replace(waiting=[packets.copy() for packets in self.waiting],
                             idle=list(self.idle), under_way=list(self.under_way))


def steps_each(service: Service) -> int:
    """The steps of a packet that is served, beside the two of its arrival."""
    return 3 + (service.flows is not None) + bool(service.replies)


def _text(*steps: str) -> str:
    """The text of steps that others follow."""
    return "".join(step + SEPARATOR for step in steps)


def _texts(form: str, numbers: Iterable[int]) -> list[str]:
    """The texts of steps of one form, a step for each number; equal ones are one object."""
    known = {number: _text(form % number) for number in set(numbers)}
    return [known[number] for number in numbers]


class Desk:
    """Serves packets that arrive at these times, where the places of packets are guessed.

    After serve(): `drops` are the packets that were dropped, ascending, and `hurried` is how many
    waited, or were in hand, where processors went offline.
    """

    def __init__(self, arrivals: list[float], service: Service, apps: list[int]) -> None:
        self.arrivals = arrivals
        self.service = service
        self.cpus: list[int] = []
        self.texts: list[str] = []
        self.drops: list[int] = []
        self.hurried = 0
        cpus = range(len(service.rates))
        self.cost = [1e9 / rate for rate in service.rates]
        self.pull = [_text("pull %d" % cpu) for cpu in cpus]
        self.finish = [_text("deliver %d" % cpu, "retire %d" % cpu) for cpu in cpus]
        self.poll = [_text("arrive", "poll %d" % queue) for queue in range(limits.MOST_QUEUES)]
        self.after = self._after(apps)
        self.leave_before = -1
        if service.leave is not None:
            self.leave_before = bisect_left(arrivals, service.leave.time)
        self.marks = [_State(0, [deque() for _ in cpus], [True for _ in cpus],
                             [(NEVER, 0, 0, 0)], 0, 0)]

    def _after(self, apps):
        """The text of the steps that follow the service of each packet; empty where none do."""
        flows = self.service.flows
        reads = [""] * len(apps) if flows is None else _texts("record %d", flows)
        replies = _texts("reply %d", apps) if self.service.replies else None
        return reads if replies is None else list(map(operator.add, reads, replies))

    def serve(self, places: Places, first: int = 0) -> None:
        """Serves all packets by these places, which have not changed before the packet `first`."""
        while self.marks[1:] and self.marks[-1].packet > first:
            self.marks.pop()
        state = self.marks[-1].copy()
        del self.texts[state.texts:], self.drops[state.drops:]
        self.cpus = places.cpus
        for last in self._ends(state.packet):
            if state.packet == self.leave_before:
                self._leave(state)
            state = self._serve(places, state, last)
            self.marks.append(state.copy())

    def _ends(self, packet):
        """Before which packets there are marks behind this one; the last is before none."""
        packets = len(self.arrivals)
        every = max(LEAST_BETWEEN_MARKS, packets // MARKS + 1)
        ends = {*range(every, packets, every), min(self.leave_before, packets), packets}
        return sorted(end for end in ends if end > packet)

    def _leave(self, state):
        """Processors go offline, and have nothing left to serve."""
        leave, texts = self.service.leave, self.texts
        texts += map(_text, leave.stands)
        in_hand = [each for each in state.under_way if each[2] in leave.cpus and each[0] != NEVER]
        self.hurried = len(in_hand)
        for _, _, cpu, served in sorted(in_hand):
            texts += (self.finish[cpu], self.after[served])
            self.hurried += len(state.waiting[cpu])
            for packet in state.waiting[cpu]:
                texts += (self.pull[cpu], self.finish[cpu], self.after[packet])
            state.waiting[cpu].clear()
            state.idle[cpu] = True
        state.under_way[:] = [each for each in state.under_way if each not in in_hand]
        heapify(state.under_way)
        texts += [_text("offline %d" % cpu) for cpu in leave.cpus]

    def _arriving(self, places, first, last):
        """Number, arrival, queue and processor of these packets; then `last` with a time."""
        some = slice(first, last)
        return chain(zip(range(first, last), self.arrivals[some], places.queues[some],
                         places.cpus[some]), [(last, self._until(last), 0, 0)])

    def _until(self, last):
        """Up to when services end before what comes between this packet and the one before it."""
        if last == len(self.arrivals):
            return AFTER_ALL
        return self.service.leave.time if last == self.leave_before else -1

    def _serve(self, places, state, last):
        """Serves the packets before `last`; the state then.

        A service that ends as a packet arrives comes before it.
        """
        _, waiting, idle, under_way, _, _ = state
        cost, pull, finish, after, poll = self.cost, self.pull, self.finish, self.after, self.poll
        texts, drops, backlog, limited = (self.texts, self.drops, self.service.backlog,
                                          places.limited)
        next_end = under_way[0][0]
        for packet, time, queue, cpu in self._arriving(places, state.packet, last):
            while next_end <= time:
                end, _, at, served = under_way[0]
                if waiting[at]:
                    heapreplace(under_way, (end + cost[at], len(texts), at,
                                            waiting[at].popleft()))
                    texts += (finish[at], after[served], pull[at])
                else:
                    heappop(under_way)
                    idle[at] = True
                    texts += (finish[at], after[served])
                next_end = under_way[0][0]
            if packet == last:
                break
            texts.append(poll[queue])
            if packet in limited:
                drops.append(packet)
            elif idle[cpu]:
                idle[cpu] = False
                heappush(under_way, (time + cost[cpu], len(texts), cpu, packet))
                next_end = under_way[0][0]
                texts.append(pull[cpu])
            elif len(waiting[cpu]) < backlog:
                waiting[cpu].append(packet)
            else:
                drops.append(packet)
        return _State(last, waiting, idle, under_way, len(texts), len(drops))

    def times(self) -> tuple[list[float | None], list[float | None]]:
        """When the service of each packet begins and ends, None where it was dropped."""
        begins: list[float | None] = [None] * len(self.arrivals)
        ends = begins.copy()
        dropped, free = set(self.drops), [0.0 for _ in self.cost]
        latest = self._latest()
        for packet, (time, cpu) in enumerate(zip(self.arrivals, self.cpus)):
            if packet not in dropped:
                begins[packet] = begin = min(max(time, free[cpu]), latest[cpu])
                ends[packet] = free[cpu] = min(begin + self.cost[cpu], latest[cpu])
        return begins, ends

    def _latest(self):
        """When each processor serves for the last time."""
        leave = self.service.leave
        return [NEVER if leave is None or cpu not in leave.cpus else leave.time
                for cpu in range(len(self.cost))]

    def deepest(self) -> int:
        """The most packets that waited for one processor at once."""
        waiting: list[deque[float]] = [deque() for _ in self.cost]
        most = 0
        for time, begin, cpu in zip(self.arrivals, self.times()[0], self.cpus):
            if begin is None or begin <= time:
                continue
            begins = waiting[cpu]
            while begins and begins[0] <= time:
                begins.popleft()
            begins.append(begin)
            most = max(most, len(begins))
        return most

    def count(self) -> int:
        """How many steps there are."""
        packets, dropped, leave = len(self.arrivals), len(self.drops), self.service.leave
        commands = len(leave.stands) + len(leave.cpus) if leave is not None and packets else 0
        return commands + 2 * packets + steps_each(self.service) * (packets - dropped) + 1

    def text(self) -> str:
        """The steps as they stand in a plan, a list in JSON."""
        return '["' + "".join(self.texts) + 'sweep"]'

    def text_of_round(self) -> str:
        """As text(), and without the sweep at the end where no packet has its place by it.

        Each packet is polled as it arrives, and only one that a filter led to another queue than
        was guessed may be left for the sweep.
        """
        if self.service.filters or not self.texts:
            return self.text()
        return '["' + "".join(self.texts)[:-len(SEPARATOR)] + '"]'

    def steps(self) -> list[str]:
        """The steps as a list."""
        return ("".join(self.texts) + "sweep").split(SEPARATOR)
