"""The length of each processor's backlog through the steps of a plan.

The steps say when a packet is put and when it is pulled, the report says where. The position of
each packet, the counts of each drop and the sums of each processor have to be those that the steps
give: other steps, and reports of `run`, are refused where one of them differs.
"""

from __future__ import annotations

from collections import deque
from typing import Deque, Iterator, NamedTuple, NoReturn

from .. import cli
from ..plan import Plan
from ..report import Report

PULL = 32
ARRIVAL = 64

_WORD = (1 << 64) - 1
_COUNTER = (1 << 32) - 1
_TAKEN, _LOOKED, _WEIGHED = 1, 2, 3


class Backlogs(NamedTuple):
    """The backlogs of a replay.

    `events` has a byte for each event: the number of a processor for a packet that it accepts, this
    number plus PULL for one that it pulls, and ARRIVAL. `longest` is the longest backlog of each
    processor, `limit` the most packets that a backlog holds.
    """

    events: bytes
    longest: list[int]
    limit: int


def _words(seed: int) -> Iterator[int]:
    """The words of PCG XSH RR 64/32 with this seed on stream 54."""
    step = (54 << 1) | 1
    state = (((seed + step) & _WORD) * 6364136223846793005 + step) & _WORD
    while True:
        mixed = (((state >> 18) ^ state) >> 27) & _COUNTER
        turn = state >> 59
        yield ((mixed >> turn) | (mixed << (32 - turn))) & _COUNTER
        state = (state * 6364136223846793005 + step) & _WORD


def _seeded(seed: int, count: int, queues: int, cpus: int) -> Iterator[str]:
    """The steps of a seed that move packets between rings and processors; others are left out."""
    words = _words(seed)
    for _ in range(count):
        word = next(words)
        kind, actor = word % 16, word // 16
        if kind < 5:
            yield "arrive"
        elif kind < 9:
            yield "poll %d" % (actor % queues)
        elif kind < 12:
            yield "drain %d" % (actor % cpus)
        elif kind == 15:
            name = ("take", "enter", "look", "pull")[actor % 4]
            yield "%s %d" % (name, actor // 4 % (cpus if name == "pull" else queues))
    yield "sweep"


class _Machine:
    """Rings, pollers and processors: the packets that are in each, by a report's choices."""

    def __init__(self, rep: Report, start: int, source: str) -> None:
        self.rep = rep
        self.start = start
        self.source = source
        self.arrived = 0
        self.rings: list[Deque[int]] = [deque() for _ in rep.queues]
        self.inside = [False] * len(rep.queues)
        self.taken: list[int | None] = [None] * len(rep.queues)
        self.stages = [0] * len(rep.queues)
        cpus = len(rep.cpus)
        self.accepted = [0] * cpus
        self.pulled = [0] * cpus
        self.retired = [0] * cpus
        self.delivered = [False] * cpus
        self.longest = [0] * cpus
        self.events = bytearray()

    def refuse(self, reason: str, *values: int) -> NoReturn:
        """Ends with the reason why the steps are not those of the report."""
        raise cli.Refused(self.source, "its steps do not give this report: " + reason % values)

    def arrive(self) -> bool:
        """The next packet joins the ring of its queue; whether there is one."""
        if self.arrived == self.rep.end.total:
            return False
        if self.arrived == len(self.rep.packets):
            self.refuse("packet %d arrives by the steps, and not in the report", self.arrived)
        self.rings[self.rep.packets[self.arrived].q].append(self.arrived)
        self.arrived += 1
        self.events.append(ARRIVAL)
        return True

    def take(self, queue: int) -> None:
        if self.taken[queue] is None and self.rings[queue]:
            self.taken[queue] = self.rings[queue].popleft()
            self.stages[queue] = _TAKEN

    def enter(self, queue: int) -> None:
        self.inside[queue] = True

    def look(self, queue: int) -> None:
        if self.inside[queue] and self.stages[queue] == _TAKEN:
            self.stages[queue] = _LOOKED

    def weigh(self, queue: int) -> None:
        if self.inside[queue] and self.stages[queue] == _LOOKED:
            self.stages[queue] = _WEIGHED

    def put(self, queue: int) -> None:
        if self.inside[queue] and self.stages[queue] == _WEIGHED:
            self._put_taken(queue)

    def leave(self, queue: int) -> None:
        if self.stages[queue] not in (_LOOKED, _WEIGHED):
            self.inside[queue] = False

    def poll(self, queue: int) -> bool:
        """A whole poll; whether it put a packet."""
        self.take(queue)
        has_packet = self._put_taken(queue)
        self.inside[queue] = False
        return has_packet

    def _put_taken(self, queue: int) -> bool:
        """Puts the packet that the poller has taken; whether it has one."""
        number = self.taken[queue]
        if number is None:
            return False
        self._offer(number)
        self.taken[queue] = None
        self.stages[queue] = 0
        return True

    def _offer(self, number: int) -> None:
        """A packet is accepted or dropped, as the report says and as the counts allow."""
        packet = self.rep.packets[number]
        cpu, accepted, pulled = packet.cpu, packet.drop_accepted, packet.drop_pulled
        if cpu is not None and accepted is not None and pulled is not None:
            if (accepted, pulled) != (self.accepted[cpu], self.pulled[cpu]):
                self.refuse("packet %d is dropped with %d accepted and %d pulled, and the steps "
                            "give %d and %d", number, accepted, pulled, self.accepted[cpu],
                            self.pulled[cpu])
            return
        if cpu is None or packet.at is None:
            self.refuse("packet %d is put by the steps, and not in the report", number)
        self.accepted[cpu] += 1
        wanted = (self.start + self.accepted[cpu]) & _COUNTER
        if packet.at != wanted:
            self.refuse("packet %d is at %d on processor %d, and the steps give %d", number,
                        packet.at, cpu, wanted)
        self.events.append(cpu)
        self.longest[cpu] = max(self.longest[cpu], self.accepted[cpu] - self.pulled[cpu])

    def pull(self, cpu: int) -> None:
        if self.pulled[cpu] == self.retired[cpu] and self.pulled[cpu] < self.accepted[cpu]:
            self.pulled[cpu] += 1
            self.events.append(PULL + cpu)

    def deliver(self, cpu: int) -> None:
        self.delivered[cpu] = self.pulled[cpu] > self.retired[cpu]

    def retire(self, cpu: int) -> None:
        if self.delivered[cpu]:
            self.retired[cpu] += 1
            self.delivered[cpu] = False

    def drain(self, cpu: int) -> bool:
        """All that waits is pulled and retired; whether there was anything."""
        has_work = self.retired[cpu] < self.accepted[cpu]
        self.events += bytes((PULL + cpu,)) * (self.accepted[cpu] - self.pulled[cpu])
        self.pulled[cpu] = self.retired[cpu] = self.accepted[cpu]
        self.delivered[cpu] = False
        return has_work

    def sweep(self) -> None:
        has_work = True
        while has_work:
            has_work = self.arrive()
            for queue in range(len(self.rings)):
                has_work = self.poll(queue) or has_work
            for cpu in range(len(self.accepted)):
                has_work = self.drain(cpu) or has_work

    def check_end(self) -> None:
        """Refuses sums that are not those of the report."""
        if self.arrived != len(self.rep.packets):
            self.refuse("%d packets arrive, and the report has %d", self.arrived,
                        len(self.rep.packets))
        for row, accepted, pulled in zip(self.rep.cpus, self.accepted, self.pulled):
            if (row.accepted, row.pulled) != (accepted, pulled):
                self.refuse("processor %d accepts %d and pulls %d, and the report says %d and %d",
                            row.cpu, accepted, pulled, row.accepted, row.pulled)


STEPS = ("arrive", "take", "enter", "look", "weigh", "put", "leave", "poll", "pull", "deliver",
         "retire", "drain", "sweep")


def follow(rep: Report, plan: Plan, source: str) -> Backlogs:
    """The Backlogs of a report by the steps of its plan, which messages name `source`."""
    for kind, found, count in (("queues", len(rep.queues), len(plan["queues"])),
                               ("processors", len(rep.cpus), plan["cpus"])):
        if found != count:
            raise cli.Refused(source, "it has %d %s, and the report %d" % (count, kind, found))
    steps = plan["steps"]
    if isinstance(steps, dict):
        steps = _seeded(steps["seed"], steps["count"], len(rep.queues), len(rep.cpus))
    elif plan.get("filters") and any(step.startswith("put ") for step in steps):
        raise cli.Refused(source, "steps `put` with filters are not followed; `poll` is")
    machine = _Machine(rep, plan.get("start", 0), source)
    actions = {word: getattr(machine, word) for word in STEPS}
    for step in steps:
        word, _, actor = step.partition(" ")
        action = actions.get(word)
        if action is not None:
            action(int(actor)) if actor else action()
    machine.check_end()
    return Backlogs(bytes(machine.events), machine.longest, plan.get("backlog", 1000))
