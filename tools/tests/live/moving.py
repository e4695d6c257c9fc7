"""A machine on which processors are held and readers move, and what happens on it at random."""

import contextlib

from steerlib import kernel

from . import card, frames, pair, play

HERE = {4: bytes([10, 9, 0, 1]), 6: b"\xfd" + bytes(14) + b"\1"}
AWAY = {4: bytes([11, 9, 0, 1]), 6: b"\xfc" + bytes(14) + b"\1"}    # no address of the receiver
ADDRESSES = ("10.9.0.1/8", "fd00::1/8")
ENTRIES = 65536         # rps_sock_flow_entries
FLOWS = 8
MOST_WAITING = 60       # a kernel raises its head after 64 packets at the latest
MOST_EVENTS = 60        # for which a processor is held, well within the time that it can be


class Moving:
    """The machine: some receive queues with flow tables, and one for each processor to be held.

    Of its flows no two share an entry of the socket table, as flows have it in a kernel and as
    they have it when steer-remap gave them the class of a kernel with or without hash_32. `count`
    is that of a flow table.
    """

    def __init__(self, draw, cpus, count, by_hash_32):
        self.draw = draw
        self.cpus = cpus
        self.sender = draw.choice(cpus)
        self.others = [cpu for cpu in cpus if cpu != self.sender]
        steered = draw.choice((1, 2, 4))
        self.steered = range(steered)
        self.machine = card.Machine(draw, steered + len(self.others), cpus)
        self.machine.homes = [self.sender] * self.machine.queues
        self.machine.masks = [sorted(draw.sample(cpus, draw.randint(1, len(cpus))))
                              for _ in self.steered] + [[cpu] for cpu in self.others]
        self.machine.flows = [count] * steered + [0] * len(self.others)
        self.count, self.by_hash_32, self.marks = count, by_hash_32, set()
        self.flows = [self._lone(HERE, 2000 + number) for number in range(FLOWS)]
        self.holders = {cpu: self._flow(lambda hash, queue, own=steered + at: queue == own, AWAY)
                        for at, cpu in enumerate(self.others)}

    def _flow(self, is_wanted, targets, dport=None):
        """A flow whose hash and queue are wanted."""
        while True:
            version = self.draw.choice((4, 6))
            flow = frames.random_flow(self.draw, version, frames.UDP, targets[version], dport)
            if is_wanted(*self.machine.hash_and_queue(flow)):
                return flow

    def _lone(self, targets, dport=None):
        """A flow of a steered queue that shares no entry of the socket table with those so far.

        A remap keeps the bits of the hash from bit 7 on, or from those of a large class on.
        """
        def is_lone(hash, queue):
            if queue not in self.steered:
                return False
            marks = {("bits", hash >> 7 & 511)}
            if self.count > 64:
                marks.add(("class", kernel.flow_entry(hash, self.count, self.by_hash_32)))
            if marks & self.marks:
                return False
            self.marks |= marks
            return True

        return self._flow(is_lone, targets, dport)

    def alike(self, flow, entries):
        """Another flow of the same queue and the same entries of both tables; the socket table has
        `entries`."""
        hash, queue = self.machine.hash_and_queue(flow)

        def is_alike(other, of):
            return (of == queue and other != hash and other % entries == hash % entries
                    and kernel.flow_entry(other, self.count, self.by_hash_32)
                    == kernel.flow_entry(hash, self.count, self.by_hash_32))

        return self._flow(is_alike, HERE, flow.dport + FLOWS)

    def strangers(self, count):
        """So many flows of the steered queues that no socket reads."""
        return [self._lone(AWAY) for _ in range(count)]

    def held_and_other(self, cpu=None):
        """A processor that can be held, or the one that is given, and another one."""
        cpu = self.draw.choice(self.others) if cpu is None else cpu
        return cpu, self.draw.choice([one for one in self.cpus if one != cpu])

    def change_masks(self, played):
        """Gives each steered queue a random mask."""
        for queue in self.steered:
            played.mask(queue, sorted(self.draw.sample(self.cpus,
                                                       self.draw.randint(0, len(self.cpus)))))

    @contextlib.contextmanager
    def started(self, **settings):
        """A Play on a pair that is set; `settings` are those of the whole machine."""
        with pair.Pair(self.machine.queues) as made, pair.set_machine(**settings):
            self.machine.set(made)
            made.add_addresses(*ADDRESSES)
            played = play.Play(made, self.machine, self.sender)
            try:
                yield played
            finally:
                played.let_go()

    def begin(self, played):
        """Opens the flows' sockets, and reads each flow once, so that it has its entries."""
        for flow in self.flows:
            played.open(flow)
        for flow in self.flows:
            played.send(flow)
            if played.read(flow, self.draw.choice(self.cpus)) != 1:
                raise AssertionError("the first frame of %s did not reach its socket" % (flow,))
            played.send(flow)

    def play(self, played, events, reads=True):
        """So many random events, after which no processor is held."""
        draw, since = self.draw, {}
        for event in range(events):
            chance = draw.random()
            free = [cpu for cpu in self.others if cpu not in played.held]
            due = [cpu for cpu, waiting in played.held.items()
                   if len(waiting) > MOST_WAITING or since[cpu] < event - MOST_EVENTS]
            if due or (chance < 0.06 and played.held):
                played.release(draw.choice(due or list(played.held)))
            elif chance < 0.18 and free:
                cpu = draw.choice(free)
                since[cpu] = event
                played.hold(cpu, self.holders[cpu])
            elif chance < 0.55 and reads:
                reading = [cpu for cpu in self.cpus if cpu not in played.held]
                played.read(draw.choice(self.flows), draw.choice(reading))
            else:
                played.send(draw.choice(self.flows))
        for cpu in list(played.held):
            played.release(cpu)
