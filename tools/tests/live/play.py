"""Events on the kernel one after the other, and the steps of a plan that say the same."""

import contextlib

from steerlib import processors

from . import frames, pair


class Play:
    """What happened on the receiver of a pair, with all frames sent by one processor.

    `left` has the frames in their order, `notes` by number what the receiver wrote, and `steps`
    the steps of a plan. A frame is sent only when the one before it has its place, and what is
    not waiting has been handled to its end, so that the kernel's choices have one outcome.
    """

    def __init__(self, made, machine, sender):
        self.made = made
        self.machine = machine
        self.sender = sender
        self.steps = []
        self.left = []
        self.notes = {}
        self.flows = {}
        self.sockets = {}
        self.drops = {}         # by number of a frame the processor at which it was dropped
        # By processor: how many tickets there were, the flow and the ticket of the frame that keeps
        # it, and those of the frames that wait behind that one, with 0 for no ticket.
        self.tickets, self.hands, self.held = {}, {}, {}

    def _put(self, flow, ticket):
        """Sends a frame of a flow."""
        data, queue = self.machine.frame(self.made.mac, flow, len(self.left), ticket)
        self.flows.setdefault(flow, len(self.flows))
        with pair.on(self.sender):
            self.made.send(data)
        self.left.append(self.made.left())
        self.steps += ["arrive", "poll %d" % queue]

    def _come(self, flow):
        """Waits until a frame of a flow was handled, and gives its note."""
        arrived = frames.note(self.made.arrived())
        note = self._note(flow)
        if arrived.number != note.number:
            raise AssertionError("frame %d came, and then %d" % (arrived.number, note.number))
        return note

    def _note(self, flow):
        note = self.made.came(4 if len(flow.source) == 4 else 6)
        self.notes[note.number] = note
        return note

    def send(self, flow):
        """Sends a frame of a flow, and waits until it waits, was dropped, or was handled.

        Gives its processor.
        """
        cpu = self._sent(flow, 0)
        if cpu is None:
            cpu = self._come(flow).cpu
            with pair.on(cpu):
                self.steps += ["drain %d" % one for one in self.machine.cpus
                               if one not in self.held]
        return cpu

    def hold(self, cpu, flow):
        """Sends a frame that keeps its processor, of a flow that reaches no other one.

        Where the processor is held already, the frame waits, or is dropped, as others are.
        """
        self.tickets[cpu] = self.tickets.get(cpu, 0) + 1
        if self._sent(flow, self.tickets[cpu]) is None:
            self.held[cpu] = []
            self._in_hand(cpu, flow, self.tickets[cpu])

    def _sent(self, flow, ticket):
        """Sends a frame; the held processor on which it waits or was dropped, or None."""
        before = pair.waiting()
        self._put(flow, ticket)
        after = pair.waiting()
        for cpu, waiting in self.held.items():
            if after[cpu].dropped > before[cpu].dropped:
                self.drops[len(self.left) - 1] = cpu
                return cpu
            if after[cpu].packets > before[cpu].packets:
                waiting.append((flow, ticket))
                return cpu
        return None

    def _in_hand(self, cpu, flow, ticket):
        """Waits until a frame that keeps its processor is there."""
        self.made.arrived()
        self.hands[cpu] = flow, ticket
        self.steps.append("pull %d" % cpu)

    def release(self, cpu):
        """Lets a processor go on, and waits until it has nothing more to do, or is held again."""
        flow, ticket = self.hands.pop(cpu)
        with pair.on(self.sender):
            self.made.out.send(frames.release(self.made.mac, cpu, ticket))
        self._note(flow)
        self.steps += ["deliver %d" % cpu, "retire %d" % cpu]
        waiting = self.held.pop(cpu)
        while waiting:
            flow, ticket = waiting.pop(0)
            if ticket:
                self.held[cpu] = waiting
                self._in_hand(cpu, flow, ticket)
                return
            self._come(flow)
            self.steps += ["pull %d" % cpu, "deliver %d" % cpu, "retire %d" % cpu]
        with pair.on(cpu):
            pass

    def let_go(self):
        """Lets all processors go on, after a fault too."""
        for cpu, ticket in self.tickets.items():
            with pair.on(self.sender):
                self.made.send(frames.release(self.made.mac, cpu, ticket))

    def read(self, flow, cpu, moves=True):
        """Reads the socket of a flow on a processor until it is empty; how many frames it had.

        Where the reader `moves`, it is the plan's only one; else it stays at its processor.
        """
        count = 0
        with pair.on(cpu):
            with contextlib.suppress(BlockingIOError):
                while True:
                    self.sockets[flow].recv(2048)
                    count += 1
        self.steps += ["stand 0 %d" % cpu] * moves + ["record %d" % self.flows[flow]]
        return count

    def mask(self, queue, cpus):
        """Gives a receive queue another mask, while no processor is held."""
        self.made.write(1, {"queues/rx-%d/rps_cpus" % queue: processors.mask_text(cpus, 1)})
        self.steps.append("mask %d %s" % (queue, ",".join(map(str, cpus)) or "-"))

    def open(self, flow):
        """Gives a flow its socket."""
        self.sockets[flow] = self.made.connected(flow)
