"""The chain of programs held to the running kernel: each frame's processor over a veth pair."""

import collections
import contextlib
import functools
import os
import random
import unittest

import running  # noqa: F401

from live import card, chain, frames, moving, pair

TARGETS = moving.HERE
QUEUES = (1, 2, 3, 5, 8, 16)
FRAMES = 500
ENTRIES = (4096, 2, 4, 2)     # of flow tables
EVENTS = 600
LIMITS = (8, 12, 20)            # of netdev_max_backlog
FIGURES = []
TOGETHER = 40       # frames that are under way at once
TRIES = 3           # of a test that other programs may disturb


def setUpModule():
    """Skips all tests where there is no such pair, with the reason."""
    try:
        pair.check_wants()
        with contextlib.ExitStack() as leaving:
            leaving.enter_context(pair.alone())
            leaving.enter_context(pair.ended_well())
            leaving.enter_context(pair.urgent())
            with pair.Pair(1) as made, pair.on(pair.processors()[0]):
                flow = frames.Flow(frames.UDP, bytes(4), TARGETS[4], 1, 1)
                made.send(frames.frame(made.mac, flow, 0, 1))
                made.came(4)
            unittest.addModuleCleanup(leaving.pop_all().close)
    except (pair.Unavailable, OSError) as fault:
        raise unittest.SkipTest("the running kernel is not asked: %s" % fault) from None


def tearDownModule():
    """Shows the figures where they are asked for."""
    if os.environ.get("STEER_LIVE_FIGURES"):
        print("\n".join(FIGURES))


def of_the_machine(test):
    """A test that sets the machine; skipped where the settings cannot be had, or do not stay.

    Since other programs of the machine may disturb it, it is tried again where it fails, up to
    three times in all; the draws are the same then.
    """
    @functools.wraps(test)
    def guarded(self):
        figures = len(FIGURES)
        try:
            for _ in range(TRIES - 1):
                try:
                    return test(self)
                except AssertionError as fault:
                    FIGURES[figures:] = ["%s was tried again: %s" % (test.__name__, fault)]
            test(self)
        except (pair.Changed, pair.Unsettable) as fault:
            self.skipTest("a setting of the whole machine: %s" % fault)
    return guarded


def random_flows(draw, count, versions=(4, 6)):
    return [frames.random_flow(draw, version, draw.choice((frames.TCP, frames.UDP)),
                               TARGETS[version])
            for version in (draw.choice(versions) for _ in range(count))]


def sent_and_seen(made, machine, flows):
    """Sends a frame of each flow; the frames as they left, and their notes as they came."""
    left, came = [], {}
    for first in range(0, len(flows), TOGETHER):
        part = list(enumerate(flows))[first:first + TOGETHER]
        for number, flow in part:
            data, queue = machine.frame(made.mac, flow, number)
            with pair.on(machine.homes[queue]):
                made.send(data)
        for _, flow in part:
            left.append(made.left())
            note = made.came(4 if len(flow.source) == 4 else 6)
            came[note.number] = note
    return left, [came[number] for number in range(len(flows))]


class Kernel(unittest.TestCase):
    def compare(self, packets, notes, what):
        """The packets are the frames that came, each with the queue, the processor and the hash
        that its note has."""
        self.assertEqual(len(packets), len(notes))
        for packet in packets:
            note = notes[packet.id]
            self.assertEqual((packet.q + 1, packet.cpu, note.hash),
                             (note.recorded, note.cpu, note.seen), packet)
        reasons = collections.Counter(packet.why for packet in packets)
        FIGURES.append("%s: %d frames at the queue and the processor of the report (%s)" % (
            what, len(packets), ", ".join("%s %d" % reason for reason in sorted(reasons.items()))))

    def counted_alike(self, compared):
        """steer-compare shows no difference, but that processors may have handled and dropped more:
        the frames that release a processor, and packets of other devices."""
        status, out, err = compared
        self.assertIn(status, (0, 1), err)
        queues, cpus, limited = (part.splitlines() for part in out.split("\n\n"))
        self.assertEqual({row.split()[3] for row in queues[1:]}, {"0"}, out)
        for row in cpus[1:]:
            _, handled, counted, _, dropped, counted_drops = row.split()[:6]
            self.assertLessEqual(int(handled), int(counted), out)
            self.assertLessEqual(int(dropped), int(counted_drops), out)
        self.assertTrue(limited[0].endswith("difference 0"), out)

    def test_random_masks_and_queues(self):
        for number, queues in enumerate(QUEUES):
            draw = random.Random(number)
            machine = card.Machine(draw, queues, pair.processors())
            with pair.Pair(queues) as made:
                machine.set(made)
                plan = chain.plan_of(chain.snapshot(made, machine), machine)
                flows = random_flows(draw, FRAMES)
                left, came = sent_and_seen(made, machine, flows)
                report = chain.replayed(made.folder, plan, left)
                as_is = chain.replayed_as_is(made.folder)
            self.assertEqual([note.number for note in came], list(range(FRAMES)))
            self.compare(report.packets, came, "%d queues" % queues)
            FIGURES.append("%d queues, not rewritten: %d of them at the processor of the report" % (
                queues, sum(packet.cpu == note.cpu for packet, note in zip(as_is.packets, came))))

    @of_the_machine
    def test_readers_that_move(self):
        """Frames wait on processors that are held while their readers go elsewhere; in small
        tables flows share their entry."""
        for seed, entries in enumerate(ENTRIES):
            machine = moved(seed, entries)
            with machine.started(rps_sock_flow_entries=moving.ENTRIES) as played:
                machine.begin(played)
                machine.play(played, EVENTS)
                report = replayed(played, "rps_sock_flow_entries=%d" % moving.ENTRIES)
            self.compare(report.packets, played.notes, "flow tables of %d" % entries)

    def test_transmit_queues(self):
        """Replies leave by the queue of the report, where the sockets' random hashes are those
        that steer-remap drew."""
        for seed in range(3):
            draw = random.Random(seed)
            machine = card.Machine(draw, draw.choice((2, 4, 7)), pair.processors())
            flows = random_flows(draw, FRAMES // 3, versions=(4,))
            with pair.Pair(machine.queues) as made:
                machine.set(made)
                machine.set_transmit(draw, made)
                plan = chain.plan_of(chain.snapshot(made, machine), machine,
                                     "apps=" + ",".join(map(str, machine.cpus)))
                left, _ = sent_and_seen(made, machine, flows)
                report = chain.replayed(made.folder, plan, left, "--tx")
                self.assertEqual(len(report.replies), len(flows))
                for reply in report.replies:
                    data = frames.frame(made.mac, flows[reply.id], reply.id,
                                        chain.hash_of_replies(left[reply.id]))
                    with pair.on(reply.cpu):
                        self.assertEqual(made.reply(data), reply.tx, reply)
            FIGURES.append("%d transmit queues: %d replies by the queue of the report"
                           % (machine.queues + 1, len(flows)))

    @of_the_machine
    def test_readers_by_port(self):
        """Each port is read on one processor, as steer-remap is told."""
        machine = moved(3, 4)
        readers = {flow: machine.draw.choice(machine.cpus) for flow in machine.flows}
        words = [word for flow, cpu in readers.items()
                 for word in ("--reader", "%d=%d" % (flow.dport, cpu))]
        with machine.started(rps_sock_flow_entries=moving.ENTRIES) as played:
            for flow in machine.flows:
                played.open(flow)
            for flow in machine.draw.choices(machine.flows, k=EVENTS // 4):
                played.send(flow)
                played.read(flow, readers[flow], moves=False)
            plan = chain.plan_of(chain.snapshot(played.made, machine.machine), machine.machine,
                                 "apps=" + ",".join(map(str, machine.cpus)),
                                 "rps_sock_flow_entries=%d" % moving.ENTRIES)
            report = chain.replayed(played.made.folder, chain.with_steps(plan, played.steps),
                                    played.left, *words)
        self.compare(report.packets, played.notes, "readers by port")

    @of_the_machine
    def test_masks_that_change(self):
        """Each steered queue gets other masks twice, while readers move in between."""
        machine = moved(7, 4)
        with machine.started(rps_sock_flow_entries=moving.ENTRIES) as played:
            before = chain.snapshot(played.made, machine.machine)
            machine.begin(played)
            for _ in range(2):
                machine.play(played, EVENTS // 4)
                machine.change_masks(played)
                for flow in machine.strangers(EVENTS // 20):
                    played.send(flow)
            report = replayed(played, "rps_sock_flow_entries=%d" % moving.ENTRIES, text=before)
        self.compare(report.packets, played.notes, "masks that change")

    @of_the_machine
    def test_full_backlogs(self):
        """The same frames are dropped, one more than the limit waiting, and column 1 of
        softnet_stat has them at the processors at which the report has them."""
        drops = 0
        for seed, limit in enumerate(LIMITS):
            machine = moved(seed, 0)
            with machine.started(netdev_max_backlog=limit) as played:
                before = chain.snapshot(played.made, machine.machine)
                machine.play(played, EVENTS, reads=False)
                after = chain.snapshot(played.made, machine.machine)
                report = replayed(played, "netdev_max_backlog=%d" % limit)
                compared = chain.compared(played.made.folder, before, after)
            dropped = {packet.id: packet.cpu for packet in report.packets
                       if packet.place == "drop"}
            self.assertEqual(dropped, played.drops)
            drops += len(dropped)
            self.compare([packet for packet in report.packets if packet.id not in dropped],
                         played.notes, "limit %d, %d drops" % (limit, len(dropped)))
            self.counted_alike(compared)
        self.assertGreater(drops, 0)


def moved(seed, count):
    """A machine of this seed whose flow tables have `count` entries."""
    return moving.Moving(random.Random(seed), pair.processors(), count, chain.has_hash_32())


def replayed(played, *settings, text=None):
    """The report of what was played, in the plan of its machine with settings of steer-set.

    `text` is the snapshot, where one of afterwards is not that of the beginning.
    """
    plan = chain.plan_of(text or chain.snapshot(played.made, played.machine), played.machine,
                         "apps=0", *settings)
    return chain.replayed(played.made.folder, chain.with_steps(plan, played.steps), played.left)


class Differences(unittest.TestCase):
    """Where docs/kernel.md says that a kernel does otherwise, both do as it says."""

    @of_the_machine
    def test_a_second_queue(self):
        """Behind a frame in hand, `limit` frames wait in the queue that does not count, and of 16
        more the kernel takes one more than the limit; in a replay they count, and one has room."""
        for seed, limit in enumerate(LIMITS[:2]):
            machine = moved(seed, 0)
            cpu, burst = machine.others[0], 16
            flow = machine.holders[cpu]
            with machine.started(netdev_max_backlog=limit) as played:
                for _ in range(2):
                    played.hold(cpu, flow)
                for _ in range(limit):
                    played.send(flow)
                self.assertEqual(len(played.drops), 0)
                played.release(cpu)
                for _ in range(burst):
                    played.send(flow)
                played.release(cpu)
                report = replayed(played, "netdev_max_backlog=%d" % limit)
            drops = sum(row.dropped for row in report.cpus)
            self.assertEqual((len(played.drops), drops), (burst - (limit + 1), burst - 1))
            FIGURES.append("second queue, limit %d: of %d frames the kernel took %d, a replay %d"
                           % (limit, burst, burst - len(played.drops), burst - drops))

    @of_the_machine
    def test_a_head_that_lags(self):
        """A frame of the flow was handled, and the processor goes on with one that waited behind
        it: from 6.12 on the head has not grown yet, and the flow is kept."""
        machine = moved(0, 4096)
        cpus = {}
        with machine.started(rps_sock_flow_entries=moving.ENTRIES) as played:
            for flow in machine.flows:
                cpu, other = machine.held_and_other()
                played.open(flow)
                played.send(flow)
                played.read(flow, cpu)
                played.send(flow)
                played.hold(cpu, machine.holders[cpu])
                played.send(flow)
                played.hold(cpu, machine.holders[cpu])
                played.release(cpu)
                played.read(flow, other)
                played.send(flow)
                cpus[len(played.left) - 1] = cpu, other
                played.release(cpu)
            report = replayed(played, "rps_sock_flow_entries=%d" % moving.ENTRIES)
        kept = chain.release() >= (6, 12)
        self.differ(report, played, {number: ((cpu if kept else other), other, "passed")
                                     for number, (cpu, other) in cpus.items()})
        FIGURES.append("a head that lags: %d flows, kept in the kernel: %s" % (len(cpus), kept))

    @of_the_machine
    def test_a_first_reader(self):
        """Frames that RPS sent still wait when the flow's first reader is seen elsewhere: the
        kernel moves the flow, and a replay waits for them."""
        machine = moved(0, 4096)
        cpus = {}
        with machine.started(rps_sock_flow_entries=moving.ENTRIES) as played:
            for flow in machine.flows:
                played.open(flow)
                cpu = played.send(flow)
                if cpu == machine.sender:
                    continue
                _, other = machine.held_and_other(cpu)
                played.hold(cpu, machine.holders[cpu])
                for _ in range(2):
                    played.send(flow)
                played.read(flow, other)
                played.send(flow)
                cpus[len(played.left) - 1] = cpu, other
                played.release(cpu)
            report = replayed(played, "rps_sock_flow_entries=%d" % moving.ENTRIES)
        self.assertGreater(len(cpus), 0)
        self.differ(report, played, {number: (other, cpu, "kept")
                                     for number, (cpu, other) in cpus.items()})
        FIGURES.append("a first reader: the kernel moved %d flows" % len(cpus))

    @of_the_machine
    def test_a_shared_entry(self):
        """Two flows share an entry of the socket table. Where the other one was read last, the
        kernel sees that and takes RPS; a replay takes that one's reader."""
        frames_sent = 0
        for seed in range(3):
            machine = moved(seed, 2)
            first = machine.flows[0]
            second = machine.alike(first, 64)
            cpus, choices = {}, {}
            with machine.started(rps_sock_flow_entries=64) as played:
                for flow in (first, second):
                    played.open(flow)
                    choices[flow] = played.send(flow)
                for of, sent in ((first, second), (second, first)):
                    _, other = machine.held_and_other(choices[sent])
                    played.read(of, other)
                    played.send(sent)
                    cpus[len(played.left) - 1] = choices[sent], other
                report = replayed(played, "rps_sock_flow_entries=64")
            self.differ(report, played, {
                number: (*both, report.packets[number].why) for number, both in cpus.items()})
            frames_sent += len(cpus)
        FIGURES.append("a shared entry: %d frames by RPS in the kernel" % frames_sent)

    def differ(self, report, played, expected):
        """Each frame is on one processor, but for these: the kernel's, the replay's, and why."""
        for packet in report.packets:
            cpu = played.notes[packet.id].cpu
            wanted = expected.get(packet.id, (packet.cpu, packet.cpu, packet.why))
            self.assertEqual((cpu, packet.cpu, packet.why), wanted, packet)

    @of_the_machine
    def test_a_flow_limit(self):
        """A burst of one flow. The kernel looks at the last 128 frames that came from half the
        limit on, and drops what has more than 64 of them; a replay has 256 and 128, and looks at
        all. The kernel counts in column 10 at the processor that puts."""
        machine = moved(0, 0)
        cpu, limit, burst = machine.others[0], 200, 300
        flow = machine.holders[cpu]
        with machine.started(netdev_max_backlog=limit,
                             flow_limit_cpu_bitmap="%x" % (1 << machine.sender)) as played:
            before = pair.waiting()
            played.hold(cpu, flow)
            for _ in range(burst):
                played.send(flow)
            after = pair.waiting()
            played.release(cpu)
            report = replayed(played, "netdev_max_backlog=%d" % limit,
                              "flow_limit_cpu_bitmap=%x" % (1 << machine.sender))
        taken = limit // 2 + 64
        self.assertEqual(list(played.drops), list(range(1 + taken, 1 + burst)))
        grown = {one: (after[one].dropped - before[one].dropped,
                       after[one].limited - before[one].limited) for one in after}
        self.assertEqual((grown[cpu], grown[machine.sender]),
                         ((burst - taken, 0), (0, burst - taken)))
        self.assertEqual([packet.id for packet in report.packets
                          if packet.flow_offers is not None], list(range(128, 1 + burst)))
        FIGURES.append("flow limit, netdev_max_backlog %d: of %d frames of one flow the kernel "
                       "took %d, a replay %d" % (limit, burst, taken, 127))


if __name__ == "__main__":
    unittest.main()
