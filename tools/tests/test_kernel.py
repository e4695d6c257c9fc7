"""The kernel's rule as functions, and what a remap is made of; values by hand or published."""

import random
import unittest

import kernels
import running  # noqa: F401

from steerlib import frames, kernel, pairs, readers, sizes, snapshot, steering, toeplitz

KEY = bytes.fromhex(kernels.KEY)
# Of Microsoft's verification suite for the RSS hash: bytes, hash.
VERIFIED = (("420995bba18e64500aea06e6", 0x51ccc178), ("c75c6f0241458c5337961283", 0xc626b0ea),
            ("420995bba18e6450", 0x323e8fc2), ("c75c6f0241458c53", 0xd718262a))


class Rule(unittest.TestCase):
    def test_scaling(self):
        for value, size, index in ((0, 4, 0), (0x3fffffff, 4, 0), (0x40000000, 4, 1),
                                   (0xffffffff, 4, 3), (0x51ccc178, 4, 1), (0x55555555, 3, 0),
                                   (0x55555556, 3, 1), (0xffffffff, 1, 0)):
            self.assertEqual(kernel.scaled(value, size), index, (value, size))

    def test_hash_32_is_the_golden_ratio(self):
        # 2^32 divided by the square of the golden ratio, to the next whole number.
        self.assertEqual(round(2 ** 32 / ((1 + 5 ** 0.5) / 2) ** 2), 1640531527)
        self.assertEqual(kernel.hash_32(1, 32), 1640531527)
        self.assertEqual([kernel.hash_32(1, bits) for bits in (0, 1, 4, 8)], [0, 0, 6, 0x61])
        self.assertEqual(kernel.hash_32(2, 8), 0xc3)

    def test_the_processor_of_a_hash(self):
        members = kernel.mask_members([6, 5, 7, 4, 5], {4, 6, 7})
        self.assertEqual(members, [4, 6, 7])
        for value, cpu in ((None, None), (0, None), (1, 4), (0x55555556, 6), (0xffffffff, 7)):
            self.assertEqual(kernel.rps_choice(value, members), cpu, value)
        self.assertIsNone(kernel.rps_choice(5, []))

    def test_tables(self):
        self.assertEqual([kernel.rounded_up(size) for size in (0, 1, 2, 3, 5, 100, 4096)],
                         [0, 1, 2, 4, 8, 128, 4096])
        self.assertEqual(kernel.table_queue(0x51ccc178, list(range(256))), 0x78)
        self.assertEqual(kernel.table_queue(1000, list(range(48))), 40)
        self.assertEqual(kernel.table_queue(None, [3]), 0)
        self.assertEqual(kernel.flow_entry(0x51ccc178, 200), 0x78)
        self.assertEqual(kernel.socket_entry(0x51ccc178, 1024), 0x178)
        self.assertEqual(kernel.limit_bucket(0x51ccc178), 0x178)

    def test_the_maps_of_xps(self):
        of_queues, of_cpus = [{0}, {0, 1}, set()], [set(), {5}, {5, 6}]
        for queue, cpu, found in ((0, 5, [0, 1]), (1, 6, [1]), (2, 5, [1, 2]), (2, 6, [2]),
                                  (2, 7, [0, 1, 2])):
            self.assertEqual(kernel.transmit_map(queue, cpu, of_queues, of_cpus), found)
        self.assertEqual(kernel.transmit_choice(0xc0000000, [2, 5, 6, 9]), 9)

    def test_both_directions_have_one_hash_of_the_kernel(self):
        there = kernel.software_key("4", [b"\x0a\0\0\1", b"\x0a\0\0\2"], [40000, 53], 17)
        back = kernel.software_key("4", [b"\x0a\0\0\2", b"\x0a\0\0\1"], [53, 40000], 17)
        self.assertEqual(there, back)
        self.assertEqual(kernel.drawn_hash(1, there), kernel.drawn_hash(1, back))
        self.assertNotEqual(kernel.drawn_hash(1, there), kernel.drawn_hash(2, there))

    def test_drawn_hashes_are_even(self):
        counts = [0] * 4
        for number in range(4000):
            counts[kernel.scaled(kernel.drawn_hash(9, b"%d" % number), 4)] += 1
        self.assertTrue(all(900 < count < 1100 for count in counts), counts)


class Hash(unittest.TestCase):
    def test_published_hashes(self):
        made = toeplitz.Toeplitz(KEY)
        for digits, value in VERIFIED:
            self.assertEqual(made.hash(bytes.fromhex(digits)), value)

    def test_each_difference_can_be_had(self):
        draw = random.Random(7)
        made = toeplitz.Toeplitz(KEY)
        for length, bits in ((12, [*range(32), *range(64, 80)]), (8, range(64)),
                             (36, [*range(96, 128), *range(256, 272)])):
            solver = toeplitz.Solver(made, bits, length)
            allowed = sum(1 << 8 * length - 1 - bit for bit in bits)
            for _ in range(50):
                data, wanted = draw.getrandbits(8 * length), draw.getrandbits(32)
                change = solver.change(wanted) ^ solver.unseen(draw.getrandbits(16))
                self.assertEqual(change & ~allowed, 0)
                hashes = [kernels.toeplitz(kernels.KEY, number.to_bytes(length, "big"))
                          for number in (data, data ^ change)]
                self.assertEqual(hashes[0] ^ hashes[1], wanted)

    def test_a_key_of_one_pattern_does_not_reach_all(self):
        solver = toeplitz.Solver(toeplitz.Toeplitz(b"\x6d\x5a" * 20), range(48), 12)
        self.assertEqual(solver.rank, 16)


class Sizes(unittest.TestCase):
    def test_sizes(self):
        cases = (({"a": range(5, 32, 2), "b": range(5, 32, 2)}, 100, {5, 7}),
                 ({"a": [3], "b": range(9, 32, 2)}, 100, {3, 11}),
                 ({"a": [15], "b": [5, 9, 21, 7]}, 200, {15, 7}))
        for choices, room, found in cases:
            chosen = sizes.chosen_sizes(choices, {frozenset("ab")}, room)
            self.assertEqual(set(chosen.values()), found)
        for choices, room in (({"a": [3], "b": [9, 15]}, 100), ({"a": [5], "b": [7]}, 34)):
            with self.assertRaises(sizes.NoSizes):
                sizes.chosen_sizes(choices, {frozenset("ab")}, room)

    def test_remainders(self):
        residues = sizes.Residues([5, 7, 9], 16)
        draw = random.Random(3)
        for _ in range(100):
            low, near = draw.getrandbits(16), draw.getrandbits(16)
            wanted = [draw.randrange(size) for size in (5, 7, 9)]
            number = residues.high(low, wanted, near) << 16 | low
            self.assertEqual([number % size for size in (5, 7, 9)], wanted)
            self.assertLess(number, 2 ** 32)

    def test_pairs(self):
        self.assertEqual(pairs.compared([1, 1, 1, 2], [1, 1, 2, 2]), (2, 1))
        self.assertEqual(pairs.compared([1, 2, 3], [4, 5, 6]), (0, 0))


class Frames(unittest.TestCase):
    def test_flows_are_those_of_steer(self):
        draw = random.Random(11)
        for _ in range(3):
            traffic = kernels.Traffic(draw, 150, 60)
            traffic.frames += [data[:draw.randrange(len(data) + 1)] for data in traffic.frames]
            self.compare(traffic)

    def compare(self, traffic):
        import reporting
        traffic.draw = random.Random(1)
        with reporting.Folder() as folder:
            name = folder.write("a.pcap", traffic.pcap())
            lines = running.steer("hash", name)[1].splitlines()
        for data, line in zip(traffic.frames, lines):
            self.assertEqual(self.text(data), line.split(" hash ")[0].split(" ", 2)[2])

    def text(self, data):
        place = frames.place_of(data)
        if place is None:
            return "none"
        made = frames.tuple_of(data, place)
        self.assertEqual(frames.with_tuple(data, place, made), data)
        length = 4 if place.kind[-1] == "4" else 16
        words = [place.kind, made[:length].hex(), made[length:2 * length].hex()]
        words += ["%d" % int.from_bytes(made[at:at + 2], "big")
                  for at in range(2 * length, len(made), 2)]
        return " ".join(words)


FLOW = bytes.fromhex("0a000002" "0a000001" "9c40" "0050")
FLOW_6 = bytes(15) + b"\2" + bytes(15) + b"\1" + bytes.fromhex("9c400050")


class Readers(unittest.TestCase):
    def test_what_an_operator_says(self):
        for text, kind, flow, cpu in (
                ("80=3", "tcp4", FLOW, 3), ("40000=3", "tcp4", FLOW, None),
                ("80=3", "two4", FLOW[:8], None), ("10.0.0.2=5", "tcp4", FLOW, 5),
                ("10.0.0.0/24=5", "two4", FLOW[:8], 5), ("10.0.1.0/24=5", "tcp4", FLOW, None),
                ("::2=1", "udp6", FLOW_6, 1), ("::/120=1", "udp6", FLOW_6, 1),
                ("10.0.0.2=5", "udp6", FLOW_6, None)):
            self.assertEqual(readers.told(text).cpu_of(kind, flow), cpu, text)

    def test_sockets(self):
        snap = snapshot.parse(running.sample_text("sockets.snap"), "sockets.snap")
        found = readers.of_snapshot(snap)
        for kind, flow, cpu in (
                ("tcp4", FLOW, 6),                                      # established, may run on 6
                ("tcp4", FLOW[:8] + b"\x9c\x41\x00\x50", 2),           # the one that listens
                ("udp4", FLOW[:8] + b"\x9c\x40\x00\x35", 7),           # bound to its address
                ("udp4", FLOW[:4] + b"\x0a\0\0\x09" + b"\x9c\x40\x00\x35", None),
                ("tcp6", FLOW_6[:-2] + b"\x01\xbb", 2), ("tcp4", FLOW[:-2] + b"\x01\xbb", 2),
                ("tcp4", FLOW[:-2] + b"\x00\x16", None)):
            self.assertEqual(found.cpu_of(kind, flow), cpu, flow)


class Card(unittest.TestCase):
    def test_rules_and_contexts(self):
        to_7 = {"kind": "tcp4", "dport": 80, "dportmask": 0xffff, "queue": 7}
        net = {"kind": "ip4", "src": "0a000000", "srcmask": "ffffff00", "queue": 2, "context": 1}
        contexts = {1: steering.Context([0, 1, 2, 3], None)}
        card = steering.Card([5], [to_7, net], contexts)
        self.assertEqual(card.highest(), 7)
        for kind, flow, value, queue in (("tcp4", FLOW, 9, 7), ("udp4", FLOW, 9, 3),
                                         ("two4", FLOW[:8], 6, 4), ("tcp6", FLOW_6, 1, 5),
                                         ("two4", FLOW[:8], None, 2)):
            self.assertEqual(card.lead(kind, flow, value, flow), (queue, value))

    def test_the_key_of_a_context(self):
        net = {"kind": "ip4", "queue": 0, "context": 1}
        card = steering.Card([5], [net], {1: steering.Context([0, 1], lambda data: 3)})
        self.assertEqual(card.lead("tcp4", FLOW, 8, FLOW), (1, 3))


if __name__ == "__main__":
    unittest.main()
