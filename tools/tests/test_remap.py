"""steer-remap: the choices of a kernel, held to a reference of its own."""

import json
import os
import random
import struct
import unittest

import kernels
import reporting
import running
from running import example, sample

from steerlib import cli, flows, plan, remap, remap_check, remap_files, report, toeplitz

# How many random machines are tried; STEER_REMAP_CASES=1000 tries a thousand.
CASES = int(os.environ.get("STEER_REMAP_CASES", "20"))
SWEEP = {"sock": 0, "filters": 0, "limited": [], "backlog": 65536, "steps": ["sweep"]}


def ran(folder, plan, capture, *words):
    """Status and messages of steer-remap, and the names of what it writes."""
    names = folder.path("new.json"), folder.path("new.pcap")
    status, _, messages = running.inside("steer-remap", plan, capture, "--plan", names[0],
                                         "--capture", names[1], *words)
    return status, messages, names


def swept(folder, plan_name, capture):
    """The report of a plan with one sweep and without RFS, and the plan."""
    with open(plan_name, encoding="utf-8") as stream:
        plan = json.load(stream)
    plain = dict(plan, **SWEEP)
    plain["queues"] = [dict(queue, flows=0) for queue in plan["queues"]]
    return report.read_file(folder.replay(plain, capture)), plan


class RandomMachines(unittest.TestCase):
    """Each choice is the kernel's in every packet, or the refusal is right."""

    def test_each_packet_is_where_a_kernel_has_it(self):
        done = refused = 0
        self.packets = 0
        with reporting.Folder() as folder:
            for seed in range(CASES):
                with self.subTest(seed=seed):
                    if self.one(folder, seed):
                        done += 1
                    else:
                        refused += 1
        if CASES > 100:
            print("%d machines, %d packets as a kernel, %d refused"
                  % (done, self.packets, refused))
        self.assertGreater(done, refused)

    def one(self, folder, seed):
        machine = kernels.Machine(seed)
        traffic = kernels.Traffic(machine.draw, machine.draw.choice((30, 120)), 40)
        kernel = kernels.Kernel(machine, traffic.of)
        plan = folder.write("old.json", json.dumps(machine.plan()).encode())
        capture = folder.write("old.pcap", traffic.pcap())
        snap = folder.write("snap", machine.snapshot().encode())
        status, messages, names = ran(folder, plan, capture, *machine.words(snap))
        if status == cli.REFUSED:
            self.assertTrue(kernel.may_be_refused(), messages)
            return False
        self.assertEqual(status, cli.DONE, messages)
        self.compare(folder, names, machine, traffic, kernel)
        return True

    def compare(self, folder, names, machine, traffic, kernel):
        rep, plan = swept(folder, *names)
        replies = {reply.id: reply.pick for reply in rep.replies}
        self.assertEqual(len(rep.packets), len(traffic.of))
        for packet, flow in zip(rep.packets, traffic.of):
            want = kernel.expected(flow)
            tx = None if want.tx is None else replies[packet.id]
            self.assertEqual(kernels.Expected(packet.q, packet.cpu, plan["apps"][packet.app], tx),
                             want, (packet.id, flow))
        self.packets += len(rep.packets)
        self.same_packets(traffic, names[1])

    def same_packets(self, traffic, name):
        """Numbers and lengths are the old ones, and each flow is one, and another than all."""
        frames = remap_files.frames_of(name, name)
        self.assertEqual([len(frame.data) for frame in frames], [len(d) for d in traffic.frames])
        made = {}
        for line, flow in zip(running.steer("hash", name)[1].splitlines(), traffic.of):
            text = line.split(" hash ")[0].split(" ", 2)[2]
            made.setdefault(text, set()).add(flow if flow.version else 0)
        self.assertTrue(all(len(flows) == 1 for flows in made.values()))
        self.assertEqual(len(made), len({flow if flow.version else 0 for flow in traffic.of}))


WEB = example("web.pcap")
SNAP = example("eth0.snap")


def plan_of_snap(folder, name="plan.json", **changes):
    """The plan of the example's machine, with changes; the name of its file."""
    made = json.loads(running.inside("steer-plan", SNAP, "--apps", "8-11")[1])
    made.update(changes)
    return folder.write(name, json.dumps(made).encode())


FLOW = bytes.fromhex("0a0000020a0000019c400050")


def pcap(frames):
    """These frames as a pcap file."""
    return struct.pack("<IHHIIII", 0xa1b2c3d4, 2, 4, 0, 0, 65535, 1) + b"".join(
        struct.pack("<IIII", number, 0, len(data), len(data)) + data
        for number, data in enumerate(frames))


def hashes_of(name):
    """The hash of each packet, None without one, by the verification key, and its flow."""
    lines = running.steer("hash", name, "8", "63")[1].splitlines()[:-1]
    return [(None if " hash - " in line else int(line.split(" hash ")[1].split()[0], 16),
             line.split(" hash ")[0].split(" ", 2)[2]) for line in lines]


def scaled_processors(members):
    """The processor of each packet of the example by scaling; None without a hash of the card."""
    return [None if value is None or flow.startswith("udp") else
            members[kernels.scaled(value, len(members))] for value, flow in hashes_of(WEB)]


class Program(unittest.TestCase):
    """The program, and --kernel of steer-steps and steer-try, over the example."""

    def test_low_bits_stay(self):
        with reporting.Folder() as folder:
            old = plan_of_snap(folder)
            status, messages, (name, capture) = ran(folder, old, WEB)
            self.assertEqual(status, cli.DONE, messages)
            reports = [report.read_file(folder.replay(json.loads(cli.read_text(each)), source))
                       for each, source in ((old, WEB), (name, capture))]
            for before, after, cpu in zip(reports[0].packets, reports[1].packets,
                                          scaled_processors([4, 5, 6, 7])):
                if cpu is not None:
                    self.assertEqual((before.q, before.class_, before.app),
                                     (after.q, after.class_, after.app))
            entries = {value % 32768 for value, flow in hashes_of(WEB) if flow.startswith("tcp")}
            for each in reports:
                self.assertLessEqual(entries, {row.entry for row in each.writes})

    def test_hash_32_keeps_classes_apart(self):
        with reporting.Folder() as folder:
            draw = random.Random(4)
            traffic = kernels.Traffic(draw, 900, 300)
            capture = folder.write("a.pcap", traffic.pcap())
            old = plan_of_snap(folder, kinds=63, sock=65536)
            status, messages, (name, new) = ran(folder, old, capture, "--hash32")
            self.assertEqual(status, cli.DONE, messages)
            self.assertNotIn("share a class", messages)
            rep = report.read_file(folder.replay(json.loads(cli.read_text(name)), new))
            here, there = {}, {}
            for packet, (value, flow) in zip(rep.packets, hashes_of(capture)):
                if value is not None and not flow.startswith("two"):
                    index = (value * 0x61C88647 & 0xffffffff) >> 20
                    here.setdefault((packet.q, packet.class_), set()).add(flow)
                    there.setdefault((packet.q, index), set()).add(flow)
            self.assertTrue(set(map(frozenset, there.values())) <= set(
                map(frozenset, here.values())))

    def test_refusals(self):
        tx = [{"cpus": [], "queues": []}]
        whole = list(range(32))
        one = [{"home": 0, "mask": whole, "flows": 0}]
        two = [{"home": 0, "mask": list(range(size)), "flows": 32768}
               for size in (31, 29, 27, 25)]
        for changes, words, text in (
                (dict(cpus=32, queues=one, apps=[0], tx=tx, reta=[0] * 128), (),
                 "a mask of 32 has no spare member: a plan has at most 32; one of 31 fits"),
                (dict(cpus=32, queues=two, apps=[0], tx=tx, filters=1, sock=65536), (),
                 "no odd sizes without a common divisor have a product of at most 65536"),
                (dict(tx=tx * 32), ("--tx",), "a transmit map of 32 has no spare member"),
                (dict(steps=["xcpus 0 1"]), ("--tx",), "it fits without --tx"),
                (dict(steps=["reta 3 1"]), ("--hash32",), "it fits without these steps"),
                (dict(apps=[0] * 32), ("--reader", "80=9"), "they are on 1 processors beside the "
                 "plan's 32 readers, and a plan has at most 32; it fits with fewer readers in the "
                 "plan"),
                (dict(apps=[0] * 31), ("--reader", "80=9"), "it fits with 31 readers in all"),
                (dict(cpus=32, queues=two[:3], apps=[0] * 25, tx=tx, filters=1, sock=65536), (),
                 "it fits with masks of one number of members or with 8 readers in all")):
            with self.subTest(text), reporting.Folder() as folder:
                name = folder.path("new.json")
                plan_name = plan_of_snap(folder, **changes)
                status, messages, _ = ran(folder, plan_name, WEB, *words)
                self.assertEqual(status, cli.REFUSED, messages)
                self.assertIn(text, messages)
                self.assertFalse(os.path.exists(name))

    def test_what_is_said_to_fit_does(self):
        """The readers of two of the refusals, as many as they name, and one more."""
        tx = [{"cpus": [], "queues": []}]
        queues = [{"home": 0, "mask": list(range(size)), "flows": 32768} for size in (31, 29, 27)]
        for changes, words, fits in (
                ({}, ("--reader", "80=9"), 30),     # and the one that is told
                (dict(cpus=32, queues=queues, tx=tx, filters=1, sock=65536), (), 8)):
            for count, wanted in ((fits, cli.DONE), (fits + 1, cli.REFUSED)):
                with self.subTest(count), reporting.Folder() as folder:
                    status, messages, _ = ran(
                        folder, plan_of_snap(folder, apps=[0] * count, **changes), WEB, *words)
                    self.assertEqual(status, wanted, messages)

    def test_notes(self):
        ethernet = bytes(12) + b"\x08\x00"
        gre = ethernet + bytes.fromhex("4500002400000000402f0000") + FLOW[:8] + bytes(16)
        solver = toeplitz.Solver(toeplitz.Toeplitz(bytes.fromhex(kernels.KEY)), range(32, 96), 12)
        value = kernels.toeplitz(kernels.KEY, FLOW)
        zero = (int.from_bytes(FLOW, "big") ^ solver.change(value)).to_bytes(12, "big")
        self.assertEqual(kernels.toeplitz(kernels.KEY, zero), 0)
        none = ethernet + bytes.fromhex("450000280000000040060000") + zero + bytes(16)
        off = cli.read_text(SNAP).replace("receive-hashing: on", "receive-hashing: off")
        rows = "".join("| %5d: %s\n" % (at, " 0 1 2 3 4 5 6 7" if at % 16 else " 7 6 5 4 3 2 1 0")
                       for at in range(0, 200, 8))
        head = "| RX flow hash indirection table for eth0 with 8 RX ring(s):\n"
        table = "steer-snap 1\ndev eth0\ncpus online 0-15\n" + "".join(
            "rx %d rps_cpus 00\ntx %d xps_cpus 00\n" % (queue, queue) for queue in range(8))
        table += "cmd ethtool -x eth0\n" + head + rows + "end\n"
        for changes, frames, snap, text in (
                ({}, [gre], None, "into which a kernel looks and this program does not: 1 packet"),
                ({}, [none], None, "the hash 0, which a kernel takes as none: 1 packet"),
                ({}, [bytes(60)], None, "one processor of the mask of queue 0 gets them"),
                (dict(key="6d5a" * 20), None, None, "the new plan has the verification key"),
                (dict(cpus=16, steps={"seed": 1, "count": 9}, apps=[1] * 5,
                      queues=[{"home": 0, "mask": list(range(15)), "flows": 0}] * 8), None, None,
                 "the seed gives other steps here"),
                ({}, None, off, "receive-hashing is off"),
                (dict(reta=[3] * 128), None, table, "its table is not that of the plan"),
                (dict(sock=256, reta=[7, 6, 5, 4, 3, 2, 1, 0, *range(8)] * 8),
                 kernels.Traffic(random.Random(1), 400, 400).frames, table,
                 "pairs of flows that share an entry of the socket table: ")):
            with self.subTest(text), reporting.Folder() as folder:
                capture = WEB if frames is None else folder.write("a.pcap", pcap(frames))
                words = ["--snap", folder.write("snap", snap.encode())] if snap else []
                status, messages, _ = ran(folder, plan_of_snap(folder, **changes), capture, *words)
                self.assertEqual(status, cli.DONE, messages)
                self.assertIn(text, messages)

    def test_notes_on_a_capture(self):
        """A record that is cut is left out, and blocks that steer passes over."""
        whole = cli.read_bytes(WEB)
        first = struct.unpack_from("<I", whole, 32)[0]
        obsolete = struct.pack("<HHIIII", 0, 0, 0, 0, 60, 60) + bytes(60)
        blocks = struct.pack("<IIIHHqI", 0x0a0d0d0a, 28, 0x1a2b3c4d, 1, 0, -1, 28)
        blocks += struct.pack("<IIHHII", 1, 20, 1, 0, 0, 20)
        for kind, body in ((2, obsolete), (6, struct.pack("<IIIII", 0, 0, 0, 60, 60) + bytes(60))):
            size = struct.pack("<I", len(body) + 12)
            blocks += struct.pack("<I", kind) + size + body + size
        for data, packets, text in (
                (whole[:40 + first + 20], 1, "the last record is cut and left out: 20 bytes of it "
                                             "are there"),
                (blocks, 1, "1 obsolete packet blocks are left out, since steer passes them over")):
            with self.subTest(text), reporting.Folder() as folder:
                status, messages, (_, new) = ran(folder, plan_of_snap(folder),
                                                 folder.write("a", data))
                self.assertEqual(status, cli.DONE, messages)
                self.assertIn("note: %s\n" % text, messages)
                self.assertTrue(running.steer("hash", new)[1].endswith("packets %d\n" % packets))

    def test_wrong_words(self):
        for words, text in ((("--reader", "80"), "not PORT=CPU"), (("--reader", "x=1"), "`x`"),
                            (("--reader", "80=16"), "the plan has 0 to 15"),
                            (("--online", "0-16"), "0 to 15"), (("--sockets",), "needs --snap"),
                            (("--capture", WEB), "cannot be written")):
            with self.subTest(words), reporting.Folder() as folder:
                status, messages, _ = ran(folder, plan_of_snap(folder), WEB, *words)
                self.assertEqual(status, cli.WRONG_WORDS, messages)
                self.assertIn(text, messages)

    def test_sockets_need_their_section(self):
        with reporting.Folder() as folder:
            status, messages, _ = ran(folder, plan_of_snap(folder), WEB, "--snap", SNAP,
                                      "--sockets")
            self.assertEqual(status, cli.REFUSED)
            self.assertIn("steer-snap --readers", messages)
            snap = folder.write("with", cli.read_bytes(SNAP)[:-4] + cli.read_bytes(
                sample("sockets.snap")).split(b"tx 0 xps_cpus 00\n")[1])
            status, messages, (name, capture) = ran(folder, plan_of_snap(folder), WEB, "--snap",
                                                    snap, "--sockets")
            self.assertEqual(status, cli.DONE, messages)
            rep, made = swept(folder, name, capture)
            readers = {made["apps"][packet.app] for packet, (_, flow) in zip(
                rep.packets, hashes_of(WEB)) if flow.endswith(" 80")}
            self.assertEqual(readers, {2})      # the process that listens ran last on 2

    def test_names_are_those_of_the_old_capture(self):
        with reporting.Folder() as folder:
            status, _, (name, capture) = ran(folder, plan_of_snap(folder), WEB)
            made = folder.replay(json.loads(cli.read_text(name)), capture)
            hashes = folder.write("hash", running.steer("hash", WEB)[1].encode())
            status, out, _ = running.inside("steer-top", made, hashes)
            self.assertEqual(status, cli.DONE)
            self.assertIn("tcp4 10.0.0.11:40001 > 10.0.0.1:80", out)
            new = folder.write("new", running.steer("hash", capture)[1].encode())
            old_flows, new_flows = flows.read_file(hashes), flows.read_file(new)
            self.assertEqual(len(set(old_flows)), len(set(zip(old_flows, new_flows))))
            self.assertEqual(len(set(old_flows)), len(set(new_flows)))

    def test_steps_by_the_kernel(self):
        with reporting.Folder() as folder:
            name = plan_of_snap(folder, sock=0, backlog=16)
            capture = folder.path("k.pcap")
            status, out, messages = running.inside(
                "steer-steps", name, WEB, "--pps", "20000", "--speed", "100", "--kernel",
                "--capture", capture)
            self.assertEqual(status, cli.DONE, messages)
            rep = report.read_file(folder.replay(json.loads(out), capture))
            for packet, cpu in zip(rep.packets, scaled_processors([4, 5, 6, 7])):
                self.assertIn(cpu, (None, packet.cpu))
            for words, text in ((("--kernel",), "--capture OUT go together"),
                                (("--tx",), "--tx goes with --kernel"),
                                (("--kernel", "--capture", "-"), "into a file")):
                status, _, messages = running.inside("steer-steps", name, WEB, "--pps", "1", *words)
                self.assertEqual((status, text in messages), (cli.WRONG_WORDS, True), messages)

    def test_trials_by_the_kernel(self):
        counts = {}
        for cpu in scaled_processors([4, 5, 6, 7]):
            counts[cpu] = counts.get(cpu, 0) + 1
        most = max((count, cpu) for cpu, count in counts.items() if cpu is not None)
        with reporting.Folder() as folder:
            name = plan_of_snap(folder, sock=0)
            words = (WEB, name, "--pps", "1000", "--kernel", "--draws", "3-4")
            status, out, messages = running.inside("steer-try", *words)
            self.assertEqual(status, cli.DONE, messages)
            self.assertEqual(messages.count("5 of 177 packets (2.8%) are hashed without ports"), 1)
            for draw in (3, 4):
                row = next(line for line in out.split("busiest")[1].splitlines()
                           if line.endswith("draw %d" % draw))
                share = float(row.split()[2].rstrip("%"))
                self.assertEqual(row.split()[1], "%d" % most[1])
                self.assertIn(round(share * 177 / 100) - most[0], (0, 5))   # one flow is drawn
            lines = running.inside("steer-try", *words, "--commands", "--reports", "out")[1]
            self.assertEqual([line.split("--draws ")[1].split()[0] for line in lines.splitlines()],
                             ["3-3", "4-4"])
            said = ["--tx", "--hash32", "--no-rxhash", "--draw", "7", "--reader", "80=9",
                    "--online", "0-15", "--snap", SNAP]
            line = running.inside("steer-try", WEB, name, "--pps", "5", "--kernel", "--commands",
                                  "--reports", "out", *said)[1]
            self.assertLessEqual({"--kernel", *said}, set(line.split()))
            status, _, messages = running.inside("steer-try", WEB, name, "--draws", "2")
            self.assertEqual((status, "goes with --kernel" in messages), (cli.WRONG_WORDS, True))

    def test_a_mismatch_is_an_error(self):
        with reporting.Folder() as folder:
            made = remap.remap(plan.read_plan(plan_of_snap(folder)),
                               remap_files.frames_of(WEB, WEB))
            remap_check.check(made)
            made.flows[made.flow_of[1]].app ^= 1
            with self.assertRaisesRegex(cli.Refused, "packet 1 has reader"):
                remap_check.check(made)
            made.flows[made.flow_of[1]].app ^= 1
            made.spares.padded[4, 5, 6, 7] = [3, 4, 5, 6, 7]
            with self.assertRaisesRegex(cli.Refused, "packet 1 has processor 3 .* gives 4"):
                remap_check.check(made)

    def test_mutated_inputs_give_no_traceback(self):
        draw = random.Random(17)
        with reporting.Folder() as folder:
            files = [cli.read_bytes(plan_of_snap(folder)), cli.read_bytes(WEB)[:4000],
                     cli.read_bytes(SNAP)]
            for case in range(150):
                at = case % 3
                data = bytearray(files[at])
                for _ in range(draw.randint(1, 3)):
                    spot = draw.randrange(len(data))
                    data[spot:spot + draw.choice((0, 1, 1, 4))] = draw.choice(
                        (b"", b"9", b"-", b"\xff", bytes([draw.randrange(256)])))
                names = [folder.write("m%d" % number, bytes(data) if number == at else file)
                         for number, file in enumerate(files)]
                status, messages, _ = ran(folder, names[0], names[1], "--snap", names[2], "--tx")
                self.assertIn(status, (cli.DONE, cli.WRONG_WORDS, cli.REFUSED,
                                       cli.NOT_THAT_FILE), messages)
                self.assertNotIn("remap is wrong", messages)


if __name__ == "__main__":
    unittest.main()
