"""Tests of steer-split: parts by hand, and the replay of the whole machine by steer itself."""

import copy
import json
import os
import random
import unittest
from unittest import mock

import running
from reporting import Folder
from running import example, sample

from steerlib import aiming, cli, limits, parts, plan, report, splitting

PACKETS, FLOWS = 2000, 300


def halves(masks=4):
    """A machine of 16 queues on 32 processors: 8 queues on 0 to 15, and 8 on 16 to 31, mixed."""
    draw = random.Random(9)
    queues = []
    for number in range(16):
        low = 16 * (number % 2)
        queues.append({"home": low + number // 2, "flows": 0,
                       "mask": [low + draw.randrange(16) for _ in range(masks)]})
    return {"cpus": 32, "queues": queues, "sock": 0, "backlog": 16, "apps": [3, 20],
            "tx": [{"cpus": [], "queues": []}], "limited": [2, 18, 19], "steps": ["sweep"]}


def capture_of(seed, packets=PACKETS):
    """A capture of TCP and of frames without IP, 100,000 packets a second in bursts."""
    draw, time = random.Random(seed), 0
    flows = [bytes(draw.choices(range(256), k=12)) for _ in range(FLOWS)]
    records = [bytes.fromhex("d4c3b2a1020004000000000000000000ffff000001000000")]
    for _ in range(packets):
        time += draw.choice((0, 0, 5, 35))
        flow = draw.choice(flows[:20]) if draw.random() < 0.4 else draw.choice(flows)
        frame = (bytes.fromhex("0200000000020200000000010800450000280000000040060000") + flow
                 + bytes(16))
        if draw.random() < 0.02:
            frame = bytes(12) + b"\x08\x06" + bytes(40)
        records.append(b"".join(number.to_bytes(4, "little") for number in (
            time // 1000000, time % 1000000, len(frame), len(frame))) + frame)
    return b"".join(records)


def timed(folder, name, capture, *words):
    """The report of a plan's replay by the times of a capture."""
    status, out, said = running.inside("steer-steps", name, capture, "--pps", "3000", *words)
    assert status == 0, said
    made = folder.write(os.path.basename(name) + ".timed", out.encode())
    text = running.steer("replay", made, capture)[1]
    return folder.write(os.path.basename(name) + ".report", text.encode())


class Whole(unittest.TestCase):
    def same(self, made, most_queues, *words):
        """Each packet of the parts is where it is in the whole machine; the number of drops."""
        with Folder() as folder:
            name = folder.write("whole.json", json.dumps(made).encode())
            capture = folder.write("own.pcap", capture_of(4))
            to = folder.path("parts")
            with mock.patch.object(limits, "MOST_QUEUES", most_queues):
                named = splitting.split(plan.read_plan(name), name, capture, to)
            whole = report.read_file(timed(folder, name, capture, *words))
            reports = [timed(folder, splitting.path(to, number, "json"),
                             splitting.path(to, number, "pcap"), *words)
                       for number in range(len(named))]
            joined = splitting.joined(to, reports)
        self.assertEqual(len(named), 2)
        for one, other in zip(whole.packets, joined.packets):
            for field in ("id", "q", "via", "cpu", "want", "why", "at", "drop", "drop_accepted",
                          "drop_pulled", "flow_offers", "place"):
                self.assertEqual(getattr(one, field), getattr(other, field), (one, other))
        self.assertEqual((whole.queues, whole.cpus), (joined.queues, joined.cpus))
        self.assertEqual(tuple(whole.end), tuple(joined.end))
        return whole

    def test_two_halves(self):
        whole = self.same(halves(), 8)
        self.assertEqual(len(whole.packets), PACKETS)
        self.assertGreater(sum(row.dropped for row in whole.cpus), 100)

    def test_two_halves_with_readers(self):
        """With RFS: flows of even queues have even readers, which are on 0 to 15."""
        made = halves()
        made.update(sock=1024, apps=[3, 20, 7, 28])
        for queue in made["queues"]:
            queue["flows"] = 256
        whole = self.same(made, 8, "--read")
        self.assertGreater(sum(packet.want is not None for packet in whole.packets), 100)


class Parts(unittest.TestCase):
    def test_what_is_shared(self):
        """Worked by hand: 1 and 2 share processor 2, 0 is alone; packed where there is room."""
        base = {"cpus": 9, "sock": 0, "apps": [8], "queues": [
            {"home": 0, "mask": [], "flows": 0}, {"home": 1, "mask": [2], "flows": 0},
            {"home": 2, "mask": [5, 4], "flows": 0}], "tx": [], "steps": ["sweep"]}
        rfs = copy.deepcopy(base)
        rfs.update(sock=128)
        rfs["queues"][0]["flows"] = 4
        small = dict(copy.deepcopy(rfs), sock=2, apps=[0, 2, 4])
        for made, sets in ((base, [[0], [1, 2]]), (rfs, [[0, 1, 2]]), (small, [[0, 1, 2]])):
            self.assertEqual(parts.components(made)[0], sets)
        self.assertEqual(parts.gathered(base, "p"), [[0, 1, 2]])
        with mock.patch.object(limits, "MOST_QUEUES", 2):
            found = parts.parts_of(dict(base, limited=[5, 1, 0]), "p")
        self.assertEqual([(part.queues, part.cpus) for part in found],
                         [([0], [0]), ([1, 2], [1, 2, 4, 5])])
        second = found[1].plan
        self.assertEqual(second["queues"], [{"home": 0, "mask": [1], "flows": 0},
                                            {"home": 1, "mask": [2, 3], "flows": 0}])
        self.assertEqual((second["cpus"], second["limited"], second["reta"][:6]),
                         (4, [0, 3], [0, 0, 1, 0, 0, 1]))

    def test_entries_of_the_socket_table(self):
        """Two queues and 8 entries: entry e is of queue e modulo 2; with 1 entry both have it."""
        made = {"cpus": 4, "apps": [0, 1], "queues": [{"home": 0, "mask": [2], "flows": 1},
                                                      {"home": 1, "mask": [3], "flows": 1}]}
        self.assertEqual(parts.components(dict(made, sock=8))[0], [[0], [1]])
        sets, shares = parts.components(dict(made, sock=1))
        self.assertEqual((sets, shares[0].why), ([[0, 1]], "entry of rps_sock_flow_entries 0"))

    def test_64_readers(self):
        """Of 64 readers, two on each processor, a part needs 32; each elsewhere, it needs 64."""
        queues = [{"home": number, "mask": [number + 32], "flows": 8} for number in range(32)]
        made = {"cpus": 64, "sock": 4096, "apps": 2 * list(range(32)), "queues": queues, "tx": [],
                "steps": ["sweep"]}
        found = parts.parts_of(made, "p")
        self.assertEqual([part.queues for part in found],
                         [list(range(16)), list(range(16, 32))])
        self.assertEqual(found[1].cpus, list(range(16, 32)) + list(range(48, 64)))
        self.assertEqual(found[1].plan["apps"], 16 * [0] + list(range(16)))
        for other, text in ((dict(made, filters=8), "filters 8"),
                            (dict(made, apps=list(range(64))), "queues 0-15 can have 32")):
            with self.assertRaises(cli.Refused) as caught:
                parts.parts_of(other, "p")
            self.assertIn(text, str(caught.exception))


class Words(unittest.TestCase):
    def test_snapshots(self):
        """32 queues work; masks of 64 processors are refused with what shares what."""
        with Folder() as folder:
            for name, text in (("ena-32q", ""), ("mlx5-64c-all", "queues 0 and 1 share processor "
                                                                 "33 (mask and home)")):
                _, out, _ = running.inside("steer-plan", "--wide", sample("snap", name + ".snap"))
                wide = folder.write(name + ".json", out.encode())
                to = folder.path(name)
                status, out, said = running.inside("steer-split", wide, example("web.pcap"),
                                                   "--to", to)
                self.assertIn(text, said)
                self.assertEqual(status, 3 if text else 0)
                if text:
                    continue
                self.assertEqual(len(out.splitlines()), 2)
                for number in range(2):
                    text = running.steer("replay", splitting.path(to, number, "json"),
                                         splitting.path(to, number, "pcap"))[1]
                    with open(splitting.path(to, number, "report"), "w") as stream:
                        stream.write(text)
                status, out, _ = running.inside("steer-split", "--join", to)
                self.assertEqual((status, out.splitlines()[0][:18]), (0, "packets 177 of 177"))

    def test_what_is_refused(self):
        with Folder() as folder:
            folder.write("split.json", b'{"queues": 1, "cpus": 1, "parts": [{"queues": [0], '
                                       b'"cpus": [3], "packets": []}]}')
            here = folder.path("")
            for words, status, text in (
                    ((), 2, "either --to FOLDER or --join FOLDER"),
                    (("--to", here, example("rps.json")), 2, "takes a PLAN and a CAPTURE"),
                    (("--to", here, "-", example("web.pcap")), 2, "standard input is not read"),
                    (("--join", here), 4, "that it does not have"),
                    (("--join", folder.path("none")), 4, "No such file")):
                found = running.inside("steer-split", *words)
                self.assertEqual(found[0], status, words)
                self.assertIn(text, found[2])
            for index in (b"", b"[]", b"{}", b'{"queues": 1, "cpus": 1, "parts": [3]}',
                          b'{"queues": 1, "cpus": "x", "parts": []}',
                          b'{"queues": 1, "cpus": 1, "parts": [{"queues": ["0"], "cpus": [0], '
                          b'"packets": []}]}',
                          b'{"queues": 1, "cpus": 1, "parts": [{"queues": [0], "cpus": [0], '
                          b'"packets": [1]}]}'):
                folder.write("split.json", index)
                found = running.inside("steer-split", "--join", here)
                self.assertEqual(found[:2], (4, ""), index)


    def test_what_is_left_out(self):
        """Of the plan's own keys, each said in a note."""
        left = "note: %s\n"
        steps = "its steps are left out: steer-steps makes those of each part"
        detached = "detach is left out: it counts the packets of the whole machine"
        bare = "replies, transmit queues and readers are left out (no RFS)"
        for changes, texts in (
                ({}, [bare]), ({"steps": {"seed": 1, "count": 9}}, [steps, bare]),
                ({"detach": [{"tap": 0, "after": 5}]}, [detached, bare])):
            with Folder() as folder:
                name = folder.write("whole.json", json.dumps(dict(halves(), **changes)).encode())
                capture = folder.write("own.pcap", capture_of(1, 5))
                status, _, said = running.inside("steer-split", name, capture, "--to",
                                                 folder.path("parts"))
            self.assertEqual((status, said), (0, "".join(left % text for text in texts)))


class Files(unittest.TestCase):
    def test_the_capture_is_not_written_over(self):
        with Folder() as folder:
            name = folder.write("whole.json", json.dumps(halves()).encode())
            os.mkdir(folder.path("parts"))
            capture = folder.write(os.path.join("parts", "part-0.pcap"), capture_of(1, 5))
            found = running.inside("steer-split", name, capture, "--to", folder.path("parts"))
        self.assertEqual(found[:2], (2, ""))
        self.assertIn("is read, and cannot be written", found[2])

    def test_reports_of_other_captures(self):
        with Folder() as folder:
            name = folder.write("whole.json", json.dumps(halves()).encode())
            to = folder.path("parts")
            capture = folder.write("own.pcap", capture_of(1, 5))
            self.assertEqual(running.inside("steer-split", name, capture, "--to", to)[0], 0)
            text = running.steer("replay", name, example("web.pcap"))[1]
            other = folder.write("other", text.encode())
            found = running.inside("steer-split", "--join", to, other)
            self.assertEqual(found[0], 3)
            self.assertIn("it has 16 queues, 32 processors and 177 packets, and the part", found[2])
            found = running.inside("steer-split", "--join", to, other, other)
            self.assertEqual(found[0], 2)


class Queues(unittest.TestCase):
    def test_a_frame_without_ip_is_of_queue_0(self):
        made = halves()
        self.assertEqual(aiming.Aim(made).way_of(splitting.remap.Flow(None, b"")).queue, 0)


if __name__ == "__main__":
    unittest.main()
