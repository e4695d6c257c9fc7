"""Tests of the notes on where a plan's answer is another than a kernel's, and of mutated input."""

import json
import random
import unittest

from inside import inside
from reporting import Folder
from running import example, sample_text

from steerlib import cautions, cli, machine, schedule, settings, snapshot

SNAPS = [sample_text("snap", name + ".snap")
         for name in ("ixgbe-8q-16c-f0", "veth-8q-netns", "virtio-1q", "ixgbe-8q-rules")]
PLAN = sample_text("plan", "ix.json")
MUTATIONS = 150     # of each kind of input

# The bitmap, the home of each queue and to which processors it puts; the processors that are
# limited, and the end of the note.
LIMITED = (
    ([0], [0, 1], [[2], [3]], [2], "limited here are those that they put to, 2"),
    ([0, 1], [0, 1], [[2], [2, 3]], [2, 3], "limited here are those that they put to, 2-3"),
    ([0], [0, 1], [[2, 3], [3]], [2, 3], "put to, 2-3; rx 1 put there too, in a kernel without the "
                                         "limit"),
    ([2, 3], [0, 1], [[2], [3]], [], "so nothing is limited"),
    ([0], [0, 1], [[], [3]], [], "so nothing is limited"),
    ([7], [7, 7], [[7], []], [7], "limited here are those that they put to, 7"),
)

# The mask, the readers, queue and number of queues; whether each packet of the queue, by the even
# table, has its reader where RPS sends it.
SAME = (
    ([0, 1, 2, 3], [0, 1, 2, 3], 0, 8, True),
    ([0, 1, 2, 3], [3, 2, 1, 0], 0, 8, False),      # 0 mod 4 is 0 and 3, 4 mod 4 the same
    ([0, 1, 2], [0, 1, 2], 1, 2, True),
    ([0, 1, 2], [0, 1], 0, 1, False),
    ([4], [4, 5], 0, 2, True),                      # even hashes have the first reader
    ([4], [4, 5], 1, 2, False),
    ([0, 1], [0, 1, 0, 1], 3, 8, True),
    ([0, 1, 2, 3], [5, 1], 1, 2, False),            # 3 mod 4 is processor 3, its reader 1
    ([5, 1, 6, 1], [5, 1], 1, 2, True),
)


def plan_of(queues, sock=0, **more):
    """A plan of queues of (home, mask, flows)."""
    return dict({"cpus": 16, "queues": [{"home": home, "mask": mask, "flows": flows}
                                        for home, mask, flows in queues],
                 "sock": sock, "backlog": 9, "apps": [0], "tx": [{"cpus": [], "queues": []}],
                 "steps": ["sweep"]}, **more)


class Cautions(unittest.TestCase):
    def test_who_is_limited(self):
        for bitmap, homes, put_to, limited, end in LIMITED:
            found, text = cautions.limited_by(bitmap, homes, put_to)
            self.assertEqual((found, text.endswith(end)), (limited, True), text)

    def test_readers_where_rps_sends_the_packet(self):
        for mask, apps, queue, queues, same in SAME:
            plan = plan_of([(0, mask, 16)] * queues, sock=64, apps=apps)
            text = cautions.of_readers(plan) or ""
            named = text.split("rx ")[1].split(" are")[0] if text else ""
            members = [int(number) for part in named.split(",") if part for number in (
                range(int(part.split("-")[0]), int(part.split("-")[-1]) + 1))]
            self.assertEqual(queue in members, same, (mask, apps, queue, text))
            self.assertIsNone(cautions.of_readers(dict(plan, sock=0)))

    def test_where_a_kernel_has_no_backlog(self):
        for queues, sock, bare in (
                ([(0, [], 0), (1, [2], 0)], 0, [0]), ([(0, [], 8), (1, [], 0)], 16, [1]),
                ([(0, [], 8)], 0, [0]), ([(0, [0], 0)], 0, [])):
            plan = plan_of(queues, sock)
            self.assertEqual(cautions.without_backlog(plan), bare)
            self.assertEqual(cautions.of_backlog(plan) is None, not bare)

    def test_hashes_without_ports(self):
        """The recording has 168 packets of TCP, 5 of UDP and 4 of ARP, which have no flow."""
        for kinds, packets in ((63, 0), (27, 5), (2, 5), (4, 168), (0, 173)):
            self.assertEqual(schedule.hashed_without_ports(example("web.pcap"), kinds),
                             (packets, 177))
        one = plan_of([(0, [1], 0)], kinds=27)
        self.assertIsNone(cautions.of_kinds(one))       # a mask of one member needs no hash
        self.assertIsNotNone(cautions.of_kinds(dict(plan_of([(0, [1, 2], 0)]), kinds=27)))
        self.assertIsNone(cautions.of_kinds(plan_of([(0, [1, 2], 0)])))
        two = plan_of([(0, [1, 2], 0)], kinds=27)
        for drawn, end in ((False, "so their processors are not to be foretold"),
                           (True, "so here it is drawn: try several draws")):
            self.assertIsNone(schedule.note_of_hashes(one, example("web.pcap"), drawn))
            self.assertEqual(schedule.note_of_hashes(two, example("web.pcap"), drawn),
                             "5 of 177 packets (2.8%) are hashed without ports (kinds 27): a "
                             "kernel steers them by a hash of its own, " + end)

def mutated(draw, text):
    """The text with a few bytes, words or lines taken out, doubled or changed."""
    for _ in range(draw.randint(1, 3)):
        at, size = draw.randrange(len(text)), draw.choice((1, 1, 2, 8, 40))
        new = draw.choice(("", "0", "9", "-", "f", ",", " ", "\n", "4294967296", text[at:at + 9]))
        text = text[:at] + new + text[at + size:]
    return text


class Mutated(unittest.TestCase):
    """What is no longer a snapshot or a plan is refused; what still is one has its notes."""

    def test_snapshots(self):
        draw = random.Random(52)
        for _ in range(MUTATIONS):
            text = mutated(draw, draw.choice(SNAPS))
            try:
                made, found = machine.plan_of(snapshot.parse(text, "made"))
            except (cli.Refused, cli.NotThatFile):
                continue
            self.assertEqual(sorted(found.notes), sorted(text for _, text in found.weighed))
            self.assertTrue(found.refusals or 1 <= made["backlog"] <= 65536)

    def test_plans_and_settings(self):
        draw = random.Random(53)
        words = ["rx-*/rps_cpus=%x", "rx-1/home=%d", "netdev_max_backlog=%d", "apps=%d",
                 "flow_limit_cpu_bitmap=%x", "rps_sock_flow_entries=%d", "rx-*/rps_flow_cnt=%d",
                 "rx-flow-hash/udp4=sd", "indir=equal:%d"]
        for _ in range(MUTATIONS):
            text = mutated(draw, PLAN) if draw.random() < 0.8 else PLAN
            try:
                changed = settings.Settings(text.encode("utf-8"), "made")
                for word in draw.sample(words, 3):
                    changed.set(word % draw.choice((0, 1, 7, 255)) if "%" in word else word)
                json.loads(changed.written())
                changed.notes()
            except (cli.Refused, cli.NotThatFile, cli.WrongWords):
                continue

    def test_plans_of_reports(self):
        draw = random.Random(54)
        plan = plan_of([(1, [], 0)])
        with Folder() as folder:
            report = folder.replay(plan, example("three.pcap"))
            for _ in range(MUTATIONS // 3):
                made = folder.write("made.json", mutated(draw, json.dumps(plan)).encode())
                status, _, said = inside("steer-top", report, "--plan", made)
                self.assertIn(status, (0, 3, 4), said)


if __name__ == "__main__":
    unittest.main()
