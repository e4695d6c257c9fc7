"""Tests of steer-try --keys: the busiest processor, counted by a bitwise hash of their own."""

import collections
import hashlib
import json
import unittest

import running
from reporting import Folder
from running import example
from test_aim import PLAN, bitwise


def busiest(flows, key):
    """The packets of the busiest processor of PLAN, by the manual's rule."""
    counts = collections.Counter()
    for data in flows:
        value = None if data is None else bitwise(key, data)
        queue = PLAN["queues"][0 if value is None else value % 128 % 3]
        mask = sorted(set(queue["mask"]))
        counts[queue["home"] if value is None or not mask else mask[value % len(mask)]] += 1
    return max(counts.values())


def flows_of(capture):
    """What is hashed of each packet, as `steer hash` names the flows, with all kinds."""
    flows = []
    for line in running.steer("hash", capture)[1].splitlines()[:-1]:
        words = line.split()[2:line.split().index("hash")]
        digits = "".join(words[1:3]) + "".join("%04x" % int(word) for word in words[3:])
        flows.append(bytes.fromhex(digits) if words[0] != "none" else None)
    return flows


class Keys(unittest.TestCase):
    def test_least_median_and_most(self):
        flows = flows_of(example("web.pcap"))
        keys = [hashlib.blake2b(b"%d" % number, digest_size=40).hexdigest()
                for number in range(3, 8)]
        counts = sorted(busiest(flows, key) for key in keys)
        with Folder() as folder:
            name = folder.write("p.json", json.dumps(PLAN).encode())
            status, out, said = running.inside("steer-try", "--keys", "3-7", "--jobs", "1",
                                               example("web.pcap"), name)
        self.assertEqual((status, len(flows)), (0, 177), said)
        self.assertEqual(out.splitlines()[1].split(),
                         ["5"] + ["%d" % counts[place] for place in (0, 2, 4)]
                         + ["%.1f%%" % (100 * counts[2] / 177), "p.json"])
        self.assertLess(counts[0], counts[4])

    def test_words(self):
        for words, status, text in (
                (("--keys", "2", "--seeds", "2"), 2, "not allowed with"),
                (("--keys", "0"), 2, "is not"),
                (("--keys", "2", "--read"), 2, "go with --pps")):
            found = running.inside("steer-try", example("web.pcap"), *words, example("rps.json"))
            self.assertEqual(found[0], status, words)
            self.assertIn(text, found[2])
        found = running.inside("steer-try", example("web.pcap"), "--keys", "2", "--commands",
                               "--results", "out", example("rps.json"))
        self.assertEqual([line.split("--keys ")[1].split()[0] for line in found[1].splitlines()],
                         ["1-1", "2-2"])


if __name__ == "__main__":
    unittest.main()
