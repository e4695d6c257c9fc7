"""Tests of steer-apply: its commands, worked by hand, and what they set on a veth pair."""

import json
import os
import random
import re
import shutil
import subprocess
import unittest

from inside import inside
from reporting import Folder
from running import TOOLS, example, sample

from steerlib import applying, settings
from steerlib.findings import Findings
from steerlib.processors import parse_list

KEY = "6d5a56da255b0ec24167253d43a38fb0d0ca2bcbae7b30b477cb2da38030f20c6a42b73bbeac01fa"
QUEUES = 8
PLAN = {
    "cpus": 34, "key": KEY, "kinds": 27, "backlog": 301, "sock": 1024, "apps": [0, 1],
    "queues": [{"home": 0, "mask": [33, 0, 2], "flows": 256},
               {"home": 1, "mask": [], "flows": 0}],
    "tx": [{"cpus": [1], "queues": [0, 1]}, {"cpus": [], "queues": []}], "limited": [0, 2, 33, 1],
    "steps": []}


def applied(*words):
    """The status, the lines of the output and those of the messages of steer-apply."""
    status, out, said = inside("steer-apply", *words)
    return status, out.decode().splitlines(), said.splitlines()


def by_ethtool(words, size, queues):
    """The table that `ethtool -X DEV WORDS` makes, written after do_srxfhindir of ethtool 6.1."""
    start = int(words[1]) if words[0] == "start" else 0
    words = words[2:] if words[0] == "start" else words
    if words[0] == "equal":
        return [start + entry % int(words[1]) for entry in range(size)]
    weights = [int(word) for word in words[1:]]
    table, queue, partial = [], -1, 0
    for entry in range(size):
        while entry >= size * partial // sum(weights):
            queue += 1
            partial += weights[queue]
        table.append(start + queue)
    return table


class Commands(unittest.TestCase):
    def test_a_plan(self):
        """RFS puts queue 0 to its readers 0 and 1 too, so its home 0 is what limits all four."""
        plan = dict(PLAN, cpus=32, queues=[dict(PLAN["queues"][0], mask=[31, 0, 2]),
                                           PLAN["queues"][1]], limited=[0, 1, 2, 31])
        with Folder() as folder:
            name = folder.write("p.json", json.dumps(plan).encode())
            status, lines, said = applied(name, "eth0")
        pairs = ":".join(re.findall("..", KEY))
        self.assertEqual((status, lines), (0, [
            "# Sets %s on eth0. To be run by sh as root; steer-apply wrote nothing." % name,
            "set -e", "cd /sys/class/net/eth0/queues",
            "echo 80000005 > rx-0/rps_cpus", "echo 256 > rx-0/rps_flow_cnt",
            "echo 00000000 > rx-1/rps_cpus", "echo 0 > rx-1/rps_flow_cnt",
            "echo 00000002 > tx-0/xps_cpus", "echo 3 > tx-0/xps_rxqs",
            "echo 00000000 > tx-1/xps_cpus", "echo 0 > tx-1/xps_rxqs",
            "ethtool -X eth0 hkey " + pairs, "ethtool -X eth0 equal 2",
            "ethtool -N eth0 rx-flow-hash tcp4 sdfn", "ethtool -N eth0 rx-flow-hash udp4 sd",
            "ethtool -N eth0 rx-flow-hash tcp6 sdfn", "ethtool -N eth0 rx-flow-hash udp6 sd",
            "sysctl -w net.core.rps_sock_flow_entries=1024",
            "sysctl -w net.core.netdev_max_backlog=300",
            "sysctl -w net.core.flow_limit_cpu_bitmap=00000001"]))
        self.assertIn("note: not set: the interrupts of the queues (homes 0=0 1=1), n-tuple rules, "
                      "and where readers run", said)

    def test_only_some(self):
        plan = example("rps.json")
        whole = applied(plan, "eth0")[1]
        parts = [applied("--only", way, plan, "eth0")[1] for way in applying.WAYS]
        self.assertEqual(whole[3:], parts[0][3:] + parts[1][2:] + parts[2][2:])
        self.assertEqual(parts[1], [whole[0], "set -e"])
        self.assertEqual([line.split()[0] for line in parts[2][2:]], ["sysctl"] * 3)

    def test_tables(self):
        """Against ethtool's own way from words to a table."""
        draw = random.Random(5)
        cases = [[0] * 128, [1] * 64, [3, 4] * 64, [entry % 8 for entry in range(512)],
                 settings.weighted([6, 2]), settings.weighted([1, 0, 0, 5], 256),
                 settings.weighted([0, 0, 3, 4], 64)]
        for _ in range(200):
            size = draw.choice((32, 128, 512))
            cases.append(sorted(draw.randrange(draw.randint(1, 16)) for _ in range(size)))
        for table in cases:
            words = applying.table_words(table)
            self.assertEqual(by_ethtool(words, len(table), 16), table)
        for table in ([1, 0] * 64, [0, 0, 1, 1] * 32, [0, 1, 1, 0]):
            self.assertIsNone(applying.table_words(table))

    def test_the_flow_limit(self):
        """By hand: queues of homes 0 and 1 that put to 2 and 3, and to 4."""
        def plan(limited, *masks):
            return {"cpus": 8, "sock": 0, "apps": [0], "limited": limited, "queues": [
                {"home": home, "mask": mask, "flows": 0} for home, mask in enumerate(masks)]}
        for limited, masks, bitmap in (
                ([], ([2, 3], [4]), []), ([2, 3], ([2, 3], [4]), [0]), ([4], ([2, 3], [4]), [1]),
                ([2, 3, 4], ([2, 3], [4]), [0, 1]), ([2], ([2, 3], [4]), None),
                ([2, 3, 5], ([2, 3], [4]), None), ([0], ([], []), None)):
            self.assertEqual(applying.bitmap_of(plan(limited, *masks)), bitmap, limited)

    def test_what_cannot_be_said_is_noted(self):
        plan = dict(PLAN, cpus=32, queues=[dict(PLAN["queues"][1], mask=[5]), PLAN["queues"][1]],
                    reta=[1, 0] * 64, limited=[4], tx=[PLAN["tx"][0]])
        findings = Findings()
        texts = [command.text for command in applying.of_plan(plan, "eth0", findings)]
        self.assertFalse([text for text in texts if "equal" in text or "xps" in text
                          or "flow_limit" in text])
        for part in ("the redirection table is left as it is", "one transmit queue",
                     "none of its values limits just 4"):
            self.assertTrue(any(part in note for note in findings.notes), findings.notes)


class Undo(unittest.TestCase):
    def test_a_snapshot(self):
        """Every mask, count and sysctl of the snapshot is in its line of the script."""
        status, lines, said = applied("--undo", example("eth0.snap"))
        with open(example("eth0.snap"), encoding="utf-8") as stream:
            facts = [line.split() for line in stream.read().splitlines()]
        wanted = ["echo %s > %s-%s/%s" % (fact[3], fact[0], fact[1], fact[2]) for fact in facts
                  if len(fact) == 4 and fact[0] in ("rx", "tx")]
        wanted += ["sysctl -w net.core.%s=%s" % tuple(fact[1:]) for fact in facts
                   if fact[:1] == ["sysctl"] and fact[1] in applying.SYSCTLS]
        self.assertEqual((status, said), (0, []))
        self.assertEqual(sorted(set(lines[3:]) - set(wanted)), [
            line for line in sorted(lines) if line.startswith("ethtool ")])
        self.assertEqual(set(wanted) - set(lines), set())
        self.assertIn("ethtool -X eth0 equal 8", lines)
        self.assertIn("ethtool -N eth0 rx-flow-hash udp4 sd", lines)
        other = applied("--undo", example("eth0.snap"), "eth 1")
        self.assertEqual(other[0], 2)
        other = applied("--undo", example("eth0.snap"), "eth1")[1]
        self.assertEqual(other[2], "cd /sys/class/net/eth1/queues")

    def test_what_was_not_read_is_noted(self):
        status, lines, said = applied("--undo", sample("snap", "veth-8q-netns.snap"))
        self.assertEqual(status, 0)
        self.assertFalse([line for line in lines if line.startswith("sysctl")])
        self.assertEqual(said[-3:], ["note: %s is not in the snapshot, and is left as it is" % name
                                     for name in applying.SYSCTLS])

    def test_texts_that_are_no_values(self):
        """Of a snapshot, which others sent, only numbers and masks get into a script."""
        with open(example("eth0.snap"), encoding="utf-8") as stream:
            text = stream.read()
        for old, new in (("rx 0 rps_cpus 00f0", "rx 0 rps_cpus $(reboot)"),
                         ("rx 0 rps_flow_cnt 4096", "rx 0 rps_flow_cnt 4;reboot"),
                         ("sysctl netdev_max_backlog 1000", "sysctl netdev_max_backlog `reboot`"),
                         ("tx 0 xps_cpus 0003", "tx 0 xps_cpus 3 > x; reboot")):
            self.assertIn(old + "\n", text)
            with Folder() as folder:
                name = folder.write("s.snap", text.replace(old + "\n", new + "\n").encode())
                status, lines, said = applied("--undo", name)
            self.assertEqual((status, lines, len(said)), (3, [], 1), new)
        with Folder() as folder:
            name = folder.write("s.snap", text.replace("dev eth0", "dev a'b;reboot").encode())
            lines = applied("--undo", name)[1]
        self.assertEqual(lines[2], """cd '/sys/class/net/a'"'"'b;reboot/queues'""")

    def test_wrong_words(self):
        plan, snap = example("rps.json"), example("eth0.snap")
        for words, text in (
                ([], "a PLAN and a DEV are needed (--help says more)"),
                ([plan], "a PLAN and a DEV are needed (--help says more)"),
                (["--undo", snap, "a", "b"], "--undo takes a SNAP and at most a DEV (--help says "
                                             "more)"),
                (["--only", "sysfs,x", plan, "e"], "argument --only: x is none of sysfs, ethtool, "
                                                   "sysctl (--help says more)"),
                ([plan, "a/b"], "'a/b' is no name of a device"),
                ([plan, ".."], "'..' is no name of a device"),
                ([plan, "0123456789abcdef"], "'0123456789abcdef' is no name of a device")):
            self.assertEqual(applied(*words), (2, [], ["steer-apply: " + text]))
        self.assertEqual(applied("none.json", "e"), (4, [], [
            "steer-apply: none.json: No such file or directory"]))


class Namespace:
    """A network namespace with a veth pair of several queues, as a context."""

    def __init__(self):
        self.name, self.device = "steer-apply-%d" % os.getpid(), "apply0"

    def __enter__(self):
        if os.geteuid() != 0:
            raise unittest.SkipTest("a network namespace is only root's to make")
        if shutil.which("ip") is None:
            raise unittest.SkipTest("no program ip")
        many = ["numtxqueues", str(QUEUES), "numrxqueues", str(QUEUES)]
        made = subprocess.run(["ip", "netns", "add", self.name], stderr=subprocess.PIPE)
        if made.returncode != 0:
            raise unittest.SkipTest("no network namespace: %s" % made.stderr.decode().strip())
        made = subprocess.run(["ip", "-n", self.name, "link", "add", self.device, *many, "type",
                               "veth", "peer", "name", "apply1", *many], stderr=subprocess.PIPE)
        if made.returncode != 0:
            self.__exit__()
            raise unittest.SkipTest("no veth pair: %s" % made.stderr.decode().strip())
        return self

    def __exit__(self, *fault):
        subprocess.run(["ip", "netns", "del", self.name], check=True)

    def run(self, *words, data=""):
        """The output of a command in the namespace."""
        return subprocess.run(["ip", "netns", "exec", self.name, *words], check=True,
                              input=data.encode(), stdout=subprocess.PIPE).stdout.decode()

    def snapshot(self, folder, name):
        """The path of a snapshot of the device."""
        text = self.run(os.path.join(TOOLS, "steer-snap"), self.device)
        return folder.write(name, text.encode())


class OnADevice(unittest.TestCase):
    def plan_of(self, snap):
        homes = ",".join("%d=0" % queue for queue in range(QUEUES))
        status, out, _ = inside("steer-plan", snap, "--apps", "0", "--home", homes)
        self.assertEqual(status, 0)
        return json.loads(out)

    def test_set_and_brought_back(self):
        """The snapshot after it gives the plan in all keys, and after the undo the plan before."""
        draw = random.Random(1)
        with Namespace() as namespace, Folder() as folder:
            first = namespace.snapshot(folder, "first.snap")
            before = self.plan_of(first)
            with open("/sys/devices/system/cpu/online", encoding="ascii") as stream:
                cpus = parse_list(stream.read().strip())

            def some(of):
                return sorted(draw.sample(of, draw.randint(0, len(of))))

            for _ in range(4):
                wanted = dict(before, queues=[
                    {"home": 0, "mask": some(cpus), "flows": draw.choice((0, 64, 4096))}
                    for _ in range(QUEUES)],
                    tx=[{"cpus": some(cpus), "queues": some(range(QUEUES))}
                        for _ in range(QUEUES)])
                name = folder.write("plan.json", json.dumps(wanted).encode())
                _, lines, _ = applied("--only", "sysfs", name, namespace.device)
                namespace.run("sh", data="\n".join(lines) + "\n")
                self.assertEqual(self.plan_of(namespace.snapshot(folder, "set.snap")), wanted)
                self.assertNotEqual(wanted, before)
            _, lines, _ = applied("--undo", first, "--only", "sysfs")
            namespace.run("sh", data="\n".join(lines) + "\n")
            self.assertEqual(self.plan_of(namespace.snapshot(folder, "last.snap")), before)


if __name__ == "__main__":
    unittest.main()
