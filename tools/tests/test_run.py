"""The command run: its commands meet traffic."""

import re
import struct
import unittest
from collections import Counter

from reporting import Folder, frame
from running import steer

PACKETS = 65536
COMMANDS = 20
TRIES = 64
ENOUGH = 15
# The machine of a test has other work, so the controller may come too late in some of the runs.
RUNS = 5
MOST = 3
BUSY_LANE = re.compile(r"busy lane (\d+) head \d+ tail (\d+)$")
CHOICE = re.compile(r"p \d+ q (\d+) .* cpu (\d+) why ", re.ASCII)


def write_hashed(path):
    """A capture of packets that have a hash, of 455 flows in turn."""
    flows = [number for number in range(512) if number % 9 != 8]
    with open(path, "wb") as out:
        out.write(struct.pack("<IHHIIII", 0xa1b2c3d4, 2, 4, 0, 0, 65535, 1))
        for number in range(PACKETS):
            data = frame(flows[number % len(flows)])
            out.write(struct.pack("<IIII", number, 0, len(data), len(data)) + data)


def plan_of(workers, queues):
    """A plan whose commands steer one queue after the other to a processor of their own."""
    rows = ", ".join('{"home": 0, "mask": [0], "flows": 0}' for _ in range(queues))
    steps = ", ".join('"mask %d %d"' % (k % queues, k + 1) for k in range(COMMANDS))
    return ('{"cpus": 32, "queues": [%s], "sock": 0, "backlog": 1000, "apps": [0, 1, 2, 3],'
            ' "tx": [{"cpus": [], "queues": []}], "workers": %d, "tries": %d, "steps": [%s]}'
            % (rows, workers, TRIES, steps)).encode()


class Answers:
    """What a report of such a run shows of its commands.

    `before` has the commands that were answered behind the choice of some packet, `behind` those
    after whose answer there was such a choice. A poller is inside the gate only with a packet that
    it chooses for, and a lane that is not empty has accepted as many packets as its tail says.
    """

    def __init__(self, report, queues):
        self.lines = report.split("\n")
        self.queues = queues
        self.kinds = Counter()
        self.before, self.behind = set(), set()
        self.accepted = {}
        self.chosen = {}
        for line in self.lines:
            self.take(line)
        command = tries = 0
        for line in self.lines:
            if line.startswith("c "):
                answer = line.split(" ", 5)[5]
                tries += 1
                self.weigh(command, answer)
                if not answer.startswith("busy") or tries == TRIES:
                    command, tries = command + 1, 0
        assert command == COMMANDS, command

    def take(self, line):
        choice = CHOICE.match(line)
        if choice:
            self.chosen.setdefault(int(choice[1]), set()).add(int(choice[2]))
        elif line.startswith("cpu "):
            words = line.split()
            self.accepted[int(words[1])] = int(words[3])

    def weigh(self, command, answer):
        kind = " ".join(answer.split()[:2])
        self.kinds[kind] += 1
        lane = BUSY_LANE.match(answer)
        if kind == "busy inside":
            self.before.add(command)
            self.behind.add(command)
        elif lane:
            self.before.add(command)
            if int(lane[2]) < self.accepted[int(lane[1])]:
                self.behind.add(command)
        elif answer == "done":
            # Each command has a processor of its own, and processor 0 is the plan's.
            seen = self.chosen[command % self.queues]
            if min(seen) <= command:
                self.before.add(command)
            if max(seen) > command:
                self.behind.add(command)
        else:
            raise AssertionError(answer)

    def met(self):
        """How many commands were answered between the first and the last choice."""
        if not self.before or not self.behind:
            return 0
        return max(0, max(self.behind) - min(self.before) + 1)


class Commands(unittest.TestCase):
    def test_commands_meet_traffic(self):
        kinds = Counter()
        with Folder() as folder:
            capture = folder.path("capture")
            write_hashed(capture)
            for queues in (1, 16):
                for workers in (1, 2, 4):
                    with self.subTest(queues=queues, workers=workers):
                        plan = folder.write("plan", plan_of(workers, queues))
                        kinds += self.meet(plan, capture, queues)
        self.assertGreater(kinds["done"], 0, kinds)
        self.assertGreater(kinds["busy inside"], 0, kinds)
        self.assertGreater(kinds["busy lane"], 0, kinds)

    def meet(self, plan, capture, queues):
        """The answers of the runs of a plan, in most of which enough commands meet traffic."""
        kinds, met = Counter(), []
        while sum(each >= ENOUGH for each in met) < MOST:
            self.assertLess(len(met), RUNS, "of %d met traffic: %s" % (COMMANDS, met))
            status, report, message = steer("run", plan, capture)
            self.assertEqual((status, message), (0, ""))
            answers = Answers(report, queues)
            kinds += answers.kinds
            met.append(answers.met())
        return kinds


if __name__ == "__main__":
    unittest.main()
