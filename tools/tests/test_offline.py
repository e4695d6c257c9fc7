"""Tests of processors that go offline: by hand, by a second simulator, and in the programs."""

import argparse
import json
import random
import unittest
from collections import Counter

from inside import inside
from reporting import Folder, frame, random_plan
from running import example
from test_best import commands_of, rows_of
from test_steps import timed, write_capture, write_plan
from test_waits import PLAN as FOUR
from test_waits import processors_of, simulated

from steerlib import best, cli, offline, report, schedule, waits

THREE = {"cpus": 3, "queues": [{"home": 0, "mask": [1], "flows": 0}], "sock": 0, "backlog": 1,
         "apps": [2], "tx": [{"cpus": [], "queues": []}], "steps": []}
WEB = example("web.pcap")
RFS = example("rfs.json")
LOAD = ["--pps", "20000", "--speed", "100", "--read"]


class ByHand(unittest.TestCase):
    """Four packets of one flow at 0, 1, 1.5 and 4 ms, which the mask gives to processor 1.

    A service takes 2 ms, so the second waits 1 ms, and the third finds a full backlog.
    """

    def steps(self, *words, plan=None, rate="500"):
        """The plan's keys but its steps, these as one text, and the messages."""
        with Folder() as folder:
            capture = write_capture(folder.path("c.pcap"),
                                    [(time, frame(0)) for time in (0, 1000, 1500, 4000)])
            text, said = timed(write_plan(folder, plan or THREE), capture, "--pps", rate, *words,
                               "--times", folder.path("times"))
            made = json.loads(text)
            answers = report.read_file(folder.replay(made, capture)).answers
            self.assertEqual({answer.answer for answer in answers}, {"done"})
            self.times = waits.read_file(folder.path("times"))
        return made, ",".join(made.pop("steps")).replace("deliver 0,retire 0", "S").replace(
            "deliver 1,retire 1", "T"), said

    def test_from_the_beginning(self):
        """All go to the home, as if there were no mask."""
        made, steps, said = self.steps("--offline", "1")
        self.assertEqual(steps, "offline 1,arrive,poll 0,pull 0,arrive,poll 0,arrive,poll 0,"
                                "S,pull 0,S,arrive,poll 0,pull 0,S,sweep")
        self.assertEqual(made, {key: THREE[key] for key in made})
        self.assertIn("plan.json: cpu 1 offline: a packet whose choice it is goes to the processor "
                      "of the interrupt, as in a kernel until the masks are written again; there a "
                      "kernel handles it at once, without a backlog\n", said)
        self.assertIn(" 19 steps, ", said)

    def test_the_home_and_the_reader(self):
        """They go to the first processor that stays."""
        for cpus, homes, apps, first in (("0", 1, [2], 1), ("2", 0, [0], 0), ("0,2", 1, [1], 1)):
            made, steps, _ = self.steps("--offline", cpus)
            self.assertEqual((made["queues"][0]["home"], made["apps"]), (homes, apps))
            self.assertTrue(steps.startswith("offline %s,arrive," % cpus.replace(",", ",offline ")))

    def test_in_the_midst(self):
        """At 2 ms the second is pulled, and it is done at once; the fourth goes to the home."""
        made, steps, said = self.steps("--offline", "1@0.002")
        self.assertEqual(steps, "arrive,poll 0,pull 1,arrive,poll 0,arrive,poll 0,T,pull 1,T,"
                                "offline 1,arrive,poll 0,pull 0,S,sweep")
        self.assertEqual(self.times, waits.Times(
            [0, 1000000, 1500000, 4000000], [0, 2000000, None, 4000000],
            [2000000, 2000000, None, 6000000]))
        self.assertIn("note: --offline 1@0.002: packets that waited there or were in hand, and "
                      "are handled at once: 1\n", said)
        _, steps, said = self.steps("--offline", "1@0.0012")
        self.assertEqual(steps, "arrive,poll 0,pull 1,arrive,poll 0,T,pull 1,T,offline 1,arrive,"
                                "poll 0,pull 0,S,arrive,poll 0,pull 0,S,sweep")
        self.assertEqual(self.times.ends, [1200000, 1200000, 3500000, 6000000])

    def test_a_reader_in_the_midst(self):
        """It runs elsewhere from then on; its home is elsewhere from the beginning."""
        plan = dict(THREE, queues=[{"home": 2, "mask": [1], "flows": 0}])
        made, steps, said = self.steps("--offline", "2@0.003", "--read", plan=plan)
        self.assertEqual((made["queues"][0]["home"], made["apps"]), (0, [2]))
        self.assertIn(",pull 1,stand 0 0,offline 2,T,record 0,arrive,poll 0,pull 1,T,"
                      "record 0,sweep", steps)
        self.assertIn("plan.json: cpu 2 offline from 0.003 s on: the interrupt of rx 0 is on cpu "
                      "0, from the beginning, since the homes of a plan do not change; a kernel "
                      "takes any that it may have (rx-N/home=C)\n", said)
        self.assertIn(": readers 0 run on cpu 0; a scheduler takes any that they may have "
                      "(apps=LIST)\n", said)

    def test_an_idle_processor_in_the_midst(self):
        _, steps, said = self.steps("--offline", "1@0.0005", rate="9000")
        self.assertEqual(steps, "arrive,poll 0,pull 1,T,offline 1,arrive,poll 0,pull 0,S,arrive,"
                                "poll 0,pull 0,S,arrive,poll 0,pull 0,S,sweep")
        self.assertNotIn("handled at once\n", said.splitlines()[-2])


class SecondSimulator(unittest.TestCase):
    def test_drops_and_waits(self):
        """Of processor 2 of four, from a time on; its packets then go to their home."""
        with Folder() as folder:
            busy = sorted((37 * number * (number % 11) % 90000, frame(number * number % 29))
                          for number in range(600))
            capture = write_capture(folder.path("busy"), busy)
            arrivals = [1000 * (time - busy[0][0]) for time, _ in busy]
            before = processors_of(capture)
            for when in (0, 20000, 45000):
                for rate in (2000, 5000):
                    cpus = [0 if cpu == 2 and time >= 1000 * when else cpu
                            for cpu, time in zip(before, arrivals)]
                    wanted = simulated(arrivals, cpus, rate, 9)
                    if when:
                        wanted = [begin if cpu != 2 or begin is None else min(begin, 1000 * when)
                                  for cpu, begin in zip(cpus, wanted)]
                    plan = write_plan(folder, dict(FOUR, backlog=9))
                    text, _ = timed(plan, capture, "--pps", str(rate), "--times",
                                    folder.path("times"), "--offline",
                                    "2@%g" % (when / 1e6) if when else "2")
                    found = report.read_file(folder.replay(json.loads(text), capture))
                    self.assertEqual([packet.cpu for packet in found.packets], cpus)
                    self.assertEqual([packet.place == "drop" for packet in found.packets],
                                     [begin is None for begin in wanted])
                    self.assertEqual(waits.read_file(folder.path("times")).begins, wanted)
                    self.assertEqual({answer.answer for answer in found.answers}, {"done"})


class Agreement(unittest.TestCase):
    def test_plans_of_any_shape(self):
        """With RFS, filters and the flow limit; each packet is where the replay has it."""
        chance = random.Random(5)
        with Folder() as folder:
            capture = write_capture(folder.path("c.pcap"), [
                (137 * number, frame(number * number % 23)) for number in range(250)])
            times = schedule.times_of(capture, capture)
            tried = 0
            for seed in range(12):
                plan = dict(random_plan(seed), filters=(0, 64)[seed % 2], steps=[])
                if plan["cpus"] < 3:
                    continue
                cpus = sorted(chance.sample(range(plan["cpus"]), 2))
                gone = offline.told("%d,%d%s" % (*cpus, ("", "@0.012")[seed % 3 > 0]))
                load = schedule.Load(2000.0, [], True, seed > 5, 1.0, gone)
                moved = offline.moved(plan, gone)
                replays = schedule.Replays(moved, "plan", capture, capture, folder.name)
                agreed = schedule.timed_steps(replays, times, load)
                made = json.loads(agreed.desk.text())
                self.assertEqual(len(made), agreed.desk.count())
                found = report.read_file(folder.replay(dict(moved, steps=made), capture))
                self.assertEqual(agreed.desk.cpus, [packet.cpu for packet in found.packets])
                self.assertEqual(agreed.desk.drops, [
                    packet.id for packet in found.packets if packet.place == "drop"])
                self.assertEqual([answer.answer for answer in found.answers],
                                 ["done"] * len(found.answers))
                self.assertGreaterEqual(len(found.answers), 2)
                tried += 1
        self.assertGreater(tried, 5)


class Best(unittest.TestCase):
    def answered(self, *words):
        status, out, said = inside("steer-best", WEB, RFS, *LOAD, *words, "--jobs", "2")
        self.assertEqual(status, 0, said)
        return out.decode().splitlines()

    def test_before_and_after(self):
        """The masks of the plan have processors 1 to 3, its readers are on all but 0."""
        lines = self.answered("--offline", "3", "--offline", "2@0.001")
        rows = {setting: rest for *rest, setting in rows_of(lines)}
        self.assertEqual(sorted(rows), ["(as it is)", "cpu 2 offline from 0.001 s on",
                                        "cpu 3 offline", "cpu 3 offline rx-*/rps_cpus=6"])
        start = next(number for number, line in enumerate(lines) if "packets elsewhere" in line)
        found = {}
        for line in lines[start + 1:lines.index("", start)]:
            _, packets, _, _, flows, _, of, *name = line.split()
            self.assertEqual(of, "10")
            found[" ".join(name)] = int(packets), int(flows)
        self.assertEqual(len(found), 3)
        wanted = {}
        places = [self.places_of(command) for command in commands_of(lines)]
        names = [setting for *_, setting in rows_of(lines)]
        before = places[names.index("(as it is)")]
        flows = [line.split(" hash ")[0].split(" ", 2)[2]
                 for line in cli.run_steer(["hash", WEB]).decode().splitlines()[:-1]]
        for name, after in zip(names, places):
            moved = [flow for flow, old, new in zip(flows, before, after) if old != new]
            wanted[name] = len(moved), len(set(moved))
        self.assertEqual(found, {name: wanted[name] for name in found})

    def places_of(self, command):
        """The processors of all packets by the command line of a row."""
        words = command.split(" > ")[0].split()
        plan, rest = RFS, words
        with Folder() as folder:
            if "|" in words:
                _, text, _ = inside("steer-set", *[word.strip("'")
                                                   for word in words[1:words.index("|")]])
                plan, rest = folder.write("plan", text), words[words.index("|") + 1:]
            rest = rest[:rest.index("--times")] + rest[rest.index("--times") + 2:]
            text, _ = timed(plan, *rest[2:])
            found = report.read_file(folder.replay(json.loads(text), WEB))
        return [packet.cpu for packet in found.packets]

    def test_what_a_kernel_does_otherwise(self):
        lines = self.answered("--offline", "3")
        text = "cpu 3 offline: the interrupt of rx"
        self.assertFalse([line for line in lines if line.startswith(text)])
        lines = self.answered("--offline", "1", "--kernel", "--mask", "6")
        self.assertTrue([line for line in lines if line.startswith("cpu 1 offline: the interrupt")])
        settings = [setting for *_, setting in rows_of(lines)]
        self.assertEqual(sorted(settings), [
            "(as it is)", "cpu 1 offline", "cpu 1 offline rx-*/rps_cpus=6",
            "cpu 1 offline rx-*/rps_cpus=6 rx-*/rps_cpus=4", "cpu 1 offline rx-*/rps_cpus=c",
            "rx-*/rps_cpus=6"])

    def test_masks_that_are_written_again(self):
        plan = {"cpus": 8, "queues": [{"mask": [1, 2]}, {"mask": [3]}, {"mask": []}]}
        for cpus, wanted in (([1], ("rx-0/rps_cpus=04",)),
                             ([1, 3], ("rx-0/rps_cpus=04", "rx-1/rps_cpus=00")),
                             ([1, 2, 3], ("rx-*/rps_cpus=00",))):
            self.assertEqual(best.without(plan, cpus), wanted)


class Words(unittest.TestCase):
    def test_wrong_words(self):
        for text, reason in (
                ("3@", "3@ is not LIST or LIST@S, processors such as 3 or 2,4-5 and seconds such "
                       "as 0.5"), ("3@-1", "is not LIST or LIST@S"), ("3@1e3", "is not LIST or"),
                ("", " names no processor"), ("x", "x: "), ("5-3", "5-3: ")):
            with self.assertRaises(argparse.ArgumentTypeError) as caught:
                offline.told(text)
            self.assertIn(reason, str(caught.exception))

    def test_processors_that_cannot_go(self):
        for cpus, reason in (("4", "--offline 4: the plan has the processors 0 to 3"),
                             ("0-3", "--offline 0-3: no processor stays online"),
                             ("3@9", "--offline 3@9: the last packet comes 0.00266178 s after the "
                                     "first")):
            status, out, said = inside("steer-steps", RFS, WEB, *LOAD, "--offline", cpus)
            self.assertEqual((status, out, said.splitlines()[-1]),
                             (2, b"", "steer-steps: " + reason))
            status, lines, said = inside("steer-best", WEB, RFS, *LOAD, "--offline", cpus)
            self.assertEqual((status, said.count("steer-best: %s\n" % reason)), (3, 1))
            self.assertIn(b"(as it is)", lines)

    def test_readers_by_name(self):
        """From the beginning those of an offline processor are elsewhere, later they move."""
        for words, apps in ((["--offline", "3"], 0), (["--offline", "3@0.001"], 3)):
            with Folder() as folder:
                text, _ = timed(RFS, WEB, *LOAD, *words, "--kernel", "--capture",
                                folder.path("k.pcap"), "--reader", "80=3")
                made = json.loads(text)
                found = report.read_file(folder.replay(made, folder.path("k.pcap")))
            heavy = Counter(packet.app for packet in found.packets).most_common(1)[0][0]
            self.assertEqual(made["apps"][heavy], apps)
            self.assertEqual(("stand %d 0" % heavy in made["steps"]), bool(apps))


if __name__ == "__main__":
    unittest.main()
