"""Tests of steer-best: its numbers by other programs, its searches, and its words."""

import json
import os
import re
import subprocess
import unittest

from inside import inside
from reporting import Folder, run_closed
from running import ENVIRONMENT, TOOLS, example
from test_try import drops_of_steps

from steerlib import best, cli, schedule, waits
from steerlib.programs import best as programs

WEB = example("web.pcap")
PLAN = example("rfs.json")
LOAD = ["--pps", "20000", "--speed", "100", "--read"]


def answered(*words):
    """The status, the lines of the output and the messages of steer-best."""
    status, out, said = inside("steer-best", *words, "--jobs", "2")
    return status, out.decode().splitlines(), said


def rows_of(lines):
    """The rows of the first table: (drops, moves, the waits, the setting)."""
    rows = []
    for line in lines[1:lines.index("")]:
        cells = re.split("  +", line.strip())
        rows.append((int(cells[1]), int(cells[3]), cells[4:7], "  ".join(cells[7:])))
    return rows


def commands_of(lines):
    """The command lines that make the rows again."""
    return [line.partition(" again: ")[2] for line in lines if " again: " in line]


def asked(folder, plan, *words):
    """The Question of these words about a plan, as an object, and the recording of a web server."""
    name = folder.write("asked.json", json.dumps(dict(plan, steps=[])).encode())
    told = programs.words_of([WEB, name, *words])
    load = schedule.load_of(told, told.pps)._replace(offline=None)
    return best.Question(cli.read_bytes(name), name, WEB, WEB, schedule.times_of(WEB, WEB), [],
                         load, told, folder.name)


class Rows(unittest.TestCase):
    def check_again(self, *words):
        """Each command line gives the numbers of its row."""
        status, lines, _ = answered(WEB, PLAN, *words)
        self.assertEqual(status, 0)
        rows, loads = rows_of(lines), lines[lines.index("") + 1:]
        columns = re.findall(r"cpu (\d+)", loads[0])
        self.assertEqual(len(commands_of(lines)), len(rows))
        with Folder() as folder:
            for (drops, moves, times, _), command, line in zip(rows, commands_of(lines), loads[1:]):
                ended = subprocess.run(["sh", "-c", command], cwd=folder.name, env=ENVIRONMENT,
                                       stdout=subprocess.PIPE, stderr=subprocess.PIPE)
                top = ended.stdout.decode()
                self.assertIn("dropped %d (" % drops, top, ended.stderr)
                self.assertIn("flows moved %d times" % moves, top)
                self.assertIn("wait half %s, 99%% %s, longest %s\n" % tuple(times), top)
                found = dict(re.findall(r"^ *(\d+) .* (\d+%)  #*$", top, re.MULTILINE))
                self.assertEqual([found.get(cpu, "0%") for cpu in columns],
                                 line.split()[1:len(columns) + 1])
        return rows, lines

    def test_each_row_is_made_again_by_its_line(self):
        rows, lines = self.check_again(*LOAD, "--mask", "2,e,f")
        self.assertEqual([row[3] for row in rows], [
            "rx-*/rps_cpus=f", "rx-*/rps_cpus=e (as it is)", "rx-*/rps_cpus=2"])
        self.assertEqual(rows, sorted(rows, key=lambda row: row[0]))
        self.assertEqual(rows[1][0], int(drops_of_steps(PLAN, WEB, *LOAD)))
        self.assertTrue(lines[-5].startswith("by the manual's rule"), lines)
        self.assertEqual([line.partition(":")[0] for line in lines[-4:]], [
            "not known, readers", "not known, other traffic", "not known, TCP",
            "not known, cost"])

    def test_by_a_kernels_rule(self):
        rows, lines = self.check_again(*LOAD, "--mask", "6,e", "--kernel")
        self.assertTrue(lines[-5].startswith("by a kernel's rule"), lines)
        _, by_manual, _ = answered(WEB, PLAN, *LOAD, "--mask", "6,e")
        self.assertNotEqual(sorted(rows), sorted(rows_of(by_manual)))

    def test_readers_on_named_processors(self):
        """With RFS and without; one placement is in force at a time, before that of --reader."""
        rows, _ = self.check_again(*LOAD, "--kernel", "--flows", "0,256", "--readers", "80=3",
                                   "--readers", "80=1 53=2", "--reader", "53=3")
        settings = {setting: row for *row, setting in rows}
        flows = ("rx-*/rps_flow_cnt=0 rps_sock_flow_entries=0",
                 "rx-*/rps_flow_cnt=256 rps_sock_flow_entries=1024")
        self.assertEqual(sorted(settings), sorted(["(as it is)"] + [
            "readers %s %s" % (who, of) for who in ("80=3", "80=1 53=2") for of in flows]))
        without, with_rfs = ([settings["readers %s %s" % (who, of)]
                              for who in ("80=3", "80=1 53=2")] for of in flows)
        self.assertEqual(without[0], without[1])
        self.assertNotEqual(with_rfs[0], with_rfs[1])

    def test_processors_that_are_offline(self):
        self.check_again(*LOAD, "--offline", "3@0.001", "--offline", "2")

    def test_all_kinds_of_settings(self):
        """Each setting that is tried, by its words; the plan as it is has 256 flows a queue."""
        for words, wanted in (
                ([], ["rx-*/rps_cpus=" + mask for mask in ("2", "6", "e (as it is)", "f")]),
                (["--queues", "1,2"], ["indir=equal:1", "indir=equal:2 (as it is)"]),
                (["--table", "weight:3,1"], ["(as it is)", "indir=weight:3,1"]),
                (["--flows", "0,256"], [
                    "rx-*/rps_flow_cnt=0 rps_sock_flow_entries=0",
                    "rx-*/rps_flow_cnt=256 rps_sock_flow_entries=1024 (as it is)"]),
                (["--set", "apps=1 netdev_max_backlog=9", "--set", "apps=2"], [
                    "(as it is)", "apps=1 netdev_max_backlog=9", "apps=2"]),
                (["--mask", "3,6", "--backlog", "4,5"], ["(as it is)"] + [
                    "rx-*/rps_cpus=%s netdev_max_backlog=%d" % (mask, length)
                    for mask in "36" for length in (4, 5)])):
            status, lines, _ = answered(WEB, PLAN, *LOAD, *words)
            found = sorted(row[3] for row in rows_of(lines))
            self.assertEqual((status, found), (0, sorted(wanted)), words)

    def test_a_setting_that_is_refused(self):
        """The others have their rows."""
        status, lines, said = answered(WEB, PLAN, *LOAD, "--cpu", "9=5")
        self.assertEqual((status, lines), (3, []))
        self.assertIn("steer-best: --cpu 9=5: the plan has the processors 0 to 3\n", said)


class Search(unittest.TestCase):
    def test_smallest(self):
        """Bisection over values of which those from a limit on lose nothing."""
        for start, limit, low, high, wanted in (
                (16, 30, 1, 65536, (30, 29)), (1000, 30, 1, 65536, (30, 29)),
                (30, 30, 1, 65536, (30, 29)), (29, 30, 1, 65536, (30, 29)),
                (5, 1, 1, 65536, (1, None)), (1, 1, 1, 9, (1, None)),
                (7, 65537, 1, 65536, (None, 65536)), (65536, 65536, 1, 65536, (65536, 65535)),
                (0, 3, 0, 65535, (3, 2)), (9, 0, 0, 65535, (0, None)), (0, 0, 0, 9, (0, None))):
            asked = []

            def loses(value):
                asked.append(value)
                return value < limit

            self.assertEqual(best.smallest(loses, start, low, high, True), wanted)
            self.assertEqual(len(asked), len(set(asked)))
            self.assertLess(len(asked), 34)

    def test_smallest_to_one_in_a_hundred(self):
        found, below = best.smallest(lambda value: value < 12345, 20000, 1, 10 ** 9, False)
        self.assertTrue(below < 12345 <= found)
        self.assertLessEqual(found - below, found // 100)

    def test_least(self):
        """The smallest value loses nothing, and the one below as many as steer-steps says."""
        for least, rate in (("backlog", "20000"), ("pps", "20000"), ("members", "440000")):
            words = ["--pps", rate] + LOAD[2:] + ["--least", least]
            status, lines, _ = answered(WEB, example("rps.json"), *words)
            self.assertEqual(status, 0)
            row = re.split("  +", lines[1].strip())
            drops, below, found = int(row[1]), row[2].split(), row[3].split()
            self.assertGreater(drops, 0)
            for (rate, *rest), lost in ((below, drops), (found, 0)):
                setting = [word for word in rest if "=" in word]
                with Folder() as folder:
                    plan = example("rps.json")
                    if setting:
                        _, text, _ = inside("steer-set", plan, *setting)
                        plan = folder.write("plan.json", text)
                    load = ["--pps", rate] + LOAD[2:]
                    self.assertEqual(int(drops_of_steps(plan, WEB, *load)), lost)

    def test_least_as_by_a_whole_schedule_for_each_value(self):
        """Each schedule of the other way begins anew, and none ends at the first drop."""
        def rows(question, rate, values, words_of):
            return best.Least(*(None if value is None else best.trial(*words_of(value), question)
                                for value in values))

        with Folder() as folder:
            for name, change, rates in (("rps", {}, (2000, 20000, 300000)),
                                        ("rfs", {}, (2000, 20000, 1000000)),
                                        ("rfs", {"filters": 64}, (20000,)),
                                        ("rps", {"backlog": 40, "limited": [1, 2, 3]}, (20000,))):
                with open(example(name + ".json")) as stream:
                    plan = dict(json.load(stream), **change)
                question = asked(folder, plan, "--pps", "9", *LOAD[2:])
                for rate in rates:
                    def loses(value, words_of):
                        return bool(best.trial(*words_of(value), question).drops)

                    def backlog(value):
                        return best.Setting((best.BACKLOG + "%d" % value,)), rate

                    def other(value):
                        return best.Setting(), value

                    values = best.smallest(lambda value: loses(value, backlog), 7, 0, 65535, True)
                    self.assertEqual(best.least_backlog(best.Setting(), rate, question),
                                     rows(question, rate, values, backlog))
                    values = best.smallest(lambda value: loses(value, other), rate, 1, 10 ** 9,
                                           False)
                    self.assertEqual(best.least_rate(best.Setting(), rate, question),
                                     rows(question, rate, values, other))

    def test_fewest_members_as_by_a_whole_schedule_for_each_mask(self):
        with Folder() as folder:
            with open(PLAN) as stream:
                question = asked(folder, json.load(stream), "--pps", "9", *LOAD[2:])
            for rate in (20000, 300000, 3000000):
                tried = [best.trial(best.Setting((best.MASK + mask,)), rate, question)
                         for mask in ("2", "6", "e", "f")]
                below = None
                for row in tried:
                    if not row.drops:
                        break
                    below = row
                wanted = best.Least(None if row is below else row, below)
                self.assertEqual(best.least_members(best.Setting(), rate, question), wanted)

    def test_no_setting_without_drops(self):
        """All packets at once, and too many for any mask."""
        with Folder() as folder:
            with open(PLAN) as stream:
                plan = dict(json.load(stream), backlog=1)
            name = folder.write("plan.json", json.dumps(plan).encode())
            _, lines, _ = answered(WEB, name, "--pps", "10", "--read", "--least", "members")
        self.assertEqual(lines[1].split()[-1], "none")


class Parts(unittest.TestCase):
    def test_the_plan_is_that_of_steer_set(self):
        """The bitmap of the flow limit names those that put, and a plan those that are put to."""
        for words in (("flow_limit_cpu_bitmap=3",), ("rx-*/rps_cpus=6", "netdev_max_backlog=9"),
                      ("flow_limit_cpu_bitmap=2", "rx-1/home=0", "apps=1-2", "indir=equal:1")):
            with Folder() as folder:
                with open(PLAN) as stream:
                    question = asked(folder, json.load(stream), "--pps", "9")
                _, text, _ = inside("steer-set", question.source, *words)
                self.assertEqual(best.plan_with(question, words), json.loads(text))

    def test_masks(self):
        """The first processors of the masks, then those above them, then all."""
        for cpus, masks, wanted in (
                (4, [[2, 3], [3]], ["4", "c", "f"]), (4, [[]], ["1", "3", "7", "f"]),
                (16, [[4, 5]], ["0010", "0030", "00f0", "0ff0", "ffff"]),
                (3, [[2]], ["4", "5", "7"])):
            plan = {"cpus": cpus, "queues": [{"mask": mask} for mask in masks]}
            self.assertEqual(best.masks_of(plan), wanted)

    def test_flows(self):
        for sock, queues, flows, entries in ((0, 2, 256, 512), (64, 2, 256, 64), (64, 2, 0, 0),
                                             (0, 16, 32768, 65536)):
            plan = {"sock": sock, "queues": [None] * queues}
            self.assertEqual(best.flow_words(plan, flows), (
                "rx-*/rps_flow_cnt=%d" % flows, "rps_sock_flow_entries=%d" % entries))

    def test_order(self):
        """Drops count first, then the wait, the busiest processor, the moves."""
        keys = [(0, 5, 60, 9), (0, 5, 61, 1), (0, 6, 50, 0), (1, 0, 50, 0)]
        rows = [best.Row(best.Setting(("x",)), 1.0, drops, moves, [most, 100 - most],
                         waits.Waits(0, wait, wait, [0.0, 0.0]), b"")
                for drops, wait, most, moves in keys]
        rows.insert(1, rows[0]._replace(moves=10))
        self.assertEqual(list(best.ranked(rows[::-1] + ["refused"])), rows)


class Words(unittest.TestCase):
    def test_wrong_words(self):
        for words, text in (
                (["-", PLAN], "CAPTURE and PLAN are files, which the command lines name again"),
                ([WEB, PLAN, "--least", "backlog", "--backlog", "3"],
                 "--least backlog does not go with --backlog"),
                ([WEB, PLAN, "--least", "members", "--mask", "3"],
                 "--least members does not go with --mask"),
                ([WEB, PLAN, "--mask", "1f"], "rx-*/rps_cpus=1f: bit 4 is set, and the plan has "
                                              "processors 0 to 3"),
                ([WEB, PLAN, "--flows", "x"], "argument --flows: x is not a whole number from 0 "
                 "to 32768 (--help says more)"),
                ([WEB, PLAN, "--set", "'"], "argument --set: ': No closing quotation (--help says "
                 "more)"),
                ([WEB, PLAN, "--draw", "3"], "--draw goes with --kernel"),
                ([WEB, PLAN, "--readers", "80=1"], "--readers goes with --kernel"),
                ([WEB, PLAN, "--kernel", "--readers", "80=1 x"], "argument --readers: x is not "
                 "PORT=CPU or ADDRESS=CPU (--help says more)"),
                ([WEB, PLAN, "--backlog", ",".join(map(str, range(1, 1003)))],
                 "1002 settings, and at most 1000 are tried")):
            status, out, said = inside("steer-best", *words, "--pps", "5", "--read")
            self.assertEqual((status, out, said), (2, b"", "steer-best: %s\n" % text))

    def test_help_and_a_closed_pipe(self):
        status, out, _ = inside("steer-best", "--help")
        self.assertEqual(status, 0)
        for part in ("--mask M,M,..", "--least {backlog,members,pps}", "--kernel", "example:",
                     cli.APART, cli.STATUSES):
            self.assertIn(part, out.decode())
        self.assertEqual(run_closed("steer-best", WEB, PLAN, *LOAD, "--backlog", "9"), (0, ""))

    def test_how_a_line_names_the_programs(self):
        """Beside this program, and steer as it is found."""
        _, lines, _ = answered(WEB, PLAN, *LOAD, "--backlog", "9")
        for line in commands_of(lines):
            self.assertIn(os.path.join(TOOLS, "steer-steps"), line)
            self.assertIn('&& "$STEER" replay best-', line)


if __name__ == "__main__":
    unittest.main()
