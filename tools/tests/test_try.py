"""Tests of steer-try, and of the trials that it makes."""

import json
import os
import re
import shlex
import shutil
import statistics
import subprocess
import unittest

from inside import inside
from reporting import Folder, run, run_closed
from running import TOOLS, example, sample

from steerlib import cli, numbers, trial

WEB = example("web.pcap")
OWN = ": a kernel steers them by a hash of its own, so their processors are not to be foretold"
RULE = "by the manual's rule, hash modulo size; a kernel picks other members (docs/kernel.md)"
PLANS = [example(name) for name in ("rps.json", "rps-wide.json", "rfs.json")]


def tried(*words, data=b""):
    """The status, the lines of the output and those of the messages of steer-try."""
    status, out, said = inside("steer-try", *words, data=data)
    return status, out.decode().splitlines(), said.splitlines()


def drops_of_steps(*words):
    """The drops that steer-steps says of its schedule."""
    return re.search(r", (\d+) dropped\n$", inside("steer-steps", *words)[2])[1]


def replayed(plan, seed, packets):
    """The report that steer gives of a plan with a seed and four steps a packet, as lines."""
    with open(plan) as stream:
        settings = json.load(stream)
    settings["steps"] = {"seed": seed, "count": 4 * packets}
    with Folder() as folder:
        name = folder.write("plan.json", json.dumps(settings).encode())
        return cli.run_steer(["replay", name, WEB]).decode().splitlines()


class Seeds(unittest.TestCase):
    def test_the_rows_are_those_of_replays_with_each_seed(self):
        """Means, ranges and moves over eight seeds are those that another program gave."""
        status, out, said = tried(WEB, *PLANS)
        self.assertEqual((status, said), (0, []))
        rows = [re.split(r"  +", line.strip()) for line in out]
        self.assertEqual(rows[0], ["seeds", "drops", "range", "moves", "busiest", "plan"])
        for row, mean, span, moves, busiest, plan in zip(
                rows[1:], ("6.1", "1.5", "4.0"), ("0..14", "0..8", "0..13"), ("0.0", "0.0", "4.0"),
                ("cpu 3 83.1%", "cpu 3 56.5%", "cpu 3 "), PLANS):
            self.assertEqual([row[0], row[1].split()[0], row[2], row[3], row[5]],
                             ["8", mean, span, moves, os.path.basename(plan)])
            self.assertTrue(row[4].startswith(busiest), row)
        self.assertEqual(out[4:], ["", RULE])

    def test_mean_and_deviation(self):
        reports = [replayed(PLANS[2], seed, 177) for seed in (3, 4, 5)]
        drops = [sum(" at drop " in line for line in lines) for lines in reports]
        moves = [sum(" why passed " in line for line in lines) for lines in reports]
        to_cpu = [sum(" cpu 3 why " in line for line in lines if line.startswith("p "))
                  for lines in reports]
        self.assertGreater(len(set(drops)), 1)
        _, out, _ = tried("--seeds", "3-5", WEB, PLANS[2])
        self.assertEqual(re.split(r"  +", out[1].strip()), [
            "3", "%.1f ± %.1f" % (statistics.mean(drops), statistics.stdev(drops)),
            "%d..%d" % (min(drops), max(drops)), "%.1f" % statistics.mean(moves),
            "cpu 3 %.1f%%" % (100 * sum(to_cpu) / (3 * 177)), "rfs.json"])
        _, out, _ = tried("--seeds", "4-4", WEB, PLANS[2])
        self.assertTrue(out[1].split("..")[0].split() == ["1", "%.1f" % drops[1], "±", "0.0",
                                                          str(drops[1])], out)

    def test_rows_do_not_depend_on_order_jobs_or_company(self):
        _, out, _ = tried("--seeds", "2", "--jobs", "1", WEB, *PLANS)
        _, turned, _ = tried("--seeds", "2", "--jobs", "3", WEB, *PLANS[::-1])
        self.assertEqual(out[1:4], turned[3:0:-1])
        _, twice, _ = tried("--seeds", "2", WEB, PLANS[0], PLANS[0])
        self.assertEqual(twice[1], twice[2])
        self.assertEqual(twice[1].split(), out[1].split())


class Rates(unittest.TestCase):
    def test_the_rows_are_those_of_steer_steps(self):
        """With the further words that both take."""
        words = ["--read", "--reply", "--speed", "100", "--cpu", "1=900"]
        rates = ["5000", "20000", "9000.5"]
        status, out, _ = tried(WEB, "--pps", ",".join(rates), *words, PLANS[0], PLANS[2])
        self.assertEqual(status, 0)
        self.assertEqual(out[0].split(), ["5000", "9000.5", "20000", "drops", "at", "packets/s"])
        for line, plan in zip(out[1:3], (PLANS[0], PLANS[2])):
            drops = [drops_of_steps(plan, WEB, "--pps", rate, *words)
                     for rate in ("5000", "9000.5", "20000")]
            self.assertEqual(line.split(), drops + [os.path.basename(plan)])
        self.assertEqual(len(set(out[1].split())), 4)
        heads = [line.split()[-1] for line in out if line.split()[:1] == ["5000"]]
        self.assertEqual(heads, ["packets/s", "moves", "busiest", "most", "highest"])
        self.assertEqual((len(out), out[-2:]), (5 * 3 + 4 + 2, ["", RULE]))

    def test_a_plan_that_cannot_be_read_keeps_its_message_and_the_others_their_rows(self):
        with Folder() as folder:
            with open(PLANS[1], "rb") as stream:
                bad = folder.write("bad.json", stream.read().replace(b"4,", b"64,", 1))
            no_json = folder.write("worse.json", b"{,")
            words = ["--pps", "500", "--read"]
            status, lines, said = tried(WEB, *words, bad, PLANS[0], no_json, "none.json")
            alone = tried(WEB, *words, PLANS[0])
        self.assertEqual((status, alone[0], len(said)), (3, 0, 3), said)
        self.assertRegex(said[0], "^steer-try: .*bad.json:2:11: refused: cpus: ")
        self.assertRegex(said[1], "^steer-try: .*worse.json:1:2: no plan: ")
        self.assertEqual(said[2], "steer-try: none.json: No such file or directory")
        self.assertEqual(lines[1].split(), ["refused", "bad.json"])
        self.assertEqual(lines[2].split(), alone[1][1].split())

    def test_a_trial_that_is_refused(self):
        """A processor that one of the plans has not."""
        with Folder() as folder:
            small = {"cpus": 2, "queues": [{"home": 0, "mask": [], "flows": 0}], "sock": 0,
                     "apps": [0], "tx": [{"cpus": [], "queues": []}], "steps": []}
            plan = folder.write("small.json", json.dumps(small).encode())
            status, out, said = tried(WEB, "--pps", "900", "--cpu", "3=5", PLANS[0], plan)
        self.assertEqual((status, out[2].split()), (3, ["refused", "small.json"]))
        self.assertNotIn("refused", out[1])
        self.assertEqual(said, [
            "note: %s: rx 0 without RPS and RFS: a kernel handles a card's packets there at once, "
            "without a backlog, so that netdev_max_backlog does nothing and drops on cpu 0 for "
            "them are none of a machine's" % plan,
            "steer-try: --cpu 3=5: the plan has the processors 0 to 1"])

    def test_what_is_odd_is_noted_once(self):
        _, _, said = tried(WEB, "--pps", "500,600", PLANS[2])
        self.assertEqual(said, ["note: %s: it has a table of readers (sock), and without --read no "
                                "reader is ever seen, so that RFS moves no flow" % PLANS[2]])

    def test_the_rule_of_the_table(self):
        for words, rule in (((), RULE), (("--kernel",), trial.KERNEL)):
            status, out, said = tried(WEB, "--seeds", "1", PLANS[0], *words)
            self.assertEqual((status, out[-1]), (0, rule), said)
        self.assertEqual(trial.KERNEL, "by a kernel's rule, the hash scaled (docs/kernel.md)")

    def test_what_holds_of_several_plans_is_said_once(self):
        """Of the 177 packets 5 are of UDP, 168 of TCP and 4 of ARP; kinds 2 are TCP's ports."""
        with Folder() as folder:
            paths = []
            for number, kinds in enumerate((27, 27, 2, 63, 4)):
                with open(PLANS[0], "rb") as stream:
                    made = dict(json.load(stream), kinds=kinds)
                paths.append(folder.write("%d.json" % number, json.dumps(made).encode()))
            status, _, said = tried(WEB, "--seeds", "1", *paths)
        self.assertEqual((status, said), (0, [
            "note: " + text for text in (
                "%s, %s: 5 of 177 packets (2.8%%) are hashed without ports (kinds 27)" % (
                    paths[0], paths[1]) + OWN,
                "%s: 5 of 177 packets (2.8%%) are hashed without ports (kinds 2)" % paths[2] + OWN,
                "%s: 168 of 177 packets (94.9%%) are hashed without ports (kinds 4)" % paths[4]
                + OWN)]))


class Elsewhere(unittest.TestCase):
    def test_commands_and_reports_make_the_same_table(self):
        with Folder() as folder:
            named = shutil.copy(PLANS[0], folder.path("a plan's (1).json"))
            out = folder.path("out folder")
            for words in (["--pps", "500,1500.5", "--read", "--cpu", "3=700", "--speed", "2"],
                          ["--seeds", "2-3"]):
                status, lines, _ = tried(WEB, *words, "--commands", "--reports", out, PLANS[1],
                                         named)
                self.assertEqual((status, len(lines)), (0, 4))
                for line in reversed(lines):
                    self.assertEqual(shlex.split(line)[:2], [os.path.join(TOOLS, "steer-try"), WEB])
                    ended = subprocess.run(["sh", "-c", line], stdout=subprocess.PIPE)
                    self.assertEqual((ended.returncode, ended.stdout), (0, b""))
                _, direct, _ = tried(WEB, *words, named, PLANS[1])
                status, lines, said = tried("--collect", out)
                self.assertEqual((status, said), (0, []))
                self.assertEqual(sorted(lines[:-1]), sorted(direct[:-1]))
                self.assertEqual(lines[-1], trial.EITHER)
                shutil.rmtree(out)

    def test_a_kept_report_is_that_of_the_whole_plan(self):
        """By steer, of the plan that steer-steps writes."""
        words = ["--pps", "500", "--read"]
        with Folder() as folder:
            tried(WEB, *words, "--reports", folder.path("out"), PLANS[2])
            _, plan, _ = inside("steer-steps", PLANS[2], WEB, *words)
            wanted = cli.run_steer(["replay", folder.write("plan.json", plan), WEB])
            name, = (name for name in os.listdir(folder.path("out")) if name.endswith(".report"))
            with open(os.path.join(folder.path("out"), name), "rb") as stream:
                self.assertEqual(stream.read(), wanted)

    def test_reports_of_trials_that_were_refused(self):
        with Folder() as folder:
            out = folder.path("out")
            status, lines, _ = tried(WEB, "--pps", "500", "--reports", out, "none.json", PLANS[0])
            self.assertEqual((status, lines), (3, []))
            kept = sorted(os.listdir(out))
            self.assertEqual([name[-8:] for name in kept], ["0.report", "00.times", ".refused"])
            status, lines, said = tried("--collect", out)
            self.assertEqual((status, said),
                             (3, ["steer-try: none.json: No such file or directory"]))
            self.assertEqual([line.split()[-1] for line in lines[:3]],
                             ["packets/s", "rps.json", "none.json"])
            drops = lines[1].split()[0]
            os.rename(os.path.join(out, kept[2]), os.path.join(out, kept[2].replace("500", "5")))
            _, lines, _ = tried("--collect", out)
            self.assertEqual([line.split()[:2] for line in lines[:3]],
                             [["5", "500"], ["-", drops], ["refused", "-"]])

    def test_a_later_trial_takes_the_place_of_an_earlier_one(self):
        with Folder() as folder:
            plan, out = folder.path("p.json"), folder.path("out")
            words = [WEB, "--seeds", "1", "--reports", out, plan]
            for data, status, ending in ((b"{", 3, ".refused"), (None, 0, ".report"),
                                         (b"{", 3, ".refused")):
                if data is None:
                    shutil.copy(PLANS[0], plan)
                else:
                    folder.write("p.json", data)
                self.assertEqual(tried(*words)[0], status)
                self.assertEqual([os.path.splitext(name)[1] for name in os.listdir(out)],
                                 [ending])

    def test_folders_that_are_not_of_use(self):
        with Folder() as folder:
            self.assertEqual(tried("--collect", folder.name), (3, [], [
                "steer-try: %s: refused: it has no report of a trial" % folder.name]))
            tried(WEB, "--seeds", "1", "--reports", folder.name, PLANS[0])
            tried(example("mixed.pcap"), "--seeds", "1", "--reports", folder.name, PLANS[1])
            self.assertEqual(tried("--collect", folder.name), (3, [], [
                "steer-try: %s: refused: it has reports of captures of 3 and of 177 packets"
                % folder.name]))
            name = folder.path(trial.report_name(trial.Trial(PLANS[1], None, "seed", 1))
                               + ".report")
            with open(name, "r+b") as stream:
                stream.truncate(40)
            status, lines, said = tried("--collect", folder.name)
            self.assertEqual((status, lines[1].split()[:2]), (3, ["0", "refused"]))
            self.assertIn("cut short", said[0])
        ended = run("steer-try", "--collect", folder.name)
        self.assertEqual((ended.returncode, ended.stdout, ended.stderr),
                         (4, "", "steer-try: %s: No such file or directory\n" % folder.name))

    def test_a_trial_that_is_killed(self):
        with self.assertRaises(cli.Refused) as caught:
            trial.at_once(os._exit, 2, [(1,), (1,)])
        self.assertEqual(str(caught.exception), "--jobs 2: refused: a trial ended without a "
                         "result, as where memory is short; fewer at once may do")

    def test_names_of_reports(self):
        for plan, kind, value in (("a.json", "seed", 7), ("../x y/%2F.json", "pps", 2000.0),
                                  ("b.seed-3.report", "pps", 0.25), ("é", "pps", 1e22)):
            name = trial.report_name(trial.Trial(plan, None, kind, value))
            self.assertNotIn("/", name)
            self.assertEqual(trial.trial_of(name + ".report"), (plan, kind, value, ".report"))
        for name in ("a.json", "a.seed-x.report", "a.seed-1.5.report", "a.pps-1e.report"):
            self.assertIsNone(trial.trial_of(name))


class Words(unittest.TestCase):
    def test_wrong_words(self):
        for words, text in (
                ([], "a CAPTURE and a PLAN at the least are needed (--help says more)"),
                ([WEB], "a CAPTURE and a PLAN at the least are needed (--help says more)"),
                ([WEB, "-"], "standard input can only be the CAPTURE, and not with --commands"),
                (["--commands", "--reports", "x", "-", "p"], "standard input can only be the "
                 "CAPTURE, and not with --commands"),
                (["--commands", WEB, "p"],
                 "--commands needs --results FOLDER or --reports FOLDER"),
                (["--read", WEB, "p"], "--cpu, --read, --reply, --speed and --offline go with --pps"),
                (["--collect", "x", WEB], "--collect takes a folder, and neither files nor trials"),
                (["--pps", "5", "--seeds", "2", WEB, "p"], "argument --seeds: not allowed with "
                 "argument --pps (--help says more)"),
                (["--pps", "5,,6", WEB, "p"], "argument --pps:  is not a number above 0 (--help "
                 "says more)"),
                (["--seeds", "0", WEB, "p"], "argument --seeds: 0 is not a whole number from 1 to "
                 "18446744073709551615 (--help says more)"),
                (["--seeds", "5-4", WEB, "p"], "argument --seeds: 5-4 is not 1 to 100000 seeds "
                 "(--help says more)"),
                (["--jobs", "0", WEB, "p"], "argument --jobs: 0 is not a whole number from 1 to "
                 "1024 (--help says more)")):
            self.assertEqual(tried(*words), (2, [], ["steer-try: " + text]))

    def test_captures(self):
        cooked = sample("cap", "any.pcap")
        for words, text in (([], "capture: bad link 276"),
                            (["--pps", "5"], "packet 0 has link type 276, and steer reads 1 "
                                             "(Ethernet); steer-cap turns others into it")):
            self.assertEqual(tried(cooked, *words, PLANS[0]), (3, [], [
                "steer-try: %s: refused: %s" % (cooked, text)]))
        with open(WEB, "rb") as stream:
            self.assertEqual(tried("--seeds", "1", "-", PLANS[0], data=stream.read()),
                             tried("--seeds", "1", WEB, PLANS[0]))

    def test_numbers(self):
        self.assertEqual([numbers.number_text(value) for value in (3, 2000.0, 0.5, 1e22)],
                         ["3", "2000", "0.5", "1" + "0" * 22])
        self.assertEqual((list(numbers.seeds("3")), list(numbers.seeds("0-2"))),
                         ([1, 2, 3], [0, 1, 2]))
        self.assertEqual(numbers.rates("5,2,5.0,1e3"), [5, 2, 1000])

    def test_help_and_a_closed_pipe(self):
        status, lines, _ = tried("--help")
        self.assertEqual(status, 0)
        for part in ("--seeds N", "--pps A,B,..", "--jobs N", "--commands", "--collect FOLDER",
                     "example:", "parallel", cli.APART, cli.STATUSES):
            self.assertIn(part, "\n".join(lines))
        self.assertEqual(run_closed("steer-try", "--seeds", "1", WEB, PLANS[0]), (0, ""))


if __name__ == "__main__":
    unittest.main()
