"""Tests of steer-top."""

import gzip
import os
import threading
import unittest

from reporting import REPLIED, Folder, example, replayed, run, run_closed

from steerlib import cli, flows, tables

REPLIED_SCREEN = """\
packets 3 of 3   dropped 0 (0.0%)
flows moved 0 times, kept 0 times   replies 3

cpu  packets   share  dropped
  1        3  100.0%        0  ########################
no packets on cpu 0, 2

queue  packets   share
    0        3  100.0%  ########################

tx  replies   share
 0        3  100.0%  ########################
no packets on tx 1
picked by the reader's processor and the receive hash; a kernel takes others unless --tx drew its \
hash (docs/kernel.md)
"""

THREE_SCREEN = """\
packets 3 of 3   dropped 1 (33.3%)
flows moved 1 times, kept 1 times   replies 0

cpu  packets  share  dropped
  1        2  66.7%        1  ########################
  2        1  33.3%        0  ############
no packets on cpu 0

queue  packets   share
    0        3  100.0%  ########################

packets   share  dropped  queues  cpus  flow
      3  100.0%        1       0   1,2  tcp4 66.9.149.187:2794 > 161.142.100.80:1766
"""


def contents(name):
    """The bytes of a file."""
    with open(name, "rb") as stream:
        return stream.read()


class Top(unittest.TestCase):
    def test_worked_reports(self):
        ended = run("steer-top", "-", data=REPLIED)
        self.assertEqual((ended.stdout, ended.stderr, ended.returncode), (REPLIED_SCREEN, "", 0))
        with Folder() as folder:
            path = folder.write("report", replayed("three", "three"))
            names = folder.write("hash", cli.run_steer(["hash", example("three.pcap")]))
            ended = run("steer-top", path, names)
        self.assertEqual((ended.stdout, ended.stderr, ended.returncode), (THREE_SCREEN, "", 0))

    def test_what_is_under_way_and_what_was_not_done(self):
        plan = {"cpus": 3, "queues": [{"home": 0, "mask": [1], "flows": 0}], "sock": 0,
                "apps": [2], "tx": [{"cpus": [], "queues": []}],
                "steps": ["arrive", "arrive", "poll 0", "offline 0", "online 1", "expire"]}
        with Folder() as folder:
            shown = run("steer-top", folder.replay(plan, example("three.pcap"))).stdout
        self.assertEqual(shown.splitlines()[:4], [
            "packets 2 of 3   dropped 0 (0.0%)",
            "flows moved 0 times, kept 0 times   replies 0",
            "still under way: ring 1, backlog 1",
            "commands 3, of which 1 were not done"])

    def test_no_packets(self):
        plan = {"cpus": 2, "queues": [{"home": 0, "mask": [], "flows": 0}], "sock": 0,
                "apps": [0], "tx": [{"cpus": [], "queues": []}], "steps": []}
        with Folder() as folder:
            ended = run("steer-top", folder.replay(plan, example("three.pcap")))
        self.assertEqual(ended.stdout.splitlines()[0], "packets 0 of 3   dropped 0 (0.0%)")
        self.assertIn("no packets on cpu 0, 1\n", ended.stdout)
        self.assertIn("no packets on queue 0\n", ended.stdout)

    def test_drops_by_the_flow_limit_are_told_apart(self):
        text = REPLIED.replace(b"at 1 app 0 in 1 place inbox",
                               b"at drop 1 0 0 flow 130 app 0 in - place drop")
        text = text.replace(b"at 2 app 0 in 2 place inbox",
                            b"at drop 2 0 0 app 0 in - place drop")
        text = text.replace(b"accepted 3 pulled 3 delivered 3 retired 3 dropped 0",
                            b"accepted 1 pulled 1 delivered 1 retired 1 dropped 2")
        shown = run("steer-top", "-", data=text).stdout
        self.assertEqual(shown.splitlines()[0],
                         "packets 3 of 3   dropped 2 (66.7%), 1 of them by the flow limit")

    def test_drops_where_a_kernel_has_no_backlog(self):
        """Queue 0 has a mask, queue 1 has none, and both put to the backlog of processor 1."""
        steps = ["arrive", "arrive", "arrive", "poll 0", "poll 0", "poll 0"]
        plan = {"cpus": 2, "queues": [{"home": 1, "mask": [], "flows": 0}], "sock": 0,
                "backlog": 1, "apps": [0], "tx": [{"cpus": [], "queues": []}], "steps": steps}
        masked = dict(plan, queues=[{"home": 0, "mask": [1], "flows": 0}])
        moved = dict(masked, steps=steps + ["mask 0 1"])
        line = ("drops of queues without a mask, where a kernel has no backlog for a card: 2 on "
                "cpu 1")
        with Folder() as folder:
            for made, wanted in ((plan, line), (masked, None),
                                 (moved, "the plan sets masks by commands: drops are not marked")):
                report = folder.replay(made, example("three.pcap"))
                bare = run("steer-top", report).stdout
                shown = run("steer-top", report, "--plan", folder.path("plan.json")).stdout
                self.assertIn("dropped 2 (66.7%)", bare)
                more = [text for text in shown.splitlines() if text not in bare.splitlines()]
                self.assertEqual(more, [wanted] if wanted else [])

    def test_drops_of_an_overload_are_told(self):
        """A backlog holds one packet: of five packets four are dropped while none is taken."""
        plan = {"cpus": 2, "queues": [{"home": 1, "mask": [], "flows": 0}], "sock": 0,
                "backlog": 1, "apps": [0], "tx": [{"cpus": [], "queues": []}]}
        at_once = ["arrive"] * 5 + ["poll 0"] * 5
        taken_between = ["arrive", "poll 0", "arrive", "poll 0", "drain 1"] * 2
        line = ("overload: at 3 of 4 drops the processor had taken no packet since its drop "
                "before; in a run with threads that says nothing of a rate")
        with Folder() as folder:
            for steps, dropped, wanted in ((at_once, "4 (80.0%)", [line]),
                                           (taken_between, "2 (50.0%)", [])):
                report = folder.replay(dict(plan, steps=steps), example("web.pcap"))
                shown = run("steer-top", report).stdout.splitlines()
                self.assertIn("dropped " + dropped, shown[0])
                self.assertEqual([text for text in shown if text.startswith("overload")], wanted)

    def test_busy_commands_are_counted_by_their_kind(self):
        """A poller in the gate refuses both commands, a packet in the backlog one of them."""
        steps = ["arrive", "take 0", "enter 0", "mask 0 2", "flows 0 4", "look 0", "weigh 0",
                 "put 0", "leave 0", "mask 0 2", "drain 1", "mask 0 2"]
        plan = {"cpus": 4, "queues": [{"home": 0, "mask": [1], "flows": 1}], "sock": 4,
                "apps": [2], "tx": [{"cpus": [], "queues": []}], "steps": steps}
        with Folder() as folder:
            shown = run("steer-top", folder.replay(plan, example("three.pcap"))).stdout
        self.assertEqual(shown.splitlines()[2:4], [
            "commands 4, of which 3 were not done",
            "busy: mask 2 times, flows 1 times; in a run with threads each try counts as a "
            "command"])

    def test_packets_by_a_filter_are_counted(self):
        shown = run("steer-top", "-", data=REPLIED.replace(b"via reta", b"via filter", 2)).stdout
        self.assertIn("\nby a filter of accelerated RFS: 2 packets\n", shown)

    def test_ten_flows_and_the_rest(self):
        with Folder() as folder:
            path = folder.write("report", replayed("rps", "web"))
            names = folder.write("hash", cli.run_steer(["hash", example("web.pcap")]))
            lines = run("steer-top", path, names).stdout.splitlines()
            self.check_flow(path, names, lines)
            self.assertEqual(lines[-1], "      4   2.3%        0       0     0  no IP")
            many = "".join("packet %d udp4 0a000001 0a000002 %d 53 hash 00000000 entry 0 queue 0\n"
                           % (number, number) for number in range(177)) + "packets 177\n"
            lines = run("steer-top", path, folder.write("many", many.encode())).stdout.splitlines()
            self.assertEqual(lines[-1], "167 more flows with 167 packets")

    def check_flow(self, path, names, lines):
        """The connection from port 40001 has the packets and drops that its lines have."""
        with open(names) as stream:
            of_it = {line.split()[1] for line in stream if " 40001 80 " in line}
        with open(path) as stream:
            drops = sum(line.split()[1] in of_it for line in stream if " at drop " in line)
        self.assertEqual((len(of_it), drops > 0), (65, True))
        self.assertIn("     65  36.7%%  %7d       1     3  tcp4 10.0.0.11:40001 > 10.0.0.1:80"
                      % drops, lines)

    def test_faults(self):
        with Folder() as folder:
            path = folder.write("report", REPLIED)
            cases = (
                ([path, folder.write("a", b"packets 0\n")], 3,
                 "a: refused: has 0 packets, and the report is of 3"),
                ([path, folder.write("b", b"packet 0 none hash - entry - queue 0\n")], 3,
                 "b: refused: cut short after line 1 (no line `packets`)"),
                ([path, folder.write("c", b"packet 1 none hash - entry - queue 0\n")], 3,
                 "c: refused: line 1 is of packet 1, expected 0"),
                ([path, folder.write("d", b"packet 0 none hash - entry - queue 0\npackets 2\n")],
                 3, "d: refused: the last line counts 2 packets, and there are 1"),
                ([path, path], 4, "report: line 1 is not output of `steer hash`"),
                ([folder.path("none")], 4, "none: No such file or directory"),
                ([folder.name], 4, "Is a directory"),
                ([folder.write("e", REPLIED[:-20])], 3, "cut short after line 17"),
                (["-", "-"], 2, "only one of REPORT, HASH, PLAN and --times can be "
                 "standard input"),
                ([path, "--plan", example("rps.json")], 3, "rps.json: refused: has 2 queues and 4 "
                 "processors, and the report 1 and 3"),
                ([path, "--plan", path], 4, "no plan: "), ([], 2, "REPORT"))
            for words, status, text in cases:
                ended = run("steer-top", *words)
                self.assertEqual((ended.returncode, ended.stdout), (status, ""), words)
                self.assertTrue(ended.stderr.startswith("steer-top: "), ended.stderr)
                self.assertIn(text, ended.stderr)
                self.assertEqual(ended.stderr.count("\n"), 1, ended.stderr)
            self.assertEqual(run_closed("steer-top", path), (0, ""))

    def test_help(self):
        ended = run("steer-top", "--help")
        self.assertEqual((ended.returncode, ended.stderr), (0, ""))
        self.assertIn("not part of the proved program", ended.stdout)
        self.assertIn("steer-top report hash.txt", ended.stdout)


class OfACapture(unittest.TestCase):
    """A capture and a plan at once, held to the programs that do it in turn."""

    def test_the_screen_is_that_of_a_report_that_was_made_in_turn(self):
        with Folder() as folder:
            packed = folder.write("web.gz", gzip.compress(contents(example("web.pcap"))))
            names = folder.write("hash", cli.run_steer(["hash", example("web.pcap")]))
            for words in ([], ["--cpu", "1=900", "--speed", "50"], ["--kernel"],
                          ["--kernel", "--reader", "80=2", "--offline", "1"]):
                words = ["--pps", "20000", "--read", *words]
                times, capture = folder.path("times"), example("web.pcap")
                more = []
                if "--kernel" in words:
                    capture = folder.path("k.pcap")
                    more = ["--capture", capture]
                made = run("steer-steps", example("rfs.json"), example("web.pcap"), "--times",
                           times, *words, *more)
                report = folder.write("report", cli.run_steer(
                    ["replay", folder.write("plan.json", made.stdout.encode()), capture]))
                wanted = run("steer-top", report, names, "--times", times, "--plan",
                             folder.path("plan.json")).stdout
                for name in (example("web.pcap"), packed):
                    ended = run("steer-top", name, *words, example("rfs.json"))
                    self.assertEqual(ended.returncode, 0)
                    screen, rule = ended.stdout.rsplit("\n\n", 1)
                    self.assertEqual(screen + "\n", wanted)
                    self.assertEqual(rule.startswith("by a kernel's"), "--kernel" in words)

    def test_the_steps_of_the_plan_itself(self):
        with Folder() as folder:
            report = folder.write("report", replayed("three", "three"))
            names = folder.write("hash", cli.run_steer(["hash", example("three.pcap")]))
            wanted = run("steer-top", report, names, "--plan", example("three.json")).stdout
        ended = run("steer-top", example("three.pcap"), example("three.json"))
        self.assertEqual(ended.stdout, wanted + "\nby the manual's rule, hash modulo size; a "
                         "kernel picks other members (docs/kernel.md)\n")
        self.assertEqual(run("steer-top", example("three.pcap"), "-", data=contents(
            example("three.json"))).stdout, ended.stdout)

    def test_wrong_words(self):
        web, plan = example("web.pcap"), example("rfs.json")
        with Folder() as folder:
            report = folder.write("report", REPLIED)
            for words, text in (
                    ([web], "web.pcap is a capture, and a PLAN goes with it"),
                    ([web, plan, "--times", "x"], "--plan and --times go with a REPORT, and "),
                    ([web, plan, "--plan", plan], "--plan and --times go with a REPORT, and "),
                    ([web, plan, "--read"], "--cpu, --read, --reply, --speed and --offline go with "
                                            "--pps"),
                    ([web, plan, "--pps", "9", "--tx"], "--tx goes with --kernel"),
                    ([report, "--pps", "9"], "--pps, --kernel and what goes with them are for a "
                                             "CAPTURE and a PLAN, and "),
                    (["-", "--read"], "--pps, --kernel and what goes with them are for a CAPTURE "
                                      "and a PLAN, and standard input is no capture")):
                ended = run("steer-top", *words)
                self.assertEqual((ended.returncode, ended.stdout), (2, ""), words)
                self.assertIn(text, ended.stderr)
            ended = run("steer-top", web, report)
        self.assertEqual((ended.returncode, ended.stdout), (4, ""))

    def test_a_report_of_a_pipe_is_read_once(self):
        """As bash gives the output of a command where a file is named."""
        with Folder() as folder:
            pipe = folder.path("pipe")
            os.mkfifo(pipe)
            writer = threading.Thread(target=lambda: folder.write("pipe", REPLIED))
            writer.start()
            ended = run("steer-top", pipe)
            writer.join()
        self.assertEqual(ended.stdout, REPLIED_SCREEN)


class Names(unittest.TestCase):
    def test_flows_as_people_write_them(self):
        cases = {
            "none": "no IP",
            "two4 0a000001 0a000002": "two4 10.0.0.1 > 10.0.0.2",
            "udp6 20010db8000000000000000000000001 fe800000000000000000000000000002 53 1024":
                "udp6 [2001:db8::1]:53 > [fe80::2]:1024"}
        for flow, text in cases.items():
            self.assertEqual(flows.name(flow), text)

    def test_bars_and_shares(self):
        self.assertEqual([len(tables.bar(part, 48)) for part in (0, 1, 2, 24, 48)],
                         [0, 0, 1, 12, 24])
        self.assertEqual([tables.share(1, 3), tables.share(0, 0)], ["33.3%", "0.0%"])


if __name__ == "__main__":
    unittest.main()
