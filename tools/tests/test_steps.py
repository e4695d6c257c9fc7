"""Tests of steer-steps, and of schedules that the replay agrees with."""

import gzip
import json
import random
import re
import struct
import unittest
from collections import Counter
from unittest import mock

from inside import inside
from reporting import Folder, frame, random_plan, run, run_closed
from running import example, sample

from steerlib import cli, foretelling, limits, offline, report, schedule, serving

OWN = sample("cap", "own-first3000.pcap")
ROUND = re.compile(r"round \d+: (\d+) packets elsewhere than assumed(?:, the first is (\d+))?")
RESULT = re.compile(r"note: (\d+) packets in ([0-9.]+) s, (\d+) steps, .*, (\d+) dropped")
SECTION = struct.pack("<IIIHHqI", 0x0a0d0d0a, 28, 0x1a2b3c4d, 1, 0, -1, 28)
INTERFACE = struct.pack("<IIHHII", 1, 20, 1, 0, 0, 20)
COOKED = struct.pack("<IHHIIII", 0xa1b2c3d4, 2, 4, 0, 0, 99, 276) + bytes(8) + b"\x14\0\0\0" * 2 \
    + bytes(20)
ONE = {"cpus": 1, "queues": [{"home": 0, "mask": [], "flows": 0}], "sock": 0, "backlog": 1,
       "apps": [0], "tx": [{"cpus": [], "queues": []}], "steps": []}
TWO = dict(ONE, cpus=2, queues=[{"home": cpu, "mask": [], "flows": 0} for cpu in (0, 1)])


def write_capture(path, packets):
    """A pcap file of packets (microseconds, frame); its path."""
    with open(path, "wb") as out:
        out.write(struct.pack("<IHHIIII", 0xa1b2c3d4, 2, 4, 0, 0, 65535, 1))
        for time, data in packets:
            out.write(struct.pack("<IIII", time // 1000000, time % 1000000, len(data), len(data)))
            out.write(data)
    return path


def write_plan(folder, plan):
    return folder.write("plan.json", json.dumps(plan).encode())


def heavy_packets(count):
    """Three of four packets are of one flow, so that the flow limit acts; 500 us apart."""
    return [(500 * number, frame(0 if number % 4 else number % 36)) for number in range(count)]


def drops_of(plan_text, capture):
    """How many packets steer drops, counted in its report by their texts."""
    with Folder() as folder:
        plan = folder.write("timed.json", plan_text.encode())
        return cli.run_steer(["replay", plan, capture]).count(b" at drop ")


def flows_of_queues(folder):
    """A frame of queue 0, and one of queue 1, of two queues, by steer's own hash."""
    frames = [frame(flow) for flow in range(8)]
    capture = write_capture(folder.path("flows.pcap"), [(0, data) for data in frames])
    lines = cli.run_steer(["hash", capture, "2"]).decode().splitlines()
    queues = [int(line.split()[-1]) for line in lines[:-1]]
    return [frames[queues.index(queue)] for queue in (0, 1)]


def timed(*words):
    """The plan that steer-steps writes, as text, and its messages."""
    status, out, said = inside("steer-steps", *words)
    assert status == 0, (words, said)
    return out.decode(), said


class ByHand(unittest.TestCase):
    """Four packets of one flow at 0, 1, 1.5 and 4 ms, and one processor with a backlog of 1."""

    SERVED = "deliver 0,retire 0"

    def steps(self, *words, plan=None, times=(0, 1000, 1500, 4000)):
        with Folder() as folder:
            capture = write_capture(folder.path("c.pcap"), [(time, frame(0)) for time in times])
            text, said = timed(write_plan(folder, plan or ONE), capture, *words)
            self.assertEqual(drops_of(text, capture), int(RESULT.search(said)[4]))
        return ",".join(json.loads(text)["steps"]), said

    def test_one_millisecond_each(self):
        """The first is done when the second arrives, the third waits for it, and none is lost."""
        wanted = ("arrive,poll 0,pull 0,S,arrive,poll 0,pull 0,arrive,poll 0,S,pull 0,S,"
                  "arrive,poll 0,pull 0,S,sweep")
        steps, said = self.steps("--pps", "1000")
        self.assertEqual(steps, wanted.replace("S", self.SERVED))
        self.assertEqual(said.splitlines()[1:], [
            "round 1: 0 packets elsewhere than assumed",
            "note: agreed in round 1: the replay has each packet where the steps assume it",
            "note: 4 packets in 0.004 s, 21 steps, 1000 packets/s a processor, 0 dropped"])
        self.assertRegex(said, "^note: .*plan.json: rx 0 without RPS and RFS: a kernel handles a "
                               "card's packets there at once, without a backlog, so that "
                               "netdev_max_backlog does nothing and drops on cpu 0 for them are "
                               "none of a machine's\n")
        self.assertEqual(self.steps("--pps", "2000", "--speed", "2")[0], steps)
        self.assertEqual(self.steps("--pps", "9", "--cpu", "0=1e3")[0], steps)

    def test_two_milliseconds_each(self):
        """The second waits, the third is lost, and the first two are done at 2 and 4 ms."""
        wanted = ("arrive,poll 0,pull 0,arrive,poll 0,arrive,poll 0,S,pull 0,S,"
                  "arrive,poll 0,pull 0,S,sweep")
        steps, said = self.steps("--pps", "500")
        self.assertEqual(steps, wanted.replace("S", self.SERVED))
        self.assertIn("18 steps, 500 packets/s a processor, 1 dropped", said)
        self.assertIn("note: a kernel takes a whole backlog off at once, so there drops come in "
                      "runs and hit other packets (docs/kernel.md)\n", said)
        for words, more in ((["--read"], ",record 0"), (["--reply"], ",reply 0"),
                            (["--read", "--reply"], ",record 0,reply 0")):
            steps, _ = self.steps("--pps", "500", *words)
            self.assertEqual(steps, wanted.replace("S", self.SERVED + more))
        steps, said = self.steps("--pps", "500", plan=dict(ONE, backlog=2))
        self.assertIn(", 0 dropped", said)

    def test_packets_behind_their_time(self):
        """One of an earlier time arrives with the latest before it."""
        steps, said = self.steps("--pps", "1000", times=(0, 1000, 500, 4000, 1500))
        wanted, _ = self.steps("--pps", "1000", times=(0, 1000, 1000, 4000, 4000))
        self.assertEqual(steps, wanted)
        self.assertIn("note: 2 packets stand behind one of a later time; the order of the file is "
                      "kept\n", said)

    def test_a_packet_behind_its_time_for_an_idle_processor(self):
        """It is served from the latest time before it, so it is done after that one."""
        plan = dict(TWO, backlog=9)
        with Folder() as folder:
            flows = flows_of_queues(folder)
            capture = write_capture(folder.path("c.pcap"), [(4000, flows[0]), (1500, flows[1])])
            text, _ = timed(write_plan(folder, plan), capture, "--pps", "1000")
        self.assertEqual(json.loads(text)["steps"][6:], [
            "deliver 0", "retire 0", "deliver 1", "retire 1", "sweep"])

    def test_all_at_once(self):
        steps, said = self.steps("--pps", "1000", times=(7, 7, 7))
        self.assertTrue(steps.startswith("arrive,poll 0,pull 0,arrive,poll 0,arrive,poll 0,del"))
        self.assertIn("note: no packet is later than the first, so all arrive at once\n", said)
        self.assertIn(", 1 dropped", said)

    def test_no_packets(self):
        steps, said = self.steps("--pps", "1000", times=())
        self.assertEqual(steps, "sweep")
        self.assertIn("note: 0 packets in 0.000 s, 1 steps, ", said)

    def test_each_processor_at_its_own_rate(self):
        """The packet of the slow processor is done last."""
        with Folder() as folder:
            packets = [(0, data) for data in flows_of_queues(folder)]
            capture = write_capture(folder.path("c.pcap"), packets)
            for slow in (0, 1):
                text, said = timed(write_plan(folder, TWO), capture, "--pps", "1000", "--cpu",
                                   "%d=1" % slow)
                self.assertEqual(json.loads(text)["steps"][-3:],
                                 ["deliver %d" % slow, "retire %d" % slow, "sweep"])
                self.assertIn("1000 packets/s a processor, 1 at cpu %d, 0 dropped" % slow, said)


class Agreement(unittest.TestCase):
    def check(self, plan_path, capture, words):
        """Runs the program, and holds what it says against the replay; its drops and rounds."""
        text, said = timed(plan_path, capture, *words)
        rounds = ROUND.findall(said)
        self.assertEqual([count for count, _ in rounds][-1], "0")
        firsts = [int(first) for _, first in rounds[:-1]]
        self.assertEqual(firsts, sorted(firsts))
        self.assertLessEqual(max(map(firsts.count, firsts), default=0), 3)
        packets, _, steps, drops = RESULT.search(said).groups()
        self.assertEqual(drops_of(text, capture), int(drops))
        each = 3 + ("--read" in words) + ("--reply" in words)
        self.assertEqual(int(steps), 2 * int(packets) + each * (int(packets) - int(drops)) + 1)
        made = json.loads(text)["steps"]
        self.assertEqual(int(steps), len(made))
        if "--reply" in words:
            self.check_replies(text, made, capture)
        return int(drops), len(rounds)

    def check_replies(self, text, steps, capture):
        """Each application replies as often as packets come to its inbox."""
        with Folder() as folder:
            found = report.read_file(folder.replay(json.loads(text), capture))
        inboxes = Counter(packet.app for packet in found.packets if packet.place == "inbox")
        replies = Counter(int(step.split()[1]) for step in steps if step.startswith("reply "))
        self.assertEqual(replies, inboxes)

    def test_drops_are_those_that_another_program_gave(self):
        """A program that was written apart from this one was run once on these samples."""
        for plan, rate, words, drops in (
                ("ix.json", "300", ["--read"], 1674), ("ix5.json", "2000", ["--read"], 823)):
            found, _ = self.check(sample("plan", plan), OWN, ["--pps", rate] + words)
            self.assertEqual(found, drops, (plan, rate))

    def test_plans_of_any_shape(self):
        """Filters, flow tables and small backlogs; the places depend on the steps themselves."""
        most = 0
        with Folder() as folder:
            capture = write_capture(folder.path("c.pcap"), [
                (137 * number, frame(number * number % 23)) for number in range(200)])
            for seed in range(9):
                plan = dict(random_plan(seed), filters=(0, 4, 64)[seed % 3], steps=["sweep"])
                words = ["--pps", ("700", "3000", "20000")[seed // 3]]
                words += [["--read"], ["--read", "--reply"], ["--reply"]][seed % 3]
                _, rounds = self.check(write_plan(folder, plan), capture, words)
                most = max(most, rounds)
        self.assertGreater(most, 3)

    def test_each_packet_is_where_a_replay_of_the_whole_plan_has_it(self):
        """Read by steerlib.report; the rounds read their reports by themselves."""
        with Folder() as folder:
            capture = write_capture(folder.path("c.pcap"), [
                (137 * number, frame(number * number % 23)) for number in range(300)])
            for seed in range(6):
                plan = dict(random_plan(seed), filters=(0, 64)[seed % 2], steps=[])
                load = schedule.Load(2000.0, [], seed < 4, seed > 1, 1.0)
                replays = schedule.Replays(plan, "plan", capture, capture, folder.name)
                agreed = schedule.timed_steps(replays, schedule.times_of(capture, capture), load)
                made = json.loads(agreed.desk.text())
                self.assertEqual((made, made[-1]), (agreed.desk.steps(), "sweep"))
                packets = report.read_file(
                    folder.replay(dict(plan, steps=made), capture)).packets
                self.assertEqual(agreed.desk.cpus, [packet.cpu for packet in packets])
                self.assertEqual(agreed.desk.drops, [
                    packet.id for packet in packets if packet.place == "drop"])

    def test_drops_by_the_flow_limit(self):
        plan = {"cpus": 4, "queues": [{"home": 0, "mask": [1, 2, 3], "flows": 64}], "sock": 64,
                "backlog": 200, "limited": [1, 2, 3], "apps": [1, 2],
                "tx": [{"cpus": [], "queues": []}], "steps": []}
        with Folder() as folder:
            capture = write_capture(folder.path("c.pcap"), heavy_packets(1500))
            words = ["--pps", "300", "--read"]
            drops, rounds = self.check(write_plan(folder, plan), capture, words)
            made, _ = timed(write_plan(folder, plan), capture, *words)
            found = report.read_file(folder.replay(json.loads(made), capture))
        limited = sum(packet.flow_offers is not None for packet in found.packets)
        self.assertGreater(limited, 100)
        self.assertGreaterEqual(drops, limited)
        self.assertGreater(rounds, 1)

    def test_fast_processors_lose_nothing_and_slow_ones_all_but_their_backlog(self):
        with Folder() as folder:
            fast, _ = timed(sample("plan", "ix.json"), OWN, "--pps", "1e9", "--read")
            found = report.read_file(folder.replay(json.loads(fast), OWN))
            self.assertEqual({packet.place for packet in found.packets}, {"inbox"})
            slow, _ = timed(sample("plan", "ix.json"), OWN, "--pps", "1", "--read")
            found = report.read_file(folder.replay(json.loads(slow), OWN))
        backlog, served = 100, 4
        self.assertEqual(max(cpu.accepted for cpu in found.cpus), backlog + served + 1)

    def test_settings_are_carried_over(self):
        plan = dict(ONE, start=7, detach=[{"tap": 1, "after": 3}], steps={"seed": 3, "count": 9})
        with Folder() as folder:
            capture = write_capture(folder.path("c.pcap"), [(0, frame(0))])
            text, said = timed(write_plan(folder, plan), capture, "--pps", "5")
            self.assertNotIn("replaced", said)
            written = json.loads(text)
            self.assertEqual(dict(written, steps=0), dict(plan, steps=0))
            plan["steps"] = ["arrive", "mask 0 -", "expire", "sweep"]
            text, said = timed(write_plan(folder, plan), capture, "--pps", "5")
            self.assertIn("plan.json: its steps are replaced, and with them 2 commands\n", said)
            self.assertEqual(json.loads(text), written)


class Rounds(unittest.TestCase):
    SERVICE = schedule.Service([1.0, 1.0], 10, None, False)

    def places(self, cpu):
        return schedule.Places([0], [cpu], [0], set(), set())

    def test_what_is_read_of_a_report(self):
        """A packet that moves, one that is dropped, and one that the flow limit drops."""
        data = (b"steer 1\n"
                b"p 0 q 11 via reta class - want - head - tail - cpu 7 why plain at 1 app 0 in 1 "
                b"place inbox\n"
                b"p 1 q 2 via filter class 5 want 2 head 0 tail 1 cpu 12 why kept at drop 1 42 26 "
                b"app 31 in - place drop\n"
                b"p 2 q 0 via none class 5 want 2 head 0 tail 1 cpu 0 why passed at drop 2 42 26 "
                b"flow 9 app 3 in - place drop\n"
                b"r 0 app 0 rxq 0 cpu 2 pick 0 head - tail 0 tx 0 why unset at 1 port 1\n"
                b"queue 0 arrived 3 taken 3\nend 3 of 3\n")
        settings = {"limited": [0], "filters": 4}
        whole = schedule.Places([11, 2, 0], [7, 12, 0], [0, 31, 3], {1, 2}, {2})
        self.assertEqual(schedule.places_of(data, settings), whole)
        known = schedule.Places([1, 1, 1], [3, 3, 3], [4, 5, 6], {0, 1}, {0})
        self.assertEqual(schedule.places_of(data, settings, known, 1), schedule.Places(
            [1, 2, 0], [3, 12, 0], [4, 5, 6], {0, 1, 2}, {0, 2}))
        self.assertEqual(schedule.places_of(data, {}, known, 2), schedule.Places(
            [1, 1, 1], [3, 3, 0], [4, 5, 6], {0, 1, 2}, {0}))

    def test_packets_that_are_elsewhere(self):
        places = schedule.Places([0, 1, 2, 3], [5, 5, 5, 5], [0] * 4, set(), set())
        for queues, cpus, dropped, wanted in (
                ([0, 1, 2, 3], [5, 5, 5, 5], {3}, []), ([0, 1, 1, 3], [5, 5, 5, 5], {3}, [2]),
                ([0, 1, 2, 3], [6, 5, 5, 5], {3}, [0]), ([0, 1, 2, 3], [5, 5, 5, 5], set(), [3]),
                ([0, 1, 2, 3], [5, 5, 5, 5], {1, 3}, [1]), ([9] * 4, [9] * 4, {0}, [0, 1, 2, 3])):
            answer = schedule.Places(queues, cpus, [0] * 4, dropped, set())
            self.assertEqual(schedule.elsewhere(places, {3}, answer), wanted)

    def test_without_agreement_after_500_rounds_it_is_refused(self):
        calls = []

        def never(text, known, first):
            self.assertEqual((text[:11], known.cpus, first),
                             ('["arrive","', [len(calls) % 2], 0))
            calls.append(text)
            return self.places(len(calls) % 2)

        with self.assertRaises(cli.Refused) as caught:
            schedule.agree([0.0], self.places(0), self.SERVICE, never, "c.pcap")
        self.assertEqual(len(calls), 500)
        self.assertEqual(str(caught.exception),
                         "c.pcap: refused: after 500 rounds the replay still has 1 packets "
                         "elsewhere than the steps assume")

    def test_nothing_is_written_without_agreement(self):
        with mock.patch.object(schedule, "MOST_ROUNDS", 2), \
                mock.patch.object(foretelling, "is_followed", return_value=False):
            status, out, said = inside("steer-steps", sample("plan", "ix5.json"), OWN, "--pps",
                                       "2000", "--read")
        self.assertEqual((status, out), (3, b""))
        self.assertRegex(said, "refused: after 2 rounds the replay still has [0-9]+ packets "
                         "elsewhere than the steps assume\n$")
        self.assertEqual(len(ROUND.findall(said)), 2)

    def test_a_report_of_fewer_packets_is_no_agreement(self):
        with self.assertRaises(cli.Refused) as caught:
            schedule.agree([0.0], self.places(0), self.SERVICE,
                           lambda *_: schedule.Places([], [], [], set(), set()), "c.pcap")
        self.assertEqual(str(caught.exception), "c.pcap: refused: 1 packets have a time, and "
                         "steer's report has 0 that were put")

    def test_a_schedule_that_needs_too_many_steps(self):
        """The number that is said to fit does fit, and one more does not."""
        arrivals = [1e6 * number for number in range(40)]
        service = schedule.Service([400.0], 3, list(range(40)), True)
        guess = schedule.Places([0] * 40, [0] * 40, [0] * 40, set(), set())

        def needs(packets):
            desk = serving.Desk(arrivals[:packets], service, guess.apps)
            desk.serve(guess)
            self.assertEqual(desk.count(), len(desk.steps()))
            return desk.count()

        needed = needs(40)
        for most in (50, 99, 120, needed - 1):
            with mock.patch.object(limits, "MOST_STEPS", most), \
                    self.assertRaises(cli.Refused) as caught:
                schedule.agree(arrivals, guess, service, None, "c.pcap")
            found = re.fullmatch(r"c.pcap: refused: 40 packets need %d steps, and a plan has at "
                                 r"most %d; the first (\d+) packets fit" % (needed, most),
                                 str(caught.exception))
            fits = int(found[1])
            self.assertLessEqual(needs(fits), most)
            self.assertGreater(needs(fits + 1), most)

    def test_a_capture_that_may_not_fit(self):
        """It is refused before any replay; the first packets are taken on request."""
        with Folder() as folder, mock.patch.object(limits, "MOST_STEPS", 36):
            capture = write_capture(folder.path("c.pcap"), [
                (1000 * number, frame(number % 3)) for number in range(8)])
            plan, out = write_plan(folder, ONE), folder.path("out.pcap")
            for words, steps, fit in ((["--read"], 49, 5), (["--read", "--reply"], 57, 5),
                                      ([], 41, 7)):
                words = [plan, capture, "--pps", "9", *words]
                with mock.patch.object(schedule.Replays, "run", side_effect=AssertionError):
                    ended = inside("steer-steps", *words)
                self.assertEqual(ended, (3, b"", "steer-steps: %s: refused: 8 packets have up to "
                                         "%d steps, and a plan has at most 36; the first %d "
                                         "packets fit in any case; --fit takes them\n"
                                         % (capture, steps, fit)))
                text, said = timed(*words, "--fit", "--capture", out)
                self.assertIn("note: the first %d of 8 packets are taken\n" % fit, said)
                self.assertEqual(json.loads(text)["steps"].count("arrive"), fit)
                self.assertEqual(drops_of(text, out), int(RESULT.search(said)[4]))
                self.assertEqual(cli.run_steer(["hash", out]), b"".join(
                    cli.run_steer(["hash", capture]).splitlines(True)[:fit])
                    + b"packets %d\n" % fit)
            for program in ("steer-try", "steer-best"):
                status, _, said = inside(program, capture, plan, "--pps", "9")
                self.assertEqual((status, said[-31:]), (3, "; steer-cap --count takes them\n"))

    def test_rounds_that_begin_where_the_last_was_right(self):
        """The steps are those of a round that begins with the first packet."""
        chance = random.Random(7)
        count = 9000
        arrivals = [1e5 * number for number in range(count)]
        for replies in (False, True):
            service = schedule.Service([2500.0, 9000.0, 4000.0], 20, [3] * count, replies)
            places = schedule.Places([0] * count, [chance.randrange(3) for _ in range(count)],
                                     [1] * count, set(), set(range(0, count, 97)))
            desk = serving.Desk(arrivals, service, places.apps)
            desk.serve(places)
            for first in (8999, 7000, 4096, 4095, 2048, 5, 0):
                cpus = places.cpus[:first] + [2 - cpu for cpu in places.cpus[first:]]
                places = places._replace(cpus=cpus)
                desk.serve(places, first)
                anew = serving.Desk(arrivals, service, places.apps)
                anew.serve(places)
                self.assertEqual((desk.text(), desk.drops, desk.times()),
                                 (anew.text(), anew.drops, anew.times()), first)


class Foretold(unittest.TestCase):
    """Where RFS has each packet by its rule, held to the replay."""

    def places(self, plan, capture, load, folder):
        """The agreed Places, and how many rounds it took."""
        replays = schedule.Replays(plan, "plan", capture, capture, folder.name)
        agreed = schedule.timed_steps(replays, schedule.times_of(capture, capture), load)
        return agreed.places, agreed.rounds

    def test_the_first_round_agrees(self):
        """With tables that flows share, counters that wrap, replies and processors that leave."""
        moves = set()
        with Folder() as folder:
            capture = write_capture(folder.path("c.pcap"), [
                (137 * number, frame(number * number % 23)) for number in range(400)])
            for seed in range(30):
                plan = dict(random_plan(seed), filters=0, limited=[], steps=[])
                if not foretelling.is_followed(plan):
                    continue
                gone = None
                if seed % 3 and plan["cpus"] > 2:
                    gone = offline.told("1" if seed % 3 == 1 else "0-1@0.02")
                    plan = offline.moved(plan, gone)
                rate = (700.0, 3000.0, 20000.0)[seed % 4 % 3]
                load = schedule.Load(rate, [(0, 900.0)], True, seed % 2 > 0, 1.0, gone)
                places, rounds = self.places(plan, capture, load, folder)
                self.assertEqual(rounds, 1, seed)
                with mock.patch.object(foretelling, "is_followed", return_value=False):
                    slow, rounds = self.places(plan, capture, load, folder)
                self.assertEqual(places, slow)
                if rounds > 2:
                    moves.add(gone and gone.time > 0)
        self.assertEqual(moves, {None, False, True})

    def test_what_is_not_followed(self):
        plan = {"sock": 4, "queues": [{"flows": 0}, {"flows": 4}]}
        for change, wanted in (({}, True), ({"filters": 0}, True), ({"filters": 4}, False),
                               ({"sock": 0}, False), ({"queues": [{"flows": 0}]}, False)):
            self.assertIs(foretelling.is_followed(dict(plan, **change)), wanted)

    def test_the_way_of_a_flow(self):
        """The first row of Microsoft's verification suite: its hash is 51ccc178, by ports."""
        flow = b"tcp4 420995bb a18e6450 2794 1766"
        plan = {"sock": 100, "queues": [{"home": 1, "mask": [7, 3, 4], "flows": 0},
                                        {"home": 2, "mask": [], "flows": 60}]}
        value = 0x51ccc178
        for queue, change, wanted in (
                (0, {}, ((3, 4, 7)[value % 3], -1, value % 128)),
                (1, {}, (2, 1 << 32 | value % 64, value % 128)),
                (1, {"kinds": 1}, (2, 1 << 32 | 0x323e8fc2 % 64, 0x323e8fc2 % 128)),
                (1, {"kinds": 8}, (2, -1, -1))):
            self.assertEqual(foretelling.ways_of(dict(plan, **change), [flow], [queue]), [wanted])


class Words(unittest.TestCase):
    def refused(self, status, text, *words, data=b""):
        ended = inside("steer-steps", *words, "--pps", "5", data=data)
        self.assertEqual(ended, (status, b"", "steer-steps: %s\n" % text))

    def test_wrong_words(self):
        for words, text in (
                (["--pps", "0"], "argument --pps: 0 is not a number above 0"),
                (["--pps", "inf"], "argument --pps: inf is not a number above 0"),
                (["--pps", "x"], "argument --pps: x is not a number above 0"),
                (["--pps", "1e-320"], "argument --pps: 1e-320 is not in 0.001 to 1e+12"),
                (["--cpu", "0=1e13"], "argument --cpu: 1e13 is not in 0.001 to 1e+12"),
                (["--speed", "-2"], "argument --speed: -2 is not a number above 0"),
                (["--cpu", "3"], "argument --cpu: 3 is not C=N, a processor and its rate"),
                (["--cpu", "x=3"], "argument --cpu: x is not a whole number from 0 on"),
                (["--cpu", "1=0"], "argument --cpu: 0 is not a number above 0")):
            self.refused(2, text + " (--help says more)", sample("plan", "ix.json"),
                         example("three.pcap"), *words)
        status, out, said = inside("steer-steps", sample("plan", "ix.json"), example("three.pcap"),
                                   "--pps", "5", "--cpu", "16=3")
        self.assertEqual((status, out, said.splitlines()[-1]), (
            2, b"", "steer-steps: --cpu 16=3: the plan has the processors 0 to 15"))
        self.refused(2, "PLAN and CAPTURE cannot both be standard input", "-", "-")
        status, _, said = inside("steer-steps", sample("plan", "ix.json"), example("three.pcap"))
        self.assertEqual((status, said), (2, "steer-steps: the following arguments are required: "
                                             "--pps (--help says more)\n"))

    def test_captures_that_are_not_of_use(self):
        plan = sample("plan", "ix.json")
        simple = struct.pack("<III4sI", 3, 20, 4, b"abcd", 20)
        for status, text, data in (
                (3, "refused: packet 0 has link type 276, and steer reads 1 (Ethernet); steer-cap "
                    "turns others into it", COOKED),
                (3, "refused: packet 0 is in a simple packet block, which has no time",
                 SECTION + INTERFACE + simple),
                (4, "no capture: 0 bytes, and a pcap file has a header of 24", b"")):
            self.refused(status, "standard input: " + text, plan, "-", data=data)
        self.refused(4, "none.pcap: No such file or directory", plan, "none.pcap")

    def test_a_plan_that_steer_does_not_take(self):
        with Folder() as folder:
            path = write_plan(folder, dict(ONE, cpus=33))
            status, out, said = inside("steer-steps", path, example("three.pcap"), "--pps", "5")
        self.assertEqual((status, out), (3, b""))
        self.assertRegex(said, "^steer-steps: .*plan.json:1:10: refused: cpus: .*33")

    def test_packed_and_standard_input(self):
        plan = sample("plan", "ix5.json")
        words = ["--pps", "2000", "--read"]
        wanted = inside("steer-steps", plan, example("web.pcap"), *words)
        with open(example("web.pcap"), "rb") as stream:
            packed = gzip.compress(stream.read())
        self.assertEqual(inside("steer-steps", plan, "-", *words, data=packed), wanted)
        with open(plan, "rb") as stream:
            plan_bytes = stream.read()
        status, out, said = inside("steer-steps", "-", example("web.pcap"), *words,
                                   data=plan_bytes)
        self.assertEqual((status, out, said.replace("standard input: ", plan + ": ")), wanted)
        ended = run("steer-steps", plan, "-", *words, data=packed)
        self.assertEqual((ended.returncode, ended.stdout.encode(), ended.stderr), wanted)

    def test_what_does_not_show_is_noted(self):
        _, said = timed(sample("plan", "ix.json"), example("web.pcap"), "--pps", "9")
        self.assertIn("ix.json: it has a table of readers (sock), and without --read no reader is "
                      "ever seen, so that RFS moves no flow\n", said)
        obsolete = struct.pack("<IIHHIIIII", 2, 32, 0, 0, 0, 1, 0, 0, 32)
        enhanced = struct.pack("<IIIIIIII", 6, 32, 0, 0, 1, 0, 0, 32)
        said = inside("steer-steps", sample("plan", "ix.json"), "-", "--pps", "9", "--read",
                      data=SECTION + INTERFACE + obsolete + enhanced)[2]
        self.assertIn("note: 1 obsolete packet blocks have no step, since steer passes them over; "
                      "steer-cap makes packets of them\n", said)
        self.assertIn("note: 1 packets in 0.000 s, 7 steps, ", said)

    def test_help_and_a_closed_pipe(self):
        status, out, _ = inside("steer-steps", "--help")
        self.assertEqual(status, 0)
        for part in ("--pps N", "--cpu C=N", "--read", "--reply", "--speed X", "example:",
                     cli.APART, cli.STATUSES):
            self.assertIn(part, out.decode())
        status, said = run_closed("steer-steps", sample("plan", "ix.json"), OWN, "--pps", "500")
        self.assertEqual((status, "steer-steps:" in said, "Traceback" in said), (0, False, False))


if __name__ == "__main__":
    unittest.main()
