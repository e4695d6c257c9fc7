"""Tests of waits and loads, by hand and by a second simulator with no code of the first."""

import heapq
import json
import re
import unittest
from fractions import Fraction

from inside import inside
from reporting import Folder, frame
from running import example
from test_steps import ONE, timed, write_capture, write_plan

from steerlib import cli, waits

MASK = [1, 2, 3]
PLAN = {"cpus": 4, "queues": [{"home": 0, "mask": MASK, "flows": 0} for _ in range(4)], "sock": 0,
        "backlog": 1, "apps": [0], "tx": [{"cpus": [], "queues": []}], "steps": []}


def simulated(arrivals, cpus, rate, backlog):
    """The times at which service begins, None for a drop: events in the order of their times.

    An event is (time, whether it is an arrival, packet), so that an end comes before an arrival.
    """
    cost = Fraction(10 ** 9, rate)
    events = [(Fraction(time), True, packet) for packet, time in enumerate(arrivals)]
    heapq.heapify(events)
    begins, queues, idle = [None] * len(arrivals), {cpu: [] for cpu in cpus}, set(cpus)
    while events:
        time, arrives, packet = heapq.heappop(events)
        queue = queues[cpus[packet]]
        if arrives and len(queue) < backlog:
            queue.append(packet)
        if not arrives:
            idle.add(cpus[packet])
        if queue and cpus[packet] in idle:
            begins[queue[0]] = time
            heapq.heappush(events, (time + cost, False, queue.pop(0)))
            idle.discard(cpus[packet])
    return begins


def processors_of(capture):
    """The processor of each packet of a capture by PLAN, from the hashes that steer prints."""
    lines = cli.run_steer(["hash", capture, "4"]).decode().splitlines()[:-1]
    hashes = [line.split()[line.split().index("hash") + 1] for line in lines]
    return [0 if text == "-" else MASK[int(text, 16) % 3] for text in hashes]


class SecondSimulator(unittest.TestCase):
    def test_drops_and_waits_are_the_same(self):
        """In twelve cells; drops are counted in steer's report."""
        with Folder() as folder:
            busy = [(37 * number * (number % 11) % 90000, frame(number * number % 29))
                    for number in range(600)]
            even = [(50 * number, frame(number % 7)) for number in range(600)]
            for name, packets in (("busy", sorted(busy)), ("even", even)):
                capture = write_capture(folder.path(name), packets)
                arrivals = [1000 * (time - packets[0][0]) for time, _ in packets]
                cpus = processors_of(capture)
                self.assertEqual({0, 1, 2, 3} - set(cpus) - {0}, set())
                for backlog in (2, 9, 40):
                    for rate in (2000, 5000):
                        self.check(folder, capture, backlog, rate, arrivals, cpus)

    def check(self, folder, capture, backlog, rate, arrivals, cpus):
        plan = write_plan(folder, dict(PLAN, backlog=backlog))
        text, _ = timed(plan, capture, "--pps", str(rate), "--times", folder.path("times"))
        wanted = simulated(arrivals, cpus, rate, backlog)
        drops = cli.run_steer(["replay", folder.write("t", text.encode()), capture])
        self.assertEqual(drops.count(b" at drop "), wanted.count(None))
        times = waits.read_file(folder.path("times"))
        self.assertEqual((times.arrivals, times.begins), (arrivals, wanted))
        self.assertEqual(waits.waits_of(times), [
            None if begin is None else begin - arrival
            for arrival, begin in zip(arrivals, wanted)])
        loads = waits.loads_of(times, cpus, 4)
        for cpu in range(4):
            served = [begin for begin, of in zip(wanted, cpus) if of == cpu and begin is not None]
            until = [min(begin + Fraction(10 ** 9, rate), arrivals[-1]) - begin
                     for begin in served if begin < arrivals[-1]]
            self.assertAlmostEqual(loads[cpu], float(sum(until) / arrivals[-1]), 12)


class ByHand(unittest.TestCase):
    """Four packets at 0, 1, 1.5 and 4 ms, and one processor that takes 2 ms for each.

    With a backlog of 1 the second waits 1 ms, the third is lost, and the others do not wait.
    """

    def files(self, folder, backlog):
        """The names of a report and its times."""
        capture = write_capture(folder.path("c.pcap"),
                                [(time, frame(0)) for time in (0, 1000, 1500, 4000)])
        plan = write_plan(folder, dict(ONE, backlog=backlog))
        name = "times%d" % backlog
        text, _ = timed(plan, capture, "--pps", "500", "--times", folder.path(name))
        report = folder.replay(json.loads(text), capture, "report%d" % backlog)
        return report, folder.path(name)

    def test_the_file(self):
        with Folder() as folder:
            with open(self.files(folder, 1)[1]) as stream:
                self.assertEqual(stream.read(), "steer-times 1\n0 0 2000000\n"
                                 "1000000 2000000 4000000\n1500000 - -\n"
                                 "4000000 4000000 6000000\nend 4\n")

    def test_top_rows_and_diff(self):
        """With a backlog of 2 the third waits 2.5 ms, and the last one 2."""
        with Folder() as folder:
            report, times = self.files(folder, 1)
            wider, wider_times = self.files(folder, 2)
            _, out, _ = inside("steer-top", report, "--times", times)
            lines = out.decode().splitlines()
            self.assertEqual(lines[2], "wait half 0, 99% 1.0 ms, longest 1.0 ms")
            self.assertEqual(lines[4].split(), ["cpu", "packets", "share", "dropped", "load"])
            self.assertEqual(lines[5].split()[:5], ["0", "4", "100.0%", "1", "100%"])
            _, out, _ = inside("steer-rows", "csv", "p", report, "--times", times)
            self.assertEqual([line.split(",")[17:] for line in out.decode().splitlines()], [
                ["arrival", "begin", "end", "wait"], ["0", "0", "2000000", "0"],
                ["1000000", "2000000", "4000000", "1000000"], ["1500000", "", "", ""],
                ["4000000", "4000000", "6000000", "0"]])
            _, out, _ = inside("steer-rows", "json", "cpu", report, "--times", times)
            self.assertEqual(json.loads(out)["load"], 1.0)
            _, out, _ = inside("steer-diff", "-q", report, wider, "--times", times, wider_times)
            self.assertEqual(out.decode().splitlines()[0],
                             "wait half 0 -> 1.0 ms, 99% 1.0 ms -> 2.5 ms, "
                             "longest 1.0 ms -> 2.5 ms")
            status, out, _ = inside("steer-diff", report, report, "--times", times, times)
            self.assertEqual((status, out.decode().splitlines()[0][:4]), (0, "sum "))

    def test_times_of_another_schedule(self):
        with Folder() as folder:
            report, times = self.files(folder, 1)
            _, others = self.files(folder, 2)
            few = folder.write("few", b"steer-times 1\n0 0 1\nend 1\n")
            for name, text in ((others, "packet 2 is dropped in the report, and served here"),
                               (few, "it has times of 1 packets, and the report has 4 of 4")):
                for words in (["steer-top", report], ["steer-rows", "csv", "cpu", report],
                              ["steer-rows", "json", "p", report]):
                    status, out, said = inside(*words, "--times", name)
                    self.assertEqual((status, out), (3, b""))
                    self.assertEqual(said, "%s: %s: refused: %s\n" % (words[0], name, text))


class Files(unittest.TestCase):
    def test_faults(self):
        with Folder() as folder:
            for text, status, reason in (
                    (b"", 4, "no times: the first line is not `steer-times 1`"),
                    (b"steer 1\n", 4, "no times: the first line is not `steer-times 1`"),
                    (b"steer-times 1\n", 3, "refused: cut short after line 1 (no line `end` with "
                                            "the number of the packets)"),
                    (b"steer-times 1\n0 0 1\nend 2\n", 3, "refused: cut short after line 3 (no "
                                                          "line `end` with the number of the "
                                                          "packets)"),
                    (b"steer-times 1\n0 0 1\n2 1 3\nend 2\n", 3, "refused: line 3 is not ARRIVAL "
                                                                 "BEGIN END, ascending, nor "
                                                                 "ARRIVAL - -"),
                    (b"steer-times 1\n0 x 1\nend 1\n", 3, "refused: line 2 is not ARRIVAL BEGIN "
                                                          "END, ascending, nor ARRIVAL - -")):
                name = folder.write("times", text)
                report = folder.write("report", cli.run_steer(
                    ["replay", example("three.json"), example("three.pcap")]))
                ended = inside("steer-top", report, "--times", name)
                self.assertEqual(ended, (status, b"", "steer-top: %s: %s\n" % (name, reason)))

    def test_words(self):
        for words, text in (
                (["steer-rows", "csv", "tx", "r", "--times", "t"],
                 "--times goes with the kinds p and cpu"),
                (["steer-rows", "csv", "p", "-", "--times", "-"],
                 "only one of REPORT, HASH and --times can be standard input"),
                (["steer-top", "-", "--times", "-"],
                 "only one of REPORT, HASH, PLAN and --times can be standard input"),
                (["steer-steps", "p", "c", "--pps", "1", "--times", "-"],
                 "--times: the times go into a file"),
                (["steer-steps", __file__, "c", "--pps", "1", "--times", __file__],
                 "--times: %s is read, and cannot be written" % __file__)):
            self.assertEqual(inside(*words), (2, b"", "%s: %s\n" % (words[0], text)))


class Numbers(unittest.TestCase):
    def test_ranks(self):
        """The wait that half of the packets, and 99 of 100, do not pass."""
        for count, middle, most in ((1, 0, 0), (2, 0, 1), (3, 1, 2), (100, 49, 98), (101, 50, 99),
                                    (200, 99, 197), (1000, 499, 989)):
            begins = list(range(count))
            times = waits.Times([0] * count, begins, [begin + 1 for begin in begins])
            found = waits.summary(times, [0] * count, 1)
            self.assertEqual(found, waits.Waits(middle, most, count - 1, [None]), count)
        nothing = waits.summary(waits.Times([0, 5], [None] * 2, [None] * 2), [0, 0], 2)
        self.assertEqual(nothing, waits.Waits(None, None, None, [0.0, 0.0]))

    def test_texts(self):
        for value, text in ((None, "-"), (0, "0"), (7, "7 ns"), (1000, "1.0 us"),
                            (99400, "99.4 us"), (158000, "158 us"), (2500000, "2.5 ms"),
                            (999400000, "999 ms"), (3200000000, "3.2 s")):
            self.assertEqual(waits.time_text(value), text)
        self.assertEqual([waits.load_text(load) for load in (None, 0.0, 0.124, 1.0)],
                         ["-", "0%", "12%", "100%"])

    def test_the_tables_of_steer_try(self):
        """They have the numbers of steer-top."""
        with Folder() as folder:
            words = ["--pps", "20000", "--speed", "100", "--read"]
            plan = example("rfs.json")
            _, out, _ = inside("steer-try", example("web.pcap"), plan, *words)
            text, _ = timed(plan, example("web.pcap"), *words, "--times", folder.path("t"))
            report = folder.replay(json.loads(text), example("web.pcap"))
            _, top, _ = inside("steer-top", report, "--times", folder.path("t"))
        most = re.search("99% ([^,]*),", top.decode()).group(1)
        loads = [(int(row[1]), int(row[0])) for row in re.findall(
            r"^ *(\d+) .* (\d+)%  #*$", top.decode(), re.MULTILINE)]
        load, cpu = max(loads, key=lambda pair: (pair[0], -pair[1]))
        table = out.decode().split("\n\n")
        self.assertEqual(table[3].splitlines()[1].split("  ")[0].strip(), most)
        self.assertEqual(table[4].splitlines()[1].split()[:3],
                         ["cpu", str(cpu), "%d%%" % load])


if __name__ == "__main__":
    unittest.main()
