"""Flows by their names in steer-rows, steer-diff and steer-draw, also after steer-remap.

The expected names are read here from the bytes of the capture, without steer and steerlib.
"""

import csv
import io
import json
import random
import re
import struct
import unittest
from collections import Counter
from xml.etree import ElementTree

from inside import inside
from reporting import REPLIED, Folder, example, replayed, write_capture

import running

WEB = example("web.pcap")
SVG = "{http://www.w3.org/2000/svg}"
FLOW = "tcp4 66.9.149.187:2794 > 161.142.100.80:1766"
"""The flow of each packet of three.pcap."""

THREE_NAMED = """\
cpu 1   |@@ | 2
cpu 2   |  @| 1
drops 1 | x | 1
moves   |  ^| 1
flow 1  |@@@| 3  tcp4 66.9.149.187:2794 > 161.142.100.80:1766
packet   0 2
a column is 1 packet; marks from . to @ go up to 1 packet on one cpu, and 1 packet of one flow
"""


def names_of(path):
    """The flows of the frames of a pcap file as people write them: TCP, UDP over IPv4, no IP."""
    with open(path, "rb") as stream:
        data = stream.read()
    names, place = [], 24
    while place < len(data):
        size = struct.unpack_from("<I", data, place + 8)[0]
        frame = data[place + 16:place + 16 + size]
        place += 16 + size
        if frame[12:14] != b"\x08\x00":
            names.append("no IP")
            continue
        ends = [".".join(str(byte) for byte in frame[at:at + 4]) for at in (26, 30)]
        ports = struct.unpack_from(">HH", frame, 34)
        names.append("%s4 %s:%d > %s:%d" % ({6: "tcp", 17: "udp"}[frame[23]], ends[0], ports[0],
                                            ends[1], ports[1]))
    return names


class Remapped(unittest.TestCase):
    """Two reports of the example by a kernel's rule, and the hashes of the first capture."""

    @classmethod
    def setUpClass(cls):
        cls.folder = Folder().__enter__()
        cls.addClassCleanup(cls.folder.cleanup)
        cls.plain = names_of(WEB)
        cls.hash = cls.folder.write("hash", running.steer("hash", WEB)[1].encode())
        cls.reports = [cls.made(name) for name in ("rps", "rfs")]

    @classmethod
    def made(cls, name):
        """The path of the report of a remap of the example by this plan."""
        plan, capture = cls.folder.path("k.json"), cls.folder.path("k.pcap")
        work = ["drain %d" % cpu for cpu in range(4)] + ["serve 0", "serve 1"] * 12
        steps = (["arrive", "poll 0", "poll 1"] * 12 + work) * 15 + ["sweep"]
        with open(example(name + ".json"), encoding="utf-8") as stream:
            old = cls.folder.write("old.json", json.dumps(dict(json.load(stream),
                                                               steps=steps)).encode())
        status, _, said = inside("steer-remap", old, WEB, "--plan", plan, "--capture", capture)
        if status:
            raise AssertionError(said)
        cls.rewritten = names_of(capture)
        with open(plan, encoding="utf-8") as stream:
            return cls.folder.replay(json.load(stream), capture, name)

    def lines(self, *words):
        status, out, said = inside(*words)
        self.assertIn(status, (0, 1), said)
        self.assertEqual(said, "")
        return out.decode().splitlines()

    def test_the_remap_has_other_names(self):
        self.assertNotEqual(self.plain, self.rewritten)
        self.assertEqual(len(set(zip(self.plain, self.rewritten))), len(set(self.plain)))

    def test_rows(self):
        for kind in ("p", "r"):
            bare = self.lines("steer-rows", "csv", kind, self.reports[0])
            named = self.lines("steer-rows", "csv", kind, self.reports[0], self.hash)
            self.assertEqual([line.rpartition(",")[0] for line in named], bare)
            rows = list(csv.DictReader(io.StringIO("\n".join(named))))
            self.assertGreater(len(rows), 100)
            self.assertEqual([row["flow"] for row in rows],
                             [self.plain[int(row["id"])] for row in rows])
            objects = [json.loads(line) for line in self.lines(
                "steer-rows", "json", kind, self.reports[0], self.hash)]
            self.assertEqual([row["flow"] for row in objects], [row["flow"] for row in rows])

    def test_diff(self):
        bare = self.lines("steer-diff", *self.reports)
        named = self.lines("steer-diff", *self.reports, self.hash)
        self.assertEqual(len(bare), len(named))
        seen = 0
        for before, after in zip(bare, named):
            found = re.match("[pr] ([0-9]+) ", before)
            if found:
                before += " (%s)" % self.plain[int(found[1])]
                seen += 1
            self.assertEqual(after, before)
        self.assertGreater(seen, 100)

    def test_draw(self):
        bare = self.lines("steer-draw", self.reports[1])
        named = self.lines("steer-draw", self.reports[1], self.hash)
        rows = [line for line in named if line.startswith("flow ")]
        self.assertEqual([line for line in named[:-1] if line not in rows], bare[:-1])
        heavy = Counter(self.plain).most_common(5)
        self.assertEqual([line.rsplit("| ", 1)[1] for line in rows],
                         ["%d  %s" % (count, flow) for flow, count in heavy])
        for line, (flow, _) in zip(rows, heavy):
            marks = line.split("|")[1]
            for column, mark in enumerate(marks):      # 177 packets, 3 a column
                self.assertEqual(mark != " ", flow in self.plain[3 * column:3 * column + 3])
            self.assertEqual(len(marks), 59)
        self.assertEqual(named[-1], bare[-1] + ", and 3 packets of one flow")

    def test_svg(self):
        root = ElementTree.fromstring("\n".join(
            self.lines("steer-draw", "--svg", self.reports[1], self.hash)))
        heavy = [flow for flow, _ in Counter(self.plain).most_common(5)]
        self.assertEqual([text.text for text in root.iter(SVG + "text") if " > " in text.text],
                         heavy)
        titles = [element.text for element in root.iter(SVG + "title")][1:]
        self.check_titles(titles)
        named = [title for title in titles if " on cpu " not in title and "moves" not in title]
        for flow in heavy:
            self.assertEqual(sum(int(title.split()[4]) for title in named
                                 if " of %s, " % flow in title), self.plain.count(flow))

    def check_titles(self, titles):
        """Each text of a processor's bar names the flows of just its packets, and how many."""
        with open(self.reports[1], encoding="ascii") as stream:
            cpus = {int(words[1]): words[15] for words in map(str.split, stream)
                    if words[0] == "p"}
        bars = [title for title in titles if " on cpu " in title]
        for title in bars:
            first, last, count, cpu = re.match(
                "packets ([0-9]+) to ([0-9]+): ([0-9]+) on cpu ([0-9]+), ", title).groups()
            flows = Counter(self.plain[number] for number in range(int(first), int(last) + 1)
                            if cpus[number] == cpu)
            self.assertEqual(sum(flows.values()), int(count))
            lines = [line.split(" of ") for line in title.splitlines()[1:]]
            self.assertEqual({flow: int(number) for number, flow in lines}, flows, title)
        self.assertGreater(len(bars), 50)


class Words(unittest.TestCase):
    def test_three_packets(self):
        """The examples of the documentation: packet 1 is dropped, packet 2 has moved its flow."""
        with Folder() as folder:
            report = folder.write("report", replayed("three", "three"))
            names = folder.write("hash", running.steer("hash", example("three.pcap"))[1].encode())
            self.assertEqual(inside("steer-draw", report, names), (0, THREE_NAMED.encode(), ""))
            out = inside("steer-rows", "csv", "p", report, names)[1].decode()
            self.assertEqual([line.split(",")[17] for line in out.splitlines()],
                             ["flow", FLOW, FLOW, FLOW])
            other = folder.write("other", replayed("three", "three").replace(
                b"cpu 2 why passed", b"cpu 2 why unset"))
            self.assertEqual(inside("steer-diff", report, other, names)[1].decode(),
                             "p 2 why passed -> unset (%s)\nsum 1 of 3 packets differ: other queue "
                             "0, other processor 0, no longer dropped 0, newly dropped 0; drops 1 "
                             "-> 1\n" % FLOW)
            root = ElementTree.fromstring(inside("steer-draw", "--svg", report, names)[1])
            self.assertEqual([title.text for title in root.iter(SVG + "title")][1:], [
                "packets 0 to 0: 1 on cpu 1, 0 of them dropped\n1 of " + FLOW,
                "packets 1 to 1: 1 on cpu 1, 1 of them dropped\n1 of " + FLOW,
                "packets 2 to 2: 1 on cpu 2, 0 of them dropped\n1 of " + FLOW,
                "packets 2 to 2: 1 moves\n1 of " + FLOW,
                "packets 0 to 0: 1 of %s, 0 of them dropped" % FLOW,
                "packets 1 to 1: 1 of %s, 1 of them dropped" % FLOW,
                "packets 2 to 2: 1 of %s, 0 of them dropped" % FLOW])

    def test_a_cell_of_many_flows(self):
        """1,600 packets of as many flows on one processor: 10 a column, of which 3 are named."""
        plan = {"cpus": 1, "queues": [{"home": 0, "mask": [], "flows": 0}], "sock": 0,
                "apps": [0], "tx": [{"cpus": [], "queues": []}], "steps": ["sweep"]}
        with Folder() as folder:
            capture = folder.path("made.pcap")
            write_capture(capture, 1600, 40, 9)
            report = folder.replay(plan, capture)
            lines = ["packet %d udp4 0a000001 0a000002 %d 53 hash 00000000 entry 0 queue 0\n"
                     % (number, number) for number in range(1600)]
            names = folder.write("hash", "".join(lines + ["packets 1600\n"]).encode())
            root = ElementTree.fromstring(inside("steer-draw", "--svg", report, names)[1])
        titles = [title.text for title in root.iter(SVG + "title")][1:]
        self.assertEqual(titles[0].splitlines(), [
            "packets 0 to 9: 10 on cpu 0, 0 of them dropped", "1 of udp4 10.0.0.1:0 > 10.0.0.2:53",
            "1 of udp4 10.0.0.1:1 > 10.0.0.2:53", "1 of udp4 10.0.0.1:2 > 10.0.0.2:53",
            "7 of 7 more flows"])
        self.assertEqual(len(titles), 160 + 5)

    def test_a_file_of_another_capture(self):
        with Folder() as folder:
            report = folder.write("report", REPLIED)
            names = folder.write("hash", b"packet 0 none hash - entry - queue 0\npackets 1\n")
            for words in (["steer-top", report], ["steer-rows", "csv", "p", report],
                          ["steer-diff", report, report], ["steer-draw", report],
                          ["steer-draw", "--svg", report]):
                self.assertEqual(inside(*words, names), (
                    3, b"", "%s: %s: refused: has 1 packets, and the report is of 3\n"
                    % (words[0], names)))
                self.assertEqual(inside(*words, report), (
                    4, b"", "%s: %s: line 1 is not output of `steer hash`\n" % (words[0], report)))

    def test_words_that_do_not_go_together(self):
        for words, text in (
                (["steer-rows", "csv", "queue", "a", "b"], "HASH goes with the kinds p and r"),
                (["steer-rows", "csv", "p", "-", "-"],
                 "only one of REPORT, HASH and --times can be standard input"),
                (["steer-diff", "-q", "a", "b", "c"],
                 "-q leaves out the lines in which HASH names flows"),
                (["steer-diff", "a", "-", "-"],
                 "only one of OLD, NEW and HASH can be standard input"),
                (["steer-draw", "-", "-"], "REPORT and HASH cannot both be standard input")):
            self.assertEqual(inside(*words), (2, b"", "%s: %s\n" % (words[0], text)))

    def test_mutated_names_give_no_traceback(self):
        """An exception that a program does not turn into a status comes out here."""
        draw = random.Random(52)
        with Folder() as folder:
            report = folder.write("report", replayed("three", "three"))
            whole = running.steer("hash", example("three.pcap"))[1].encode()
            for _ in range(200):
                data = bytearray(whole)
                for _ in range(draw.randint(1, 3)):
                    spot = draw.randrange(len(data))
                    data[spot:spot + draw.choice((0, 1, 1, 4))] = draw.choice(
                        (b"", b"9", b"-", b"\xff", b"\n", bytes([draw.randrange(256)])))
                names = folder.write("hash", bytes(data))
                for words in (["steer-rows", "json", "p", report], ["steer-draw", report],
                              ["steer-diff", report, report]):
                    status, out, said = inside(*words, names)
                    self.assertIn(status, (0, 3, 4), said)
                    self.assertEqual(out == b"", status != 0)
                    self.assertEqual(said.count("\n"), int(status != 0))

    def test_options_between_the_files(self):
        with Folder() as folder:
            report = folder.write("report", replayed("three", "three"))
            names = folder.write("hash", running.steer("hash", example("three.pcap"))[1].encode())
            times = folder.write("times", b"steer-times 1\n0 0 1\n1 - -\n2 2 3\nend 3\n")
            for program, option in (
                    (["steer-top", report], ["--plan", example("three.json")]),
                    (["steer-rows", "csv", "p", report], ["--times", times]),
                    (["steer-diff", report, report], ["--times", times, times]),
                    (["steer-draw", report], ["--svg"])):
                ended = inside(*program, *option, names)
                self.assertEqual(ended, inside(*program, names, *option))
                self.assertEqual((ended[0], ended[2]), (0, ""))
            out = inside("steer-rows", "csv", "p", report, "--times", times, names)[1].decode()
            self.assertEqual(out.splitlines()[1].split(",")[17:], ["0", "0", "1", "0", FLOW])


if __name__ == "__main__":
    unittest.main()
