"""Tests of steer-draw."""

import io
import unittest
from xml.etree import ElementTree

from reporting import (REPLIED, Folder, example, random_plan, replayed, run, run_closed,
                       write_capture)

from steerlib import drawing, report

PLANS = 10
SVG = "{http://www.w3.org/2000/svg}"

THREE = """\
cpu 1   |@@ | 2
cpu 2   |  @| 1
drops 1 | x | 1
moves   |  ^| 1
packet   0 2
a column is 1 packet; marks from . to @ go up to 1 packet on one cpu
"""


class Draw(unittest.TestCase):
    def test_three_packets_in_the_terminal(self):
        ended = run("steer-draw", "-", data=replayed("three", "three"))
        self.assertEqual((ended.stdout, ended.stderr, ended.returncode), (THREE, "", 0))

    def test_moves_from_a_passed_and_from_an_offline_processor(self):
        data = REPLIED.replace(b"cpu 1 why plain at 1 ", b"cpu 1 why offline at 1 ")
        data = data.replace(b"cpu 1 why plain at 3 ", b"cpu 1 why passed at 3 ")
        self.assertIn("moves   |^ ^| 2", list(drawing.text(report.read(io.BytesIO(data)))))
        self.assertIn("flows moved 2 times", run("steer-top", "-", data=data).stdout)

    def test_numbers_are_those_of_the_report(self):
        with Folder() as folder:
            capture = folder.path("made.pcap")
            write_capture(capture, 500, 60, 4)
            for seed in range(PLANS):
                found = report.read_file(folder.replay(random_plan(seed), capture))
                lines = list(drawing.text(found))
                for name, of_it in (("cpu", lambda row: True),
                                    ("drops", lambda row: row.place == "drop")):
                    counts = {row.cpu: 0 for row in found.cpus}
                    for row in found.packets:
                        if row.cpu is not None:
                            counts[row.cpu] += of_it(row)
                    for cpu, count in counts.items():
                        drawn = [line for line in lines
                                 if line.split("|")[0].strip() == "%s %d" % (name, cpu)]
                        self.assertEqual([int(line.split("| ")[-1]) for line in drawn],
                                         [count] if count else [], (seed, name, cpu))
                self.assertLessEqual(max(len(line.split("|")[1]) for line in lines
                                         if "|" in line) if found.packets else 0, 64)
                self.check_svg(drawing.svg(found, "made"), found)

    def check_svg(self, text, found):
        root = ElementTree.fromstring(text)
        titles = [element.text for element in root.iter(SVG + "title")][1:]
        bars = [title for title in titles if " on cpu " in title]
        self.assertEqual(sum(int(title.split()[4]) for title in bars),
                         sum(row.cpu is not None for row in found.packets))
        self.assertEqual(sum(int(title.split(", ")[1].split()[0]) for title in bars),
                         sum(row.place == "drop" for row in found.packets))
        self.assertEqual(sum(int(title.split()[4]) for title in titles if "moves" in title),
                         sum(row.why in ("passed", "offline") for row in found.packets))
        for element in root.iter(SVG + "rect"):
            if element.get("height") != "100%":
                self.assertGreater(float(element.get("height")), 0)
                self.assertGreaterEqual(float(element.get("x")), 0)
                self.assertLessEqual(float(element.get("x")) + float(element.get("width")),
                                     float(root.get("width")))

    def test_heights_are_in_proportion(self):
        """Each packet has a column of its own; the second of processor 1 was dropped."""
        root = ElementTree.fromstring(drawing.svg(report.replay(
            example("three.json"), example("three.pcap")), "three"))
        bars = [(rect.get("height"), rect.get("fill")) for group in root.iter(SVG + "g")
                for rect in group.iter(SVG + "rect")]
        blue, red = drawing.PUT_COLOR, drawing.DROP_COLOR
        self.assertEqual(bars, [("40.0", blue), ("40.0", red), ("40.0", blue)])

    def test_names_are_escaped(self):
        with Folder() as folder:
            ended = run("steer-draw", "--svg", folder.write('a<b> & "c"\x01', REPLIED))
        self.assertEqual((ended.returncode, ended.stderr), (0, ""))
        self.assertIn("a&lt;b&gt; &amp; ", ended.stdout)
        root = ElementTree.fromstring(ended.stdout)
        self.assertTrue(root.find(SVG + "title").text.endswith('/a<b> & "c"\\x01: 3 packets'))

    def test_columns_cover_the_packets_once(self):
        for packets in (1, 63, 64, 65, 127, 128, 129, 3000):
            row = report.read(io.BytesIO(REPLIED)).packets[0]
            found = report.Report([row._replace(id=number) for number in range(packets)], [], [],
                                  [report.Cpu(0, 0, 0, 0, 0, 0), report.Cpu(1, 0, 0, 0, 0, 0)],
                                  [], [], [], [], report.End(packets, packets, None))
            cells = drawing.Cells(found, 64)
            bounds = [cells.bounds(cell) for cell in range(cells.count)]
            self.assertLessEqual(len(bounds), 64)
            self.assertEqual([number for first, last in bounds
                              for number in range(first, last + 1)], list(range(packets)))
            self.assertEqual(cells.offered[1], [last + 1 - first for first, last in bounds])

    def test_marks(self):
        self.assertEqual("".join(drawing._shade(count, 9) for count in range(10)), " .:-=+*#%@")
        self.assertEqual([drawing._drop_mark(*pair) for pair in ((0, 4), (1, 4), (2, 4), (3, 4))],
                         [" ", "'", "'", "x"])

    def test_under_way_and_nothing(self):
        plan = {"cpus": 2, "queues": [{"home": 0, "mask": [1], "flows": 0}], "sock": 0,
                "apps": [0], "tx": [{"cpus": [], "queues": []}]}
        cases = ((["arrive", "arrive", "poll 0"],
                  ["cpu 1   |@ | 1", "no cpu  | ?| 1", "packet   0 1",
                   "a column is 1 packet; marks from . to @ go up to 1 packet on one cpu",
                   "2 of 3 packets arrived"]),
                 ([], ["0 of 3 packets arrived"]))
        with Folder() as folder:
            for steps, lines in cases:
                path = folder.replay(dict(plan, steps=steps),
                                     example("three.pcap"))
                self.assertEqual(run("steer-draw", path).stdout.splitlines(), lines)
                ElementTree.fromstring(run("steer-draw", "--svg", path).stdout)

    def test_faults_and_a_closed_pipe(self):
        for words, data, status, text in (
                (["-"], b"", 4, "is no report"), (["--png", "-"], REPLIED, 2, "--png"),
                (["-"], REPLIED[:-1], 3, "cut short after line 18"),
                (["--svg", "-"], REPLIED[:-1], 3, "cut short after line 18")):
            ended = run("steer-draw", *words, data=data)
            self.assertEqual((ended.returncode, ended.stdout), (status, ""), words)
            self.assertIn(text, ended.stderr)
        with Folder() as folder:
            path = folder.write("report", REPLIED)
            self.assertEqual(run_closed("steer-draw", path), (0, ""))
            self.assertEqual(run_closed("steer-draw", "--svg", path), (0, ""))


if __name__ == "__main__":
    unittest.main()
