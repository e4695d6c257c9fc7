"""Tests of steer-diff."""

import io
import re
import unittest

from reporting import REPLIED, Folder, random_plan, replayed, run, run_closed, write_capture

from steerlib import comparison, report

PLANS = 8
SAME = ("sum 0 of 3 packets differ: other queue 0, other processor 0, no longer dropped 0, "
        "newly dropped 0; drops 0 -> 0; 0 replies differ: other transmit queue 0\n")


def turned(line):
    """A line of a comparison as it is when the reports change places."""
    if line.startswith("c "):
        return re.sub(r"^(c \d+) (.*) -> (.*)$", r"\1 \3 -> \2", line)
    line = re.sub(r"(\S+) -> ([^\s,;]+)", r"\2 -> \1", line)
    line = re.sub(r"\(([+-])(\d+)\)",
                  lambda found: "(%s%s)" % ("-" if found[1] == "+" else "+", found[2]), line)
    line = re.sub(r"no longer dropped (\d+), newly dropped (\d+)",
                  r"no longer dropped \2, newly dropped \1", line)
    for old, new in (("is new", "is gone"), ("only in the new", "only in the old")):
        if line.endswith(old) or line.endswith(new):
            return line.replace(old, "?").replace(new, old).replace("?", new)
    return line


def lines_of(old, new):
    return list(comparison.Comparison(old, new).lines(quiet=False))


class Diff(unittest.TestCase):
    def test_the_examples_of_two_masks(self):
        """The sums are those that grep counts in the two reports."""
        with Folder() as folder:
            paths = [folder.write(name, replayed(name, "web")) for name in ("rps", "rps-wide")]
            ended = run("steer-diff", "-q", *paths)
            with open(paths[0]) as one, open(paths[1]) as two:
                old = [line.split() for line in one if line.startswith("p ")]
                new = [line.split() for line in two if line.startswith("p ")]
        self.assertEqual((ended.returncode, ended.stderr), (1, ""))
        self.assertEqual(ended.stdout.splitlines()[:3], [
            "cpu 1 accepted 0 -> 30 (+30)", "cpu 2 accepted 26 -> 43 (+17)",
            "cpu 3 accepted 124 -> 90 (-34), dropped 23 -> 10 (-13)"])
        moved = sum(one[15] != two[15] for one, two in zip(old, new))
        saved = sum(one[-1] == "drop" != two[-1] for one, two in zip(old, new))
        lost = sum(one[-1] != "drop" == two[-1] for one, two in zip(old, new))
        self.assertIn("other queue 0, other processor %d, no longer dropped %d, newly dropped %d; "
                      "drops 23 -> 10" % (moved, saved, lost), ended.stdout.splitlines()[-1])

    def test_a_report_and_itself(self):
        with Folder() as folder:
            path = folder.write("report", REPLIED)
            ended = run("steer-diff", path, path)
        self.assertEqual((ended.stdout, ended.stderr, ended.returncode), (SAME, "", 0))

    def test_each_change_is_seen(self):
        old = report.read(io.BytesIO(REPLIED))
        changes = (
            (dict(taps=old.taps[:2] + [(2, b"")]), "tap 2 differs"),
            (dict(writes=[report.Write(0, 1, 2)]), "w 1 lines differ, of 0 -> 1"),
            (dict(answers=[report.Answer(0, "expire", "expired 0")]), "c 0 - -> expire expired 0"),
            (dict(tx=old.tx[:1]), "tx 1 is gone"),
            (dict(cpus=old.cpus[:2] + [old.cpus[2]._replace(pulled=1)]),
             "cpu 2 pulled 0 -> 1 (+1)"),
            (dict(packets=[old.packets[0]._replace(q=1)] + old.packets[1:]), "p 0 q 0 -> 1"),
            (dict(packets=old.packets[:2]), "p 2 is only in the old"),
            (dict(packets=[old.packets[0]._replace(place="drop", why="kept")] + old.packets[1:]),
             "p 0 why plain -> kept, place inbox -> drop"),
            (dict(replies=old.replies[:2]), "r 2 is only in the old"),
            (dict(replies=[old.replies[0]._replace(tx=1)] + old.replies[1:]), "r 0 tx 0 -> 1"))
        for change, line in changes:
            new = report.Report(**dict(vars(old), **change))
            compared = comparison.Comparison(old, new)
            lines = list(compared.lines(quiet=False))
            self.assertIn(line, lines)
            self.assertTrue(compared.differ(), line)
            if line == "r 0 tx 0 -> 1":
                self.assertIn("; 1 replies differ: other transmit queue 1", lines[-1])
        new = report.Report(**dict(vars(old), packets=[old.packets[0]._replace(at=9)]
                                   + old.packets[1:]))
        compared = comparison.Comparison(old, new)
        self.assertEqual(list(compared.lines(quiet=False)),
                         [SAME.strip() + "; 1 more lines in other fields only"])
        self.assertTrue(compared.differ())

    def test_both_ways_with_signs_turned(self):
        with Folder() as folder:
            capture = folder.path("made.pcap")
            write_capture(capture, 200, 40, 3)
            found = []
            for seed in range(PLANS):
                found.append(report.read_file(folder.replay(random_plan(seed), capture)))
        for old, new in zip(found, found[1:]):
            there, back = lines_of(old, new), lines_of(new, old)
            self.assertEqual([turned(line) for line in there], back)
            self.assertGreater(len(there), 1)

    def test_other_captures_and_faults(self):
        with Folder() as folder:
            path = folder.write("a", REPLIED)
            cases = (
                ([path, folder.write("b", REPLIED.replace(b"end 3 of 3", b"end 3 of 4"))], 3,
                 "b: refused: is of another capture: 4 packets, and that of"),
                ([path, folder.write("c", REPLIED.replace(b"of 3\n", b"of 3 cut 7\n"))], 3,
                 "is of another capture: 3 packets cut 7, and that of"),
                ([path, folder.write("d", b"p")], 4, "is no report"),
                (["-", "-"], 2, "only one of OLD, NEW and HASH can be standard input"),
                ([path], 2, "NEW"))
            for words, status, text in cases:
                ended = run("steer-diff", *words)
                self.assertEqual((ended.returncode, ended.stdout), (status, ""), words)
                self.assertIn(text, ended.stderr)
            self.assertEqual(run_closed("steer-diff", path, path), (0, ""))


if __name__ == "__main__":
    unittest.main()
