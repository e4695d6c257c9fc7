"""Tests of steer-rows."""

import csv
import io
import json
import unittest

from reporting import REPLIED, Folder, random_plan, replayed, run, run_closed, write_capture

from steerlib import report, tables

PLANS = 12


def value(field):
    """A field of CSV as JSON has it."""
    if field == "":
        return None
    return int(field) if field.isdigit() else field


def written(kind, found):
    """The rows of a kind as CSV and as JSON lines, both read back."""
    as_csv, as_json = io.StringIO(), io.StringIO()
    tables.write_csv(found.by_kind()[kind], tables.columns(kind), as_csv)
    tables.write_json(found.by_kind()[kind], tables.columns(kind), as_json)
    rows = list(csv.DictReader(io.StringIO(as_csv.getvalue())))
    objects = [json.loads(line) for line in as_json.getvalue().splitlines()]
    return rows, objects


class Rows(unittest.TestCase):
    def test_worked_report(self):
        ended = run("steer-rows", "csv", "r", "-", data=REPLIED)
        self.assertEqual((ended.returncode, ended.stderr), (0, ""))
        self.assertEqual(ended.stdout, "id,app,rxq,cpu,pick,head,tail,tx,why,at,port\n"
                         "0,0,0,2,0,,0,0,unset,1,1\n1,0,0,2,0,,1,0,same,2,2\n"
                         "2,0,0,2,0,,2,0,same,3,3\n")
        ended = run("steer-rows", "json", "cpu", "-", data=REPLIED)
        self.assertEqual(ended.stdout.splitlines()[1],
                         '{"cpu": 1, "accepted": 3, "pulled": 3, "delivered": 3, "retired": 3, '
                         '"dropped": 0}')

    def test_a_drop_and_commands(self):
        with Folder() as folder:
            path = folder.write("report", replayed("three", "three"))
            lines = run("steer-rows", "csv", "p", path).stdout.splitlines()
        self.assertEqual(lines[0], "id,q,via,class,want,head,tail,cpu,why,at,drop,drop_accepted,"
                         "drop_pulled,flow_offers,app,inbox,place")
        self.assertEqual(lines[2], "1,0,reta,120,2,0,1,1,kept,,1,1,0,,0,,drop")
        text = REPLIED.replace(b"tap 0 bytes", b"c 0 mask 0 1,2 busy inside 1\ntap 0 bytes")
        ended = run("steer-rows", "csv", "c", "-", data=text)
        self.assertEqual(ended.stdout, 'number,step,answer\n0,"mask 0 1,2",busy inside 1\n')

    def test_csv_and_json_have_the_same_rows(self):
        with Folder() as folder:
            capture = folder.path("made.pcap")
            write_capture(capture, 200, 40, 9)
            for seed in range(1000, 1000 + PLANS):
                found = report.read_file(folder.replay(random_plan(seed), capture))
                for kind in tables.KINDS:
                    rows, objects = written(kind, found)
                    self.assertEqual(len(rows), len(found.by_kind()[kind]))
                    self.assertEqual([{name: value(field) for name, field in row.items()}
                                      for row in rows], objects, (seed, kind))
                self.check_against_text(folder.path("report"), written("p", found)[1])

    def check_against_text(self, path, objects):
        """The rows of packets have the fields of the report's lines, found by their names."""
        with open(path) as lines:
            packets = [line.split() for line in lines if line.startswith("p ")]
        for words, row in zip(packets, objects):
            named = dict(zip(words[0::2], words[1::2]))
            if row["drop"] is None:
                self.assertEqual(value(named["at"].replace("-", "")), row["at"])
            for name in ("q", "via", "class", "want", "head", "tail", "cpu", "why"):
                self.assertEqual(value(named[name].replace("-", "")), row[name], words)
            self.assertEqual(words[-1], row["place"])

    def test_faults(self):
        cases = ((["csv", "q", "-"], 2, "KIND"), (["xml", "p", "-"], 2, "csv"),
                 (["csv"], 2, "KIND"), (["csv", "p", "-"], 4, "standard input: is no report"))
        for words, status, text in cases:
            ended = run("steer-rows", *words, data=b"id,q\n")
            self.assertEqual((ended.returncode, ended.stdout), (status, ""), words)
            self.assertIn(text, ended.stderr)
        ended = run("steer-rows", "json", "p", "-", data=REPLIED[:-3])
        self.assertEqual((ended.returncode, ended.stdout), (3, ""))
        self.assertIn("cut short after line 18", ended.stderr)

    def test_a_closed_pipe_is_silent(self):
        with Folder() as folder:
            capture = folder.path("made.pcap")
            write_capture(capture, 4000, 40, 9)
            plan = dict(random_plan(1), steps=["sweep"])
            path = folder.replay(plan, capture)
            for form in ("csv", "json"):
                self.assertEqual(run_closed("steer-rows", form, "p", path), (0, ""))
                self.assertEqual(run_closed("steer-rows", form, "tx", path), (0, ""))


if __name__ == "__main__":
    unittest.main()
