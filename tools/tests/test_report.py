"""Tests of the reader of reports."""

import io
import re
import sys
import time
import unittest
from unittest import mock

from reporting import REPLIED, Folder, example, random_plan, write_capture

from steerlib import cli, report

PLANS = 36


def read(data):
    return report.read(io.BytesIO(data), "it")


class Reading(unittest.TestCase):
    def test_rows_are_those_of_the_worked_report(self):
        found = read(REPLIED)
        self.assertEqual(found.packets[1], report.Packet(
            id=1, q=0, via="reta", class_=None, want=None, head=None, tail=None, cpu=1,
            why="plain", at=2, drop=None, drop_accepted=None, drop_pulled=None, flow_offers=None,
            app=0, inbox=2, place="inbox"))
        self.assertEqual(found.replies[2], report.Reply(
            id=2, app=0, rxq=0, cpu=2, pick=0, head=None, tail=2, tx=0, why="same", at=3, port=3))
        self.assertEqual(found.queues, [(0, 3, 3)])
        self.assertEqual(found.cpus, [(0, 0, 0, 0, 0, 0), (1, 3, 3, 3, 3, 0), (2, 0, 0, 0, 0, 0)])
        self.assertEqual(found.tx, [(0, 3, 3, 3, 3), (1, 0, 0, 0, 0)])
        self.assertEqual(found.taps, [(0, b"cpu 1 packets 2\n"), (1, b""),
                                      (2, b"depth cpu 1 at 3\n")])
        self.assertEqual((found.writes, found.answers, found.end), ([], [], (3, 3, None)))

    def test_drops_writes_answers_and_a_cut_capture(self):
        rows = {
            b"at drop 7 36 28 app": (None, 7, 36, 28, None),
            b"at drop 7 36 28 flow 129 app": (None, 7, 36, 28, 129),
            b"at 4294967295 app": (4294967295, None, None, None, None)}
        for text, fields in rows.items():
            line = re.sub(b"at 1 app", text, REPLIED.splitlines()[1]) + b"\n"
            found = report.PATTERNS["p"].fullmatch(line)
            row = report.Packet._make(map(report._Values().__getitem__, found.groups()))
            self.assertEqual(row[9:14], fields, line)
        more = (b"w app 0 entry 376 cpu 2\nc 0 mask 0 1,2 busy lane 1 head 0 tail 1\n"
                b"c 1 offline 0 in use queue 0\nc 2 stand 0 3 done\nc 3 expire expired 0\n"
                b"c 4 online 3 idle online\nc 5 xcpus 0 - busy inside 1\ntap 0 bytes 16\n")
        found = read(REPLIED.replace(b"tap 0 bytes 16\n", more)[:-1] + b" cut 73\n")
        self.assertEqual(found.writes, [(0, 376, 2)])
        self.assertEqual(found.answers, [
            (0, "mask 0 1,2", "busy lane 1 head 0 tail 1"), (1, "offline 0", "in use queue 0"),
            (2, "stand 0 3", "done"), (3, "expire", "expired 0"), (4, "online 3", "idle online"),
            (5, "xcpus 0 -", "busy inside 1")])
        self.assertEqual(found.end, (3, 3, 73))

    def test_a_terminal_has_how_many_lines_are_read(self):
        """At 1 s nothing is said, at 3 s and at 6 s the lines that were read by then."""
        writes = b"w app 0 entry 376 cpu 2\n" * 30000
        data = REPLIED.replace(b"tap 0 bytes", writes + b"tap 0 bytes")
        with Folder() as folder:
            path = folder.write("report", data)
            for terminal, told, text in (
                    (True, True, "\r\x1b[K%s: lines read: 16384\r\x1b[K%s: lines read: 24576"
                     "\r\x1b[K" % (path, path)), (True, False, ""), (False, True, "")):
                said = io.StringIO()
                said.isatty = lambda: terminal
                with mock.patch.object(sys, "stderr", said), \
                        mock.patch.object(time, "monotonic", side_effect=[0, 1, 3, 6]):
                    self.assertEqual(len(report.read_file(path, told).writes), 30000)
                self.assertEqual(said.getvalue(), text)

    def test_a_report_cut_anywhere_is_refused_with_its_last_whole_line(self):
        for size in range(len(REPLIED)):
            whole = REPLIED[:size].count(b"\n")
            if whole == 0:
                with self.assertRaises(cli.NotThatFile):
                    read(REPLIED[:size])
                continue
            with self.assertRaises(cli.Refused, msg=size) as caught:
                read(REPLIED[:size])
            self.assertIn("it: refused: cut short after line %d (" % whole, str(caught.exception))

    def test_faults_are_refused_by_line(self):
        faults = (
            (b"queue 0 arrived", b"queue 1 arrived", "line 8 has number 1, expected 0"),
            (b"p 1 q", b"p 2 q", "line 3 has number 2, expected 1"),
            (b"r 1 app", b"r 0 app", "line 6 has number 0 after 0"),
            (b" via reta", b" via road", "line 2 is unexpected: `p 0 q 0 via ro"),
            (b"cpu 0 acc", b"w app 0 entry 1 cpu 2\ncpu 0 acc", "line 10 is unexpected"),
            (b"at 2 app", b"at 02 app", "line 3 is unexpected"),
            (b"at 2 app", b"at drop 1 1 0 flow - app", "line 3 is unexpected"),
            (b"in 2 place inbox", b"in 2 place drop", "line 3 has place drop and no drop"),
            (b"in 2 place inbox", b"in - place inbox", "line 3 has place inbox and no place in"),
            (b"in 2 place inbox", b"in - place ring", "line 3 has place ring and processor 1"),
            (b"cpu 1 why plain at 2", b"cpu - why plain at 2", "line 3 has a processor without"),
            (b"bytes 16", b"bytes 15", "line 15 is unexpected: ``"),
            (b"end 3 of 3\n", b"end 3 of 3\n\n", "line 20 follows the line `end`"),
            (b"steer 1\n", b"steer 1\n" + b"x" * 600 + b"\n", "line 2 is unexpected"))
        for old, new, text in faults:
            with self.assertRaises(cli.Refused, msg=new) as caught:
                read(REPLIED.replace(old, new, 1))
            self.assertIn(text, str(caught.exception))
        for data in (b"", b"steer 2\n", b"packet 0 none\n", b"\xd4\xc3\xb2\xa1" * 300):
            with self.assertRaises(cli.NotThatFile, msg=data[:20]) as caught:
                read(data)
            self.assertIn("its first line is not `steer 1`", str(caught.exception))

    def test_sums_that_are_not_those_of_the_packets_are_refused(self):
        faults = (
            (b"arrived 3 taken 3", b"arrived 4 taken 3",
             "queue 0 says arrived 4, and the lines of its packets give 3"),
            (b"arrived 3 taken 3", b"arrived 3 taken 2", "queue 0 says taken 2"),
            (b"cpu 1 accepted 3 pulled 3 delivered 3 retired 3",
             b"cpu 1 accepted 4 pulled 3 delivered 3 retired 3", "cpu 1 says accepted 4"),
            (b"retired 3 dropped 0", b"retired 3 dropped 1", "cpu 1 says dropped 1"),
            (b"retired 3 dropped 0", b"retired 1 dropped 0", "which no order of work gives"),
            (b"tx 0 accepted 3", b"tx 0 accepted 2",
             "tx 0 says accepted 2, and the lines of its replies give 3"),
            (b"tx 0 accepted 3 pulled 3", b"tx 0 accepted 3 pulled 2", "which no order of work"),
            (b"end 3 of 3", b"end 2 of 3", "the last line says 2 of 3 packets, and there are"),
            (b"end 3 of 3", b"end 3 of 2", "the last line says 3 of 2 packets"),
            (b"p 0 q 0", b"p 0 q 1", "packet 0 is of queue 1, and there are 1"),
            (b"cpu 1 why plain at 1", b"cpu 3 why plain at 1",
             "packet 0 is of processor 3, and there are 3"),
            (b"tx 0 why unset", b"tx 2 why unset", "reply 0 is of transmit queue 2"),
            (b"r 2 app", b"r 3 app", "reply 3 is of no packet that arrived"))
        for old, new, text in faults:
            with self.assertRaises(cli.Refused, msg=new) as caught:
                read(REPLIED.replace(old, new, 1))
            self.assertIn(text, str(caught.exception))


class Replays(unittest.TestCase):
    """Reports that steer makes of random plans, counted again by their text alone."""

    def check(self, data):
        found = read(data)
        lines = data.decode().split("\n")
        packets = [line.split() for line in lines if line.startswith("p ")]
        self.assertEqual(len(found.packets), len(packets))
        for row in found.cpus:
            of_it = [words for words in packets if words[15] == str(row.cpu)]
            dropped = sum(words[19] == "drop" for words in of_it)
            put = sum(words[19] not in ("drop", "-") for words in of_it)
            inbox = sum(words[-1] == "inbox" for words in of_it)
            self.assertEqual((row.accepted, row.delivered, row.dropped), (put, inbox, dropped))
        for row in found.queues:
            of_it = [words for words in packets if words[3] == str(row.queue)]
            self.assertEqual(row.arrived, len(of_it))
        self.assertEqual(sum(row.taken for row in found.queues),
                         sum(words[-1] != "ring" for words in packets))
        self.assertEqual(len(found.replies), sum(line.startswith("r ") for line in lines))
        for name, rows in (("w ", found.writes), ("c ", found.answers), ("tap ", found.taps)):
            self.assertEqual(len(rows), sum(line.startswith(name) for line in lines), name)
        return found

    def test_random_plans(self):
        places, answers = set(), set()
        with Folder() as folder:
            capture = folder.path("made.pcap")
            write_capture(capture, 300, 60, 5)
            for seed in range(PLANS):
                with self.subTest(seed=seed):
                    path = folder.replay(random_plan(seed), capture)
                    with open(path, "rb") as stream:
                        found = self.check(stream.read())
                    places.update(row.place for row in found.packets)
                    answers.update(row.answer.split(" ")[0] for row in found.answers)
        self.assertEqual(places, {"ring", "poller", "backlog", "hand", "inbox", "drop"})
        self.assertEqual(answers, {"done", "idle", "busy", "in", "cpu", "expired"})

    def test_replay_is_that_of_steer(self):
        found = report.replay(example("three.json"), example("three.pcap"))
        self.assertEqual([row.place for row in found.packets], ["inbox", "drop", "inbox"])
        with self.assertRaises(cli.Refused) as caught:
            report.replay(example("three.pcap"), example("three.pcap"))
        self.assertIn("plan: not json", str(caught.exception))


if __name__ == "__main__":
    unittest.main()
