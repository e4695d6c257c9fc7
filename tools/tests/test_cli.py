"""Tests of what all companion programs share, and of each program's manners."""

import ast
import gzip
import os
import re
import signal
import subprocess
import sys
import tempfile
import threading
import unittest

from running import ENVIRONMENT, STEER, TOOLS, example, inside, run, run_all, sample

from steerlib import cli, processors

PROGRAMS = sorted(name for name in os.listdir(TOOLS)
                  if os.path.isfile(os.path.join(TOOLS, name)) and name.startswith("steer-"))

# Words that a program wants before and behind its first file.
AROUND = {
    "steer-set": ((), ("rx-0/home=0",)), "steer-diff": ((), (example("rps.json"),)),
    "steer-rows": (("csv", "p"), ()), "steer-try": ((), (example("rps.json"),)),
    "steer-steps": ((), (example("web.pcap"), "--pps", "1000")),
}

# What a program does, its status, and what it says on standard error.
ENDS = (
    ("pass", 0, ""),
    ("return 1", 1, ""),
    ("raise cli.WrongWords('no such word')", 2, "prog: no such word\n"),
    ("raise cli.Refused('a.json', 'sock 9')", 3, "prog: a.json: refused: sock 9\n"),
    ("raise cli.Refused('a', 'b', 'c')", 3, "prog: a: refused: b\nprog: a: refused: c\n"),
    ("raise cli.NotThatFile('a.json', 'no plan')", 4, "prog: a.json: no plan\n"),
    ("cli.read_text('/no/such')", 4, "prog: /no/such: No such file or directory\n"),
    ("open('/no/such')", 4, "prog: /no/such: No such file or directory\n"),
    ("raise MemoryError", 3, "prog: refused: the input needs more memory than there is\n"),
    ("raise BrokenPipeError", 0, ""),
    ("cli.note('a\\x1b[1mb')", 0, "note: a\\x1b[1mb\n"),
    ("cli.parser('d', 'e').parse_args(['--no'])", 2,
     "prog: unrecognized arguments: --no (--help says more)\n"),
    ("print('\\u00e9\\ud800')", 0, ""),
)


def ended(body, **keywords):
    """Status, output and standard error of a program with this body."""
    with tempfile.TemporaryDirectory() as folder:
        path = os.path.join(folder, "prog")
        with open(path, "w", encoding="utf-8") as stream:
            stream.write("import sys\nsys.path.insert(0, %r)\nfrom steerlib import cli\n"
                         "def main(words):\n    %s\ncli.run(main)\n" % (TOOLS, body))
        found = subprocess.run([sys.executable, path], stdout=subprocess.PIPE,
                               stderr=subprocess.PIPE, stdin=subprocess.DEVNULL, **keywords)
    return found.returncode, found.stdout, found.stderr.decode()


class Programs(unittest.TestCase):
    def test_help_is_complete(self):
        results = run_all([(name, "--help") for name in PROGRAMS])
        for name, (status, out, err) in zip(PROGRAMS, results):
            self.assertEqual((status, err), (0, ""), name)
            self.assertTrue(out.startswith("usage: %s " % name), name)
            for text in ("it is not part of the proved program.", "\nexample", "\nStatuses: 0"):
                self.assertIn(text, out, name)
            lines = out.split("\nexample")[1].splitlines()
            self.assertTrue(any(line.startswith("  ") and name in line for line in lines), name)

    def test_no_words_and_wrong_words(self):
        calls = [(name,) + words for name in PROGRAMS for words in ((), ("--no-such-word",))]
        for words in calls:
            status, out, err = (run if words[0] == "steer-snap" else inside)(*words)
            self.assertEqual((status, out), (2, ""), words)
            self.assertRegex(err, "^%s: .*\n$" % words[0])

    def test_a_closed_pipe_is_silent(self):
        for name, words in (
                ("steer-snap", ["--help"]), ("steer-lint", [sample("plan", "ix.json")]),
                ("steer-set", [sample("plan", "ix.json"), "apps=1"]),
                ("steer-plan", [sample("snap", "lo.snap")]),
                ("steer-rules", [sample("snap", "ixgbe-8q-rules.snap")])):
            reading, writing = os.pipe()
            os.close(reading)
            found = subprocess.run([os.path.join(TOOLS, name)] + words, stdout=writing,
                                   stderr=subprocess.PIPE, env=ENVIRONMENT)
            os.close(writing)
            said = [line for line in found.stderr.decode().splitlines()
                    if not line.startswith("note: ")]
            self.assertEqual(said, [], name)

    def test_files_may_be_run_and_read_by_an_old_python(self):
        for folder, _, names in os.walk(TOOLS):
            for name in names:
                path = os.path.join(folder, name)
                if name in PROGRAMS:
                    self.assertTrue(os.access(path, os.X_OK), name)
                if name.endswith(".py") or name in PROGRAMS:
                    with open(path, encoding="utf-8") as stream:
                        text = stream.read()
                    if not text.startswith("#!/bin/sh"):
                        ast.parse(text, path, feature_version=(3, 8))


class Shared(unittest.TestCase):
    def test_ends(self):
        for body, status, text in ENDS:
            found = ended(body)
            self.assertEqual((found[0], found[2]), (status, text), body)

    def test_an_interrupt_from_the_keyboard_ends_it_so(self):
        self.assertEqual(ended("raise KeyboardInterrupt")[::2], (-signal.SIGINT, ""))

    def test_output_is_utf_8_in_every_locale(self):
        found = ended("print('\\u00e9\\ud800')", env=dict(os.environ, LC_ALL="C"))
        self.assertEqual(found, (0, b"\xc3\xa9\\ud800\n", ""))

    def test_a_full_disk_is_told(self):
        if not os.path.exists("/dev/full"):
            self.skipTest("no /dev/full")
        with open("/dev/full", "wb") as full:
            found = subprocess.run([os.path.join(TOOLS, "steer-lint"), example("rps.json")],
                                   stdout=full, stderr=subprocess.PIPE)
        self.assertEqual((found.returncode, found.stderr),
                         (4, b"steer-lint: input or output: No space left on device\n"))

    def test_input_plain_packed_and_cut(self):
        data = bytes(range(256)) * 3000
        with tempfile.TemporaryDirectory() as folder:
            path = os.path.join(folder, "file")
            for written, wanted in ((data, data), (gzip.compress(data), data), (b"", b""),
                                    (gzip.compress(b"") + gzip.compress(data), data)):
                with open(path, "wb") as stream:
                    stream.write(written)
                self.assertEqual(cli.read_bytes(path), wanted)
                with cli.open_bytes(path, unpacked=False) as stream:
                    self.assertEqual(stream.read(), written)
            for written in (gzip.compress(data)[:-9], gzip.compress(data)[:50],
                            gzip.compress(data)[:20] + b"x" * 400, b"\x1f\x8bnothing"):
                with open(path, "wb") as stream:
                    stream.write(written)
                with self.assertRaises(cli.NotThatFile) as caught:
                    cli.read_bytes(path)
                self.assertTrue(str(caught.exception).startswith(path + ": "))
            with open(path, "wb") as stream:
                stream.write(b"abc\xff")
            with self.assertRaises(cli.NotThatFile) as caught:
                cli.read_text(path)
            self.assertEqual(str(caught.exception),
                             path + ": byte 3 (0xff) is not UTF-8 text")

    def test_standard_input_packed_or_closed(self):
        with open(example("rps.json"), "rb") as stream:
            packed = gzip.compress(stream.read())
        self.assertEqual(run("steer-set", "-", "apps=1", data=packed)[0], 0)
        found = subprocess.run("%s/steer-lint - <&-" % TOOLS, shell=True, stdout=subprocess.PIPE,
                               stderr=subprocess.PIPE)
        self.assertEqual((found.returncode, found.stderr),
                         (4, b"steer-lint: standard input: it is closed\n"))

    def test_a_line_of_a_pipe_is_there_before_its_end(self):
        first = b"first\n" + bytes(range(256)) * 40
        for front, whole in ((first, first + b"last"), (gzip.compress(first), first)):
            out, into = os.pipe()
            ended_late = threading.Timer(20, os.close, [into])
            ended_late.start()
            os.write(into, front)
            with cli.open_bytes("/dev/fd/%d" % out) as stream:
                self.assertEqual(stream.readline(), b"first\n")
                self.assertTrue(ended_late.is_alive(), "the line came with the end of the pipe")
                ended_late.cancel()
                if whole is not first:
                    os.write(into, whole[len(first):])
                os.close(into)
                self.assertEqual(b"first\n" + stream.read(), whole)
            os.close(out)

    def test_where_steer_is_found(self):
        before = dict(os.environ)
        try:
            with tempfile.TemporaryDirectory() as folder:
                named = os.path.join(folder, "other")
                on_path = os.path.join(folder, "steer")
                for path in (named, on_path):
                    os.symlink(STEER, path)
                os.environ.update(STEER=named, PATH=folder)
                self.assertEqual(cli.find_steer(), [named])
                del os.environ["STEER"]
                self.assertEqual(cli.find_steer(), [on_path])
                os.remove(on_path)
                self.assertEqual(cli.find_steer(),
                                 [os.path.join(os.path.dirname(TOOLS), "steer.sh")])
                os.environ["STEER"] = os.path.join(folder, "nosuch")
                with self.assertRaisesRegex(cli.Refused, "nosuch is no program"):
                    cli.find_steer()
        finally:
            os.environ.clear()
            os.environ.update(before)

    def test_steer_is_run_and_its_message_is_kept(self):
        before = os.environ.get("STEER")
        os.environ["STEER"] = STEER
        try:
            out = cli.run_steer(["hash", example("three.pcap")])
            self.assertTrue(out.endswith(b"packets 3\n"), out)
            with self.assertRaises(cli.Refused) as caught:
                cli.run_steer(["hash", "/no/such"])
            self.assertEqual(caught.exception.reason, "read fault")
        finally:
            if before is None:
                del os.environ["STEER"]
            else:
                os.environ["STEER"] = before

    def test_forms_of_sets(self):
        for text, members in (("f0", [4, 5, 6, 7]), ("0", []), ("00000001,00000000", [32]),
                              ("1,0", [32]), ("0xA", [1, 3]), ("8000,00000000,00000003",
                                                               [0, 1, 79])):
            self.assertEqual(processors.parse_mask(text), members, text)
        for text in ("", "g", "0-3", "1,", ",1", "1,123456789", "-1", "0x", "1 2", "f" * 99999):
            with self.assertRaises(ValueError, msg=text):
                processors.parse_mask(text)
        for text, members in (("0-3,8", [0, 1, 2, 3, 8]), ("", []), ("7", [7]), ("3,1", [3, 1])):
            self.assertEqual(processors.parse_list(text), members, text)
        for text in ("3-1", "a", "1-", "-1", "1,,2", "0-99999", "1 ", "\u0663"):
            with self.assertRaises(ValueError, msg=text):
                processors.parse_list(text)
        for members, width, text in (
                ([0], 1, "1"), ([0], 16, "0001"), ([], 64, "00000000,00000000"),
                ([40], 48, "0100,00000000"), ([9], 4, "200")):
            self.assertEqual(processors.mask_text(members, width), text)
        self.assertEqual(processors.list_text([8, 0, 1, 2, 2]), "0-2,8")

    def test_no_fault_of_input_ends_in_a_traceback(self):
        """Each program over files of every kind, and one that is not there."""
        files = [example("web.pcap"), example("rps.json"), os.devnull, "/no/such/file"]
        pairs = [(name, path) for name in PROGRAMS for path in files]
        calls = [(name,) + before + (path,) + behind for name, path in pairs
                 for before, behind in [AROUND.get(name, ((), ()))]]
        for words, (name, path) in zip(calls, pairs):
            status, _, err = (run if name == "steer-snap" else inside)(*words)
            self.assertIn(status, (0, 1, 2, 3, 4), words)
            self.assertIsNone(re.search("Traceback|Error\\b", err), (words, err))
            if path == "/no/such/file":
                self.assertIn(status, (2, 4), (words, err))


if __name__ == "__main__":
    unittest.main()
