"""Tests of what steer-try keeps of its trials, and of trials in parts and over a cluster."""

import contextlib
import glob
import io
import json
import os
import shlex
import subprocess
import sys
import tempfile
import time
import unittest
from unittest import mock

from inside import inside
from reporting import Folder
from running import STEER, TOOLS, example

from steerlib import outcomes, progress, trial, waits

WEB = example("web.pcap")
PLANS = [example(name) for name in ("rps.json", "rfs.json")]
TRIALS = 18
PATIENCE = 120      # seconds for a cluster to begin, on a machine with other work


def tried(*words):
    """The status, the lines of the output and those of the messages of steer-try."""
    status, out, said = inside("steer-try", *words)
    return status, out.decode().splitlines(), said.splitlines()


def table(lines):
    """The lines of a table without the rule that it names, in any order of its plans."""
    return sorted(lines[:-1])


def files(folder):
    """The files of a folder by name, each with a number that a new one of that name has not."""
    return {name: os.stat(os.path.join(folder, name)).st_ino for name in os.listdir(folder)}


class Lines(unittest.TestCase):
    def test_a_line_keeps_an_outcome(self):
        for times in (None, waits.Waits(None, None, None, [None, None]),
                      waits.Waits(0, 5, 10 ** 12, [1 / 3, 0.0])):
            outcome = trial.Outcome(9, 2, 1, [4, 5], times)
            with Folder() as folder:
                name = folder.write("line", outcomes.line_of(outcome, "abc").encode())
                self.assertEqual(outcomes.read_line(name), (outcome, "abc"))

    def test_the_table_of_the_lines_is_that_of_the_trials(self):
        with Folder() as folder:
            for words in (["--pps", "500,2000", "--read"], ["--seeds", "2-3"]):
                out = folder.path(words[0])
                direct = tried(WEB, *words, *PLANS)
                self.assertEqual(tried(WEB, *words, "--results", out, *PLANS), direct)
                self.assertEqual({os.path.splitext(name)[1] for name in os.listdir(out)},
                                 {".result"})
                status, lines, said = tried("--collect", out)
                self.assertEqual((status, said, table(lines)), (0, [], table(direct[1])))

    def test_lines_beside_reports(self):
        """A line counts before the report of the same trial, and a refusal takes their place."""
        with Folder() as folder:
            plan, out = folder.path("p.json"), folder.path("out")
            words = [WEB, "--seeds", "1", "--results", out, "--reports", out, plan]
            with open(PLANS[0], "rb") as stream:
                folder.write("p.json", stream.read())
            self.assertEqual(tried(*words)[:2], (0, []))
            kept = sorted(glob.glob(os.path.join(out, "*")))
            self.assertEqual([os.path.splitext(name)[1] for name in kept], [".report", ".result"])
            with open(kept[1], encoding="utf-8") as stream:
                line = json.load(stream)
            folder.write(kept[1], json.dumps(dict(line, drops=12345)).encode())
            self.assertIn("12345", tried("--collect", out)[1][1])
            folder.write("p.json", b"{")
            self.assertEqual(tried(*words)[0], 3)
            self.assertEqual([os.path.splitext(name)[1] for name in os.listdir(out)], [".refused"])

    def test_what_is_no_line(self):
        with Folder() as folder:
            name = trial.report_name(trial.Trial("a.json", None, "seed", 1)) + ".result"
            for data in (b"", b"{", b"[]", b"3", b"{}", b"\xff", b"[" * 100000,
                         b'{"packets": 1, "drops": "x", "moves": 0, "offered": [1], '
                         b'"waits": null, "question": "q"}',
                         b'{"packets": 1, "drops": 0, "moves": 0, "offered": [], '
                         b'"waits": null, "question": "q"}'):
                folder.write(name, data)
                status, lines, said = tried("--collect", folder.name)
                self.assertEqual((status, lines[1].split()[:2], len(said)),
                                 (3, ["0", "refused"], 1), data)


class Resume(unittest.TestCase):
    def resumed(self, *words):
        """How many trials were not made again, of how many, by the note that says so."""
        status, lines, said = tried(*words)
        self.assertEqual((status, said[-1][:6]), (0, "note: "), said)
        numbers = [int(word) for word in said[-1].split() if word.isdigit()]
        return tuple(numbers), lines

    def test_only_what_is_missing_is_made(self):
        with Folder() as folder:
            out = folder.path("out")
            words = [WEB, "--seeds", "2", "--results", out, *PLANS]
            _, direct, _ = tried(*words)
            before = files(out)
            removed = sorted(before)[1]
            os.remove(os.path.join(out, removed))
            self.assertEqual(self.resumed("--resume", *words), ((3, 4), direct))
            after = files(out)
            self.assertEqual(sorted(after), sorted(before))
            for name in before:
                if name != removed:
                    self.assertEqual(after[name], before[name])

    def test_what_is_of_another_question_is_made_again(self):
        """Another plan of the same name, another capture, another speed; and a line cut short."""
        with Folder() as folder:
            out, plan, capture = folder.path("out"), folder.path("p.json"), folder.path("c.pcap")
            for name, source in (("p.json", PLANS[0]), ("c.pcap", WEB)):
                with open(source, "rb") as stream:
                    folder.write(name, stream.read())
            words = [capture, "--pps", "700,900", "--results", out, "--resume"]
            self.assertEqual(self.resumed(*words, plan)[0], (0, 2))
            self.assertEqual(self.resumed(*words, plan)[0], (2, 2))
            with open(plan, encoding="utf-8") as stream:
                settings = json.load(stream)
            folder.write("p.json", json.dumps(dict(settings, backlog=3)).encode())
            self.assertEqual(self.resumed(*words, plan)[0], (0, 2))
            self.assertEqual(self.resumed(*words, "--speed", "2", plan)[0], (0, 2))
            with open(example("mixed.pcap"), "rb") as stream:
                folder.write("c.pcap", stream.read())
            self.assertEqual(self.resumed(*words, "--speed", "2", plan)[0], (0, 2))
            name = os.path.join(out, sorted(os.listdir(out))[0])
            os.truncate(name, 20)
            self.assertEqual(self.resumed(*words, "--speed", "2", plan)[0], (1, 2))


class Parts(unittest.TestCase):
    def test_all_trials_in_lines(self):
        """Each of two lines makes three of the six, and together they are the whole."""
        with Folder() as folder:
            out = folder.path("out folder")
            words = [WEB, "--seeds", "2-4", *PLANS]
            status, lines, _ = tried(*words, "--commands", "--parts", "2", "--results", out)
            self.assertEqual((status, len(lines)), (0, 2))
            for line, count in zip(lines, (3, 6)):
                self.assertEqual(shlex.split(line)[0], os.path.join(TOOLS, "steer-try"))
                status, shown, said = tried(*shlex.split(line)[1:])
                self.assertEqual((status, shown, said, len(os.listdir(out))), (0, [], [], count))
            self.assertEqual(table(tried("--collect", out)[1]), table(tried(*words)[1]))

    def test_one_trial_a_line(self):
        with Folder() as folder:
            out = folder.path("out")
            words = [WEB, "--pps", "600,800", "--read", PLANS[0]]
            _, lines, _ = tried(*words, "--commands", "--results", out, "--resume")
            self.assertEqual(len(lines), 2)
            for line in lines:
                self.assertIn("--resume", shlex.split(line))
                ended = subprocess.run(["sh", "-c", line], stdout=subprocess.PIPE,
                                       env=dict(os.environ, STEER=STEER))
                self.assertEqual((ended.returncode, ended.stdout), (0, b""))
            self.assertEqual(table(tried("--collect", out)[1]), table(tried(*words)[1]))

    def test_parts_without_a_trial(self):
        with Folder() as folder:
            self.assertEqual(tried(WEB, "--seeds", "2", "--results", folder.name, "--part", "3/5",
                                   PLANS[0]), (0, [], []))
            self.assertEqual(os.listdir(folder.name), [])


class Progress(unittest.TestCase):
    def test_the_time_to_go(self):
        """At 3 s with 10 of 100 done it is 27 s more; within two seconds nothing new is said."""
        for terminal, text in (
                (False, "some: 10 of 100, about 27 s more\nsome: 50 of 100, about 6 s more\n"),
                (True, "\r\x1b[Ksome: 10 of 100, about 27 s more"
                       "\r\x1b[Ksome: 50 of 100, about 6 s more\r\x1b[K")):
            said = io.StringIO()
            said.isatty = lambda: terminal
            with mock.patch.object(sys, "stderr", said), \
                    mock.patch.object(time, "monotonic", side_effect=[0, 1, 3, 4, 6]):
                shown = progress.Progress("some", 100)
                for done in (5, 10, 40, 50):
                    shown.at(done)
                shown.end()
                shown.end()
            self.assertEqual(said.getvalue(), text)

    def said(self, shown, clock, done):
        """What is said elsewhere than on a terminal, where so much is done at these seconds."""
        said = io.StringIO()
        with mock.patch.object(sys, "stderr", said), \
                mock.patch.object(time, "monotonic", side_effect=[0, *clock]):
            tell = shown()
            for each in done:
                tell.at(each)
        return said.getvalue().splitlines()

    def test_no_time_to_go_of_the_first_packets(self):
        """A slow first packet in a thousand would say 42 minutes of work that takes 40 s."""
        self.assertEqual(
            self.said(lambda: progress.Progress("some", 1000), (2.5, 4.5, 6.6, 9),
                      (1, 19, 100, 200)),
            ["some: 1 of 1000", "some: 19 of 1000", "some: 100 of 1000, about 59 s more",
             "some: 200 of 1000, about 36 s more"])

    def test_the_time_to_go_of_what_is_done_at_once(self):
        """Sixteen of 3 s, four at once, take 12 s; the first of each four is said at their end."""
        self.assertEqual(
            self.said(lambda: progress.Progress("some", 16, at_once=4), (3, 3, 6, 6, 9, 12),
                      (1, 4, 5, 8, 9, 13)),
            ["some: 1 of 16, about 16 s more", "some: 5 of 16, about 9 s more",
             "some: 9 of 16, about 5 s more", "some: 13 of 16, about 1 s more"])

    def test_times(self):
        for seconds, text in ((1, "1 s"), (119, "119 s"), (120, "2 min"), (7100, "118 min"),
                              (7200, "2 h 0 min"), (12000, "3 h 20 min")):
            self.assertEqual(progress.time_text(seconds), text)


class Words(unittest.TestCase):
    def test_wrong_words(self):
        more = " (--help says more)"
        for words, text in (
                (["--resume", WEB, "p"], "--resume needs --results FOLDER"),
                (["--part", "1/2", WEB, "p"],
                 "--part needs --results FOLDER or --reports FOLDER"),
                (["--parts", "2", WEB, "p"], "--parts goes with --commands"),
                (["--commands", "--results", "x", "--part", "1/2", WEB, "p"],
                 "--commands goes neither with --part nor with --dask"),
                (["--dask", "h:1", "--reports", "x", WEB, "p"],
                 "--dask keeps lines of results (--results), and no reports"),
                (["--collect", "x", "--results", "y"],
                 "--collect takes a folder, and neither files nor trials"),
                (["--part", "3/2", WEB, "p"], "argument --part: 3/2 is no part such as 3/40, of "
                 "1/40 to 40/40" + more),
                (["--part", "0/2", WEB, "p"], "argument --part: 0/2 is no part such as 3/40, of "
                 "1/40 to 40/40" + more),
                (["--dask", "here", WEB, "p"], "argument --dask: here is no HOST:PORT such as "
                 "10.0.0.1:8786" + more),
                (["--dask", "h:99999", WEB, "p"], "argument --dask: h:99999 is no HOST:PORT such "
                 "as 10.0.0.1:8786" + more)):
            self.assertEqual(tried(*words), (2, [], ["steer-try: " + text]))

    def test_without_dask(self):
        with mock.patch.dict(sys.modules, distributed=None):
            status, lines, said = tried("--dask", "127.0.0.1:1", "--seeds", "1", WEB, PLANS[0])
        self.assertEqual((status, lines, len(said)), (3, [], 1))
        self.assertTrue(said[0].startswith(
            "steer-try: --dask 127.0.0.1:1: refused: it needs the Python package distributed, in "
            "Debian python3-distributed ("), said)


def python_with_dask():
    """A Python that has the package distributed; None where there is none."""
    for name in dict.fromkeys((sys.executable, "/usr/bin/python3")):
        if os.access(name, os.X_OK) and subprocess.run(
                [name, "-c", "import distributed"], stderr=subprocess.DEVNULL).returncode == 0:
            return name
    return None


class Cluster:
    """A scheduler and two workers on the loopback address, as a context."""

    def __init__(self, python):
        self.python = python
        self.environment = dict(os.environ, STEER=STEER, PYTHONPATH=TOOLS)

    def __enter__(self):
        with contextlib.ExitStack() as closing:
            self.folder = closing.enter_context(tempfile.TemporaryDirectory())
            place = os.path.join(self.folder, "scheduler.json")
            words = ["--host", "127.0.0.1", "--scheduler-file", place]
            self._begin(closing, "dask_scheduler", *words, "--port", "0", "--no-dashboard")
            self.address = self._address(place)
            self.workers = [self._begin(
                closing, "dask_worker", self.address, "--host", "127.0.0.1", "--nthreads", "1",
                "--no-nanny", "--no-dashboard", "--name", name, "--local-directory",
                os.path.join(self.folder, name)) for name in ("one", "two")]
            self.closing = closing.pop_all()
        return self

    def __exit__(self, *fault):
        self.closing.close()

    def _begin(self, closing, module, *words):
        process = subprocess.Popen(
            [self.python, "-m", "distributed.cli." + module, *words], env=self.environment,
            stdin=subprocess.DEVNULL, stdout=subprocess.DEVNULL, stderr=subprocess.DEVNULL)
        closing.callback(process.wait)
        closing.callback(process.kill)
        return process

    def _address(self, place):
        for _ in range(10 * PATIENCE):
            with contextlib.suppress(FileNotFoundError, ValueError):
                with open(place, encoding="utf-8") as stream:
                    return json.load(stream)["address"]
            time.sleep(0.1)
        raise unittest.SkipTest("no scheduler of Dask begins within %d s" % PATIENCE)

    def tried(self, *words):
        """steer-try over this cluster, begun."""
        return subprocess.Popen(
            [self.python, os.path.join(TOOLS, "steer-try"), "--dask", self.address[len("tcp://"):],
             *words], env=self.environment, stdin=subprocess.DEVNULL, stdout=subprocess.PIPE,
            stderr=subprocess.PIPE)


class Dask(unittest.TestCase):
    def setUp(self):
        self.python = python_with_dask()
        if self.python is None:
            self.skipTest("no Python here has the package distributed (Dask)")

    def test_a_worker_that_is_killed(self):
        """At a third of the trials; all come, and the table is that of this machine alone."""
        words = ["--seeds", str(TRIALS // 2), WEB, *PLANS]
        with Cluster(self.python) as cluster, Folder() as folder:
            running = cluster.tried("--results", folder.name, *words)
            for _ in range(20 * PATIENCE):
                if len(os.listdir(folder.name)) >= TRIALS // 3 or running.poll() is not None:
                    break
                time.sleep(0.05)
            self.assertLess(len(os.listdir(folder.name)), TRIALS)
            cluster.workers[0].kill()
            out, _ = running.communicate()
            self.assertEqual((running.returncode, len(os.listdir(folder.name))), (0, TRIALS))
            _, direct, _ = tried("--jobs", "2", *words)
            self.assertEqual(out.decode().splitlines(), direct)
            again = tried("--resume", "--results", folder.name, *words)
            self.assertEqual(again[1:], (direct, [
                "note: %d of %d trials are in %s and are not made again"
                % (TRIALS, TRIALS, folder.name)]))


if __name__ == "__main__":
    unittest.main()
