"""Mutated files given to every companion in Python: each ends with a status, not a traceback.

STEER_CASES is how many mutations are tried of each file that a program reads.
"""

import os
import random
import subprocess
import unittest

import running
from inside import inside
from reporting import Folder
from running import example

CASES = int(os.environ.get("STEER_CASES", "4"))
STATUSES = (0, 1, 2, 3, 4)
PLAN = b"""{"cpus": 4, "queues": [{"home": 0, "mask": [1, 2], "flows": 256},
 {"home": 1, "mask": [1, 2], "flows": 256}], "sock": 1024, "backlog": 4, "apps": [2, 3],
 "tx": [{"cpus": [0, 1], "queues": []}, {"cpus": [2, 3], "queues": []}], "steps": ["sweep"]}
"""
LOAD = ("--pps", "20000", "--speed", "100", "--read")

# Words of a program; those in capitals are files, of which one is mutated in each case.
PROGRAMS = (
    ("steer-aim", "PLAN", "tcp", "192.0.2.1:4000", "198.51.100.7:443"),
    ("steer-aim", "SNAP", "--from", "192.0.2.1", "--to", "198.51.100.7:443", "--queue", "1"),
    ("steer-apply", "PLAN", "eth0"),
    ("steer-apply", "--undo", "SNAP"),
    ("steer-best", "CAPTURE", "PLAN", *LOAD, "--kernel", "--mask", "2,6", "--jobs", "1"),
    ("steer-best", "CAPTURE", "PLAN", *LOAD, "--offline", "2", "--flows", "0,64", "--jobs", "1"),
    ("steer-best", "CAPTURE", "PLAN", *LOAD, "--least", "backlog", "--jobs", "1"),
    ("steer-cap", "CAPTURE"),
    ("steer-compare", "REPORT", "BEFORE", "AFTER"),
    ("steer-diff", "REPORT", "OTHER", "HASH"),
    ("steer-draw", "--svg", "REPORT", "HASH"),
    ("steer-lint", "PLAN"),
    ("steer-page", "OTHER", "--capture", "CAPTURE", "--hash", "HASH", "--plan", "PLAN"),
    ("steer-plan", "SNAP"),
    ("steer-remap", "PLAN", "CAPTURE", "--plan", "new.json", "--capture", "new.pcap", "--snap",
     "SNAP"),
    ("steer-rows", "json", "p", "REPORT", "HASH", "--times", "TIMES"),
    ("steer-rules", "SNAP"),
    ("steer-set", "PLAN", "rx-*/rps_cpus=6", "flow_limit_cpu_bitmap=3"),
    ("steer-split", "PLAN", "CAPTURE", "--to", "parts"),
    ("steer-steps", "PLAN", "CAPTURE", *LOAD, "--reply", "--times", "new.times"),
    ("steer-steps", "PLAN", "CAPTURE", *LOAD, "--kernel", "--capture", "new.pcap"),
    ("steer-top", "CAPTURE", "PLAN", *LOAD, "--offline", "1@0.0001"),
    ("steer-top", "REPORT", "HASH", "--times", "TIMES"),
    ("steer-try", "CAPTURE", "PLAN", *LOAD, "--kernel", "--jobs", "1"),
)
MADE = ("new.json", "new.pcap", "new.times", "parts")


def read(name):
    with open(name, "rb") as stream:
        return stream.read()


def whole(folder):
    """The files by their names in capitals, as bytes, before anything is mutated."""
    files = {"PLAN": PLAN, "CAPTURE": read(example("web.pcap"))[:4000],
             "SNAP": read(example("eth0.snap")), "BEFORE": read(example("held-before.snap")),
             "AFTER": read(example("held-after.snap"))}
    capture, plan = folder.write("own.pcap", files["CAPTURE"]), folder.write("plan.json", PLAN)
    times = os.path.join(folder.name, "own.times")
    _, steps, _ = inside("steer-steps", plan, capture, *LOAD, "--times", times)
    timed = folder.write("timed.json", steps)
    files["TIMES"] = read(times)
    for name, words in (("REPORT", ["replay", timed, capture]),
                        ("OTHER", ["replay", plan, capture]), ("HASH", ["hash", capture])):
        files[name] = subprocess.run([running.STEER, *words], stdout=subprocess.PIPE).stdout
    return files


def mutated(draw, data):
    """The bytes with a few of them taken out, doubled or changed, or cut short."""
    data = bytearray(data)
    for _ in range(draw.randint(1, 3)):
        at, size = draw.randrange(len(data) + 1), draw.choice((0, 1, 1, 2, 8, 40))
        data[at:at + size] = draw.choice((
            b"", b"0", b"9", b"-", b",", b" ", b"\n", b"\xff", b"\x00", b"4294967296",
            bytes(data[at:at + 9]), bytes([draw.randrange(256)])))
    return bytes(data[:draw.randrange(len(data) + 1)] if draw.random() < 0.1 else data)


class Mutated(unittest.TestCase):
    """An exception that a program does not turn into a status comes out of `inside`."""

    def test_every_file_of_every_program(self):
        draw = random.Random(53)
        with Folder() as folder:
            files = whole(folder)
            for program, *words in PROGRAMS:
                names = [word for word in words if word in files]
                for name in [None] + names * CASES:
                    made = dict(files)
                    if name is not None:
                        made[name] = mutated(draw, files[name])
                    paths = {word: folder.write(word.lower(), made[word]) for word in names}
                    paths.update((word, os.path.join(folder.name, word)) for word in MADE)
                    with self.subTest(program=program, name=name, data=name and made[name][:300]):
                        status, out, said = inside(program, *(paths.get(word, word)
                                                              for word in words))
                        self.assertIn(status, STATUSES if name else (0, 1), said)
                        self.assertTrue(status < 2 or program + ": " in said or out, said)


if __name__ == "__main__":
    unittest.main()
