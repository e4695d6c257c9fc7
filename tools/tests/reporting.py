"""What the tests of reports share: captures, random plans, replays, and runs of the programs."""

import json
import os
import random
import struct
import subprocess
import tempfile
from collections import namedtuple

import running
from running import example

from steerlib import cli

os.environ.setdefault("STEER", running.STEER)

Ended = namedtuple("Ended", "returncode stdout stderr")

REPLIED = b"""steer 1
p 0 q 0 via reta class - want - head - tail - cpu 1 why plain at 1 app 0 in 1 place inbox
p 1 q 0 via reta class - want - head - tail - cpu 1 why plain at 2 app 0 in 2 place inbox
p 2 q 0 via reta class - want - head - tail - cpu 1 why plain at 3 app 0 in 3 place inbox
r 0 app 0 rxq 0 cpu 2 pick 0 head - tail 0 tx 0 why unset at 1 port 1
r 1 app 0 rxq 0 cpu 2 pick 0 head - tail 1 tx 0 why same at 2 port 2
r 2 app 0 rxq 0 cpu 2 pick 0 head - tail 2 tx 0 why same at 3 port 3
queue 0 arrived 3 taken 3
cpu 0 accepted 0 pulled 0 delivered 0 retired 0 dropped 0
cpu 1 accepted 3 pulled 3 delivered 3 retired 3 dropped 0
cpu 2 accepted 0 pulled 0 delivered 0 retired 0 dropped 0
tx 0 accepted 3 pulled 3 delivered 3 retired 3
tx 1 accepted 0 pulled 0 delivered 0 retired 0
tap 0 bytes 16
cpu 1 packets 2
tap 1 bytes 0
tap 2 bytes 17
depth cpu 1 at 3
end 3 of 3
"""
"""The report with replies that docs/formats.md shows."""


def frame(flow):
    """An Ethernet frame of a flow: TCP or UDP over IPv4 or IPv6, ICMP, or ARP for every ninth."""
    if flow % 9 == 8:
        return bytes(12) + b"\x08\x06" + bytes(28)
    protocol = (6, 17, 6, 1)[flow % 4]
    ports = struct.pack(">HH", 1024 + flow, 443 if protocol == 6 else 53) + bytes(16)
    if flow % 5 == 4:
        packet = struct.pack(">IHBB", 6 << 28, len(ports), protocol, 64)
        packet += struct.pack(">QQQQ", 0x20010db8 << 32, flow, 0x20010db8 << 32, 1)
        return bytes(12) + b"\x86\xdd" + packet + ports
    packet = struct.pack(">BBHHHBBHII", 0x45, 0, 20 + len(ports), 0, 0, 64, protocol, 0,
                         0x0a000000 + flow * 7919, 0x0a000001)
    return bytes(12) + b"\x08\x00" + packet + ports


def write_capture(path, packets, flows, seed):
    """A capture with that many packets, most of them of a few of the flows."""
    chance = random.Random(seed)
    with open(path, "wb") as out:
        out.write(struct.pack("<IHHIIII", 0xa1b2c3d4, 2, 4, 0, 0, 65535, 1))
        for number in range(packets):
            data = frame(min(int(chance.expovariate(4.0 / flows)), flows - 1))
            out.write(struct.pack("<IIII", number, 0, len(data), len(data)) + data)


def _some(chance, limit, most):
    return sorted(chance.sample(range(limit), chance.randint(0, min(limit, most))))


def _set(chance, limit):
    return ",".join(str(n) for n in _some(chance, limit, 4)) or "-"


def random_step(chance, cpus, queues, apps, tx):
    """A step of a plan with these numbers of processors, queues, applications, transmit queues."""
    one = chance.randrange
    words = {
        "arrive": "", "sweep": "", "expire": "", "sock": " %d" % one(300),
        "mask": " %d %s" % (one(queues), _set(chance, cpus)),
        "flows": " %d %d" % (one(queues), one(300)),
        "xcpus": " %d %s" % (one(tx), _set(chance, cpus)),
        "xqueues": " %d %s" % (one(tx), _set(chance, queues)),
        "reta": " %d %d" % (one(128), one(queues)), "stand": " %d %d" % (one(apps), one(cpus)),
        "record": " %d" % one(40)}
    for word in "take enter look weigh put ask leave poll".split():
        words[word] = " %d" % one(queues)
    for word in "pull deliver retire drain offline online".split():
        words[word] = " %d" % one(cpus)
    for word in "send tenter tweigh tput tleave reply serve".split():
        words[word] = " %d" % one(apps)
    for word in "tpull tdeliver tretire ship".split():
        words[word] = " %d" % one(tx)
    often = ["arrive"] * 12 + ["poll"] * 10 + ["drain"] * 3 + ["serve"] * 4
    word = chance.choice(often + [word for word in words if word != "sweep"])
    return word + words[word]


def random_plan(seed):
    """A plan of any shape: small backlogs, counters about to wrap, seeds and lists of steps."""
    chance = random.Random(seed)
    cpus, queues = chance.randint(1, 32), chance.randint(1, 16)
    apps, tx = chance.randint(1, 6), chance.randint(1, 6)
    plan = {
        "cpus": cpus, "sock": chance.choice((0, 16, 1024)), "backlog": chance.choice((1, 4, 16)),
        "queues": [{"home": chance.randrange(cpus), "mask": _some(chance, cpus, 6),
                    "flows": chance.choice((0, 16, 256))} for _ in range(queues)],
        "filters": chance.choice((0, 0, 64)), "limited": _some(chance, cpus, 4),
        "start": chance.choice((0, 2 ** 32 - 20)), "apps": [chance.randrange(cpus)
                                                            for _ in range(apps)],
        "tx": [{"cpus": _some(chance, cpus, 4), "queues": _some(chance, queues, 4)}
               for _ in range(tx)],
        "detach": [{"tap": chance.randrange(3), "after": chance.randrange(50)}]
        if chance.random() < 0.3 else []}
    if chance.random() < 0.4:
        plan["steps"] = {"seed": seed, "count": chance.choice((50, 2000))}
    else:
        plan["steps"] = [random_step(chance, cpus, queues, apps, tx)
                         for _ in range(chance.randint(0, 600))]
        plan["steps"] += ["sweep"] * (chance.random() < 0.3)
    return plan


class Folder(tempfile.TemporaryDirectory):
    """A folder for the files of a test, as a context."""

    def __enter__(self):
        super().__enter__()
        return self

    def path(self, name):
        return os.path.join(self.name, name)

    def write(self, name, data):
        """A file with these bytes; its path."""
        with open(self.path(name), "wb") as out:
            out.write(data)
        return self.path(name)

    def replay(self, plan, capture, name="report"):
        """The path of the report that steer makes of a plan, as an object, and a capture."""
        plan_path = self.write("plan.json", json.dumps(plan).encode())
        return self.write(name, cli.run_steer(["replay", plan_path, capture]))


def run(program, *words, data=b""):
    """A program of tools/ that has ended: its status, output and messages."""
    return Ended(*running.run(program, *words, data=data))


def replayed(plan, capture):
    """The report of two of the examples, as bytes."""
    return cli.run_steer(["replay", example(plan + ".json"), example(capture + ".pcap")])


def run_closed(program, *words):
    """The status and the messages of a program whose output nobody reads."""
    reading, writing = os.pipe()
    os.close(reading)
    command = [os.path.join(running.TOOLS, program)] + list(words)
    ended = subprocess.run(command, stdin=subprocess.DEVNULL, stdout=writing,
                           stderr=subprocess.PIPE, timeout=60)
    os.close(writing)
    return ended.returncode, ended.stderr.decode()
