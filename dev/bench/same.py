#!/usr/bin/env python3
"""Whether two programs write the same bytes on random inputs: same.py OLD NEW [COUNT], 200 by default.

Each input is a capture and a plan of its own seed, of any settings and any steps, many of which are idle or refused.
Both programs hash the capture, replay the plan, check the report, and replay generated input; what they write and
their statuses have to be equal, else it names the seed and ends with status 1.
"""
import json
import os
import pathlib
import random
import struct
import subprocess
import sys
import tempfile


def some(draw, below, most):
    """A list of numbers below a bound, with repeats."""
    return [draw.randrange(below) for _ in range(draw.randint(0, most))]


def flow(draw):
    """A frame of a flow: of IPv4 or IPv6, of TCP, UDP or another protocol, a fragment, cut, or no IP at all."""
    ports = struct.pack(">HH", draw.randrange(1 << 16), draw.randrange(1 << 16)) + bytes(16)
    kind = draw.choice([6, 6, 6, 17, 17, 1])
    if draw.random() < 0.6:
        part = draw.choice([0, 0, 0, 0, 0x2000, 3])
        front = struct.pack(">BBHHHBBH", 0x45, 0, 40, 0, part, 64, kind, 0)
        frame = bytes(12) + b"\x08\x00" + front + draw.randbytes(8) + ports
    else:
        front = struct.pack(">IHBB", 0x60000000, 20, kind, 64)
        frame = bytes(12) + b"\x86\xdd" + front + draw.randbytes(32) + ports
    if draw.random() < 0.1:
        return frame[: draw.randrange(len(frame))]
    return frame if draw.random() < 0.95 else bytes(12) + b"\x08\x06" + bytes(28)


def capture(draw):
    """A capture of up to 400 packets of up to 60 flows, sometimes cut."""
    frames = [flow(draw) for _ in range(draw.randint(1, 60))]
    parts = [struct.pack("<IHHIIII", 0xA1B2C3D4, 2, 4, 0, 0, 65535, 1)]
    for second in range(draw.choice([0, 1, 20, 100, 400])):
        frame = draw.choice(frames)
        parts.append(struct.pack("<IIII", second, 0, len(frame), len(frame)) + frame)
    whole = b"".join(parts)
    return whole[: -draw.randint(1, 20)] if len(parts) > 2 and draw.random() < 0.2 else whole


def words(draw, plan):
    """Steps of any kind within the sizes of the plan."""
    queues, cpus, apps, txs = len(plan["queues"]), plan["cpus"], len(plan["apps"]), len(plan["tx"])
    named = [("take enter look weigh put ask leave poll poll poll", queues)]
    named += [("pull deliver retire drain drain drain offline online", cpus)]
    named += [("send tenter tweigh tput tleave reply serve serve serve", apps)]
    named += [("tpull tdeliver tretire ship ship ship", txs)]
    texts = [f"{word} {n}" for row, size in named for word in row.split() for n in range(size)]

    def members(below):
        return ",".join(map(str, some(draw, below, 4))) or "-"

    def command():
        return draw.choice([
            f"mask {draw.randrange(queues)} {members(cpus)}",
            f"flows {draw.randrange(queues)} {draw.choice([0, 1, 6, 256, 32768])}",
            f"sock {draw.choice([0, 1, 100, 65536])}",
            f"xcpus {draw.randrange(txs)} {members(cpus)}",
            f"xqueues {draw.randrange(txs)} {members(queues)}",
            f"reta {draw.randrange(128)} {draw.randrange(queues)}",
            f"stand {draw.randrange(apps)} {draw.randrange(cpus)}",
            "expire",
        ])

    rare = draw.choice([0, 0.02, 0.2])
    every = [lambda: "arrive", lambda: draw.choice(texts), lambda: draw.choice(texts)]
    every += [lambda: f"record {draw.randrange(70)}"]
    steps = [command() if draw.random() < rare else draw.choice(every)() for _ in range(draw.choice([0, 50, 3000]))]
    return steps + draw.choice([[], ["sweep"], ["sweep", "expire", "sweep"]])


def plan(draw):
    """A plan of any settings."""
    cpus, queues, txs = draw.randint(1, 32), draw.randint(1, 16), draw.randint(1, 32)
    sizes = [0, 1, 5, 64, 256, 4096, 32768]
    made = {
        "cpus": cpus,
        "queues": [
            {"home": draw.randrange(cpus), "mask": some(draw, cpus, 8), "flows": draw.choice(sizes)}
            for _ in range(queues)
        ],
        "kinds": draw.choice([63, 63, 63, draw.randrange(64)]),
        "sock": draw.choice([0, 3, 1024, 65536]),
        "filters": draw.choice([0, 0, 1, 7, 64, 4096]),
        "backlog": draw.choice([1, 2, 10, 1000]),
        "start": draw.choice([0, 7, (1 << 32) - 20]),
        "limited": some(draw, cpus, 4),
        "apps": [draw.randrange(cpus) for _ in range(draw.randint(1, 32))],
        "tx": [{"cpus": some(draw, cpus, 4), "queues": some(draw, queues, 4)} for _ in range(txs)],
        "detach": [{"tap": draw.randrange(4), "after": draw.randrange(300)} for _ in range(draw.randint(0, 3))],
    }
    made["steps"] = {"seed": draw.randrange(99), "count": 2000} if draw.random() < 0.2 else words(draw, made)
    return made


def said(program, *arguments):
    """What a program writes, and its status."""
    ran = subprocess.run([program, *arguments], capture_output=True)
    return ran.returncode, ran.stdout, ran.stderr


def main(old, new, count=200):
    programs = [os.path.realpath(old), os.path.realpath(new)]
    dropped = 0
    with tempfile.TemporaryDirectory() as folder:
        os.chdir(folder)
        for seed in range(int(count)):
            draw = random.Random(seed)
            pathlib.Path("in.pcap").write_bytes(capture(draw))
            pathlib.Path("in.json").write_text(json.dumps(plan(draw)))
            report = said(programs[0], "replay", "in.json", "in.pcap")
            dropped += report[1].count(b" place drop\n")
            pathlib.Path("in.report").write_bytes(report[1])
            runs = [["replay", "in.json", "in.pcap"], ["hash", "in.pcap", str(draw.randint(1, 16))]]
            runs += [["check", "in.json", "in.pcap", "in.report"]]
            runs += [["gen", str(seed), str(draw.randint(0, 3000)), str(draw.randint(1, 500))]]
            for run in runs:
                if said(programs[0], *run) != said(programs[1], *run):
                    sys.exit(f"same: seed {seed}: {run[0]} differs")
    print(f"{count} captures and plans, {dropped} drops: the same bytes")


if __name__ == "__main__":
    if len(sys.argv) not in (3, 4):
        sys.exit(__doc__)
    main(*sys.argv[1:])
