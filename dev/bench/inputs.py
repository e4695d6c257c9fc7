#!/usr/bin/env python3
"""Writes the plans and captures of the benchmark into the folder that is named."""
import json
import pathlib
import struct
import sys

WORD = (1 << 64) - 1
PACKETS = 262_144
WORKERS = [1, 2, 4, 8]


def words(seed):
    """The words of PCG XSH RR 64/32 with this seed on stream 54."""
    step = (54 << 1) | 1
    state = (((seed + step) & WORD) * 6364136223846793005 + step) & WORD
    while True:
        mixed = (((state >> 18) ^ state) >> 27) & 0xFFFFFFFF
        turn = state >> 59
        yield ((mixed >> turn) | (mixed << (32 - turn))) & 0xFFFFFFFF
        state = (state * 6364136223846793005 + step) & WORD


def frame(flow):
    """The frame of a flow, as the command gen makes it."""
    ends = struct.pack(">II", (10 << 24) + flow, 0x0A800001)
    ports = struct.pack(">HH", 1024 + flow % 32768, 80)
    return (
        bytes.fromhex("0200000000020200000000010800" "450000280000000040060000")
        + ends
        + ports
        + bytes.fromhex("00000000000000005000000000000000")
    )


def frame6(flow):
    """The frame of a flow over IPv6."""
    ends = struct.pack(">QQQQ", 0x20010DB8 << 32, flow, 0x20010DB8 << 32, 1 << 32)
    ports = struct.pack(">HH", 1024 + flow % 32768, 80)
    return (
        bytes.fromhex("02000000000202000000000186dd" "6000000000140640")
        + ends
        + ports
        + bytes.fromhex("00000000000000005000000000000000")
    )


def capture(seed, packets, flows, frame=frame, more=0):
    """The capture of a seed, as the command gen makes it; or with other frames, or `more` bytes behind each."""
    parts = [struct.pack("<IHHIIII", 0xA1B2C3D4, 2, 4, 0, 0, 65535, 1)]
    numbers = words(seed)
    for second in range(packets):
        bytes_of_it = frame(next(numbers) % flows) + bytes(more)
        parts.append(struct.pack("<IIII", second, 0, len(bytes_of_it), len(bytes_of_it)))
        parts.append(bytes_of_it)
    return b"".join(parts)


def generated(seed, packets):
    """The plan of a seed, as the command gen makes it."""
    every = [0, 1, 2, 3]
    return {
        "apps": every,
        "cpus": 4,
        "queues": [{"flows": 256, "home": q, "mask": every} for q in every],
        "sock": 1024,
        "steps": {"count": min(999_999, 4 * packets), "seed": seed},
        "tx": [{"cpus": [t], "queues": []} for t in every],
        "workers": 4,
    }


def wide(seed):
    """A plan with as many of everything as there can be, and the most steps of a seed."""
    every = list(range(32))
    return {
        "apps": every,
        "cpus": 32,
        "filters": 4096,
        "queues": [{"flows": 4096, "home": 2 * q, "mask": every} for q in range(16)],
        "sock": 65536,
        "steps": {"count": 999_999, "seed": seed},
        "tx": [{"cpus": [t], "queues": []} for t in every],
    }


def filled(seed, times):
    """One `sweep` that sets 4,093 of the 4,096 filters, and so many times `expire`, which finds none old."""
    plan = wide(seed)
    for queue in plan["queues"]:
        queue["flows"] = 32768
    return dict(plan, apps=[2 * (a % 16) for a in range(32)], steps=["sweep"] + ["expire"] * times)


def threads(plan, workers):
    """A plan for a run with so many workers."""
    return dict(plan, workers=workers, steps=[])


def spread():
    """One receive queue whose packets are spread over four processors."""
    every = [0, 1, 2, 3]
    return {
        "apps": every,
        "cpus": 4,
        "queues": [{"flows": 256, "home": 0, "mask": every}],
        "sock": 1024,
        "tx": [{"cpus": [t], "queues": []} for t in every],
    }


def step_texts(seed, count):
    """The steps of a seed on the wide plan, as texts, and a last `sweep`."""
    kinds = 5 * ["arrive"] + 4 * ["poll"] + 3 * ["drain"] + 2 * ["serve"] + ["ship"]
    sizes = {"poll": 16, "drain": 32, "serve": 32, "ship": 32}
    single = [("take", 16), ("enter", 16), ("look", 16), ("pull", 32)]
    steps = []
    for word, _ in zip(words(seed), range(count)):
        number = word // 16
        if word % 16 == 15:
            kind, size = single[number % 4]
            steps.append(f"{kind} {number // 4 % size}")
        else:
            kind = kinds[word % 16]
            steps.append(kind if kind == "arrive" else f"{kind} {number % sizes[kind]}")
    return steps + ["sweep"]


def rules(groups):
    """4,096 rules of one kind in so many groups of equal masks, none of which matches a flow of the captures."""
    return {
        "queues": 16,
        "rules": [
            {
                "kind": "tcp4",
                "src": f"{0x0B000000 + i:08x}",
                "srcmask": "ffffffff",
                "dport": 0,
                "dportmask": i % groups,
                "queue": i % 16,
            }
            for i in range(4096)
        ],
    }


def main():
    folder = pathlib.Path(sys.argv[1])
    folder.mkdir(parents=True, exist_ok=True)
    inputs = {
        "generated": (generated(7, PACKETS), capture(7, PACKETS, 512)),
        "wide": (wide(7), capture(7, PACKETS, 20_000)),
        "swept": (dict(wide(7), steps=["sweep"]), capture(7, PACKETS, 20_000)),
        "filled": (filled(7, 100_000), capture(7, 65_536, 40_000)),
    }
    plans = {
        "listed": dict(wide(7), steps=step_texts(7, PACKETS * 3)),
        "rests": dict(wide(7), steps=["sweep"] * 1_000_000),
        "socks": dict(wide(7), steps=["sock 65536"] * 100_000),
        "expires": dict(wide(7), steps=["expire"] * 100_000),
        "flows": dict(wide(7), steps=["flows 0 32768"] * 100_000),
        "rules1069": rules(1069),
        "rules4096": rules(4096),
    }
    for workers in WORKERS:
        plans[f"spread{workers}"] = threads(spread(), workers)
        plans[f"wide{workers}"] = threads(wide(7), workers)
    captures = {
        "ipv6": capture(7, PACKETS, 20_000, frame6),
        "large": capture(7, PACKETS, 20_000, more=953),
        "none": capture(7, 0, 1),
    }
    plans.update((name, plan) for name, (plan, _) in inputs.items())
    captures.update((name, frames) for name, (_, frames) in inputs.items())
    for name, plan in plans.items():
        text = json.dumps(plan, sort_keys=True, separators=(",", ":"))
        (folder / f"{name}.json").write_text(text)
    for name, frames in captures.items():
        (folder / f"{name}.pcap").write_bytes(frames)


if __name__ == "__main__":
    main()
