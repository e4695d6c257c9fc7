#!/usr/bin/env python3
"""Whether two programs answer the same on captures that are longer than a piece: pieces.py OLD NEW [COUNT], 400 by default.

Each capture is of its own seed, a classic one or pcapng, in either byte order, with frames and blocks whose lengths
lie about 65,536 bytes and their limit; some end within a record, some have a fault. Both programs hash it, place its
packets and replay a plan on it; text, line and status have to be equal, else it names the seed and ends with status 1.
"""
import collections
import pathlib
import random
import struct
import subprocess
import sys
import tempfile

LENGTHS = [0, 1, 20, 54, 60, 1500, 9000, 65519, 65520, 65521, 65535, 65536, 131072, 262143, 262144]
RULES = '{"queues":4,"kinds":63,"rules":[]}'

def frame(draw):
    """A frame of one of the lengths or a random one, that begins as a segment over IPv4 or IPv6."""
    ports = struct.pack(">HH", draw.randrange(1 << 16), draw.randrange(1 << 16)) + bytes(16)
    if draw.random() < 0.2:
        front = b"\x86\xdd" + struct.pack(">IHBB", 0x60000000, 20, 6, 64) + draw.randbytes(32)
    else:
        kind = draw.choice([6, 17, 1])
        front = b"\x08\x00" + struct.pack(">BBHHHBBH", 0x45, 0, 40, 0, 0, 64, kind, 0)
        front += draw.randbytes(8)
    length = draw.choice(LENGTHS + [draw.randrange(2000)])
    return (bytes(12) + front + ports).ljust(length, b"\0")[:length]

def classic(draw):
    """A classic capture, in one of six cases with a fault or a cut at its end."""
    order, magic = draw.choice("<>"), draw.choice([0xA1B2C3D4, 0xA1B23C4D])
    link = draw.choice([1] * 7 + [0x10001])
    out = struct.pack(order + "IHHiIII", magic, 2, 4, 0, 0, 65535, link)
    for _ in range(draw.randrange(12)):
        body = frame(draw)
        out += struct.pack(order + "IIII", 1, 2, len(body), len(body)) + body
    end = draw.randrange(12)
    if end == 0:
        out += struct.pack(order + "IIII", 1, 2, 262145, 9) + bytes(draw.randrange(100000))
    elif end == 1:
        out += draw.randbytes(draw.randrange(15))
    elif end == 2:
        out = out[: draw.randrange(len(out) + 1)]
    elif end == 3:
        out = bytes([out[0] ^ 1]) + out[1:] + bytes(draw.randrange(200000))
    return out

def block(order, kind, body):
    """A block of pcapng: its type, its length, the body, and the length again."""
    length = len(body) + 12
    return struct.pack(order + "II", kind, length) + body + struct.pack(order + "I", length)

def section(draw):
    """A section of pcapng, with interfaces, packets and blocks that are skipped."""
    order = draw.choice("<>")
    out = block(order, 0x0A0D0D0A, struct.pack(order + "IHHq", 0x1A2B3C4D, 1, 0, -1))
    for _ in range(draw.randrange(3)):
        fields = draw.choice([1] * 6 + [101]), 0, draw.choice([0, 65535, 64])
        out += block(order, 1, struct.pack(order + "HHI", *fields))
    for _ in range(draw.randrange(10)):
        body, what = frame(draw), draw.random()
        padded = body + bytes(-len(body) % 4)
        if what < 0.6:
            head = draw.choice([0] * 6 + [1]), 0, 0, len(body), len(body)
            out += block(order, 6, struct.pack(order + "IIIII", *head) + padded)
        elif what < 0.75:
            out += block(order, 3, struct.pack(order + "I", len(body)) + padded)
        else:
            words = draw.choice([0, 1, 100, 16381, 16384, 40000, draw.randrange(70000)])
            out += block(order, draw.choice([4, 5, 0xBAD]), bytes(4 * words))
    return out

def pcapng(draw):
    """A pcapng capture of one or two sections, in three of ten cases cut or with a bit turned."""
    out = b"".join(section(draw) for _ in range(draw.randint(1, 2)))
    what, at = draw.random(), draw.randrange(len(out))
    if what < 0.2:
        return out[:at]
    if what < 0.3:
        return out[:at] + bytes([out[at] ^ 1 << draw.randrange(8)]) + out[at + 1 :]
    return out

def answer(program, words):
    """The status, the text and the line of a call."""
    ran = subprocess.run([program, *words], capture_output=True, check=False)
    return ran.returncode, ran.stdout, ran.stderr

def main():
    old, new = (str(pathlib.Path(it).resolve()) for it in sys.argv[1:3])
    count = int(sys.argv[3]) if len(sys.argv) > 3 else 400
    statuses = collections.Counter()
    with tempfile.TemporaryDirectory() as at:
        folder = pathlib.Path(at)
        (folder / "rules.json").write_text(RULES)
        plan = pathlib.Path(__file__).resolve().parents[2] / "examples" / "rfs.json"
        calls = ["hash", "c.pcap"], ["place", "rules.json", "c.pcap"], ["replay", str(plan), "c.pcap"]
        for seed in range(count):
            draw = random.Random(seed)
            make = draw.choice([classic, pcapng])
            (folder / "c.pcap").write_bytes(make(draw))
            for words in calls:
                words = [str(folder / it) if it in ("c.pcap", "rules.json") else it for it in words]
                first = answer(old, words)
                if first != answer(new, words):
                    sys.exit(f"seed {seed}: {words[0]} answers otherwise")
                statuses[first[0]] += 1
    print(f"{count} captures: the same answers, by status {dict(sorted(statuses.items()))}")

if __name__ == "__main__":
    main()
