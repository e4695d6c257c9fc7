#!/usr/bin/env python3
"""Writes a capture of made-up traffic to a server: heavy flows, bursts and thousands of short flows.

    recording.py FILE PACKETS

7,500 packets a second on average, with the first 96 bytes of each frame. Six UDP flows at an even
rate have six tenths of them, three TCP flows in bursts 12 in a hundred, and short TCP flows the
rest. The bytes depend on the number of packets alone.
"""
import random
import struct
import sys

SECOND = 1_000_000  # times are microseconds
BEGIN = 1_790_000_000 * SECOND
RATE = 7_500
SNAP, LENGTH = 96, 1514
SERVER = 0x0A000001
UDP, TCP = 17, 6


def frame(protocol, source, port, target_port):
    """The first bytes of a frame over IPv4."""
    packet = struct.pack(">BBHHHBBHII", 0x45, 0, 1500, 0, 0, 64, protocol, 0, source, SERVER)
    data = bytes(12) + b"\x08\x00" + packet + struct.pack(">HH", port, target_port)
    return data + bytes(SNAP - len(data))


def client(chance, protocol, target_port):
    """The frame of a flow from an address and a port by chance."""
    return frame(protocol, 0x0A010000 + chance.randrange(1 << 16), chance.randrange(1024, 1 << 16),
                 target_port)


def steady(chance, data, count, length):
    """A flow at an even rate, each packet somewhere in its part of the time."""
    for number in range(count):
        yield int((number + chance.random()) * length / count), data


def bursts(chance, data, count, length):
    """A flow in bursts of 8 to 64 packets that are 12 microseconds apart."""
    while count > 0:
        size = min(count, chance.randint(8, 64))
        begin = chance.randrange(length)
        yield from ((begin + 12 * number, data) for number in range(size))
        count -= size


def short(chance, count, length):
    """Flows of 2 to 6 packets that are one to two milliseconds apart."""
    while count > 0:
        size = min(count, chance.randint(2, 6))
        begin, data = chance.randrange(length), client(chance, TCP, 443)
        for number in range(size):
            yield begin + int(number * 1000 * (1 + chance.random())), data
        count -= size


def packets(count):
    """So many packets, (time, frame), ascending."""
    chance = random.Random(7)
    length = count * SECOND // RATE
    found = []
    for _ in range(6):
        found += steady(chance, client(chance, UDP, 53), count // 10, length)
    for _ in range(3):
        found += bursts(chance, client(chance, TCP, 80), count // 25, length)
    found += short(chance, count - len(found), length)
    return sorted(found)


def main():
    name, count = sys.argv[1], int(sys.argv[2])
    with open(name, "wb") as out:
        out.write(struct.pack("<IHHIIII", 0xA1B2C3D4, 2, 4, 0, 0, SNAP, 1))
        for time, data in packets(count):
            out.write(struct.pack("<IIII", *divmod(BEGIN + time, SECOND), len(data), LENGTH) + data)


if __name__ == "__main__":
    main()
