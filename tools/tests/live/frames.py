"""Frames of TCP and UDP over IPv4 and IPv6 whose last bytes are the note that programs.c reads."""

import struct
from collections import namedtuple

MAGIC = 0x73746565
NO_QUEUE = 0xFFFFFFFF
RELEASE = 0xFFFFFFFF        # the number of a frame that releases a processor
EXPERIMENTAL = b"\x88\xb5"  # its Ethernet type, which IP does not see
NOTE = struct.Struct("=8I")
TCP, UDP = 6, 17

# source and target are bytes, 4 or 16 of them.
Flow = namedtuple("Flow", "protocol source target sport dport")

# number: of the frame. hash, queue, hold: what the programs do with it. cpu, recorded and seen:
# what the receiver's wrote, the processor, the receive queue and one (0: none), and the hash.
Note = namedtuple("Note", "magic number hash queue hold cpu recorded seen")


def hashed(flow):
    """The bytes that a card hashes."""
    return flow.source + flow.target + struct.pack(">HH", flow.sport, flow.dport)


def toeplitz(key, data):
    """The Toeplitz hash of `data` by a key of 40 bytes."""
    bits, key, result = len(data) * 8, int.from_bytes(key, "big"), 0
    value = int.from_bytes(data, "big")
    for at in range(bits):
        if value >> bits - 1 - at & 1:
            result ^= key >> 288 - at & 0xFFFFFFFF
    return result


def random_flow(draw, version, protocol, target, dport=None):
    """A flow from a random source below 10.0.0.0 or fd00::, to `target`, as bytes."""
    if version == 4:
        source = bytes([10]) + draw.getrandbits(24).to_bytes(3, "big")
    else:
        source = bytes([0xFD]) + bytes(7) + draw.getrandbits(64).to_bytes(8, "big")
    return Flow(protocol, source, target, draw.randrange(1024, 65536),
                draw.randrange(1024, 65536) if dport is None else dport)


def _checksum(header):
    total = sum(struct.unpack(">10H", header))
    total = (total & 0xFFFF) + (total >> 16)
    return ~((total & 0xFFFF) + (total >> 16)) & 0xFFFF


def _internet(flow, length):
    """The Ethernet type, and the header of IP before `length` bytes."""
    if len(flow.source) == 16:
        start = struct.pack(">IHBB", 6 << 28, length, flow.protocol, 64)
        return b"\x86\xdd", start + flow.source + flow.target
    start = struct.pack(">BBHHHBB", 0x45, 0, 20 + length, 0, 0, 64, flow.protocol)
    addresses = flow.source + flow.target
    return b"\x08\x00", start + struct.pack(
        ">H", _checksum(start + b"\0\0" + addresses)) + addresses


def frame(mac, flow, number, hash, queue=NO_QUEUE, hold=0):
    """The frame of this number to the Ethernet address `mac`."""
    ports = struct.pack(">HH", flow.sport, flow.dport)
    if flow.protocol == UDP:
        header = ports + struct.pack(">HH", 8 + NOTE.size, 0)
    else:
        header = ports + struct.pack(">IIBBHHH", 1, 1, 5 << 4, 0x10, 1024, 0, 0)
    kind, internet = _internet(flow, len(header) + NOTE.size)
    note = NOTE.pack(MAGIC, number, hash, queue, hold, 0xFFFFFFFF, 0, 0)
    return mac + b"\x02\0\0\0\0\x01" + kind + internet + header + note


def release(mac, cpu, ticket):
    """A frame that releases a processor; without a hash, it is handled where it is sent."""
    note = NOTE.pack(MAGIC, RELEASE, 0, NO_QUEUE, ticket, cpu, 0, 0)
    return mac + b"\x02\0\0\0\0\x01" + EXPERIMENTAL + note


def note(data):
    """The note of a frame, or None of another one."""
    if len(data) < NOTE.size:
        return None
    read = Note._make(NOTE.unpack(data[-NOTE.size:]))
    return read if read.magic == MAGIC else None
