"""Where a frame has its addresses and ports, as steer finds them (docs/formats.md, Frames)."""

from __future__ import annotations

from typing import NamedTuple

TAGS = (b"\x81\x00", b"\x88\xa8")
MOST_TAGS, MOST_EXTENSIONS = 2, 8
EXTENSIONS = (0, 43, 60)
FRAGMENT = 44
PROTOCOLS = {6: "tcp", 17: "udp"}
TUNNELS = (4, 41, 47)         # IP in IP, 6in4, GRE: a kernel looks into these


class Place(NamedTuple):
    """The kind of a frame's flow, such as tcp4 or two6, and offsets in the frame.

    `address` is that of the source address, which the destination address follows; `ports` that of
    the ports, or None. `protocol` is that of the IP header, or of the
    last extension, `label` the flow label of IPv6, 0 without.
    """

    kind: str
    address: int
    ports: int | None
    protocol: int
    label: int


def _ip_start(data):
    """The type and the offset of what follows the Ethernet header and at most two tags."""
    start = 14
    for _ in range(MOST_TAGS):
        if data[start - 2:start] not in TAGS:
            break
        start += 4
    return data[start - 2:start], start


def _ports(version, address, protocol, start, data, label=0):
    if protocol in PROTOCOLS and len(data) >= start + 4:
        return Place(PROTOCOLS[protocol] + version, address, start, protocol, label)
    return Place("two" + version, address, None, protocol, label)


def _ipv4(data, start):
    room = len(data) - start
    if room < 20 or data[start] >> 4 != 4:
        return None
    header = 4 * (data[start] & 15)
    if not 20 <= header <= room:
        return None
    protocol = data[start + 9]
    if int.from_bytes(data[start + 6:start + 8], "big") & 0x3FFF:
        return Place("two4", start + 12, None, protocol, 0)
    return _ports("4", start + 12, protocol, start + header, data)


def _ipv6(data, start):
    if len(data) - start < 40 or data[start] >> 4 != 6:
        return None
    label = int.from_bytes(data[start + 1:start + 4], "big") & 0xFFFFF
    following, at = data[start + 6], start + 40
    for _ in range(MOST_EXTENSIONS + 1):
        if following not in EXTENSIONS:
            return _ports("6", start + 8, following, at, data, label)
        if len(data) < at + 2 or len(data) < at + 8 * (data[at + 1] + 1):
            break
        following, at = data[at], at + 8 * (data[at + 1] + 1)
    return Place("two6", start + 8, None, following, label)


def place_of(data: bytes) -> Place | None:
    """The Place of an Ethernet frame, or None of one without an IP packet."""
    kind, start = _ip_start(data)
    if kind == b"\x08\x00":
        return _ipv4(data, start)
    if kind == b"\x86\xdd":
        return _ipv6(data, start)
    return None


def tuple_of(data: bytes, place: Place) -> bytes:
    """The addresses and ports of a frame, as they are hashed."""
    end = place.address + (8 if place.kind[-1] == "4" else 32)
    if place.ports is None:
        return data[place.address:end]
    return data[place.address:end] + data[place.ports:place.ports + 4]


def with_tuple(data: bytes, place: Place, new: bytes) -> bytes:
    """The frame with these addresses and ports in place of its own."""
    end = place.address + (8 if place.kind[-1] == "4" else 32)
    length = end - place.address
    if place.ports is None:
        return data[:place.address] + new + data[end:]
    return (data[:place.address] + new[:length] + data[end:place.ports] + new[length:]
            + data[place.ports + 4:])
