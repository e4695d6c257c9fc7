"""Which processor reads a flow, as an operator says it or as a machine's sockets say it.

cpu_of(kind, data) of each object here is the processor of a flow, or None where it knows none;
`kind` and `data` are those of steerlib.frames, `data` having source, destination and ports.
"""

from __future__ import annotations

import argparse
import ipaddress
import re
from typing import Dict, Optional, Tuple, Union

from .snapshot import Snapshot

Network = Union[ipaddress.IPv4Network, ipaddress.IPv6Network]
End = Tuple[Optional[bytes], int]

_SOCKET = re.compile(r"(tcp|udp)\s+(\S+)\s+\d+\s+\d+\s+(\S+):(\d+|\*)\s+(\S+):(\d+|\*)(?:\s+(.*))?")
_PROCESS = re.compile(r"pid=(\d+)")


def _ends(kind, data):
    """Source and destination as bytes, and their ports as numbers, None without ports."""
    length = 4 if kind[-1] == "4" else 16
    source, target = data[:length], data[length:2 * length]
    if len(data) == 2 * length:
        return source, target, None, None
    return (source, target, int.from_bytes(data[-4:-2], "big"),
            int.from_bytes(data[-2:], "big"))


class OfPort:
    """Flows to a destination port are read on one processor."""

    def __init__(self, text: str, port: int, cpu: int) -> None:
        self.text = text
        self.port = port
        self.cpu = cpu

    def cpu_of(self, kind: str, data: bytes) -> int | None:
        return self.cpu if _ends(kind, data)[3] == self.port else None


class OfNetwork:
    """Flows from or to an address of a network are read on one processor."""

    def __init__(self, text: str, network: Network, cpu: int) -> None:
        self.text = text
        self.cpu = cpu
        self.version = str(network.version)
        self.mask = int(network.netmask)
        self.address = int(network.network_address)

    def cpu_of(self, kind: str, data: bytes) -> int | None:
        if kind[-1] != self.version:
            return None
        for end in _ends(kind, data)[:2]:
            if int.from_bytes(end, "big") & self.mask == self.address:
                return self.cpu
        return None


Told = Union[OfPort, OfNetwork]


def told(text: str) -> Told:
    """The reader of the words PORT=CPU, ADDRESS=CPU or ADDRESS/LENGTH=CPU. A type for argparse."""
    what, equals, cpu = text.rpartition("=")
    if not (equals and re.fullmatch("[0-9]{1,6}", cpu)):
        raise argparse.ArgumentTypeError("%s is not PORT=CPU or ADDRESS=CPU" % text)
    if re.fullmatch("[0-9]{1,5}", what) and int(what) < 65536:
        return OfPort(text, int(what), int(cpu))
    try:
        return OfNetwork(text, ipaddress.ip_network(what, strict=False), int(cpu))
    except ValueError:
        raise argparse.ArgumentTypeError("`%s` is neither a port (0 to 65535) nor an address"
                                         % what) from None


def _address(text):
    """The bytes of an address as ss writes it, None for any of both versions."""
    text = text.strip("[]").partition("%")[0]
    if text in ("*", "::"):
        return None
    address = ipaddress.ip_address(text)
    mapped = getattr(address, "ipv4_mapped", None)
    return (mapped or address).packed


class Sockets:
    """The processors of the processes that have a machine's sockets."""

    def __init__(self) -> None:
        self.known: Dict[Tuple[str, End, Optional[End]], int] = {}

    def add(self, protocol: str, local: End, peer: End | None, cpu: int) -> None:
        """A socket between two ends (address, port); None in them is any."""
        self.known.setdefault((protocol, local, peer), cpu)

    def cpu_of(self, kind: str, data: bytes) -> int | None:
        source, target, source_port, target_port = _ends(kind, data)
        if target_port is None:
            return None
        anywhere = bytes(4) if kind[-1] == "4" else None
        for local, peer in (((target, target_port), (source, source_port)),
                            ((target, target_port), None), ((anywhere, target_port), None),
                            ((None, target_port), None)):
            cpu = self.known.get((kind[:3], local, peer))
            if cpu is not None:
                return cpu
        return None


def _socket(line, processes):
    """Protocol, ends and processor of a line of `ss -Htuanp`, or None where it has no process."""
    found = _SOCKET.fullmatch(line.strip())
    if not found:
        return None
    protocol, _, local, local_port, peer, peer_port, users = found.groups()
    cpus = [processes[int(number)] for number in _PROCESS.findall(users or "")
            if int(number) in processes]
    if not cpus or local_port == "*":
        return None
    try:
        here, there = _address(local), _address(peer)
    except ValueError:
        return None
    return protocol, (here, int(local_port)), (
        None if peer_port == "*" else (there, int(peer_port))), cpus[0]


def of_snapshot(snapshot: Snapshot) -> Sockets:
    """The Sockets of a snapshot that steer-snap --readers wrote; Refused where it has none."""
    if snapshot.sockets is None:
        raise snapshot.refused("it has no sockets: steer-snap --readers DEV writes them")
    sockets = Sockets()
    for line in snapshot.sockets:
        found = _socket(line, snapshot.processes)
        if found:
            sockets.add(*found)
    if not sockets.known:
        raise snapshot.refused("no socket in it has a process: take it as root")
    return sockets
