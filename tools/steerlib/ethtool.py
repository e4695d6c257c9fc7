"""Reading what ethtool prints of a card: its table, key, hash fields, features and rules.

The forms are those of ethtool 6.1. What is not recognised where it matters is refused.
"""

from __future__ import annotations

import re

KINDS = {"tcp4": 1, "udp4": 2, "tcp6": 4, "udp6": 5}   # name: bit of the hash kind
ADDRESS_BIT = {"4": 0, "6": 3}
BOTH_ADDRESSES = {"IP SA", "IP DA"}
BOTH_PORTS = {"L4 bytes 0 & 1 [TCP/UDP src port]", "L4 bytes 2 & 3 [TCP/UDP dst port]"}
MERGING = ("generic-receive-offload", "large-receive-offload", "rx-gro-hw")

_ROW = re.compile(r"\s*([0-9]{1,9}):((?:\s+[0-9]{1,9})+)\s*")
_KEY = re.compile(r"[0-9a-fA-F]{2}(?::[0-9a-fA-F]{2})*")
_ON = re.compile(r"\s+([\w-]+): on\b.*")


class Unreadable(Exception):
    """What ethtool said cannot be what a plan holds; the reason is its text."""


class Hashing:
    """What `ethtool -x` says: `table` and `key` (digits) or None, names of what is on."""

    def __init__(self) -> None:
        self.table: list[int] | None = None
        self.key: str | None = None
        self.functions: list[str] = []
        self.transformations: list[str] = []


def hashing(lines: list[str]) -> Hashing:
    """The Hashing of the lines of `ethtool -x DEV`. Raises Unreadable."""
    said, section = Hashing(), ""
    for line in lines:
        row, on = _ROW.fullmatch(line), _ON.fullmatch(line)
        if row:
            said.table = said.table or []
            if int(row.group(1)) != len(said.table):
                raise Unreadable("the table's entry %s stands at place %d" % (
                    row.group(1), len(said.table)))
            said.table.extend(int(queue) for queue in row.group(2).split())
        elif section == "RSS hash key" and _KEY.fullmatch(line.strip()):
            said.key = line.strip().replace(":", "").lower()
        elif on:
            if section == "RSS input transformation":
                said.transformations.append(on.group(1))
            else:
                said.functions.append(on.group(1))
        elif line.rstrip().endswith(":"):
            section = line.strip().rstrip(":")
    return said


def hash_fields(lines: list[str]) -> set[str] | None:
    """The set of fields in `ethtool -n DEV rx-flow-hash KIND`, or None where it says none."""
    for at, line in enumerate(lines):
        if "discarded on RX" in line:
            raise Unreadable("its packets are discarded by the card")
        if "use these fields for computing Hash flow key" in line:
            said = {field.strip() for field in lines[at + 1:]} - {"", "None"}
            return said
    return None


def merging(lines: list[str]) -> list[str]:
    """The names of what merges packets and is on, from the lines of `ethtool -k DEV`."""
    found = []
    for line in lines:
        name, _, state = line.strip().partition(": ")
        if name in MERGING and state.split()[:1] == ["on"]:
            found.append(name)
    return found


def rules(lines: list[str]) -> list[tuple[int, list[str]]]:
    """The rules of `ethtool -n DEV`: a list of (number, lines of the rule without blanks)."""
    found: list[tuple[int, list[str]]] = []
    for line in lines:
        head = re.fullmatch(r"Filter: ([0-9]{1,10})", line.strip())
        if head:
            found.append((int(head.group(1)), []))
        elif found and line.strip():
            found[-1][1].append(line.strip())
    return found


def rules_told(lines: list[str]) -> int | None:
    """How many rules `ethtool -n DEV` says that there are, or None."""
    for line in lines:
        told = re.fullmatch(r"Total ([0-9]{1,10}) rules?", line.strip())
        if told:
            return int(told.group(1))
    return None
