"""Sets of processors (and of queues) in the two forms of sysfs: hexadecimal masks and lists."""

from __future__ import annotations

import re
from typing import Iterable

_MASK = re.compile(r"(?:0[xX])?[0-9a-fA-F]+(?:,[0-9a-fA-F]{1,8})*")
_PART = re.compile(r"([0-9]{1,6})(?:-([0-9]{1,6}))?")
MOST_NUMBERED = 65536   # more processors than any machine has


def parse_mask(text: str) -> list[int]:
    """The ascending members of a mask such as `f0` or `ff,00000000`.

    The first group has any number of digits, each later one stands for 32 bits.
    ValueError where the text is no mask.
    """
    if not _MASK.fullmatch(text) or len(text) > MOST_NUMBERED // 4:
        raise ValueError("%r is no hexadecimal mask such as f0 or ff,00000000" % text)
    groups = re.sub("^0[xX]", "", text).split(",")
    bits = int("".join([groups[0]] + [group.zfill(8) for group in groups[1:]]), 16)
    return [i for i, digit in enumerate(reversed(bin(bits)[2:])) if digit == "1"]


def mask_text(members: Iterable[int], width: int) -> str:
    """The mask of these members as sysfs prints it for `width` processors or queues."""
    bits = sum(1 << member for member in set(members))
    groups = []
    while width > 0 or bits:
        digits = min(8, max(1, (width + 3) // 4))
        groups.append("%0*x" % (digits, bits & 0xffffffff))
        bits >>= 32
        width -= 32
    return ",".join(reversed(groups)) or "0"


def parse_list(text: str) -> list[int]:
    """The members of a list such as `0-3,8`, in its order; the empty text is the empty list.

    ValueError where the text is no list.
    """
    members: list[int] = []
    for part in text.split(",") if text else []:
        found = _PART.fullmatch(part)
        low, high = (found.group(1), found.group(2) or found.group(1)) if found else ("1", "0")
        if int(low) > int(high) or int(high) >= MOST_NUMBERED:
            raise ValueError("%r is no list of numbers such as 0-3,8" % text)
        members.extend(range(int(low), int(high) + 1))
    return members


def list_text(members: Iterable[int]) -> str:
    """These members as a list in the kernel's form: ascending, with ranges, such as `0-3,8`."""
    parts: list[list[int]] = []
    for member in sorted(set(members)):
        if parts and parts[-1][1] == member - 1:
            parts[-1][1] = member
        else:
            parts.append([member, member])
    return ",".join("%d" % low if low == high else "%d-%d" % (low, high) for low, high in parts)
