"""Odd sizes by which one hash can give several indices at once.

Where sizes have no common divisor, each index can be had whatever the others are, as long as the
product of the sizes is no more than the number of values that the hash may take.
"""

from __future__ import annotations

import math
from typing import Collection, FrozenSet, Hashable, Mapping, Sequence

Name = Hashable
Group = FrozenSet[Name]

MOST_TRIES = 200000


class NoSizes(Exception):
    """No sizes go together; `group` are the names of those that conflict."""

    def __init__(self, group: Group) -> None:
        super().__init__(group)
        self.group = group


def odd_part(size: int) -> int:
    """A size without its factors of two."""
    return size // (size & -size)


def odd_from(size: int, most: int) -> range:
    """The odd sizes from this one to `most`."""
    return range(size | 1, most + 1, 2)


class _Search:
    """Tries sizes for one name after another, and takes back what leads nowhere."""

    def __init__(self, choices, groups, room):
        self.choices = choices
        self.room = room
        self.of = {name: [group for group in groups if name in group] for name in choices}
        self.names = sorted(choices, key=lambda name: (len(choices[name]), str(name)))
        self.chosen = {}
        self.tries = 0
        self.furthest = None

    def _fits(self, name, size):
        """Whether this size goes with those that are chosen, in each group."""
        for group in self.of[name]:
            others = [self.chosen[other] for other in group if other in self.chosen]
            if size * math.prod(others) > self.room or any(
                    math.gcd(size, other) > 1 for other in others):
                self.furthest = self.furthest or group
                return False
        return True

    def run(self, at=0):
        """Whether sizes were found for the names from this one on."""
        if at == len(self.names):
            return True
        name = self.names[at]
        for size in self.choices[name]:
            self.tries += 1
            if self.tries > MOST_TRIES:
                return False
            if self._fits(name, size):
                self.chosen[name] = size
                if self.run(at + 1):
                    return True
                del self.chosen[name]
        return False


def chosen_sizes(choices: Mapping[Name, Sequence[int]], groups: Collection[Group],
                 room: int) -> dict[Name, int]:
    """A size for each name, out of its `choices` in their order.

    Those of a group (a set of names) have no common divisor, and a product of at most `room`.
    Raises NoSizes.
    """
    ordered = sorted(groups, key=lambda group: sorted(map(str, group)))
    search = _Search(choices, ordered, room)
    if not search.run():
        raise NoSizes(search.furthest or frozenset(choices))
    return search.chosen


class Residues:
    """Numbers with given remainders by sizes that have no common divisor, beside low bits.

    A number is `low` plus 2 to the power of `bits` times what is looked for.
    """

    def __init__(self, sizes: Sequence[int], bits: int) -> None:
        self.product = math.prod(sizes)
        self.parts = []
        for size in sizes:
            rest = self.product // size
            unit = rest * pow(rest, -1, size) if size > 1 else 0
            self.parts.append((size, pow(1 << bits, -1, size) if size > 1 else 0, unit))

    def high(self, low: int, remainders: Sequence[int], near: int) -> int:
        """The high bits of such a number: the largest up to `near`, else the least."""
        value = 0
        for (size, inverse, unit), remainder in zip(self.parts, remainders):
            value += (remainder - low) * inverse % size * unit
        value %= self.product
        value = near - (near - value) % self.product
        return value if value >= 0 else value + self.product
