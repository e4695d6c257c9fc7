"""The Toeplitz hash, by a table for each byte that is hashed, and its inverse over some bits.

Bits are numbered from 0, the highest bit of the first byte. Bit i of what is hashed adds bits i to
i + 31 of the key, by exclusive or.
"""

from __future__ import annotations

from typing import Iterable

WORD = 0xFFFFFFFF
BITS = 32


class Toeplitz:
    """The hash by a key of 40 bytes, which is enough for 36 bytes that are hashed."""

    def __init__(self, key: bytes) -> None:
        self.key = int.from_bytes(key, "big")
        self.bits = 8 * len(key)
        self.tables = [self._table(place) for place in range(len(key) - 4)]

    def window(self, bit: int) -> int:
        """What a bit adds to the hash."""
        return self.key >> (self.bits - BITS - bit) & WORD

    def _table(self, place):
        """What each value of the byte at this place adds."""
        table = [0]
        for bit in range(7, -1, -1):
            window = self.window(8 * place + bit)
            table += [value ^ window for value in table]
        return table

    def hash(self, data: bytes) -> int:
        """The hash of these bytes."""
        value = 0
        for table, byte in zip(self.tables, data):
            value ^= table[byte]
        return value


class Solver:
    """Which of some bits to turn over so that the hash changes as wanted.

    `bits` are those that may be turned, in the order in which they are preferred; `length` is that
    of the bytes that are hashed. A change is a number that is combined with the bytes, taken as one
    number, by exclusive or.
    """

    def __init__(self, toeplitz: Toeplitz, bits: Iterable[int], length: int) -> None:
        self.basis: dict[int, tuple[int, int]] = {}
        self.free: list[int] = []
        for bit in bits:
            self._add(toeplitz.window(bit), 1 << (8 * length - 1 - bit))
        self.rank = len(self.basis)
        self.tables = [[self._solve(byte << 8 * place) for byte in range(256)]
                       for place in range(4)] if self.rank == BITS else []

    def _reduced(self, value, change):
        """A value without the highest bits that the basis has, and the change with theirs."""
        while value:
            known = self.basis.get(value.bit_length())
            if known is None:
                break
            value ^= known[0]
            change ^= known[1]
        return value, change

    def _add(self, value, change):
        value, change = self._reduced(value, change)
        if value:
            self.basis[value.bit_length()] = value, change
        else:
            self.free.append(change)

    def _solve(self, value):
        return self._reduced(value, 0)[1]

    def change(self, difference: int) -> int:
        """The change of the bytes by which the hash changes by this difference.

        Only where the rank is 32.
        """
        low, second, third, high = self.tables
        return (low[difference & 255] ^ second[difference >> 8 & 255]
                ^ third[difference >> 16 & 255] ^ high[difference >> 24])

    def unseen(self, number: int) -> int:
        """The change of this number that leaves the hash as it is; 0 is none.

        There are 2 to the power of len(free).
        """
        change = 0
        for place, one in enumerate(self.free):
            if number >> place & 1:
                change ^= one
        return change
