"""The rule by which a kernel picks queues and processors, written down once, as pure functions.

Read in the sources of Linux 6.1, 6.12 and 7.3, which agree where no version is named; functions
without a file are in net/core/dev.c. docs/kernel.md has the same rule in prose, and says which of
it was measured. A hash is a number of 32 bits, or None where there is none.
"""

from __future__ import annotations

import hashlib
from typing import Collection, Iterable, Sequence

HASH_BITS = 32
GOLDEN_RATIO_32 = 0x61C88647
MOST_BUCKET_BITS = 12         # of flow_limit_table_len, 4096 unless set


def scaled(value: int, size: int) -> int:
    """`reciprocal_scale` (include/linux/math.h, kernel.h): the high bits of value times size."""
    return (value * size) >> HASH_BITS


def hash_32(value: int, bits: int) -> int:
    """The high bits of a product, `hash_32` (include/linux/hash.h); 0 bits are 0."""
    return ((value * GOLDEN_RATIO_32) & 0xFFFFFFFF) >> (HASH_BITS - bits)


def rounded_up(size: int) -> int:
    """The size of a table: the next power of two; 0 stays 0.

    `store_rps_dev_flow_table_cnt` (net/core/net-sysfs.c), `rps_sock_flow_sysctl`
    (net/core/sysctl_net_core.c).
    """
    return 1 << (size - 1).bit_length() if size else 0


def bits_of(size: int) -> int:
    """The number of low bits of a hash that are the index into a table of this size."""
    return rounded_up(size).bit_length() - 1 if size else 0


def mask_members(mask: Iterable[int], online: Collection[int] | None = None) -> list[int]:
    """The list of a mask: its processors that were online when it was written, ascending.

    `store_rps_map` (net/core/net-sysfs.c). Without `online` all of them were.
    """
    return sorted(cpu for cpu in set(mask) if online is None or cpu in online)


def rps_choice(value: int | None, members: Sequence[int]) -> int | None:
    """The processor that RPS picks of a list (`get_rps_cpu`), or None where it picks none.

    None is the processor of the interrupt: without a list, without a hash, and for a hash of 0,
    which counts as none. A choice that is offline is that processor too.
    """
    return members[scaled(value, len(members))] if members and value else None


def table_queue(value: int | None, table: Sequence[int]) -> int:
    """The receive queue of a hash by a card's table of any size; without a hash it is 0.

    The card's own rule, as tools/testing/selftests/net/toeplitz.c (7.3) and drivers have it: the
    low bits of the hash where the size is a power of two, else the remainder.
    """
    return 0 if value is None else table[value % len(table)]


def socket_entry(value: int, size: int) -> int:
    """The entry of the socket table (`rps_record_sock_flow`, include/net/rps.h): the low bits."""
    return value & (rounded_up(size) - 1)


def flow_entry(value: int, count: int, by_hash_32: bool = False) -> int:
    """The entry of a queue's flow table of `count` entries.

    6.1 and 6.12: the low bits (`get_rps_cpu`). 7.3, and 6.18 by its types: `hash_32`.
    """
    if by_hash_32:
        return hash_32(value, bits_of(count))
    return value & (rounded_up(count) - 1)


def limit_bucket(value: int, by_hash_32: bool = False, bits: int = MOST_BUCKET_BITS) -> int:
    """The bucket of the flow limit (`skb_flow_limit`), by the versions as in flow_entry."""
    return hash_32(value, bits) if by_hash_32 else value & ((1 << bits) - 1)


def transmit_map(queue: int, cpu: int, of_queues: Sequence[Collection[int]],
                 of_cpus: Sequence[Collection[int]]) -> list[int]:
    """The transmit queues from which XPS picks (`get_xps_queue`), ascending; or all of them.

    `of_queues` and `of_cpus` have a set for each transmit queue: its receive queues, and its
    processors. First the map of the receive queue counts, then that of the processor. The kernel
    has the queues of a map in the order in which they were configured, which no file shows.
    """
    for maps, of in ((of_queues, queue), (of_cpus, cpu)):
        found = [number for number, members in enumerate(maps) if of in members]
        if found:
            return found
    return list(range(len(of_queues)))


def transmit_choice(value: int, queues: Sequence[int]) -> int:
    """The one that is picked of these (`get_xps_queue`, `skb_tx_hash`)."""
    return queues[scaled(value, len(queues))]


def software_key(version: str, addresses: Iterable[bytes], ports: Iterable[int], protocol: int,
                 label: int = 0) -> bytes:
    """What a kernel's own hash of a flow reads, the same for both directions of the flow.

    `__flow_hash_consistentify` and `__skb_get_hash_net` (net/core/flow_dissector.c): addresses and
    ports are sorted, each pair by itself; an IPv6 flow label other than 0 takes the place of ports.
    `version` is that of IP, as text, `addresses` are two byte strings, `ports` two numbers or none.
    Here it is a text: version, addresses in hexadecimal, protocol, label and ports, with blanks
    between.
    """
    numbers = [] if label else sorted(ports)
    words: list[object] = [version]
    words += sorted(address.hex() for address in addresses)
    words += [protocol, label] + numbers
    return " ".join(map(str, words)).encode("ascii")


def drawn_hash(seed: int, key: bytes) -> int:
    """A hash as a kernel makes it itself, by a key of its own for each boot: drawn, never 0.

    The kernel's is siphash with a random key. This one is as even and is no kernel's: BLAKE2b of
    `key` with four bytes, the highest one first, and the digits of the seed as its key.
    """
    digest = hashlib.blake2b(key, digest_size=4, key=b"%d" % seed).digest()
    return int.from_bytes(digest, "big") or 1
