"""The limits of a plan, as steer reads it, and those of a machine that steer-split takes apart."""

from __future__ import annotations

from typing import NamedTuple

MOST_PROCESSORS = 32
MOST_QUEUES = 16
MOST_TRANSMIT_QUEUES = 32
MOST_READERS = 32
MOST_MEMBERS = 32             # of a list of processors, repeats counted
MOST_TAPS = 32
TABLE_ENTRIES = 128
KEY_DIGITS = 80
MOST_KINDS = 63               # a bit for each hash kind
MOST_FLOWS = 32768            # rps_flow_cnt of a queue
MOST_SOCKET_ENTRIES = 65536   # rps_sock_flow_entries
MOST_BACKLOG = 65536
MOST_FILTERS = 4096
MOST_START = 2 ** 32 - 1
MOST_WORKERS = 32
MOST_TRIES = 64
MOST_PACKETS = 262144
MOST_STEPS = 1000000
MOST_COUNT = 999999           # steps of a seed
MOST_NUMBER = 2 ** 64 - 1
MOST_BYTES = 16777216
MOST_BRACKETS = 127           # open at once
MOST_OPENING_BRACKETS = 800000    # { and [ together, wherever they stand


class Most(NamedTuple):
    """How many of each there may be; `members` are those of a list of processors or queues."""

    processors: int
    queues: int
    transmit_queues: int
    readers: int
    members: int


PLAN = Most(MOST_PROCESSORS, MOST_QUEUES, MOST_TRANSMIT_QUEUES, MOST_READERS, MOST_MEMBERS)
WIDE = Most(1024, TABLE_ENTRIES, 1024, 1024, 1024)
