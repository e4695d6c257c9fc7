"""Where a plan's answer is another than a kernel's: what to note of it.

A plan is taken as plain dicts and lists. Processors have the numbers of the plan, but in
`limited_by` those of the caller. The kernel's side of each is in docs/kernel.md.
"""

from __future__ import annotations

import math
from typing import Sequence

from . import limits
from .plan import DEFAULTS, Plan, table_of
from .processors import list_text
from .tables import share

# For each IP version the bit of UDP with its ports.
UDP_WITH_PORTS = (("4", 1 << 2), ("6", 1 << 5))


def has_rfs(plan: Plan, queue: int) -> bool:
    """Whether packets of this queue follow their readers."""
    return bool(plan["queues"][queue]["flows"] and plan["sock"])


def targets(plan: Plan) -> list[list[int]]:
    """The processors into whose backlogs a kernel puts packets of each queue."""
    return [sorted(set(queue["mask"]) | set(plan["apps"] if has_rfs(plan, number) else []))
            for number, queue in enumerate(plan["queues"])]


def limited_by(bitmap: Sequence[int], homes: Sequence[int],
               put_to: Sequence[Sequence[int]]) -> tuple[list[int], str]:
    """The processors that are put to with the flow limit, and a note that says so.

    `bitmap` has the processors that put with the limit, which is what flow_limit_cpu_bitmap names.
    `homes` is the processor that puts the packets of each queue, and `put_to` those to which.
    """
    putting = [queue for queue, home in enumerate(homes) if home in bitmap and put_to[queue]]
    limited = sorted(set(cpu for queue in putting for cpu in put_to[queue]))
    said = "flow_limit_cpu_bitmap %s" % list_text(bitmap)
    if not limited:
        return [], "%s names processors that put; no queue has its home there and puts to a " \
                   "backlog, so nothing is limited" % said
    text = "%s names processors that put; limited here are those that they put to, %s" % (
        said, list_text(limited))
    others = [queue for queue, cpus in enumerate(put_to)
              if queue not in putting and set(cpus) & set(limited)]
    if others:
        text += "; rx %s put there too, in a kernel without the limit" % list_text(others)
    return limited, text


def of_one_more(plan: Plan) -> str:
    """A note on the backlog of a plan that netdev_max_backlog gave."""
    return ("backlog %d: a kernel lets one packet more wait than netdev_max_backlog %d says"
            % (plan["backlog"], plan["backlog"] - 1))


def without_backlog(plan: Plan) -> list[int]:
    """The queues whose packets a kernel handles at once, where the card has NAPI."""
    return [queue for queue, cpus in enumerate(targets(plan)) if not cpus]


def of_backlog(plan: Plan) -> str | None:
    """A note on queues without a backlog, or None."""
    queues = without_backlog(plan)
    if not queues:
        return None
    homes = sorted({plan["queues"][queue]["home"] for queue in queues})
    return ("rx %s without RPS and RFS: a kernel handles a card's packets there at once, without "
            "a backlog, so that netdev_max_backlog does nothing and drops on cpu %s for them are "
            "none of a machine's" % (list_text(queues), list_text(homes)))


def _reads_where_put(plan: Plan, table: Sequence[int], queue: int) -> bool:
    """Whether the reader of each packet of a queue is on the processor that RPS picks."""
    mask, apps = plan["queues"][queue]["mask"], plan["apps"]
    period = len(mask) * len(apps) // math.gcd(len(mask), len(apps))
    period *= limits.TABLE_ENTRIES // math.gcd(limits.TABLE_ENTRIES, period)
    return all(apps[value % len(apps)] == mask[value % len(mask)] for value in range(period)
               if table[value % limits.TABLE_ENTRIES] == queue)


def of_readers(plan: Plan) -> str | None:
    """A note on readers that RFS never has to look for, or None."""
    table = table_of(plan)
    queues = [number for number, queue in enumerate(plan["queues"])
              if has_rfs(plan, number) and queue["mask"] and number in table
              and _reads_where_put(plan, table, number)]
    if not queues:
        return None
    return ("by the manual's modulo the readers of rx %s are picked by the same bits of the hash "
            "as the members of the mask, and are always where RPS sends the packet: RFS moves no "
            "flow there (name other readers: --apps, apps=)" % list_text(queues))


def picks_by_hash(plan: Plan) -> bool:
    """Whether the hash of a packet decides on its processor."""
    return any(len(queue["mask"]) > 1 or has_rfs(plan, number)
               for number, queue in enumerate(plan["queues"]))


def kinds_of(plan: Plan) -> int:
    """The hash kinds of a plan."""
    return plan.get("kinds", DEFAULTS["kinds"])


def of_hashes(plan: Plan, without_ports: int, packets: int, drawn: bool = False) -> str | None:
    """A note on packets of a capture that are not hashed by their ports, or None.

    `drawn` is whether the hash is drawn that a kernel makes for them.
    """
    if not without_ports:
        return None
    then = ("so here it is drawn: try several draws" if drawn else
            "so their processors are not to be foretold")
    return ("%d of %d packets (%s) are hashed without ports (kinds %d): a kernel steers them by a "
            "hash of its own, %s"
            % (without_ports, packets, share(without_ports, packets), kinds_of(plan), then))


def of_kinds(plan: Plan) -> str | None:
    """A note on UDP that is hashed without its ports, or None."""
    versions = [version for version, bit in UDP_WITH_PORTS if not kinds_of(plan) & bit]
    if not versions or not picks_by_hash(plan):
        return None
    return ("UDP over IPv%s is hashed without its ports (kinds %d): a kernel steers it by a hash "
            "of its own, so its processor is not to be foretold"
            % (" and IPv".join(versions), kinds_of(plan)))
