"""A machine taken apart into machines that share nothing, each small enough for a plan of steer.

Queues are of one part where they share a processor of their homes and masks, and with RFS one of
the readers that their flows can have, or an entry of the socket table.
"""

from __future__ import annotations

import math
from typing import Iterable, Iterator, NamedTuple

from . import cli, limits
from . import plan as plans
from .processors import list_text

LEFT_OUT = ("tx", "steps", "detach", "workers", "tries")


class Share(NamedTuple):
    """Two queues that are of one part, and why."""

    queue: int
    other: int
    why: str


class Part(NamedTuple):
    """A part: its plan, and the queues and processors of the machine by their number in it."""

    plan: plans.Plan
    queues: list[int]
    cpus: list[int]


def has_rfs(plan: plans.Plan) -> bool:
    """Whether RFS does anything in some queue."""
    return bool(plan["sock"]) and any(queue["flows"] for queue in plan["queues"])


def _entries(plan, queue):
    """The entries of the table that lead to a queue; a packet without a hash is not among them."""
    return [entry for entry, of in enumerate(plans.table_of(plan)) if of == queue]


def reached(plan: plans.Plan, queue: int) -> set[int]:
    """The readers that the flows of a queue can have: 0 without a hash, else hash modulo size."""
    size = len(plan["apps"])
    step = math.gcd(limits.TABLE_ENTRIES, size)
    found = {index for entry in _entries(plan, queue) for index in range(entry % step, size, step)}
    return found | {0} if queue == 0 else found


def _uses(plan: plans.Plan) -> Iterator[tuple[int, tuple[str, int], str]]:
    """What each queue needs: (queue, the thing, what it is there)."""
    rfs = has_rfs(plan)
    entries = 1 << (plan["sock"] - 1).bit_length() if plan["sock"] else 0
    for number, queue in enumerate(plan["queues"]):
        yield number, ("processor", queue["home"]), "home"
        for cpu in queue["mask"]:
            yield number, ("processor", cpu), "mask"
        if rfs:
            for index in reached(plan, number):
                yield number, ("processor", plan["apps"][index]), "reader"
            for entry in _entries(plan, number):
                step = min(entries, limits.TABLE_ENTRIES)
                yield number, ("entry of rps_sock_flow_entries", entry % step), "entry"


def components(plan: plans.Plan) -> tuple[list[list[int]], list[Share]]:
    """The sets of queues that share something, ascending, and the shares that bind them."""
    part = list(range(len(plan["queues"])))
    first: dict[tuple[str, int], tuple[int, str]] = {}
    shares = []
    for queue, thing, role in _uses(plan):
        other, its = first.setdefault(thing, (queue, role))
        if part[other] != part[queue]:
            why = "%s %d" % thing
            if thing[0] == "processor":
                why += " (%s and %s)" % (its, role)
            shares.append(Share(other, queue, why))
            low, high = sorted((part[other], part[queue]))
            part = [low if one == high else one for one in part]
    found: dict[int, list[int]] = {}
    for queue, of in enumerate(part):
        found.setdefault(of, []).append(queue)
    return list(found.values()), shares


def processors_of(plan: plans.Plan, queues: Iterable[int]) -> list[int]:
    """The processors of these queues, ascending."""
    wanted = set(queues)
    return sorted({thing[1] for queue, thing, _ in _uses(plan)
                   if queue in wanted and thing[0] == "processor"})


def _refuse(plan, queues, shares, source):
    """Refuses a set of queues that no plan has room for, and says what binds it."""
    cpus = processors_of(plan, queues)
    reasons = ["queues %s with processors %s do not come apart: %d queues and %d processors, and "
               "a plan has at most %d and %d"
               % (list_text(queues), list_text(cpus), len(queues), len(cpus), limits.MOST_QUEUES,
                  limits.MOST_PROCESSORS)]
    bound = [share for share in shares if share.queue in queues]
    for share in bound[:4]:
        reasons.append("queues %d and %d share %s" % share)
    if bound[4:]:
        reasons.append("and %d more such" % len(bound[4:]))
    raise cli.Refused(source, *reasons)


def gathered(plan: plans.Plan, source: str) -> list[list[int]]:
    """The queues of each part: sets that share nothing, as many in one as there is room for."""
    bins: list[list[int]] = []
    sets, shares = components(plan)
    for queues in sets:
        if not _fits(plan, queues):
            _refuse(plan, queues, shares, source)
        for one in bins:
            if _fits(plan, one + queues):
                one += queues
                break
        else:
            bins.append(list(queues))
    return [sorted(one) for one in bins]


def _fits(plan, queues):
    return (len(queues) <= limits.MOST_QUEUES
            and len(processors_of(plan, queues)) <= limits.MOST_PROCESSORS)


def _readers(plan, queues, numbers, source):
    """The readers of a part, so that a flow of it has the reader at its own remainder.

    Those that none of its flows can have are put on its first processor. Without RFS a reader
    changes no packet's way, and there is one, on the first processor.
    """
    if not has_rfs(plan):
        return [0]
    apps, size = plan["apps"], len(plan["apps"])
    wanted = {index: apps[index] for queue in queues for index in reached(plan, queue)}
    for fewer in range(min(size, limits.MOST_READERS), 0, -1):
        found = {}
        for index, cpu in wanted.items():
            found.setdefault(index % fewer, set()).add(cpu)
        if size % fewer == 0 and all(len(cpus) == 1 for cpus in found.values()):
            return [numbers[min(found[index])] if index in found else 0
                    for index in range(fewer)]
    raise cli.Refused(source, "%d readers, of which flows of queues %s can have %d: no list of at "
                      "most %d gives each flow the same one by its hash modulo the length"
                      % (size, list_text(queues), len(wanted), limits.MOST_READERS))


def _part(plan, queues, source):
    """The Part of these queues."""
    cpus = processors_of(plan, queues)
    numbers = {cpu: number for number, cpu in enumerate(cpus)}
    places = {queue: number for number, queue in enumerate(queues)}
    made = {name: value for name, value in plan.items() if name not in LEFT_OUT}
    made.update(
        cpus=len(cpus),
        queues=[{"home": numbers[queue["home"]], "flows": queue["flows"],
                 "mask": [numbers[cpu] for cpu in sorted(set(queue["mask"]))]}
                for queue in (plan["queues"][number] for number in queues)],
        reta=[places.get(queue, 0) for queue in plans.table_of(plan)],
        limited=sorted({numbers[cpu] for cpu in plan.get("limited", ()) if cpu in numbers}),
        apps=_readers(plan, queues, numbers, source),
        tx=[{"cpus": [], "queues": []}], steps=["sweep"])
    return Part(made, queues, cpus)


def parts_of(plan: plans.Plan, source: str) -> list[Part]:
    """The parts of a plan that may be wider than steer's. Refused where one does not fit."""
    if plan.get("filters"):
        raise cli.Refused(source, "filters %d: filters of accelerated RFS lead flows to other "
                          "queues, so that queues share processors" % plan["filters"])
    return [_part(plan, queues, source) for queues in gathered(plan, source)]
