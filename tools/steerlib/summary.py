"""A report on one screen: sums, and where the packets of each flow went."""

from __future__ import annotations

from collections import Counter
from typing import Iterator

from . import cli, flows, report, tables, waits
from .plan import Plan
from .report import Report

FLOWS_SHOWN = 10
IN_ORDER = ("ring", "poller", "backlog", "hand")
"""Places of packets that are still under way, in the order in which they are passed."""


def _at_once(dropped):
    """How many drops by a full backlog found their processor where its drop before had found it.

    Between the two it had taken no packet, so more came than it could take.
    """
    by_cpu: dict[int, list[report.Packet]] = {}
    for packet in dropped:
        by_cpu.setdefault(packet.cpu, []).append(packet)
    count = 0
    for drops in by_cpu.values():
        drops.sort(key=lambda packet: packet.drop)
        count += sum(later.flow_offers is None and later.drop_pulled == earlier.drop_pulled
                     for earlier, later in zip(drops, drops[1:]))
    return count


def _overload(dropped):
    """A line that says so, if most drops are of packets that came faster than they were taken."""
    count = _at_once(dropped)
    if 2 * count > len(dropped):
        yield ("overload: at %d of %d drops the processor had taken no packet since its drop "
               "before; in a run with threads that says nothing of a rate" % (count, len(dropped)))


def _busy(answers):
    """A line with how often each kind of command found its gate busy, if one did."""
    busy = Counter(answer.step.split()[0] for answer in answers
                   if answer.answer.startswith("busy"))
    if busy:
        yield ("busy: %s; in a run with threads each try counts as a command"
               % ", ".join("%s %d times" % counted for counted in busy.most_common()))


def headline(rep: Report) -> Iterator[str]:
    """The first lines: what arrived, was dropped, moved and replied to, and what is under way."""
    packets = rep.packets
    why = Counter(packet.why for packet in packets)
    dropped = [packet for packet in packets if packet.place == "drop"]
    limited = sum(packet.flow_offers is not None for packet in dropped)
    by_limit = ", %d of them by the flow limit" % limited if limited else ""
    yield "packets %d of %d   dropped %d (%s)%s" % (
        rep.end.arrived, rep.end.total, len(dropped), tables.share(len(dropped), len(packets)),
        by_limit)
    yield "flows moved %d times, kept %d times   replies %d" % (
        sum(why[reason] for reason in report.MOVES), why["kept"], len(rep.replies))
    yield from _overload(dropped)
    places = Counter(packet.place for packet in packets)
    waiting = ["%s %d" % (place, places[place]) for place in IN_ORDER if places[place]]
    if waiting:
        yield "still under way: " + ", ".join(waiting)
    refused = sum(answer.answer not in ("done", "idle online") and
                  not answer.answer.startswith("expired") for answer in rep.answers)
    if rep.answers:
        yield "commands %d, of which %d were not done" % (len(rep.answers), refused)
    yield from _busy(rep.answers)


def _bypassed(rep, plan, source):
    """A line for the drops of packets that a kernel handles at once, without a backlog.

    Those are the ones that come by a queue without a mask, of a flow whose reader is not known.
    """
    if (len(plan["queues"]), plan["cpus"]) != (len(rep.queues), len(rep.cpus)):
        raise cli.Refused(source, "has %d queues and %d processors, and the report %d and %d" % (
            len(plan["queues"]), plan["cpus"], len(rep.queues), len(rep.cpus)))
    steps = plan["steps"] if isinstance(plan["steps"], list) else []
    if any(step.startswith("mask ") for step in steps):
        yield "the plan sets masks by commands: drops are not marked"
        return
    bare = [not queue["mask"] for queue in plan["queues"]]
    cpus = Counter(packet.cpu for packet in rep.packets
                   if packet.place == "drop" and bare[packet.q] and packet.want is None)
    if cpus:
        yield "drops of queues without a mask, where a kernel has no backlog for a card: %s" % (
            ", ".join("%d on cpu %d" % (count, cpu) for cpu, count in sorted(cpus.items())))


def _without(name, numbers):
    if numbers:
        yield "no packets on %s %s" % (name, ", ".join(str(number) for number in numbers))


def _cpus(rep, times=None):
    """A line for each processor that some packet was sent to."""
    offered = Counter(packet.cpu for packet in rep.packets)
    offered.pop(None, None)
    largest = max(offered.values(), default=0)
    loads = [] if times is None else [waits.load_text(load) for load in times.loads]
    rows = [(row.cpu, offered[row.cpu], tables.share(offered[row.cpu], len(rep.packets)),
             row.dropped, *loads[row.cpu:row.cpu + 1], tables.bar(offered[row.cpu], largest))
            for row in rep.cpus if offered[row.cpu]]
    yield ""
    yield from tables.aligned(("cpu", "packets", "share", "dropped", *["load"] * bool(loads), ""),
                              rows)
    yield from _without("cpu", [row.cpu for row in rep.cpus if not offered[row.cpu]])


def _queues(rep):
    largest = max((row.arrived for row in rep.queues), default=0)
    rows = [(row.queue, row.arrived, tables.share(row.arrived, len(rep.packets)),
             tables.bar(row.arrived, largest)) for row in rep.queues if row.arrived]
    yield ""
    yield from tables.aligned(("queue", "packets", "share", ""), rows)
    yield from _without("queue", [row.queue for row in rep.queues if not row.arrived])
    filtered = sum(packet.via == "filter" for packet in rep.packets)
    if filtered:
        yield "by a filter of accelerated RFS: %d packets" % filtered


def _replies(rep):
    largest = max((row.accepted for row in rep.tx), default=0)
    if not largest:
        return
    rows = [(row.tx, row.accepted, tables.share(row.accepted, len(rep.replies)),
             tables.bar(row.accepted, largest)) for row in rep.tx if row.accepted]
    yield ""
    yield from tables.aligned(("tx", "replies", "share", ""), rows)
    yield from _without("tx", [row.tx for row in rep.tx if not row.accepted])
    yield "picked by the reader's processor and the receive hash; a kernel takes others unless " \
          "--tx drew its hash (docs/kernel.md)"


def _numbers(found):
    """A set of numbers in ascending order, with commas."""
    return ",".join(str(number) for number in sorted(found))


def _flows(rep, names):
    """The flows with the most packets; `names` has the flow of each packet of the capture."""
    count, dropped = Counter(), Counter()
    queues, cpus = {}, {}
    for packet in rep.packets:
        flow = names[packet.id]
        count[flow] += 1
        dropped[flow] += packet.place == "drop"
        queues.setdefault(flow, set()).add(packet.q)
        if packet.cpu is not None:
            cpus.setdefault(flow, set()).add(packet.cpu)
    shown = count.most_common(FLOWS_SHOWN)
    rows = [(packets, tables.share(packets, len(rep.packets)), dropped[flow],
             _numbers(queues[flow]), _numbers(cpus.get(flow, ())), flows.name(flow))
            for flow, packets in shown]
    yield ""
    yield from tables.aligned(("packets", "share", "dropped", "queues", "cpus", "flow"), rows)
    if len(count) > len(shown):
        yield "%d more flows with %d packets" % (
            len(count) - len(shown), len(rep.packets) - sum(packets for _, packets in shown))


def screen(rep: Report, names: list[str] | None = None, plan: Plan | None = None,
           plan_source: str = "PLAN", times: waits.Waits | None = None) -> Iterator[str]:
    """The lines of the screen; `names` are the flows of the packets, as flows.of_report has them.

    With the `plan` of the report, drops that a kernel does not have are marked. `times` are the
    Waits of the schedule, where it has times.
    """
    marks = [] if plan is None else list(_bypassed(rep, plan, plan_source))
    yield from headline(rep)
    if times is not None:
        yield waits.line_of(times)
    yield from _cpus(rep, times)
    yield from marks
    yield from _queues(rep)
    yield from _replies(rep)
    if names is not None:
        yield from _flows(rep, names)
