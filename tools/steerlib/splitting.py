"""A capture taken apart by the parts of a machine, and the reports of the parts read together."""

from __future__ import annotations

import json
import os
import re
from typing import Any, NamedTuple, Sequence

from . import aiming, cli, parts, remap, remap_check, remap_files, report
from . import plan as plans
from .processors import list_text

INDEX = "split.json"
_PACKET = re.compile(rb"p \d+ q (\d+) ")


class Named(NamedTuple):
    """A part as the index has it: its queues and processors, and the number of each packet."""

    queues: list[int]
    cpus: list[int]
    packets: list[int]


def path(folder: str, number: int, ending: str) -> str:
    """The file of a part in the folder."""
    return os.path.join(folder, "part-%d.%s" % (number, ending))


def queues_of(plan: plans.Plan, frames: Sequence[Any]) -> list[int]:
    """The receive queue of each frame, by the plan's key, kinds and table."""
    flows, _, flow_of = remap.flows_of(frames)
    aim = aiming.Aim(plan)
    queues = [aim.way_of(flow).queue for flow in flows]
    return [queues[flow] for flow in flow_of]


def _check(plan_name, capture, wanted, source):
    """Has steer replay a part, and refuses a packet that comes in on another queue of it."""
    found = _PACKET.findall(cli.run_steer(["replay", plan_name, capture]))
    if len(found) != len(wanted):
        raise cli.Refused(source, "steer replays %d packets of %d" % (len(found), len(wanted)))
    for packet, (here, there) in enumerate(zip(found, wanted)):
        if int(here) != there:
            raise cli.Refused(source, "packet %d of the part comes in on its queue %s, and not "
                              "on %d: the split is wrong" % (packet, here.decode(), there))


def split(plan: plans.Plan, source: str, capture: str, folder: str) -> list[Named]:
    """Writes the parts of a plan and of a capture into a folder, and the index of them.

    Messages name the plan `source`. steer replays each part, and its packets' queues are compared.
    """
    made = parts.parts_of(plan, source)
    frames = remap_files.frames_of(capture, cli.source_name(capture))
    queues = queues_of(plan, frames)
    os.makedirs(folder, exist_ok=True)
    for number in range(len(made)):
        for ending in ("json", "pcap"):
            remap_files.check_name(path(folder, number, ending), (source, capture))
    named = []
    for number, part in enumerate(made):
        places = {queue: place for place, queue in enumerate(part.queues)}
        packets = [packet for packet, queue in enumerate(queues) if queue in places]
        with open(path(folder, number, "json"), "w", encoding="ascii") as out:
            out.write(plans.plan_text(part.plan))
        remap_check.write_frames((frames[packet] for packet in packets),
                                 path(folder, number, "pcap"), source)
        _check(path(folder, number, "json"), path(folder, number, "pcap"),
               [places[queues[packet]] for packet in packets], source)
        named.append(Named(part.queues, part.cpus, packets))
    index = {"queues": len(plan["queues"]), "cpus": plan["cpus"],
             "parts": [part._asdict() for part in named]}
    with open(os.path.join(folder, INDEX), "w", encoding="ascii") as out:
        json.dump(index, out)
        out.write("\n")
    return named


def line_of(number: int, part: Named) -> str:
    """What is said of a part that was written."""
    return "part %d: queues %s, processors %s, %d packets" % (
        number, list_text(part.queues), list_text(part.cpus), len(part.packets))


def _below(numbers, size):
    return all(type(number) is int and 0 <= number < size for number in numbers)


def read_index(folder: str) -> tuple[int, int, list[Named]]:
    """The machine's queues and processors, and its parts. NotThatFile where they are not there."""
    name = os.path.join(folder, INDEX)
    try:
        index = json.loads(cli.read_text(name))
        made = [Named(**part) for part in index["parts"]]
        queues, cpus = int(index["queues"]), int(index["cpus"])
        packets = sorted(packet for part in made for packet in part.packets)
        whole = packets == list(range(len(packets))) and all(
            _below(part.queues, queues) and _below(part.cpus, cpus) for part in made)
    except (ValueError, TypeError, KeyError, RecursionError):
        raise cli.NotThatFile(name, "no index that steer-split writes") from None
    if not whole:
        raise cli.NotThatFile(name, "it names queues, processors or packets that it does not have")
    return queues, cpus, made


def _renamed(rep, part):
    """The rows of packets of a part's report, by the machine's names."""
    cpu = dict(enumerate(part.cpus))
    return [row._replace(id=part.packets[row.id], q=part.queues[row.q], cpu=cpu.get(row.cpu),
                         want=cpu.get(row.want)) for row in rep.packets]


def joined(folder: str, names: Sequence[str]) -> report.Report:
    """The reports of all parts as one by the machine's names, without replies.

    `names` are the files of the reports in the order of the parts, or none for FOLDER's own.
    """
    queues, cpus, made = read_index(folder)
    names = names or [path(folder, number, "report") for number in range(len(made))]
    if len(names) != len(made):
        raise cli.WrongWords("%d reports, and %s has %d parts" % (len(names), folder, len(made)))
    packets: list[report.Packet] = []
    of_queue = {number: report.Queue(number, 0, 0) for number in range(queues)}
    of_cpu = {number: report.Cpu(number, 0, 0, 0, 0, 0) for number in range(cpus)}
    arrived = total = 0
    for name, part in zip(names, made):
        rep = report.read_file(name)
        sizes = (len(rep.queues), len(rep.cpus), rep.end.total)
        if sizes != tuple(map(len, part)):
            raise cli.Refused(name, "it has %d queues, %d processors and %d packets, and the part "
                              "%d, %d and %d" % (sizes + tuple(map(len, part))))
        packets += _renamed(rep, part)
        of_queue.update((part.queues[row.queue], row._replace(queue=part.queues[row.queue]))
                        for row in rep.queues)
        of_cpu.update((part.cpus[row.cpu], row._replace(cpu=part.cpus[row.cpu]))
                      for row in rep.cpus)
        arrived, total = arrived + rep.end.arrived, total + rep.end.total
    packets.sort(key=lambda row: row.id)
    return report.Report(packets, [], list(of_queue.values()), list(of_cpu.values()), [], [], [],
                         [], report.End(arrived, total, None))
