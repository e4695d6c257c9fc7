"""A remap held to the kernel's rule: steer replays it, and each packet is compared."""

from __future__ import annotations

import json
import os
import re
import tempfile
from typing import Iterable

from . import capture, cli, remap

_PACKET = re.compile(rb"p \d+ q (\d+) via \S+ class \S+ want \S+ head \S+ tail \S+ cpu (\d+) "
                     rb"why \S+ at \S+ app (\d+) in ")
_REPLY = re.compile(rb"r (\d+) app \d+ rxq \d+ cpu \d+ pick (\d+) ")
MOST_BACKLOG = 65536


def write_frames(frames: Iterable[capture.Frame], name: str, source: str) -> None:
    """Writes frames as a pcap file of this name."""
    with open(name, "wb") as stream:
        writer = capture.PcapWriter(stream, source)
        writer.begin()
        for frame in frames:
            if not writer.has_room(frame):
                raise cli.Refused(source, "as pcap it has more than %d bytes; steer-cap takes a "
                                  "part" % capture.MOST_FILE)
            writer.write(frame)


def _plain(plan, masks, table):
    """The plan without RFS, limits and steps but one, so that each choice is the first one."""
    queues = [dict(queue, flows=0, mask=mask) for queue, mask in zip(plan["queues"], masks)]
    made = dict(plan, queues=queues, sock=0, filters=0, backlog=MOST_BACKLOG, limited=[],
                detach=[{"tap": tap, "after": 0} for tap in range(3)], steps=["sweep"])
    if table is not None:
        made["reta"] = table
    return made


def _stages(result):
    """What is compared: the number of the mask of each queue, and a queue that all flows take.

    The first is the plan as it begins. Where masks are set by steps there is a stage for each;
    where flows may come in by any queue, there is one for each queue.
    """
    lists = result.shape.lists
    for number in range(max(len(of) for of in lists)):
        yield [of[number] if number < len(of) else of[0] for of in lists], None
    if result.shape.roams:
        for queue in range(len(lists)):
            yield [of[0] for of in lists], queue


def _expected(result, lists, queue):
    """For each flow the queue, processor, reader and transmit queue by the kernel's rule."""
    homes = [one["home"] for one in result.shape.queues]
    wanted = []
    for flow in result.flows:
        of = flow.queue if queue is None or flow.value is None else queue
        wanted.append((of, remap.picked(flow, lists[of], homes[of]), flow.app,
                       flow.tx if queue is None else None))
    return wanted


def _refuse(source, packet, what, here, there):
    raise cli.Refused(source, "packet %d has %s %d in the replay of the new plan, and a kernel's "
                      "rule gives %d: the remap is wrong" % (packet, what, here, there))


def _compare(report, wanted, flow_of, source):
    """Refuses the first packet of a report that is elsewhere."""
    found = _PACKET.findall(report)
    if len(found) != len(flow_of):
        raise cli.Refused(source, "the replay of the new plan has %d packets of %d"
                          % (len(found), len(flow_of)))
    texts = [tuple(b"%d" % value for value in want[:3]) for want in wanted]
    for packet, (fields, flow) in enumerate(zip(found, flow_of)):
        if fields != texts[flow]:
            for what, here, there in zip(("queue", "processor", "reader"), fields, wanted[flow]):
                if int(here) != there:
                    _refuse(source, packet, what, int(here), there)
    if any(want[3] is not None for want in wanted):
        for packet, pick in _REPLY.findall(report):
            there = wanted[flow_of[int(packet)]][3]
            if there is not None and int(pick) != there:
                _refuse(source, int(packet), "transmit queue", int(pick), there)


def check_files(result: remap.Remapped, capture_name: str, folder: str, source: str) -> None:
    """Has steer replay the new plan over the new capture in a file, and compares each packet.

    Raises cli.Refused with the number of the first packet whose queue, processor, reader or
    transmit queue is not that of the kernel's rule. `folder` is one that may be written into.
    """
    name = os.path.join(folder, "check.json")
    for lists, queue in _stages(result):
        masks = [result.spares.padded[members] for members in lists]
        table = None if queue is None else [queue] * 128
        with open(name, "w", encoding="ascii") as out:
            json.dump(_plain(result.plan, masks, table), out)
        report = cli.run_steer(["replay", name, capture_name])
        _compare(report, _expected(result, lists, queue), result.flow_of, source)


def check(result: remap.Remapped, source: str = "remap") -> None:
    """As check_files, of a result that is not in a file yet."""
    with tempfile.TemporaryDirectory() as folder:
        name = os.path.join(folder, "check.pcap")
        write_frames(result.frames, name, source)
        check_files(result, name, folder, source)
