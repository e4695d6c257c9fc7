"""Processors that go offline: what moves to another one, the steps that say so, and what to note.

A kernel moves the interrupts and the processes of such a processor, and leaves the masks as they
were written: a packet whose choice it is goes to the processor of the interrupt. A plan says the
same by the command `offline`, which it takes only where no queue has its home and no application
runs, and once nothing waits there.
"""

from __future__ import annotations

import argparse
import re
from typing import TYPE_CHECKING, NamedTuple

from . import cli, processors
from .plan import Plan
from .serving import Leave

if TYPE_CHECKING:
    from .remap import Reader

NANOSECONDS = 1e9
HELP = ("the processors of LIST are offline from the beginning, or from S seconds on after the "
        "first packet, by the clock of the schedule")


class Offline(NamedTuple):
    """Processors that go offline, and how that was said.

    `time` is when, in nanoseconds from the first arrival; 0 is from the beginning on.
    """

    text: str
    cpus: list[int]
    time: float


def told(text: str) -> Offline:
    """The type of LIST and LIST@S."""
    what, at, seconds = text.partition("@")
    if at and not re.fullmatch(r"[0-9]{1,9}(\.[0-9]{1,9})?", seconds):
        raise argparse.ArgumentTypeError("%s is not LIST or LIST@S, processors such as 3 or 2,4-5 "
                                         "and seconds such as 0.5" % text)
    try:
        cpus = processors.parse_list(what)
    except ValueError as fault:
        raise argparse.ArgumentTypeError("%s: %s" % (text, fault)) from None
    if not cpus:
        raise argparse.ArgumentTypeError("%s names no processor" % text)
    return Offline(text, cpus, float(seconds) * NANOSECONDS if at else 0)


def add_option(parser: argparse.ArgumentParser) -> None:
    """Adds the word that says which processors go offline."""
    parser.add_argument("--offline", metavar="LIST[@S]", type=told, help=HELP)


def name(offline: Offline) -> str:
    """How tables name it."""
    said = "cpu %s offline" % processors.list_text(offline.cpus)
    return said + (" from %s s on" % offline.text.partition("@")[2] if offline.time else "")


def heir(settings: Plan, offline: Offline) -> int:
    """The processor that gets what was there: the first one that stays.

    WrongWords where the plan has not these processors, or none stays.
    """
    cpus = settings["cpus"]
    if max(offline.cpus) >= cpus:
        raise cli.WrongWords("--offline %s: the plan has the processors 0 to %d"
                             % (offline.text, cpus - 1))
    staying = [cpu for cpu in range(cpus) if cpu not in offline.cpus]
    if not staying:
        raise cli.WrongWords("--offline %s: no processor stays online" % offline.text)
    return staying[0]


def moved(settings: Plan, offline: Offline) -> Plan:
    """The plan with the homes elsewhere, and the readers too where it begins so."""
    target = heir(settings, offline)
    queues = [dict(queue, home=target) if queue["home"] in offline.cpus else queue
              for queue in settings["queues"]]
    apps = [target if not offline.time and cpu in offline.cpus else cpu for cpu in settings["apps"]]
    return dict(settings, queues=queues, apps=apps)


def leave_of(settings: Plan, offline: Offline) -> Leave:
    """What a schedule of a plan has to say of it; `settings` are those that `moved` gives."""
    target = heir(settings, offline)
    stands = ["stand %d %d" % (app, target) for app, cpu in enumerate(settings["apps"])
              if cpu in offline.cpus]
    return Leave(offline.time, stands, offline.cpus)


class Moved:
    """A reader that is not on a processor that is offline, but on the one that stands in for it."""

    def __init__(self, reader: Reader, cpus: list[int], target: int) -> None:
        self.reader = reader
        self.cpus = cpus
        self.target = target

    def cpu_of(self, kind: str, data: bytes) -> int | None:
        """The processor of a flow, or None."""
        cpu = self.reader.cpu_of(kind, data)
        return self.target if cpu in self.cpus else cpu


def notes(settings: Plan, offline: Offline) -> list[str]:
    """What a plan's form shows otherwise than a kernel; `settings` are those before `moved`.

    There is none where the plan has not these processors, which its schedule then refuses.
    """
    try:
        target, cpus = heir(settings, offline), set(offline.cpus)
    except cli.WrongWords:
        return []
    said = name(offline) + ": "
    homes = [number for number, queue in enumerate(settings["queues"]) if queue["home"] in cpus]
    readers = [number for number, cpu in enumerate(settings["apps"]) if cpu in cpus]
    found = []
    if homes:
        found.append("%sthe interrupt of rx %s is on cpu %d%s; a kernel takes any that it may have "
                     "(rx-N/home=C)" % (said, processors.list_text(homes), target, ", from the "
                                        "beginning, since the homes of a plan do not change"
                                        if offline.time else ""))
    if readers:
        found.append("%sreaders %s run on cpu %d; a scheduler takes any that they may have "
                     "(apps=LIST)" % (said, processors.list_text(readers), target))
    if any(cpus & set(queue["mask"]) for queue in settings["queues"]):
        found.append("%sa packet whose choice it is goes to the processor of the interrupt, as in "
                     "a kernel until the masks are written again; there a kernel handles it at "
                     "once, without a backlog" % said)
    if offline.time:
        found.append("%swhat waits there then is handled at once, and a kernel puts it on another "
                     "processor" % said)
    return found
