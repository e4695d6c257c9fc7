"""Reading what steer-snap wrote: a snapshot of one machine and one network device."""

from __future__ import annotations

import re

from . import cli
from . import processors

FIRST_LINE = "steer-snap 1"
_IRQ = re.compile(r"irq ([0-9]{1,9}) (\S+) (\S+) (.*)")
_QUEUE = re.compile(r"(rx|tx) ([0-9]{1,6}) (rps_cpus|rps_flow_cnt|xps_cpus|xps_rxqs)(?: (.*))?")
_FACT = re.compile(r"(cpus|sysctl) ([a-z_]+)(?: (.*))?")
_SOFTNET = re.compile(r"softnet ([0-9]{1,6}) ([0-9a-f]{1,16}(?: [0-9a-f]{1,16})*|!.*)")
_LINE = re.compile(r"(dev|kernel|taken)(?: (.*))?")
_PROCESS = re.compile(r"process ([0-9]{1,9}) ([0-9]{1,6}) (\S+)(?: (.*))?")


class Interrupt:
    """An interrupt: its number, its `effective` and `wanted` lists (None: unread), its name."""

    def __init__(self, number: int, effective: list[int] | None, wanted: list[int] | None,
                 name: str) -> None:
        self.number = number
        self.effective = effective
        self.wanted = wanted
        self.name = name


class Snapshot:
    """The facts of a snapshot, as text; a fact that could not be read begins with `!`.

    `queues["rx"][n]` and `queues["tx"][n]` are dicts by the names of sysfs, `facts` is by
    (`cpus` or `sysctl`, name), `answers` has the lines that ethtool gave for its words. `softnet`
    has the columns of each line of softnet_stat; earlier snapshots have none. `sockets`
    has the lines of ss, None where it was not asked, and `processes` the processor of each process
    that they name: the one on which it may run, else that on which it ran last.
    """

    def __init__(self, source: str) -> None:
        self.source = source
        self.device = ""
        self.kernel = ""
        self.taken = ""
        self.facts: dict[tuple[str, str], str] = {}
        self.queues: dict[str, dict[int, dict[str, str]]] = {"rx": {}, "tx": {}}
        self.interrupts: list[Interrupt] = []
        self.answers: dict[str, list[str]] = {}
        self.sockets: list[str] | None = None
        self.processes: dict[int, int] = {}
        self.softnet: list[list[int]] = []

    def refused(self, reason: str) -> cli.Refused:
        return cli.Refused(self.source, reason)

    def fact(self, of: str, name: str) -> str | None:
        """The text of a fact, or None where it is not there or was not read."""
        return read(self.facts.get((of, name)))

    def queue_fact(self, side: str, number: int, name: str) -> str | None:
        """The text of a queue's file, or None where it is not there or was not read."""
        return read(self.queues[side][number].get(name))

    def ethtool(self, words: str) -> list[str]:
        """The lines of `ethtool WORDS`, where {} in the words is the device."""
        return self.answers.get(words.replace("{}", self.device), [])

    def cpus(self, name: str) -> list[int]:
        """A list of processors of the machine; Refused where it is none."""
        text = self.fact("cpus", name)
        try:
            return processors.parse_list(text or "")
        except ValueError as fault:
            raise self.refused("cpus %s: %s" % (name, fault)) from None


def read(text: str | None) -> str | None:
    """A fact's text, or None where it is not there or was not read."""
    return None if text is None or text.startswith("!") else text


def _affinity(snapshot, number, text):
    if text == "!":
        return None
    try:
        return processors.parse_list(text) or None
    except ValueError as fault:
        raise snapshot.refused("irq %s: %s" % (number, fault)) from None


def _read_line(snapshot, line, at):
    found = _QUEUE.fullmatch(line)
    if found:
        queue = snapshot.queues[found.group(1)].setdefault(int(found.group(2)), {})
        queue[found.group(3)] = found.group(4) or ""
        return
    found = _IRQ.fullmatch(line)
    if found:
        number, effective, wanted, name = found.groups()
        snapshot.interrupts.append(Interrupt(
            int(number), _affinity(snapshot, number, effective),
            _affinity(snapshot, number, wanted), name))
        return
    found = _SOFTNET.fullmatch(line)
    if found:
        if read(found.group(2)) is not None:
            snapshot.softnet.append([int(column, 16) for column in found.group(2).split()])
        return
    found = _PROCESS.fullmatch(line)
    if found:
        number, last, allowed, _ = found.groups()
        only = _affinity(snapshot, number, allowed)
        snapshot.processes[int(number)] = only[0] if only and not only[1:] else int(last)
        return
    found = _FACT.fullmatch(line)
    if found:
        snapshot.facts[found.group(1), found.group(2)] = found.group(3) or ""
        return
    found = _LINE.fullmatch(line)
    if not found:
        raise snapshot.refused("line %d is nothing that steer-snap writes: `%s`"
                               % (at, line[:60]))
    name = "device" if found.group(1) == "dev" else found.group(1)
    setattr(snapshot, name, found.group(2) or "")


def _check_whole(snapshot):
    for side in ("rx", "tx"):
        numbers = sorted(snapshot.queues[side])
        if not numbers:
            raise snapshot.refused("no %s queue in it" % side)
        if numbers != list(range(len(numbers))):
            missing = min(set(range(len(numbers))) - set(numbers))
            raise snapshot.refused("%s queue %d is missing among %d" % (
                side, missing, len(numbers)))
    if not snapshot.device:
        raise snapshot.refused("no line `dev`")


def parse(text: str, source: str) -> Snapshot:
    """The Snapshot of this text. NotThatFile for another kind of file, Refused for a part."""
    lines = text.split("\n")
    if lines[0].rstrip("\r") != FIRST_LINE:
        raise cli.NotThatFile(source, "no snapshot: line 1 is not `%s`, but `%s`" % (
            FIRST_LINE, lines[0][:40]))
    snapshot, answer, ended = Snapshot(source), None, False
    for at, line in enumerate(lines[1:], 2):
        line = line.rstrip("\r")
        if ended and line:
            raise snapshot.refused("line %d stands behind `end`: `%s`" % (at, line[:60]))
        if line == "end":
            ended = True
        elif line.startswith("|") and answer is not None:
            answer.append(line[2:])
        elif line.startswith("cmd ethtool "):
            answer = snapshot.answers.setdefault(line[len("cmd ethtool "):], [])
        elif line.startswith("cmd ss "):
            answer = snapshot.sockets = []
        elif line:
            _read_line(snapshot, line, at)
    if not ended:
        raise snapshot.refused("cut short after line %d (no line `end`)" % (
            len(lines) - (lines[-1] == "")))
    _check_whole(snapshot)
    return snapshot


def read_snapshot(name: str) -> Snapshot:
    """The Snapshot in the file `name`."""
    return parse(cli.read_text(name), cli.source_name(name))
