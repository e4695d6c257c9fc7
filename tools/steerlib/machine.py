"""The plan of a machine, from a snapshot of it: what is told, what is guessed, what is refused."""

from __future__ import annotations

import math

from typing import Sequence

from . import card
from . import cautions
from . import homes
from . import limits
from . import processors
from .findings import CHANGES, GUESSED, Findings, listed
from .plan import Plan
from .snapshot import Snapshot


class Machine:
    """The settings of a snapshot in the machine's own numbers of processors.

    `most` is what a plan may have of processors, queues and readers.
    """

    def __init__(self, snapshot: Snapshot, findings: Findings,
                 most: limits.Most = limits.PLAN) -> None:
        self.most = most
        self.snapshot = snapshot
        self.findings = findings
        self.online = snapshot.cpus("online")
        if not self.online:
            raise snapshot.refused("no processor is online in it")
        self.receive = sorted(snapshot.queues["rx"])
        self.transmit = sorted(snapshot.queues["tx"])
        self._queues()
        self._sysctls()
        self._maps()

    def _number(self, what, text):
        if not (text.isascii() and text.isdigit() and len(text) < 20):
            raise self.snapshot.refused("%s: `%s` is no number" % (what, text))
        return int(text)

    def _mask(self, what, text):
        try:
            return processors.parse_mask(text)
        except ValueError as fault:
            raise self.snapshot.refused("%s: %s" % (what, fault)) from None

    def _queue(self, side, number, name):
        """A queue's text; where it could not be read that is remembered, and `0` taken."""
        text = self.snapshot.queue_fact(side, number, name)
        if text is None:
            self.unread.setdefault(name, []).append(number)
        return text or "0"

    def _queues(self) -> None:
        if len(self.receive) > self.most.queues:
            self.findings.refuse("%d receive queues, and a plan has at most %d"
                                 % (len(self.receive), self.most.queues))
        self.masks, self.flows = [], []
        self.unread: dict[str, list[int]] = {}
        offline: dict[tuple[int, ...], list[int]] = {}
        for number in self.receive:
            what = "rx %d" % number
            self.masks.append(self._mask(what, self._queue("rx", number, "rps_cpus")))
            self.flows.append(self._number(what, self._queue("rx", number, "rps_flow_cnt")))
            gone = tuple(sorted(set(self.masks[-1]) - set(self.online)))
            if gone:
                offline.setdefault(gone, []).append(number)
            if self.flows[-1] > limits.MOST_FLOWS:
                self.findings.refuse("%s: rps_flow_cnt %d, and a plan has at most %d"
                                     % (what, self.flows[-1], limits.MOST_FLOWS))
        for name, numbers in self.unread.items():
            self.findings.note("rx %s: %s is not in the snapshot; taken as 0"
                               % (processors.list_text(numbers), name), GUESSED)
        for gone, numbers in offline.items():
            self.findings.note(
                "rx %s: processors %s of the mask are offline; here they count as online, but "
                "for a step such as `offline %d`"
                % (processors.list_text(numbers), processors.list_text(gone), gone[0]), CHANGES)

    def _sysctl(self, name, default):
        text = self.snapshot.fact("sysctl", name)
        if text is None:
            self.missing.append((name, default))
        return text or default

    def _say_missing(self):
        if self.missing:
            self.findings.note(
                "%s %s not in the snapshot (another network namespace than the first has none); "
                "taken as %s" % (listed([name for name, _ in self.missing]),
                                 "are" if self.missing[1:] else "is",
                                 listed([default for _, default in self.missing])), GUESSED)

    def _sysctls(self) -> None:
        self.missing: list[tuple[str, str]] = []
        name = "rps_sock_flow_entries"
        self.sock = self._number(name, self._sysctl(name, "0"))
        if self.sock > limits.MOST_SOCKET_ENTRIES:
            self.findings.refuse("%s %d, and a plan has at most %d"
                                 % (name, self.sock, limits.MOST_SOCKET_ENTRIES))
        name = "netdev_max_backlog"
        self.backlog = self._number(name, self._sysctl(name, "1000"))
        if self.backlog >= limits.MOST_BACKLOG:
            self.findings.refuse("%s %d, and a plan has room for 0 to %d"
                                 % (name, self.backlog, limits.MOST_BACKLOG - 1))
        name = "flow_limit_cpu_bitmap"
        self.limited = self._mask(name, self._sysctl(name, "0"))
        self._say_missing()
        if self.sock == 0 and any(self.flows):
            self.findings.note("rps_flow_cnt is set and rps_sock_flow_entries is 0: no RFS",
                               CHANGES)

    def _maps(self) -> None:
        if len(self.transmit) > self.most.transmit_queues:
            self.findings.refuse("%d transmit queues, and a plan has at most %d"
                                 % (len(self.transmit), self.most.transmit_queues))
        self.by_processor: list[list[int]] = []
        self.by_queue: list[list[int]] = []
        absent: dict[tuple[int, ...], list[int]] = {}
        for number in self.transmit:
            fact = self.snapshot.queue_fact
            for name, maps in (("xps_cpus", self.by_processor), ("xps_rxqs", self.by_queue)):
                maps.append(self._mask("tx %d" % number, fact("tx", number, name) or "0"))
            beyond = [queue for queue in self.by_queue[-1] if queue >= len(self.receive)]
            if beyond:
                absent.setdefault(tuple(beyond), []).append(number)
                self.by_queue[-1] = [queue for queue in self.by_queue[-1] if queue not in beyond]
        for queues, numbers in absent.items():
            self.findings.note("tx %s: receive queues %s of xps_rxqs are not there and are left "
                               "out" % (processors.list_text(numbers),
                                        processors.list_text(queues)))

    def homes(self, said: dict[int, int]) -> list[int]:
        """The home processor of each queue; `said` has those that the user named."""
        told = homes.of_queues(self.snapshot.interrupts, self.snapshot.device,
                               len(self.receive))
        chosen: list[int] = []
        guessed: dict[str, list[int]] = {}
        for queue in self.receive:
            found = homes.processor(told[queue]) if queue in told else None
            if queue in said:
                chosen.append(said[queue])
            elif found is None:
                chosen.append(self.online[queue % len(self.online)])
                guessed.setdefault("no interrupt found", []).append(queue)
            else:
                chosen.append(found[0])
                if not found[1]:
                    guessed.setdefault("the interrupt may come in on several processors",
                                       []).append(queue)
        for why, queues in guessed.items():
            self._say_homes(why, queues, [chosen[queue] for queue in queues])
        return chosen

    def _say_homes(self, why: str, queues: Sequence[int], cpus: Sequence[int]) -> None:
        """Notes homes that were guessed, for one reason."""
        if queues[1:]:
            taken, form = "homes taken as processors", "Q=CPU,.."
        else:
            taken, form = "home taken as processor", "%d=CPU" % queues[0]
        self.findings.note("rx %s: %s; %s %s (say --home %s)" % (
            processors.list_text(queues), why, taken, ",".join(map(str, cpus)), form), GUESSED)

    def readers(self, said: list[int] | None, core: list[int]) -> list[int]:
        """The processor of each reader; `core` are the processors of masks and homes."""
        if said is not None:
            return said
        if len(self.online) <= self.most.readers:
            self.findings.note("readers taken to be one on each online processor (say --apps "
                               "LIST)", GUESSED)
            return self.online
        self.findings.note("readers taken to be one on each processor of the masks and homes "
                           "(say --apps LIST)", GUESSED)
        return core[:self.most.readers]

    def numbering(self, core: list[int], apps: list[int]) -> dict[int, int]:
        """The number in the plan of each processor that is used there."""
        used = set(core) | set(apps)
        mapped = set(cpu for cpus in self.by_processor for cpu in cpus)
        highest = max(used | mapped | set(self.online))
        if highest < self.most.processors:
            used = set(range(highest + 1))
        self._left_out(mapped - used, "xps_cpus have no reader")
        if len(used) > self.most.processors:
            self.findings.refuse("%d processors in masks, homes and readers, and a plan has at "
                                 "most %d" % (len(used), self.most.processors))
        numbers = {cpu: number for number, cpu in enumerate(sorted(used))}
        if any(cpu != number for cpu, number in numbers.items()):
            self.findings.note("processors renumbered: " + " ".join(
                "%d=%d" % (number, cpu) for cpu, number in numbers.items()))
        return numbers

    def _left_out(self, cpus, why):
        if cpus:
            self.findings.note("%d processors of %s and are left out" % (len(cpus), why))


def reached(table: list[int], queue: int, size: int) -> int:
    """How many of `size` members of a mask the hashes of a queue pick by their remainder."""
    step = math.gcd(card.SIZE, size)
    return len({entry % step for entry, of in enumerate(table) if of == queue}) * (size // step)


def warn_of_shared_bits(table: list[int], masks: list[list[int]], findings: Findings) -> None:
    """Notes where the table and the masks read the same bits of the hash."""
    met: dict[tuple[int, int], list[int]] = {}
    for queue, mask in enumerate(masks):
        if len(mask) > 1:
            members = reached(table, queue, len(mask))
            if 0 < members < len(mask):
                met.setdefault((len(mask), members), []).append(queue)
    for (size, members), queues in sorted(met.items()):
        having = [queue for queue, mask in enumerate(masks) if len(mask) == size]
        which = ("a queue reaches" if queues == having else
                 "each of rx %s reaches" % processors.list_text(queues))
        findings.note(
            "%d queues over a mask of %d: %s %d of them by the manual's modulo, and %d in a "
            "kernel (docs/kernel.md)" % (len(masks), size, which, members, size), CHANGES)


def has_no_napi(snapshot: Snapshot) -> bool:
    """Whether the device is one that puts every packet into a backlog: lo, or veth."""
    return snapshot.device == "lo" or "driver: veth" in snapshot.ethtool("-i {}")


def _limited(machine, chosen, plan, numbers, findings):
    """The key `limited`, in the numbers of the plan, by the bitmap of the machine."""
    cpus = {number: cpu for cpu, number in numbers.items()}
    put_to = [[cpus[number] for number in some] for some in cautions.targets(plan)]
    limited, text = cautions.limited_by(machine.limited, chosen, put_to)
    findings.note(text, CHANGES)
    return [numbers[cpu] for cpu in limited]


def _warn(snapshot, plan, findings):
    """Notes where the answer by a plan is another than a kernel's."""
    for text in (cautions.of_readers(plan), cautions.of_kinds(plan),
                 None if has_no_napi(snapshot) else cautions.of_backlog(plan)):
        if text is not None:
            findings.note(text, CHANGES)


def plan_of(snapshot: Snapshot, apps: list[int] | None = None, home: dict[int, int] | None = None,
            nearest: bool = False, most: limits.Most = limits.PLAN) -> tuple[Plan, Findings]:
    """The plan of a snapshot, and the Findings; where these refuse, the plan is none.

    `apps` is a list of processors, `home` a dict from receive queues to processors. With limits
    `most` that are wider than a plan's it is one for steer-split.
    """
    findings = Findings()
    machine = Machine(snapshot, findings, most)
    chosen = machine.homes(home or {})
    core = sorted(set(chosen) | set(cpu for mask in machine.masks for cpu in mask))
    apps = machine.readers(apps, core)
    numbers = machine.numbering(core, apps)
    told, table = card.settings(snapshot, len(machine.receive), nearest, findings)
    if not findings.refusals or len(table) == card.SIZE:
        warn_of_shared_bits(table, machine.masks, findings)

    def renumbered(cpus):
        return [numbers[cpu] for cpu in cpus if cpu in numbers]

    plan: Plan = {"cpus": len(numbers), "queues": [
        {"home": numbers[cpu], "mask": renumbered(mask), "flows": flows}
        for cpu, mask, flows in zip(chosen, machine.masks, machine.flows)]}
    plan.update(told)
    plan.update(sock=machine.sock, backlog=machine.backlog + 1, limited=[],
                apps=renumbered(apps))
    findings.note(cautions.of_one_more(plan))
    if machine.limited:
        plan["limited"] = _limited(machine, chosen, plan, numbers, findings)
    if not plan["limited"]:
        del plan["limited"]
    plan["tx"] = [{"cpus": renumbered(cpus), "queues": queues}
                  for cpus, queues in zip(machine.by_processor, machine.by_queue)]
    plan["steps"] = ["sweep"]
    if not findings.refusals:
        _warn(snapshot, plan, findings)
    findings.note("the steps are one `sweep`, which drops nothing: steer-steps and steer-try "
                  "make schedules")
    return plan, findings
