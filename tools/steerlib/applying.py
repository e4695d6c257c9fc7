"""The commands of sh that set a plan on a device, or bring back what a snapshot has.

Each text that goes into a command is a number, a mask or a name that was read as such.
"""

from __future__ import annotations

import shlex
from typing import Iterator, NamedTuple

from . import cautions, cli, ethtool, limits, processors, settings
from .findings import Findings
from .plan import DEFAULTS, Plan, table_of
from .snapshot import Snapshot

SYSFS, ETHTOOL, SYSCTL = "sysfs", "ethtool", "sysctl"
WAYS = (SYSFS, ETHTOOL, SYSCTL)
MASKS = {"rx": ("rps_cpus",), "tx": ("xps_cpus", "xps_rxqs")}
SYSCTLS = ("rps_sock_flow_entries", "netdev_max_backlog", "flow_limit_cpu_bitmap")
LETTERS = {"IP SA": "s", "IP DA": "d", "L4 bytes 0 & 1 [TCP/UDP src port]": "f",
           "L4 bytes 2 & 3 [TCP/UDP dst port]": "n"}


class Command(NamedTuple):
    """A command, and by which of WAYS it sets something."""

    way: str
    text: str


def _write(side, queue, name, text):
    return Command(SYSFS, "echo %s > %s-%d/%s" % (text, side, queue, name))


def _sysctl(name, text):
    return Command(SYSCTL, "sysctl -w net.core.%s=%s" % (name, text))


def _ethtool(option, device, *words):
    return Command(ETHTOOL, " ".join(["ethtool", option, shlex.quote(device), *words]))


def table_words(table: list[int]) -> list[str] | None:
    """The words of `ethtool -X` that make a table of this size, or None where none do."""
    first, count = min(table), max(table) - min(table) + 1
    if table == [first + entry % count for entry in range(len(table))]:
        return (["start", str(first)] if first else []) + ["equal", str(count)]
    weights = [table.count(queue) for queue in range(max(table) + 1)]
    if table == settings.weighted(weights, len(table)):
        return ["weight"] + [str(weight) for weight in weights]
    return None


def _table(device, table, findings):
    words = table_words(table)
    if words is None:
        findings.note("the redirection table is left as it is: no words of ethtool -X make it, "
                      "which are equal and weight")
        return
    yield _ethtool("-X", device, *words)


def _pairs(key):
    return ":".join(key[at:at + 2] for at in range(0, len(key), 2))


def bitmap_of(plan: Plan) -> list[int] | None:
    """The processors that put with the flow limit so that those in `limited` are put to with it.

    None where no flow_limit_cpu_bitmap says it.
    """
    wanted = sorted(set(plan.get("limited", DEFAULTS["limited"])))
    homes, put_to = [queue["home"] for queue in plan["queues"]], cautions.targets(plan)
    bitmap = sorted({home for home, cpus in zip(homes, put_to)
                     if cpus and set(cpus) <= set(wanted)})
    if not wanted:
        return []
    return bitmap if cautions.limited_by(bitmap, homes, put_to)[0] == wanted else None


def _set_queues(plan, findings):
    cpus = plan["cpus"]
    for number, queue in enumerate(plan["queues"]):
        yield _write("rx", number, "rps_cpus", processors.mask_text(queue["mask"], cpus))
        yield _write("rx", number, "rps_flow_cnt", queue["flows"])
    if len(plan["tx"]) == 1:
        if plan["tx"][0]["cpus"] or plan["tx"][0]["queues"]:
            findings.note("tx 0: a device with one transmit queue has no xps_cpus and xps_rxqs")
        return
    for number, queue in enumerate(plan["tx"]):
        yield _write("tx", number, "xps_cpus", processors.mask_text(queue["cpus"], cpus))
        yield _write("tx", number, "xps_rxqs",
                     processors.mask_text(queue["queues"], len(plan["queues"])))


def _set_card(plan, device, findings):
    if "key" in plan:
        yield _ethtool("-X", device, "hkey", _pairs(plan["key"]))
        findings.note("hkey: %d bytes; a card with a longer key wants as many as it has, and its "
                      "further bytes do not matter" % (limits.KEY_DIGITS // 2))
    if "key" in plan or "reta" in plan:
        yield from _table(device, table_of(plan), findings)
    else:
        findings.note("the plan has neither key nor table: the card's are left as they are")
    if "kinds" in plan:
        for kind, bit in ethtool.KINDS.items():
            fields = "sdfn" if plan["kinds"] & 1 << bit else "sd"
            yield _ethtool("-N", device, "rx-flow-hash", kind, fields)


def _set_machine(plan, findings):
    yield _sysctl("rps_sock_flow_entries", plan["sock"])
    backlog = plan.get("backlog", DEFAULTS["backlog"])
    yield _sysctl("netdev_max_backlog", backlog - 1)
    findings.note("netdev_max_backlog %d: a kernel lets one packet more wait than it says"
                  % (backlog - 1))
    bitmap = bitmap_of(plan)
    if bitmap is None:
        findings.note("flow_limit_cpu_bitmap is left as it is: it names processors that put, and "
                      "none of its values limits just %s"
                      % processors.list_text(plan["limited"]))
    else:
        yield _sysctl("flow_limit_cpu_bitmap", processors.mask_text(bitmap, plan["cpus"]))


def of_plan(plan: Plan, device: str, findings: Findings) -> Iterator[Command]:
    """The commands that set a plan; processors are those of the machine by the same numbers."""
    yield from _set_queues(plan, findings)
    yield from _set_card(plan, device, findings)
    yield from _set_machine(plan, findings)
    homes = " ".join("%d=%d" % (number, queue["home"])
                     for number, queue in enumerate(plan["queues"]))
    findings.note("not set: the interrupts of the queues (homes %s), n-tuple rules, and where "
                  "readers run" % homes)


def _mask_of(snapshot, what, text):
    """The text of a mask; Refused where it is none."""
    try:
        processors.parse_mask(text)
    except ValueError as fault:
        raise snapshot.refused("%s: %s" % (what, fault)) from None
    return text


def _number_of(snapshot, what, text):
    if not (text.isascii() and text.isdigit() and len(text) < 20):
        raise snapshot.refused("%s: `%s` is no number" % (what, text))
    return text


def _undo_queues(snapshot, findings):
    for side, names in (("rx", ("rps_cpus", "rps_flow_cnt")), ("tx", MASKS["tx"])):
        for name in names:
            unread = []
            for queue in sorted(snapshot.queues[side]):
                text = snapshot.queue_fact(side, queue, name)
                if text is None:
                    unread.append(queue)
                    continue
                of = _mask_of if name in MASKS[side] else _number_of
                yield _write(side, queue, name, of(snapshot, "%s %d" % (side, queue), text))
            if unread:
                findings.note("%s %s: %s is not in the snapshot, and is left as it is"
                              % (side, processors.list_text(unread), name))


def _undo_card(snapshot, device, findings):
    try:
        said = ethtool.hashing(snapshot.ethtool("-x {}"))
    except ethtool.Unreadable as fault:
        raise snapshot.refused(str(fault)) from None
    if said.key is not None:
        yield _ethtool("-X", device, "hkey", _pairs(said.key))
    if said.table is not None:
        yield from _table(device, said.table, findings)
    for kind in ethtool.KINDS:
        try:
            fields = ethtool.hash_fields(snapshot.ethtool("-n {} rx-flow-hash " + kind))
        except ethtool.Unreadable:
            fields = {"discarded"}
        if not fields:
            continue
        if fields <= set(LETTERS):
            letters = "".join(letter for field, letter in LETTERS.items() if field in fields)
            yield _ethtool("-N", device, "rx-flow-hash", kind, letters)
        else:
            findings.note("%s: its hash fields are left as they are, since `%s` is among them"
                          % (kind, sorted(fields - set(LETTERS))[0]))


def _undo_machine(snapshot, findings):
    for name in SYSCTLS:
        text = snapshot.fact("sysctl", name)
        if text is None:
            findings.note("%s is not in the snapshot, and is left as it is" % name)
        else:
            of = _mask_of if name == "flow_limit_cpu_bitmap" else _number_of
            yield _sysctl(name, of(snapshot, name, text))


def of_snapshot(snapshot: Snapshot, device: str, findings: Findings) -> Iterator[Command]:
    """The commands that bring back on a device what a snapshot has."""
    yield from _undo_queues(snapshot, findings)
    yield from _undo_card(snapshot, device, findings)
    yield from _undo_machine(snapshot, findings)


def script(commands: list[Command], device: str, title: str) -> Iterator[str]:
    """The lines of a script for sh, which ends at the first command that fails."""
    yield "# %s. To be run by sh as root; steer-apply wrote nothing." % (
        cli.printable(title).replace("\n", " "))
    yield "set -e"
    if any(command.way == SYSFS for command in commands):
        yield "cd %s" % shlex.quote("/sys/class/net/%s/queues" % device)
    for command in commands:
        yield command.text
