"""Where a flow that is typed in words comes in: hash, entry of the table, queue and processor."""

from __future__ import annotations

import ipaddress
import re
from typing import Iterator, NamedTuple, Sequence, Union

from . import card as cards
from . import cli, ethtool, frames, kernel, limits, remap, steering, toeplitz
from . import plan as plans
from .findings import GUESSED, Findings
from .machine import Machine
from .snapshot import FIRST_LINE, Snapshot, parse

Address = Union[ipaddress.IPv4Address, ipaddress.IPv6Address]
PROTOCOLS = {name: number for number, name in frames.PROTOCOLS.items()}


class End(NamedTuple):
    """An address, and the port beside it or None."""

    address: Address
    port: int | None


class Way(NamedTuple):
    """Where a flow comes in: its hash and entry or None, its queue, and its first processor.

    `by` is what led to the queue: the table, a rule, or that there is no hash. `manual` is the
    processor by the manual's rule, which a plan follows, and `kernel` the one by a kernel's, or
    None where the kernel makes a hash of its own, since the card's is not over ports.
    """

    value: int | None
    entry: int | None
    queue: int
    by: str
    manual: int
    kernel: int | None


class Aim:
    """How a machine leads a flow: its plan, whose numbers may be wider than steer's, and its card.

    `online` are the processors that a kernel takes into a mask, None for all.
    """

    def __init__(self, plan: plans.Plan, card: steering.Card | None = None,
                 online: Sequence[int] | None = None) -> None:
        self.kinds = plan.get("kinds", plans.DEFAULTS["kinds"])
        self.hashes = toeplitz.Toeplitz(bytes.fromhex(plan.get("key", plans.VERIFICATION_KEY)))
        self.queues = plan["queues"]
        self.card = card or steering.Card(plans.table_of(plan))
        self.masks = [sorted(set(queue["mask"])) for queue in self.queues]
        self.lists = [kernel.mask_members(queue["mask"], online) for queue in self.queues]

    def hashed(self, flow: remap.Flow) -> bytes | None:
        """The bytes of a flow that its card hashes, or None."""
        return remap.hashed_bytes(flow.kind, flow.data, self.kinds)

    def way_of(self, flow: remap.Flow) -> Way:
        """Where this flow comes in."""
        hashed = self.hashed(flow)
        own = None if hashed is None else self.hashes.hash(hashed)
        rule = self.card.rule_of(flow.kind, flow.data)
        queue, value = self.card.lead(flow.kind, flow.data, own, hashed)
        entry = None if rule or value is None else value % len(self.card.table)
        by = "rule" if rule else "none" if value is None else "table"
        home, mask = self.queues[queue]["home"], self.masks[queue]
        manual = home if value is None or not mask else mask[value % len(mask)]
        return Way(value, entry, queue, by, manual, self._kernel_choice(flow, hashed, value, queue))

    def _kernel_choice(self, flow, hashed, value, queue):
        """The processor that a kernel picks, or None where it makes the hash itself."""
        members = self.lists[queue]
        by_ports = hashed is not None and len(hashed) > remap.address_bytes(flow.kind)
        if members and not by_ports:
            return None
        picked = kernel.rps_choice(value, members)
        return self.queues[queue]["home"] if picked is None else picked


def of_snapshot(snap: Snapshot) -> Aim:
    """The Aim of a machine by its snapshot. Refused where its card cannot be followed."""
    findings = Findings()
    machine = Machine(snap, findings, limits.WIDE)
    homes = machine.homes({})
    for weight, text in findings.weighed:
        if weight == GUESSED and text.startswith("rx "):
            cli.note(text)
    told, _ = cards.settings(snap, len(machine.receive), True, findings)
    if findings.refusals:
        raise cli.Refused(snap.source, *findings.refusals)
    plan: plans.Plan = dict(told, queues=[{"home": home, "mask": mask, "flows": 0}
                                          for home, mask in zip(homes, machine.masks)])
    _say_missing(snap, told)
    for text in findings.notes:
        if text.startswith("ixgbe "):
            cli.note(text)
    return Aim(plan, steering.card_of(snap, plan), machine.online)


def _say_missing(snap, told):
    """Notes what the snapshot has not of the card, and what is taken."""
    taken = {"key": "the verification key is", "kinds": "kinds 63 are", "table": "an even one is"}
    there = set(told)
    if ethtool.hashing(snap.ethtool("-x {}")).table is not None:
        there.add("table")
    for name, text in taken.items():
        if name not in there:
            cli.note("the snapshot has no %s of the card; %s taken" % (name, text))


def of_file(name: str) -> Aim:
    """The Aim of a plan or a snapshot in a file; which of both it is, its first line says."""
    data, shown = cli.read_bytes(name), cli.source_name(name)
    if data.startswith(FIRST_LINE.encode("ascii")):
        try:
            return of_snapshot(parse(data.decode("utf-8"), shown))
        except UnicodeDecodeError as fault:
            raise cli.NotThatFile(shown, "byte %d (0x%02x) is not UTF-8 text"
                                  % (fault.start, data[fault.start])) from None
    return Aim(plans.plan_of(data, shown, limits.WIDE))


def end_of(text: str) -> End:
    """The End of `192.0.2.1:80`, `192.0.2.1`, `[2001:db8::1]:80` or `2001:db8::1`.

    ValueError with the reason where it is none.
    """
    found = re.fullmatch(r"\[([^\]]*)\](?::([0-9]{1,5}))?|([^:\[\]]*):([0-9]{1,5})|(.*)", text)
    if found is None:
        raise ValueError("`%s` is no address, with a port or without" % text)
    address = found[1] or found[3] or found[5] or ""
    digits = found[2] or found[4]
    try:
        of = ipaddress.ip_address(address)
    except ValueError:
        raise ValueError("`%s` is no IPv4 or IPv6 address" % address) from None
    if digits is not None and int(digits) > 65535:
        raise ValueError("port %s is not in 0 to 65535" % digits)
    return End(of, None if digits is None else int(digits))


def flow_of(protocol: str, source: End, target: End) -> remap.Flow:
    """The flow of `tcp`, `udp` or `ip` between two ends. ValueError where these do not fit."""
    if source.address.version != target.address.version:
        raise ValueError("%s and %s are of two versions of IP" % (source.address, target.address))
    ports = [source.port, target.port]
    if (None in ports) if protocol in PROTOCOLS else (ports != [None, None]):
        raise ValueError("a flow of %s has %s ports, and one between addresses alone is of `ip`"
                         % (protocol, "two" if protocol in PROTOCOLS else "no"))
    data = source.address.packed + target.address.packed
    version = str(source.address.version)
    if protocol not in PROTOCOLS:
        return remap.Flow(frames.Place("two" + version, 0, None, 0, 0), data)
    data += b"".join((port or 0).to_bytes(2, "big") for port in ports)
    return remap.Flow(frames.Place(protocol + version, 0, 0, PROTOCOLS[protocol], 0), data)


def typed(words: Sequence[str]) -> list[remap.Flow]:
    """The flows of words such as `tcp 192.0.2.1:1234 198.51.100.7:443`, three for each.

    ValueError with the reason where they are none.
    """
    flows = []
    for at in range(0, len(words), 3):
        three = list(words[at:at + 3])
        if len(three) < 3 or three[0] not in ("tcp", "udp", "ip"):
            raise ValueError("`%s` is no flow such as tcp 192.0.2.1:1234 198.51.100.7:443, with "
                             "tcp, udp, or ip for one without ports" % " ".join(three))
        flows.append(flow_of(three[0], end_of(three[1]), end_of(three[2])))
    return flows


def ports_to(aim: Aim, flow: remap.Flow, ports: Sequence[int], queue: int | None,
             cpu: int | None, by_kernel: bool) -> Iterator[tuple[remap.Flow, Way]]:
    """The flows with another source port, of these, that reach a queue and a processor."""
    at = len(flow.data) - 4
    place = frames.Place(flow.kind, 0, 0, flow.protocol, 0)
    for port in ports:
        one = remap.Flow(place, flow.data[:at] + port.to_bytes(2, "big") + flow.data[at + 2:])
        way = aim.way_of(one)
        if (queue in (None, way.queue)
                and cpu in (None, way.kernel if by_kernel else way.manual)):
            yield one, way
