"""How a card picks a receive queue where it has more than a plan's table: rules and contexts.

A table may have any size. A rule leads a flow to a queue, or to a context, which has a table and
perhaps a key of its own (ethtool -N, -X). The lowest rule that matches counts.
"""

from __future__ import annotations

from typing import Any, Callable, Iterable, Mapping, NamedTuple, Sequence

from . import cli, ethtool, kernel, limits, rules, toeplitz
from . import card as cards
from . import plan as plans
from .snapshot import Snapshot

WITH_PORTS = {"tcp4", "udp4", "tcp6", "udp6"}
FIELDS = (("src", "srcmask"), ("dst", "dstmask"))
PORTS = (("sport", "sportmask"), ("dport", "dportmask"))


class Context(NamedTuple):
    """A table of queues, of any size, and the hash of bytes, None for that by the card's key."""

    table: Sequence[int]
    hash: Callable[[bytes], int] | None


class _Rule(NamedTuple):
    """A rule of a kind, as in those of `steer place`, over addresses and ports as one number.

    It leads to `queue`, to which the entry of a context is added where its number is not None.
    """

    kind: str
    mask: int
    value: int
    queue: int
    context: int | None


def _compiled(rule):
    """A rule, a dict as `steer place` reads it, with a key `context` where it leads to one."""
    digits = 8 if rule["kind"][-1] == "4" else 32
    mask = value = 0
    for field, field_mask in FIELDS:
        bits = int(rule.get(field_mask, "0"), 16)
        mask = mask << 4 * digits | bits
        value = value << 4 * digits | int(rule.get(field, "0"), 16) & bits
    if rule["kind"] in WITH_PORTS:
        for field, field_mask in PORTS:
            bits = rule.get(field_mask, 0)
            mask, value = mask << 16 | bits, value << 16 | rule.get(field, 0) & bits
    return _Rule(rule["kind"], mask, value, rule.get("queue", 0), rule.get("context"))


class Card:
    """A card's table, its rules in their order (dicts), and its contexts by number."""

    def __init__(self, table: Iterable[int], rules: Iterable[Mapping[str, Any]] = (),
                 contexts: Mapping[int, Context] | None = None) -> None:
        self.table = list(table)
        self.rules = [_compiled(rule) for rule in rules]
        self.contexts = contexts or {}

    def rule_of(self, kind: str, data: bytes) -> _Rule | None:
        """The first rule that matches a flow of this kind with these addresses and ports."""
        number = int.from_bytes(data, "big")
        for rule in self.rules:
            if rule.kind == kind:
                if number & rule.mask == rule.value:
                    return rule
            elif rule.kind == "ip" + kind[-1]:
                addresses = number >> 32 if kind in WITH_PORTS else number
                if addresses & rule.mask == rule.value:
                    return rule
        return None

    def lead(self, kind: str, data: bytes, value: int | None,
             hashed: bytes | None) -> tuple[int, int | None]:
        """The queue and the hash of a flow, whose hash by the card's own key is `value`, or None.

        `hashed` are the bytes of that hash. A rule may lead the flow to a queue, or to a context,
        whose entry is added to the rule's queue, and whose key, if it has one, hashes the flow.
        """
        rule = self.rule_of(kind, data) if self.rules else None
        if rule is None:
            return kernel.table_queue(value, self.table), value
        if rule.context is None:
            return rule.queue, value
        context = self.contexts[rule.context]
        if hashed is not None and context.hash is not None:
            value = context.hash(hashed)
        return rule.queue + kernel.table_queue(value, context.table), value

    def highest(self) -> int:
        """The highest queue that it may lead to."""
        most = max(self.table)
        for rule in self.rules:
            tables = [0] if rule.context is None else self.contexts[rule.context].table
            most = max(most, rule.queue + max(tables))
        return most


def _context(snap, number, plan_key):
    """The Context of a snapshot with this number; Refused where its table is not there."""
    said = ethtool.hashing(snap.ethtool("-x {} context %d" % number))
    if said.table is None:
        raise snap.refused("a rule leads to RSS context %d, of which there is no table" % number)
    if said.key is None or said.key[:limits.KEY_DIGITS] == plan_key.lower():
        return Context(said.table, None)
    return Context(said.table, toeplitz.Toeplitz(bytes.fromhex(said.key[:limits.KEY_DIGITS])).hash)


def _table(snap, said, plan):
    """The table of the card where the plan has it as far as it may, else that of the plan."""
    own = plans.table_of(plan)
    if said.table is None:
        return own
    if cards.folded(said.table)[0] != own:
        cli.note("%s: its table is not that of the plan, which is taken" % snap.source)
        return own
    return said.table


def card_of(snap: Snapshot, plan: plans.Plan) -> Card | None:
    """The Card of a snapshot for its plan, or None where the plan has all of it.

    Refused where a rule, a table or a context is none that a packet can follow here.
    """
    try:
        said = ethtool.hashing(snap.ethtool("-x {}"))
        table = _table(snap, said, plan)
        made, findings = rules.rules_of(snap, True)
        if findings.refusals:
            raise cli.Refused(snap.source, *findings.refusals)
        key = plan.get("key", plans.VERIFICATION_KEY)
        contexts = {rule["context"]: _context(snap, rule["context"], key)
                    for rule in made["rules"] if "context" in rule}
    except ethtool.Unreadable as fault:
        raise snap.refused(str(fault)) from None
    card = Card(table, made["rules"], contexts)
    if card.highest() >= len(plan["queues"]):
        raise snap.refused("it leads to receive queue %d, and the plan has 0 to %d"
                           % (card.highest(), len(plan["queues"]) - 1))
    if table == plans.table_of(plan) and not card.rules:
        return None
    return card
