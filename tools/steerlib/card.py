"""The key, the table and the hash kinds of a plan, from what ethtool says of the card."""

from __future__ import annotations

import math
from typing import Any

from . import ethtool
from . import limits
from .findings import CHANGES, Findings, listed
from .snapshot import Snapshot

SIZE = limits.TABLE_ENTRIES


def even(queues: int) -> list[int]:
    """The table of a card that was never set."""
    return [entry % queues for entry in range(SIZE)]


def folded(table: list[int]) -> tuple[list[int], int, int]:
    """The first 128 entries of a table of any size, and how many hashes of how many differ."""
    fold = [table[entry % len(table)] for entry in range(SIZE)]
    period = len(table) * SIZE // math.gcd(len(table), SIZE)
    differ = sum(table[i % len(table)] != fold[i % SIZE] for i in range(period))
    return fold, differ, period


def _table(said, queues, nearest, findings):
    """The table as 128 entries; the even one where none is told or it cannot be taken."""
    if said.table is None:
        findings.note("no table in `ethtool -x`; the even one is taken", CHANGES)
        return even(queues)
    if max(said.table) >= queues:
        findings.refuse("the table names queue %d, and there are %d (0 to %d)"
                        % (max(said.table), queues, queues - 1))
        return even(queues)
    fold, differ, period = folded(said.table)
    entries = len(said.table)
    if differ and not nearest:
        findings.refuse(
            "a table of %d entries, of which %d differ from that at their number modulo %d; "
            "--nearest takes the first %d" % (entries, differ * entries // period, SIZE, SIZE)
            if entries > SIZE else
            "a table of %d entries, which do not divide %d; --nearest repeats them"
            % (entries, SIZE))
    elif differ:
        findings.note("table of %d entries: %.1f %% of hashes get another queue here"
                      % (entries, 100 * differ / period), CHANGES)
    elif entries > SIZE:
        findings.note("a table of %d entries that repeats after %d, taken exactly"
                      % (entries, SIZE))
    elif entries < SIZE:
        findings.note("a table of %d entries, repeated to %d, taken exactly" % (entries, SIZE))
    return fold


def _key(said, findings):
    """The key as 80 digits, or None where the verification key is taken."""
    if said.key is None:
        findings.note("no key in `ethtool -x`; the verification key is taken, so queues are "
                      "those of another card", CHANGES)
        return None
    if len(said.key) < limits.KEY_DIGITS:
        findings.refuse("a key of %d bytes, fewer than %d"
                        % (len(said.key) // 2, limits.KEY_DIGITS // 2))
    elif len(said.key) > limits.KEY_DIGITS:
        findings.note("a key of %d bytes: the first 40 are taken, which is all that 36 hashed "
                      "bytes read" % (len(said.key) // 2))
    return said.key[:limits.KEY_DIGITS]


def _function(said, findings):
    """Refuses what is no plain Toeplitz hash."""
    others = [name for name in said.functions if name != "toeplitz"]
    if others:
        findings.refuse("the card hashes by %s, and steer by toeplitz" % ", ".join(others))
    if said.transformations:
        findings.refuse("the card folds what it hashes (%s), which a plan has not"
                        % ", ".join(said.transformations))


def _version_kinds(version, fields, findings):
    """The bits of one IP version, where `fields` has what is told of its TCP and UDP."""
    bits, plain, silent = 0, [], []
    for name, said in fields.items():
        ports = ethtool.BOTH_PORTS <= said
        if not said:
            silent.append(name)
        elif said - ethtool.BOTH_PORTS != ethtool.BOTH_ADDRESSES or (
                not ports and said & ethtool.BOTH_PORTS):
            findings.refuse("%s is hashed by %s alone, which steer has not"
                            % (name, ", ".join(sorted(said))))
        elif ports:
            bits |= 1 << ethtool.KINDS[name]
        else:
            plain.append(name)
    if silent and plain:
        findings.refuse("%s is not hashed while %s is by its addresses, which steer has not"
                        % (silent[0], plain[0]))
    if silent and bits:
        findings.note("%s is not hashed; taken as true of all IPv%s but what has ports hashed"
                      % (silent[0], version), CHANGES)
    elif fields and not silent:
        bits |= 1 << ethtool.ADDRESS_BIT[version]
    return bits


def kinds(snapshot: Snapshot, findings: Findings) -> int | None:
    """The hash kinds, or None where 63 is taken."""
    told = {}
    for name in ethtool.KINDS:
        try:
            fields = ethtool.hash_fields(snapshot.ethtool("-n {} rx-flow-hash " + name))
        except ethtool.Unreadable as fault:
            findings.refuse("%s: %s" % (name, fault))
            fields = set()
        if fields is not None:
            told[name] = fields
    if not told:
        findings.note("no hash fields in `ethtool -n`; kinds 63 taken", CHANGES)
        return None
    if not any(told.values()):
        findings.note("the card says that it hashes nothing; kinds 63 taken", CHANGES)
        return None
    bits = 0
    for version in ("4", "6"):
        bits |= _version_kinds(version, {name: fields for name, fields in told.items()
                                         if name.endswith(version)}, findings)
    missing = [name for name in ethtool.KINDS if name not in told]
    if missing:
        findings.note("no hash fields of %s in `ethtool -n`; taken as hashed without ports"
                      % listed(missing), CHANGES)
    return bits


def _warn(snapshot, nearest, findings):
    """Notes of what stands beside the table."""
    rules = snapshot.ethtool("-n {}")
    count = ethtool.rules_told(rules) or len(ethtool.rules(rules))
    if count:
        findings.note("%d n-tuple rules stand before the table, which a replay has not: see "
                      "steer-rules and `steer place`" % count, CHANGES)
    if any(line.startswith("RSS Context ID") for _, lines in ethtool.rules(rules)
           for line in lines):
        text = "several RSS contexts: a rule leads to a table of its own"
        if nearest:
            findings.note(text + ", which steer-remap --snap follows and a plan does not")
        else:
            findings.refuse(text + "; --nearest leaves it to steer-remap --snap")
    features = snapshot.ethtool("-k {}")
    if ("driver: ixgbe" in snapshot.ethtool("-i {}")
            and any(line.startswith("ntuple-filters: off") for line in features)):
        findings.note("ixgbe with ntuple-filters off brings a TCP flow in on the queue by which "
                      "it left, whatever the table says (docs/kernel.md)", CHANGES)
    merging = ethtool.merging(features)
    if merging:
        findings.note("%s %s on: the capture may hold merged packets"
                      % (listed(merging), "are" if merging[1:] else "is"))


def settings(snapshot: Snapshot, queues: int, nearest: bool,
             findings: Findings) -> tuple[dict[str, Any], list[int]]:
    """The keys `key`, `kinds` and `reta` of a plan as far as they are told, and the table."""
    asked = snapshot.ethtool("-x {}")
    if any(line.endswith(": not found") for line in snapshot.ethtool("-i {}")):
        findings.note("ethtool was not there: key, table, kinds and rules are unknown")
    if any("not permitted" in line for line in asked):
        findings.note("`ethtool -x` was not permitted: take the snapshot as root")
    try:
        said = ethtool.hashing(asked)
    except ethtool.Unreadable as fault:
        findings.refuse(str(fault))
        said = ethtool.Hashing()
    _function(said, findings)
    told = {"key": _key(said, findings)}
    table = _table(said, queues, nearest, findings)
    told["kinds"] = kinds(snapshot, findings)
    told["reta"] = table if table != even(queues) else None
    _warn(snapshot, nearest, findings)
    return {name: value for name, value in told.items() if value is not None}, table
