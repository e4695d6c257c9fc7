"""The n-tuple rules of a card, from what ethtool prints, as `steer place` reads them.

ethtool prints masks inverted: a bit that is 1 is not compared. `steer place` has them the
other way round, so that they are turned here.
"""

from __future__ import annotations

import ipaddress
import re
from typing import Any

from . import card
from . import ethtool
from . import limits
from .findings import Findings
from .snapshot import Snapshot

MOST_RULES = 4096
KINDS = {"TCP over IPv4": "tcp4", "UDP over IPv4": "udp4", "TCP over IPv6": "tcp6",
         "UDP over IPv6": "udp6", "Raw IPv4": "ip4", "Raw IPv6": "ip6"}
ADDRESSES = {"Src IP addr": "src", "Dest IP addr": "dst"}
PORTS = {"Src port": "sport", "Dest port": "dport"}
_FIELD = re.compile(r"([A-Za-z][A-Za-z0-9 -]*): (\S+) mask: (\S+)")
_QUEUE = re.compile(r"Action: Direct to queue ([0-9]{1,9})")
_CONTEXT = re.compile(r"RSS Context ID: ([0-9]{1,9})")


def _compares_nothing(mask):
    """Whether a printed mask has ones alone, in one of ethtool's forms of masks."""
    digits = re.sub("^0x|:", "", mask).lower()
    return bool(re.fullmatch("f+", digits))


def _address(rule, key, kind, text, mask):
    """Adds an address and its turned mask to the rule; ValueError where they are none."""
    address, inverted = ipaddress.ip_address(text), ipaddress.ip_address(mask)
    if str(address.version) != kind[-1] or inverted.version != address.version:
        raise ValueError("not of IPv%s" % kind[-1])
    bits = address.max_prefixlen
    rule[key] = "%0*x" % (bits // 4, int(address))
    rule[key + "mask"] = "%0*x" % (bits // 4, int(inverted) ^ ((1 << bits) - 1))


def _field(rule, line):
    """Adds a field that is compared to the rule; a reason where `place` does not compare it."""
    found = _FIELD.fullmatch(line)
    if not found:
        return "`%s`" % line
    name, value, mask = found.groups()
    try:
        if name in ADDRESSES:
            _address(rule, ADDRESSES[name], rule.get("kind", "?"), value, mask)
        elif name in PORTS:
            turned = int(mask, 16) ^ 0xffff
            if not (0 <= int(value) <= 0xffff and 0 <= turned <= 0xffff):
                raise ValueError("no port")
            rule[PORTS[name]], rule[PORTS[name] + "mask"] = int(value), turned
        elif not _compares_nothing(mask):
            return "it compares %s (%s), which `steer place` does not" % (name, value)
    except ValueError as fault:
        return "`%s`: %s" % (line, fault)
    return None


def _line(rule, line, queues, contexts):
    """Takes one line of a rule; a reason where it cannot be a rule of `place`, or has a context
    where these are not wanted.
    """
    if line.startswith("Rule Type: "):
        kind = line[len("Rule Type: "):]
        if kind not in KINDS:
            return "type `%s`" % kind
        rule["kind"] = KINDS[kind]
        return None
    found = _QUEUE.fullmatch(line)
    if found:
        rule["queue"] = int(found.group(1))
        if rule["queue"] >= queues:
            return "queue %d is not in 0 to %d" % (rule["queue"], queues - 1)
        return None
    found = _CONTEXT.fullmatch(line) if contexts else None
    if found:
        rule["context"] = int(found.group(1))
        return None
    if line.startswith(("Action: ", "RSS Context ID: ", "Flow Type: ")):
        return "`%s`" % line
    return _field(rule, line)


def _rule(number, lines, queues, contexts, findings):
    """One rule as a dict; what is wrong with it is refused."""
    rule = {}
    reasons = [reason for reason in (_line(rule, line, queues, contexts) for line in lines)
               if reason]
    if not reasons and not ("kind" in rule and "queue" in rule):
        reasons = ["no %s in it" % ("queue" if "kind" in rule else "type")]
    for reason in reasons:
        findings.refuse("rule %d: %s" % (number, reason))
    return rule


def rules_of(snapshot: Snapshot, contexts: bool = False) -> tuple[dict[str, Any], Findings]:
    """The rules of a snapshot as the object that `steer place` reads, and the Findings.

    With `contexts` a rule may lead to an RSS context, which `place` has not: its key `context`,
    and the card may have more queues than rules of `place`.
    """
    findings = Findings()
    queues = len(snapshot.queues["rx"])
    if queues > limits.MOST_QUEUES and not contexts:
        findings.refuse("%d receive queues, and rules have at most %d"
                        % (queues, limits.MOST_QUEUES))
    lines = snapshot.ethtool("-n {}")
    found, told = ethtool.rules(lines), ethtool.rules_told(lines)
    if told is None and not found:
        findings.note("the card tells of no rules: %s" % (lines[0] if lines else "nothing said"))
    elif told is not None and told != len(found):
        findings.refuse("%d rules are told of, and %d are there" % (told, len(found)))
    if len(found) > MOST_RULES:
        findings.refuse("%d rules, and `steer place` reads at most %d"
                        % (len(found), MOST_RULES))
    if len(found) > 1:
        findings.note("%d rules, in the order of their numbers; a card may look at them in "
                      "another" % len(found))
    made: dict[str, Any] = {"queues": queues}
    kinds = card.kinds(snapshot, findings)
    if kinds not in (None, limits.MOST_KINDS):
        made["kinds"] = kinds
    made["rules"] = [_rule(number, of, queues, contexts, findings)
                     for number, of in sorted(found)]
    return made, findings
