"""Changing settings of a plan by the names that they have on a machine.

A plan is changed as text, so that all that is not set stays byte for byte, its steps and
unknown keys among it.
"""

from __future__ import annotations

import json
import re
from typing import Any

from . import card
from . import cli
from . import ethtool
from . import hints
from . import jsontext
from . import limits
from . import lint
from . import machine
from . import plan
from . import processors
from . import cautions
from .findings import CHANGES, Findings

# Names of a queue's settings: the list of the plan, the key there, and how values are read.
OF_QUEUE = {
    ("rx", "rps_cpus"): ("queues", "mask"), ("rx", "rps_flow_cnt"): ("queues", "flows"),
    ("rx", "home"): ("queues", "home"), ("tx", "xps_cpus"): ("tx", "cpus"),
    ("tx", "xps_rxqs"): ("tx", "queues"),
}
SIMPLE = {"rps_sock_flow_entries": "sock", "netdev_max_backlog": "backlog",
          "flow_limit_cpu_bitmap": "limited", "apps": "apps", "indir": "reta", "hkey": "key"}
NAMES = ["%s-N/%s" % name for name in OF_QUEUE] + list(SIMPLE) + ["rx-flow-hash/KIND"]
_QUEUE = re.compile(r"(rx|tx)-([0-9]{1,6}|\*)/(\w+)")


def _mask(word, text, count, of):
    """A mask in hexadecimal of numbers below `count`."""
    try:
        members = processors.parse_mask(text)
    except ValueError:
        hint = ""
        try:
            members = processors.parse_list(text)
            hint = "; the list %s is %s" % (text, processors.mask_text(members, count))
        except ValueError:
            pass
        raise cli.WrongWords("%s: `%s` is no mask, which is hexadecimal as in sysfs, f0 or "
                             "ff,00000000%s" % (word, text, hint)) from None
    if members and members[-1] >= count:
        raise cli.WrongWords("%s: bit %d is set, and the plan has %s 0 to %d"
                             % (word, members[-1], of, count - 1))
    return members


def _number(word, text, low, high):
    if not re.fullmatch("[0-9]{1,20}", text):
        raise cli.WrongWords("%s: `%s` is no number, %d to %d" % (word, text, low, high))
    if not low <= int(text) <= high:
        raise cli.WrongWords("%s: %d is not in %d to %d" % (word, int(text), low, high))
    return int(text)


def _numbers(word, text):
    parts = text.split(",")
    if not all(re.fullmatch("[0-9]{1,9}", part) for part in parts):
        raise cli.WrongWords("%s: `%s` is no list of numbers such as 6,2" % (word, text))
    return [int(part) for part in parts]


def weighted(weights: list[int], size: int = limits.TABLE_ENTRIES) -> list[int]:
    """The table of this size that `ethtool -X DEV weight W0 W1 ..` makes: blocks of entries."""
    table: list[int] = []
    total, partial = sum(weights), 0
    for queue, weight in enumerate(weights):
        partial += weight
        table += [queue] * (size * partial // total - len(table))
    return table


def _indir(word, text, queues):
    form, _, value = text.partition(":")
    if text == "default":
        return card.even(queues)
    if form == "equal":
        return card.even(_number(word, value, 1, queues))
    if form != "weight":
        raise cli.WrongWords("%s: `%s` is neither default nor equal:N nor weight:W0,W1,.."
                             % (word, text))
    weights = _numbers(word, value)
    if len(weights) > queues:
        raise cli.WrongWords("%s: %d weights, and the plan has %d receive queues"
                             % (word, len(weights), queues))
    if not 1 <= sum(weights) <= limits.TABLE_ENTRIES:
        raise cli.WrongWords("%s: the weights' sum is %d, and it is 1 to %d entries"
                             % (word, sum(weights), limits.TABLE_ENTRIES))
    return weighted(weights)


def _readers(word, text, cpus):
    try:
        apps = processors.parse_list(text)
    except ValueError as fault:
        raise cli.WrongWords("%s: %s" % (word, fault)) from None
    if not 1 <= len(apps) <= limits.MOST_READERS:
        raise cli.WrongWords("%s: %d readers, and a plan has 1 to %d"
                             % (word, len(apps), limits.MOST_READERS))
    if max(apps) >= cpus:
        raise cli.WrongWords("%s: processor %d is not in 0 to %d" % (word, max(apps), cpus - 1))
    return apps


def _receive_key(word, text):
    digits = text.replace(":", "")
    if not re.fullmatch("[0-9a-fA-F]{%d}" % limits.KEY_DIGITS, digits):
        raise cli.WrongWords("%s: no %d bytes in hexadecimal%s" % (
            word, limits.KEY_DIGITS // 2, hints.of_receive_key(text)))
    return digits


class Settings:
    """A plan as text, in which settings are changed; `text` is the plan as it is now."""

    def __init__(self, data: bytes, source: str) -> None:
        self.source = source
        self.text, value, faults, _ = lint.judge(data)
        places = jsontext.Places(self.text)
        for fault in faults:
            where = "%s:%d:%d" % ((source,) + places.of(fault.offset))
            if fault.path is None:
                raise cli.NotThatFile(where, "no plan: " + fault.reason)
            if not fault.reason.startswith("unknown key"):
                raise cli.Refused(where, "%s: %s (steer-lint shows all)"
                                  % (fault.path, fault.reason))
        self.value = value
        self.plan = jsontext.plain(value)
        self.changed: dict[tuple[str | int, ...], Any] = {}
        self.bitmap: list[int] | None = None
        self.limit = ""

    def set(self, word: str) -> None:
        """Makes the setting NAME=VALUE of this word. Raises WrongWords with the range."""
        name, sign, text = word.partition("=")
        if not sign:
            raise cli.WrongWords("%s: no setting of the form NAME=VALUE" % word)
        found = _QUEUE.fullmatch(name)
        if found and (found.group(1), found.group(3)) in OF_QUEUE:
            self._of_queue(word, found.group(1), found.group(2), found.group(3), text)
        elif name in SIMPLE:
            self._simple(word, name, text)
        elif name.startswith("rx-flow-hash/"):
            self._kind(word, name.partition("/")[2], text)
        else:
            general = re.sub(r"-(\d+|\*)/", "-N/", name)
            near = hints.near(general, NAMES, 0.6)
            raise cli.WrongWords("%s: no such setting%s; they are %s" % (
                name, ", is it %s?" % near if near else "", ", ".join(NAMES)))

    def _put(self, path, value):
        self.changed[path] = value
        holder = self.plan
        for part in path[:-1]:
            holder = holder[part]
        holder[path[-1]] = value

    def _of_queue(self, word, side, number, name, text):
        of, key = OF_QUEUE[side, name]
        count = len(self.plan[of])
        if number != "*" and int(number) >= count:
            raise cli.WrongWords("%s: the plan has %s-0 to %s-%d" % (word, side, side, count - 1))
        cpus = self.plan["cpus"]
        if name in ("rps_cpus", "xps_cpus"):
            value = _mask(word, text, cpus, "processors")
        elif name == "xps_rxqs":
            value = _mask(word, text, len(self.plan["queues"]), "receive queues")
        else:
            value = _number(word, text, 0, cpus - 1 if name == "home" else limits.MOST_FLOWS)
        for queue in range(count) if number == "*" else [int(number)]:
            self._put((of, queue, key), value)

    def _simple(self, word, name, text):
        cpus, queues = self.plan["cpus"], len(self.plan["queues"])
        if name == "rps_sock_flow_entries":
            value = _number(word, text, 0, limits.MOST_SOCKET_ENTRIES)
        elif name == "netdev_max_backlog":
            value = _number(word, text, 0, limits.MOST_BACKLOG - 1) + 1
        elif name == "flow_limit_cpu_bitmap":
            value = _mask(word, text, cpus, "processors")
        elif name == "apps":
            value = _readers(word, text, cpus)
        elif name == "indir":
            value = _indir(word, text, queues)
        else:
            value = _receive_key(word, text)
        self._put((SIMPLE[name],), value)
        if name == "flow_limit_cpu_bitmap":
            self.bitmap = value

    def _kind(self, word, kind, text):
        if kind not in ethtool.KINDS or text not in ("sd", "sdfn"):
            raise cli.WrongWords("%s: rx-flow-hash/KIND=FIELDS, of %s and of sd, sdfn"
                                 % (word, ", ".join(ethtool.KINDS)))
        bit = 1 << ethtool.KINDS[kind]
        address = 1 << ethtool.ADDRESS_BIT[kind[-1]]
        kinds = self.plan.get("kinds", plan.DEFAULTS["kinds"])
        self._put(("kinds",), kinds | bit if text == "sdfn" else kinds & ~bit | address)

    def _span(self, path):
        """Where the value of this path stands in the text, or None where its key is absent."""
        value, start = self.value, jsontext.skip_blanks(self.text, 0)
        for part in path:
            if isinstance(value, jsontext.List):
                value, start = value.values[part], value.starts[part]
            elif part in value.last():
                value, start = value.last()[part][2:]
            else:
                return None
        return start, jsontext.value_at(self.text, start)[1]

    def _limit(self) -> None:
        """Makes `limited` of the bitmap that was set, by the homes and masks as they now are."""
        if self.bitmap:
            homes = [queue["home"] for queue in self.plan["queues"]]
            limited, self.limit = cautions.limited_by(self.bitmap, homes,
                                                      cautions.targets(self.plan))
            self._put(("limited",), limited)

    def made(self) -> plan.Plan:
        """The plan with all settings made."""
        self._limit()
        return self.plan

    def written(self) -> str:
        """The text of the plan with all settings made."""
        self._limit()
        edits, absent = [], []
        for path, value in self.changed.items():
            span = self._span(path)
            if span:
                edits.append(span + (json.dumps(value),))
            else:
                absent.append('"%s": %s,' % (path[-1], json.dumps(value)))
        if absent:
            before = self.value.last()["steps"][1]
            gap = self.text[len(self.text[:before].rstrip(" \t\r\n")):before] or " "
            edits.append((before, before, gap.join(absent) + gap))
        for start, end, new in sorted(edits, reverse=True):
            self.text = self.text[:start] + new + self.text[end:]
        return self.text

    def notes(self) -> list[str]:
        """What is to be noted of the settings that were made, once the plan was written."""
        findings = Findings()
        keys = {path[-1] for path in self.changed}
        if keys & {"mask", "reta"}:
            machine.warn_of_shared_bits(plan.table_of(self.plan), [
                queue["mask"] for queue in self.plan["queues"]], findings)
        if keys & {"flows", "sock"} and not self.plan["sock"] and any(
                queue["flows"] for queue in self.plan["queues"]):
            findings.note("rps_flow_cnt is set and rps_sock_flow_entries is 0: no RFS", CHANGES)
        if "backlog" in keys:
            findings.note(cautions.of_one_more(self.plan))
        for text in self._cautions(keys):
            if text:
                findings.note(text, CHANGES)
        return findings.notes

    def _cautions(self, keys):
        """Where the answer by the plan is another than a kernel's, by what was changed."""
        putting = {"mask", "flows", "sock"}
        yield self.limit
        if "limited" not in keys and self.plan.get("limited") and keys & (putting | {"home"}):
            yield ("limited stays as it is; flow_limit_cpu_bitmap sets it anew, by homes and masks "
                   "as they now are")
        if keys & (putting | {"apps", "reta"}):
            yield cautions.of_readers(self.plan)
        if "kinds" in keys:
            yield cautions.of_kinds(self.plan)
        if keys & (putting | {"home", "backlog"}):
            yield cautions.of_backlog(self.plan)
