"""The faults of a plan: all of them, each with its place, its path, and what was meant.

A plan is taken here exactly where steer takes it; that is tested, and not proved.
"""

from __future__ import annotations

import collections
import json
import re

from . import hints
from . import jsontext
from . import limits
from . import steps

ONE_NUMBER = {   # keys of one number, with the range
    "cpus": (1, limits.MOST_PROCESSORS), "kinds": (0, limits.MOST_KINDS),
    "sock": (0, limits.MOST_SOCKET_ENTRIES), "filters": (0, limits.MOST_FILTERS),
    "backlog": (1, limits.MOST_BACKLOG), "start": (0, limits.MOST_START),
    "workers": (1, limits.MOST_WORKERS), "tries": (1, limits.MOST_TRIES),
}
REQUIRED = ("cpus", "queues", "sock", "apps", "tx", "steps")
KEYS = ("cpus", "queues", "key", "kinds", "reta", "sock", "filters", "backlog", "start",
        "limited", "apps", "tx", "workers", "tries", "detach", "steps")


class Fault:
    """One fault: the `offset` of its place, the `path` (None where it is no JSON), the reason."""

    def __init__(self, offset: int, path: str | None, reason: str) -> None:
        self.offset = offset
        self.path = path
        self.reason = reason


def shown(value: jsontext.Value) -> str:
    """A value as it may be written, shortened."""
    if isinstance(value, (jsontext.List, jsontext.Object)):
        return "a list" if isinstance(value, jsontext.List) else "an object"
    text = str(value) if isinstance(value, jsontext.Numeral) else json.dumps(
        value, ensure_ascii=False)
    return text if len(text) <= 60 else text[:57] + "..."


class _Judge:
    """Walks a plan and gathers its `faults` and `notes`."""

    def __init__(self, most):
        self.most = most
        self.faults = []
        self.notes = []

    def say(self, offset, path, reason):
        self.faults.append(Fault(offset, path, reason))

    def members(self, value, offset, path, known, required):
        """The members of an object by name: (value, offset); what else is wrong is said."""
        if not isinstance(value, jsontext.Object):
            self.say(offset, path, "%s is no object with %s" % (shown(value), ", ".join(required)))
            return {}
        prefix = path + "/" if path else ""
        last = value.last()
        if len(last) < len(value.members):
            times = collections.Counter(member[0] for member in value.members)
            self.notes.extend("%s stands %d times; the last counts" % (prefix + name, count)
                              for name, count in times.items() if count > 1)
        for name in last:
            if name not in known:
                self.say(last[name][1], prefix + name,
                         "unknown key" + hints.of_key(name, known))
        for name in required:
            if name not in last:
                self.say(offset, prefix + name, "missing")
        return {name: member[2:] for name, member in last.items()}

    def number(self, value, offset, path, low, high):
        """Whether this is a whole number in its range."""
        if type(value) is not int:
            self.say(offset, path, "%s is no whole number, %d to %d%s" % (
                shown(value), low, high, hints.of_number(value)))
        elif not low <= value <= high:
            self.say(offset, path, "%d is not in %d to %d" % (value, low, high))
        else:
            return True
        return False

    def numbers(self, value, offset, path, high, fewest=0, most=None):
        """A list of whole numbers from 0 to `high`."""
        most = self.most.members if most is None else most
        if not isinstance(value, jsontext.List):
            self.say(offset, path, "%s is no list of numbers, 0 to %d%s" % (
                shown(value), high, hints.of_set(value)))
            return
        if not fewest <= len(value.values) <= most:
            self.say(offset, path, "%d members, and it has %s%d" % (
                len(value.values), "" if fewest == most else "%d to " % fewest, most))
        for i, member in enumerate(value.values[:most]):
            self.number(member, value.starts[i], "%s/%d" % (path, i), 0, high)

    def objects(self, value, offset, path, fewest, most, names):
        """The objects of a list, each as (path, its members)."""
        if not isinstance(value, jsontext.List):
            self.say(offset, path, "%s is no list of objects with %s" % (
                shown(value), ", ".join(names)))
            return
        if not fewest <= len(value.values) <= most:
            self.say(offset, path, "%d members, and it has %d to %d" % (
                len(value.values), fewest, most))
        for i, member in enumerate(value.values[:most]):
            inner = "%s/%d" % (path, i)
            yield inner, self.members(member, value.starts[i], inner, names, names)

    def plan(self, value, offset):
        if not isinstance(value, jsontext.Object):
            self.say(offset, "", "%s is no plan, which is an object with %s" % (
                shown(value), ", ".join(REQUIRED)))
            return
        of = self.members(value, offset, "", KEYS, REQUIRED)
        for name, (low, high) in dict(ONE_NUMBER, cpus=(1, self.most.processors)).items():
            if name in of:
                self.number(*of[name], name, low, high)
        bounds = _bounds(of, self.most)
        self.queues(of, bounds)
        self.card(of, bounds)
        self.readers(of, bounds)
        if "steps" in of:
            self.steps(*of["steps"], bounds)

    def queues(self, of, bounds):
        """`queues` and `tx`."""
        cpu, queue = bounds.highest["c"], bounds.highest["q"]
        names = ("home", "mask", "flows")
        for path, inner in self.objects(*of["queues"], "queues", 1, self.most.queues,
                                        names) if "queues" in of else ():
            if "home" in inner:
                self.number(*inner["home"], path + "/home", 0, cpu)
            if "mask" in inner:
                self.numbers(*inner["mask"], path + "/mask", cpu)
            if "flows" in inner:
                self.number(*inner["flows"], path + "/flows", 0, limits.MOST_FLOWS)
        for path, inner in self.objects(*of["tx"], "tx", 1, self.most.transmit_queues,
                                        ("cpus", "queues")) if "tx" in of else ():
            if "cpus" in inner:
                self.numbers(*inner["cpus"], path + "/cpus", cpu)
            if "queues" in inner:
                self.numbers(*inner["queues"], path + "/queues", queue,
                             most=self.most.queues)

    def card(self, of, bounds):
        """`key` and `reta`."""
        if "key" in of:
            value, offset = of["key"]
            if (not isinstance(value, str) or isinstance(value, jsontext.Numeral)
                    or not re.fullmatch("[0-9a-fA-F]{%d}" % limits.KEY_DIGITS, value)):
                self.say(offset, "key", "no text of %d hexadecimal digits%s" % (
                    limits.KEY_DIGITS, hints.of_receive_key(value)))
        if "reta" in of:
            self.numbers(*of["reta"], "reta", bounds.highest["q"], limits.TABLE_ENTRIES,
                         limits.TABLE_ENTRIES)

    def readers(self, of, bounds):
        """`limited`, `apps` and `detach`."""
        cpu = bounds.highest["c"]
        if "limited" in of:
            self.numbers(*of["limited"], "limited", cpu)
        if "apps" in of:
            self.numbers(*of["apps"], "apps", cpu, 1, self.most.readers)
        for path, inner in self.objects(*of["detach"], "detach", 0, limits.MOST_TAPS,
                                        ("tap", "after")) if "detach" in of else ():
            if "tap" in inner:
                self.number(*inner["tap"], path + "/tap", 0, limits.MOST_TAPS - 1)
            if "after" in inner:
                self.number(*inner["after"], path + "/after", 0, limits.MOST_PACKETS)

    def steps(self, value, offset, bounds):
        if isinstance(value, jsontext.Object):
            inner = self.members(value, offset, "steps", ("seed", "count"), ("seed", "count"))
            if "seed" in inner:
                self.number(*inner["seed"], "steps/seed", 0, limits.MOST_NUMBER)
            if "count" in inner:
                self.number(*inner["count"], "steps/count", 0, limits.MOST_COUNT)
            return
        if not isinstance(value, jsontext.List):
            self.say(offset, "steps", "%s is neither a list of steps nor an object of seed and "
                     "count" % shown(value))
            return
        if len(value.values) > limits.MOST_STEPS:
            self.say(offset, "steps", "%d steps, and a plan has at most %d" % (
                len(value.values), limits.MOST_STEPS))
            return
        judged = {}
        for i, text in enumerate(value.values):
            if type(text) is not str:
                self.say(value.starts[i], "steps/%d" % i, "%s is no text" % shown(text))
                continue
            if text not in judged:
                judged[text] = steps.fault(text, bounds)
            if judged[text]:
                self.say(value.starts[i], "steps/%d" % i,
                         "`%s`: %s" % (text if len(text) < 200 else text[:197] + "...",
                                       judged[text]))


def _bounds(of, most):
    """The bounds of the numbers in a plan; where it does not tell them, the most there may be."""
    def size(name, highest):
        value = of.get(name, (None, 0))[0]
        return len(value.values) if isinstance(value, jsontext.List) and value.values else highest
    cpus = of.get("cpus", (None, 0))[0]
    if type(cpus) is not int or not 1 <= cpus <= 4096:
        cpus = most.processors
    return steps.Bounds(size("queues", most.queues), cpus,
                        size("apps", most.readers),
                        size("tx", most.transmit_queues))


def _too_much(data):
    """What steer refuses before it reads the text as JSON, or None."""
    if len(data) > limits.MOST_BYTES:
        return "%d bytes, and a plan has at most %d" % (len(data), limits.MOST_BYTES)
    brackets = data.count(b"{") + data.count(b"[")
    if brackets > limits.MOST_OPENING_BRACKETS:
        return "%d opening brackets, and steer reads at most %d" % (
            brackets, limits.MOST_OPENING_BRACKETS)
    return None


def judge(data: bytes, most: limits.Most = limits.PLAN
          ) -> tuple[str, jsontext.Value, list[Fault], list[str]]:
    """The text of a plan's bytes, its value (None where there is none), its faults and notes.

    `most` is what the plan may have of processors, queues and readers.
    """
    too_much = _too_much(data)
    if too_much:
        return "", None, [Fault(0, None, too_much)], []
    try:
        text = data.decode("utf-8")
    except UnicodeDecodeError as fault:
        reason = "byte %d (0x%02x) is not UTF-8" % (fault.start, data[fault.start])
        if data.startswith(hints.CAPTURE_MAGICS):
            reason = "a capture stands in the plan's place"
        text = data[:fault.start].decode("utf-8")
        return text, None, [Fault(len(text), None, reason)], []
    try:
        value, offset = jsontext.parse(text)
    except jsontext.Fault as fault:
        hint = hints.of_json(text, fault.offset, fault.reason)
        return text, None, [Fault(fault.offset, None,
                                  fault.reason + ("; " + hint if hint else ""))], []
    walk = _Judge(most)
    walk.plan(value, offset)
    walk.faults.sort(key=lambda fault: fault.offset)
    return text, value, walk.faults, walk.notes


def pointed(text: str, offset: int, width: int = 72) -> str:
    """The line of an offset and a caret under its column, both cut to `width` columns."""
    begin = text.rfind("\n", 0, offset) + 1
    end = text.find("\n", offset)
    line = text[begin:len(text) if end < 0 else end].replace("\t", " ").rstrip("\r")
    column = offset - begin
    cut = max(0, column - width // 2)
    return "  %s\n  %s^" % (line[cut:cut + width], " " * (column - cut))
