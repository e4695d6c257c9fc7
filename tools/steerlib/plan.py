"""Plans: reading one that steer takes, and writing one a line for each queue."""

from __future__ import annotations

import json
from typing import Any, Dict

from . import cli
from . import jsontext
from . import limits
from . import lint

# A plan with its keys: what is read from JSON.
Plan = Dict[str, Any]

DEFAULTS = {
    "kinds": 63, "filters": 0, "backlog": 1000, "start": 0, "limited": [], "workers": 1,
    "tries": 1, "detach": [],
}
VERIFICATION_KEY = ("6d5a56da255b0ec24167253d43a38fb0d0ca2bcbae7b30b4"
                    "77cb2da38030f20c6a42b73bbeac01fa")


def read_plan(name: str, most: limits.Most = limits.PLAN) -> Plan:
    """The plan of the file `name` as dicts and lists, with the keys that it has.

    NotThatFile where it is no JSON, Refused with the first fault where steer does not take it, or
    would not with the limits `most`.
    """
    with cli.open_bytes(name) as stream:
        return plan_of(stream.read(), cli.source_name(name), most)


def plan_of(data: bytes, shown: str, most: limits.Most = limits.PLAN) -> Plan:
    """The plan of these bytes, as read_plan, of a file that messages name `shown`."""
    text, value, faults, notes = lint.judge(data, most)
    if faults:
        first = faults[0]
        place = "%d:%d" % jsontext.Places(text).of(first.offset)
        source = "%s:%s" % (shown, place)
        if first.path is None:
            raise cli.NotThatFile(source, "no plan: " + first.reason)
        others = " (steer-lint shows all %d faults)" % len(faults) if faults[1:] else ""
        raise cli.Refused(source, "%s: %s%s" % (first.path, first.reason, others))
    for text in notes:
        cli.note("%s: %s" % (shown, text))
    return jsontext.plain(value)


def table_of(plan: Plan) -> list[int]:
    """The redirection table of a plan: 128 numbers of queues."""
    return plan.get("reta") or [i % len(plan["queues"]) for i in range(128)]


def _step_lines(steps, indent):
    """Steps on lines of at most 100 columns, where one has room, behind `indent` blanks."""
    text = json.dumps(steps)[1:-1]
    lines, at, width = [], 0, 99 - indent
    while len(text) - at > width:
        end = text.rfind('", "', at, at + width + 3)
        end = text.find('", "', at) if end < 0 else end
        if end < 0:
            break
        lines.append(text[at:end + 2])
        at = end + 3
    return ("\n" + " " * indent).join(lines + [text[at:]])


def value_text(name: str, value: Any) -> str:
    """One value of a plan as it is written behind its key."""
    indent = len(name) + 6
    if name in ("queues", "tx") and value:
        return "[" + (",\n" + " " * indent).join(json.dumps(one) for one in value) + "]"
    if name == "steps" and isinstance(value, list):
        return "[" + _step_lines(value, indent) + "]"
    return json.dumps(value)


def plan_text(plan: Plan) -> str:
    """A plan as text: a line for each key, and one for each queue."""
    return "{" + ",\n ".join("%s: %s" % (json.dumps(name), value_text(name, value))
                             for name, value in plan.items()) + "}\n"
