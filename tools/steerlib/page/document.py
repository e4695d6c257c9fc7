"""The document of a page: tables for all readers, and the data and the script of its charts."""

from __future__ import annotations

import base64
import hashlib
import html
import json
import os
import zlib
from typing import Any, Iterable, Iterator, Sequence

from .. import report, summary
from . import sums
from .axis import Axis
from .backlogs import Backlogs

FOLDER = os.path.dirname(os.path.abspath(__file__))
FLOWS_CHARTED = 10
OTHER_FLOW = 255
NO_CPU = 255
DROPPED, MOVED = 1, 2

KEYS = """\
Drag over a chart to zoom into a part, double-click for all, drag with Shift to go earlier or later.
With the charts in focus: left and right arrows move the mark by a column, + and - zoom at the mark,
Page Up and Page Down go earlier and later, Home and End go to the ends, 0 shows all."""


def _file(*parts: str) -> str:
    with open(os.path.join(FOLDER, *parts), encoding="utf-8") as stream:
        return stream.read()


def _library() -> str:
    """The script of the library with its licence, and without the name of its source map."""
    kept = [line for line in _file("dygraphs", "dygraph.min.js").splitlines()
            if not line.startswith("//# sourceMappingURL")]
    return "/*\n%s*/\n%s\n" % (_file("dygraphs", "LICENSE"), "\n".join(kept))


def _packed(values: Iterable[int], width: int = 1) -> str:
    """Whole numbers as text: the lowest bytes of all, then the next ones, by deflate and base64."""
    data = b"".join(value.to_bytes(width, "little") for value in values)
    planes = b"".join(data[plane::width] for plane in range(width))
    return base64.b64encode(zlib.compress(planes, 9)).decode("ascii")


def _steps_of(places: Sequence[int]) -> Iterator[int]:
    """The first place, and from each place to the next."""
    before = 0
    for place in places:
        yield place - before
        before = place


def _mark(packet: report.Packet) -> int:
    return DROPPED * (packet.place == "drop") + MOVED * (packet.why in report.MOVES)


def data_of(rep: report.Report, axis: Axis, backlogs: Backlogs | None = None,
            found: sums.Flows | None = None) -> dict[str, Any]:
    """What the charts are drawn from, as an object of JSON."""
    columns = {
        "cpu": _packed(NO_CPU if packet.cpu is None else packet.cpu for packet in rep.packets),
        "queue": _packed(packet.q for packet in rep.packets),
        "mark": _packed(map(_mark, rep.packets))}
    if axis.unit is not None:
        columns["time"] = _packed(_steps_of(axis.places), 4)
    if backlogs is not None:
        columns["events"] = base64.b64encode(zlib.compress(backlogs.events, 9)).decode("ascii")
    if found is not None:
        columns["flow"] = _packed(rank if rank < FLOWS_CHARTED else OTHER_FLOW
                                  for rank in found.ranks)
    return {"packets": len(rep.packets), "end": axis.end, "unit": axis.unit,
            "cpus": sums.used_cpus(rep), "queues": sums.used_queues(rep),
            "flows": found.names[:FLOWS_CHARTED] if found is not None else [],
            "limit": backlogs.limit if backlogs is not None else None, "columns": columns}


def _json(value: object) -> str:
    """JSON that may stand in an element `script`."""
    text = json.dumps(value, separators=(",", ":"))
    return text.replace("&", "\\u0026").replace("<", "\\u003c").replace(">", "\\u003e")


def _table(table: sums.Table, number: int) -> Iterator[str]:
    """The lines of a table under its heading; it scrolls by itself where it is too wide."""
    name = "table%d" % number
    yield '<section aria-labelledby="%s">' % name
    yield '<h2 id="%s">%s</h2>' % (name, html.escape(table.title))
    yield '<div class="scroll" role="region" tabindex="0" aria-labelledby="%s">' % name
    yield "<table>"
    yield "<thead><tr>%s</tr></thead>" % "".join(
        '<th scope="col"%s>%s</th>' % (_text_class(text), html.escape(text))
        for text in table.header)
    yield "<tbody>"
    for row in table.rows:
        yield "<tr>%s</tr>" % "".join(_cell(place, field, table.header[place])
                                      for place, field in enumerate(row))
    yield "</tbody></table></div>"
    if table.note:
        yield "<p>%s</p>" % html.escape(table.note)
    yield "</section>"


def _cell(place: int, field: object, name: str) -> str:
    """A cell; the first one of a row, or the flow, is the heading of the row."""
    text = html.escape(str(field))
    if name == "flow" or place == 0 and name != "packets":
        return '<th scope="row"%s>%s</th>' % (_text_class(name), text)
    return "<td>%s</td>" % text


def _text_class(name: str) -> str:
    return ' class="text"' if name == "flow" else ""


def _charts(axis: Axis) -> Iterator[str]:
    """The place of the charts, which the script fills and shows."""
    x_axis = ("time from the first packet" if axis.unit is not None
              else "packet numbers, not time: " + axis.reason)
    buttons = "".join('<button type="button" id="%s">%s</button>' % pair for pair in (
        ("in", "Zoom in"), ("out", "Zoom out"), ("earlier", "Earlier"), ("later", "Later"),
        ("all", "Show all")))
    yield '<section id="over" aria-labelledby="over-title" hidden>'
    yield '<h2 id="over-title">Over time</h2>' if axis.unit is not None else (
        '<h2 id="over-title">Over the packets</h2>')
    yield '<p id="keys">%s</p>' % html.escape(KEYS.replace("\n", " "))
    yield '<p>Along the axis: %s.</p>' % html.escape(x_axis)
    yield '<div id="bar"><div role="toolbar" aria-label="Zoom">%s</div>' % buttons
    yield '<label id="choice" hidden>Packets of <select id="flow"></select></label>'
    yield '<p id="window"></p><p id="mark"></p></div>'
    yield '<p id="spoken" aria-live="polite"></p>'
    yield ('<div id="charts" tabindex="0" role="application" aria-label="Charts" '
           'aria-describedby="keys"></div>')
    yield "</section>"
    yield '<p id="fault" role="alert" hidden></p>'


def _not_shown(backlogs: Backlogs | None, found: sums.Flows | None) -> Iterator[str]:
    """What the page lacks because a file was not given."""
    if backlogs is None:
        yield "the length of backlogs over time (--plan)"
    if found is None:
        yield "flows (--hash)"


def _heading(rep: report.Report, title: str, axis: Axis, lacks: list[str]) -> Iterator[str]:
    yield "<h1>%s</h1>" % html.escape(title)
    yield "<ul>"
    for line in summary.headline(rep):
        yield "<li>%s</li>" % html.escape(line.replace("   ", ", "))
    if axis.unit is not None:
        yield "<li>%s from the first packet to the last; the first one came at %s</li>" % (
            axis.label(axis.end - 1), axis.clock())
    if lacks:
        yield "<li>not shown: %s</li>" % ", ".join(lacks)
    yield "</ul>"


def _policy(scripts: list[str]) -> str:
    """What a browser may load: nothing, and run: these scripts alone."""
    hashes = " ".join("'sha256-%s'" % base64.b64encode(
        hashlib.sha256(text.encode()).digest()).decode("ascii") for text in scripts)
    return "default-src 'none'; style-src 'unsafe-inline'; script-src %s" % hashes


def lines(rep: report.Report, title: str, axis: Axis, backlogs: Backlogs | None = None,
          found: sums.Flows | None = None) -> Iterator[str]:
    """The lines of the document, which is one file that refers to no other."""
    scripts = [_library(), "\n" + _file("page.js")]
    yield "<!DOCTYPE html>"
    yield '<html lang="en"><head><meta charset="utf-8">'
    yield '<meta http-equiv="Content-Security-Policy" content="%s">' % _policy(scripts)
    yield '<meta name="viewport" content="width=device-width, initial-scale=1">'
    yield '<meta name="color-scheme" content="light dark">'
    yield "<title>%s</title>" % html.escape(title)
    yield "<style>\n%s</style></head><body><main>" % _file("page.css")
    yield from _heading(rep, title, axis, list(_not_shown(backlogs, found)))
    if rep.packets:
        yield from _charts(axis)
        for number, table in enumerate(sums.tables_of(rep, axis, backlogs, found)):
            yield from _table(table, number)
    yield "</main>"
    if rep.packets:
        yield '<script type="application/json" id="data">%s</script>' % _json(
            data_of(rep, axis, backlogs, found))
        for text in scripts:
            yield "<script>%s</script>" % text
    yield "</body></html>"
