"""Draws a report: packets, drops and moves of each processor over the packet numbers.

The packets are divided into cells of one size, the smallest that keeps the picture within its
number of columns; the last cell may have fewer packets. Where the flows of the packets are known,
those with the most packets have rows too, and the texts that a pointer shows name flows.
"""

from __future__ import annotations

from collections import Counter, defaultdict
from typing import Callable, Iterator, NamedTuple, Sequence
from xml.etree import ElementTree

from . import flows, report
from .report import Report

TEXT_CELLS = 64
SVG_CELLS = 160
FLOWS_SHOWN = 5
FLOWS_OF_A_CELL = 3
SHADES = ".:-=+*#%@"
WIDTH = 800
WIDEST_CELL = 40
ROW_HEIGHT = 40
FLOW_HEIGHT = 28
NAME_HEIGHT = 18
GAP = 8
LEFT = 64
RIGHT = 150
TOP = 46
PUT_COLOR = "#3366aa"
DROP_COLOR = "#cc3333"
MOVE_COLOR = "#222222"


class Cells:
    """The counts of a report by cells. Lists have a number for each cell.

    `size` is how many packets a cell has. `offered` and `dropped` are by processor, of those that
    some packet was sent to; `moves` are packets whose flow left its processor, and `unsent` have
    no processor yet. `names` has the flow of each packet of the capture, as flows.of_report gives
    it, or is None. Then `flows` and `flow_drops` are of the flows with the most packets, the first
    with the most, `of_cpu` has the flows' packets by processor and cell, and `of_moves` the flows'
    moves by cell.
    """

    def __init__(self, rep: Report, most: int, names: Sequence[str] | None = None) -> None:
        self.packets = len(rep.packets)
        self.total = rep.end.total
        self.size = max(-(-self.packets // most), 1)
        self.count = -(-self.packets // self.size)
        self.offered = {}
        self.dropped = {}
        self.moves = [0] * self.count
        self.unsent = [0] * self.count
        self.flows: dict[str, list[int]] = {}
        self.flow_drops: dict[str, list[int]] = {}
        self.of_cpu: dict[tuple[int, int], Counter[str]] = defaultdict(Counter)
        self.of_moves: list[Counter[str]] = [Counter() for _ in self.moves]
        for flow, _ in Counter((names or ())[:self.packets]).most_common(FLOWS_SHOWN):
            self.flows[flow] = [0] * self.count
            self.flow_drops[flow] = [0] * self.count
        used = {packet.cpu for packet in rep.packets}
        for row in rep.cpus:
            if row.cpu in used:
                self.offered[row.cpu] = [0] * self.count
                self.dropped[row.cpu] = [0] * self.count
        for packet in rep.packets:
            self._count_in(packet, packet.id // self.size)
            if names is not None:
                self._count_flow(packet, packet.id // self.size, names[packet.id])
        self.largest = max((max(counts) for counts in self.offered.values()), default=0)
        self.largest_flow = max((max(counts) for counts in self.flows.values()), default=0)

    def _count_in(self, packet, cell):
        if packet.cpu is None:
            self.unsent[cell] += 1
            return
        self.offered[packet.cpu][cell] += 1
        self.dropped[packet.cpu][cell] += packet.place == "drop"
        self.moves[cell] += packet.why in report.MOVES

    def _count_flow(self, packet, cell, flow):
        if flow in self.flows:
            self.flows[flow][cell] += 1
            self.flow_drops[flow][cell] += packet.place == "drop"
        if packet.cpu is not None:
            self.of_cpu[packet.cpu, cell][flow] += 1
        if packet.why in report.MOVES:
            self.of_moves[cell][flow] += 1

    def bounds(self, cell: int) -> tuple[int, int]:
        """The first and the last packet of a cell."""
        return cell * self.size, min((cell + 1) * self.size, self.packets) - 1


def _shade(count, largest):
    """Blank for no packet, else one of the shades, the last for the fullest cell."""
    return SHADES[(count * len(SHADES) - 1) // largest] if count else " "


def _drop_mark(dropped, offered):
    """x if more than half of a cell's packets were dropped, ' if fewer were."""
    if not dropped:
        return " "
    return "x" if 2 * dropped > offered else "'"


def _text_row(label, marks, count):
    return "%-8s|%s| %d" % (label, "".join(marks), count)


def text(rep: Report, names: Sequence[str] | None = None) -> Iterator[str]:
    """The lines of the picture for a terminal; `names` are the flows of the packets."""
    cells = Cells(rep, TEXT_CELLS, names)
    for cpu, counts in cells.offered.items():
        yield _text_row("cpu %d" % cpu, [_shade(count, cells.largest) for count in counts],
                        sum(counts))
    for cpu, counts in cells.dropped.items():
        if any(counts):
            marks = [_drop_mark(*pair) for pair in zip(counts, cells.offered[cpu])]
            yield _text_row("drops %d" % cpu, marks, sum(counts))
    for label, mark, counts in (("moves", "^", cells.moves), ("no cpu", "?", cells.unsent)):
        if any(counts):
            yield _text_row(label, [mark if count else " " for count in counts], sum(counts))
    for number, (flow, counts) in enumerate(cells.flows.items(), 1):
        marks = [_shade(count, cells.largest_flow) for count in counts]
        yield "%s  %s" % (_text_row("flow %d" % number, marks, sum(counts)), flows.name(flow))
    if cells.packets:
        last = str(cells.packets - 1)
        yield "packet   0" + last.rjust(max(cells.count - 1, len(last) + 1))
        yield "a column is %s; marks from %s to %s go up to %s on one cpu%s" % (
            _packets(cells.size), SHADES[0], SHADES[-1], _packets(cells.largest),
            _of_one_flow(cells))
    if cells.packets < cells.total or not cells.total:
        yield "%d of %d packets arrived" % (cells.packets, cells.total)


def _packets(count):
    return "1 packet" if count == 1 else "%d packets" % count


def _of_one_flow(cells):
    """What the fullest marks of flows mean, where there are any."""
    return ", and %s of one flow" % _packets(cells.largest_flow) if cells.flows else ""


def _number(value):
    """A length with two decimals at the most."""
    return "%g" % round(value, 2)


def _cell_width(cells):
    return min(WIDTH / max(cells.count, 1), WIDEST_CELL)


def _add(parent, tag, content=None, **attributes):
    """An element of SVG; the names of attributes have _ for -."""
    names = {name.replace("_", "-"): str(value) for name, value in attributes.items()}
    element = ElementTree.SubElement(parent, tag, names)
    element.text = content
    return element


class _Row(NamedTuple):
    """A row of bars: packets and drops by cells, and the text that a pointer shows of a cell.

    The bar of a cell with `largest` packets has the whole `height`.
    """

    label: str
    offered: Sequence[int]
    dropped: Sequence[int]
    largest: int
    height: int
    hover: Callable[[int], str]


def _named(counts):
    """Lines of the flows with the most packets, of the packets of each."""
    shown = counts.most_common(FLOWS_OF_A_CELL)
    lines = ["%d of %s" % (count, flows.name(flow)) for flow, count in shown]
    others = len(counts) - len(shown)
    if others:
        rest = sum(counts.values()) - sum(count for _, count in shown)
        lines.append("%d of %d more %s" % (rest, others, "flow" if others == 1 else "flows"))
    return "".join("\n" + line for line in lines)


def _cpu_row(cells, cpu):
    offered, dropped = cells.offered[cpu], cells.dropped[cpu]

    def hover(cell):
        return "packets %d to %d: %d on cpu %d, %d of them dropped%s" % (
            cells.bounds(cell) + (offered[cell], cpu, dropped[cell],
                                  _named(cells.of_cpu[cpu, cell])))

    return _Row("cpu %d" % cpu, offered, dropped, cells.largest, ROW_HEIGHT, hover)


def _flow_row(cells, number, flow):
    offered, dropped = cells.flows[flow], cells.flow_drops[flow]

    def hover(cell):
        return "packets %d to %d: %d of %s, %d of them dropped" % (
            cells.bounds(cell) + (offered[cell], flows.name(flow), dropped[cell]))

    return _Row("flow %d" % number, offered, dropped, cells.largest_flow, FLOW_HEIGHT, hover)


def _bar(parent, cells, row, cell, bottom):
    """The bar of a cell: accepted packets, and the dropped ones on top of them in red."""
    offered, dropped = row.offered[cell], row.dropped[cell]
    if not offered:
        return
    group = _add(parent, "g")
    _add(group, "title", row.hover(cell))
    width = _cell_width(cells)
    top = bottom
    for count, color in ((offered - dropped, PUT_COLOR), (dropped, DROP_COLOR)):
        if count:
            height = round(row.height * count / row.largest, 2)
            top = round(top - height, 2)
            _add(group, "rect", x=_number(LEFT + cell * width), y=top, width=_number(width),
                 height=height, fill=color)


def _row(parent, cells, row, bottom):
    dropped = sum(row.dropped)
    _add(parent, "text", row.label, x=8, y=bottom - 4)
    _add(parent, "line", x1=LEFT, y1=bottom, x2=LEFT + WIDTH, y2=bottom, stroke="#bbbbbb")
    for cell in range(cells.count):
        _bar(parent, cells, row, cell, bottom)
    _add(parent, "text", _packets(sum(row.offered)), x=LEFT + WIDTH + 8, y=bottom - 18)
    if dropped:
        _add(parent, "text", "%d dropped" % dropped, x=LEFT + WIDTH + 8, y=bottom - 4,
             fill=DROP_COLOR)


def _moves(parent, cells, bottom):
    """Marks under the rows for each cell in which some flow left its processor."""
    _add(parent, "text", "moves", x=8, y=bottom)
    _add(parent, "text", str(sum(cells.moves)), x=LEFT + WIDTH + 8, y=bottom)
    width = _cell_width(cells)
    for cell, count in enumerate(cells.moves):
        if count:
            mark = _add(parent, "rect", x=_number(LEFT + cell * width), y=bottom - 10,
                        width=_number(width), height=10, fill=MOVE_COLOR)
            _add(mark, "title", "packets %d to %d: %d moves%s"
                 % (cells.bounds(cell) + (count, _named(cells.of_moves[cell]))))


def _flow_rows(parent, cells, top):
    """The rows of flows, each under its name, from this height on."""
    for place, flow in enumerate(cells.flows):
        bottom = top + (place + 1) * (NAME_HEIGHT + FLOW_HEIGHT + GAP) - GAP
        _add(parent, "text", flows.name(flow), x=LEFT, y=bottom - FLOW_HEIGHT - 4)
        _row(parent, cells, _flow_row(cells, place + 1, flow), bottom)


def _axis(parent, cells, bottom):
    """The number of the first packet of some cells, and of the last cell, under the picture."""
    width = _cell_width(cells)
    for cell in sorted({(cells.count - 1) * part // 8 for part in range(9)} if cells.count else ()):
        at = _number(LEFT + (cell + 0.5) * width)
        _add(parent, "line", x1=at, y1=bottom, x2=at, y2=bottom + 5, stroke="#222222")
        _add(parent, "text", str(cells.bounds(cell)[0]), x=at, y=bottom + 18,
             text_anchor="middle")
    _add(parent, "text", "packet", x=8, y=bottom + 18)


def _heading(root, cells, title):
    text_of = "%s: %s" % (title, _packets(cells.packets))
    if cells.packets < cells.total:
        text_of += " of %d" % cells.total
    _add(root, "title", text_of)
    _add(root, "rect", width="100%", height="100%", fill="#ffffff")
    _add(root, "text", text_of, x=8, y=18, font_weight="bold")
    for x, color, label in ((LEFT, PUT_COLOR, "accepted"), (LEFT + 100, DROP_COLOR, "dropped")):
        _add(root, "rect", x=x, y=26, width=10, height=10, fill=color)
        _add(root, "text", label, x=x + 14, y=35)
    if cells.packets:
        _add(root, "text", "a column is %s; full height is %s of it on one cpu%s"
             % (_packets(cells.size), _packets(cells.largest), _of_one_flow(cells)),
             x=LEFT + 200, y=35)


def svg(rep: Report, title: str, names: Sequence[str] | None = None) -> str:
    """The picture as the text of an SVG document; `title` is any text that XML allows.

    `names` are the flows of the packets.
    """
    cells = Cells(rep, SVG_CELLS, names)
    moved = 24 if any(cells.moves) else 0
    of_cpus = TOP + len(cells.offered) * (ROW_HEIGHT + GAP) + moved
    bottom = of_cpus + len(cells.flows) * (NAME_HEIGHT + FLOW_HEIGHT + GAP)
    root = ElementTree.Element("svg", {
        "xmlns": "http://www.w3.org/2000/svg", "font-family": "sans-serif", "font-size": "12",
        "width": str(LEFT + WIDTH + RIGHT), "height": str(bottom + 28)})
    _heading(root, cells, title)
    for place, cpu in enumerate(cells.offered):
        _row(root, cells, _cpu_row(cells, cpu), TOP + (place + 1) * (ROW_HEIGHT + GAP))
    if moved:
        _moves(root, cells, of_cpus - 4)
    _flow_rows(root, cells, of_cpus)
    _axis(root, cells, bottom)
    return ElementTree.tostring(root, encoding="unicode") + "\n"
