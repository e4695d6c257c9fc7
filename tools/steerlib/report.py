"""Reads the report of `steer replay`, checks its form line by line, and recounts its sums.

A row of a report is a named tuple; a dash of the report is None. Counter numbers (`head`, `tail`,
`at`) have 32 bits and wrap; all other numbers are indices, which count from 0, or plain counts.
"""

from __future__ import annotations

import functools
import re
import tempfile
from typing import IO, Any, Dict, Iterator, NamedTuple, Sequence

from . import cli, progress

FIRST_LINE = b"steer 1\n"
LONGEST_LINE = 512
TOLD_LINES = 8192             # after so many lines it is said how many are read


class Packet(NamedTuple):
    """A line `p`. `drop`, with its two counts, and `flow_offers` are of a dropped packet."""

    id: int
    q: int
    via: str
    class_: int | None
    want: int | None
    head: int | None
    tail: int | None
    cpu: int | None
    why: str | None
    at: int | None
    drop: int | None
    drop_accepted: int | None
    drop_pulled: int | None
    flow_offers: int | None
    app: int
    inbox: int | None
    place: str


class Reply(NamedTuple):
    """A line `r`: the reply to a packet."""

    id: int
    app: int
    rxq: int
    cpu: int
    pick: int | None
    head: int | None
    tail: int | None
    tx: int | None
    why: str | None
    at: int | None
    port: int | None


class Queue(NamedTuple):
    """The sums of a receive queue."""

    queue: int
    arrived: int
    taken: int


class Cpu(NamedTuple):
    """The sums of a processor."""

    cpu: int
    accepted: int
    pulled: int
    delivered: int
    retired: int
    dropped: int


class Tx(NamedTuple):
    """The sums of a transmit queue."""

    tx: int
    accepted: int
    pulled: int
    delivered: int
    retired: int


class Write(NamedTuple):
    """A write of the table of readers (rps_sock_flow_entries)."""

    app: int
    entry: int
    cpu: int


class Answer(NamedTuple):
    """A command and what was answered."""

    number: int
    step: str
    answer: str


class Tap(NamedTuple):
    """What a tap wrote."""

    number: int
    text: bytes


class End(NamedTuple):
    """The last line."""

    arrived: int
    total: int
    cut: int | None


MOVES = ("passed", "offline")
"""The reasons for which a packet's flow leaves the processor, or the queue, that it had."""

NUMBER = r"(0|[1-9]\d{0,9})"
MAYBE = r"(-|0|[1-9]\d{0,9})"
SET = r"(?:-|\d+(?:,\d+)*)"
STEP = (r"(mask \d+ " + SET + r"|flows \d+ \d+|sock \d+|offline \d+|online \d+|xcpus \d+ " + SET
        + r"|xqueues \d+ " + SET + r"|reta \d+ \d+|stand \d+ \d+|expire)")
ANSWER = (r"(done|idle online|busy inside \d+|busy lane \d+ head \d+ tail \d+"
          r"|in use queue \d+|in use app \d+|cpu offline|expired \d+)")

FORMS = {
    "p": "p N q N via (filter|reta|none) class M want M head M tail M cpu M "
         "why (-|plain|same|unset|offline|passed|kept) at (?:M|drop N N N(?: flow N)?) "
         "app N in M place (ring|poller|backlog|hand|inbox|drop)",
    "r": "r N app N rxq N cpu N pick M head M tail M tx M "
         "why (-|plain|same|unset|offline|passed|kept) at M port M",
    "queue": "queue N arrived N taken N",
    "cpu": "cpu N accepted N pulled N delivered N retired N dropped N",
    "tx": "tx N accepted N pulled N delivered N retired N",
    "w": "w app N entry N cpu N",
    "c": "c N STEP ANSWER",
    "tap": "tap N bytes N",
    "end": "end N of N(?: cut N)?",
}
"""The form of each kind of line, in the order of a report: N a number, M a number or a dash."""

ROWS: Dict[str, Any] = {"p": Packet, "r": Reply, "queue": Queue, "cpu": Cpu, "tx": Tx, "w": Write,
                        "c": Answer, "tap": Tap, "end": End}

KINDS = [kind for kind in FORMS if kind != "end"]


def _pattern(form):
    """A pattern for the bytes of a whole line of this form."""
    parts = {"N": NUMBER, "M": MAYBE, "STEP": STEP, "ANSWER": ANSWER}
    text = re.sub(r"\b(STEP|ANSWER|N|M)\b", lambda found: parts[found.group()], form)
    return re.compile(text.encode() + rb"\n", re.ASCII)


PATTERNS = {kind: _pattern(form) for kind, form in FORMS.items()}


@functools.lru_cache(maxsize=None)
def _field_pattern(kind, names):
    """A quick pattern of a kind that captures these fields alone, up to the last of them."""
    fields = iter(ROWS[kind]._fields)
    quick = {"N": r"([^ \na-z]+)", "M": r"([^ \na-z]+)", "STEP": STEP, "ANSWER": ANSWER}

    def part(found):
        text = quick.get(found.group(), r"([^ \n]+)")
        return text if next(fields) in names else "(?:" + text[1:]

    text = re.sub(r"\b(?:N|M|STEP|ANSWER)\b|\((?!\?)[^)]*\)", part, FORMS[kind])
    end = max(found.end() for found in re.finditer(r"\((?!\?)", text))
    while text.count("(", 0, end) > text.count(")", 0, end):
        end = text.index(")", end) + 1
    end += text[end:end + 1] == "?"
    return re.compile(("\n" + text[:end]).encode(), re.ASCII)


def fields_of(data: bytes, kind: str, names: Sequence[str],
              start: int = 0) -> list[tuple[bytes, ...]]:
    """These fields of each line of a kind in the bytes of a report, in the order of the row.

    Fields are bytes as they are written, empty where the line's form leaves them out. This is for
    reports that were just made: nothing is checked, and a line of another form is passed over. The
    lines are those after the line feed at `start`, or after a later one.
    """
    return _field_pattern(kind, tuple(names)).findall(data, start)


class Report:
    """A report: lists of rows by kind. `taps` are (number, bytes); `end` is the last line.

    `end.arrived` packets of the `end.total` of the capture arrived; `end.cut` is how many bytes of
    a cut last record the capture has, or None.
    """

    def __init__(self, packets: list[Packet], replies: list[Reply], queues: list[Queue],
                 cpus: list[Cpu], tx: list[Tx], writes: list[Write], answers: list[Answer],
                 taps: list[Tap], end: End) -> None:
        self.packets = packets
        self.replies = replies
        self.queues = queues
        self.cpus = cpus
        self.tx = tx
        self.writes = writes
        self.answers = answers
        self.taps = taps
        self.end = end

    def by_kind(self) -> dict[str, list[Any]]:
        """The lists of rows by kind: `p`, `r`, `queue`, `cpu`, `tx`, `w`, `c`, `tap`."""
        return dict(zip(KINDS, (self.packets, self.replies, self.queues, self.cpus, self.tx,
                                self.writes, self.answers, self.taps)))


class _Lines:
    """The lines of a stream: `line` is the one that is read next, `number` counts from 1.

    `tell` is the Progress of reading, or None.
    """

    def __init__(self, stream, source, tell):
        self.stream = stream
        self.source = source
        self.number = 0
        self.tell = tell
        self.advance()

    def advance(self):
        """Goes on to the next line; it has no line feed if it is cut or too long."""
        self.line = self.stream.readline(LONGEST_LINE)
        self.number += 1
        if self.tell is not None and not self.number % TOLD_LINES:
            self.tell.at(self.number)

    def skip(self, size):
        """The next `size` bytes, which are whole lines or none."""
        text = self.stream.read(size)
        self.number += text.count(b"\n")
        if len(text) < size:
            raise cli.Refused(self.source, "cut short after line %d (%d of the %d bytes of a tap)"
                              % (self.number, len(text), size))
        return text

    def refuse(self, reason):
        raise cli.Refused(self.source, "line %d %s" % (self.number, reason))

    def refuse_line(self):
        """Refuses the next line, which is none of those that may follow."""
        if not self.line.endswith(b"\n") and len(self.line) < LONGEST_LINE:
            raise cli.Refused(self.source, "cut short after line %d (no line `end`)"
                              % (self.number - 1))
        shown = self.line[:80].decode("ascii", "backslashreplace").rstrip("\n")
        self.refuse("is unexpected: `%s`" % shown)


class _Values(dict):
    """Fields as numbers or words; a dash, and a field that the form left out, is None.

    Each is made once, which is faster, and lets rows share their numbers.
    """

    def __missing__(self, field):
        if field is None or field == b"-":
            value = None
        elif field.isdigit():
            value = int(field)
        else:
            value = field.decode()
        self[field] = value
        return value


def _check_number(row, rows, lines):
    if row[0] != len(rows):
        lines.refuse("has number %d, expected %d" % (row[0], len(rows)))


def _check_reply(row, rows, lines):
    if rows and row.id <= rows[-1].id:
        lines.refuse("has number %d after %d" % (row.id, rows[-1].id))


def _check_packet(row, rows, lines):
    """Refuses a packet out of order, and one whose own fields contradict each other."""
    _check_number(row, rows, lines)
    if (row.place == "drop") != (row.drop is not None):
        lines.refuse("has place %s and %s drop" % (row.place, "no" if row.drop is None else "a"))
    if (row.place == "inbox") != (row.inbox is not None):
        lines.refuse("has place %s and %s place in an inbox"
                     % (row.place, "no" if row.inbox is None else "a"))
    if (row.cpu is None) != (row.why is None):
        lines.refuse("has a processor without a reason, or a reason without a processor")
    is_put = row.at is not None or row.drop is not None
    if is_put != (row.place not in ("ring", "poller")) or (is_put and row.cpu is None):
        lines.refuse("has place %s and processor %s and position %s"
                     % (row.place, row.cpu, row.at))


CHECKS = {"p": _check_packet, "r": _check_reply, "w": None}


def _read_kind(kind, lines, values):
    """The rows of a kind, up to the first line of another one."""
    pattern = PATTERNS[kind]
    make = ROWS[kind]._make
    check = CHECKS.get(kind, _check_number)
    rows = []
    while True:
        found = pattern.fullmatch(lines.line)
        if found is None:
            return rows
        row = make(map(values.__getitem__, found.groups()))
        if check is not None:
            check(row, rows, lines)
        if kind == "tap":
            row = Tap(row.number, lines.skip(row.text))
        rows.append(row)
        lines.advance()


def _read_end(lines, values):
    found = PATTERNS["end"].fullmatch(lines.line)
    if found is None:
        lines.refuse_line()
    lines.advance()
    if lines.line:
        lines.refuse("follows the line `end`")
    return End._make(map(values.__getitem__, found.groups()))


def read(stream: IO[bytes], source: str = "report",
         tell: progress.Progress | None = None) -> Report:
    """The report that a binary stream has; `source` names it in messages.

    `tell` is given the number of lines that are read. Raises NotThatFile if the first line is not
    that of a report, and Refused if it is cut short, a line has another form, or a sum is not that
    of its packets.
    """
    lines = _Lines(stream, source, tell)
    if lines.line != FIRST_LINE:
        raise cli.NotThatFile(source, "is no report: its first line is not `steer 1`")
    lines.advance()
    values = _Values()
    rows: list[Any] = [_read_kind(kind, lines, values) for kind in KINDS]
    rows.append(_read_end(lines, values))
    report = Report(*rows)
    for difference in differences(report):
        raise cli.Refused(source, difference)
    return report


def read_file(name: str, told: bool = True) -> Report:
    """The report in the file `name`; `-` is standard input, and gz is opened through.

    A terminal has how many lines were read, where that takes long and `told` is true.
    """
    source = cli.source_name(name)
    tell = progress.Progress("%s: lines read" % source, None, only_terminal=True) if told else None
    try:
        with cli.open_bytes(name) as stream:
            return read(stream, source, tell)
    finally:
        if tell is not None:
            tell.end()


def replay(plan: str, capture: str) -> Report:
    """The report of `steer replay` on the files with these names."""
    with tempfile.TemporaryFile() as out:
        cli.run_steer(["replay", plan, capture], out)
        out.seek(0)
        return read(out, "steer replay %s %s" % (plan, capture))


def _counted_queues(report):
    """The sums of each receive queue over the packets."""
    arrived = [0] * len(report.queues)
    taken = [0] * len(report.queues)
    for packet in report.packets:
        arrived[packet.q] += 1
        taken[packet.q] += packet.place != "ring"
    return [Queue(number, arrived[number], taken[number]) for number in range(len(arrived))]


def _counted_cpus(report):
    """The sums of each processor over the packets; `retired` is None, since no line has it."""
    sums = [[0, 0, 0, 0] for _ in report.cpus]
    for packet in report.packets:
        if packet.cpu is None:
            continue
        count = sums[packet.cpu]
        count[0] += packet.at is not None
        count[1] += packet.place in ("hand", "inbox")
        count[2] += packet.place == "inbox"
        count[3] += packet.place == "drop"
    return [(number, accepted, pulled, delivered, None, dropped)
            for number, (accepted, pulled, delivered, dropped) in enumerate(sums)]


def _counted_tx(report):
    """The sums of each transmit queue over the replies, without `pulled` and `retired`."""
    sums = [[0, 0] for _ in report.tx]
    for reply in report.replies:
        if reply.tx is None:
            continue
        sums[reply.tx][0] += reply.at is not None
        sums[reply.tx][1] += reply.port is not None
    return [(number, accepted, None, delivered, None)
            for number, (accepted, delivered) in enumerate(sums)]


def _out_of_range(report):
    """A text for the first row whose queue, processor or packet the report does not have."""
    queues, cpus, tx = len(report.queues), len(report.cpus), len(report.tx)
    for row in report.packets:
        if row.q >= queues:
            return "packet %d is of queue %d, and there are %d" % (row.id, row.q, queues)
        if row.cpu is not None and row.cpu >= cpus:
            return "packet %d is of processor %d, and there are %d" % (row.id, row.cpu, cpus)
    for row in report.replies:
        if row.id >= len(report.packets):
            return "reply %d is of no packet that arrived" % row.id
        if row.tx is not None and row.tx >= tx:
            return "reply %d is of transmit queue %d, and there are %d" % (row.id, row.tx, tx)
    return None


def _unlike(kind, said, counted, of):
    for row, sums in zip(said, counted):
        for name, value, count in zip(row._fields, row, sums):
            if count is not None and value != count:
                yield ("%s %d says %s %d, and the lines of its %s give %d"
                       % (kind, row[0], name, value, of, count))


def _work_in_order(kind, rows):
    """A text for each row with more than one packet in hand, or with work done out of order."""
    for row in rows:
        if not (row.retired <= row.delivered <= row.pulled <= row.accepted
                and row.pulled - row.retired <= 1):
            yield ("%s %d says accepted %d, pulled %d, delivered %d, retired %d, which no order of "
                   "work gives" % (kind, row[0], row.accepted, row.pulled, row.delivered,
                                   row.retired))


def differences(report: Report) -> Iterator[str]:
    """A text for each sum of a report that is not the sum over its packets or replies.

    `retired` of a processor, and `pulled` and `retired` of a transmit queue, cannot be counted from
    the lines of packets and replies; they are compared with the other sums of their line only.
    """
    wrong = _out_of_range(report)
    if wrong is not None:
        yield wrong
        return
    if report.end.arrived != len(report.packets) or report.end.arrived > report.end.total:
        yield ("the last line says %d of %d packets, and there are lines of %d"
               % (report.end.arrived, report.end.total, len(report.packets)))
    yield from _unlike("queue", report.queues, _counted_queues(report), "packets")
    yield from _unlike("cpu", report.cpus, _counted_cpus(report), "packets")
    yield from _unlike("tx", report.tx, _counted_tx(report), "replies")
    yield from _work_in_order("cpu", report.cpus)
    yield from _work_in_order("tx", report.tx)
