"""Captures: the frames of pcap and pcapng files with their times, and pcap files that steer reads.

Times are whole nanoseconds since 1970, lengths are bytes. A file that is neither pcap nor pcapng,
or whose lengths contradict each other, raises NotThatFile.
"""

from __future__ import annotations

import os
import struct
from collections import Counter
from typing import BinaryIO, Iterator, NamedTuple

from . import limits
from .cli import NotThatFile, Refused, note, open_bytes

MOST_FRAME = 262144
MOST_FILE = 268435456
MOST_BLOCK = 1 << 26

SECTION, INTERFACE, OBSOLETE, SIMPLE, ENHANCED = 0x0A0D0D0A, 1, 2, 3, 6
SECTION_BYTES = b"\n\r\r\n"
LEAST_LENGTH = {SECTION: 28, INTERFACE: 20, OBSOLETE: 32, SIMPLE: 16, ENHANCED: 32}

MAGICS = {b"\xd4\xc3\xb2\xa1": ("<", 1000), b"\xa1\xb2\xc3\xd4": (">", 1000),
          b"\x4d\x3c\xb2\xa1": ("<", 1), b"\xa1\xb2\x3c\x4d": (">", 1)}

ETHERNET, RAW_OLD, RAW, COOKED, RAW_4, RAW_6, COOKED_2 = 1, 12, 101, 113, 228, 229, 276
LINKS = {ETHERNET: "Ethernet", RAW_OLD: "raw IP", RAW: "raw IP", COOKED: "cooked",
         RAW_4: "raw IPv4", RAW_6: "raw IPv6", COOKED_2: "cooked, version 2"}

OUTGOING = 4
NO_ADDRESSES = bytes(12)
LONGEST_UNMERGED = 1514
TCP_HEADERS, TCP_PAYLOAD = 66, 1448


def is_capture(name: str) -> bool:
    """Whether this is a file, and none that is read only once, that begins as captures do.

    It may be packed.
    """
    if not os.path.isfile(name):
        return False
    with open_bytes(name) as stream:
        start = stream.read(4)
    return start == SECTION_BYTES or start in MAGICS


class Frame(NamedTuple):
    """A frame with its link type, its time (None where the file has none), and what was captured.

    `wire` is its length on the wire; `kind` is the pcapng type of its block, 0 in a pcap file.
    """

    link: int
    time: int | None
    wire: int
    data: bytes
    kind: int


class _Interface(NamedTuple):
    link: int
    snap: int
    ticks: int
    offset: int


class Capture:
    """A capture that is read once, from its beginning, out of a binary stream.

    Once frames() has ended, `cut` is the number of bytes of a last record that is not whole, 0
    where there is none.
    """

    def __init__(self, stream: BinaryIO, source: str) -> None:
        self.stream = stream
        self.source = source
        self.cut = 0
        self.start = stream.read(4)
        self.is_pcapng = self.start == SECTION_BYTES
        if not self.is_pcapng:
            self._read_header()

    def _fault(self, reason, *values):
        return NotThatFile(self.source, reason % values)

    def _read_header(self):
        """Reads what stands before the first record of a pcap file."""
        header = self.start + self.stream.read(20)
        if len(header) < 24:
            raise self._fault("no capture: %d bytes, and a pcap file has a header of 24",
                              len(header))
        if self.start not in MAGICS:
            raise self._fault("no capture: it begins with the bytes %s, which are neither those "
                              "of pcap nor of pcapng", self.start.hex())
        self.order, self.unit = MAGICS[self.start]
        major, minor = struct.unpack(self.order + "HH", header[4:8])
        if (major, minor) != (2, 4):
            raise self._fault("a pcap file of version %d.%d; 2.4 is read", major, minor)
        self.link = struct.unpack(self.order + "I", header[20:])[0] & 0xFFFF

    def frames(self) -> Iterator[Frame]:
        """Yields each Frame in the order of the file."""
        return self._blocks() if self.is_pcapng else self._records()

    def _records(self):
        """The frames of a pcap file."""
        read, link, unit = self.stream.read, self.link, self.unit
        unpack = struct.Struct(self.order + "IIII").unpack
        number = 0
        while True:
            head = read(16)
            if len(head) < 16:
                self.cut = len(head)
                return
            second, fraction, length, wire = unpack(head)
            if length > MOST_FRAME:
                raise self._fault("packet %d has %d bytes; at most %d are read", number, length,
                                  MOST_FRAME)
            data = read(length)
            if len(data) < length:
                self.cut = 16 + len(data)
                return
            yield Frame(link, second * 1000000000 + fraction * unit, wire, data, 0)
            number += 1

    def _blocks(self):
        """The frames of a pcapng file."""
        self.block = 0
        self.interfaces = []
        self.order = "<"
        head = self.start + self.stream.read(8)
        while len(head) == 12:
            kind, body = self._block(head)
            if body is None:
                return
            if kind in (ENHANCED, SIMPLE, OBSOLETE):
                yield self._frame(kind, body)
            elif kind == INTERFACE:
                self.interfaces.append(self._interface(body))
            elif kind == SECTION:
                self._begin_section(body)
            self.block += 1
            head = self.stream.read(12)
        self.cut = len(head)

    def _block(self, head):
        """The type of the block that begins with these 12 bytes, and its body, None where cut."""
        if head[:4] == SECTION_BYTES:
            self._set_order(head[8:])
        kind, length = struct.unpack(self.order + "II", head[:8])
        if length % 4 or length < LEAST_LENGTH.get(kind, 12) or length > MOST_BLOCK:
            raise self._fault("block %d has the length %d", self.block, length)
        rest = head[8:] + self.stream.read(length - 12)
        if len(rest) < length - 8:
            self.cut = 8 + len(rest)
            return kind, None
        tail = struct.unpack(self.order + "I", rest[-4:])[0]
        if tail != length:
            raise self._fault("block %d has the length %d before it and %d behind it", self.block,
                              length, tail)
        return kind, rest[:-4]

    def _set_order(self, magic):
        """Takes the byte order of a section from its magic number."""
        if magic == b"\x4d\x3c\x2b\x1a":
            self.order = "<"
        elif magic == b"\x1a\x2b\x3c\x4d":
            self.order = ">"
        else:
            raise self._fault("block %d is a section with the bytes %s where its byte order stands",
                              self.block, magic.hex())

    def _begin_section(self, body):
        major = struct.unpack(self.order + "H", body[4:6])[0]
        if major != 1:
            raise self._fault("block %d is a section of version %d; 1 is read", self.block, major)
        self.interfaces = []

    def _interface(self, body):
        """What an interface description says: link type, snap length, ticks a second, offset."""
        link, snap = struct.unpack(self.order + "HxxI", body[:8])
        ticks, offset = 1000000, 0
        for code, value in self._options(body, 8):
            if code == 9 and len(value) == 1:
                ticks = 2 ** (value[0] & 127) if value[0] & 128 else 10 ** value[0]
            elif code == 14 and len(value) == 8:
                offset = struct.unpack(self.order + "q", value)[0]
        return _Interface(link, snap, ticks, offset)

    def _options(self, body, at):
        """The code and the value of each option that stands from byte `at` of `body` on."""
        while at + 4 <= len(body):
            code, length = struct.unpack_from(self.order + "HH", body, at)
            if code == 0:
                return
            yield code, body[at + 4:at + 4 + length]
            at += 4 + (length + 3) // 4 * 4

    def _frame(self, kind, body):
        """The frame of a block that has one."""
        if kind == SIMPLE:
            return self._simple_frame(body)
        form = "IIIII" if kind == ENHANCED else "HxxIIII"
        number, high, low, length, wire = struct.unpack_from(self.order + form, body)
        interface = self._known(number)
        self._check_length(length, len(body) - 20)
        ticks = high << 32 | low
        time = ticks * 1000000000 // interface.ticks + interface.offset * 1000000000
        return Frame(interface.link, time, wire, body[20:20 + length], kind)

    def _simple_frame(self, body):
        interface = self._known(0)
        wire = struct.unpack_from(self.order + "I", body)[0]
        length = min(wire, interface.snap) if interface.snap else wire
        self._check_length(length, len(body) - 4)
        return Frame(interface.link, None, wire, body[4:4 + length], SIMPLE)

    def _known(self, number):
        if number >= len(self.interfaces):
            raise self._fault("block %d is a packet of interface %d, and its section has %d so far",
                              self.block, number, len(self.interfaces))
        return self.interfaces[number]

    def _check_length(self, length, room):
        if length > MOST_FRAME:
            raise self._fault("block %d is a packet of %d bytes; at most %d are read", self.block,
                              length, MOST_FRAME)
        if length > room:
            raise self._fault("block %d is a packet of %d bytes in a block that holds %d",
                              self.block, length, room)


def is_outgoing(frame: Frame) -> bool:
    """Whether the machine itself sent this frame; only cooked frames say so, others are not."""
    if frame.link == COOKED:
        return frame.data[:2] == b"\0\4"
    return frame.link == COOKED_2 and frame.data[10:11] == b"\4"


def _raw_type(frame):
    """The Ethernet type of a raw IP packet."""
    if frame.link == RAW_6 or frame.link != RAW_4 and frame.data[:1] and frame.data[0] >> 4 == 6:
        return b"\x86\xdd"
    return b"\x08\x00"


def to_ethernet(frame: Frame) -> Frame:
    """The frame as one of Ethernet, with zeros for the addresses that it lacks.

    The link type is one of LINKS.
    """
    link, time, wire, data, kind = frame
    if link == COOKED:
        data, wire = NO_ADDRESSES + data[14:], wire - 2
    elif link == COOKED_2:
        data, wire = NO_ADDRESSES + data[:2] + data[20:], wire - 6
    elif link != ETHERNET:
        data, wire = NO_ADDRESSES + _raw_type(frame) + data, wire + 14
    return Frame(ETHERNET, time, min(max(wire, 0), 0xFFFFFFFF), data[:MOST_FRAME], kind)


class Merged:
    """Counts frames that were merged before they were captured, of Ethernet frames shown to it."""

    def __init__(self) -> None:
        self.frames = 0
        self.merged = 0
        self.packets = 0

    def show(self, frame: Frame) -> None:
        """Counts a frame; the tags of VLANs do not make it longer."""
        self.frames += 1
        if frame.wire <= LONGEST_UNMERGED:
            self.packets += 1
            return
        at = 12
        while at < 20 and frame.data[at:at + 2] in (b"\x81\x00", b"\x88\xa8"):
            at += 4
        tags = at - 12
        if frame.wire <= LONGEST_UNMERGED + tags:
            self.packets += 1
        else:
            self.merged += 1
            self.packets += -(-(frame.wire - tags - TCP_HEADERS) // TCP_PAYLOAD)

    def say(self) -> None:
        """Notes how many were merged, and about how many packets all frames stand for."""
        if self.merged:
            note("%d of %d frames are longer than %d bytes: merged before the capture (GRO, TSO), "
                 "where the MTU is 1500; with %d bytes of TCP a packet all stand for about %d "
                 "packets" % (self.merged, self.frames, LONGEST_UNMERGED, TCP_PAYLOAD,
                              self.packets))


class PcapWriter:
    """Writes a pcap file of Ethernet frames with nanoseconds, which steer reads.

    Nothing is written before begin() or the first frame.
    """

    def __init__(self, stream: BinaryIO, source: str) -> None:
        self.stream = stream
        self.source = source
        self.frames = 0
        self.size = 0
        self.pack = struct.Struct("<IIII").pack

    def begin(self) -> None:
        """Writes what stands before the first frame, once."""
        if not self.size:
            self.stream.write(struct.pack("<IHHIIII", 0xA1B23C4D, 2, 4, 0, 0, MOST_FRAME, ETHERNET))
            self.size = 24

    def has_room(self, frame: Frame) -> bool:
        """Whether the file stays within what steer reads with this frame."""
        return self.size + 16 + len(frame.data) <= MOST_FILE

    def write(self, frame: Frame) -> None:
        """Writes a frame; one without a time has the time 0."""
        self.begin()
        second, fraction = divmod(frame.time or 0, 1000000000)
        if not 0 <= second < 1 << 32:
            raise Refused(self.source, "packet %d is %d seconds from 1970, and a pcap file has "
                          "room for 0 to %d" % (self.frames, second, (1 << 32) - 1))
        data = frame.data
        self.stream.write(self.pack(second, fraction, len(data), frame.wire) + data)
        self.frames += 1
        self.size += 16 + len(data)


class Conversion:
    """Turns a capture into the Ethernet frames that steer reads, and counts what it did.

    `incoming`: whether outgoing frames are left out, where the link type tells them.
    """

    def __init__(self, capture: Capture, incoming: bool = False) -> None:
        self.capture = capture
        self.incoming = incoming
        self.forget()

    def forget(self) -> None:
        """Counts anew."""
        self.left_out: Counter[int] = Counter()
        self.kinds: Counter[int] = Counter()
        self.cooked = 0
        self.outgoing = 0

    def frames(self, first: int = 0) -> Iterator[Frame]:
        """Yields each Ethernet frame but the first so many, and counts from there on.

        Refused where a pcap file has a link type that is none of LINKS; a pcapng file may have
        such frames among others, and they are left out.
        """
        capture = self.capture
        if not capture.is_pcapng and capture.link not in LINKS:
            raise Refused(capture.source, "its frames have %s" % other_link(capture.link))
        for frame in capture.frames():
            if frame.link != ETHERNET:
                if frame.link not in LINKS:
                    self.left_out[frame.link] += 1
                    continue
                if self._is_left_out(frame):
                    continue
                frame = to_ethernet(frame)
            if first:
                first -= 1
                if not first:
                    self.forget()
                continue
            self.kinds[frame.kind] += 1
            yield frame

    def _is_left_out(self, frame):
        """Whether this frame is an outgoing one, and only incoming ones are wanted."""
        if frame.link not in (COOKED, COOKED_2):
            return False
        self.cooked += 1
        outgoing = is_outgoing(frame)
        self.outgoing += outgoing
        return outgoing and self.incoming

    def say(self, written: int) -> None:
        """Notes what was left out, what steer would pass over, and what the file does not tell.

        `written`: how many frames were written.
        """
        for link, count in sorted(self.left_out.items()):
            note("%d frames left out, of %s" % (count, other_link(link)))
        if self.incoming and not self.cooked and written:
            note("--in: no frame tells its direction, as cooked ones do, so all are kept")
        if self.outgoing and not self.incoming:
            note("%d outgoing frames are among them, which a replay takes for incoming ones; --in "
                 "leaves them out" % self.outgoing)
        if self.kinds[OBSOLETE]:
            note("%d frames were in obsolete packet blocks, which steer passes over in silence in "
                 "the file itself" % self.kinds[OBSOLETE])
        if self.kinds[SIMPLE]:
            note("%d frames were in simple packet blocks, which have no time: 0 is written, and a "
                 "schedule by times makes no sense" % self.kinds[SIMPLE])
        if self.capture.cut:
            note("the last record is cut and left out: %d bytes of it are there"
                 % self.capture.cut)


def other_link(link: int) -> str:
    """What to say of a link type that is not read."""
    return "link type %d; what is read is %s" % (
        link, ", ".join("%d (%s)" % known for known in sorted(LINKS.items())))


def copy(conversion: Conversion, writer: PcapWriter, first: int = 0,
         count: int = limits.MOST_PACKETS) -> bool:
    """Writes `count` frames of a conversion, but not the first so many, to a PcapWriter.

    Says whether more follow, which is so too where the file would be longer than steer reads.
    Refused where there are frames, and all have link types that are not read.
    """
    merged = Merged()
    for frame in conversion.frames(first):
        if writer.frames == count or not writer.has_room(frame):
            merged.say()
            return True
        writer.write(frame)
        merged.show(frame)
    if conversion.left_out and not (writer.frames or conversion.cooked or first):
        link = min(conversion.left_out)
        raise Refused(writer.source, "all its frames have %s" % other_link(link))
    writer.begin()
    merged.say()
    return False
