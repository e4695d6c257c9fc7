"""Tests of steer-cap, and of the reader and the writer of captures."""

import contextlib
import gzip
import io
import os
import pty
import random
import struct
import subprocess
import unittest

import running
from inside import inside
from reporting import Folder, frame, run_closed
from running import example

from steerlib import capture, cli

LISTED = ("1 (Ethernet), 12 (raw IP), 101 (raw IP), 113 (cooked), 228 (raw IPv4), "
          "229 (raw IPv6), 276 (cooked, version 2)")
SECOND = 1000000000


def sample(name):
    return running.sample("cap", name)


def bytes_of(name):
    with open(name, "rb") as stream:
        return stream.read()


def cap(*words, data=b""):
    """The status, the output and the lines on standard error of steer-cap."""
    status, out, said = inside("steer-cap", *words, data=data)
    return status, out, said.splitlines()


def records(data):
    """The records of a pcap file in nanoseconds: (time, length on the wire, frame)."""
    assert data[:4] == b"\x4d\x3c\xb2\xa1" and data[20:24] == b"\1\0\0\0", data[:24]
    found = []
    at = 24
    while at < len(data):
        second, fraction, length, wire = struct.unpack_from("<IIII", data, at)
        found.append((second * SECOND + fraction, wire, data[at + 16:at + 16 + length]))
        at += 16 + length
    return found


def pcap(frames, link=1, order="<", magic=0xa1b2c3d4):
    """A pcap file of frames (second, fraction, length on the wire, frame)."""
    out = struct.pack(order + "IHHIIII", magic, 2, 4, 0, 0, 65535, link)
    for second, fraction, wire, data in frames:
        out += struct.pack(order + "IIII", second, fraction, len(data), wire) + data
    return out


class Blocks:
    """Blocks of pcapng in a byte order."""

    def __init__(self, order="<"):
        self.order = order

    def pack(self, form, *values):
        return struct.pack(self.order + form, *values)

    def block(self, kind, body):
        body += bytes(-len(body) % 4)
        size = self.pack("I", len(body) + 12)
        return self.pack("I", kind) + size + body + size

    def section(self):
        return self.block(0x0a0d0d0a, self.pack("IHHq", 0x1a2b3c4d, 1, 0, -1))

    def interface(self, link=1, snap=0, options=b""):
        return self.block(1, self.pack("HHI", link, 0, snap) + options)

    def option(self, code, value):
        return self.pack("HH", code, len(value)) + value + bytes(-len(value) % 4)

    def enhanced(self, number, ticks, data, wire=None):
        return self.block(6, self.pack("IIIII", number, ticks >> 32, ticks & 0xffffffff, len(data),
                                       len(data) if wire is None else wire) + data)

    def obsolete(self, number, ticks, data):
        return self.block(2, self.pack("HHIIII", number, 0, ticks >> 32, ticks & 0xffffffff,
                                       len(data), len(data)) + data)

    def simple(self, data, wire=None):
        return self.block(3, self.pack("I", len(data) if wire is None else wire) + data)


def read(data):
    """The frames of a capture, and its reader once they were read."""
    reader = capture.Capture(io.BytesIO(data), "it")
    return list(reader.frames()), reader


def converted(data, incoming=False):
    """What steer-cap writes of a capture, without its notes."""
    out = io.BytesIO()
    reader = capture.Capture(io.BytesIO(data), "it")
    with contextlib.redirect_stderr(io.StringIO()):
        capture.copy(capture.Conversion(reader, incoming), capture.PcapWriter(out, "it"))
    return out.getvalue()


def hash_of(data):
    """What steer says of each packet of a capture, and its last line."""
    with Folder() as folder:
        lines = cli.run_steer(["hash", folder.write("c.pcap", data)]).decode().splitlines()
    return lines[:-1], lines[-1]


def version_1(data):
    """A pcap file of cooked frames of version 2 as one of version 1, which has the same fields."""
    out = data[:20] + struct.pack("<I", 113)
    at = 24
    while at < len(data):
        second, fraction, length, wire = struct.unpack_from("<IIII", data, at)
        old = data[at + 16:at + 16 + length]
        new = b"\0" + old[10:11] + old[8:10] + b"\0" + old[11:12] + old[12:20] + old[:2]
        out += struct.pack("<IIII", second, fraction, length - 4, wire - 4) + new + old[20:]
        at += 16 + length
    return out


class Kinds(unittest.TestCase):
    def test_cooked_frames_are_those_that_the_device_showed(self):
        """Two recorders saw the same traffic: -i any, and the device with -Q in."""
        status, out, said = cap("--in", sample("any.pcap"))
        self.assertEqual((status, said[-1]), (0, "note: 233 frames written, 267 outgoing left out"))
        on_device, _ = hash_of(bytes_of(sample("nsec-cut.pcap")))
        self.assertEqual(hash_of(out), (on_device[:233], "packets 233"))
        status, every, said = cap(sample("any.pcap"))
        self.assertEqual((status, said[-1]), (0, "note: 500 frames written"))
        self.assertIn("note: 267 outgoing frames are among them, which a replay takes for incoming "
                      "ones; --in leaves them out", said)
        self.assertEqual([one for one in records(every) if one in records(out)], records(out))
        self.assertEqual(cap("--in", "-", data=version_1(bytes_of(sample("any.pcap"))))[1], out)

    def test_raw_packets_are_those_of_ethernet(self):
        packets = [frame(flow) for flow in range(40)]
        for link, types in ((101, "46"), (12, "46"), (228, "4"), (229, "6")):
            wanted = {"4": b"\x08\x00", "6": b"\x86\xdd"}
            chosen = [one for one in packets if one[12:14] in [wanted[kind] for kind in types]]
            raw = pcap([(7, 0, len(one) - 14, one[14:]) for one in chosen], link)
            self.assertEqual(records(converted(raw)),
                             [(7 * SECOND, len(one), one) for one in chosen])
        for link, type_of_it in ((228, b"\x08\x00"), (229, b"\x86\xdd"), (101, b"\x86\xdd"),
                                 (12, b"\x08\x00")):
            first = {228: b"\x60", 229: b"\x45", 101: b"\x6f", 12: b"\x50"}[link]
            out = records(converted(pcap([(0, 0, 1, first)], link)))
            self.assertEqual(out, [(0, 15, bytes(12) + type_of_it + first)], link)

    def test_frames_without_a_whole_header(self):
        """They stay frames without a flow, and their direction is not known."""
        for link in capture.LINKS:
            short = pcap([(1, 0, size, bytes(range(size))) for size in range(15)], link)
            flows, last = hash_of(converted(short, incoming=True))
            self.assertEqual(last, "packets 15", link)
            self.assertEqual({line.split()[2] for line in flows}, {"none"}, link)

    def test_samples_of_ethernet_keep_their_flows(self):
        for name in ("own-first3000.pcap", "ng-first500.pcapng", "nsec-cut.pcap", "be-cut.pcap",
                     "gro-300.pcap", "tags.pcap", "vxlan.pcap", "lo.pcap", "header-only.pcap"):
            flows, last = hash_of(bytes_of(sample(name)))
            status, out, said = cap(sample(name))
            self.assertEqual((status, hash_of(out)),
                             (0, (flows, "packets %d" % len(flows))), name)
            cut = [line for line in said if "cut" in line]
            self.assertEqual(cut, ["note: the last record is cut and left out: %s bytes of it are "
                                   "there" % last.split()[3]] if "cut" in last else [])

    def test_as_a_process_of_its_own(self):
        """Its bytes come through a pipe as they are within a test."""
        with open(sample("be-cut.pcap"), "rb") as stream:
            ended = subprocess.run([os.path.join(running.TOOLS, "steer-cap"), "-"], stdin=stream,
                                   stdout=subprocess.PIPE, stderr=subprocess.PIPE)
        status, out, said = cap(sample("be-cut.pcap"))
        self.assertEqual((ended.returncode, ended.stdout, ended.stderr.decode().splitlines()),
                         (status, out, said))

    def test_packed_and_from_standard_input(self):
        for name in ("ng-first500.pcapng", "be-cut.pcap"):
            plain = cap(sample(name))
            data = bytes_of(sample(name))
            self.assertEqual(cap("-", data=data), plain)
            self.assertEqual(cap("-", data=gzip.compress(data)), plain)
            with Folder() as folder:
                self.assertEqual(cap(folder.write("x", gzip.compress(data))), plain)

    def test_a_mixed_file_keeps_what_can_be_read(self):
        blocks = Blocks()
        frames = [frame(flow) for flow in range(3)]
        mixed = (blocks.section() + blocks.interface() + blocks.interface(105)
                 + blocks.interface(101) + blocks.block(4, bytes(8))
                 + blocks.enhanced(0, 1, frames[0]) + blocks.enhanced(1, 2, b"wireless")
                 + blocks.enhanced(2, 3, frames[1][14:]) + blocks.enhanced(0, 4, frames[2]))
        status, out, said = cap("-", data=mixed)
        self.assertEqual((status, said), (0, [
            "note: 1 frames left out, of link type 105; what is read is " + LISTED,
            "note: 3 frames written"]))
        self.assertEqual([one[2] for one in records(out)], frames)

    def test_frames_of_other_links_alone_are_refused(self):
        blocks = Blocks()
        for data, subject in (
                (pcap([(0, 0, 4, b"abcd")], 105), "its frames have"),
                (blocks.section() + blocks.interface(105) + blocks.enhanced(0, 1, b"abcd"),
                 "all its frames have")):
            self.assertEqual(cap("-", data=data), (3, b"", [
                "steer-cap: standard input: refused: %s link type 105; what is read is %s"
                % (subject, LISTED)]))

    def test_nothing_but_outgoing_frames(self):
        blocks = Blocks()
        sent = b"\x08\0" + bytes(6) + b"\0\1\4\6" + bytes(8) + frame(0)[14:]
        data = (blocks.section() + blocks.interface(276) + blocks.interface(105)
                + blocks.enhanced(0, 1, sent) + blocks.enhanced(1, 2, b"wireless"))
        status, out, said = cap("--in", "-", data=data)
        self.assertEqual((status, records(out), said[-1]),
                         (0, [], "note: 0 frames written, 1 outgoing left out"))

    def test_in_says_where_there_is_no_direction(self):
        said = cap("--in", sample("lo.pcap"))[2]
        self.assertEqual(said, ["note: --in: no frame tells its direction, as cooked ones do, so "
                                "all are kept", "note: 6 frames written"])


class Times(unittest.TestCase):
    def test_pcap_in_both_orders_and_units(self):
        for order in "<>":
            for magic, unit in ((0xa1b2c3d4, 1000), (0xa1b23c4d, 1)):
                data = pcap([(5, 678901, 60, bytes(60))], 1, order, magic)
                self.assertEqual(read(data)[0],
                                 [(1, 5 * SECOND + 678901 * unit, 60, bytes(60), 0)])

    def test_units_and_offsets_of_interfaces(self):
        """Each interface has its own, a new section begins anew, in either byte order."""
        data, wanted = b"", []
        for order in "<>":
            blocks = Blocks(order)
            data += blocks.section()
            for number, (options, ticks, time) in enumerate((
                    (b"", 1500000, 1500000000),
                    (blocks.option(9, b"\x09"), 1500000, 1500000),
                    (blocks.option(2, b"eth0") + blocks.option(9, b"\x03"), 1500, 1500000000),
                    (blocks.option(9, b"\x0c"), 1500000999, 1500000),
                    (blocks.option(9, b"\x8a"), 1536, 1500000000),
                    (blocks.option(9, b"\x00"), 3, 3000000000),
                    (blocks.option(14, blocks.pack("q", 100)), 7, 100000007000),
                    (blocks.option(14, blocks.pack("q", -1)) + blocks.option(9, b"\x09"),
                     2 * SECOND + 1, SECOND + 1),
                    (blocks.option(0, b"") + blocks.option(9, b"\x09"), 1, 1000),
                    (blocks.option(9, b"\x09"), 0x123456789abcdef, 0x123456789abcdef))):
                data += blocks.interface(1, 0, options)
                data += blocks.enhanced(number, ticks, b"frame")
                wanted.append(time)
        self.assertEqual([one.time for one in read(data)[0]], wanted)

    def test_obsolete_blocks_become_packets(self):
        """steer passes them over in silence in the file itself."""
        blocks = Blocks()
        data = (blocks.section() + blocks.interface()
                + blocks.obsolete(0, 1 << 32 | 5, frame(1)) + blocks.enhanced(0, 7, frame(2)))
        self.assertEqual(hash_of(data)[1], "packets 1")
        status, out, said = cap("-", data=data)
        self.assertEqual((status, said), (0, [
            "note: 1 frames were in obsolete packet blocks, which steer passes over in silence in "
            "the file itself", "note: 2 frames written"]))
        self.assertEqual(records(out), [(4294967301000, len(frame(1)), frame(1)),
                                        (7000, len(frame(2)), frame(2))])
        self.assertEqual(hash_of(out)[1], "packets 2")

    def test_simple_blocks_have_no_time(self):
        blocks = Blocks()
        data = (blocks.section() + blocks.interface(1, 50) + blocks.simple(frame(0)[:50], 900)
                + blocks.simple(frame(2)[:41]))
        frames = read(data)[0]
        self.assertEqual([(one.time, one.wire, one.data) for one in frames],
                         [(None, 900, frame(0)[:50]), (None, 41, frame(2)[:41])])
        status, out, said = cap("-", data=data)
        self.assertEqual((status, said), (0, [
            "note: 2 frames were in simple packet blocks, which have no time: 0 is written, and a "
            "schedule by times makes no sense", "note: 2 frames written"]))
        self.assertEqual([one[0] for one in records(out)], [0, 0])

    def test_a_time_that_pcap_has_no_room_for_is_refused(self):
        blocks = Blocks()
        for offset in (-10, 1 << 32):
            data = (blocks.section()
                    + blocks.interface(1, 0, blocks.option(14, blocks.pack("q", offset)))
                    + blocks.enhanced(0, 0, b"frame"))
            status, _, said = cap("-", data=data)
            self.assertEqual((status, said), (3, [
                "steer-cap: standard input: refused: packet 0 is %d seconds from 1970, and a pcap "
                "file has room for 0 to 4294967295" % offset]))


class Parts(unittest.TestCase):
    def test_parts_make_the_whole(self):
        whole = records(cap("--in", sample("any.pcap"))[1])
        parts, first = [], 0
        while True:
            status, out, said = cap("--in", "--from", str(first), "--count", "100",
                                    sample("any.pcap"))
            part = records(out)
            parts += part
            self.assertEqual(status, 0)
            if "more follow" not in said[-1]:
                break
            first += len(part)
            self.assertTrue(said[-1].endswith("; more follow: --from %d" % first), said)
        self.assertEqual((parts, first, len(part)), (whole, 200, 33))
        behind = cap("--from", "500", sample("any.pcap"))
        self.assertEqual((behind[0], records(behind[1]), behind[2]),
                         (0, [], ["note: 0 frames written"]))

    def test_the_size_that_steer_reads_is_kept(self):
        writer = capture.PcapWriter(io.BytesIO(), "it")
        writer.begin()
        writer.size = capture.MOST_FILE - 16 - 60
        fits = capture.Frame(1, 0, 60, bytes(60), 0)
        self.assertTrue(writer.has_room(fits))
        self.assertFalse(writer.has_room(fits._replace(data=bytes(61))))
        writer.size += 1
        reader = capture.Capture(io.BytesIO(pcap([(0, 0, 60, bytes(60))])), "it")
        self.assertTrue(capture.copy(capture.Conversion(reader), writer))

    def test_a_file_cut_anywhere_is_read_as_steer_reads_it(self):
        blocks = Blocks(">")
        files = (pcap([(1, 2, 60, frame(0)), (1, 3, 60, frame(1))]),
                 blocks.section() + blocks.interface() + blocks.enhanced(0, 1, frame(0))
                 + blocks.block(5, bytes(8)) + blocks.simple(frame(1)))
        for data in files:
            for size in list(range(28, len(data), 13)) + [len(data) - 4, len(data)]:
                frames, reader = read(data[:size])
                said = "packets %d" % len(frames) + (" cut %d" % reader.cut if reader.cut else "")
                self.assertEqual(said, hash_of(data[:size])[1], size)


class Merged(unittest.TestCase):
    def test_merged_frames_are_counted(self):
        """How many are longer is what tshark counts: over 1514 bytes, over 1520 of cooked ones."""
        for name, merged, frames in (("gro-300.pcap", 195, 300), ("own-first3000.pcap", 332, 3000),
                                     ("any.pcap", 175, 500), ("tags.pcap", 0, 201)):
            said = [line for line in cap(sample(name))[2] if "longer than" in line]
            self.assertEqual(len(said), 1 if merged else 0, name)
            for line in said:
                self.assertIn("note: %d of %d frames are longer than 1514 bytes: merged before the "
                              "capture (GRO, TSO)" % (merged, frames), line)

    def test_how_many_packets_a_frame_stands_for(self):
        """TCP with time stamps has 66 bytes of headers and 1448 of payload in 1514 bytes."""
        tag, two = b"\x81\x00\0\5", b"\x88\xa8\0\6\x81\x00\0\5"
        for wire, tags, packets in ((60, b"", 1), (1514, b"", 1), (1515, b"", 2), (2962, b"", 2),
                                    (65226, b"", 45), (1518, tag, 1), (1519, tag, 2),
                                    (1522, two, 1), (1523, two, 2), (1518, b"", 2)):
            merged = capture.Merged()
            merged.show(capture.Frame(1, 0, wire, bytes(12) + tags + b"\x08\x00", 0))
            self.assertEqual((merged.packets, merged.merged), (packets, int(packets > 1)),
                             (wire, tags))


class Faults(unittest.TestCase):
    def test_what_is_no_capture(self):
        blocks, section = Blocks(), Blocks().section()
        interface = blocks.interface()
        cases = (
            (b"", "no capture: 0 bytes, and a pcap file has a header of 24"),
            (b"{" * 40, "no capture: it begins with the bytes 7b7b7b7b, which are neither those of "
                        "pcap nor of pcapng"),
            (pcap([])[:4] + b"\2\0\3\0" + bytes(16), "a pcap file of version 2.3; 2.4 is read"),
            (pcap([]) + struct.pack("<IIII", 0, 0, 262145, 262145),
             "packet 0 has 262145 bytes; at most 262144 are read"),
            (section[:8] + b"\1\2\3\4" + section[12:],
             "block 0 is a section with the bytes 01020304 where its byte order stands"),
            (section[:12] + b"\2\0" + section[14:], "block 0 is a section of version 2; 1 is read"),
            (section + blocks.pack("II", 5, 13) + bytes(8), "block 1 has the length 13"),
            (section + blocks.pack("II", 1, 16) + bytes(8), "block 1 has the length 16"),
            (section + interface[:-4] + blocks.pack("I", 24),
             "block 1 has the length 20 before it and 24 behind it"),
            (section + blocks.enhanced(0, 0, b""),
             "block 1 is a packet of interface 0, and its section has 0 so far"),
            (section + interface + section + blocks.simple(b""),
             "block 3 is a packet of interface 0, and its section has 0 so far"),
            (section + interface + blocks.block(6, blocks.pack("IIIII", 0, 0, 0, 9, 9) + bytes(8)),
             "block 2 is a packet of 9 bytes in a block that holds 8"),
            (section + interface + blocks.simple(b"abcd", 5),
             "block 2 is a packet of 5 bytes in a block that holds 4"),
            (section + interface + blocks.simple(b"abcd", 262145),
             "block 2 is a packet of 262145 bytes; at most 262144 are read"))
        for data, text in cases:
            with self.assertRaises(cli.NotThatFile) as caught:
                read(data)
            self.assertEqual(str(caught.exception), "it: " + text)
        status, out, said = cap("-", data=cases[1][0])
        self.assertEqual((status, out, said),
                         (4, b"", ["steer-cap: standard input: " + cases[1][1]]))

    def test_files_that_cannot_be_read(self):
        packed = gzip.compress(bytes_of(sample("be-cut.pcap")))
        with Folder() as folder:
            for name, text in ((folder.path("none"), "No such file or directory"),
                               (folder.name, "Is a directory"),
                               (folder.write("cut", packed[:-400]), "the gz data is cut short")):
                status, _, said = cap(name)
                self.assertEqual((status, said[-1]), (4, "steer-cap: %s: %s" % (name, text)))

    def test_wrong_words(self):
        for words, text in (
                ([], "the following arguments are required: CAPTURE (--help says more)"),
                (["--count", "262145", "x"], "argument --count: 262145 is not a whole number from "
                 "0 to 262144 (--help says more)"),
                (["--from", "1.5", "x"], "argument --from: 1.5 is not a whole number from 0 on "
                 "(--help says more)")):
            self.assertEqual(cap(*words), (2, b"", ["steer-cap: " + text]))

    def test_nothing_is_written_to_a_terminal(self):
        master, slave = pty.openpty()
        ended = subprocess.run([os.path.join(running.TOOLS, "steer-cap"), sample("lo.pcap")],
                               stdout=slave, stderr=subprocess.PIPE)
        os.close(slave)
        os.close(master)
        self.assertEqual((ended.returncode, ended.stderr),
                         (2, b"steer-cap: a capture is not written to a terminal: add > FILE\n"))

    def test_a_closed_pipe_is_silent(self):
        status, said = run_closed("steer-cap", sample("own-first3000.pcap"))
        self.assertEqual((status, "steer-cap:" in said, "Traceback" in said), (0, False, False))

    def test_changed_bytes_never_break_it(self):
        """Each changed file gives frames or a refusal, and what is written are whole records."""
        chance = random.Random(37)
        blocks = Blocks()
        files = [bytes_of(sample("any.pcap"))[:900], bytes_of(example("three.pcap")),
                 blocks.section() + blocks.interface(113, 50, blocks.option(9, b"\6"))
                 + blocks.enhanced(0, 5, frame(0)) + blocks.simple(frame(1))
                 + blocks.obsolete(0, 6, frame(2))]
        kinds = set()
        for number in range(600):
            data = bytearray(files[number % 3])
            for _ in range(chance.randint(1, 4)):
                data[chance.randrange(len(data))] = chance.choice((0, 1, 4, 255, 12, 129))
            out = io.BytesIO()
            try:
                with contextlib.redirect_stderr(io.StringIO()):
                    reader = capture.Capture(io.BytesIO(bytes(data)), "it")
                    conversion = capture.Conversion(reader, number % 2 == 0)
                    capture.copy(conversion, capture.PcapWriter(out, "it"))
                    conversion.say(1)
                kinds.add("read")
            except (cli.Refused, cli.NotThatFile) as fault:
                kinds.add(type(fault).__name__)
            if out.getvalue():
                records(out.getvalue())
        self.assertEqual(kinds, {"read", "Refused", "NotThatFile"})

    def test_help_is_complete(self):
        status, out, _ = cap("--help")
        self.assertEqual(status, 0)
        for part in (b"--in", b"--from N", b"--count N", b"example:", cli.APART.encode(),
                     cli.STATUSES.encode()):
            self.assertIn(part, out)


if __name__ == "__main__":
    unittest.main()
