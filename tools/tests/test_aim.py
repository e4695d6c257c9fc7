"""Tests of steer-aim: published hashes, a bitwise hash of their own, and steer itself."""

import ipaddress
import json
import random
import unittest

import running
from inside import inside
from reporting import Folder
from running import example, sample

from steerlib import aiming, plan

KEY = plan.VERIFICATION_KEY
# Microsoft's verification suite for the RSS hash, which the 82599 datasheet has too: source,
# destination, the hash with TCP ports, the hash of the addresses alone.
SUITE = (
    ("66.9.149.187:2794", "161.142.100.80:1766", 0x51ccc178, 0x323e8fc2),
    ("199.92.111.2:14230", "65.69.140.83:4739", 0xc626b0ea, 0xd718262a),
    ("24.19.198.95:12898", "12.22.207.184:38024", 0x5c2b394a, 0xd2d0a5de),
    ("38.27.205.30:48228", "209.142.163.6:2217", 0xafc7327f, 0x82989176),
    ("153.39.163.191:44251", "202.188.127.2:1303", 0x10e828a2, 0x5d1809c5),
    ("[3ffe:2501:200:1fff::7]:2794", "[3ffe:2501:200:3::1]:1766", 0x40207d3d, 0x2cc18cd5),
    ("[3ffe:501:8::260:97ff:fe40:efab]:14230", "[ff02::1]:4739", 0xdde51bbf, 0x0f0c461c),
    ("[3ffe:1900:4545:3:200:f8ff:fe21:67cf]:44251", "[fe80::200:f8ff:fe21:67cf]:38024",
     0x02d1feef, 0x4b61e985))
PLAN = {"cpus": 6, "key": KEY, "sock": 0, "apps": [0], "tx": [{"cpus": [], "queues": []}],
        "queues": [{"home": 4, "mask": [3, 1, 0], "flows": 0}, {"home": 5, "mask": [], "flows": 0},
                   {"home": 1, "mask": [2, 5, 2], "flows": 0}], "steps": ["sweep"]}


def bitwise(key, data):
    """The Toeplitz hash bit by bit, of two numbers."""
    value, key = 0, int(key, 16)
    for at in range(8 * len(data)):
        if data[at // 8] >> (7 - at % 8) & 1:
            value ^= key >> (320 - 32 - at) & 0xffffffff
    return value


def addresses(text):
    """`1.2.3.4:5` without its port."""
    return text.rpartition(":")[0].strip("[]")


def aimed(*words, to=example("rps.json")):
    """The status, the rows and the message of steer-aim."""
    status, out, said = inside("steer-aim", to, *words)
    return status, [line.split(None, 5) for line in out.decode().splitlines()[1:]], said


def frame(kind, source, port, target, target_port):
    """An Ethernet frame of IPv4 over TCP or UDP."""
    header = bytes.fromhex("450000280000000040") + bytes([6 if kind == "tcp" else 17]) + bytes(2)
    return (bytes.fromhex("020000000002020000000001" "0800") + header + source + target
            + port.to_bytes(2, "big") + target_port.to_bytes(2, "big") + bytes(16))


def pcap(frames):
    head = bytes.fromhex("d4c3b2a1020004000000000000000000ffff000001000000")
    return head + b"".join(bytes(8) + 2 * len(one).to_bytes(4, "little") + one for one in frames)


class Flows(unittest.TestCase):
    def test_the_verification_suite(self):
        """Queue and processor by hand: the table is even over 2 queues, the mask is 2 and 3."""
        words, wanted = [], []
        for source, target, by_ports, by_addresses in SUITE:
            words += ["tcp", source, target, "ip", addresses(source), addresses(target)]
            for value, cpu in ((by_ports, str(2 + (by_ports >> 31))), (by_addresses, "?")):
                wanted.append(["%08x" % value, str(value % 128), str(value % 2),
                               str(2 + value % 2), cpu])
        status, rows, said = aimed(*words)
        self.assertEqual((status, said), (0, ""))
        self.assertEqual([row[:5] for row in rows], wanted)
        self.assertEqual(rows[0][5], "tcp4 66.9.149.187:2794 > 161.142.100.80:1766")

    def test_as_steer_replays(self):
        """300 flows over a plan of weights, masks of 3, 0 and 2, and kinds without ports of UDP."""
        draw = random.Random(5)
        made = dict(PLAN, kinds=3, reta=[draw.randrange(3) for _ in range(128)])
        frames, words = [], []
        for _ in range(300):
            kind = draw.choice(("tcp", "udp"))
            source, target = (bytes(draw.choices(range(256), k=4)) for _ in range(2))
            ports = draw.randrange(65536), draw.randrange(65536)
            frames.append(frame(kind, source, ports[0], target, ports[1]))
            words += [kind] + ["%s:%d" % (ipaddress.ip_address(address), port)
                               for address, port in zip((source, target), ports)]
        with Folder() as folder:
            name = folder.write("plan.json", json.dumps(made).encode())
            capture = folder.write("own.pcap", pcap(frames))
            status, rows, _ = aimed(*words, to=name)
            lines = running.steer("replay", name, capture)[1].splitlines()
        self.assertEqual(status, 0)
        replayed = [line.split() for line in lines if line.startswith("p ")]
        self.assertEqual([(row[2], row[3]) for row in rows],
                         [(line[3], line[15]) for line in replayed])

    def test_no_hash_goes_home(self):
        with Folder() as folder:
            name = folder.write("plan.json", json.dumps(dict(PLAN, kinds=0)).encode())
            _, rows, _ = aimed("tcp", "192.0.2.1:1", "198.51.100.7:2", to=name)
        self.assertEqual([row[:5] for row in rows], [["-", "none", "0", "4", "?"]])

    def test_what_a_snapshot_has_not(self):
        """A device without ethtool: what is taken in place of the card's own is said."""
        status, rows, said = aimed("tcp", *SUITE[0][:2], to=sample("snap", "virtio-1q.snap"))
        self.assertEqual((status, rows[0][0]), (0, "%08x" % SUITE[0][2]))
        self.assertEqual(said, "".join(
            "note: the snapshot has no %s of the card; %s taken\n" % pair for pair in (
                ("key", "the verification key is"), ("kinds", "kinds 63 are"),
                ("table", "an even one is"))))

    def test_rules_and_wide_machines(self):
        """A rule of the samples leads TCP to port 80 of 10.9.0.1; 32 queues are no plan's."""
        text = running.sample_text("snap", "ixgbe-8q-rules.snap")
        queue = text.split("Filter: 1023")[1].split("Direct to queue ")[1].split()[0]
        _, rows, _ = aimed("tcp", "192.0.2.1:5", "10.9.0.1:80",
                           to=sample("snap", "ixgbe-8q-rules.snap"))
        self.assertEqual(rows[0][1:3], ["rule", queue])
        status, rows, said = aimed("--from", "192.0.2.1", "--to", "198.51.100.7:443", "--queue",
                                   "31", to=sample("snap", "ena-32q.snap"))
        self.assertEqual((status, rows[0][2:5]), (0, ["31", "31", "31"]), said)


class Ports(unittest.TestCase):
    def test_the_first_ports_of_a_range(self):
        """Against a bitwise hash: queue, and the processor by either rule."""
        head = bytes([192, 0, 2, 1, 198, 51, 100, 7])
        flows = [(port, bitwise(KEY, head + port.to_bytes(2, "big") + (443).to_bytes(2, "big")))
                 for port in range(1000, 1400)]
        for words, fits in (
                (["--queue", "0"], lambda value: value % 128 % 3 == 0),
                (["--queue", "2", "--cpu", "5"],
                 lambda value: value % 128 % 3 == 2 and value % 2 == 1),
                (["--queue", "0", "--cpu", "3", "--kernel"],
                 lambda value: value % 128 % 3 == 0 and value * 3 >> 32 == 2)):
            with Folder() as folder:
                name = folder.write("plan.json", json.dumps(PLAN).encode())
                _, rows, _ = aimed("--from", "192.0.2.1", "--to", "198.51.100.7:443", "--ports",
                                   "1000-1399", "--count", "9", *words, to=name)
            self.assertEqual(
                [row[5] for row in rows],
                ["tcp4 192.0.2.1:%d > 198.51.100.7:443" % port
                 for port, value in flows if fits(value)][:9], words)
            self.assertEqual(len(rows), 9)

    def test_what_is_refused(self):
        to = ("--from", "192.0.2.1", "--to", "198.51.100.7:443")
        for words, status, text in (
                (to + ("--queue", "2"), 3, "receive queue 2 is not in 0 to 1"),
                (to + ("--cpu", "0"), 3, "none of the source ports 32768-60999 reaches processor"),
                (to, 2, "a flow is needed"),
                (to + ("--kernel", "--queue", "1"), 2, "--kernel goes with --cpu"),
                (("--from", "::1", "--to", "1.2.3.4:5", "--queue", "1"), 2, "two versions of IP"),
                (("--from", "1.2.3.4:5", "--to", "1.2.3.4:5", "--queue", "1"), 2, "without a port"),
                (to[:3] + ("198.51.100.7", "--queue", "1"), 2, "a flow of tcp has two ports"),
                (("tcp", "1.2.3.4:5"), 2, "`tcp 1.2.3.4:5` is no flow"),
                (("sctp", "1.2.3.4:5", "1.2.3.4:5"), 2, "is no flow"),
                (("tcp", "1.2.3.4:65536", "1.2.3.4:5"), 2, "port 65536 is not in 0 to 65535"),
                (("tcp", "1.2.3:5", "1.2.3.4:5"), 2, "`1.2.3` is no IPv4 or IPv6 address"),
                (("ip", "1.2.3.4:5", "1.2.3.4:5"), 2, "a flow of ip has no ports"),
                (("tcp", "[::1:5", "::1"), 2, "`[::1:5` is no IPv4 or IPv6 address")):
            found = aimed(*words)
            self.assertEqual((found[0], found[1]), (status, []), words)
            self.assertIn(text, found[2], words)
        found = inside("steer-aim", example("web.pcap"), "ip", "::1", "::2")
        self.assertEqual((found[0], found[1]), (4, b""))

    def test_words_without_ports_in_the_hash(self):
        with Folder() as folder:
            name = folder.write("plan.json", json.dumps(dict(PLAN, kinds=3)).encode())
            status, rows, said = aimed("--udp", "--from", "192.0.2.1", "--to", "198.51.100.7:443",
                                       "--queue", "0", to=name)
        value = bitwise(KEY, bytes([192, 0, 2, 1, 198, 51, 100, 7]))
        self.assertNotEqual(value % 128 % 3, 0)
        self.assertEqual((status, rows), (3, []))
        self.assertIn("the card hashes udp4 without ports", said)


class Typed(unittest.TestCase):
    def test_ends(self):
        for text, address, port in (("192.0.2.1:80", "192.0.2.1", 80), ("::1", "::1", None),
                                    ("[::1]:0", "::1", 0), ("[2001:db8::1]", "2001:db8::1", None),
                                    ("192.0.2.1", "192.0.2.1", None)):
            self.assertEqual(aiming.end_of(text), (ipaddress.ip_address(address), port))


if __name__ == "__main__":
    unittest.main()
