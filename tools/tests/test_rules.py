"""Tests of steer-rules."""

import json
import os
import re
import tempfile
import unittest

from running import example, run, sample, sample_text, steer

from steerlib import cli, rules, snapshot

BASE = sample_text("snap", "ixgbe-8q-rules.snap")
EXPECTED = {"queues": 8, "rules": [{
    "kind": "tcp4", "src": "00000000", "srcmask": "00000000", "dst": "0a090001",
    "dstmask": "ffffffff", "sport": 0, "sportmask": 0, "dport": 80, "dportmask": 65535,
    "queue": 3}]}

IPV6 = """| Filter: 7
| \tRule Type: UDP over IPv6
| \tSrc IP addr: 2001:db8::1 mask: ::ffff:ffff:ffff:ffff
| \tDest IP addr: :: mask: ffff:ffff:ffff:ffff:ffff:ffff:ffff:ffff
| \tTraffic Class: 0x0 mask: 0xff
| \tSrc port: 5353 mask: 0xff
| \tDest port: 0 mask: 0xffff
| \tAction: Direct to queue 7
|\x20
| Filter: 2
| \tRule Type: Raw IPv4
| \tSrc IP addr: 10.0.0.0 mask: 0.0.255.255
| \tDest IP addr: 0.0.0.0 mask: 255.255.255.255
| \tTOS: 0x0 mask: 0xff
| \tProtocol: 0 mask: 0xff
| \tL4 bytes: 0x0 mask: 0xffffffff
| \tDest MAC addr: 00:00:00:00:00:00 mask: FF:FF:FF:FF:FF:FF
| \tAction: Direct to queue 0
|\x20
"""

# What is changed in the text of the snapshot, into what, and what the refusal says.
REFUSED = (
    (r"TOS: 0x0 mask: 0xff", "TOS: 0x10 mask: 0x3",
     "rule 1023: it compares TOS (0x10), which `steer place` does not"),
    (r"VLAN: 0x0 mask: 0xffff", "VLAN: 0x5 mask: 0x0", "it compares VLAN (0x5)"),
    (r"VLAN EtherType: 0x0 mask: 0xffff", "VLAN EtherType: 0x8100 mask: 0x0",
     "it compares VLAN EtherType (0x8100)"),
    (r"User-defined: 0x0 mask: 0xf+", "User-defined: 0x1 mask: 0x0", "it compares User-defined"),
    (r"Direct to queue 3", "Direct to queue 8", "rule 1023: queue 8 is not in 0 to 7"),
    (r"Direct to queue 3", "Direct to VF 1 queue 3", "`Action: Direct to VF 1 queue 3`"),
    (r"Direct to queue 3", "Drop", "`Action: Drop`"),
    (r"Direct to queue 3", "Wake-on-LAN", "`Action: Wake-on-LAN`"),
    (r"(\| \tAction: Direct)", r"| \tRSS Context ID: 2\n\1", "`RSS Context ID: 2`"),
    (r"\| \tAction: Direct to queue 3\n", "", "rule 1023: no queue in it"),
    (r"\| \tRule Type: .*\n", "", "rule 1023: `Src IP addr: 0.0.0.0 mask: 255.255.255.255`"),
    (r"TCP over IPv4", "SCTP over IPv4", "rule 1023: type `SCTP over IPv4`"),
    (r"TCP over IPv4", "TCP over IPv6", "not of IPv6"),
    (r"Dest IP addr: 10.9.0.1", "Dest IP addr: 10.9.0.300", "`Dest IP addr: 10.9.0.300 mask"),
    (r"Dest port: 80", "Dest port: 80000", "`Dest port: 80000 mask: 0x0`: no port"),
    (r"Dest port: 80 mask: 0x0", "Dest port: 80 mask: 0x10000", "no port"),
    (r"User-defined: .*", "Something else", "rule 1023: `Something else`"),
    (r"Total 1 rules", "Total 2 rules", "2 rules are told of, and 1 are there"),
)


def made_of(text):
    return rules.rules_of(snapshot.parse(text, "made"))


class Rules(unittest.TestCase):
    def test_masks_are_turned(self):
        status, out, err = run("steer-rules", sample("snap", "ixgbe-8q-rules.snap"))
        self.assertEqual((status, json.loads(out), err), (0, EXPECTED, ""))

    def test_steer_place_matches_what_the_rule_says(self):
        """The packets of TCP to 10.0.0.1 port 80, found in the output of steer hash."""
        text = BASE.replace("10.9.0.1 mask", "10.0.0.1 mask")
        with tempfile.TemporaryDirectory() as folder:
            path = os.path.join(folder, "rules.json")
            with open(path, "w", encoding="utf-8") as stream:
                stream.write(run("steer-rules", "-", data=text)[1])
            status, placed, err = steer("place", path, example("web.pcap"))
        self.assertEqual((status, err), (0, ""))
        hashed = steer("hash", example("web.pcap"), "8")[1]
        matching = re.compile(r"packet \d+ tcp4 [0-9a-f]{8} 0a000001 \d+ 80 ")
        count = 0
        for old, new in zip(hashed.splitlines(), placed.splitlines()):
            if old.startswith("packet "):
                matches = bool(matching.match(old))
                count += matches
                self.assertIn(" queue 3 rule 0 " if matches else " rule - ", new)
        self.assertGreater(count, 50)

    def test_other_kinds_and_the_order_by_number(self):
        text = re.sub("Total 1 rules\n", "Total 3 rules\n" + IPV6, BASE)
        made, found = made_of(text)
        self.assertEqual(found.refusals, [])
        self.assertEqual([note[:7] for note in found.notes], ["3 rules"])
        self.assertEqual(made["rules"][2], EXPECTED["rules"][0])
        self.assertEqual(made["rules"][0], {
            "kind": "ip4", "src": "0a000000", "srcmask": "ffff0000", "dst": "00000000",
            "dstmask": "00000000", "queue": 0})
        self.assertEqual(made["rules"][1], {
            "kind": "udp6", "src": "20010db8000000000000000000000001",
            "srcmask": "ffffffffffffffff0000000000000000", "dst": "0" * 32, "dstmask": "0" * 32,
            "sport": 5353, "sportmask": 0xff00, "dport": 0, "dportmask": 0, "queue": 7})

    def test_refusals(self):
        for pattern, new, reason in REFUSED:
            text = re.sub(pattern, new, BASE)
            self.assertNotEqual(text, BASE, pattern)
            found = made_of(text)[1]
            self.assertTrue(any(reason in refusal for refusal in found.refusals),
                            (reason, found.refusals))
        status, out, err = run("steer-rules", "-", data=re.sub(*REFUSED[0][:2], BASE))
        self.assertEqual((status, out, err), (3, "", "steer-rules: standard input: refused: "
                                              + REFUSED[0][2] + "\n"))

    def test_no_rules(self):
        made, found = made_of(sample_text("snap", "ixgbe-8q-16c-f0.snap"))
        self.assertEqual((made, found.notes), ({"queues": 8, "kinds": 27, "rules": []}, []))
        status, out, err = run("steer-rules", sample("snap", "lo.snap"))
        self.assertEqual((status, json.loads(out)), (0, {"queues": 1, "rules": []}))
        self.assertIn("note: the card tells of no rules: Cannot get RX rings", err)
        status, out, err = run("steer-rules", sample("snap", "ena-32q.snap"))
        self.assertEqual((status, out), (3, ""))
        self.assertIn("32 receive queues, and rules have at most 16", err)

    def test_other_files(self):
        status, out, err = run("steer-rules", example("three.pcap"))
        self.assertEqual((status, out), (4, ""), err)
        with self.assertRaises(cli.Refused):
            made_of(BASE[:-4])


if __name__ == "__main__":
    unittest.main()
