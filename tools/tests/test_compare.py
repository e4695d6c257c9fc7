"""Tests of steer-compare: small reports against snapshots whose counters are worked by hand."""

import unittest

from reporting import REPLIED, Folder, run

DROPPED = b"""steer 1
p 0 q 0 via reta class - want - head - tail - cpu 1 why plain at 1 app 0 in 1 place inbox
p 1 q 1 via reta class - want - head - tail - cpu 1 why plain at 2 app 0 in 2 place inbox
p 2 q 0 via reta class - want - head - tail - cpu 1 why plain at drop 2 0 2 app 0 in - place drop
p 3 q 0 via reta class - want - head - tail - cpu 1 why plain at drop 2 0 2 flow 200 app 0 in - \
place drop
p 4 q 1 via reta class - want - head - tail - cpu 0 why plain at 1 app 0 in 3 place inbox
queue 0 arrived 3 taken 3
queue 1 arrived 2 taken 2
cpu 0 accepted 1 pulled 1 delivered 1 retired 1 dropped 0
cpu 1 accepted 2 pulled 2 delivered 2 retired 2 dropped 2
tx 0 accepted 0 pulled 0 delivered 0 retired 0
tap 0 bytes 0
end 5 of 5
"""

HEAD = """steer-snap 1
dev e0
kernel 6.12.0
taken 2026-01-01T00:00:%02dZ
cpus online 0-%d
rx 0 rps_cpus 0
tx 0 xps_cpus 0
"""


def columns(handled, dropped=0, interrupts=0, limited=0, cpu=None):
    """The columns of a processor; without its number as kernels before 5.10 have them."""
    numbers = [handled, dropped] + [0] * 7 + [interrupts, limited]
    if cpu is not None:
        numbers += [0, cpu]
    return " ".join("%08x" % number for number in numbers)


def snap(second, rows, counters=(), head=HEAD):
    """A snapshot of these processors and counters of the card."""
    lines = ["softnet %d %s" % row for row in enumerate(rows)] + ["cmd ethtool -S e0"]
    lines += ["| NIC statistics:"] + ["|      %s: %d" % counter for counter in counters]
    return head % (second, len(rows) - 1) + "\n".join(lines + ["end"]) + "\n"


BEFORE = snap(1, [columns(10, 1, 5, 7, 0), columns((1 << 32) - 1, 0, 0, 0, 1)],
              [("rx_packets", 70), ("rx_queue_0_packets", 30), ("rx_queue_1_packets", 40),
               ("rx_missed_errors", 2)])


def after(handled=(11, 1), dropped=(1, 2), limited=8, queues=(33, 42), missed=2):
    return snap(2, [columns(handled[0], dropped[0], 6, limited, 0),
                    columns(handled[1], dropped[1], 9, 0, 1)],
                [("rx_packets", 75), ("rx_queue_0_packets", queues[0]),
                 ("rx_queue_1_packets", queues[1]), ("rx_missed_errors", missed)])


EQUAL = """queue  predicted  counted  difference
    0          3        3  0
    1          2        2  0

cpu  handled  counted  difference  dropped  counted  difference  interrupts
  0        1        1           0        0        0           0  1
  1        2        2           0        2        2           0  9

flow limit, all processors: predicted 1, counted 1, difference 0
counted of processors: columns 0 (handled), 1 (dropped), 9 (interrupts, not packets), 10 (flow limit)
numbers that differ: 0
"""  # noqa: E501


class Compare(unittest.TestCase):
    def compared(self, *texts, words=()):
        """The result for a report and two snapshots."""
        with Folder() as folder:
            paths = [folder.write("%d" % at, text if isinstance(text, bytes) else text.encode())
                     for at, text in enumerate(texts)]
            return run("steer-compare", *paths, *words)

    def test_all_as_counted(self):
        """Column 0 of processor 1 passes 2^32 in between."""
        ended = self.compared(DROPPED, BEFORE, after())
        self.assertEqual((ended.stdout, ended.stderr, ended.returncode), (EQUAL, "", 0))

    def test_each_number_that_differs(self):
        """One counter is another one, and the line that shows it."""
        for changed, line in (
                ({"queues": (35, 42)}, "    0          3        5  +2"),
                ({"handled": (10, 1)},
                 "  0        1        0          -1        0        0           0  1"),
                ({"dropped": (1, 5)},
                 "  1        2        2           0        2        5          +3  9"),
                ({"limited": 7},
                 "flow limit, all processors: predicted 1, counted 0, difference -1")):
            ended = self.compared(DROPPED, BEFORE, after(**changed))
            self.assertEqual((ended.stderr, ended.returncode), ("", 1), changed)
            self.assertIn(line, ended.stdout.splitlines())
            self.assertEqual(ended.stdout.splitlines()[-1], "numbers that differ: 1")

    def test_the_names_of_drivers(self):
        """The same five packets under the names that cards give them."""
        for names in (("rx0_packets", "rx1_packets"), ("rx-0.packets", "rx-1.packets"),
                      ("rx-0.rx_packets", "rx-1.rx_packets"),
                      ("queue_0_rx_cnt", "queue_1_rx_cnt"), ("rx_packets[0]", "rx_packets[1]"),
                      ("[0]: rx_ucast_packets", "[1]: rx_ucast_packets")):
            rows = [columns(0, cpu=0), columns(0, cpu=1)]
            then = [columns(1, cpu=0), columns(2, 2, limited=1, cpu=1)]
            ended = self.compared(DROPPED, snap(1, rows, zip(names, (4, 5))),
                                  snap(2, then, zip(names, (7, 7))))
            self.assertEqual(ended.returncode, 0, (names, ended))

    def test_without_counters_of_queues(self):
        """And by lines without the processor's number, which stand in the order of `online`."""
        one = snap(1, [columns(0), columns(0)])
        two = snap(2, [columns(1), columns(2, 2, limited=1)])
        ended = self.compared(DROPPED, one, two)
        self.assertEqual(ended.returncode, 0, ended)
        self.assertEqual(ended.stderr, "note: `ethtool -S` has no counter of packets for each "
                                       "receive queue\n")
        self.assertTrue(ended.stdout.startswith("cpu  handled"), ended.stdout)

    def test_what_the_card_lost(self):
        ended = self.compared(DROPPED, BEFORE, after(missed=9))
        self.assertEqual((ended.stdout, ended.returncode), (EQUAL, 0))
        self.assertEqual(ended.stderr, "note: the card counted besides rx_missed_errors 7: "
                                       "packets that no replay has\n")

    def test_processors_of_other_numbers(self):
        """The plan's 0 and 1 are 1 and 0 of the machine; what processor 2 handles is noted."""
        rows = [columns(0, cpu=cpu) for cpu in range(3)]
        then = [columns(2, 2, cpu=0), columns(1, limited=1, cpu=1), columns(4, cpu=2)]
        ended = self.compared(DROPPED, snap(1, rows), snap(2, then),
                              words=["--renumbered", "0=1 1=0"])
        self.assertEqual(ended.returncode, 0, ended)
        self.assertIn("note: 4 packets were handled by processors that the report does not have\n",
                      ended.stderr)

    def test_a_processor_without_packets_and_without_counters(self):
        """Of the report's three processors 0 and 2 have no packet; 2 is not on the machine."""
        rows = [columns(5, cpu=0), columns(0, cpu=1)]
        ended = self.compared(REPLIED, snap(1, rows), snap(2, [rows[0], columns(3, cpu=1)]))
        self.assertEqual(ended.returncode, 0, ended)
        ended = self.compared(REPLIED, snap(1, rows[:1]), snap(2, rows[:1]))
        self.assertEqual(ended.returncode, 1)
        self.assertIn("  1        3        -           -        0        -           -  -",
                      ended.stdout.splitlines())

    def test_what_is_refused(self):
        rows = [columns(0, cpu=0)]
        plain = snap(1, rows)
        for texts, words, status, reason in (
                ((REPLIED, plain, plain.replace("dev e0", "dev e1")), (), 3,
                 "it is of the device e1, and"),
                ((REPLIED, plain, plain.replace("6.12.0", "6.1.0")), (), 3, "kernel 6.1.0, and"),
                ((REPLIED, snap(2, rows), plain), (), 3, "it was taken at 2026-01-01T00:00:01Z"),
                ((REPLIED, plain, plain.replace("softnet", "soft")), (), 3, "line 8 is nothing"),
                ((REPLIED, plain, HEAD % (1, 0) + "end\n"), (), 3, "no line `softnet` in it"),
                ((REPLIED, plain, plain.replace(columns(0, cpu=0), "1 2")), (), 3,
                 "softnet 0 has 2 columns, and 11 are read"),
                ((REPLIED, snap(1, rows, [("a", 2)]), snap(1, rows, [("a", 1)])), (), 3,
                 "a fell from 2 to 1"),
                ((REPLIED, plain, plain), ("--dev", "e9"), 3, "of the device e0, not of e9"),
                ((REPLIED, plain, plain), ("--renumbered", "0:1"), 2, "`0:1` is not of the form"),
                ((REPLIED, plain, "x"), (), 4, "no snapshot"), ((b"x", plain, plain), (), 4,
                                                                "is no report")):
            ended = self.compared(*texts, words=words)
            self.assertEqual((ended.returncode, ended.stdout), (status, ""), (reason, ended))
            self.assertIn(reason, ended.stderr)
        self.assertEqual(run("steer-compare", "-", "-", "x").returncode, 2)


if __name__ == "__main__":
    unittest.main()
