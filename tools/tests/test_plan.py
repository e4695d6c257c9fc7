"""Tests of steer-plan."""

import json
import random
import re
import tempfile
import unittest

from machines import Machine
from running import example, run, sample, sample_text, verdict

from steerlib import cli, ethtool, homes, machine, settings, snapshot

MACHINES = 500
JUDGED = 50     # of them by steer
SNAPS = {   # the snapshot: the status of its plan
    "ixgbe-8q-16c-f0": 0, "ice-8q-256": 0, "ice-6q-256": 3, "mlx5-64c-16q": 0,
    "mlx5-64c-all": 3, "ena-32q": 3, "veth-8q-netns": 0, "virtio-1q": 0, "lo": 0,
}
BASE = sample_text("snap", "ixgbe-8q-16c-f0.snap")

# What is changed in the text of a snapshot, into what, and what the refusal says.
REFUSED = (
    (r"sysctl rps_sock_flow_entries .*", "sysctl rps_sock_flow_entries 131072",
     "rps_sock_flow_entries 131072, and a plan has at most 65536"),
    (r"sysctl netdev_max_backlog .*", "sysctl netdev_max_backlog 65536",
     "netdev_max_backlog 65536, and a plan has room for 0 to 65535"),
    (r"sysctl netdev_max_backlog .*", "sysctl netdev_max_backlog 300000",
     "netdev_max_backlog 300000, and a plan has room for 0 to 65535"),
    (r"rx 3 rps_flow_cnt .*", "rx 3 rps_flow_cnt 65536",
     "rx 3: rps_flow_cnt 65536, and a plan has at most 32768"),
    (r"rx 3 rps_flow_cnt .*", "rx 3 rps_flow_cnt many", "rx 3: `many` is no number"),
    (r"rx 3 rps_cpus .*", "rx 3 rps_cpus 0-3",
     "rx 3: '0-3' is no hexadecimal mask such as f0 or ff,00000000"),
    (r"cpus online .*", "cpus online ", "no processor is online in it"),
    (r"cpus online .*", "cpus online f0", "cpus online: 'f0' is no list"),
    (r"toeplitz: on\n\|     xor: off", "toeplitz: off\n|     xor: on",
     "the card hashes by xor, and steer by toeplitz"),
    (r"crc32: off", "crc32: on", "the card hashes by crc32, and steer by toeplitz"),
    (r"crc32: off", "crc32: off\n| RSS input transformation:\n|     symmetric-xor: on",
     "the card folds what it hashes (symmetric-xor)"),
    (r"\| L4 bytes 2 & 3 .*", "| ", "tcp4 is hashed by IP DA, IP SA, L4 bytes 0 & 1 "
     "[TCP/UDP src port] alone, which steer has not"),
    (r"\| IP DA", "| VLAN tag", "tcp4 is hashed by IP SA, L4 bytes 0 & 1"),
    (r"(hash tcp4\n.*\n)\| IP SA\n\| IP DA\n.*\n.*\n", r"\1| None\n",
     "tcp4 is not hashed while udp4 is by its addresses, which steer has not"),
    (r"flows use these fields for computing Hash flow key:", "- All matching flows discarded "
     "on RX", "tcp4: its packets are discarded by the card"),
    (r"\|   120:      0     1     2     3     4     5     6     7",
     "|   120:      0     1     2     3     4     5     6     8",
     "the table names queue 8, and there are 8 (0 to 7)"),
    (r"\|     8:  .*\n", "", "the table's entry 16 stands at place 8"),
    (r"(?s)\|     0:      0(.*)\|   112:.*\|   120:[^\n]*\n", r"|     0:      7\1",
     "a table of 112 entries, which do not divide 128; --nearest repeats them"),
    (r":ac:01:fa", "", "a key of 37 bytes, fewer than 40"),
    (r"\| Total 0 rules", "| Total 1 rules\n| Filter: 1\n| \tRule Type: TCP over IPv4\n| "
     "\tRSS Context ID: 1\n| \tAction: Direct to queue 0", "several RSS contexts"),
    (r"tx 3 xps_cpus .*\ntx 3 xps_rxqs .*\n", "", "tx queue 3 is missing among 7"),
    (r"(?m)^rx .*\n", "", "no rx queue in it"),
    (r"irq 120 0 0 ", "irq 120 x 0 ", "irq 120: 'x' is no list of numbers"),
    (r"kernel .*", "kernels 2", "line 3 is nothing that steer-snap writes: `kernels 2`"),
    (r"end\n", "end\nrx 9\n", "stands behind `end`: `rx 9`"),
    (r"end\n", "", "cut short after line 124 (no line `end`)"),
)

# What is changed in the text of a snapshot, into what, and a note that says it.
NOTED = (
    (r"sysctl netdev_max_backlog .*\n", "", "netdev_max_backlog is not in the snapshot (another "
     "network namespace than the first has none); taken as 1000"),
    (r"sysctl (netdev_max_backlog|rps_sock_flow_entries) .*\n", "", "rps_sock_flow_entries and "
     "netdev_max_backlog are not in the snapshot (another network namespace than the first has "
     "none); taken as 0 and 1000"),
    (r"sysctl netdev_max_backlog .*", "sysctl netdev_max_backlog 0",
     "backlog 1: a kernel lets one packet more wait than netdev_max_backlog 0 says"),
    (r"sysctl rps_sock_flow_entries .*", "sysctl rps_sock_flow_entries 0",
     "rps_flow_cnt is set and rps_sock_flow_entries is 0: no RFS"),
    (r"cpus online .*", "cpus online 0-3,5-15", "rx 0-7: processors 4 of the mask are offline"),
    (r"irq 120 0 0 ", "irq 120 0-3 0-3 ",
     "rx 0: the interrupt may come in on several processors; home taken as processor 0 (say "
     "--home 0=CPU)"),
    (r"irq (\d+) (0 0|3 3) (.*TxRx.*)", r"irq \1 4-5 4-5 \3", "rx 0,3: the interrupt may come in "
     "on several processors; homes taken as processors 4,4 (say --home Q=CPU,..)"),
    (r"irq 120 .*\n", "", "rx 0: no interrupt found; home taken as processor 0 (say --home 0=CPU)"),
    (r"irq .*\n", "", "rx 0-7: no interrupt found; homes taken as processors 0,1,2,3,4,5,6,7 "
     "(say --home Q=CPU,..)"),
    (r"\| RSS hash key:\n.*\n", "", "no key in `ethtool -x`; the verification key is taken"),
    (r"(?s)\| RX flow hash indirection.*\|   120:[^\n]*\n", "| Operation not permitted\n",
     "`ethtool -x` was not permitted: take the snapshot as root"),
    (r"(?s)\| RX flow hash indirection.*\|   120:[^\n]*\n", "",
     "no table in `ethtool -x`; the even one is taken"),
    (r"(?s)\|    64:.*\|   120:[^\n]*\n", "", "a table of 64 entries, repeated to 128"),
    (r"(hash udp4\n.*\n)\| IP SA\n\| IP DA\n", r"\1| None\n",
     "udp4 is not hashed; taken as true of all IPv4 but what has ports hashed"),
    (r"(?s)cmd ethtool -n eth0 rx-flow-hash.*end", "end", "no hash fields in `ethtool -n`"),
    (r"(?s)cmd ethtool -n eth0 rx-flow-hash udp6.*end", "end", "no hash fields of udp6"),
    (r"large-receive-offload: off", "large-receive-offload: on [requested on]",
     "large-receive-offload and generic-receive-offload are on: the capture may hold merged "
     "packets"),
    (r"Total 0 rules", "Total 2 rules", "2 n-tuple rules stand before the table"),
    (r"driver: ixgbe", "driver: ixgbe", "ixgbe with ntuple-filters off brings a TCP flow in on"),
    (r"\| driver: ixgbe", "| steer-snap: ethtool: not found", "ethtool was not there"),
    (r"tx 1 xps_rxqs 00", "tx 1 xps_rxqs 0300", "tx 1: receive queues 8-9 of xps_rxqs"),
    (r"sysctl flow_limit_cpu_bitmap .*", "sysctl flow_limit_cpu_bitmap 1,00000000",
     "flow_limit_cpu_bitmap 32 names processors that put; no queue has its home there and puts to "
     "a backlog, so nothing is limited"),
    (r"rx 2 rps_cpus .*", "rx 2 rps_cpus ! No such file or directory",
     "rx 2: rps_cpus is not in the snapshot; taken as 0"),
    (r"rx ([2-46]) rps_cpus .*", r"rx \1 rps_cpus ! No such file or directory",
     "rx 2-4,6: rps_cpus is not in the snapshot; taken as 0"),
    (r"rps_cpus .*", "rps_cpus 0", "UDP over IPv4 and IPv6 is hashed without its ports "
     "(kinds 27): a kernel steers it by a hash of its own, so its processor is not to be foretold"),
    (r"(rps_sock_flow_entries|rx [135] rps_cpus) .*", r"\1 0",
     "rx 1,3,5 without RPS and RFS: a kernel handles a card's packets there at once, without a "
     "backlog, so that netdev_max_backlog does nothing and drops on cpu 1,3,5 for them are none of "
     "a machine's"),
    (r"rps_cpus .*", "rps_cpus ffff", "by the manual's modulo the readers of rx 0-7 are picked by "
     "the same bits of the hash as the members of the mask, and are always where RPS sends the "
     "packet: RFS moves no flow there (name other readers: --apps, apps=)"),
    (r"end", "end", "the steps are one `sweep`, which drops nothing"),
)

WRONG_WORDS = (
    (["--apps", "16"], "processor 16 is not online (0-15 is)"),
    (["--apps", "4-"], "'4-' is no list of numbers such as 0-3,8"),
    (["--apps", ""], "0 readers, and a plan has 1 to 32"),
    (["--apps", ",".join(["1"] * 33)], "33 readers, and a plan has 1 to 32"),
    (["--home", "8=1"], "receive queue 8 is not in 0 to 7"),
    (["--home", "1=16"], "processor 16 is not online (0-15 is)"),
    (["--home", "1:2"], "`1:2` is not of the form Q=CPU"),
    (["--near"], "unrecognized arguments: --near"),
)

# Names of interrupts, and the home of each queue by them; an interrupt's processor is its place.
NAMED = (
    ("eth0-TxRx-0 eth0-TxRx-1 eth0", [0, 1]),
    ("eth0 eth0-TxRx-1 eth0-TxRx-0", [2, 1]),
    ("virtio2-config virtio2-input.0 virtio2-output.0 virtio2-input.1 virtio2-output.1", [1, 3]),
    ("virtio2-config virtio2-virtqueues", [1, 1]),
    ("mlx5_async0@pci:0000:3b:00.0 mlx5_comp0@pci:0000:3b:00.0 mlx5_comp1@pci:0000:3b:00.0",
     [1, 2]),
    ("eth0-tx-0 eth0-rx-1 eth0-rx-2", [1, 2]),
    ("eth0-rx-0 eth0-rx-1 eth0-tx-0 eth0-tx-1 eth0", [0, 1]),
    ("ena-mgmnt@pci:0000:00:05.0 eth0-Tx-Rx-0 eth0-Tx-Rx-1", [1, 2]),
    ("eth0:rx-0 eth0:rx-1 eth0:tx-0 eth0:mac", [0, 1]),
    ("i40e-0000:3b:00.0:misc i40e-eth0:fdir-TxRx-0 i40e-eth0-TxRx-0 i40e-eth0-TxRx-1", [2, 3]),
    ("eth0-TxRx-1", [None, 0]),
    ("eth0-rxtx-9 eth0-rxtx-10 eth0-event-11", [0, 1]),
    ("eth0", [0, 0]),
    ("usb1 eth0-fp-0 eth0-fp-1", [1, 2]),
    ("virtio2-config", [None, None]),
    ("", [None, None]),
)


def parsed(text):
    return snapshot.parse(text, "made")


class Plan(unittest.TestCase):
    def test_samples_have_the_plans_and_notes_that_were_worked_out(self):
        for name, expected in SNAPS.items():
            status, out, err = run("steer-plan", sample("snap", name + ".snap"))
            self.assertEqual(status, expected, (name, err))
            if name in ("mlx5-64c-all", "ena-32q"):
                continue
            said = [line.replace(sample("snap", ""), "") for line in err.splitlines()]
            wanted = sample_text("expect", "plan-%s.notes" % name).splitlines()
            self.assertEqual(set(wanted) - set(said), set(), name)
            if name == "veth-8q-netns":     # those that change the answer first, then guesses
                self.assertEqual(said, wanted)
            whole = sample_text("expect", "plan-%s.json" % name)
            self.assertEqual(json.loads(out or "0"), json.loads(whole or "0"), name)

    def test_what_is_too_large_is_refused_by_value(self):
        for name, reason in (
                ("ena-32q", "32 receive queues, and a plan has at most 16"),
                ("mlx5-64c-all", "64 processors in masks, homes and readers, and a plan has at "
                 "most 32"),
                ("ice-6q-256", "a table of 256 entries, of which 128 differ from that at their "
                 "number modulo 128; --nearest takes the first 128")):
            path = sample("snap", name + ".snap")
            status, out, err = run("steer-plan", path)
            self.assertEqual((status, out), (3, ""))
            self.assertIn("steer-plan: %s: refused: %s\n" % (path, reason), err)

    def test_nearest_takes_the_first_entries_and_says_how_many_hashes_differ(self):
        status, out, err = run("steer-plan", "--nearest", sample("snap", "ice-6q-256.snap"))
        self.assertEqual(status, 0)
        self.assertIn("note: table of 256 entries: 50.0 % of hashes get another queue here\n",
                      err)
        self.assertNotIn("reta", json.loads(out))     # the first 128 are the even ones
        pattern, new = [row[:2] for row in REFUSED if "112 entries" in row[2]][0]
        made, found = machine.plan_of(parsed(re.sub(pattern, new, BASE)), nearest=True)
        table = [7] + [i % 8 for i in range(1, 112)]
        self.assertEqual((made["reta"], found.refusals), (table + table[:16], []))

    def test_nearest_leaves_contexts_to_steer_remap(self):
        pattern, new = [row[:2] for row in REFUSED if "RSS contexts" in row[2]][0]
        _, found = machine.plan_of(parsed(re.sub(pattern, new, BASE)), nearest=True)
        self.assertEqual(found.refusals, [])
        self.assertIn("several RSS contexts: a rule leads to a table of its own, which steer-remap "
                      "--snap follows and a plan does not", found.notes)

    def test_refusals(self):
        for pattern, new, reason in REFUSED:
            text = re.sub(pattern, new, BASE)
            self.assertNotEqual(text, BASE, pattern)
            try:
                refusals = machine.plan_of(parsed(text))[1].refusals
            except cli.Refused as fault:
                refusals = fault.reasons
            self.assertEqual([reason in refusal for refusal in refusals][:1], [True],
                             (reason, refusals))

    def test_all_refusals_are_said(self):
        text, reasons = BASE, []
        for pattern, new, reason in REFUSED[1:2] + REFUSED[3:4] + REFUSED[8:9]:
            text = re.sub(pattern, new, text)
            reasons.append("steer-plan: standard input: refused: %s\n" % reason)
        status, out, err = run("steer-plan", "-", data=text)
        self.assertEqual((status, out, [reason in err for reason in reasons]),
                         (3, "", [True] * 3))

    def test_notes(self):
        for pattern, new, text in NOTED:
            changed = re.sub(pattern, new, BASE)
            self.assertRegex(BASE, pattern)
            made, found = machine.plan_of(parsed(changed))
            self.assertEqual(found.refusals, [], pattern)
            self.assertEqual(sum(note.startswith(text) for note in found.notes), 1,
                             (text, found.notes))

    def test_every_cut_of_a_snapshot_is_refused(self):
        ends = set(range(0, len(BASE) - 4, 17)) | set(
            found.end() for found in re.finditer("\n", BASE[:-4]))
        for end in ends | set(range(len(BASE) - 12, len(BASE) - 1)):
            with self.assertRaises((cli.Refused, cli.NotThatFile), msg=end):
                parsed(BASE[:end])
        parsed(BASE[:-1])

    def test_other_files(self):
        for path in (example("web.pcap"), example("rps.json"), sample("expect", "plan-lo.json")):
            status, out, err = run("steer-plan", path)
            self.assertEqual((status, out), (4, ""), path)
            self.assertRegex(err, "^steer-plan: .*: (no snapshot: line 1 is not `steer-snap 1`|"
                             "byte 0 .0xd4. is not UTF-8 text)")

    def test_wrong_words(self):
        for words, reason in WRONG_WORDS:
            status, out, err = run("steer-plan", sample("snap", "ixgbe-8q-16c-f0.snap"), *words)
            self.assertEqual((status, out), (2, ""), words)
            self.assertIn(reason, err)

    def test_readers_and_homes_that_are_said(self):
        status, out, err = run("steer-plan", sample("snap", "mlx5-64c-16q.snap"), "--apps",
                               "63,40-41,63", "--home", "0=2,15=47")
        self.assertEqual(status, 0, err)
        made = json.loads(out)
        numbered = dict(pair.split("=") for pair in re.search(
            "note: processors renumbered: (.*)", err).group(1).split())
        self.assertEqual([numbered[str(cpu)] for cpu in made["apps"]], ["63", "40", "41", "63"])
        self.assertEqual([numbered[str(queue["home"])] for queue in made["queues"]],
                         ["2"] + [str(cpu) for cpu in range(33, 48)])
        self.assertNotIn("readers", err)

    def test_interrupts_by_their_names(self):
        for names, wanted in NAMED:
            given = [snapshot.Interrupt(100 + at, [at], [0, 1, 2, 3], name)
                     for at, name in enumerate(names.split())]
            found = homes.of_queues(given, "eth0", 2)
            self.assertEqual([found[q].effective[0] if q in found else None for q in (0, 1)],
                             wanted, names)

    def test_an_interrupt_without_an_effective_list(self):
        for effective, wanted, told in ((None, [3], (3, True)), (None, [2, 3], (2, False)),
                                        ([1], [2, 3], (1, True)), (None, None, None)):
            given = snapshot.Interrupt(1, effective, wanted, "eth0")
            self.assertEqual(homes.processor(given), told)

    def test_processors_keep_their_numbers_where_all_are_below_32(self):
        """Of 33 online the eight that have work are numbered; the highest of them is 7."""
        for online, cpus in (("0-15", 16), ("0-31", 32), ("0-32", 8), ("0-7,31", 32),
                             ("0-7,32", 9)):
            made, found = machine.plan_of(parsed(re.sub(
                "cpus online .*", "cpus online " + online, BASE.replace("c000", "0000"))))
            self.assertEqual((made["cpus"], found.refusals), (cpus, []), online)

    def test_how_many_members_of_a_mask_a_queue_reaches(self):
        """Counted over 16,384 hashes, which is a multiple of the period for these sizes."""
        draw = random.Random(3)
        for _ in range(60):
            queues = draw.randint(1, 16)
            size = draw.choice([1, 2, 4, 8, 16, 32])
            table = [draw.randrange(queues) if draw.random() < 0.3 else i % queues
                     for i in range(128)]
            queue = draw.randrange(queues)
            met = {value % size for value in range(16384) if table[value % 128] == queue}
            self.assertEqual(machine.reached(table, queue, size), len(met))
        for size in (3, 5, 6, 7, 12, 24):
            table = [i % 8 for i in range(128)]
            met = {value % size for value in range(128 * size) if table[value % 128] == 5}
            self.assertEqual(machine.reached(table, 5, size), len(met))

    def test_round_trip_of_random_machines(self):
        refused = 0
        with tempfile.TemporaryDirectory() as folder:
            for seed in range(MACHINES):
                made = Machine(seed)
                plan, found = machine.plan_of(parsed(made.snapshot()))
                self.assertEqual(bool(found.refusals), made.must_be_refused(),
                                 (seed, found.refusals))
                if found.refusals:
                    refused += 1
                    continue
                number = self.compare(seed, made, plan, found)
                self.by_settings(seed, made, plan, number)
                if seed % (MACHINES // JUDGED) == 0:
                    data = json.dumps(plan).encode()
                    self.assertEqual(verdict(folder, "plan", data), (0, ""), seed)
        self.assertTrue(MACHINES // 5 < refused < MACHINES // 2, refused)

    def compare(self, seed, made, plan, found):
        """Holds a plan against its machine; the number of each processor in the plan."""
        renumbered = [note for note in found.notes if note.startswith("processors renumbered: ")]
        cpus = {int(cpu): int(number) for cpu, number in (
            pair.split("=")[::-1] for pair in renumbered[0].split()[2:])} if renumbered else {
                cpu: cpu for cpu in range(plan["cpus"])}
        self.assertEqual(sorted(cpus.values()), list(range(plan["cpus"])))
        back = {number: cpu for cpu, number in cpus.items()}
        turned = lambda numbers: [back[number] for number in numbers]  # noqa: E731
        self.assertEqual([turned(q["mask"]) for q in plan["queues"]], made.masks, seed)
        self.assertEqual([back[q["home"]] for q in plan["queues"]], made.homes, seed)
        self.assertEqual([q["flows"] for q in plan["queues"]], made.flows, seed)
        self.assertEqual(turned(plan["apps"]), made.readers(), seed)
        self.assertEqual([turned(t["cpus"]) for t in plan["tx"]],
                         [[cpu for cpu in cpus_ if cpu in cpus] for cpus_ in made.senders], seed)
        self.assertEqual([t["queues"] for t in plan["tx"]], made.sender_queues, seed)
        self.assertEqual(turned(plan.get("limited", [])), made.put_to_with_the_limit(), seed)
        self.assertEqual((plan["sock"], plan["backlog"], plan["kinds"], plan["key"]),
                         (made.sock, made.backlog + 1, made.kinds, made.key), seed)
        table = plan.get("reta") or [entry % made.queues for entry in range(128)]
        size = len(made.table)
        self.assertEqual([table[value % 128] for value in range(1024)],
                         [made.table[value % size] for value in range(1024)], seed)
        return cpus

    def by_settings(self, seed, made, plan, number):
        """The same plan comes of a blank one by the settings as one writes them."""
        blank = {"cpus": plan["cpus"], "queues": [
            {"home": 0, "mask": [], "flows": 0} for _ in plan["queues"]], "sock": 0, "apps": [0],
            "tx": [{"cpus": [], "queues": []} for _ in plan["tx"]], "steps": ["sweep"]}
        if "reta" in plan:
            blank["reta"] = plan["reta"]
        changed = settings.Settings(json.dumps(blank).encode(), "blank")
        for word in made.words(number):
            changed.set(word)
        self.assertEqual(json.loads(changed.written()),
                         dict(plan, limited=plan.get("limited", [])), seed)

    def test_forms_of_ethtool(self):
        said = ethtool.hashing(parsed(sample_text("snap", "virtio-1q.snap")).ethtool("-x {}"))
        self.assertEqual((said.table, said.key, said.functions), (None, None, ["toeplitz"]))
        fields = ethtool.hash_fields(["UDP over IPV4 flows use these fields for computing Hash "
                                      "flow key:", "None", ""])
        self.assertEqual(fields, set())
        self.assertIsNone(ethtool.hash_fields(["Cannot get RX network flow hashing options"]))


if __name__ == "__main__":
    unittest.main()
