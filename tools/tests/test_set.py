"""Tests of steer-set."""

import json
import random
import tempfile
import unittest

from running import example, run, sample_text, verdict

from steerlib import cli, settings

PLAN = sample_text("plan", "ix.json")       # 16 processors, 8 receive and 8 transmit queues
KEY = "6d5a56da255b0ec24167253d43a38fb0d0ca2bcbae7b30b477cb2da38030f20c6a42b73bbeac01fa"

# A setting, where it stands in the plan, and its value there.
SETTINGS = (
    ("rx-3/rps_cpus=00f1", ("queues", 3, "mask"), [0, 4, 5, 6, 7]),
    ("rx-0/rps_cpus=0x3", ("queues", 0, "mask"), [0, 1]),
    ("rx-7/rps_cpus=00000000,0000ff00", ("queues", 7, "mask"), list(range(8, 16))),
    ("rx-0/rps_cpus=0", ("queues", 0, "mask"), []),
    ("rx-2/rps_flow_cnt=32768", ("queues", 2, "flows"), 32768),
    ("rx-0/home=15", ("queues", 0, "home"), 15),
    ("tx-0/xps_cpus=3", ("tx", 0, "cpus"), [0, 1]),
    ("tx-7/xps_rxqs=81", ("tx", 7, "queues"), [0, 7]),
    ("rps_sock_flow_entries=0", ("sock",), 0),
    ("netdev_max_backlog=2000", ("backlog",), 2001),
    ("netdev_max_backlog=0", ("backlog",), 1),
    ("flow_limit_cpu_bitmap=8001", ("limited",), [4, 5, 6, 7]),
    ("flow_limit_cpu_bitmap=ff00", ("limited",), []),
    ("apps=4-7,2", ("apps",), [4, 5, 6, 7, 2]),
    ("indir=equal:5", ("reta",), [i % 5 for i in range(128)]),
    ("indir=default", ("reta",), [i % 8 for i in range(128)]),
    ("indir=weight:6,2", ("reta",), [0] * 96 + [1] * 32),
    ("indir=weight:1,0,2", ("reta",), [0] * 42 + [2] * 86),
    ("hkey=" + ":".join(KEY[i:i + 2] for i in range(0, 80, 2)), ("key",), KEY),
    ("rx-flow-hash/udp4=sdfn", ("kinds",), 31),
    ("rx-flow-hash/tcp6=sd", ("kinds",), 11),
)

# A setting that is refused, and what has to be said of it.
WRONG = (
    ("rx-8/rps_cpus=1", "the plan has rx-0 to rx-7"),
    ("tx-8/xps_cpus=1", "the plan has tx-0 to tx-7"),
    ("rx-0/rps_cpus=10000", "bit 16 is set, and the plan has processors 0 to 15"),
    ("rx-*/rps_cpus=4-7", "`4-7` is no mask, which is hexadecimal as in sysfs, f0 or "
     "ff,00000000; the list 4-7 is 00f0"),
    ("rx-0/rps_cpus=", "`` is no mask"),
    ("rx-0/rps_cpus=g0", "`g0` is no mask"),
    ("tx-0/xps_rxqs=100", "bit 8 is set, and the plan has receive queues 0 to 7"),
    ("rx-0/rps_flow_cnt=32769", "32769 is not in 0 to 32768"),
    ("rx-0/rps_flow_cnt=-1", "`-1` is no number, 0 to 32768"),
    ("rx-0/home=16", "16 is not in 0 to 15"),
    ("rps_sock_flow_entries=65537", "65537 is not in 0 to 65536"),
    ("netdev_max_backlog=65536", "65536 is not in 0 to 65535"),
    ("netdev_max_backlog=1e3", "`1e3` is no number, 0 to 65535"),
    ("flow_limit_cpu_bitmap=1,00000000", "bit 32 is set"),
    ("apps=16", "processor 16 is not in 0 to 15"),
    ("apps=", "0 readers, and a plan has 1 to 32"),
    ("apps=f0", "'f0' is no list of numbers"),
    ("indir=equal:9", "9 is not in 1 to 8"),
    ("indir=equal:0", "0 is not in 1 to 8"),
    ("indir=weight:1,1,1,1,1,1,1,1,1", "9 weights, and the plan has 8 receive queues"),
    ("indir=weight:0,0", "the weights' sum is 0, and it is 1 to 128 entries"),
    ("indir=weight:100,29", "the weights' sum is 129, and it is 1 to 128 entries"),
    ("indir=weight:1,x", "`1,x` is no list of numbers such as 6,2"),
    ("indir=even", "`even` is neither default nor equal:N nor weight:W0,W1,.."),
    ("hkey=" + "ab:" * 51 + "ab", "no 40 bytes in hexadecimal; without colons that is abab"),
    ("hkey=abcd", "no 40 bytes in hexadecimal; these are 4"),
    ("rx-flow-hash/udp4=sdf", "rx-flow-hash/KIND=FIELDS"),
    ("rx-flow-hash/ip4=sd", "rx-flow-hash/KIND=FIELDS"),
    ("rx-0/rps_cpu=1", "rx-0/rps_cpu: no such setting, is it rx-N/rps_cpus?"),
    ("rx-0/xps_cpus=1", "rx-0/xps_cpus: no such setting, is it tx-N/xps_cpus?"),
    ("netdev_max_backlogs=1", "no such setting, is it netdev_max_backlog?"),
    ("backlog=1", "backlog: no such setting; they are rx-N/rps_cpus, "),
    ("rps_sock_flow_entries", "no setting of the form NAME=VALUE"),
)

BIT = "by the manual's modulo the readers of rx 0-7 are picked by the same bits of the hash as " \
    "the members of the mask, and are always where RPS sends the packet: RFS moves no flow there " \
    "(name other readers: --apps, apps=)"
ONE_MORE = "backlog %d: a kernel lets one packet more wait than netdev_max_backlog %d says"
NO_BACKLOG = "rx %s without RPS and RFS: a kernel handles a card's packets there at once, " \
    "without a backlog, so that netdev_max_backlog does nothing and drops on cpu %s for them are " \
    "none of a machine's"
PUT = "flow_limit_cpu_bitmap %s names processors that put; limited here are those that they put " \
    "to, %s"

# Settings of the plan, and the notes of them, in their order.
NOTED = (
    ("netdev_max_backlog=16", (ONE_MORE % (17, 16),)),
    ("apps=4-7", (BIT,)),
    ("apps=4-7,4-7", (BIT,)),
    ("apps=7,6,5,4", ()),
    ("apps=8-11", ()),
    ("rps_sock_flow_entries=0", (
        "rps_flow_cnt is set and rps_sock_flow_entries is 0: no RFS",)),
    ("rps_sock_flow_entries=0 netdev_max_backlog=9 rx-1/rps_cpus=0 rx-2/rps_cpus=0", (
        "8 queues over a mask of 4: a queue reaches 1 of them by the manual's modulo, and 4 in a "
        "kernel (docs/kernel.md)",
        "rps_flow_cnt is set and rps_sock_flow_entries is 0: no RFS",
        NO_BACKLOG % ("1-2", "1-2"), ONE_MORE % (10, 9))),
    ("flow_limit_cpu_bitmap=ff", (PUT % ("0-7", "4-7"),)),
    ("flow_limit_cpu_bitmap=0f", (
        PUT % ("0-3", "4-7") + "; rx 4-7 put there too, in a kernel without the limit",)),
    ("flow_limit_cpu_bitmap=0f apps=8", (
        PUT % ("0-3", "4-8") + "; rx 4-7 put there too, in a kernel without the limit",)),
    ("flow_limit_cpu_bitmap=f00", (
        "flow_limit_cpu_bitmap 8-11 names processors that put; no queue has its home there and "
        "puts to a backlog, so nothing is limited",)),
    ("flow_limit_cpu_bitmap=0", ()),
    ("rx-flow-hash/udp4=sdfn", (
        "UDP over IPv6 is hashed without its ports (kinds 31): a kernel steers it by a hash of "
        "its own, so its processor is not to be foretold",)),
)

# Odd blanks, unknown keys, keys that stand twice, steps and escapes, all to be carried over.
ODD = """{ "zeal" : [1e3, {"a":-0}] ,"backlog":5,\t"cpus":4,"sock":0, "queues":[{"flows":1,
   "home":0,"mask":[ 1,2 ],"extra":"\\u00e9"}], "apps":[ 2 ],
"tx":[{"cpus":[],"queues":[]}],"\\u0062acklog" : 7 , "steps" : ["arrive","poll 0" ,
 "\\u0073weep"]  }
"""


def put(plan, path, value):
    for part in path[:-1]:
        plan = plan[part]
    plan[path[-1]] = value


def changed(text, *words):
    """The text of a plan with these settings."""
    made = settings.Settings(text.encode("utf-8"), "made")
    for word in words:
        made.set(word)
    return made.written()


def ethtool_table(weights, size=128):
    """The table that ethtool fills by weights, entry by entry as its own loop does."""
    table, queue, partial, total = [], -1, 0, sum(weights)
    for entry in range(size):
        while entry >= size * partial // total:
            queue += 1
            partial += weights[queue]
        table.append(queue)
    return table


class Set(unittest.TestCase):
    def test_each_name_is_set_where_it_belongs_and_nothing_else(self):
        for word, path, value in SETTINGS:
            wanted = json.loads(PLAN)
            put(wanted, path, value)
            self.assertEqual(json.loads(changed(PLAN, word)), wanted, word)

    def test_star_is_every_queue(self):
        wanted = json.loads(PLAN)
        for queue in wanted["queues"]:
            queue.update(mask=[1, 2], flows=7, home=3)
        for queue in wanted["tx"]:
            queue.update(cpus=[9], queues=[1])
        status, out, err = run("steer-set", "-", "rx-*/rps_cpus=6", "rx-*/rps_flow_cnt=7",
                               "rx-*/home=3", "tx-*/xps_cpus=200", "tx-*/xps_rxqs=02", data=PLAN)
        self.assertEqual((status, json.loads(out)), (0, wanted), err)
        self.assertEqual(err, "note: 8 queues over a mask of 2: a queue reaches 1 of them by the "
                              "manual's modulo, and 2 in a kernel (docs/kernel.md)\n")

    def test_notes(self):
        for words, notes in NOTED:
            made = settings.Settings(PLAN.encode("utf-8"), "made")
            for word in words.split():
                made.set(word)
            made.written()
            self.assertEqual(made.notes(), list(notes), words)

    def test_the_bitmap_is_translated_by_the_masks_that_are_set_with_it(self):
        made = json.loads(changed(PLAN, "flow_limit_cpu_bitmap=3", "rx-*/rps_flow_cnt=0",
                                  "rx-0/rps_cpus=300", "rx-1/home=9", "rx-2/home=1",
                                  "rx-2/rps_cpus=c00"))
        self.assertEqual(made["limited"], [8, 9, 10, 11])

    def test_a_limit_that_stays_is_noted(self):
        text = PLAN.replace('"apps"', '"limited": [4], "apps"')
        stays = ("limited stays as it is; flow_limit_cpu_bitmap sets it anew, by homes and masks "
                 "as they now are")
        for word, noted in (("rx-0/home=9", True), ("apps=8", False), ("rx-0/rps_cpus=1", True),
                            ("flow_limit_cpu_bitmap=1", False)):
            made = settings.Settings(text.encode("utf-8"), "made")
            made.set(word)
            made.written()
            self.assertEqual(stays in made.notes(), noted, word)

    def test_wrong_settings(self):
        for word, reason in WRONG:
            with self.assertRaises(cli.WrongWords, msg=word) as caught:
                changed(PLAN, word)
            self.assertIn(reason, str(caught.exception), word)
        for word, reason in WRONG[:3]:
            status, out, err = run("steer-set", "-", word, data=PLAN)
            self.assertEqual((status, out, reason in err), (2, "", True), err)
            self.assertTrue(err.startswith("steer-set: "), err)

    def test_all_else_stays_byte_for_byte(self):
        for word, old, new in (
                ("rx-0/rps_cpus=8", "[ 1,2 ]", "[3]"), ("apps=1", "[ 2 ]", "[1]"),
                ("netdev_max_backlog=9", '" : 7 ,', '" : 10 ,'),
                ("rx-0/home=3", '"home":0', '"home":3'),
                ("rps_sock_flow_entries=8", '"sock":0', '"sock":8'),
                ("flow_limit_cpu_bitmap=1", '"steps"', '"limited": [1, 2], "steps"')):
            self.assertEqual(ODD.count(old), 1, old)
            self.assertEqual(changed(ODD, word), ODD.replace(old, new), word)
        self.assertEqual(changed(ODD), ODD)

    def test_the_last_of_several_settings_wins(self):
        made = json.loads(changed(PLAN, "rx-*/rps_cpus=1", "rx-2/rps_cpus=2", "apps=1", "apps=2"))
        self.assertEqual([queue["mask"] for queue in made["queues"]],
                         [[0], [0], [1]] + [[0]] * 5)
        self.assertEqual(made["apps"], [2])

    def test_fields_of_a_kind_without_ports_are_the_addresses(self):
        for kinds, word, wanted in ((2, "tcp4=sd", 1), (2, "udp6=sd", 10), (1, "udp4=sdfn", 5),
                                    (63, "tcp6=sd", 47)):
            text = PLAN.replace('"kinds": 27', '"kinds": %d' % kinds)
            self.assertEqual(json.loads(changed(text, "rx-flow-hash/" + word))["kinds"], wanted)

    def test_weights_fill_the_table_as_ethtool_does(self):
        draw = random.Random(11)
        for _ in range(300):
            weights = [draw.choice([0, 1, 2, 5, 16]) for _ in range(draw.randint(1, 8))]
            if 1 <= sum(weights) <= 128:
                word = "indir=weight:" + ",".join(map(str, weights))
                self.assertEqual(json.loads(changed(PLAN, word))["reta"],
                                 ethtool_table(weights), weights)
        made = json.loads(changed(PLAN, "indir=weight:1,1,1,1"))["reta"]
        self.assertEqual(sorted(made), sorted(i % 4 for i in range(128)))

    def test_steer_takes_what_is_set(self):
        draw = random.Random(12)
        with tempfile.TemporaryDirectory() as folder:
            for name in ("rps.json", "rfs.json", "three.json"):
                with open(example(name), encoding="utf-8") as stream:
                    text = stream.read()
                made = changed(text, *draw.sample([
                    "rx-*/rps_cpus=7", "rx-0/rps_flow_cnt=9", "tx-0/xps_cpus=2", "indir=equal:1",
                    "tx-*/xps_rxqs=1", "rps_sock_flow_entries=3", "netdev_max_backlog=65535",
                    "flow_limit_cpu_bitmap=7", "rx-*/home=2", "apps=0-2", "hkey=" + KEY,
                    "indir=default", "rx-flow-hash/udp6=sd"], 9))
                self.assertEqual(verdict(folder, name, made.encode()), (0, ""), made)

    def test_plans_that_cannot_be_changed(self):
        for data, status, reason in (
                ("{", 4, "standard input:1:1: no plan: a bracket that is never closed"),
                ("7", 3, "standard input:1:1: refused: "),
                (PLAN.replace('"cpus": 16', '"cpus": 33', 1), 3, "33 is not in 1 to 32"),
                (b"\xff", 4, "byte 0 (0xff) is not UTF-8")):
            found, out, err = run("steer-set", "-", "apps=1", data=data)
            self.assertEqual((found, out, reason in err), (status, "", True), err)


if __name__ == "__main__":
    unittest.main()
