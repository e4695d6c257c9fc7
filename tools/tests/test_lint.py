"""Tests of steer-lint; steer itself is the judge of what is a plan."""

import concurrent.futures
import json
import os
import random
import tempfile
import unittest

from running import TOP, example, run, sample, verdict

from steerlib import cli, jsontext, lint, plan

MUTATED = 400
REST = ('"cpus":4,"queues":[{"home":0,"mask":[1],"flows":1}],"sock":4,"apps":[2],'
        '"tx":[{"cpus":[],"queues":[]}],"steps":["arrive","poll 0"]')

NUMBERS = ("1e3", "4.0", "-0", "0", "4", "5e0", "04", "1E400", "-1", "1.5", "+1", ".5", "1.", "1e",
           "1e+", "NaN", "Infinity", "0x4", "true", "null", "18446744073709551615",
           "18446744073709551616", "1" * 400, "1.7976931348623158e308", "1.7976931348623159e308",
           "0e99999999999999999999", "1e-99999999999999999999", '"4"', "[4]", '{"a":4}')
TEXTS = (r'"\ud800"', r'"\ud83d\ude00"', r'"\udc00"', r'"\ud800x"', r'"\udc00\udc00"',
         r'"\uD83D\u0041"',
         r'"\x41"', r'"\u00"', r'"\/\b\f\n\r\t"', '"x\ty"', '"\x7f"', '"\u2028"', '"\U0001f600"',
         "'x'", '"x', r'"\"')
BLANKS = (" ", "\t", "\r", "\n", "\x0b", "\x0c", "\u00a0", "\ufeff", "\0", "\u2003")
STEPS = (r"\u0061rrive", r"poll \u0030", "poll \u0660", r"poll\t0", "poll  0", "poll 00000000000",
         "poll 0000000000", "poll 1", "mask 0 1,1,01", "mask 0 " + ",".join("1" * 99), "mask 0 ,",
         "mask 0 -", "mask 0 1,", "mask 0 4", "mask 1 1", "reta 127 0", "reta 128 0", "reta 0 1",
         "sock 65536", "sock 65537", "flows 0 32768", "flows 0 32769", "record 262143",
         "record 262144", "stand 0 3", "stand 1 3", "stand 0 4", "xcpus 0 3", "xqueues 0 0",
         "xqueues 0 1", "xqueues 0 -", "offline 3", "offline 4", "online", "expire", "expire 0",
         "sweep ", " sweep", "", "-", "tenter 0", "tleave 1", "poll 9999999999")
MEMBERS = (   # whole keys beside or over those of REST
    '"cpus":5', r'"\u0063pus":3', r'"\u0063pus":33', '"":1', '"steps":[]', '"steps":{}',
    '"steps":{"seed":18446744073709551615,"count":999999}', '"steps":{"seed":1,"count":1000000}',
    '"steps":{"seed":1,"count":1,"more":1}', '"steps":"sweep"', '"steps":[1]',
    '"steps":[["sweep"]]', '"detach":[{"tap":31,"after":262144}]',
    '"detach":[{"tap":32,"after":0}]', '"detach":[{"tap":0,"after":262145}]',
    '"detach":[{"tap":0}]', '"detach":[]',
    '"detach":[%s]' % ",".join(['{"tap":0,"after":0}'] * 33), '"key":"%s"' % ("aF" * 40),
    '"key":"%s"' % ("aF" * 41), '"key":4', '"limited":%s' % ([0] * 32), '"limited":%s' % ([0] * 33),
    '"limited":[4]', '"apps":[]', '"apps":%s' % ([0] * 32), '"apps":%s' % ([0] * 33), '"tx":[]',
    '"tx":[%s]' % ",".join(['{"cpus":[],"queues":[]}'] * 32), '"tx":{}',
    '"tx":[%s]' % ",".join(['{"cpus":[],"queues":[]}'] * 33), '"tx":[{"cpus":[]}]',
    '"tx":[{"cpus":[],"queues":%s}]' % ([0] * 16), '"tx":[{"cpus":[],"queues":%s}]' % ([0] * 17),
    '"tx":[{"cpus":[],"queues":[1]}]', '"reta":%s' % ([0] * 128), '"reta":%s' % ([0] * 127),
    '"reta":%s' % ([1] * 128), '"queues":[]', '"queues":[{"home":4,"mask":[],"flows":0}]',
    '"queues":[{"home":0,"mask":%s,"flows":0}]' % ([3] * 33), '"filters":4096', '"filters":4097',
    '"start":4294967295', '"start":4294967296', '"workers":0', '"workers":32', '"tries":64',
    '"tries":65', '"kinds":63', '"kinds":64', '"backlog":0', '"backlog":65537')

# A wrong plan of REST's kind with @ before the place that is meant, its path, and what is said.
MEANT = (
    ('{\n %s,\n "queues": [{"home": 0, "mask": @"f0", "flows": 1}]}', "queues/0/mask",
     "as a hexadecimal mask that is [4, 5, 6, 7]"),
    ('{%s, "limited": @"0-2,8"}', "limited", "as a list of sysfs that is [0, 1, 2, 8]"),
    ('{%s, "limited": @3}', "limited", "3 is no list of numbers, 0 to 3; a set of one is [3]"),
    ('{%s, "sock": @1e3}', "sock",
     "1e3 is no whole number, 0 to 65536; written as digits alone it is 1000"),
    ('{%s, "sock": @131072}', "sock", "131072 is not in 0 to 65536"),
    ('{%s, "steps": ["sweep", @"pol 0"]}', "steps/1",
     "`pol 0`: no such step, is it `poll`?"),
    ('{%s, "steps": [@"poll 1"]}', "steps/0", "`poll 1`: receive queue 1 is not in 0 to 0"),
    ('{%s, "steps": [@"poll"]}', "steps/0",
     "`poll`: `poll` wants behind it a receive queue (0 to 0)"),
    ('{%s, "steps": [@"mask 0 c"]}', "steps/0", "`mask 0 c`: `c` is no set, which is "
     "numbers with commas and no blank, or -; meant may be 2,3"),
    ('{%s, "steps": [@"mask 0 1, 2"]}', "steps/0",
     "`mask 0 1, 2`: one blank stands between words, and none elsewhere"),
    ('{%s, @"netdev_max_backlog": 9}', "netdev_max_backlog",
     "unknown key, is it `backlog`, which is one more?"),
    ('{%s, @"flow_limit_cpu_bitmap": [1]}', "flow_limit_cpu_bitmap", "unknown key, is it "
     "`limited`, which names the processors that are put to, and not those that put?"),
    ('{%s, @"kind": 9}', "kind", "unknown key, is it `kinds`?"),
    ('{%s, "key": @"6d:5a"}', "key", "no text of 80 hexadecimal digits; these are 4"),
    ('{%s, "reta": @[0]}', "reta", "1 members, and it has 128"),
    ('{%s, "queues": [@{"home": 0, "flows": 1}]}', "queues/0/mask", "missing"),
    ('["cpus"@%s', None, "neither a comma nor `]`"),
    ('{%s, "a": @f0}', None, "if `f0` is a mask, that is [4, 5, 6, 7]"),
    ('{%s, "a": 0@xf0}', None, "if `0xf0` is a mask, that is [4, 5, 6, 7]"),
    ('{%s, "a": [1,@]}', None, "a comma stands before the closing bracket"),
    ('{%s,\n@// no\n"a": 1}', None, "JSON has no comments"),
    ("{%s, @'a': 1}", None, "texts stand in double quotation marks"),
    ("{%s, @a: 1}", None, "keys stand in double quotation marks"),
    ('{%s @"a": 1}', None, "a comma may be missing before it"),
    ('{%s, "a": @True}', None, "`True` is `true` in JSON"),
    ('{%s, "a": 0@1}', None, "a number has no leading zeros"),
    ('{%s, "a": "x@\n"}', None, "a line break inside a text"),
    ('{%s, "a": "@\\ud800"}', None, "a surrogate that stands alone"),
    ('{%s, "a": @1e999}', None, "a number beyond the largest that there is"),
    ('@{%s', None, "a bracket that is never closed"),
    ('{%s} @{', None, "something behind the end of the value"),
    ("@\ufeff{%s}", None, "a byte order mark stands before the plan"),
    ("@cpus: %s", None, "keys stand in double quotation marks"),
    ("[" * 127 + "@[%s", None, "more than 127 brackets open at once"),
)


def oddities():
    """Texts at the edges of JSON and of the plan's own rules."""
    texts = ["{%s}" % REST, REST, "", " ", "[]", "null", "7", '"{}"', "{%s" % REST, "{%s}]" % REST]
    for depth in (1, 125, 126, 127, 128):
        for opening, closing in (("[", "]"), ('{"a":', "}")):
            nested = opening * depth + "1" + closing * depth
            texts += ['{"cpus":%s,%s}' % (nested, REST), '{%s,"zeal":%s}' % (REST, nested), nested]
    for value in NUMBERS + TEXTS:
        texts += ['{"cpus":%s,%s}' % (value, REST), '{%s,"start":%s}' % (REST, value),
                  '{%s,"steps":{"seed":%s,"count":3}}' % (REST, value)]
    for blank in BLANKS:
        texts += [blank + "{%s}" % REST, "{%s}%s" % (REST, blank), "{%s%s}" % (blank, REST),
                  "{%s}" % REST.replace(":4", ":4" + blank)]
    texts += ['{%s,"steps":["%s"]}' % (REST, step) for step in STEPS]
    texts += ["{%s,%s}" % (REST, member) for member in MEMBERS]
    texts += ["{%s,%s}" % (member, REST) for member in MEMBERS[:6]]
    return [text.encode("utf-8") for text in texts] + [
        b'{"cpus":"\xff",%s}' % REST.encode(), b'{"cpus":"\xed\xa0\x80",%s}' % REST.encode(),
        b'{"cpus":"\xc0\x80",%s}' % REST.encode(), b"\xff\xfe{\0}\0"]


class Mutant:
    """A plan that is taken, and one that has some of its parts changed at random."""

    VALUES = (0, 1, 2, 3, 4, 7, 15, 16, 31, 32, 33, 63, 64, 127, 128, 255, 1000, 4096, 32768, 32769,
              65536, 65537, 262143, 262144, 999999, 1000000, 2 ** 32 - 1, 2 ** 32, 2 ** 64 - 1,
              2 ** 64, -1, 1.5, 4.0, None, True, "f0", "4-7", "", [], [0], [0, 1], {}, [[]],
              {"seed": 1, "count": 2}, "sweep", ["sweep"], ["arrive", "poll 0", "drain 0"])
    STEPS = ("arrive", "poll 0", "poll 3", "drain 1", "serve 0", "ship 0", "sweep", "expire",
             "mask 0 1,2", "mask 1 -", "flows 0 256", "sock 1024", "offline 3", "online 1",
             "xcpus 0 0,1", "xqueues 0 0", "reta 5 1", "stand 0 1", "record 17", "take 0", "pull 2",
             "Poll 0", "poll", "poll x", "mask 0 f0", "stand 0", "reta 200 0", "arrive 1", "arive")

    def __init__(self, seed):
        self.draw = random.Random(seed)
        self.plan = self.valid()
        self.places = []
        self.walk(self.plan)

    def set_of(self, count, most):
        return [self.draw.randrange(count) for _ in range(self.draw.randint(0, min(most, 5)))]

    def valid(self):
        draw = self.draw
        cpus, queues = draw.randint(2, 32), draw.randint(1, 16)
        made = {"cpus": cpus, "queues": [
            {"home": draw.randrange(cpus), "mask": self.set_of(cpus, 32),
             "flows": draw.choice([0, 256])} for _ in range(queues)], "sock": 1024,
            "apps": [draw.randrange(cpus) for _ in range(draw.randint(1, 4))],
            "tx": [{"cpus": self.set_of(cpus, 32), "queues": self.set_of(queues, 16)}
                   for _ in range(draw.randint(1, 3))],
            "steps": draw.choice([["sweep"], {"seed": 3, "count": 20}, ["arrive", "poll 0"]])}
        more = {"key": "ab" * 40, "kinds": 27, "filters": 16, "backlog": 5, "start": 7,
                "limited": [0], "workers": 2, "tries": 3, "detach": [{"tap": 0, "after": 3}],
                "reta": [draw.randrange(queues) for _ in range(128)]}
        made.update((key, more[key]) for key in more if draw.random() < 0.4)
        return made

    def walk(self, value):
        """Gathers all (holder, key) of the plan."""
        for key in list(value if isinstance(value, dict) else range(min(len(value), 4))):
            self.places.append((value, key))
            if isinstance(value[key], (dict, list)):
                self.walk(value[key])

    def mutate(self):
        draw = self.draw
        holder, key = draw.choice(self.places)
        how = draw.random()
        if how < 0.5:
            step = isinstance(holder, list) and holder is self.plan.get("steps")
            holder[key] = draw.choice(self.STEPS if step else self.VALUES)
        elif how < 0.6 and isinstance(holder, dict):
            holder.pop(key, None)
        elif how < 0.75 and isinstance(holder, dict):
            holder[draw.choice(["zeal", "mask", "flow", "Cpus", key.upper(), "kinds"])] = 1
        elif isinstance(holder, list):
            holder[key:key] = [draw.choice(holder)] * draw.choice([1, 2, 20, 40])
        elif draw.random() < 0.5:
            self.plan["steps"] = [draw.choice(self.STEPS) for _ in range(draw.randint(0, 4))]
        else:
            holder[key] = draw.choice([0, 1, 2, 3])

    def text(self):
        for _ in range(self.draw.choice([0, 1, 1, 1, 2, 3])):
            try:
                self.mutate()
            except (KeyError, IndexError):
                pass
        written = json.dumps(self.plan)
        if self.draw.random() < 0.2:    # and one character of it
            at = self.draw.randrange(len(written))
            written = written[:at] + self.draw.choice('",:[]{}0 e-x\n') + written[
                at + self.draw.randint(0, 1):]
        return written.encode("utf-8")


class Lint(unittest.TestCase):
    def judged(self, texts):
        """Holds lint against steer over all texts; how many steer took."""
        taken = 0
        with tempfile.TemporaryDirectory() as folder, \
                concurrent.futures.ThreadPoolExecutor(4) as pool:
            verdicts = pool.map(lambda pair: verdict(folder, str(pair[0]), pair[1]),
                                enumerate(texts))
            for text, (status, message) in zip(texts, verdicts):
                faults = lint.judge(text)[2]
                self.assertIn(status, (0, 3), (message, text))
                self.assertEqual(not faults, status == 0,
                                 (message, text[:300], [fault.reason for fault in faults]))
                taken += status == 0
        return taken

    def test_mutated_plans_are_judged_as_steer_does(self):
        taken = self.judged([Mutant(seed).text() for seed in range(MUTATED)])
        self.assertTrue(MUTATED // 5 < taken < MUTATED * 4 // 5, taken)

    def test_oddities_are_judged_as_steer_does(self):
        texts = oddities()
        taken = self.judged(texts)
        self.assertTrue(40 < taken < len(texts) - 100, (taken, len(texts)))

    def test_more_than_steer_reads(self):
        texts = ((b"{%s,\"steps\":[%s0]}" % (REST.encode(), b"0," * 1000000), 3,
                  "1000001 steps, and a plan has at most 1000000"),
                 (b" " * 16777217, 8, "16777217 bytes, and a plan has at most 16777216"),
                 (b"{" * 300000 + b"[" * 500001, 7,
                  "800001 opening brackets, and steer reads at most 800000"))
        with tempfile.TemporaryDirectory() as folder:
            for text, status, reason in texts:
                self.assertEqual(verdict(folder, "large", text)[0], status)
                self.assertEqual(lint.judge(text)[2][0].reason, reason)

    def test_every_beginning_of_a_plan_is_none(self):
        with open(example("three.json"), "rb") as stream:
            text = stream.read().rstrip()
        for end in range(len(text)):
            self.assertIsNone(lint.judge(text[:end])[2][0].path, text[:end])
        self.assertEqual(lint.judge(text)[2], [])

    def test_any_bytes_are_judged(self):
        draw = random.Random(5)
        for _ in range(300):
            text = bytes(draw.randrange(256) for _ in range(draw.randint(0, 40)))
            self.assertEqual(len(lint.judge(text)[2]), 1, text)

    def test_place_and_meaning(self):
        for form, path, words in MEANT:
            before, after = (form % REST).split("@")
            lines = before.split("\n")
            _, _, faults, _ = lint.judge((before + after).encode("utf-8"))
            places = jsontext.Places(before + after)
            found = [(places.of(fault.offset), fault.path) for fault in faults
                     if words in fault.reason]
            self.assertEqual(found, [((len(lines), len(lines[-1]) + 1), path)],
                             (form, [(places.of(f.offset), f.path, f.reason) for f in faults]))

    def test_all_faults_are_said(self):
        text = ('{"cpus": 99, "queues": [{"home": 0, "mask": "f0", "flows": -1}], "sock": 4,\n'
                ' "apps": [], "tx": [], "backlogg": 5,\n "steps": ["arrive", "pol 0", "poll 1"]}')
        status, out, err = run("steer-lint", "-", data=text)
        self.assertEqual((status, err), (3, ""))
        self.assertEqual([line.split(" ")[2][:-1] for line in out.splitlines()], [
            "cpus", "queues/0/mask", "queues/0/flows", "apps", "tx", "backlogg", "steps/1",
            "steps/2"])
        self.assertTrue(out.startswith("standard input:1:10: cpus: 99 is not in 1 to 32\n"), out)

    def test_the_line_is_shown_where_it_is_no_json(self):
        status, out, err = run("steer-lint", "-", data='{"cpus": 4,\n "sock": 0x4}\n')
        self.assertEqual((status, out, err), (4, (
            "standard input:2:11: neither a comma nor `}`; numbers are decimal; if `0x4` is a "
            "mask, that is [2]\n"
            '   "sock": 0x4}\n'
            "            ^\n"), ""))

    def test_plans_that_are_taken(self):
        for path in (example("rps.json"), example("rfs.json"), sample("plan", "ix.json")):
            self.assertEqual(run("steer-lint", path), (0, path + ": ok\n", ""))

    def test_equal_keys_are_noted(self):
        status, out, err = run("steer-lint", "-", data='{"cpus":7,%s}' % REST)
        self.assertEqual((status, out), (0, "standard input: ok\n"))
        self.assertEqual(err, "note: standard input: cpus stands 2 times; the last counts\n")

    def test_other_files(self):
        for path, status, text in (
                (example("web.pcap"), 4, "a capture stands in the plan's place"),
                (os.path.join(TOP, "nosuch.json"), 4, "No such file or directory"),
                (TOP, 4, "Is a directory")):
            found, out, err = run("steer-lint", path)
            self.assertEqual((found, text in out + err), (status, True), out + err)

    def test_plans_are_read_and_written(self):
        for name in ("rps.json", "three.json", "rfs.json"):
            with open(example(name), encoding="utf-8") as stream:
                wanted = json.load(stream)
            read = plan.read_plan(example(name))
            self.assertEqual(read, wanted)
            self.assertEqual(json.loads(plan.plan_text(read)), wanted)
        long = dict(wanted, steps=["arrive", "poll 0"] * 500)
        written = plan.plan_text(long)
        self.assertEqual(json.loads(written), long)
        self.assertLessEqual(max(map(len, written.split("\n"))), 101)

    def test_a_plan_that_is_read_has_to_be_one(self):
        with tempfile.TemporaryDirectory() as folder:
            for text, kind, reason in (
                    ('{"cpus":4,%s,"sock":-1,"tx":0}' % REST, cli.Refused,
                     ":1:149: refused: sock: -1 is not in 0 to 65536 (steer-lint shows all 2 "
                     "faults)"),
                    ("{", cli.NotThatFile, ":1:1: no plan: a bracket that is never closed")):
                path = os.path.join(folder, "plan.json")
                with open(path, "w", encoding="utf-8") as stream:
                    stream.write(text)
                with self.assertRaises(kind) as caught:
                    plan.read_plan(path)
                self.assertEqual(str(caught.exception), path + reason)


if __name__ == "__main__":
    unittest.main()
