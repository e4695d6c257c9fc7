"""Tests of steer-page."""

import base64
import hashlib
import html.parser
import io
import json
import os
import re
import struct
import unittest
import zlib

import browser
from inside import inside
from reporting import REPLIED, Folder, example, random_plan, replayed, run_closed, write_capture
from running import TOOLS, steer

from steerlib import cli, flows, report
from steerlib.page import axis, backlogs, document, sums
from steerlib.plan import read_plan

PLANS = 10
FILES = os.path.join(TOOLS, "steerlib", "page")
EMPTY = {"meta", "br", "hr", "img", "input", "link"}

ONE_FLOW = "tcp4 66.9.149.187:2794 > 161.142.100.80:1766"
"""The flow of the three packets of three.pcap."""

THREE = {
    "Processors": [["cpu", "packets", "share", "accepted", "dropped", "longest backlog"],
                   ["1", "2", "66.7%", "1", "1", "1"], ["2", "1", "33.3%", "1", "0", "1"]],
    "Receive queues": [["queue", "packets", "share", "dropped", "by a filter"],
                       ["0", "3", "100.0%", "1", "0"]],
    "Flows with the most packets": [["packets", "share", "dropped", "moves", "cpus", "flow"],
                                    ["3", "100.0%", "1", "1", "1, 2", ONE_FLOW]],
    "Packets by interval": [
        ["from packet", "packets", "dropped", "moves", "cpu 1", "cpu 2", "queue 0"],
        ["0", "1", "0", "0", "1", "0", "1"], ["1", "1", "1", "0", "1, 1 dropped", "0", "1"],
        ["2", "1", "0", "1", "0", "1", "1"]],
    "Longest backlog by interval": [["from packet", "cpu 1", "cpu 2"],
                                    ["0", "1", "0"], ["1", "1", "0"], ["2", "0", "1"]],
}
"""The tables of three.json, whose three packets docs/formats.md explains one by one."""


class Page(html.parser.HTMLParser):
    """A page that was read: tables by title, scripts, and the faults of its form."""

    def __init__(self, text):
        super().__init__()
        self.text, self.open, self.faults = text, [], []
        self.tables, self.scripts, self.texts, self.ids = {}, [], {}, []
        self.feed(text)
        self.close()
        self.faults += ["not closed: " + tag for tag, _ in self.open]

    def handle_starttag(self, tag, attributes):
        given = dict(attributes)
        if "id" in given:
            self.ids.append(given["id"])
        if tag == "tr":
            self.row = []
            self.tables.setdefault(self.texts["h2"], []).append(self.row)
        if tag in ("th", "td"):
            self.row.append("")
        if tag == "script":
            self.scripts.append([given, ""])
        if tag not in EMPTY:
            self.texts[tag] = ""
            self.open.append((tag, given))

    def handle_endtag(self, tag):
        if not self.open or self.open[-1][0] != tag:
            self.faults.append("</%s> in %s" % (tag, self.open))
        else:
            self.open.pop()

    def handle_data(self, data):
        if not self.open:
            return
        tag = self.open[-1][0]
        self.texts[tag] += data
        if tag in ("th", "td"):
            self.row[-1] += data
        if tag == "script":
            self.scripts[-1][1] += data

    def data(self):
        return json.loads(self.scripts[0][1])

    def column(self, name, width=1):
        """A column of the data as numbers; the planes of its bytes are put together again."""
        data = zlib.decompress(base64.b64decode(self.data()["columns"][name]))
        count = len(data) // width
        return [sum(data[plane * count + place] << 8 * plane for plane in range(width))
                for place in range(count)]


def page_of(*words, data=b""):
    """The page that steer-page writes with these words."""
    status, out, said = inside("steer-page", *words, data=data)
    if status or not re.fullmatch("(note: .*\n)*", said):
        raise AssertionError("steer-page %s: %s" % (" ".join(words), said))
    return Page(out.decode())


def hashes_of(folder, capture):
    """The name of a file with the output of `steer hash`."""
    return folder.write("hash", steer("hash", capture)[1].encode())


def capture_at(folder, times):
    """A capture of ARP frames that come at these nanoseconds."""
    data = struct.pack("<IHHIIII", 0xa1b23c4d, 2, 4, 0, 0, 65535, 1)
    for time in times:
        data += struct.pack("<IIII", *divmod(time, 10 ** 9), 42, 42) + bytes(12) + b"\x08\x06"
        data += bytes(28)
    return folder.write("times.pcap", data)


class Numbers(unittest.TestCase):
    def test_three_packets(self):
        with Folder() as folder:
            page = page_of("-", "--plan", example("three.json"), "--hash",
                           hashes_of(folder, example("three.pcap")),
                           data=replayed("three", "three"))
        self.assertEqual((page.faults, page.tables), ([], THREE))
        self.assertIn("A backlog holds 1 packet. No packets on cpu 0.", page.text)
        self.assertIn("packet numbers, not time: no capture was given", page.text)
        self.assertNotIn("not shown", page.text)
        self.assertEqual([page.column(name) for name in ("cpu", "queue", "mark", "flow", "events")],
                         [[1, 1, 2], [0, 0, 0], [0, 1, 2], [0, 0, 0], [64, 1, 64, 33, 64, 2, 34]])
        self.assertEqual((page.data()["flows"], page.data()["limit"]), ([ONE_FLOW], 1))

    def test_times(self):
        hour = 3600 * 10 ** 9
        cases = (([0, 1500000, 1000000, 4000000], 1, [0, 1500000, 1500000, 4000000]),
                 ([7, 7 + 2 ** 32 - 1], 1, [0, 2 ** 32 - 1]), ([7, 7 + 2 ** 32], 2, [0, 2 ** 31]),
                 ([hour, 2 * hour], 839, [0, hour // 839]), ([5, 5, 5], None, [0, 1, 2]),
                 ([9], None, [0]))
        for times, unit, places in cases:
            found = axis.Axis(len(times), times)
            self.assertEqual((found.unit, list(found.places)), (unit, places), times)
        plan = {"cpus": 1, "queues": [{"home": 0, "mask": [], "flows": 0}], "sock": 0, "apps": [0],
                "tx": [{"cpus": [], "queues": []}], "steps": ["sweep"]}
        with Folder() as folder:
            capture = capture_at(folder, [10 ** 9, 10 ** 9 + 1500000, 10 ** 9 + 4000000])
            page = page_of(folder.replay(plan, capture), "--capture", capture)
        self.assertEqual(page.column("time", 4), [0, 1500000, 2500000])
        self.assertIn("0.004 s from the first packet to the last; the first one came at "
                      "1970-01-01 00:00:01 UTC", page.text)
        rows = page.tables["Packets by interval"]
        self.assertEqual(rows[0][0], "from time")
        self.assertEqual([row[:2] for row in rows[1:] if row[1] != "0"],
                         [["0 s", "1"], ["0.0014 s", "1"], ["0.004 s", "1"]])
        self.assertEqual(len(rows), 1 + 21)

    def test_intervals_cover_the_axis_once(self):
        for end in (1, 24, 25, 26, 177, 262144):
            bounds = axis.intervals(axis.Axis(end), 25)
            self.assertLessEqual(len(bounds), 25)
            self.assertEqual([low for low, _ in bounds] + [end],
                             [0] + [high for _, high in bounds])
            self.assertIn(str(bounds[0][1]).rstrip("0") if len(bounds) > 1 else "1",
                          ("1", "2", "5"))

    def test_random_plans(self):
        with Folder() as folder:
            capture = folder.path("made.pcap")
            write_capture(capture, 300, 40, 9)
            names = hashes_of(folder, capture)
            for seed in range(PLANS):
                made = random_plan(seed)
                path = folder.replay(made, capture)
                words = [path, "--hash", names, "--capture", capture]
                follows = not made["filters"] or isinstance(made["steps"], dict)
                if follows:
                    words += ["--plan", folder.path("plan.json")]
                self.check(page_of(*words), report.read_file(path), follows,
                           inside("steer-top", path, names)[1].decode(), seed)

    def check(self, page, found, follows, top, seed):
        """The page has the numbers of the report and of the screen of steer-top."""
        self.assertEqual(page.faults, [], seed)
        if not found.packets:
            self.assertEqual((page.tables, page.scripts), ({}, []))
            return
        self.assertEqual([row[:3] + [row[4]] for row in page.tables["Processors"][1:]],
                         self.rows(top, "  cpu  ", 4) if len(page.tables["Processors"]) > 1 else [])
        self.assertEqual([row[:3] for row in page.tables["Receive queues"][1:]],
                         self.rows(top, "queue  ", 3))
        flows = [line.split()[0:3:2] for line in top.split("cpus  flow\n")[1].splitlines()]
        shown = page.tables["Flows with the most packets"][1:]
        for row, wanted in zip(shown, flows[:10]):
            self.assertEqual([row[0], row[2]], wanted, seed)
        marks = page.column("mark")
        self.assertEqual(sum(mark & 1 for mark in marks), sum(row.dropped for row in found.cpus))
        rows = page.tables["Packets by interval"][1:]
        for place, wanted in ((1, len(found.packets)), (2, sum(mark & 1 for mark in marks)),
                              (3, sum(mark >> 1 for mark in marks))):
            self.assertEqual(sum(int(row[place]) for row in rows), wanted, seed)
        if follows:
            self.check_events(page.column("events"), found, page.tables, seed)

    def rows(self, top, header, fields):
        """The first fields of each row under a header of steer-top's screen."""
        lines = top.split("\n")
        first = next(place for place, line in enumerate(lines)
                     if ("  " + line.lstrip() + "  ").startswith("  " + header.strip() + "  "))
        rows = []
        for line in lines[first + 1:]:
            if not re.match(r" *\d", line):
                return rows
            rows.append(line.split()[:fields])
        return rows

    def check_events(self, events, found, tables, seed):
        """Backlogs end with the sums of the report, and pass the length of each drop."""
        longest, lengths = [0] * 32, [0] * 32
        for event in events:
            if event < 32:
                lengths[event] += 1
                longest[event] = max(longest[event], lengths[event])
            elif event < 64:
                lengths[event - 32] -= 1
        self.assertEqual(events.count(64), len(found.packets), seed)
        for row in found.cpus:
            self.assertEqual(events.count(row.cpu), row.accepted, seed)
            self.assertEqual(lengths[row.cpu], row.accepted - row.pulled, seed)
        for packet in found.packets:
            if packet.drop is not None:
                self.assertGreaterEqual(longest[packet.cpu],
                                        packet.drop_accepted - packet.drop_pulled, seed)
        self.assertEqual([[row[0], row[5]] for row in tables["Processors"][1:]],
                         [[row[0], str(longest[int(row[0])])] for row in tables["Processors"][1:]])
        by_interval = tables["Longest backlog by interval"]
        for place, name in enumerate(by_interval[0][1:], 1):
            self.assertEqual(max(int(row[place]) for row in by_interval[1:]),
                             longest[int(name[4:])], seed)

    def test_single_steps(self):
        steps = ["arrive", "take 0", "look 0", "enter 0", "weigh 0", "look 0", "put 0", "weigh 0",
                 "leave 0", "put 0", "leave 0", "pull 1", "retire 1", "pull 1", "arrive", "poll 0",
                 "deliver 1", "pull 1", "retire 1", "pull 1"]
        plan = {"cpus": 2, "queues": [{"home": 0, "mask": [1], "flows": 0}], "sock": 0, "apps": [0],
                "tx": [{"cpus": [], "queues": []}], "steps": steps}
        with Folder() as folder:
            path = folder.replay(plan, example("three.pcap"))
            page = page_of(path, "--plan", folder.path("plan.json"))
        self.assertEqual(page.column("events"), [64, 1, 33, 64, 1, 33])

    def test_run(self):
        with Folder() as folder:
            plan = folder.write("plan.json", json.dumps(
                {"cpus": 3, "queues": [{"home": 0, "mask": [1], "flows": 0}], "sock": 0,
                 "apps": [2], "tx": [{"cpus": [], "queues": []}], "steps": []}).encode())
            path = folder.write("report", cli.run_steer(["run", plan, example("three.pcap")]))
            page = page_of(path, "--capture", example("three.pcap"))
            self.assertIn("<li>not shown: the length of backlogs over time (--plan), flows (--hash)"
                          "</li>", page.text)
            self.assertEqual(page.tables["Processors"][1], ["1", "3", "100.0%", "3", "0", "0"])
            status, out, said = inside("steer-page", path, "--plan", plan)
        self.assertEqual((status, out), (3, b""))
        self.assertIn("0 packets arrive, and the report has 3", said)

    def test_seeds(self):
        with Folder() as folder:
            capture = folder.path("made.pcap")
            write_capture(capture, 200, 30, 1)
            plan = dict(random_plan(3), steps={"seed": 11, "count": 1500})
            found = report.read_file(folder.replay(plan, capture))
            followed = backlogs.follow(found, read_plan(folder.path("plan.json")), "plan")
        self.assertEqual(followed.events.count(64), 200)
        self.assertEqual(sum(followed.longest) > 0, True)


class Form(unittest.TestCase):
    def setUp(self):
        self.page = page_of("-", "--capture", example("three.pcap"), "--plan",
                            example("three.json"), data=replayed("three", "three"))

    def test_nothing_from_outside(self):
        page = self.page
        own = page.text
        for _, script in page.scripts[1:]:
            own = own.replace(script, "")
        for text in ("http:", "https:", "//", "src=", "href=", "url(", "@import", "<link"):
            self.assertNotIn(text, own)
        own_script = page.scripts[2][1]
        for text in ("http:", "https:", "import(", "fetch(", "XMLHttpRequest", "WebSocket",
                     "innerHTML", "eval("):
            self.assertNotIn(text, own_script)
        self.assertNotIn("sourceMappingURL", page.text)
        policy = re.search('Content-Security-Policy" content="([^"]*)"', page.text).group(1)
        self.assertTrue(policy.startswith("default-src 'none'; "), policy)
        hashes = ["'sha256-%s'" % base64.b64encode(hashlib.sha256(text.encode()).digest()).decode()
                  for _, text in page.scripts[1:]]
        self.assertEqual(policy.split("script-src ")[1].split(" "), hashes)

    def test_the_library_is_the_one_named(self):
        with open(os.path.join(FILES, "dygraphs", "dygraph.min.js"), "rb") as stream:
            library = stream.read()
        with open(os.path.join(FILES, "dygraphs", "README.md"), encoding="utf-8") as stream:
            said = stream.read()
        with open(os.path.join(FILES, "dygraphs", "LICENSE"), encoding="utf-8") as stream:
            licence = stream.read()
        self.assertIn(hashlib.sha256(library).hexdigest(), said)
        script = self.page.scripts[1][1]
        self.assertIn(licence, script)
        self.assertIn(library.decode().rsplit("\n//# sourceMappingURL", 1)[0], script)

    def test_form(self):
        page = self.page
        self.assertTrue(page.text.startswith("<!DOCTYPE html>\n<html lang=\"en\">"))
        self.assertEqual(page.faults, [])
        self.assertEqual(len(set(page.ids)), len(page.ids))
        referred = re.findall(r'(?:aria-labelledby|aria-describedby)="([^"]*)"', page.text)
        self.assertLessEqual(set(referred), set(page.ids))
        self.assertEqual([given.get("type") for given, _ in page.scripts],
                         ["application/json", None, None])

    def test_names_are_escaped(self):
        evil = '</script><script>alert("1")</script><!--&'
        found = report.read(io.BytesIO(REPLIED))
        named = sums.Flows(found, ["none"] * 3)
        named.names = [evil]
        named.rows = [named.rows[0][:-1] + (evil,)]
        page = Page("\n".join(document.lines(found, evil, axis.Axis(3), None, named)))
        self.assertEqual((page.faults, len(page.scripts)), ([], 3))
        self.assertEqual(page.data()["flows"], [evil])
        self.assertEqual(page.tables["Flows with the most packets"][1][-1], evil)
        self.assertEqual((page.texts["title"], page.texts["h1"]), (evil, evil))
        with Folder() as folder:
            page = page_of(folder.write('a<b> & "c"\x01', REPLIED))
        self.assertTrue(page.texts["h1"].endswith('/a<b> & "c"\\x01'), page.texts["h1"])

    def test_contrast(self):
        """Texts have 4.5 to 1 against their background and marks 3 to 1, as WCAG 2.1 asks."""
        with open(os.path.join(FILES, "page.css"), encoding="utf-8") as stream:
            schemes = re.findall(r":root \{(.*?)\}", stream.read(), re.DOTALL)
        self.assertEqual(len(schemes), 2)
        for scheme in schemes:
            colors = dict(re.findall(r"--(\w+): (#[0-9a-f]{6});", scheme))
            for name, behind, least in (
                    ("fore", "back", 4.5), ("quiet", "back", 4.5), ("dropped", "back", 4.5),
                    ("fore", "band", 4.5), ("accepted", "back", 3), ("moved", "back", 3),
                    ("queue", "back", 3), ("backlog", "back", 3), ("quiet", "band", 3)):
                self.assertGreaterEqual(contrast(colors[name], colors[behind]), least,
                                        (name, behind))


def luminance(color):
    """The relative luminance of a colour of sRGB, by WCAG 2.1."""
    parts = [int(color[place:place + 2], 16) / 255 for place in (1, 3, 5)]
    linear = [part / 12.92 if part <= 0.04045 else ((part + 0.055) / 1.055) ** 2.4
              for part in parts]
    return 0.2126 * linear[0] + 0.7152 * linear[1] + 0.0722 * linear[2]


def contrast(one, other):
    low, high = sorted((luminance(one), luminance(other)))
    return (high + 0.05) / (low + 0.05)


class Faults(unittest.TestCase):
    def test_refusals(self):
        with Folder() as folder:
            three = folder.write("three", replayed("three", "three"))
            other = folder.write("hash", steer("hash", example("web.pcap"))[1].encode())
            cases = (
                (["-"], b"", 4, "is no report"), (["-", "--plan", "-"], b"", 2, "only one of"),
                (["-", "--svg"], b"", 2, "--svg"), (["-"], REPLIED[:-1], 3, "cut short"),
                ([three, "--capture", example("web.pcap")], b"", 3,
                 "has 177 packets, and the report is of 3"),
                ([three, "--hash", other], b"", 3, "has 177 packets, and the report is of 3"),
                ([three, "--plan", example("rps.json")], b"", 3, "and the report"),
                ([three, "--capture", three], b"", 4, "no capture"),
                ([three, "--hash", three], b"", 4, "is not output of `steer hash`"),
                ([three, "--plan", three], b"", 4, "no plan"))
            for words, data, status, text in cases:
                ended, out, said = inside("steer-page", *words, data=data)
                self.assertEqual((ended, out), (status, b""), words)
                self.assertIn(text, said)
            self.assertEqual(run_closed("steer-page", three), (0, ""))

    def test_steps_of_another_order(self):
        steps = json.loads(open(example("three.json"), encoding="utf-8").read())
        cases = ((["arrive", "poll 0", "drain 1"] * 2, "packet 1 is dropped with 1 accepted and 0 "
                  "pulled, and the steps give 1 and 1"),
                 (steps["steps"][:-1], "processor 2 accepts 1 and pulls 0"),
                 (["arrive"] * 3, "processor 1 accepts 0"), (["arrive"], "1 packets arrive"))
        with Folder() as folder:
            three = folder.write("three", replayed("three", "three"))
            for listed, text in cases:
                plan = folder.write("plan.json", json.dumps(dict(steps, steps=listed)).encode())
                status, out, said = inside("steer-page", three, "--plan", plan)
                self.assertEqual((status, out), (3, b""), listed)
                self.assertIn(text, said)

    def test_no_packets(self):
        plan = {"cpus": 1, "queues": [{"home": 0, "mask": [], "flows": 0}], "sock": 0, "apps": [0],
                "tx": [{"cpus": [], "queues": []}], "steps": []}
        with Folder() as folder:
            path = folder.replay(plan, example("three.pcap"))
            page = page_of(path, "--plan", folder.path("plan.json"), "--capture",
                           example("three.pcap"))
        self.assertEqual((page.faults, page.tables, page.scripts), ([], {}, []))
        self.assertIn("packets 0 of 3", page.text)


SHOWN = "window.steerPage && steerPage.rows[0].graph"
VALUES = "return steerPage.rows.map((row) => [row.group.kind, row.of, row.value.textContent])"
TEXT = "return document.getElementById(arguments[0]).textContent"
KEYS = {"tab": "\ue004", "right": "\ue014", "left": "\ue012", "end": "\ue010", "home": "\ue011",
        "later": "\ue00f"}


@unittest.skipIf(browser.missing(), browser.missing())
class InABrowser(unittest.TestCase):
    """The page of examples/web.pcap under rfs.json, as chromium shows it."""

    @classmethod
    def setUpClass(cls):
        cls.folder = Folder()
        folder = cls.folder.__enter__()
        cls.addClassCleanup(cls.folder.__exit__, None, None, None)
        capture = example("web.pcap")
        cls.plan = example("rfs.json")
        report_path = folder.write("report", replayed("rfs", "web"))
        cls.report = report.read_file(report_path)
        cls.axis = axis.read(cls.report, capture)
        names = hashes_of(folder, capture)
        cls.flows = flows.read_file(names)
        status, out, said = inside("steer-page", report_path, "--capture", capture, "--hash", names,
                                   "--plan", cls.plan)
        cls.path = folder.write("page.html", out)
        cls.browser = browser.Browser()
        cls.browser.__enter__()
        cls.addClassCleanup(cls.browser.__exit__)
        cls.open()

    @classmethod
    def open(cls):
        cls.browser.open(cls.path)
        cls.browser.wait(SHOWN)

    def setUp(self):
        self.browser.size_to(1200, 900)
        self.browser.scheme("light")
        self.browser.run("steerPage.flow = -1; steerPage.show(0, steerPage.data.end)")

    def tearDown(self):
        self.assertEqual(self.browser.log(), [])

    def values(self):
        return {(kind, of): text for kind, of, text in self.browser.run(VALUES)}

    def test_the_values_beside_the_charts(self):
        """Sums of the whole report; processor 3 has the drops that grep counts in it."""
        values = self.values()
        for row in self.report.cpus:
            packets = row.accepted + row.dropped
            wanted = sums.counted(packets, "packet")
            if row.dropped:
                wanted += ", %d dropped" % row.dropped
            self.assertEqual(values["cpu", row.cpu], wanted)
        self.assertEqual(values["cpu", 3], "138 packets, 23 dropped")
        self.assertEqual((values["drops", 0], values["moves", 0]), ("23 packets", "4 moves"))
        for row in self.report.queues:
            self.assertTrue(values["queue", row.queue].startswith("%d packets" % row.arrived))

    def test_columns(self):
        """Each column has the packets and the longest backlog of its part, counted again here."""
        followed = backlogs.follow(self.report, read_plan(self.plan), self.plan)
        for low, high, flow in ((0, 1, -1), (0.3, 0.45, -1), (0.9, 1, 1)):
            view, counts, lengths = self.browser.run(
                "steerPage.flow = arguments[2]; const end = steerPage.data.end;"
                "steerPage.show(arguments[0] * end, arguments[1] * end);"
                "const lists = (map) => [...map].map(([of, series]) => [of, [...series.all]]);"
                "return [steerPage.view, lists(steerPage.counts.cpu),"
                "lists(steerPage.counts.backlog)]",
                low, high, flow)
            column = [place // view["size"] - view["first"] for place in self.axis.places]
            ranks = sums.Flows(self.report, self.flows).ranks
            for cpu, found in counts:
                wanted = [0] * view["columns"]
                for packet, at, rank in zip(self.report.packets, column, ranks):
                    if packet.cpu == cpu and 0 <= at < len(wanted) and flow in (-1, rank):
                        wanted[int(at)] += 1
                self.assertEqual(found, wanted, (cpu, low, high, flow))
            self.assertEqual(dict(map(tuple, ((cpu, tuple(found)) for cpu, found in lengths))),
                             self.longest(followed.events, column, view["columns"]))

    def longest(self, events, column, columns):
        """The longest backlog of each processor in each column, by the events one by one."""
        cpus = sums.used_cpus(self.report)
        wanted = {cpu: [0] * columns for cpu in cpus}
        lengths = dict.fromkeys(cpus, 0)
        now, arrived = -10 ** 9, 0
        for event in list(events) + [None]:
            if event in (64, None):
                after = columns if event is None else min(int(column[arrived]), columns)
                arrived += 1
                for at in range(max(now + 1, 0), min(after + (event is not None), columns)):
                    for cpu in cpus:
                        wanted[cpu][at] = lengths[cpu]
                now = after
                continue
            cpu = event % 32
            lengths[cpu] += 1 if event < 32 else -1
            if 0 <= now < columns:
                wanted[cpu][now] = max(wanted[cpu][now], lengths[cpu])
        return {cpu: tuple(found) for cpu, found in wanted.items()}

    def place_of(self, row, part):
        """A place in the window at this part of a row's chart."""
        left, top, width = self.browser.run(
            "const row = steerPage.rows[arguments[0]]; row.chart.scrollIntoView({block: 'center'});"
            "const box = row.chart.getBoundingClientRect(), area = row.graph.getArea();"
            "return [box.left + area.x, box.top + 20, area.w]", row)
        return left + part * width, top

    def test_pointer(self):
        page = self.browser
        whole = page.run(TEXT, "window")
        page.point(self.place_of(1, 0.002))
        self.assertRegex(page.run(TEXT, "mark"), r"^0\.\d+ s to 0\.\d+ s: \d+ packets? \(")
        low, high = page.run("steerPage.column = 0; const view = steerPage.view;"
                             "return [view.first * view.size, (view.first + 1) * view.size]")
        first = [packet for packet, place in zip(self.report.packets, self.axis.places)
                 if low <= place < high]
        self.assertIn(": %s " % sums.counted(len(first), "packet"), page.run(TEXT, "mark"))
        self.assertFalse(page.run("return steerPage.rows[0].band.hidden"))
        page.point(self.place_of(1, 0.25), "down", self.place_of(1, 0.75), "up")
        page.wait("steerPage.view.low > 0")
        low, high = page.run("return [steerPage.view.low, steerPage.view.high]")
        self.assertAlmostEqual(low / self.axis.end, 0.25, delta=0.01)
        self.assertAlmostEqual(high / self.axis.end, 0.75, delta=0.01)
        ranges = page.run("return steerPage.rows.filter((row) => row.near)"
                          ".map((row) => row.graph.xAxisRange())")
        self.assertEqual(ranges, [[low, high]] * len(ranges))
        within = sum(packet.cpu == 3 and page_part[0] <= place < page_part[1]
                     for page_part in [self.shown()]
                     for packet, place in zip(self.report.packets, self.axis.places))
        page.point((2, 2))
        self.assertTrue(self.values()["cpu", 3].startswith(sums.counted(within, "packet")))
        at = self.place_of(1, 0.5)
        page.point(at, "down", "up", "down", "up")
        page.wait("steerPage.view.low === 0")
        self.assertEqual(page.run(TEXT, "window"), whole)

    def shown(self):
        """The places that the columns of the view cover."""
        return self.browser.run("const view = steerPage.view; return [view.first * view.size,"
                                "(view.first + view.columns) * view.size]")

    def test_keyboard(self):
        page = self.browser
        self.open()
        order = []
        for _ in range(7):
            page.press(KEYS["tab"])
            order.append(page.run("return document.activeElement.id"))
        self.assertEqual(order, ["in", "out", "earlier", "later", "all", "flow", "charts"])
        self.assertNotEqual(page.run("return getComputedStyle(document.activeElement)"
                                     ".outlineStyle"), "none")
        page.press(*[KEYS["right"]] * 3)
        self.assertEqual(page.run("return steerPage.column"), 2)
        self.assertIn("cpu 3 ", page.run(TEXT, "spoken"))
        page.press(KEYS["end"])
        self.assertEqual(page.run("return steerPage.column - steerPage.view.columns"), -1)
        page.press(KEYS["home"], KEYS["left"])
        self.assertEqual(page.run("return steerPage.column"), 0)
        page.press("+", "+")
        low, high = page.run("return [steerPage.view.low, steerPage.view.high]")
        self.assertAlmostEqual((high - low) / self.axis.end, 0.25, delta=0.001)
        page.press(KEYS["later"])
        self.assertGreater(page.run("return steerPage.view.low"), low)
        page.press("0")
        self.assertEqual(page.run("return [steerPage.view.low, steerPage.view.high]"),
                         [0, self.axis.end])

    def test_one_flow(self):
        page = self.browser
        page.run("const list = document.getElementById('flow'); list.value = '0';"
                 "list.dispatchEvent(new Event('change'))")
        values = self.values()
        found = sums.Flows(self.report, self.flows)
        self.assertEqual(sum(int(values["cpu", row.cpu].split()[0]) for row in self.report.cpus),
                         found.rows[0][0])
        self.assertEqual(page.run("return document.getElementById('flow').options[1].text"),
                         found.names[0])

    def test_colour_schemes_and_widths(self):
        page = self.browser
        for scheme, back in (("light", "rgb(255, 255, 255)"), ("dark", "rgb(20, 24, 29)")):
            for width in (1200, 480):
                page.scheme(scheme)
                page.size_to(width, 900)
                page.wait("innerWidth === %d" % width)
                color, beyond, colors = page.run(
                    "const root = document.documentElement;"
                    "return [getComputedStyle(document.body).backgroundColor,"
                    "root.scrollWidth - root.clientWidth, steerPage.rows[0].graph.getColors()]")
                self.assertEqual((color, beyond), (back, 0))
                self.assertEqual(colors, {"light": ["#d1390f", "#2a6fb8"],
                                          "dark": ["#ff7b54", "#6cb0f5"]}[scheme])

    def test_without_script(self):
        page = self.browser
        page.protocol("Emulation.setScriptExecutionDisabled", value=True)
        try:
            page.open(self.path)
            shown = [page.ask("/element", using="css selector", value=name)
                     for name in ("#over", "#table0", "table")]
        finally:
            page.protocol("Emulation.setScriptExecutionDisabled", value=False)
        visible = [page.run("return arguments[0].checkVisibility()", element) for element in shown]
        self.open()
        self.assertEqual(visible, [False, True, True])


if __name__ == "__main__":
    unittest.main()
