"""A plan's steps from the times of a capture and a rate of service for each processor.

Which processor a packet goes to may depend on the steps themselves, by RFS and its filters. So the
places of all packets are guessed, steps are made of the guess, and the proved replay of these
steps says where each packet went; that is the next guess, until replay and guess agree. What comes
before a packet fixes its place, so the first packet that is elsewhere moves forward: it stays for
another round only where its queue was right before its processor, or that before its drop.

Times are nanoseconds, rates packets a second.
"""

from __future__ import annotations

import argparse
import contextlib
import gc
import json
import operator
import os
import re
import shutil
import tempfile
from itertools import accumulate, compress, count, islice
from typing import Callable, Dict, Iterable, Iterator, List, NamedTuple, Union

from . import capture as captures
from . import cautions, cli, ethtool, flows, foretelling, limits, packed, progress
from . import offline as offlines
from . import plan as plans
from .serving import Desk, Places, Service, steps_each

MOST_ROUNDS = 500
MANY_PACKETS = 10000   # from so many on a schedule may take longer than two seconds
COMMANDS = ("mask", "flows", "sock", "offline", "online", "xcpus", "xqueues", "reta", "stand",
            "expire")

# What a plan has as its steps: texts, a seed and a count, or the text of either in JSON.
Steps = Union[List[str], Dict[str, int], str]

# The Places of a replay of steps, where those before a packet are known; see agree.
Replay = Callable[[str, Places, int], Places]


class Agreed(NamedTuple):
    """The Desk with the steps that were agreed upon, after how many rounds, and the Places then.

    `whole` is false where a drop was enough: then there are packets elsewhere than the steps
    assume, behind the first one that is dropped.
    """

    desk: Desk
    rounds: int
    places: Places
    whole: bool = True


class Load(NamedTuple):
    """What the processors have to do, in packets a second, and how fast the packets come.

    `rate` is that of each processor but those of `own_rates`, which are pairs of a number and its
    rate; it is 0 where each trial has its own. `reads`, `replies`: whether packets are read,
    and replied to, once they are delivered. `speed` is how many times as fast they come. `offline`
    says which processors go offline, None where none does.
    """

    rate: float
    own_rates: list[tuple[int, float]]
    reads: bool
    replies: bool
    speed: float
    offline: offlines.Offline | None = None


def load_of(told: argparse.Namespace, rate: float = 0) -> Load:
    """The Load of the words that numbers.add_load adds, and offline.add_option where it did."""
    return Load(rate, told.cpu, told.reads, told.replies, told.speed,
                getattr(told, "offline", None))


_QUEUE = re.compile(rb" q (\d+) via ")
_APP = re.compile(rb" app (\d+) in ")
_COMMAND = re.compile(rb"\nc \d+ ([^\n]+)")
# The processor of a packet that was put, and a `d` where it was dropped; the other pattern goes on
# to an `f` where the flow limit dropped it.
_PUT = re.compile(rb"cpu (\d+ why [a-z]+ at d?)")
_PUT_WITH_LIMIT = re.compile(rb"cpu (\d+ why [a-z]+ at (?:d(?:rop \d+ \d+ \d+ f)?)?)")
_NUMBERS = {b"%d" % number: number for number in range(limits.MOST_PROCESSORS)}


def _numbers_of(pattern, data, start, end):
    return [_NUMBERS[number] for number in pattern.findall(data, start, end)]


def places_of(data: bytes, settings: plans.Plan, known: Places | None = None,
              first: int = 0) -> Places:
    """The Places that the bytes of a report name, of packets that were all put.

    Those before the packet `first`, the applications of all, and the queues where no filter leads
    to others, are taken from `known`. This is for reports that were just made by these settings:
    nothing is checked, and a packet that was not put is left out.
    """
    start, end = max(0, data.find(b"\np %d " % first)), data.rfind(b"\np ")
    end = data.find(b"\n", end + 1)
    put = (_PUT_WITH_LIMIT if settings.get("limited") else _PUT).findall(data, start, end)
    cpu_of = {text: int(text.split(b" ")[0]) for text in set(put)}
    cpus = [cpu_of[text] for text in put]
    drops = {text for text in cpu_of if b" at d" in text}
    dropped = set(compress(count(first), map(drops.__contains__, put))) if drops else set()
    limited = {packet for packet in dropped if put[packet - first].endswith(b"f")} if (
        settings.get("limited")) else set()
    if known is None:
        return Places(_numbers_of(_QUEUE, data, start, end), cpus,
                      _numbers_of(_APP, data, start, end), dropped, limited)
    queues = known.queues
    if settings.get("filters"):
        queues = queues[:first] + _numbers_of(_QUEUE, data, start, end)
    return Places(queues, known.cpus[:first] + cpus, known.apps,
                  dropped.union(packet for packet in known.dropped if packet < first),
                  limited.union(packet for packet in known.limited if packet < first))


def times_of(name: str, source: str) -> list[int]:
    """The time of each packet that steer reads in the capture `name`, in the order of the file.

    Messages name `source`; what is odd about the times is noted.
    """
    times: list[int] = []
    passed_over = 0
    merged = captures.Merged()
    with cli.open_bytes(name) as stream:
        for frame in captures.Capture(stream, source).frames():
            if frame.kind == captures.OBSOLETE:
                passed_over += 1
                continue
            times.append(_time(frame, len(times), source))
            merged.show(frame)
    if passed_over:
        cli.note("%d obsolete packet blocks have no step, since steer passes them over; steer-cap "
                 "makes packets of them" % passed_over)
    merged.say()
    _say_order(times)
    return times


def _time(frame, number, source):
    """The time of a frame; one that steer does not read, or that has none, is refused."""
    if frame.link != captures.ETHERNET:
        raise cli.Refused(source, "packet %d has link type %d, and steer reads 1 (Ethernet); "
                          "steer-cap turns others into it" % (number, frame.link))
    if frame.time is None:
        raise cli.Refused(source, "packet %d is in a simple packet block, which has no time"
                          % number)
    if number == limits.MOST_PACKETS:
        raise cli.Refused(source, "more than %d packets; steer-cap takes a part"
                          % limits.MOST_PACKETS)
    return frame.time


def _say_order(times):
    """Notes packets of an earlier time than one before them, and times that are all the same."""
    early = sum(time < before for time, before in zip(times[1:], accumulate(times, max)))
    if early:
        cli.note("%d packets stand behind one of a later time; the order of the file is kept"
                 % early)
    if times[1:] and max(times) == times[0]:
        cli.note("no packet is later than the first, so all arrive at once")


def arrivals_of(times: list[int], speed: float) -> list[float]:
    """The nanoseconds from the first packet to each, divided by `speed`.

    A packet that stands in the file behind one of a later time arrives with that one.
    """
    latest = 0
    arrivals = []
    for time in times:
        latest = max(latest, time - times[0])
        arrivals.append(latest / speed)
    return arrivals


def packets_that_fit(drops: Iterable[int], service: Service) -> int:
    """How many of the first packets have no more steps than a plan has, where these are dropped."""
    steps, dropped = 1, set(drops)
    if service.leave is not None:
        steps += len(service.leave.stands) + len(service.leave.cpus)
    for packet in count():
        steps += 2 if packet in dropped else 2 + steps_each(service)
        if steps > limits.MOST_STEPS:
            return packet
    raise AssertionError


def check_fit(times: list[int], load: Load, source: str, hint: str) -> None:
    """Refuses a capture whose steps might be more than a plan has; `hint` says what helps.

    How many steps there are depends on the drops, which are known only after the work.
    """
    most = most_packets(load)
    if len(times) > most:
        raise cli.Refused(source, "%d packets have up to %d steps, and a plan has at most %d; the "
                          "first %d packets fit in any case%s"
                          % (len(times), 1 + _commands(load) + len(times) * (
                              2 + _steps_each(load)), limits.MOST_STEPS, most, hint))


def most_packets(load: Load) -> int:
    """How many packets have no more steps than a plan has, whatever is dropped."""
    return (limits.MOST_STEPS - 1 - _commands(load)) // (2 + _steps_each(load))


def _commands(load):
    """How many commands a schedule may have."""
    return limits.MOST_READERS + len(load.offline.cpus) if load.offline is not None else 0


def _steps_each(load):
    return 3 + bool(load.reads) + bool(load.replies)


def elsewhere(places: Places, drops: Iterable[int], answer: Places, first: int = 0) -> list[int]:
    """The packets from `first` on that the answer has elsewhere than the steps assume.

    That is at another queue or processor, or dropped or not.
    """
    moved = set(drops) ^ answer.dropped
    for before, after in ((places.queues, answer.queues), (places.cpus, answer.cpus)):
        if before != after:
            unlike = map(operator.ne, islice(before, first, None), islice(after, first, None))
            moved.update(compress(count(first), unlike))
    return sorted(moved)


def _check_count(places, arrivals, source):
    if len(places.cpus) != len(arrivals):
        raise cli.Refused(source, "%d packets have a time, and steer's report has %d that were put"
                          % (len(arrivals), len(places.cpus)))


def agree(arrivals: list[float], guess: Places, service: Service, replay: Replay, source: str,
          say: Callable[[str], None] | None = None, until_drop: bool = False) -> Agreed:
    """The steps that serve these arrivals at these rates, agreed upon with the replay: Agreed.

    `guess` are the Places to begin with; replay(text, guess, first) gives those of steer's report
    of the steps of this text, of which those before the packet `first` are the guess's. `say` is
    shown a line for each round. With `until_drop` it ends as soon as a packet is dropped for
    certain. Refused(source, ..) where a plan has no room for the steps, or after 500 rounds.
    """
    _check_count(guess, arrivals, source)
    desk = Desk(arrivals, service, guess.apps)
    first = 0
    tell = progress.Progress("packets that agree", len(arrivals))
    for number in range(1, MOST_ROUNDS + 1):
        desk.serve(guess, first)
        _check_steps(desk, source)
        answer = replay(desk.text_of_round(), guess, first)
        _check_count(answer, arrivals, source)
        wrong = elsewhere(guess, desk.drops, answer, first)
        if say is not None:
            say("round %d: %d packets elsewhere than assumed%s"
                % (number, len(wrong), ", the first is %d" % wrong[0] if wrong else ""))
        if not wrong:
            return Agreed(desk, number, answer)
        if until_drop and desk.drops and desk.drops[0] < wrong[0]:
            return Agreed(desk, number, answer, False)
        guess, first = answer, wrong[0]
        if say is not None and len(arrivals) >= MANY_PACKETS:
            tell.at(first)
    raise cli.Refused(source, "after %d rounds the replay still has %d packets elsewhere than the "
                      "steps assume" % (MOST_ROUNDS, len(wrong)))


def _check_steps(desk, source):
    """Refuses more steps than a plan has."""
    if desk.count() > limits.MOST_STEPS:
        raise cli.Refused(source, "%d packets need %d steps, and a plan has at most %d; the first "
                          "%d packets fit"
                          % (len(desk.arrivals), desk.count(), limits.MOST_STEPS,
                             packets_that_fit(desk.drops, desk.service)))


class Replays:
    """Replays of one plan's settings over one capture, with one list of steps after another.

    `settings` are the plan as plan.read_plan gives it, `capture` is a file that steer can read;
    messages name them `source` and `shown_capture`. `folder` is one that may be written into: the
    report of the last replay is its file `report`.
    """

    def __init__(self, settings: plans.Plan, source: str, capture: str, shown_capture: str,
                 folder: str) -> None:
        self.settings = settings
        self.source = source
        self.capture = capture
        self.shown_capture = shown_capture
        self.folder = folder
        self.plan = os.path.join(folder, "plan.json")
        self.report = os.path.join(folder, "report")

    def run(self, steps: Steps) -> None:
        """Replays these steps; a plan that steer refuses is Refused with steer's own message."""
        text = steps if isinstance(steps, str) else json.dumps(steps)
        others = {name: value for name, value in self.settings.items() if name != "steps"}
        with open(self.plan, "w", encoding="ascii") as out:
            out.writelines((json.dumps(others)[:-1], ', "steps": ', text, "}"))
        with open(self.report, "wb") as out:
            try:
                cli.run_steer(["replay", self.plan, self.capture], out)
            except cli.NoSteer:
                raise
            except cli.Refused as fault:
                source = self.source if fault.reason.startswith("plan") else self.shown_capture
                raise cli.Refused(source, fault.reason) from None

    def places(self, steps: Steps, known: Places | None = None, first: int = 0) -> Places:
        """The Places of a replay of these steps, as places_of has them."""
        self.run(steps)
        with open(self.report, "rb") as stream:
            return places_of(stream.read(), self.settings, known, first)


def flow_texts(capture: str, folder: str) -> list[bytes]:
    """The flow of each packet of a capture, as `steer hash` writes it."""
    name = os.path.join(folder, "hash")
    with open(name, "wb") as out:
        cli.run_steer(["hash", capture], out)
    with open(name, "rb") as text:
        return flows.FLOW.findall(text.read())


def numbers_of(texts: Iterable[bytes]) -> list[int]:
    """The flow number of each packet of these flows, as `record` takes it."""
    numbers: Dict[bytes, int] = {}
    return [numbers.setdefault(text, len(numbers)) for text in texts]


@contextlib.contextmanager
def plain_file(name: str) -> Iterator[str]:
    """The name of a file with the bytes of the capture `name` that steer itself can read again.

    That is `name`, or a copy for the time of the context where it is packed, standard input or a
    pipe.
    """
    if name != "-" and os.path.isfile(name):
        with open(name, "rb") as stream:
            if packed.kind_of(stream.read(packed.LONGEST_MAGIC)) is None:
                yield name
                return
    with tempfile.NamedTemporaryFile(suffix=".pcap") as copy:
        with cli.open_bytes(name) as stream:
            shutil.copyfileobj(stream, copy)
        copy.flush()
        yield copy.name


def service_of(settings: plans.Plan, load: Load, flows: list[int] | None) -> Service:
    """The Service that a plan's processors give; `settings` are those of a plan that steer takes.

    WrongWords where a processor of the load's own rates is none of the plan.
    """
    cpus = settings["cpus"]
    rates = [load.rate] * cpus
    for cpu, rate in load.own_rates:
        if cpu >= cpus:
            raise cli.WrongWords("--cpu %d=%g: the plan has the processors 0 to %d"
                                 % (cpu, rate, cpus - 1))
        rates[cpu] = rate
    leave = None if load.offline is None else offlines.leave_of(settings, load.offline)
    return Service(rates, settings.get("backlog", plans.DEFAULTS["backlog"]), flows, load.replies,
                   bool(settings.get("filters")), leave)


class Schedules:
    """Schedules of a plan (its Replays) for packets of these times under a load.

    The first guess is what the rule of RFS foretells where it decides, and else the places of a
    replay of a single sweep, or of the schedule before. Which it is changes the number of rounds,
    and not what is agreed upon.
    """

    def __init__(self, replays: Replays, times: list[int], load: Load) -> None:
        self.replays = replays
        self.load = load
        self.arrivals = arrivals_of(times, load.speed)
        texts = flow_texts(replays.capture, replays.folder) if load.reads else []
        self.flows = numbers_of(texts) if load.reads else None
        self.guess = replays.places(["sweep"])
        self.ways: List[foretelling.Way] = []
        if load.reads and foretelling.is_followed(replays.settings):
            self.ways = foretelling.ways_of(replays.settings, texts, self.guess.queues)

    def agreed(self, rate: float, backlog: int | None = None,
               say: Callable[[str], None] | None = None, until_drop: bool = False) -> Agreed:
        """The Agreed steps at a rate, as `agree` has them; with another backlog than the plan's."""
        replays = self.replays
        if backlog is not None:
            replays.settings = dict(replays.settings, backlog=backlog)
        with _uncollected():
            service = service_of(replays.settings, self.load._replace(rate=rate), self.flows)
            self._check_time(service.leave)
            guess = self.guess
            if self.ways:
                guess = foretelling.Foretelling(self.arrivals, service, replays.settings, guess,
                                                self.ways).foretold()
            found = agree(self.arrivals, guess, service, replays.places, replays.shown_capture,
                          say, until_drop)
            if service.leave is not None and found.whole:
                self._check_answers()
        self.guess = found.places
        return found

    def _check_answers(self):
        """Refuses a schedule in whose replay a command is not done."""
        with open(self.replays.report, "rb") as stream:
            for answer in _COMMAND.findall(stream.read()):
                if not answer.endswith(b" done"):
                    raise cli.Refused(self.replays.source, "steer answers the command `%s`"
                                      % answer.decode())

    def _check_time(self, leave):
        """Refuses processors that leave behind the last packet."""
        last = self.arrivals[-1] if self.arrivals else 0
        if leave is not None and leave.time > last:
            raise cli.WrongWords("--offline %s: the last packet comes %g s after the first"
                                 % (self.load.offline.text, last / 1e9))


def timed_steps(replays: Replays, times: list[int], load: Load,
                say: Callable[[str], None] | None = None) -> Agreed:
    """The Agreed steps of a plan (its Replays) for packets of these times under a load."""
    return Schedules(replays, times, load).agreed(load.rate, say=say)


@contextlib.contextmanager
def _uncollected():
    """Without Python's search for cycles, which takes half of the time and would find none."""
    enabled = gc.isenabled()
    gc.disable()
    try:
        yield
    finally:
        if enabled:
            gc.enable()


def hashed_without_ports(capture: str, kinds: int) -> tuple[int, int]:
    """How many packets of a capture have a flow that these kinds hash without ports, and all."""
    out = cli.run_steer(["hash", capture])
    bare = ["two4", "two6"] + [kind for kind, bit in ethtool.KINDS.items() if not kinds >> bit & 1]
    return (sum(out.count(b" %s " % kind.encode()) for kind in bare),
            int(out.splitlines()[-1].split()[1]))


def note_of_hashes(settings: plans.Plan, capture: str, drawn: bool) -> str | None:
    """A note on the packets of a capture for which a kernel makes a hash of its own, or None."""
    if not cautions.picks_by_hash(settings):
        return None
    counts = hashed_without_ports(capture, cautions.kinds_of(settings))
    return cautions.of_hashes(settings, *counts, drawn)


def notes_about(settings: plans.Plan, load: Load | None, capture: str, kernel: bool = False,
                remap_notes: bool = False) -> list[str]:
    """What a replay of a plan over a capture does not show, or shows otherwise than a kernel.

    `load` is None for steps by chance. Those of a plan itself are not used. `kernel` is whether
    packets are rewritten so that they go where a kernel sends them, and `remap_notes` whether the
    notes of that are said too.
    """
    notes = [cautions.of_backlog(settings)]
    if not kernel:
        notes.append(cautions.of_readers(settings))
    if not remap_notes:
        notes.append(note_of_hashes(settings, capture, kernel))
    steps = settings["steps"] if isinstance(settings["steps"], list) else []
    commands = sum(step.split(" ")[0] in COMMANDS for step in steps)
    if commands and load is not None:
        notes.append("its steps are replaced, and with them %d commands" % commands)
    if settings.get("sock") and load is not None and not load.reads:
        notes.append("it has a table of readers (sock), and without --read no reader is ever seen, "
                     "so that RFS moves no flow")
    if load is not None and load.offline is not None:
        notes += offlines.notes(settings, load.offline)
    return [text for text in notes if text is not None]
