"""A plan and a capture rewritten so that steer's modulo gives what a kernel's rule gives.

The hash of a card is Toeplitz, which is linear. 48 bits of the source address and the source port
reach all 32 bits of it, so a flow can be rewritten to have any hash. The low bits stay as they are,
and with them the table's entry, the class, the socket entry and the bucket; the high ones are
chosen so that the hash modulo an odd size is the index that the kernel picks (steerlib/kernel.py).
A mask of even size gets a spare processor, which is never picked.

    result = remap(plan, frames, Options(seed=1))
    remap_check.check(result)
"""

from __future__ import annotations

from dataclasses import dataclass, field
from typing import Collection, Iterator, NamedTuple, Protocol, Sequence

from . import capture, cli, kernel, layout, limits, pairs, progress, recipes, toeplitz
from . import frames as framing
from . import plan as plans
from .shape import Shape, Spares
from .steering import Card

NO_IP = "none"


class Choice(NamedTuple):
    """What the kernel's rule gives a packet, in numbers of the plan.

    `cpu` is the choice of RPS, `app` the reader, `tx` None where it is not asked for.
    """

    queue: int
    cpu: int
    app: int
    tx: int | None


class Reader(Protocol):
    """Who knows the processors on which some flows are read, as those of steerlib.readers."""

    def cpu_of(self, kind: str, data: bytes) -> int | None:
        """The processor of a flow, or None."""


@dataclass
class Options:
    """What is asked of a remap, beside the plan; processors and queues are numbers of the plan.

    seed: draws the hashes that a kernel makes itself. hash32: flow tables and buckets by `hash_32`,
    as later kernels have them. transmit: transmit queues are asked for. rxhash: whether the card
    hands its hashes to the kernel. online: the processors that were online when masks were written,
    None for all. readers: objects of steerlib.readers, of which the first that knows a flow says
    its processor. card: steerlib.steering.Card where the card's table, rules and contexts are not
    those of the plan.
    """
    seed: int = 1
    hash32: bool = False
    transmit: bool = False
    rxhash: bool = True
    online: Collection[int] | None = None
    readers: list[Reader] = field(default_factory=list)
    card: Card | None = None


class Flow:
    """A flow of the capture, and what a kernel does with it.

    kind, data: as steerlib.frames has them, `none` and no bytes without IP. packets: how many.
    card: the hash of the card, or None. value: the hash that the kernel looks at, or None of a flow
    that has none in the new capture either. own: whether the kernel made it itself. queue, cpu,
    app, tx: as in Choice. sends: the hash by which its replies are sent, 0 where it is not asked.
    entry: the low bits of the new hash. target: all of them. new: its bytes in the new capture.
    """
    __slots__ = ("kind", "data", "protocol", "label", "packets", "card", "value", "own", "queue",
                 "cpu", "app", "sends", "tx", "entry", "target", "new")

    def __init__(self, place: framing.Place | None, data: bytes) -> None:
        self.kind, self.data = (place.kind if place else NO_IP), data
        self.protocol, self.label = (place.protocol, place.label) if place else (0, 0)
        self.packets = 0
        self.card: int | None = None
        self.value: int | None = None
        self.tx: int | None = None
        self.queue = self.cpu = self.app = self.entry = self.target = self.sends = 0
        self.own = False
        self.new = data

    @property
    def given(self) -> int:
        """The hash that the kernel looks at, of a flow that has one."""
        assert self.value is not None
        return self.value

    def choice(self) -> Choice:
        """The Choice of the flow's packets."""
        return Choice(self.queue, self.cpu, self.app, self.tx)

    def software_key(self) -> bytes:
        """What the kernel's own hash reads of it."""
        length = 4 if self.kind[-1] == "4" else 16
        ports = [int.from_bytes(self.data[at:at + 2], "big")
                 for at in range(2 * length, len(self.data), 2)]
        return kernel.software_key(self.kind[-1],
                                   [self.data[:length], self.data[length:2 * length]], ports,
                                   self.protocol, self.label)


class Remapped(NamedTuple):
    """The new plan, as many frames as there were, with the same times and lengths, and the rest.

    `flow_of` has for each packet the number of its Flow in `flows`, `shape` is that of the old
    plan, `spares` are the masks of the new one, and `notes` are lines for people.
    """

    plan: plans.Plan
    frames: list[capture.Frame]
    flows: list[Flow]
    flow_of: list[int]
    shape: Shape
    spares: Spares
    options: Options
    notes: list[str]


def flows_of(frames: Sequence[capture.Frame]
             ) -> tuple[list[Flow], list[framing.Place | None], list[int]]:
    """The Flows of these frames, their Places, and of each frame the number of its flow."""
    flows: list[Flow] = []
    places: list[framing.Place | None] = []
    flow_of: list[int] = []
    numbers: dict[tuple[str, bytes], int] = {}
    tell = progress.Progress("packets read", len(frames))
    for number, frame in enumerate(frames):
        place = framing.place_of(frame.data)
        data = framing.tuple_of(frame.data, place) if place else b""
        key = (place.kind if place else NO_IP, data)
        at = numbers.get(key)
        if at is None:
            at = numbers[key] = len(flows)
            flows.append(Flow(place, data))
        flows[at].packets += 1
        places.append(place)
        flow_of.append(at)
        if not number & 4095:
            tell.at(number)
    return flows, places, flow_of


KIND_BITS = {"tcp4": 1, "udp4": 2, "tcp6": 4, "udp6": 5, "two4": 0, "two6": 3}


def address_bytes(kind: str) -> int:
    """How many bytes the addresses of a kind have."""
    return 8 if kind[-1] == "4" else 32


def hashed_bytes(kind: str, data: bytes, kinds: int) -> bytes | None:
    """The bytes of a flow that are hashed where these kinds are, or None."""
    if kind == NO_IP:
        return None
    if kinds >> KIND_BITS[kind] & 1:
        return data
    if kinds >> KIND_BITS["two" + kind[-1]] & 1:
        return data[:address_bytes(kind)]
    return None


class _Hashes:
    """The hash and the queue of each flow, by the card and by the kernel."""

    def __init__(self, plan, shape, options):
        self.kinds = plan.get("kinds", plans.DEFAULTS["kinds"])
        self.key = bytes.fromhex(plan.get("key", plans.VERIFICATION_KEY))
        self.toeplitz = toeplitz.Toeplitz(self.key)
        self.shape = shape
        self.options = options
        self.new_kinds = self.kinds

    def give(self, flows):
        """Gives each flow its queue, and its hash of the card and of the kernel."""
        for flow in flows:
            self._by_card(flow)
        for flow in flows:
            if flow.own and flow.kind != NO_IP:
                self.new_kinds |= 1 << KIND_BITS[flow.kind]
        for flow in flows:
            if flow.own or flow.card is None and self._is_hashed_anew(flow):
                flow.own = True
                flow.value = kernel.drawn_hash(self.options.seed, flow.software_key())
            else:
                flow.value = flow.card
            if self.options.transmit and flow.value is not None:
                flow.sends = kernel.drawn_hash(self.options.seed, b"tx" + flow.software_key())

    def _is_hashed_anew(self, flow):
        """Whether a flow has a hash by the kinds of the new plan."""
        return hashed_bytes(flow.kind, flow.data, self.new_kinds) is not None

    def _by_card(self, flow):
        hashed = hashed_bytes(flow.kind, flow.data, self.kinds)
        flow.card = None if hashed is None else self.toeplitz.hash(hashed)
        if self.options.card is not None and flow.kind != NO_IP:
            flow.queue, flow.card = self.options.card.lead(flow.kind, flow.data, flow.card, hashed)
        else:
            flow.queue = kernel.table_queue(flow.card, self.shape.table)
        if flow.kind == NO_IP:
            return
        by_ports = hashed is not None and len(hashed) > address_bytes(flow.kind)
        steered = self.shape.steers(flow.queue)
        flow.own = steered and not (by_ports and self.options.rxhash) or (
            flow.card is None and flow.queue != 0)


def _give_readers(plan, flows, readers):
    """Gives each flow its reader: that of the plan unless it is told; the readers that are needed.

    A flow's reader in the plan is the card's hash modulo their number, 0 without a hash.
    """
    apps = list(plan["apps"])
    count = len(apps)
    for flow in flows:
        flow.app = 0 if flow.card is None else flow.card % count
        if flow.value is None:
            continue
        for reader in readers:
            cpu = reader.cpu_of(flow.kind, flow.data)
            if cpu is not None:
                if cpu not in apps:
                    apps.append(cpu)
                flow.app = apps.index(cpu)
                break
    if len(apps) > limits.MOST_READERS:
        raise cli.Refused("readers", "they are on %d processors beside the plan's %d readers, and "
                          "a plan has at most %d; it fits with fewer readers in the plan"
                          % (len(apps) - count, count, limits.MOST_READERS))
    return apps


def picked(flow: Flow, members: Sequence[int], home: int) -> int:
    """The processor that RPS picks of a mask's members for a flow, the home where it picks none.

    A hash of 0 counts as none in a kernel, which no other hash can say here: it is as in steer.
    """
    if not members or flow.value is None:
        return home
    cpu = kernel.rps_choice(flow.value, members)
    return members[0] if cpu is None else cpu


def _give_processors(flows, shape):
    """Gives each flow the processor that RPS picks of the mask that its queue has at first."""
    for flow in flows:
        flow.cpu = picked(flow, shape.lists[flow.queue][0], shape.queues[flow.queue]["home"])


def _targets(flows, recipe, bits):
    """Gives each flow with a hash its new one."""
    tell = progress.Progress("flows given a hash", len(flows))
    low_mask = (1 << bits) - 1
    for number, flow in enumerate(flows):
        if flow.value is None:
            continue
        low = flow.entry & low_mask
        residues, remainders = recipe.of(flow)
        high = residues.high(low, remainders, flow.value >> bits)
        flow.target = high << bits | low
        if not number & 1023:
            tell.at(number)


class _Rewriter:
    """Finds bytes with the wanted hash for each flow, so that no two flows become one."""

    def __init__(self, key, kinds):
        self.kinds = kinds
        self.toeplitz = toeplitz.Toeplitz(key)
        self.taken = set()
        self.solvers = {}

    def solver(self, kind, length):
        """The Solver for flows of a kind of which `length` bytes are hashed."""
        known = self.solvers.get((kind, length))
        if known is None:
            half = 4 * address_bytes(kind)
            bits = list(range(half - 32, half))
            bits += (list(range(2 * half, 2 * half + 16)) if 8 * length > 2 * half else
                     list(range(2 * half - 32, 2 * half)))
            known = self.solvers[kind, length] = toeplitz.Solver(self.toeplitz, bits, length)
        return known

    def reaches(self, flows):
        """Whether each flow can have any hash by this key."""
        lengths = {(flow.kind, len(hashed_bytes(flow.kind, flow.data, self.kinds)))
                   for flow in flows if flow.value is not None}
        return all(self.solver(*each).rank == toeplitz.BITS for each in lengths)

    def rewrite(self, flows):
        """Gives each flow its new bytes: first those that stay, then the others."""
        tell = progress.Progress("flows rewritten", len(flows))
        moving = []
        for flow in flows:
            if flow.value is None:
                self.taken.add((flow.kind, flow.data))
                continue
            hashed = hashed_bytes(flow.kind, flow.data, self.kinds)
            difference = self.toeplitz.hash(hashed) ^ flow.target
            if difference:
                moving.append((flow, hashed, difference))
            else:
                self.taken.add((flow.kind, flow.data))
        for number, each in enumerate(moving):
            self._move(*each)
            if not number & 1023:
                tell.at(number)

    def _move(self, flow, hashed, difference):
        solver = self.solver(flow.kind, len(hashed))
        change = solver.change(difference)
        number, length = int.from_bytes(hashed, "big"), len(hashed)
        for unseen in range(1 << len(solver.free)):
            new = (number ^ change ^ solver.unseen(unseen)).to_bytes(length, "big")
            flow.new = new + flow.data[length:]
            if (flow.kind, flow.new) not in self.taken:
                self.taken.add((flow.kind, flow.new))
                return
        raise cli.Refused("flows", "no address and port are left for a flow of its hash")


def _rewritten(flows, hashes):
    """Rewrites the flows; the key that the new plan needs, None for the same one."""
    rewriter = _Rewriter(hashes.key, hashes.new_kinds)
    key = None
    if not rewriter.reaches(flows):
        key = plans.VERIFICATION_KEY
        rewriter = _Rewriter(bytes.fromhex(key), hashes.new_kinds)
    rewriter.rewrite(flows)
    return key


def _new_frames(frames, places, flow_of, flows):
    """The frames with the new bytes of their flows."""
    tell = progress.Progress("packets rewritten", len(frames))
    made = []
    for frame, place, at in zip(frames, places, flow_of):
        flow = flows[at]
        if flow.new is not flow.data and flow.new != flow.data:
            frame = frame._replace(data=framing.with_tuple(frame.data, place, flow.new))
        made.append(frame)
        if not len(made) & 4095:
            tell.at(len(made))
    return made


def remap(plan: plans.Plan, frames: Sequence[capture.Frame],
          options: Options | None = None) -> Remapped:
    """The plan and the frames rewritten.

    `plan` is what plan.read_plan gives, `frames` a list of steerlib.capture.Frame, all of Ethernet.
    Neither is changed. Raises cli.Refused where sizes, spares or distinct flows cannot be had.
    """
    options = options or Options()
    shape = Shape(plan, options.online)
    flows, places, flow_of = flows_of(frames)
    hashes = _Hashes(plan, shape, options)
    hashes.give(flows)
    apps = _give_readers(plan, flows, options.readers)
    _give_processors(flows, shape)
    laid = layout.Layout(shape, options)
    laid.lay(flows)
    recipe = recipes.Recipes(plan, shape, flows, apps, laid, options.transmit)
    _targets(flows, recipe, recipe.bits)
    key = _rewritten(flows, hashes)
    made = recipe.plan(laid, hashes.new_kinds, key)
    result = Remapped(made, _new_frames(frames, places, flow_of, flows), flows, flow_of, shape,
                      recipe.spares, options, [])
    result.notes.extend(_notes(result, places, key))
    return result


def _count(number, word):
    return "%d %s%s" % (number, word, "" if number == 1 else "s")


def _notes(result: Remapped, places: list, key: str | None) -> Iterator[str]:
    """What is to be said of a result."""
    flows, old = result.flows, result.shape.plan
    hashed = [flow for flow in flows if flow.value is not None]
    moved = [flow for flow in hashed if flow.new != flow.data]
    added = [_count(result.plan["cpus"] - old["cpus"], "processor")]
    added += [_count(len(result.plan[name]) - len(old[name]), word)
              for name, word in (("apps", "reader"), ("tx", "transmit queue"))]
    yield "another address or port: %d of %s; added: %s" % (
        len(moved), _count(len(flows), "flow"), ", ".join(added))
    own = [flow for flow in flows if flow.own]
    if own:
        yield ("hashed by the kernel itself, with a key of its own for each boot, so drawn by the "
               "seed %d: %s of %s" % (result.options.seed, _count(
                   sum(flow.packets for flow in own), "packet"), _count(len(own), "flow")))
    if len(old["tx"]) > 1 and not result.options.transmit:
        yield "transmit queues are not asked for (--tx), so those in a report are no kernel's"
    if result.options.transmit:
        yield ("the hash of a socket's replies is a random number in a kernel, so drawn by the "
               "seed %d" % result.options.seed)
    yield from _fates(result, places)
    if key is not None:
        yield "the plan's key does not reach all hashes; the new plan has the verification key"
    counts = ("cpus", "apps", "tx")
    if isinstance(old["steps"], dict) and any(old[name] != result.plan[name] and (
            name == "cpus" or len(old[name]) != len(result.plan[name])) for name in counts):
        yield ("steps of a seed name processors, readers and transmit queues by remainders of how "
               "many there are, so that the seed gives other steps here")
    yield from pairs.notes(result)


def _fates(result, places):
    """Notes on packets whose way is not that of a kernel."""
    bare = sum(flow.packets for flow in result.flows if flow.value is None)
    if bare:
        yield "without a hash, so left on receive queue 0 and its home: %s%s" % (
            _count(bare, "packet"), "; a kernel hashes them itself, and one processor of the mask "
            "of queue 0 gets them" if any(result.shape.lists[0]) else ", as in a kernel")
    zero = sum(flow.packets for flow in result.flows if flow.value == 0)
    if zero:
        yield "with the hash 0, which a kernel takes as none: %s" % _count(zero, "packet")
    inside = sum(1 for place in places if place and place.protocol in framing.TUNNELS)
    if inside and any(flow.own for flow in result.flows):
        yield ("of a tunnel (GRE, IP in IP), into which a kernel looks and this program does not: "
               "%s" % _count(inside, "packet"))
