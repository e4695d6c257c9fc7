"""Random machines and captures for steer-remap, and what a kernel does with them.

Apart from steerlib: the hash is made bit by bit, scaling by fractions, and the flows are known from
where the frames are made.
"""

import hashlib
import ipaddress
import math
import random
import struct
from collections import namedtuple
from fractions import Fraction

KEY = "6d5a56da255b0ec24167253d43a38fb0d0ca2bcbae7b30b477cb2da38030f20c6a42b73bbeac01fa"
PORT_KINDS = {(4, 6): 1, (4, 17): 2, (6, 6): 4, (6, 17): 5}
ADDRESS_KINDS = {4: 0, 6: 3}

# version: 4, 6, or 0 for ARP. ports: two numbers, or None of a fragment or another protocol.
Flow = namedtuple("Flow", "version protocol source target ports label")
Expected = namedtuple("Expected", "queue cpu reader tx")


def toeplitz(key, data):
    """The hash bit by bit: for each bit that is 1 the 32 bits of the key from there on."""
    value = 0
    digits = bin(int(key, 16))[2:].zfill(4 * len(key))
    for at, bit in enumerate("".join(format(byte, "08b") for byte in data)):
        if bit == "1":
            value ^= int(digits[at:at + 32], 2)
    return value


def scaled(value, size):
    """A hash as a fraction of all, times a size, without its fraction."""
    return math.floor(Fraction(value, 2 ** 32) * size)


def drawn(seed, text):
    made = hashlib.blake2b(text.encode(), digest_size=4, key=str(seed).encode()).hexdigest()
    return int(made, 16) or 1


class Traffic:
    """Frames of random flows, and the flow of each frame."""

    def __init__(self, draw, packets, flows):
        self.draw = draw
        self.flows = [self.flow() for _ in range(flows)]
        self.of = [self.flows[min(int(draw.expovariate(4.0 / flows)), flows - 1)]
                   for _ in range(packets)]
        self.frames = [self.frame(flow) for flow in self.of]

    def flow(self):
        draw = self.draw
        version = draw.choice((4, 4, 4, 6, 6, 0))
        if not version:
            return Flow(0, 0, b"", b"", None, 0)
        protocol = draw.choice((6, 6, 17, 17, 1, 58))
        size = 4 if version == 4 else 16
        net = draw.choice((b"\x0a\x00", b"\xc0\xa8"))
        source = (net + draw.getrandbits(8 * size - 16).to_bytes(size - 2, "big"))
        target = bytes(size - 1) + bytes([draw.randrange(3)])
        ports = None
        if protocol in (6, 17) and draw.random() < 0.9:
            ports = draw.randrange(65536), draw.choice((22, 53, 80, 443))
        label = draw.choice((0, 0, 77)) if version == 6 else 0
        return Flow(version, protocol, source, target, ports, label)

    def frame(self, flow):
        draw = self.draw
        tags = b"".join(draw.choice((b"\x81\x00", b"\x88\xa8")) + b"\x00\x07"
                        for _ in range(draw.choice((0, 0, 0, 1, 2))))
        if flow.version == 0:
            return bytes(12) + tags + b"\x08\x06" + bytes(28)
        rest = bytes(draw.randrange(12)) if flow.ports is None else (
            struct.pack(">HH", *flow.ports) + bytes(draw.randrange(20)))
        fragment = flow.ports is None and flow.protocol in (6, 17)
        if flow.version == 4:
            words = draw.choice((5, 5, 5, 6, 15))
            offset = draw.choice((0x2000, 0x00b9)) if fragment else draw.choice((0, 0x4000))
            head = struct.pack(">BBHHHBBH", 0x40 | words, 0, 0, 0, offset, 64, flow.protocol, 0)
            head += flow.source + flow.target + bytes(4 * words - 20)
            return bytes(12) + tags + b"\x08\x00" + head + rest
        headers = [draw.choice((0, 43, 60)) for _ in range(draw.choice((0, 0, 1, 2)))]
        if fragment:
            headers.append(44)
        numbers = headers + [flow.protocol]
        chain = b"".join(bytes([following, 0]) + bytes(6) for following in numbers[1:])
        head = struct.pack(">IHBB", 6 << 28 | flow.label, 0, numbers[0], 64)
        return bytes(12) + tags + b"\x86\xdd" + head + flow.source + flow.target + chain + rest

    def pcap(self):
        """The frames as a pcap file of either order and unit, or as pcapng."""
        form = self.draw.choice(("<us", ">us", "<ns", "ng"))
        if form == "ng":
            return self.pcapng()
        magic = 0xa1b2c3d4 if form[1:] == "us" else 0xa1b23c4d
        out = [struct.pack(form[0] + "IHHIIII", magic, 2, 4, 0, 0, 65535, 1)]
        for number, data in enumerate(self.frames):
            out.append(struct.pack(form[0] + "IIII", number, number % 900, len(data),
                                   len(data) + number % 3) + data)
        return b"".join(out)

    def pcapng(self):
        out = [struct.pack("<IIIHHqI", 0x0a0d0d0a, 28, 0x1a2b3c4d, 1, 0, -1, 28),
               struct.pack("<IIHHII", 1, 20, 1, 0, 0, 20)]
        for number, data in enumerate(self.frames):
            room = -(-len(data) // 4) * 4
            out.append(struct.pack("<IIIIIII", 6, 32 + room, 0, 0, 1000 * number, len(data),
                                   len(data)))
            out.append(data.ljust(room, b"\0") + struct.pack("<I", 32 + room))
        return b"".join(out)


class Machine:
    """A random plan with a snapshot beside it, and the words of steer-remap."""

    def __init__(self, seed):
        draw = self.draw = random.Random(seed)
        self.cpus = draw.choice((1, 2, 4, 6, 8, 8, 12, 16, 24, 32))
        self.queues = draw.randint(1, 16)
        mask = self.some(self.cpus)
        self.masks = [mask if draw.random() < 0.5 else self.some(self.cpus)
                      for _ in range(self.queues)]
        self.homes = [draw.randrange(self.cpus) for _ in range(self.queues)]
        self.flows = draw.choice((0, 16, 256, 2000, 32768))
        self.sock = draw.choice((0, 1024, 65536))
        count = draw.choice((1, 2, 3, 4, 4, 6, 8, 8, 16, 32))
        self.apps = [draw.randrange(self.cpus) for _ in range(count)]
        count = draw.choice((1, 1, 2, 4, 8, 8, 16, 32))
        self.tx = [(self.some(self.cpus), self.some(self.queues) if draw.random() < 0.3 else [])
                   for _ in range(count)]
        self.kinds = draw.choice((63, 63, 63, 27, 9, 0, 54))
        self.key = KEY if draw.random() < 0.5 else "%080x" % draw.getrandbits(320)
        if draw.random() < 0.05:
            self.key = "6d5a" * 20
        self.table = [draw.randrange(self.queues) for _ in range(128)]
        self.filters = draw.choice((0,) * 9 + (64,))
        self.limited = self.some(self.cpus) if draw.random() < 0.2 else []
        self.options()
        self.card()
        self.commands()

    def some(self, most):
        """Some of 0 to most - 1; all of them, or none, now and then."""
        size = self.draw.choice((0, 1, most, self.draw.randint(1, most), min(4, most)))
        return sorted(self.draw.sample(range(most), size))

    def options(self):
        draw = self.draw
        self.transmit = draw.random() < 0.4
        self.by_hash_32 = draw.random() < 0.2
        self.rxhash = draw.random() < 0.85
        self.seed = draw.randrange(1000)
        self.online = sorted(set(self.some(self.cpus)) | {0}) if draw.random() < 0.2 else None
        self.readers = []
        if draw.random() < 0.3:
            self.readers = [("22", draw.randrange(self.cpus)),
                            ("10.0.0.0/8", draw.randrange(self.cpus)),
                            ("443", draw.randrange(self.cpus)),
                            ("::/127", draw.randrange(self.cpus))]
            self.readers = draw.sample(self.readers, draw.randint(1, 4))

    def card(self):
        """A table of another size, rules and a context, which a snapshot has."""
        draw = self.draw
        self.told = draw.random() < 0.4
        self.rules, self.contexts = [], {}
        self.card_table = self.table
        if not self.told:
            return
        size = draw.choice((64, 128, 256, 512, 48, 100))
        self.card_table = [draw.randrange(self.queues) for _ in range(size)]
        self.table = [self.card_table[entry % size] for entry in range(128)]
        if draw.random() < 0.6:
            for number in range(draw.randint(1, 4)):
                self.rules.append((draw.choice(((4, 6), (4, 17), (6, 6), (6, 17))),
                                   draw.choice((22, 53, 80, 443)), draw.randrange(self.queues),
                                   None))
        if draw.random() < 0.3:
            key = self.key if draw.random() < 0.5 else "%080x" % draw.getrandbits(320)
            self.contexts[1] = [draw.randrange(self.queues) for _ in range(64)], key
            self.rules.append(((4, 6), draw.choice((22, 80)), 0, 1))

    def commands(self):
        self.steps = ["sweep"]
        self.set_masks = []
        if self.draw.random() < 0.2:
            for _ in range(self.draw.randint(1, 3)):
                queue, mask = self.draw.randrange(self.queues), self.some(self.cpus)
                self.set_masks.append((queue, mask))
                self.steps.insert(0, "mask %d %s" % (queue, ",".join(map(str, mask)) or "-"))

    def plan(self):
        return {"cpus": self.cpus, "queues": [
            {"home": home, "mask": mask, "flows": self.flows}
            for home, mask in zip(self.homes, self.masks)],
            "key": self.key, "kinds": self.kinds, "reta": self.table, "sock": self.sock,
            "filters": self.filters, "limited": self.limited, "apps": self.apps,
            "tx": [{"cpus": cpus, "queues": queues} for cpus, queues in self.tx],
            "steps": self.steps}

    def words(self, snap):
        words = ["--draw", str(self.seed)]
        words += ["--tx"] * self.transmit + ["--hash32"] * self.by_hash_32
        words += ["--no-rxhash"] * (not self.rxhash)
        if self.online is not None:
            words += ["--online", ",".join(map(str, self.online))]
        for what, cpu in self.readers:
            words += ["--reader", "%s=%d" % (what, cpu)]
        return words + ["--snap", snap] * self.told

    def snapshot(self):
        lines = ["steer-snap 1", "dev eth0", "cpus online 0-%d" % (self.cpus - 1)]
        for number in range(self.queues):
            lines += ["rx %d rps_cpus 0" % number, "rx %d rps_flow_cnt 0" % number]
        lines += ["tx %d xps_cpus 0" % number for number in range(len(self.tx))]
        lines += ["cmd ethtool -x eth0"] + self.printed(self.card_table, self.key)
        for number, (table, key) in self.contexts.items():
            lines += ["cmd ethtool -x eth0 context %d" % number] + self.printed(table, key)
        lines += ["cmd ethtool -n eth0", "| %d RX rings available" % self.queues,
                  "| Total %d rules" % len(self.rules)]
        for number, rule in enumerate(self.rules):
            lines += self.printed_rule(number, *rule)
        return "\n".join(lines + ["end"]) + "\n"

    def printed(self, table, key):
        lines = ["| RX flow hash indirection table for eth0 with %d RX ring(s):" % self.queues]
        lines += ["| %5d: %s" % (at, " ".join("%5d" % queue for queue in table[at:at + 8]))
                  for at in range(0, len(table), 8)]
        pairs = ":".join(key[at:at + 2] for at in range(0, 80, 2))
        return lines + ["| RSS hash key:", "| " + pairs, "| RSS hash function:",
                        "|     toeplitz: on"]

    def printed_rule(self, number, kind, port, queue, context):
        zero, ones = ("0.0.0.0", "255.255.255.255") if kind[0] == 4 else ("::", ":".join(
            ["ffff"] * 8))
        lines = ["Filter: %d" % number, "\tRule Type: %s over IPv%d" % (
            {6: "TCP", 17: "UDP"}[kind[1]], kind[0]),
            "\tSrc IP addr: %s mask: %s" % (zero, ones), "\tDest IP addr: %s mask: %s" % (
                zero, ones), "\tSrc port: 0 mask: 0xffff", "\tDest port: %d mask: 0x0" % port]
        lines += ["\tRSS Context ID: %d" % context] if context is not None else []
        return ["| " + line for line in lines + ["\tAction: Direct to queue %d" % queue, ""]]


class Kernel:
    """What a kernel does with the flows of some traffic on a machine."""

    def __init__(self, machine, flows):
        self.machine = machine
        self.flows = set(flows)
        self.hashes = {flow: self.hash_of(flow) for flow in self.flows}
        own = {self.kind(flow) for flow in self.flows if self.hashes[flow][3]}
        self.has_hash = {flow for flow in self.flows if flow.version and (
            self.hashes[flow][1] is not None or self.hashes[flow][3]
            or self.kind(flow) in own or (flow.version, None) in own)}

    @staticmethod
    def kind(flow):
        return flow.version, flow.protocol if flow.ports else None

    def bytes_of(self, flow):
        """The bytes that the card hashes, or None, and whether ports are among them."""
        kinds = self.machine.kinds
        addresses = flow.source + flow.target
        if flow.ports and kinds >> PORT_KINDS[flow.version, flow.protocol] & 1:
            return addresses + struct.pack(">HH", *flow.ports), True
        if flow.version and kinds >> ADDRESS_KINDS[flow.version] & 1:
            return addresses, False
        return None, False

    def by_card(self, flow):
        """The queue of a flow, its hash of the card, and whether ports were hashed."""
        machine = self.machine
        data, with_ports = self.bytes_of(flow)
        value = None if data is None else toeplitz(machine.key, data)
        table, base = machine.card_table, 0
        for kind, port, queue, context in machine.rules:
            if flow.ports and kind == (flow.version, flow.protocol) and flow.ports[1] == port:
                if context is None:
                    return queue, value, with_ports
                table, key = machine.contexts[context]
                base = queue
                value = None if data is None else toeplitz(key, data)
                break
        return base + (0 if value is None else table[value % len(table)]), value, with_ports

    def masks(self, queue):
        """The masks that a queue may have, as lists of a kernel."""
        machine = self.machine
        first = set(machine.masks[queue])
        if machine.online is not None:
            first &= set(machine.online)
        return [sorted(first)] + [mask for of, mask in machine.set_masks if of == queue]

    def steered(self, queue):
        """Whether the kernel asks for the hash of packets of a queue."""
        return any(self.masks(queue)) or bool(self.machine.flows and self.machine.sock)

    def text(self, flow):
        ports = sorted(flow.ports) if flow.ports and not flow.label else []
        protocol = flow.protocol
        if flow.version == 6 and flow.ports is None and protocol in (6, 17):
            protocol = 44
        words = [flow.version, *sorted((flow.source.hex(), flow.target.hex())), protocol,
                 flow.label, *ports]
        return " ".join(str(word) for word in words)

    def hash_of(self, flow):
        """Queue, hash of the card, hash of the kernel, and whether it made that itself."""
        if not flow.version:
            return 0, None, None, False
        queue, card, with_ports = self.by_card(flow)
        own = self.steered(queue) and not (with_ports and self.machine.rxhash) or (
            card is None and queue > 0)
        return queue, card, drawn(self.machine.seed, self.text(flow)) if own else card, own

    def reader(self, flow, card):
        """The processor of a flow's reader."""
        if flow in self.has_hash:
            for what, cpu in self.machine.readers:
                if what.isdigit():
                    if flow.ports and flow.ports[1] == int(what):
                        return cpu
                elif any(ipaddress.ip_address(end) in ipaddress.ip_network(what)
                         for end in (flow.source, flow.target)):
                    return cpu
        return self.machine.apps[0 if card is None else card % len(self.machine.apps)]

    def maps(self, queue, reader):
        """The transmit queues from which XPS picks."""
        tx = self.machine.tx
        return ([at for at, (_, queues) in enumerate(tx) if queue in queues]
                or [at for at, (cpus, _) in enumerate(tx) if reader in cpus]
                or list(range(len(tx))))

    def expected(self, flow):
        """Where a kernel has the packets of a flow."""
        queue, card, value, _ = self.hashes[flow]
        reader = self.reader(flow, card)
        members = self.masks(queue)[0]
        cpu = self.machine.homes[queue]
        if value is not None and members:
            cpu = members[scaled(value, len(members))]
        tx = None
        if self.machine.transmit and flow in self.has_hash:
            maps = self.maps(queue, reader)
            tx = maps[scaled(drawn(self.machine.seed, "tx" + self.text(flow)), len(maps))]
        return Expected(queue, cpu, reader, tx)

    # Whether a refusal is right.

    def needs(self):
        """For each flow the names and numbers of members for which it needs odd sizes."""
        machine, found = self.machine, set()
        told = sum(1 for cpu in {cpu for _, cpu in machine.readers} if cpu not in machine.apps)
        for flow in self.has_hash:
            queue, card, _, _ = self.hashes[flow]
            queues = range(machine.queues) if machine.filters else [queue]
            sizes = {("mask", len(mask)) for of in queues for mask in self.masks(of)}
            if machine.transmit:
                sizes |= {("tx", len(self.maps(of, self.reader(flow, card)))) for of in queues}
            sizes.add(("apps", len(machine.apps) + told))
            found.add(frozenset(one for one in sizes if one[1] > 1))
        return found

    def low_bits(self):
        machine = self.machine
        sizes = [128, machine.flows, machine.sock, machine.filters & -machine.filters]
        sizes += [4096] * bool(machine.limited)
        if machine.by_hash_32 and machine.flows and not machine.filters:
            sizes.append(32768)
        return max((size - 1).bit_length() for size in sizes)

    def exact(self):
        """Whether all flows keep the low bits of their hash."""
        return not (self.machine.told or self.machine.by_hash_32 or any(
            own for _, _, _, own in self.hashes.values()))

    def may_be_refused(self):
        """Whether there are no sizes for some flow, by trying all of them for it alone."""
        room = 2 ** (32 - self.low_bits())
        free = 32 - len(self.machine.tx)
        return any(not self.solvable(sorted(group), 1, [], room, free) for group in self.needs())

    def solvable(self, group, product, chosen, room, free):
        if not group:
            return True
        name, least = group[0]
        sizes = [size for size in range(least, 32) if size % 2]
        if name == "tx":
            sizes = [size for size in sizes if size <= least + free]
        if name == "apps" and self.exact():
            sizes.append(least // (least & -least))
        return any(product * size <= room and all(math.gcd(size, of) == 1 for of in chosen)
                   and self.solvable(group[1:], product * size, chosen + [size], room, free)
                   for size in sizes)
