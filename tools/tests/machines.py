"""Random machines, and what their sysfs, procfs and ethtool would print; apart from steerlib."""

import random

KEY = "6d5a56da255b0ec24167253d43a38fb0d0ca2bcbae7b30b477cb2da38030f20c6a42b73bbeac01fa"
FLOW_KINDS = (("tcp4", 1, 0), ("udp4", 2, 0), ("tcp6", 4, 3), ("udp6", 5, 3))
STYLES = (
    "{dev}-TxRx-{q}", "i40e-{dev}-TxRx-{q}", "mlx5_comp{q}@pci:0000:3b:00.0", "{dev}-rx-{one}",
    "virtio2-input.{q}", "{dev}-Tx-Rx-{q}", "hns3-0000:7d:00.0-TxRx-{q}",
)
# Interrupts that are none of a receive queue.
BESIDE = ("{dev}", "mlx5_async0@pci:0000:3b:00.0", "i40e-0000:3b:00.0:misc", "virtio2-config",
          "{dev}-tx-0", "virtio2-output.0", "i40e-{dev}:fdir-TxRx-0")


def hexadecimal(cpus, width):
    """A mask as sysfs prints it: groups of 32 bits, digits for `width` bits."""
    bits = 0
    for cpu in cpus:
        bits |= 1 << cpu
    digits = "%x" % bits
    digits = digits.zfill((width + 3) // 4)
    groups = []
    while digits:
        groups.insert(0, digits[-8:])
        digits = digits[:-8]
    return ",".join(groups)


def ranges(cpus):
    """A list as the kernel prints it."""
    cpus, parts = sorted(cpus), []
    while cpus:
        high = 0
        while high + 1 < len(cpus) and cpus[high + 1] == cpus[0] + high + 1:
            high += 1
        parts.append("%d" % cpus[0] if high == 0 else "%d-%d" % (cpus[0], cpus[high]))
        cpus = cpus[high + 1:]
    return ",".join(parts)


class Machine:
    """A machine of this seed, with the settings that its snapshot shows."""

    def __init__(self, seed):
        draw = self.draw = random.Random(seed)
        self.device = draw.choice(["eth0", "ens1f0np0", "enp3s0.5", "x-1"])
        self.width = draw.choice([4, 8, 16, 24, 32, 48, 64, 96, 128])
        self.online = [c for c in range(self.width) if draw.random() > 0.1] or [0]
        if draw.random() < 0.6:
            self.online = list(range(self.width))
        self.queues = draw.choice([1, 2, 3, 4, 6, 8, 8, 12, 16, 16, 17])
        self.masks = [self.some(6) for _ in range(self.queues)]
        if draw.random() < 0.4:
            self.masks = [self.masks[0]] * self.queues
        self.homes = [draw.choice(self.online) for _ in range(self.queues)]
        if draw.random() < 0.5:
            base = draw.randrange(len(self.online))
            self.homes = [self.online[(base + q) % len(self.online)] for q in range(self.queues)]
        self.flows = [draw.choice([0, 0, 1, 256, 4096, 32768]) for _ in range(self.queues)]
        self.sock = draw.choice([0, 256, 32768, 65536])
        self.backlog = draw.choice([0, 1000, 65535])
        self.limited = self.some(4) if draw.random() < 0.3 else []
        self.senders = [self.some(5) for _ in range(draw.choice([1, self.queues, 32]))]
        self.sender_queues = [
            [q for q in range(self.queues) if draw.random() < 0.2] for _ in self.senders]
        self.card()

    def some(self, most):
        """Some processors that stand near each other, as masks have them, or none."""
        if self.draw.random() < 0.15:
            return []
        base = self.draw.randrange(len(self.online))
        near = self.online[base:base + 2 * most]
        return sorted(self.draw.sample(near, min(len(near), self.draw.randint(1, most))))

    def card(self):
        draw, size = self.draw, self.draw.choice([32, 64, 128, 128, 256, 512])
        self.table = [entry % self.queues for entry in range(size)]
        if draw.random() < 0.3:
            half = [draw.randrange(self.queues) for _ in range(min(size, 128))]
            self.table = [half[entry % len(half)] for entry in range(size)]
        if draw.random() < 0.1:
            self.table[-1] = (self.table[-1] + 1) % self.queues
        self.key = "".join(draw.choice("0123456789abcdef") for _ in range(80))
        self.longer_key = self.key + ("00ff" * 6 if draw.random() < 0.3 else "")
        self.ports = {name: draw.random() < 0.7 for name, _, _ in FLOW_KINDS}
        self.style = draw.choice(STYLES)

    @property
    def kinds(self):
        bits = 0
        for name, bit, address in FLOW_KINDS:
            bits |= 1 << address | (1 << bit if self.ports[name] else 0)
        return bits

    def used(self, readers):
        """The processors that a plan has to number, by the masks, homes and readers."""
        core = set(self.homes) | set(c for mask in self.masks for c in mask)
        return sorted(core | set(readers))

    def readers(self):
        """Where readers stand unless said: on all processors, or where work is."""
        return list(self.online) if len(self.online) <= 32 else self.used([])[:32]

    def put_to_with_the_limit(self):
        """The processors that some queue puts to whose home is in flow_limit_cpu_bitmap."""
        found = set()
        for home, mask, flows in zip(self.homes, self.masks, self.flows):
            if home in self.limited:
                found.update(mask)
                if flows and self.sock:
                    found.update(self.readers())
        return sorted(found)

    def must_be_refused(self):
        if self.queues > 16 or len(self.used(self.readers())) > 32:
            return True
        return any(queue != self.table[entry % 128] for entry, queue in enumerate(self.table))

    def snapshot(self):
        """The text of its snapshot."""
        lines = ["steer-snap 1", "dev " + self.device, "kernel 6.12.0",
                 "taken 2026-01-01T00:00:00Z"]
        lines += ["cpus possible 0-%d" % (self.width - 1), "cpus online " + ranges(self.online),
                  "cpus isolated ", "sysctl rps_sock_flow_entries %d" % self.sock,
                  "sysctl netdev_max_backlog %d" % self.backlog,
                  "sysctl flow_limit_cpu_bitmap " + hexadecimal(self.limited, self.width)]
        for q in range(self.queues):
            lines += ["rx %d rps_cpus %s" % (q, hexadecimal(self.masks[q], self.width)),
                      "rx %d rps_flow_cnt %d" % (q, self.flows[q])]
        for t, cpus in enumerate(self.senders):
            lines += ["tx %d xps_cpus %s" % (t, hexadecimal(cpus, self.width)), "tx %d xps_rxqs %s"
                      % (t, hexadecimal(self.sender_queues[t], self.queues))]
        lines += self.interrupts() + self.answers()
        return "\n".join(lines + ["end"]) + "\n"

    def interrupts(self):
        names = [(home, self.style.format(dev=self.device, q=q, one=q + 1))
                 for q, home in enumerate(self.homes)]
        names += [(0, name.format(dev=self.device)) for name in BESIDE]
        numbers = self.draw.sample(range(30, 400), len(names))
        if self.style.endswith("{one}"):     # then the order is that of the numbers in the names
            numbers.sort()
        return ["irq %d %d %s %s" % (number, home, ranges(self.online), name)
                for number, (home, name) in zip(numbers, names)]

    def answers(self):
        dev, size = self.device, len(self.table)
        lines = ["cmd ethtool -i " + dev, "| driver: some", "cmd ethtool -x " + dev,
                 "| RX flow hash indirection table for %s with %d RX ring(s):" % (
                     dev, self.queues)]
        lines += ["| %5d: " % row + "".join(" %5d" % queue for queue in self.table[row:row + 8])
                  for row in range(0, size, 8)]
        pairs = [self.longer_key[at:at + 2] for at in range(0, len(self.longer_key), 2)]
        lines += ["| RSS hash key:", "| " + ":".join(pairs), "| RSS hash function:",
                  "|     toeplitz: on", "|     xor: off", "|     crc32: off"]
        for name, _, _ in FLOW_KINDS:
            lines += ["cmd ethtool -n %s rx-flow-hash %s" % (dev, name),
                      "| %s over IPV%s flows use these fields for computing Hash flow key:" % (
                          name[:3].upper(), name[3]), "| IP SA", "| IP DA"]
            if self.ports[name]:
                lines += ["| L4 bytes 0 & 1 [TCP/UDP src port]",
                          "| L4 bytes 2 & 3 [TCP/UDP dst port]"]
            lines.append("| ")
        return lines

    def words(self, number):
        """Its settings as words of steer-set, processors numbered by `number`."""
        width = 32
        mask = lambda cpus: hexadecimal([number[c] for c in cpus if c in number], width)  # noqa
        words = ["rps_sock_flow_entries=%d" % self.sock, "netdev_max_backlog=%d" % self.backlog,
                 "flow_limit_cpu_bitmap=" + mask(self.limited), "hkey=" + self.longer_key[:80],
                 "apps=" + ",".join(str(number[c]) for c in self.readers())]
        for q in range(self.queues):
            words += ["rx-%d/rps_cpus=%s" % (q, mask(self.masks[q])),
                      "rx-%d/rps_flow_cnt=%d" % (q, self.flows[q]),
                      "rx-%d/home=%d" % (q, number[self.homes[q]])]
        for t, cpus in enumerate(self.senders):
            words += ["tx-%d/xps_cpus=%s" % (t, mask(cpus)), "tx-%d/xps_rxqs=%s" % (
                t, hexadecimal(self.sender_queues[t], self.queues))]
        for name, _, _ in FLOW_KINDS:
            words.append("rx-flow-hash/%s=%s" % (name, "sdfn" if self.ports[name] else "sd"))
        self.draw.shuffle(words)
        return words
