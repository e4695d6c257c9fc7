"""A made machine: a card's key and table, masks and homes, as ethtool and sysfs show them."""

import os
import stat

from steerlib import processors

from . import frames, pair

PORTS = ["IP SA", "IP DA", "L4 bytes 0 & 1 [TCP/UDP src port]",
         "L4 bytes 2 & 3 [TCP/UDP dst port]"]
TOOL = """#!/bin/sh
# In place of ethtool: the answers of the made card, whose hashes the sender's program gives.
case $1 in
-x) cat '%(folder)s/table' ;;
-S) cat '%(folder)s/counters' ;;
-n) [ -z "$3" ] && exit 1
    cat '%(folder)s/fields' ;;
*) echo 'Operation not supported' >&2
   exit 1 ;;
esac
"""


class Machine:
    """Settings: of each receive queue its mask and the processor that sends to it.

    The card has a random key, and a random table over the queues.
    """

    def __init__(self, draw, queues, cpus):
        self.queues = queues
        self.cpus = cpus
        self.key = bytes(draw.getrandbits(8) for _ in range(40))
        self.table = [draw.randrange(queues) for _ in range(128)]
        self.homes = [draw.choice(cpus) for _ in range(queues)]
        self.masks = [sorted(draw.sample(cpus, draw.randint(0, len(cpus))))
                      for _ in range(queues)]
        self.flows = [0] * queues
        self.counted = [0] * queues

    def hash_and_queue(self, flow):
        """The hash and the receive queue that the card gives to a flow."""
        hash = frames.toeplitz(self.key, frames.hashed(flow))
        return hash, self.table[hash % len(self.table)]

    def frame(self, mac, flow, number, ticket=0):
        """The frame of this number, which the card counts, and its receive queue."""
        hash, queue = self.hash_and_queue(flow)
        self.counted[queue] += 1
        return frames.frame(mac, flow, number, hash, queue + 1, ticket), queue

    def set(self, made):
        """Sets the masks and the flow tables of a Pair."""
        for name, texts in (("rps_cpus", [processors.mask_text(mask, 1) for mask in self.masks]),
                            ("rps_flow_cnt", self.flows)):
            made.write(1, {"queues/rx-%d/%s" % (queue, name): text
                           for queue, text in enumerate(texts)})

    def set_transmit(self, draw, made):
        """Gives each transmit queue of the receiver a random set of processors, in their order."""
        made.write(1, {"queues/tx-%d/xps_cpus" % queue: processors.mask_text(
            draw.sample(self.cpus, draw.choice((0, 1, len(self.cpus)))), 1)
            for queue in range(self.queues + 1)})

    def ethtool(self, folder):
        """Writes a program that answers as ethtool does of the card; its name."""
        rows = ["%5d: " % at + "".join(" %5d" % queue for queue in self.table[at:at + 8])
                for at in range(0, 128, 8)]
        head = "RX flow hash indirection table for %s with %d RX ring(s):" % (
            pair.RECEIVER, self.queues)
        table = [head] + rows + ["RSS hash key:", ":".join("%02x" % byte for byte in self.key),
                                 "RSS hash function:", "    toeplitz: on"]
        fields = ["TCP over IPV4 flows use these fields for computing Hash flow key:"] + PORTS
        name = os.path.join(folder, "ethtool")
        counters = ["NIC statistics:"] + ["     rx_queue_%d_packets: %d" % counted
                                          for counted in enumerate(self.counted)]
        for made, text in (("table", "\n".join(table)), ("fields", "\n".join(fields) + "\n"),
                           ("counters", "\n".join(counters)),
                           ("ethtool", TOOL % {"folder": folder})):
            with open(os.path.join(folder, made), "w", encoding="utf-8") as stream:
                stream.write(text + "\n")
        os.chmod(name, stat.S_IRWXU)
        return name
