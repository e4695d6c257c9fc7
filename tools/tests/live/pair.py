"""A veth pair in two network namespaces of its own, with the programs of programs.c at its ends.

Nothing of the machine's own devices is used. What cannot be had here raises Unavailable.
"""

import contextlib
import ctypes
import fcntl
import functools
import glob
import os
import shutil
import signal
import socket
import subprocess
import tempfile
import time
from collections import namedtuple

from . import frames

HERE = os.path.dirname(os.path.abspath(__file__))
NEW_NETWORK = 0x40000000
SEND_BUFFER, RECEIVE_BUFFER = 32, 33    # SO_SNDBUFFORCE, SO_RCVBUFFORCE
NO_CHECKSUM = 102       # UDP_NO_CHECK6_RX
ALL, IPV4, IPV6 = 0x0003, 0x0800, 0x86DD
PATIENCE = 5.0      # seconds that a frame may take
NAMESPACES = "steer-live-"
SETTINGS = "/proc/sys/net/core/"
LOCK, BEFORE = "/run/steer-live.lock", "/run/steer-live.before"
LONGEST_WAIT = 60.0
ROOM = 1 << 26      # bytes that wait in a socket
SENDER, RECEIVER = "steer0", "steer1"


# packets: how many wait in the backlog of a processor. dropped: how many were dropped there so far.
# limited: how many of those that the processor put were dropped by the flow limit.
Waiting = namedtuple("Waiting", "packets dropped limited")


class Unavailable(Exception):
    """What the test wants and this machine does not give; the text says which and why."""


def command(*words):
    """The output of a command; Unavailable where it fails."""
    try:
        ended = subprocess.run(words, stdin=subprocess.DEVNULL, stdout=subprocess.PIPE,
                               stderr=subprocess.PIPE)
    except OSError as fault:
        raise Unavailable("%s: %s" % (words[0], fault.strerror)) from None
    if ended.returncode:
        said = ended.stderr.decode("utf-8", "replace").strip().splitlines() or ["no word"]
        raise Unavailable("%s: %s" % (" ".join(words[:6]), said[-1]))
    return ended.stdout.decode("utf-8", "replace")


@functools.lru_cache(maxsize=None)
def compiled():
    """The folder, which goes with this process, of the two programs in a file programs.o."""
    folder = tempfile.TemporaryDirectory()
    folders = ["-I" + os.path.dirname(os.path.dirname(name))
               for name in glob.glob("/usr/include/*-linux-gnu/asm/types.h")]
    command("clang", "-O2", "-g", "-target", "bpf", *folders, "-c",
            os.path.join(HERE, "programs.c"), "-o", os.path.join(folder.name, "programs.o"))
    return folder


def check_wants():
    """Unavailable where something is missing that can be seen before anything is made."""
    if not os.path.isdir("/sys/class/net"):
        raise Unavailable("no sysfs of Linux")
    if os.geteuid() != 0:
        raise Unavailable("not run as root")
    if len(processors()) < 2:
        raise Unavailable("one processor alone")
    for program in ("ip", "tc", "clang"):
        if shutil.which(program) is None:
            raise Unavailable("no program %s" % program)


def processors():
    """The processors on which this process may run."""
    return sorted(os.sched_getaffinity(0))


def _enter(descriptor):
    library = ctypes.CDLL(None, use_errno=True)
    if library.setns(descriptor, NEW_NETWORK):
        raise Unavailable("setns: %s" % os.strerror(ctypes.get_errno()))


@contextlib.contextmanager
def inside(namespace):
    """This thread is in a network namespace of this name."""
    with open("/proc/thread-self/ns/net") as own, open("/run/netns/" + namespace) as other:
        _enter(other.fileno())
        try:
            yield
        finally:
            _enter(own.fileno())


@contextlib.contextmanager
def urgent():
    """This thread is given a processor at once, so that other work does not slow it down."""
    try:
        os.sched_setscheduler(0, os.SCHED_FIFO, os.sched_param(10))
    except OSError as fault:
        raise Unavailable("scheduling in real time: %s" % fault.strerror) from None
    try:
        yield
    finally:
        os.sched_setscheduler(0, os.SCHED_OTHER, os.sched_param(0))


@contextlib.contextmanager
def on(cpu):
    """This thread runs on one processor."""
    before = os.sched_getaffinity(0)
    os.sched_setaffinity(0, {cpu})
    try:
        yield
    finally:
        os.sched_setaffinity(0, before)


class Pair:
    """The pair, while it is entered: `queues` receive queues at its receiver.

    `mac` is the receiver's address. All frames that move over it are those that are sent here.
    """

    def __init__(self, queues):
        self.queues = queues
        self.names = ["%s%d-%s" % (NAMESPACES, os.getpid(), end) for end in "ab"]
        self.closing = contextlib.ExitStack()

    def __enter__(self):
        with contextlib.ExitStack() as closing:
            self.folder = closing.enter_context(tempfile.TemporaryDirectory())
            self._make_devices(closing, os.path.join(compiled().name, "programs.o"))
            self._open_sockets(closing)
            self._wait()
            self.closing = closing.pop_all()
        return self

    def __exit__(self, *fault):
        self.closing.close()

    def _make_devices(self, closing, programs):
        a, b = self.names
        for name in self.names:
            command("ip", "netns", "add", name)
            closing.callback(subprocess.run, ["ip", "netns", "del", name])
        # A frame of transmit queue t + 1 is taken for one of receive queue t at the other end.
        many = ["numtxqueues", str(self.queues + 1), "numrxqueues", str(self.queues)]
        command("ip", "link", "add", SENDER, "netns", a, *many, "type", "veth", "peer", "name",
                RECEIVER, "netns", b, *many)
        for name, device in ((a, SENDER), (b, RECEIVER)):
            command("tc", "-n", name, "qdisc", "add", "dev", device, "clsact")
            for way, section in (("egress", "give"), ("ingress", "mark")):
                command("tc", "-n", name, "filter", "add", "dev", device, way, "bpf", "da", "obj",
                        programs, "sec", section)
        for name, device in ((a, SENDER), (b, RECEIVER)):
            command("ip", "-n", name, "link", "set", device, "up")

    def _packet_socket(self, closing, device, kind):
        made = closing.enter_context(socket.socket(socket.AF_PACKET, socket.SOCK_RAW, 0))
        for which in (SEND_BUFFER, RECEIVE_BUFFER):
            made.setsockopt(socket.SOL_SOCKET, which, ROOM)
        made.bind((device, kind))
        made.settimeout(PATIENCE)
        return made

    def _open_sockets(self, closing):
        with inside(self.names[0]):
            self.out = self._packet_socket(closing, SENDER, 0)
            self.sent = self._packet_socket(closing, SENDER, ALL)
            self.returned = self._packet_socket(closing, SENDER, IPV4)
        with inside(self.names[1]):
            self.back = self._packet_socket(closing, RECEIVER, 0)
            self.before = self._packet_socket(closing, RECEIVER, ALL)
            self.seen = {version: self._packet_socket(closing, RECEIVER, kind)
                         for version, kind in ((4, IPV4), (6, IPV6))}
        text = command("ip", "-n", self.names[1], "-o", "link", "show", RECEIVER)
        self.mac = bytes.fromhex(text.split("link/ether ")[1].split()[0].replace(":", ""))

    def _wait(self):
        """Waits until the kernel has made the devices ready, so that a frame goes through."""
        self.before.settimeout(PATIENCE / 50)
        for _ in range(50):
            self.send(frames.release(self.mac, 0, 0))
            with contextlib.suppress(socket.timeout):
                while frames.note(self.before.recv(2048)) is None:
                    pass
                self.before.settimeout(PATIENCE)
                return
        raise Unavailable("no frame goes through the pair")

    def add_addresses(self, *addresses):
        """Gives the receiver addresses such as 10.0.0.1/8, which are its own network's."""
        name = self.names[1]
        for address in addresses:
            extra = ["nodad"] if ":" in address else []
            command("ip", "-n", name, "addr", "add", address, "dev", RECEIVER, *extra)
        self._shell(1, "for each in all %s; do echo 0 > /proc/sys/net/ipv4/conf/$each/rp_filter; "
                    "done" % RECEIVER)

    def connected(self, flow):
        """A socket of the receiver that gets the frames of a UDP flow."""
        family = socket.AF_INET if len(flow.source) == 4 else socket.AF_INET6
        with inside(self.names[1]):
            made = self.closing.enter_context(socket.socket(family, socket.SOCK_DGRAM))
            made.setsockopt(socket.SOL_SOCKET, RECEIVE_BUFFER, 1 << 20)
            if family == socket.AF_INET6:
                made.setsockopt(socket.IPPROTO_UDP, NO_CHECKSUM, 1)
            made.bind((socket.inet_ntop(family, flow.target), flow.dport))
            made.connect((socket.inet_ntop(family, flow.source), flow.sport))
            made.setblocking(False)
        return made

    def _shell(self, end, text):
        command("ip", "netns", "exec", self.names[end], "sh", "-ec", text)

    def write(self, end, files):
        """Writes files of sysfs, by name, of the sender's (0) or the receiver's device (1)."""
        folder = "/sys/class/net/%s/" % (SENDER, RECEIVER)[end]
        self._shell(end, "\n".join("echo %s > %s%s" % (text, folder, name)
                                   for name, text in files.items()))

    def send(self, frame):
        """Sends a frame; whether the other end took it."""
        try:
            self.out.send(frame)
        except OSError:
            return False
        return True

    def reply(self, frame):
        """Sends a frame of IPv4 from the receiver; the transmit queue by which it left."""
        self.back.send(frame)
        return frames.note(self._next(self.returned)).recorded

    def left(self):
        """The next frame that left the sender."""
        return self._next(self.sent)

    def arrived(self):
        """The next frame that a processor of the receiver has in hand."""
        return self._next(self.before)

    def came(self, version):
        """The note of the next frame of IPv4 or IPv6 that came, and was marked."""
        return frames.note(self._next(self.seen[version]))

    def _next(self, recording):
        """The next frame with a note; Unavailable where none comes."""
        while True:
            try:
                data = recording.recv(2048)
            except socket.timeout:
                raise Unavailable("a frame did not come within %g s" % PATIENCE) from None
            note = frames.note(data)
            if note is not None and note.number != frames.RELEASE:
                return data


@contextlib.contextmanager
def alone():
    """No other process of this machine is here at the same time, since its settings are shared."""
    with open(LOCK, "w", encoding="ascii") as stream:
        for _ in range(int(10 * LONGEST_WAIT)):
            with contextlib.suppress(BlockingIOError):
                fcntl.flock(stream, fcntl.LOCK_EX | fcntl.LOCK_NB)
                break
            time.sleep(0.1)
        else:
            raise Unavailable("another process keeps %s locked" % LOCK)
        _clear()
        yield


def _clear():
    """Puts back what a process that was killed has left."""
    for name in glob.glob("/run/netns/%s*" % NAMESPACES):
        command("ip", "netns", "del", os.path.basename(name))
    if os.path.exists(BEFORE):
        with open(BEFORE, encoding="ascii") as stream:
            for line in stream:
                name, _, value = line.strip().partition(" ")
                with open(SETTINGS + name, "w", encoding="ascii") as setting:
                    setting.write(value + "\n")
        os.remove(BEFORE)


@contextlib.contextmanager
def ended_well():
    """Signals that end this process are an interrupt first, so that all is put back."""
    before = {number: signal.signal(number, signal.default_int_handler)
              for number in (signal.SIGTERM, signal.SIGHUP)}
    try:
        yield
    finally:
        for number, handler in before.items():
            signal.signal(number, handler)


class Unsettable(Exception):
    """The machine's settings cannot be set here; the text says which."""


class Changed(Exception):
    """Something else changed the machine's settings meanwhile; the text says which."""


@contextlib.contextmanager
def set_machine(**values):
    """Files of /proc/sys/net/core have these values, and after it those that they had.

    Raises Changed where one has another value in the end.
    """
    with contextlib.ExitStack() as closing:
        streams = {}
        try:
            for name in values:
                streams[name] = closing.enter_context(open(SETTINGS + name, "r+"))
            before = {name: stream.read().strip() for name, stream in streams.items()}
            with open(BEFORE, "w", encoding="ascii") as kept:
                kept.writelines("%s %s\n" % each for each in before.items())
            closing.callback(os.remove, BEFORE)
            for name, stream in streams.items():
                closing.callback(_rewrite, stream, before[name])
                _rewrite(stream, values[name])
        except OSError as fault:
            raise Unsettable("%s: %s" % (fault.filename or name, fault.strerror)) from None
        try:
            yield
        finally:
            for name, stream in streams.items():
                stream.seek(0)
                text = stream.read().strip()
                if text != str(values[name]):
                    raise Changed("%s became %s" % (name, text))


def _rewrite(stream, value):
    stream.seek(0)
    stream.write("%s\n" % value)
    stream.flush()


def waiting():
    """The Waiting of each processor by its number, of /proc/net/softnet_stat."""
    with open("/proc/net/softnet_stat", encoding="ascii") as stream:
        rows = [[int(word, 16) for word in line.split()] for line in stream]
    if len(rows[0]) < 13:
        raise Unavailable("softnet_stat has %d columns, and 13 are read" % len(rows[0]))
    return {row[12]: Waiting(row[11], row[1], row[10]) for row in rows}
