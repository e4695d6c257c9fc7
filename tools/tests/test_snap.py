"""Tests of steer-snap."""

import os
import re
import shutil
import stat
import subprocess
import tempfile
import unittest

from running import ENVIRONMENT, TOOLS, run, sample, sample_text

from steerlib import snapshot

DEVICE = "e@0.5"

# A machine as files below a folder; None is a folder without files.
FILES = {
    "proc/sys/kernel/osrelease": "6.1.0-made\n",
    "proc/sys/net/core/rps_sock_flow_entries": "32768\n",
    "proc/sys/net/core/netdev_max_backlog": "1000\n",
    "proc/sys/net/core/flow_limit_cpu_bitmap": "00\n",
    "sys/devices/system/cpu/possible": "0-7\n",
    "sys/devices/system/cpu/online": "0-3,6\n",
    "sys/devices/system/cpu/isolated": "\n",
    "sys/class/net/e@0.5/device/msi_irqs/121": "msix\n",
    "sys/class/net/e@0.5/device/msi_irqs/9": "msix\n",
    "sys/class/net/e@0.5/device/msi_irqs/13": "msix\n",
    "sys/class/net/other/queues/rx-0/rps_cpus": "0\n",
    "proc/interrupts": "           CPU0       CPU1\n"
                       "  9:          0         11   PCI-MSI 524288-edge      e@0.5-TxRx-0\n"
                       "121:          0         11   PCI-MSI 524289-edge      e@0.5-TxRx-1\n"
                       " 16:          1          0   IO-APIC  16-fasteoi   usb1, e@0.5, usb2\n"
                       " 17:          1          0   IO-APIC  17-fasteoi   e@0.55\n"
                       "NMI:          0          0   Non-maskable interrupts\n",
    "proc/net/softnet_stat": "0000000a 00000000 00000000\n0000000b 00000001 00000000\n",
    "proc/irq/9/effective_affinity_list": "3\n",
    "proc/irq/9/smp_affinity_list": "0-3\n",
    "proc/irq/121/smp_affinity_list": "6\n",
    "proc/irq/16/effective_affinity_list": "0\n",
    "proc/irq/16/smp_affinity_list": "0-7\n",
}

SNAPSHOT = """\
steer-snap 1
dev e@0.5
kernel 6.1.0-made
taken
cpus possible 0-7
cpus online 0-3,6
cpus isolated\x20
sysctl rps_sock_flow_entries 32768
sysctl netdev_max_backlog 1000
sysctl flow_limit_cpu_bitmap 00
sysctl flow_limit_table_len ! No such file or directory
sysctl netdev_rss_key ! No such file or directory
%stx 0 xps_cpus ! No such file or directory
tx 0 xps_rxqs 000
irq 9 3 0-3 e@0.5-TxRx-0
irq 16 0 0-7 usb1,e@0.5,usb2
irq 121 ! 6 e@0.5-TxRx-1
softnet 0 0000000a 00000000 00000000
softnet 1 0000000b 00000001 00000000
cmd ethtool -i e@0.5
| asked: -i e@0.5
|  second * line
cmd ethtool -l e@0.5
| asked: -l e@0.5
|  second * line
cmd ethtool -x e@0.5
| asked: -x e@0.5
|  second * line
cmd ethtool -k e@0.5
| asked: -k e@0.5
|  second * line
cmd ethtool -n e@0.5
| asked: -n e@0.5
|  second * line
cmd ethtool -S e@0.5
| asked: -S e@0.5
|  second * line
cmd ethtool -n e@0.5 rx-flow-hash tcp4
| asked: -n e@0.5 rx-flow-hash tcp4
|  second * line
cmd ethtool -n e@0.5 rx-flow-hash udp4
| asked: -n e@0.5 rx-flow-hash udp4
|  second * line
cmd ethtool -n e@0.5 rx-flow-hash tcp6
| asked: -n e@0.5 rx-flow-hash tcp6
|  second * line
cmd ethtool -n e@0.5 rx-flow-hash udp6
| asked: -n e@0.5 rx-flow-hash udp6
|  second * line
end
"""


def machine(folder):
    """Writes the machine below a folder; an environment in which steer-snap sees it."""
    files = dict(FILES, **{"tool": "#!/bin/sh\necho \"asked: $*\"\necho ' second * line' >&2\n"})
    for queue in range(12):
        files["sys/class/net/e@0.5/queues/rx-%d/rps_cpus" % queue] = "%02x\n" % queue
        files["sys/class/net/e@0.5/queues/rx-%d/rps_flow_cnt" % queue] = "%d\n" % (queue * 2)
    files["sys/class/net/e@0.5/queues/tx-0/xps_rxqs"] = "000\n"
    for name, text in files.items():
        path = os.path.join(folder, name)
        os.makedirs(os.path.dirname(path), exist_ok=True)
        with open(path, "w", encoding="utf-8") as stream:
            stream.write(text)
    tool = os.path.join(folder, "tool")
    os.chmod(tool, 0o755)
    return dict(ENVIRONMENT, STEER_SNAP_ROOT=folder, ETHTOOL=tool)


def without_time(text):
    """A snapshot in which the line of its moment says nothing."""
    return "".join("taken\n" if line.startswith("taken 2") else line
                   for line in text.splitlines(True))


def lasting(text):
    """A snapshot without its moment and its counters, which differ from run to run, and without
    the settings of the whole machine, which other programs may change meanwhile."""
    return re.sub(r"(softnet \d+) [0-9a-f]{8} .*|(sysctl \w+) [^!].*|(\|      .*): \d+$",
                  r"\1\2\3", without_time(text), flags=re.MULTILINE)


class Snap(unittest.TestCase):
    def test_sockets_and_contexts(self):
        ss = ("tcp   LISTEN 0      511   0.0.0.0:80   0.0.0.0:*  "
              "users:((\"a b\",pid=80,fd=6),(\"c\",pid=81,fd=6))\n"
              "udp   UNCONN 0      0     0.0.0.0:53   0.0.0.0:*  users:((\"gone\",pid=9,fd=6))\n")
        # The 39th field is the processor; the second may have blanks and brackets.
        stat_of = "%d (a) b) S" + " 7" * 35 + " %d 0 0\n"
        files = {"ss": "#!/bin/sh\necho \"$*\" >&2\ncat \"$0.txt\"\n", "ss.txt": ss,
                 "proc/80/stat": stat_of % (80, 5), "proc/80/comm": "a b\n",
                 "proc/80/status": "Name:\ta b\nCpus_allowed:\tff\nCpus_allowed_list:\t0-7\n",
                 "proc/81/stat": stat_of % (81, 2), "proc/81/comm": "c\n",
                 "tool": "#!/bin/sh\necho \"asked: $*\"\n"
                         "[ \"$1$3\" = -n ] && echo '\tRSS Context ID: 3'\ntrue\n"}
        with tempfile.TemporaryDirectory() as folder:
            environment = dict(machine(folder), SS=os.path.join(folder, "ss"))
            for name, text in files.items():
                path = os.path.join(folder, name)
                os.makedirs(os.path.dirname(path), exist_ok=True)
                with open(path, "w", encoding="utf-8") as stream:
                    stream.write(text)
            os.chmod(environment["SS"], 0o755)
            status, out, err = run("steer-snap", "--readers", DEVICE, environment=environment)
        self.assertEqual((status, err), (0, ""))
        lines = out.splitlines()
        self.assertEqual(lines[lines.index("cmd ethtool -x e@0.5 context 3") + 1:], [
            "| asked: -x e@0.5 context 3", "cmd ss -Htuanp", "| -Htuanp",
            *("| " + line for line in ss.splitlines()),
            "process 80 5 0-7 a b", "process 81 2 ! c", "end"])
        self.assertEqual(snapshot.parse(out, "x").processes, {80: 5, 81: 2})

    def test_a_machine_that_was_made(self):
        """Queue 10 stands behind queue 9, a missing file is told with its reason, of shared
        interrupts all names are there, and those of other devices are not."""
        queues = "".join("rx %d rps_cpus %02x\nrx %d rps_flow_cnt %d\n" % (q, q, q, 2 * q)
                         for q in range(12))
        with tempfile.TemporaryDirectory() as folder:
            status, out, err = run("steer-snap", DEVICE, environment=machine(folder))
        self.assertEqual((status, err), (0, ""))
        self.assertEqual(without_time(out), SNAPSHOT % queues)
        read = snapshot.parse(out, "made")
        self.assertEqual((read.device, sorted(read.queues["rx"])), (DEVICE, list(range(12))))
        self.assertEqual([(one.effective, one.wanted) for one in read.interrupts],
                         [([3], [0, 1, 2, 3]), ([0], list(range(8))), (None, [6])])
        self.assertEqual(read.softnet, [[10, 0, 0], [11, 1, 0]])

    def test_wrong_words(self):
        with tempfile.TemporaryDirectory() as folder:
            seen = machine(folder)
            for words, reason in (
                    ([], "one word is wanted"), (["a", "b"], "one word is wanted"),
                    (["nosuch"], "no device nosuch among: e@0.5 other"),
                    (["../e@0.5"], "\"../e@0.5\" is no name of a device"),
                    (["-x"], "-x is no option"), ([""], "\"\" is no name of a device"),
                    (["*"], "no device * among")):
                status, out, err = run("steer-snap", *words, environment=seen)
                self.assertEqual((status, out, reason in err), (2, "", True), (words, err))
                self.assertTrue(err.startswith("steer-snap: "), err)

    def test_without_ethtool(self):
        with tempfile.TemporaryDirectory() as folder:
            seen = dict(machine(folder), ETHTOOL=os.path.join(folder, "nosuch"))
            status, out, err = run("steer-snap", DEVICE, environment=seen)
            self.assertEqual((status, err, out.count("nosuch: not found\n")), (0, "", 10))
            status, plan, err = run("steer-plan", "-", data=out)
        self.assertEqual(status, 0, err)
        self.assertIn("note: ethtool was not there: key, table, kinds and rules are unknown\n",
                      err)

    def test_a_disk_that_is_full(self):
        if not os.path.exists("/dev/full"):
            self.skipTest("no /dev/full")
        with tempfile.TemporaryDirectory() as folder, open("/dev/full", "wb") as full:
            ended = subprocess.run([os.path.join(TOOLS, "steer-snap"), DEVICE], stdout=full,
                                   stderr=subprocess.PIPE, env=machine(folder))
        self.assertEqual((ended.returncode, ended.stderr),
                         (4, b"steer-snap: not written: No space left on device\n"))

    def test_samples_are_whole(self):
        for name in os.listdir(sample("snap")):
            read = snapshot.read_snapshot(sample("snap", name))
            self.assertTrue(read.device and read.queues["rx"] and read.answers, name)

    def test_the_kinds_of_facts_are_those_of_a_real_device(self):
        """The sample was written by another program."""
        with tempfile.TemporaryDirectory() as folder:
            out = run("steer-snap", DEVICE, environment=machine(folder))[1]
        kinds = [set(" ".join([word for word in line.split(" ") if not word.isdigit()][:2])
                     for line in text.splitlines()
                     if line.split(" ")[0] in ("cpus", "sysctl", "rx", "tx"))
                 for text in (out, sample_text("snap", "veth-8q-netns.snap"))]
        self.assertEqual(*kinds)


@unittest.skipUnless(os.path.isdir("/sys/class/net/lo/queues"), "no device lo")
class ThisMachine(unittest.TestCase):
    def devices(self):
        return [name for name in sorted(os.listdir("/sys/class/net"))
                if os.path.isdir("/sys/class/net/%s/queues" % name)][:4]

    def test_two_runs_differ_in_moment_and_counters_alone(self):
        first, second = (run("steer-snap", "lo") for _ in range(2))
        self.assertEqual((first[0], first[2]), (0, ""))
        self.assertEqual(lasting(first[1]), lasting(second[1]))

    def test_its_devices_have_snapshots_and_plans(self):
        for name in self.devices():
            status, out, err = run("steer-snap", name)
            self.assertEqual((status, err, out.endswith("\nend\n")), (0, "", True), name)
            read = snapshot.parse(out, name)
            self.assertEqual(read.device, name)
            self.assertIn(run("steer-plan", "-", data=out)[0], (0, 3), name)

    @unittest.skipUnless(hasattr(os, "geteuid") and os.geteuid() == 0, "not run as root")
    def test_root_is_not_needed(self):
        wanted = run("steer-snap", "lo")[1]
        with tempfile.TemporaryDirectory() as folder:
            os.chmod(folder, 0o755)
            copy = shutil.copy(os.path.join(TOOLS, "steer-snap"), folder)
            os.chmod(copy, stat.S_IRWXU | stat.S_IRGRP | stat.S_IXGRP | stat.S_IROTH |
                     stat.S_IXOTH)
            ended = subprocess.run([copy, "lo"], stdout=subprocess.PIPE, stderr=subprocess.PIPE,
                                   cwd=folder, preexec_fn=lambda: os.setuid(65534))
        self.assertEqual((ended.returncode, ended.stderr), (0, b""))
        labels = [[line.split(" ")[:3] for line in lasting(text).splitlines()
                   if line[0] != "|"] for text in (wanted, ended.stdout.decode())]
        self.assertEqual(*labels)


if __name__ == "__main__":
    unittest.main()
