"""From a pair to a report: snapshot, plan, recording, and the replay that a kernel's rule gives."""

import json
import os
import re
import subprocess

from inside import inside
from running import ENVIRONMENT, STEER, TOOLS

from steerlib import capture, cli, kernel, remap, report

from . import pair

os.environ.setdefault("STEER", STEER)

REPORT = "report"
SEED = 1            # by which steer-remap draws, where nothing is said


def snapshot(made, machine):
    """What steer-snap writes in the receiver's namespace, where the made card answers."""
    environment = dict(ENVIRONMENT, ETHTOOL=machine.ethtool(made.folder))
    ended = subprocess.run(
        ["ip", "netns", "exec", made.names[1], os.path.join(TOOLS, "steer-snap"), pair.RECEIVER],
        stdin=subprocess.DEVNULL, stdout=subprocess.PIPE, stderr=subprocess.PIPE,
        env=environment)
    return checked((ended.returncode, ended.stdout.decode(), ended.stderr.decode()))


def checked(result):
    """The output of a program, which has ended well."""
    status, out, err = result
    if status:
        raise AssertionError("status %d: %s" % (status, err))
    return out


def run(name, *words, text=""):
    """The status, the output and the messages of a companion program, within this process."""
    status, out, said = inside(name, *words, data=text.encode())
    return status, out.decode(), said


def plan_of(text, machine, *settings):
    """The plan of a snapshot's text, with settings of steer-set."""
    homes = ",".join("%d=%d" % home for home in enumerate(machine.homes))
    plan = checked(run("steer-plan", "-", "--home", homes, text=text))
    return checked(run("steer-set", "-", *settings, text=plan)) if settings else plan


def with_steps(plan_text, steps):
    """The plan with these steps."""
    return json.dumps(dict(json.loads(plan_text), steps=steps))


def recorded(folder, frames_sent):
    """Writes the frames as a capture, and gives its name."""
    name = os.path.join(folder, "sent.pcap")
    with open(name, "wb") as stream:
        writer = capture.PcapWriter(stream, name)
        for number, data in enumerate(frames_sent):
            writer.write(capture.Frame(capture.ETHERNET, number * 1000000, len(data), data, 0))
    return name


def release():
    """The version of the kernel, such as (6, 18)."""
    found = re.match(r"(\d+)\.(\d+)", os.uname().release)
    return int(found.group(1)), int(found.group(2))


def has_hash_32():
    """Whether this kernel's flow tables and buckets are read by hash_32 (docs/kernel.md)."""
    return release() >= (6, 18)


def hash_of_replies(frame):
    """The random hash that steer-remap draws for the socket of a frame's flow."""
    flow = remap.flows_of([capture.Frame(capture.ETHERNET, 0, len(frame), frame, 0)])[0][0]
    return kernel.drawn_hash(SEED, b"tx" + flow.software_key())


def replayed(folder, plan_text, frames_sent, *options):
    """The report of these frames in a plan, rewritten by steer-remap for this kernel."""
    plan, new_plan, new_capture = (os.path.join(folder, name) for name in (
        "plan.json", "kernel.json", "kernel.pcap"))
    with open(plan, "w", encoding="utf-8") as stream:
        stream.write(plan_text)
    words = list(options) + ["--hash32"] * has_hash_32()
    checked(run("steer-remap", plan, recorded(folder, frames_sent), "--plan", new_plan,
                "--capture", new_capture, *words))
    with open(os.path.join(folder, REPORT), "wb") as out:
        cli.run_steer(["replay", new_plan, new_capture], out)
    return report.read_file(os.path.join(folder, REPORT))


def replayed_as_is(folder):
    """The report of what replayed() was given, without steer-remap."""
    return report.replay(os.path.join(folder, "plan.json"), os.path.join(folder, "sent.pcap"))


def compared(folder, before, after):
    """What steer-compare shows of the report and two snapshots."""
    names = [os.path.join(folder, REPORT)]
    for text in (before, after):
        names.append(os.path.join(folder, "%d.snap" % len(names)))
        with open(names[-1], "w", encoding="utf-8") as stream:
            stream.write(text)
    return run("steer-compare", *names)
