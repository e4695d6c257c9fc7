#!/usr/bin/env python3
"""Runs random plans with threads and judges each: runs.py PROGRAM [RUNS [SEED]], 1,000 runs by default.

Two of three plans have no commands; `check` has to call the report of such a run good. Of the others each try is
held to its command: the commands in their order, each tried again only while it is busy and at most
`tries` times. It prints how many runs there were of either kind, and the commands' answers. The first
run that is not lawful ends it with status 1, and its plan, capture and report stay in the folder that is named.
"""
import collections
import json
import os
import pathlib
import random
import subprocess
import sys
import tempfile

HERE = pathlib.Path(__file__).resolve().parent
sys.path.insert(0, str(HERE.parent.parent / "tools" / "tests"))
import reporting  # noqa: E402

COMMANDS = ("mask", "flows", "sock", "offline", "online", "xcpus", "xqueues", "reta", "stand", "expire")
SECONDS = 120


def random_run(chance, seed, with_commands):
    """A plan for a run, of any shape."""
    plan = reporting.random_plan(seed)
    plan["workers"] = chance.choice((1, 2, 3, 4, 8, 32))
    plan["tries"] = chance.choice((1, 4, 64))
    plan["backlog"] = chance.choice((1, 4, 16, 1000))
    plan["steps"] = []
    if with_commands:
        sizes = plan["cpus"], len(plan["queues"]), len(plan["apps"]), len(plan["tx"])
        steps = (reporting.random_step(chance, *sizes) for _ in range(chance.choice((20, 200, 600))))
        plan["steps"] = [step for step in steps if step.split()[0] in COMMANDS]
    return plan


def tries_of(report):
    """The command and the answer of each line of a try."""
    for line in report.split("\n"):
        if line.startswith("c "):
            words = line.split(" ")[2:]
            length = 1 if words[0] == "expire" else 2 if words[0] in ("sock", "offline", "online") else 3
            yield " ".join(words[:length]), " ".join(words[length:])


def fault_of(plan, report, kinds):
    """What is wrong with the tries of a report, if anything is."""
    left, tried = list(plan["steps"]), 0
    for command, answer in tries_of(report):
        if not left or command.split()[0] != left[0].split()[0]:
            return f"a try of {command!r} in place of {left[:1]}"
        kinds[answer.split(" ")[0] + (" lane" if " lane" in answer else "")] += 1
        tried += 1
        if not answer.startswith("busy") or tried == plan["tries"]:
            left.pop(0)
            tried = 0
    return f"{len(left)} commands without an answer" if left else None


def judged(program, plan, folder, kinds):
    """Runs a plan in a folder; what is wrong with the run, if anything is."""
    words = [program, "run", "plan.json", "a.pcap"]
    with open(folder / "report", "wb") as out:
        status = subprocess.run(words, cwd=folder, stdout=out, timeout=SECONDS).returncode
    if status:
        return f"status {status}"
    if plan["steps"]:
        return fault_of(plan, (folder / "report").read_text(), kinds)
    words = [program, "check", "plan.json", "a.pcap", "report"]
    verdict = subprocess.run(words, cwd=folder, stdout=subprocess.PIPE, text=True).stdout
    return None if verdict == "check good\n" else verdict


def main(program, runs="1000", seed="1"):
    program = os.path.realpath(program)
    folder = pathlib.Path(tempfile.mkdtemp(prefix="runs-"))
    counts, kinds = collections.Counter(), collections.Counter()
    for number in range(int(seed), int(seed) + int(runs)):
        chance = random.Random(number)
        plan = random_run(chance, number, number % 3 == 0)
        packets, flows = chance.choice((0, 1, 40, 400, 4000)), chance.choice((1, 8, 200))
        reporting.write_capture(folder / "a.pcap", packets, flows, number)
        (folder / "plan.json").write_text(json.dumps(plan))
        fault = judged(program, plan, folder, kinds)
        if fault:
            print(f"runs: seed {number}: {fault}; see {folder}", file=sys.stderr)
            return 1
        counts["with commands" if plan["steps"] else "good"] += 1
    print(dict(counts), dict(kinds))
    for name in ("a.pcap", "plan.json", "report"):
        (folder / name).unlink(missing_ok=True)
    folder.rmdir()
    return 0


if __name__ == "__main__":
    if len(sys.argv) not in (2, 3, 4):
        sys.exit(__doc__)
    sys.exit(main(*sys.argv[1:]))
