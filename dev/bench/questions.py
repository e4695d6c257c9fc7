#!/usr/bin/env python3
"""Times the questions of docs/questions.md: the commands that each took before, and the one of now.

    questions.py [ROUNDS [TOOLS]]

In a folder of its own it makes the recording of recording.py with 67,305 packets, and a plan of 8
receive queues over 4 processors with a backlog of 1,001. In each of 3 ROUNDS every question is
asked both ways, before and now in turn. For each way it prints the commands, the processor seconds
(user and system, with those of all children) and the elapsed seconds, each the median of the
rounds. The commands of before are those of the folder TOOLS, as of an older checkout; without it
they are today's. STEER names the program `steer` (release/steer).
"""
from __future__ import annotations

import json
import os
import pathlib
import statistics
import subprocess
import sys
import tempfile
import time
from typing import Any, Dict, List, NamedTuple, Tuple

HERE = pathlib.Path(__file__).resolve().parent
TOP = HERE.parent.parent
PACKETS = 67305
ROUNDS = 3
PLAN: Dict[str, Any] = {
    "cpus": 4, "queues": [{"home": number % 4, "mask": [0, 1, 2, 3], "flows": 0}
                          for number in range(8)],
    "sock": 0, "backlog": 1001, "apps": [0, 1, 2, 3], "tx": [{"cpus": [], "queues": []}],
    "steps": ["sweep"]}
MASKS = ["%x" % mask for mask in range(1, 16)]
LENGTHS = [100, 1000, 2000, 4000, 8000, 16000]
QUEUES = [1, 2, 3, 4, 6, 8]
AGAIN = "tools/steer-best own.pcap plan.json --pps 3000 --kernel "


class Question(NamedTuple):
    """What is asked, the commands that it took before, and the one that answers it."""

    text: str
    before: List[str]
    now: str


def compared(settings: List[str], rate: int) -> List[str]:
    """A steer-set for each setting, and one steer-try over all these plans."""
    made = ["before/steer-set plan.json '%s' > set-%d.json" % (setting, number)
            for number, setting in enumerate(settings)]
    plans = " ".join("set-%d.json" % number for number in range(len(settings)))
    return made + ["before/steer-try own.pcap --pps %d %s" % (rate, plans)]


def listed(values: List[Any]) -> str:
    return ",".join(map(str, values))


QUESTIONS = [
    Question("which mask", compared(["rx-*/rps_cpus=" + mask for mask in MASKS], 3000),
             AGAIN + "--mask " + listed(MASKS)),
    Question("RFS, and who reads where", [],
             AGAIN + "--read --flows 0,4096 --readers '53=0 0.0.0.0/0=1' "
             "--readers '53=0 80=1 443=2'"),
    Question("how large a backlog",
             compared(["netdev_max_backlog=%d" % length for length in LENGTHS], 2000),
             "tools/steer-best own.pcap plan.json --pps 2000 --kernel --least backlog"),
    Question("how many queues", compared(["indir=equal:%d" % count for count in QUEUES], 3000),
             AGAIN + "--set rx-*/rps_cpus=0 --queues " + listed(QUEUES)),
    Question("a processor offline", [
        "before/steer-set plan.json 'rx-*/rps_cpus=7' rx-3/home=0 rx-7/home=0 apps=0-2 > less.json",
        "$STEER replay plan.json own.pcap > all.report",
        "$STEER replay less.json own.pcap > less.report",
        "before/steer-diff -q all.report less.report"], AGAIN + "--offline 3"),
    Question("which are the elephants", [
        "$STEER hash own.pcap 8 > hash.txt", "$STEER replay plan.json own.pcap > report",
        "before/steer-top report hash.txt"],
        "tools/steer-top own.pcap plan.json --pps 3000 --kernel"),
]


class Cost(NamedTuple):
    """Processor seconds and elapsed seconds."""

    processor: float
    elapsed: float


def once(commands: List[str], folder: str) -> Cost:
    """What these commands cost, one after another; steer-diff ends with 1 where reports differ."""
    processor = elapsed = 0.0
    environment = dict(os.environ, STEER=os.environ.get("STEER", str(TOP / "release/steer")))
    for command in commands:
        begun = time.monotonic()
        child = subprocess.Popen(["sh", "-f", "-c", command], cwd=folder, env=environment,
                                 stdout=subprocess.DEVNULL, stderr=subprocess.DEVNULL)
        _, status, used = os.wait4(child.pid, 0)
        child.returncode = os.WEXITSTATUS(status)
        if child.returncode not in ((0, 1) if "steer-diff" in command else (0,)):
            sys.exit("questions: status %d of: %s" % (child.returncode, command))
        elapsed += time.monotonic() - begun
        processor += used.ru_utime + used.ru_stime
    return Cost(processor, elapsed)


def median(costs: List[Cost]) -> Cost:
    return Cost(statistics.median(cost.processor for cost in costs),
                statistics.median(cost.elapsed for cost in costs))


def measured(folder: str, rounds: int) -> List[Tuple[List[Cost], List[Cost]]]:
    """The costs of each question in each round, before and now."""
    costs: List[Tuple[List[Cost], List[Cost]]] = [([], []) for _ in QUESTIONS]
    for _ in range(rounds):
        for question, (before, now) in zip(QUESTIONS, costs):
            if question.before:
                before.append(once(question.before, folder))
            now.append(once([question.now], folder))
    return costs


def shown(costs: List[Cost]) -> str:
    if not costs:
        return "no answer"
    middle = median(costs)
    return "%.1f s, %.1f s elapsed" % middle


def main() -> None:
    rounds = int(sys.argv[1]) if sys.argv[1:] else ROUNDS
    older = os.path.abspath(sys.argv[2]) if sys.argv[2:] else str(TOP / "tools")
    with tempfile.TemporaryDirectory() as folder:
        os.symlink(TOP / "tools", os.path.join(folder, "tools"))
        os.symlink(older, os.path.join(folder, "before"))
        with open(os.path.join(folder, "plan.json"), "w", encoding="utf-8") as out:
            json.dump(PLAN, out)
        subprocess.run([sys.executable, HERE / "recording.py", os.path.join(folder, "own.pcap"),
                        str(PACKETS)], check=True)
        print("load average at the beginning: %.1f %.1f %.1f" % os.getloadavg())
        costs = measured(folder, rounds)
    print("load average at the end: %.1f %.1f %.1f" % os.getloadavg())
    for question, (before, now) in zip(QUESTIONS, costs):
        print("%s: before %d commands, %s; now 1 command, %s"
              % (question.text, len(question.before), shown(before), shown(now)))


if __name__ == "__main__":
    main()
