#!/usr/bin/env python3
"""Times two programs on the same inputs in turn: compare.py OLD NEW [TIMES], 9 times each by default.

For each run it prints the least processor seconds (user and system) and the largest memory of both, and
how often the time of NEW goes into that of OLD. Both have to write the same bytes; if they do not, it says so
and ends with status 1.
"""
import hashlib
import os
import pathlib
import subprocess
import sys
import tempfile

HERE = pathlib.Path(__file__).resolve().parent
RUNS = [
    ["hash", "wide.pcap"],
    ["hash", "ipv6.pcap"],
    ["hash", "large.pcap"],
    ["gen", "7", "131072", "512"],
    ["replay", "generated.json", "generated.pcap"],
    ["replay", "wide.json", "wide.pcap"],
    ["replay", "listed.json", "wide.pcap"],
    ["replay", "swept.json", "swept.pcap"],
    ["replay", "rests.json", "none.pcap"],
    ["replay", "socks.json", "none.pcap"],
    ["replay", "expires.json", "none.pcap"],
    ["replay", "flows.json", "none.pcap"],
    ["replay", "filled.json", "filled.pcap"],
    ["place", "rules1069.json", "wide.pcap"],
    ["place", "rules4096.json", "wide.pcap"],
]


def once(program, words):
    """One run: its processor seconds, its largest memory in MB, and the digest of what it wrote."""
    with tempfile.TemporaryFile() as out:
        child = subprocess.Popen([program, *words], stdout=out)
        _, status, used = os.wait4(child.pid, 0)
        child.returncode = status
        if status:
            sys.exit(f"compare: {program} {' '.join(words)} failed")
        out.seek(0)
        digest = hashlib.sha256()
        for piece in iter(lambda: out.read(1 << 20), b""):
            digest.update(piece)
    return used.ru_utime + used.ru_stime, used.ru_maxrss * 1024 / 1e6, digest.digest()


def main(old, new, times=9):
    programs = [os.path.realpath(old), os.path.realpath(new)]
    different = False
    with tempfile.TemporaryDirectory() as folder:
        subprocess.run([sys.executable, HERE / "inputs.py", folder], check=True)
        os.chdir(folder)
        for words in RUNS:
            found = [[once(program, words) for program in programs] for _ in range(int(times))]
            seconds = [min(row[i][0] for row in found) for i in (0, 1)]
            memory = [max(row[i][1] for row in found) for i in (0, 1)]
            print(
                f"{' '.join(words)}: {seconds[0]:.3f} s, {seconds[1]:.3f} s, "
                f"ratio {seconds[0] / seconds[1]:.2f}; {memory[0]:.0f} MB, {memory[1]:.0f} MB",
                flush=True,
            )
            if len({row[i][2] for row in found for i in (0, 1)}) > 1:
                print("compare: the programs write different bytes", file=sys.stderr)
                different = True
    return 1 if different else 0


if __name__ == "__main__":
    if len(sys.argv) not in (3, 4):
        sys.exit(__doc__)
    sys.exit(main(*sys.argv[1:]))
