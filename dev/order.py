#!/usr/bin/env python3
"""The order of crates.txt: each group of crates depends on its own crates and on earlier groups.

Prints what is against it: an edge to a crate of a later line or group, and a name in a crate's row
that no file of the crate's src/, specs/, proofs/ or must-fail/ has (a comment is enough). The
status is then 1. If there is nothing, it prints the longest chain: of the crates that wait for
each other when all is proved, those with the most lines of src, specs and proofs together.
"""
import os
import re
import sys

import specs

FOLDERS = ("src", "specs", "proofs")


def rows():
    """The rows of crates.txt: each crate with the libraries that it names."""
    return {crate: below.split()
            for crate, below in re.findall(r"^(\w+):(.*)", specs.read("crates.txt"), re.M)}


def own(below):
    """The same with crates of the repository alone."""
    return {crate: [name for name in names if name in below] for crate, names in below.items()}


def files(crate, folders=FOLDERS):
    """The source files of a crate in these of its folders."""
    for folder in folders:
        for place, _, names in os.walk(os.path.join(specs.ROOT, "crates", crate, folder)):
            yield from (os.path.join(place, name) for name in sorted(names)
                        if folder == "must-fail" or name.endswith((".rt", ".antt")))


def line_counts():
    """The lines of each crate."""
    return {crate: sum(specs.read(path).count("\n") for path in files(crate)) for crate in rows()}


def reached(edges):
    """For each crate all crates that it depends on, itself not among them."""
    found = {}
    for crate in edges:
        below = set(edges[crate])
        for name in edges[crate]:
            below |= found.get(name, set())
        found[crate] = below
    return found


def basic(crate, edges, below):
    """The crates that a crate names, without those that another of these depends on."""
    return [name for name in edges[crate]
            if not any(name in below[other] for other in edges[crate] if other != name)]


def longest_chain():
    """The crates of the longest chain, the lowest first, its lines, and those of all crates."""
    edges, lines = own(rows()), line_counts()
    best = {}
    for crate in edges:
        under = max((best[name] for name in edges[crate]), default=(0, []))
        best[crate] = (under[0] + lines[crate], under[1] + [crate])
    length, chain = max(best.values())
    return chain, length, sum(lines.values())


def upward():
    """The edges to a crate that comes later, or in a later group."""
    group = {crate: number for number, (_, names) in enumerate(specs.groups()) for crate in names}
    before = set()
    for crate, names in own(rows()).items():
        for name in names:
            if name not in before or group[name] > group[crate]:
                yield f"crates.txt: {crate} depends on {name}, which comes later"
        before.add(crate)


def unused():
    """The names of rows that no file of the crate has."""
    for crate, names in rows().items():
        text = "\n".join(specs.read(path) for path in files(crate, FOLDERS + ("must-fail",)))
        words = set(re.findall(r"\w+", text))
        for name in names:
            if name not in words:
                yield f"crates.txt: {crate} never uses {name}"


def main():
    """Prints what is against the order, or the longest chain."""
    bad = list(upward()) + list(unused())
    if bad:
        print("\n".join(bad))
        return 1
    chain, length, total = longest_chain()
    print(f"longest chain: {len(chain)} crates, {length} of {total} lines: {', '.join(chain)}")
    return 0


if __name__ == "__main__":
    sys.exit(main())
