#!/usr/bin/env python3
"""Lists what of the tracked sources is laid out otherwise than docs/develop.md says: lines over 100
columns, files over 800 lines (answers of a proof 150), functions over 40 lines outside tests, their
contract included, READMEs of crates with other headings, and a README over 6,000 bytes. The status
is 1 if there is any."""
import os
import re
import subprocess
import sys

COLUMNS, FILE_LINES, ANSWER_LINES, FUNCTION_LINES = 100, 800, 150, 40
HEADINGS = ("What a contract sees", "Proved", "How it works", "Only tested", "What no clause says",
            "Reading order")
README_BYTES = 6000
FUNCTION = re.compile(r"(\s*)(?:pub )?(?:const )?(?:unsafe )?fn (\w+)")


def function_end(lines, start, indent):
    """The last line of the function that begins at this line, of an indentation."""
    has_body = False
    for end in range(start, len(lines)):
        line = lines[end].rstrip()
        has_body = has_body or line == indent + "{" or line.endswith("{")
        if line.startswith(indent + "}") or line == indent + "{}":
            return end
        if end == start and line.endswith("}"):
            return end
        is_shallow = len(line) - len(line.lstrip()) <= len(indent) + 8
        if not has_body and line.endswith((";", "{}")) and is_shallow:
            return end
    return len(lines) - 1


def long_functions(path, lines):
    at = 0
    while at < len(lines):
        found = FUNCTION.match(lines[at])
        if found:
            end = function_end(lines, at, found.group(1))
            if end - at + 1 > FUNCTION_LINES:
                yield f"{path}:{at + 1}: the function {found.group(2)} has {end - at + 1} lines"
            at = end
        at += 1


def readme_faults(path, lines):
    """Tests and the program have a title only; other crates have all headings but perhaps one."""
    if path == "README.md":
        if os.path.getsize(path) > README_BYTES:
            yield f"{path}: {os.path.getsize(path)} bytes"
        return
    crate = path.split("/")[1]
    if lines[0] != "# " + crate:
        yield f"{path}:1: the title is not `# {crate}`"
    found = [line[3:] for line in lines if line.startswith("## ")]
    is_plain = crate == "steer" or crate.endswith("_tests")
    wanted = [name for name in HEADINGS if name in found or name != "How it works"]
    wanted = [] if is_plain else wanted
    if found != wanted:
        yield f"{path}: the headings are {found}, and not {wanted}"


def faults(path):
    with open(path, encoding="utf8") as file:
        lines = file.read().split("\n")
    if path.endswith(".md"):
        yield from readme_faults(path, lines)
        return
    most = ANSWER_LINES if path.endswith("Answers.antt") else FILE_LINES
    if len(lines) - 1 > most:
        yield f"{path}: {len(lines) - 1} lines"
    for number, line in enumerate(lines, 1):
        if len(line) > COLUMNS:
            yield f"{path}:{number}: {len(line)} columns"
    if path.endswith(".rt") and not path.split("/")[1].endswith("_tests"):
        yield from long_functions(path, lines)


def main():
    os.chdir(os.path.dirname(os.path.dirname(os.path.abspath(__file__))))
    kinds = ["crates/*.rt", "crates/*.antt", "crates/*/README.md", "README.md"]
    listed = subprocess.run(["git", "ls-files", *kinds],
                            stdout=subprocess.PIPE, check=True, universal_newlines=True)
    found = [fault for path in listed.stdout.split() if os.path.exists(path)
             for fault in faults(path)]
    print("\n".join(found), end="\n" if found else "")
    sys.exit(1 if found else 0)


if __name__ == "__main__":
    main()
