#!/usr/bin/env python3
"""Finds definitions of crates/*/specs.

`dev/index.py WORD` prints those of this name, or if there are none those whose name or comment has
the word, each with its file, its line and its comment.

`dev/index.py --check` looks up what docs/model/ and docs/statement/ say of the sources, each name
of a definition, law or clause, and their links; of all other documents, whose files
dev/layout.py looks up, the headings that they link to. Status 1 where something is not there.
"""
import argparse
import glob
import os
import re
import signal
import sys

import specs

MODEL, STATEMENT = "docs/model", "docs/statement"
MOST_BYTES = 8192
NAMED = re.compile(r"`(\w+/specs/[\w/]+(?=[.`]))?\.?([^`]*)`")
LINK = re.compile(r"\]\(([^)#:]*)(?:#([^)]*))?\)")
LAW = re.compile(r"^\| `(\w+)` \(`(\w+)`\) \|", re.M)
CLAUSE = re.compile(r"`(\w+)` of `(\w+)::(\w+)`")


def found_by(word):
    """The definitions of this name, or else those that have the word."""
    listed = [(module, name, definition) for module in specs.modules().values()
              for name, definition in module.definitions.items()]
    named = [row for row in listed if row[1].strip("◌") == word]
    low = word.lower()
    return named or [row for row in listed
                     if low in row[1].lower() or low in " ".join(row[2].comment).lower()]


def show(word):
    """Prints what is found, and returns the status."""
    rows = found_by(word)
    for module, name, definition in rows:
        print(f"{name}  {module.path}:{definition.line}")
        for row in definition.comment:
            print(f"  {row[2:].strip()}")
        if len(rows) == 1:
            print("\n".join("    " + line for line in definition.shown))
    if not rows:
        print(f"index.py: no definition has {word}", file=sys.stderr)
    return 0 if rows else 1


def pages(folder):
    """The pages of a folder: pairs of a path and a text."""
    there = os.path.join(specs.ROOT, folder)
    return [(f"{folder}/{name}", specs.read(f"{folder}/{name}"))
            for name in sorted(os.listdir(there)) if name.endswith(".md")]


def documents():
    """The documents of the repository outside the tests and data of its crates."""
    for pattern in ("*.md", "docs/*.md", "docs/*/*.md", "crates/*.md", "crates/*/*.md",
                    "tools/*.md", "dev/*.md", "dev/*/*.md", "examples/*.md"):
        for path in sorted(glob.glob(os.path.join(specs.ROOT, pattern))):
            yield os.path.relpath(path, specs.ROOT)


def anchors(text):
    """The places of the headings of a page, as GitHub makes them."""
    return {re.sub(r"[^\w\- ]", "", head).replace(" ", "-").lower()
            for head in re.findall(r"^#+ (.*)", text, re.M)}


def bad_links(page, text):
    """The links of a page that lead to no file, or to no heading of a document."""
    for path, place in LINK.findall(text):
        there = os.path.normpath(os.path.join(os.path.dirname(page), path)) if path else page
        if not os.path.exists(os.path.join(specs.ROOT, there)):
            if page.startswith((MODEL, STATEMENT)):
                yield f"{page}: no file {path}"
        elif place and there.endswith(".md") and place not in anchors(specs.read(there)):
            yield f"{page}: no heading {path}#{place}"


def bad_names(page, text, known):
    """The names of definitions that a page gives to a module which has none of that name."""
    for line in text.split("\n"):
        module = None
        for path, name in NAMED.findall(line):
            if path:
                module = path
                if path not in known:
                    yield f"{page}: no module {path}"
            elif not module or not re.match(r"\w+$", name):
                continue
            if name and name not in known.get(module, ()):
                yield f"{page}: no {name} in {module}"


def sources():
    """The text of each function of crates/*/src up to its body, by its crate and name."""
    found = {}
    for crate in specs.crates():
        for folder, _, files in os.walk(os.path.join(specs.ROOT, "crates", crate, "src")):
            for file in (f for f in files if f.endswith(".rt")):
                text = specs.read(os.path.join(folder, file))
                for match in re.finditer(r"\bfn (\w+)", text):
                    contract = re.split(r"\n *\{", text[match.start():], 1)[0]
                    of = crate, match.group(1)
                    found[of] = found.get(of, "") + contract
    return found


def unknown():
    """What the pages say that the sources do not have."""
    known = {module.replace(".", "/"): {n for n, d in of.definitions.items() if d.public}
             for module, of in specs.modules().items()}
    functions = sources()
    for page, text in pages(MODEL):
        if len(text.encode()) > MOST_BYTES:
            yield f"{page}: {len(text.encode())} bytes are more than {MOST_BYTES}"
        yield from bad_names(page, text, known)
        for law, crate in LAW.findall(text):
            if (crate, law) not in functions:
                yield f"{page}: no function {law} in {crate}"
    for page, text in pages(STATEMENT):
        for path, name in NAMED.findall(text):
            if path and (path not in known or name and name not in known[path]):
                yield f"{page}: no {name} in {path}"
        for clause, crate, function in CLAUSE.findall(text):
            if f"ensures {clause} " not in functions.get((crate, function), ""):
                yield f"{page}: {crate}::{function} has no clause {clause}"
    for page in documents():
        yield from bad_links(page, specs.read(page))


def main():
    """Looks a word up, or checks the pages."""
    parser = argparse.ArgumentParser(description="Finds definitions of crates/*/specs.")
    parser.add_argument("word", nargs="?", metavar="WORD", help="a name, or a word of a comment")
    parser.add_argument("--check", action="store_true",
                        help="look up the names and links of the documents")
    words = parser.parse_args()
    if words.word:
        return show(words.word)
    if not words.check:
        parser.error("a WORD, or --check")
    bad = list(unknown())
    print("\n".join(bad), end="\n" if bad else "")
    return 1 if bad else 0


if __name__ == "__main__":
    signal.signal(signal.SIGPIPE, signal.SIG_DFL)
    sys.exit(main())
