#!/usr/bin/env python3
"""Writes the generated documents, or with --check compares them.

These are the pages of docs/statement/ (with --page NAME that one alone), the tables of
docs/proof-map.md, the table of crates and the longest chain in docs/architecture.md, and
crates/README.md.
"""
import argparse
import os
import sys

import crate_pages
import proof_tables
import specs
import statement

PARTS = {"docs/proof-map.md": proof_tables.PARTS,
         "docs/architecture.md": {"crates": crate_pages.crate_table,
                                  "longest chain": crate_pages.chain}}


def renewed(path, makers):
    """A document with its generated parts as the sources make them."""
    text = specs.read(path)
    for name, make in makers.items():
        begin, end = f"<!-- generated: {name} -->", f"<!-- end: {name} -->"
        if begin not in text or end not in text:
            sys.exit(f"proof-map.py: {path} has no place for {name}")
        before, _, rest = text.partition(begin)
        text = before + begin + "\n" + "\n".join(make()) + "\n" + end + rest.partition(end)[2]
    return text


def documents(page):
    """The generated documents: pairs of a path and what makes its text. Of one page only that."""
    found = specs.modules()
    for name in statement.PAGES:
        if page in (None, name):
            yield statement.path_of(name), statement.page_text(found, name)
    if page is None:
        yield "crates/README.md", crate_pages.readme()
        for path, makers in PARTS.items():
            yield path, renewed(path, makers)


def stale_pages():
    """The files beside the pages that no page has."""
    folder = os.path.join(specs.ROOT, "docs", "statement")
    made = {os.path.basename(statement.path_of(name)) for name in statement.PAGES}
    return sorted(set(os.listdir(folder)) - made) if os.path.isdir(folder) else []


def main():
    """Writes or compares the documents."""
    parser = argparse.ArgumentParser(description=__doc__.split("\n")[0])
    parser.add_argument("--check", action="store_true", help="compare, and write nothing")
    parser.add_argument("--page", metavar="NAME", choices=list(statement.PAGES),
                        help=f"only the page {', '.join(statement.PAGES)}")
    words = parser.parse_args()
    bad = [f"docs/statement/{name} is no page" for name in stale_pages()]
    for path, text in documents(words.page):
        there = os.path.join(specs.ROOT, path)
        if os.path.exists(there) and specs.read(path) == text:
            continue
        if words.check:
            bad.append(f"{path} is not what dev/proof-map.py makes of the sources")
        else:
            os.makedirs(os.path.dirname(there), exist_ok=True)
            with open(there, "w", encoding="utf8") as file:
                file.write(text)
    print("\n".join(bad), end="\n" if bad else "")
    return 1 if bad and words.check else 0


if __name__ == "__main__":
    sys.exit(main())
