#!/usr/bin/env python3
"""The laws of the crates, and which of them the program rests on.

A *law* is a public function without parameters, with a clause `ensures`, and with a body that is
empty or only calls such functions: its contract is the theorem. A law is *called by code* if a
function that is no law calls it, or a law that is called by code calls it. All others are *side
laws*: they say what is true of the definitions, and no contract of the program rests on them.

Test crates (`*_tests`) count neither as having laws nor as calling them. A call is a name with
`()` after it. A name is of the crate that the `use` lines of its file give, or else of the file's
own crate.

Prints the number of laws, of those called by code and of side laws, then the side laws by crate.
"""
import os
import re
import signal
import sys

import specs

FUNCTION = re.compile(r"^pub fn (\w+)\(\)\n((?:    [^\n]*\n|\n)*?)"
                      r"^\{((?:\n    [^\n]*)*\n?)\}$", re.M)
CALL = re.compile(r"(?<![.\w])(?:\w+::)*(\w+)\(\)")
USE = re.compile(r"^\s*use (\w+)(?:::\w+)*(?:::(\w+)(?: as (\w+))?|::\{([^}]*)\});", re.M)
ONLY_CALLS = re.compile(r"(\s*(?:\w+::)*\w+\(\);)*\s*")
COMMENT = re.compile(r"^\s*//.*\n", re.M)


class Law:
    """A law: its crate, its module, what its clauses state, and the laws that it calls."""

    def __init__(self, crate, module, contract, body, source):
        self.crate, self.module, self.body, self.source = crate, module, body, source
        words = re.findall(r"ensures(?: \w+)? \{ ?(.*?) ?\}\n", contract, re.S)
        self.says = sorted({word for text in words for word in re.findall(r"\b[A-Z]\w+", text)})
        self.calls = []


def is_test(crate):
    """Whether a crate holds tests alone."""
    return crate.endswith("_tests")


def files(crate):
    """The source files of a crate: pairs of a module and a text."""
    top = os.path.join(specs.ROOT, "crates", crate, "src")
    for folder, _, names in sorted(os.walk(top)):
        for name in sorted(n for n in names if n.endswith(".rt")):
            path = os.path.join(folder, name)
            yield os.path.relpath(path, top)[:-len(".rt")], specs.read(path)


def imported(text, crate):
    """The names that the `use` lines of a file bring in: to the crate that has it and its name."""
    found = {}
    for first, name, alias, listed in USE.findall(text):
        of = crate if first in ("crate", "super", "self") else first
        for part in listed.split(",") if listed else [f"{name} as {alias}" if alias else name]:
            words = part.split(" as ")
            if part.strip():
                found[words[-1].strip()] = (of, words[0].strip().split("::")[-1])
    return found


class Laws:
    """All laws by crate and name; for each that code calls the files that do; and those used."""

    def __init__(self):
        self.all, self.sites, rest = {}, {}, []
        for crate in (crate for crate in specs.crates() if not is_test(crate)):
            for module, text in files(crate):
                rest.append((crate, module, text, self.take_laws(crate, module, text)))
        for crate, module, text, code in rest:
            for pair in self.meant(crate, text, code):
                self.sites.setdefault(pair, set()).add(f"{crate}/src/{module}.rt")
            for law in (found for found in self.all.values() if found.source is text):
                law.calls = self.meant(crate, text, law.body)
        self.used = self.below(self.sites)

    def take_laws(self, crate, module, text):
        """Notes the laws of a file, and returns the rest of its text without comments."""
        for found in FUNCTION.finditer(text):
            name, contract, body = found.groups()
            if "ensures" in contract and ONLY_CALLS.fullmatch(COMMENT.sub("", body)):
                self.all[crate, name] = Law(crate, module, contract, body, text)
        rest = FUNCTION.sub(lambda m: "" if (crate, m.group(1)) in self.all else m.group(), text)
        return re.sub(r"\bfn \w+\(\)", "", COMMENT.sub("", rest))

    def meant(self, crate, text, code):
        """The laws that a part of a file of a crate calls, in their order."""
        names = imported(text, crate)
        pairs = [names.get(name, (crate, name)) for name in CALL.findall(code)]
        return [pair for pair in pairs if pair in self.all]

    def below(self, roots):
        """These laws and all that they call."""
        seen, left = set(), list(roots)
        while left:
            pair = left.pop()
            if pair not in seen:
                seen.add(pair)
                left += self.all[pair].calls
        return seen


    def side(self, crate):
        """The side laws of a crate."""
        return sorted(name for of, name in set(self.all) - self.used if of == crate)


def main():
    """Prints the counts, and the side laws."""
    laws = Laws()
    side = len(laws.all) - len(laws.used)
    print(f"{len(laws.all)} laws: {len(laws.used)} called by code, {side} side laws")
    for crate in specs.crates():
        if laws.side(crate):
            print(f"{crate}: {', '.join(laws.side(crate))}")


if __name__ == "__main__":
    signal.signal(signal.SIGPIPE, signal.SIG_DFL)
    sys.exit(main())
