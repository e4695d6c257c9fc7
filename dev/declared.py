"""The types and constants of crates/*/src that definitions name: where each is declared, and how.

A definition names the type `History` of src/history.rt by `specs.declared.history.History`, its
cases by `..History.TheVariants`, and the constants of a file by `..FILE.TheConstants`.
"""
import functools
import os
import re

import specs

HEAD = re.compile(r"^(?:pub )?(struct|enum|const) (\w+)", re.M)
USES = re.compile(r"^use ([\w:]+?)(?:::\{([^}]*)\})?;", re.M)
IS_NUMBER = re.compile(r"^impl Model for (\w+) \{\n    ghost Value = \{ ℕ \};", re.M)
# Types that definitions see as lists.
LISTS = {"List"}


class Declaration:
    """A type or a constant: its file, its line, the comment above it, and its own lines."""

    def __init__(self, path, line, kind, name, comment, lines):
        self.path, self.line, self.kind, self.name = path, line, kind, name
        self.comment, self.lines = comment, lines

    def read_lines(self, fields):
        """Its lines without the fields of a struct that have none of these names."""
        if self.kind != "struct" or not self.lines[0].endswith("{"):
            return self.lines
        kept, comment, is_whole = [self.lines[0]], [], True
        for line in self.lines[1:-1]:
            comment.append(line)
            field = re.match(r"    (?:pub )?(\w+): ", line)
            if field:
                kept += comment if field.group(1) in fields else []
                is_whole = is_whole and field.group(1) in fields
                comment = []
        if not is_whole:
            kept.append("    // .. and fields that no definition here reads")
        return kept + comment + [self.lines[-1]]

    def parts(self):
        """The fields with their types, or the types that the cases of an enum hold."""
        text = re.sub(r"//.*", "", "\n".join(self.lines))
        if self.kind == "enum":
            return [(None, re.sub(r"^    \w+", "", text, flags=re.M))]
        return re.findall(r"(\w+): ([^;{}]+?)(?:,\n|\n\}|$)", text)


def end_of(rows, start):
    """The line after the declaration that begins at this line."""
    depth = 0
    for at in range(start, len(rows)):
        code = rows[at].split("//")[0]
        depth += sum(code.count(c) for c in "{[(") - sum(code.count(c) for c in "}])")
        if depth == 0 and code.rstrip().endswith((";", "}")):
            return at + 1
    return len(rows)


def declarations(path):
    """The types and constants that a file of src/ declares, by name."""
    text = specs.read(path)
    rows, found = text.split("\n"), {}
    for match in HEAD.finditer(text):
        start = text.count("\n", 0, match.start())
        top = start
        while top and rows[top - 1].startswith(("///", "#[")):
            top -= 1
        comment = [row[3:].strip() for row in rows[top:start] if row.startswith("///")]
        found[match.group(2)] = Declaration(path, start + 1, match.group(1), match.group(2),
                                            comment, rows[start:end_of(rows, start)])
    return found


class Sources:
    """The files of crates/*/src with what they declare, each read when it is first asked for."""

    def __init__(self):
        self.files, self.by_crate, self.numbers = {}, {}, set()

    def crate(self, name):
        """The declarations of a crate: names to declarations, of the files in their order."""
        if name not in self.by_crate:
            self.by_crate[name] = {}
            top = os.path.join(specs.ROOT, "crates", name, "src")
            for folder, _, files in sorted(os.walk(top)):
                for file in sorted(f for f in files if f.endswith(".rt")):
                    path = os.path.relpath(os.path.join(folder, file), specs.ROOT)
                    self.files[path] = declarations(path)
                    self.numbers |= set(IS_NUMBER.findall(specs.read(path)))
                    for declared in self.files[path].values():
                        self.by_crate[name].setdefault(declared.name, declared)
        return self.by_crate[name]

    def named(self, module, name):
        """The declaration that a definition names by this module and name, if it is one."""
        crate, found, rest = module.partition(".specs.declared.")
        if not found or not os.path.isdir(os.path.join(specs.ROOT, "crates", crate)):
            return None
        self.crate(crate)
        if rest.endswith(".TheVariants"):
            rest, name = rest[:-len(".TheVariants")], rest.split(".")[-2]
        file = rest.rpartition(".")[0].replace(".", "/")
        return self.files.get(f"crates/{crate}/src/{file}.rt", {}).get(name)

    def held(self, declared, fields):
        """The declarations of what a type holds in the fields of these names."""
        text = specs.read(declared.path)
        crates = {}
        for path, listed in USES.findall(text):
            for name in re.split(r"[\s,]+", listed) if listed else [path.split("::")[-1]]:
                crates[name] = path.split("::")[0]
        own = declared.path.split("/")[1]
        for field, kind in declared.parts():
            if field is None or field in fields:
                for name in re.findall(r"\b[A-Z]\w+", kind):
                    crate = crates.get(name, own).replace("crate", own)
                    if os.path.isdir(os.path.join(specs.ROOT, "crates", crate)):
                        found = self.crate(crate).get(name)
                        if found and found is not declared:
                            yield found


@functools.lru_cache(maxsize=None)
def all_sources():
    """The sources, read once."""
    return Sources()


def words_of(found, pairs):
    """The words of definitions, and the fields that they read or set."""
    words, fields = set(), set()
    for module, name in pairs:
        lines = "\n".join(found[module].definitions[name].lines)
        words |= set(re.findall(r"\w+", lines))
        fields |= set(re.findall(r"\.(\w+)|[{;]\s*(\w+) =", lines))
    return words, {name for pair in fields for name in pair if name}


def is_looked_into(declared, words, fields):
    """Whether definitions with these words and fields name a field or a case of a type."""
    if declared.kind == "enum":
        cases = re.findall(r"^    (\w+)", "\n".join(declared.lines), re.M)
        return any(case in words for case in cases)
    return any(name in fields for name, _ in declared.parts())


def types_of(found, pairs):
    """The types and constants that these definitions read.

    Those that they name come first, then what these hold in fields that are read. Held types that
    no definition looks into are only named, second, and third those that are numbers.
    """
    sources, listed, closed, numbers = all_sources(), [], set(), set()
    words, fields = words_of(found, pairs)
    left = [(sources.named(*pair), True) for module, name in pairs
            for pair in found[module].uses(name)]
    while left:
        declared, is_named = left.pop(0)
        if declared is None or declared in listed or declared.name in LISTS:
            continue
        if declared.name in sources.numbers:
            numbers.add(declared.name)
        elif is_named or is_looked_into(declared, words, fields):
            listed.append(declared)
            left += [(held, False) for held in sources.held(declared, fields)]
        else:
            closed.add(declared.name)
    return listed, sorted(closed - {declared.name for declared in listed}), sorted(numbers)
