"""The definitions of crates/*/specs: their places, comments, and what each names and rests on.

Read by the other scripts of this folder. Names are followed as a reader follows them: through the
`use` lines of the file, and within the file. If the file has `use .. as lanes`, then `lanes.step`
is the name `step` of that module. Fields of records are not names. Definitions of the libraries
are not followed; types of the code are those of dev/declared.py.
"""
import functools
import os
import re

ROOT = os.path.dirname(os.path.dirname(os.path.abspath(__file__)))
USE = re.compile(r"^\s*(?:pub )?use ([\w.]+?)(?:\.\{([^}]*)\}| as (\w+))", re.M)
HEAD = re.compile(r"(?:(?:abbrev|unfoldable|opaque) )?(?:pub )?(?:record |data )?(?:pub )?"
                  r"([^\s:(){}]+)(?=\s*[:({]|\s*$)")
PUBLIC = re.compile(r"\s*(?:(?:abbrev|unfoldable|opaque) pub|pub (?:record|data)) ")
WORD = re.compile(r"[^\s(){}\[\],;.λ→×⊎≡≤<∷]+")
QUALIFIED = re.compile(r"(?<![\w.)])(\w+)\.([^\s(){}\[\],;.]+)")
PROJECTION = re.compile(r"(?<=[^\s(\[{λ])\.[^\s(){}\[\],;.]+")
FIELD_SET = re.compile(r"([{;]\s*)\w+ =")
NOT_NAMES = ("where", "module", "unfolding", "infixl", "infixr", "infix", "mutual", "pub")


def read(path):
    """The text of a file of the repository."""
    with open(os.path.join(ROOT, path), encoding="utf8") as file:
        return file.read()


@functools.lru_cache(maxsize=None)
def crates():
    """The crates in the order of crates.txt."""
    return tuple(re.findall(r"^(\w+):", read("crates.txt"), re.M))


def groups():
    """The groups of crates.txt: pairs of the group's name and its crates."""
    found = []
    for line in read("crates.txt").split("\n"):
        if line.startswith("# ") and not line.startswith("# The crates"):
            found.append((line[2:].split(";")[0].split(" of ")[0].rstrip("."), []))
        crate = re.match(r"(\w+):", line)
        if crate:
            found[-1][1].append(crate.group(1))
    return found


class Definition:
    """A definition: its line in the file, the comment above it, and its own lines.

    `shown` has the comments inside it, `lines` is without them. `scope` has the lines of the
    modules with parameters that it is in.
    """

    def __init__(self, line, comment, public, scope):
        self.line, self.comment, self.public, self.scope = line, comment, public, scope
        self.shown, self.lines, self.used = [], [], None

    def add(self, line):
        """Adds a line to the definition."""
        self.shown.append(line)
        if not line.lstrip().startswith("--"):
            self.lines.append(line)

    def text(self):
        """What the definition is written with, without comments and names of fields."""
        text = re.sub(r"--.*", "", "\n".join(self.lines))
        text = re.sub(r"^(\s+pub) [\w ]+ :", r"\1 :", text, flags=re.M)
        return FIELD_SET.sub(r"\1", text)


def imports_of(text):
    """What the `use` lines of a file bring in: names to (module, name), and aliases to modules."""
    names, aliases = {}, {}
    for module, listed, alias in USE.findall(text):
        module = re.sub(r"^Rattle\.", "", module)
        if alias:
            aliases[alias] = module
        for part in listed.replace("\n", " ").split(","):
            path, *other = part.strip().split(" as ")
            below, _, name = path.strip().rpartition(".")
            if name:
                home = f"{module}.{below}" if below else module
                names[(other or [name])[0].strip().strip("◌")] = (home, name)
    return names, aliases


class Module:
    """A file of specs/: its name, its path, its imports and its definitions in their order."""

    def __init__(self, name, path):
        self.name, self.path = name, path
        text = read(path)
        self.imports, self.aliases = imports_of(text)
        self.definitions = {}
        self.read_definitions(text.split("\n"))

    def read_definitions(self, rows):
        """Splits the file into its definitions. A blank line ends a comment that is above none."""
        comment, current, scope, deep, opened = [], None, [], 0, False
        for number, line in enumerate(rows, 1):
            indent = len(line) - len(line.lstrip())
            if not line.strip():
                comment = []
                continue
            opened = opened or bool(re.match(r"\s*module ", line))
            if opened:
                scope = [row for row in scope if len(row) - len(row.lstrip()) < indent] + [line]
                current, comment, opened = None, [], not line.rstrip().endswith("where")
                deep = indent + 2
                continue
            if indent < deep:
                scope = [row for row in scope if len(row) - len(row.lstrip()) < indent]
                deep = indent
            if line.lstrip().startswith(("use ", "pub use ")):
                comment = []
            elif line.lstrip().startswith("infix"):
                continue
            elif line.lstrip().startswith("--") and (indent <= deep or current is None):
                comment.append(line.strip())
            else:
                current = self.read_line(line, number, indent == deep, comment, current, scope)
                comment = []

    def read_line(self, line, number, outer, comment, current, scope):
        """Takes a line into the definition that it begins or goes on with; returns its name."""
        found = HEAD.match(line.strip()) if outer else None
        if found and found.group(1) not in NOT_NAMES:
            current = found.group(1)
            if current not in self.definitions:
                self.definitions[current] = Definition(
                    number, comment, bool(PUBLIC.match(line)), list(scope))
        if current is not None:
            self.definitions[current].add(line)
        return current

    def uses(self, name):
        """What a definition names, as pairs of a module and a name, in the order of its text."""
        definition = self.definitions[name]
        if definition.used is None:
            text = definition.text() + "\n" + "\n".join(definition.scope)
            definition.used = self.meanings(text, name)
        return definition.used

    def meanings(self, text, within):
        """What the words of a text mean in this file, inside a definition, in their order."""
        found = {}
        for alias, word in QUALIFIED.findall(text):
            if alias in self.aliases:
                found.setdefault((self.aliases[alias], word), text.index(f"{alias}.{word}"))
        for word in WORD.finditer(PROJECTION.sub(lambda m: " " * len(m.group()), text)):
            pair = self.meaning(word.group(), within)
            if pair:
                found.setdefault(pair, word.start())
        return sorted(found, key=found.get)

    def meaning(self, word, within):
        """The module and name that a word means, where it is the name of a definition.

        The notation `do` is made of the operator `>>=`.
        """
        word = ">>=" if word == "do" else word
        if word in self.definitions:
            return (self.name, word) if word != within else None
        if f"◌{word}◌" in self.definitions:
            return self.name, f"◌{word}◌"
        return self.imports.get(word)


def modules():
    """All files of specs/, by the name under which they are imported."""
    found = {}
    for crate in crates():
        for folder, _, files in os.walk(os.path.join(ROOT, "crates", crate, "specs")):
            for file in sorted(files):
                if file.endswith(".antt") and file != "Lib.antt":
                    path = os.path.relpath(os.path.join(folder, file), ROOT)
                    name = path[len("crates/"):-len(".antt")].replace("/", ".")
                    found[name] = Module(name, path)
    return found


def owner(found, module, name):
    """The definition that a used name belongs to: of a case of a `data` the `data`."""
    if module in found and name in found[module].definitions:
        return module, name
    above, _, last = module.rpartition(".")
    if last == "TheVariants":
        above, _, last = above.rpartition(".")
    if above in found and last in found[above].definitions:
        return above, last
    if module in found:
        for data, definition in found[module].definitions.items():
            if re.search(rf"^\s+{re.escape(name)} :", "\n".join(definition.lines), re.M):
                return module, data
    return None


def closure(found, roots):
    """The definitions that these rest on, as pairs of a module and a name."""
    seen, left = set(), list(roots)
    while left:
        module, name = left.pop()
        if (module, name) not in seen:
            seen.add((module, name))
            uses = (owner(found, *pair) for pair in found[module].uses(name))
            left += [pair for pair in uses if pair]
    return seen
