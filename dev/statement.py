"""Writes docs/statement/: for a theorem one page with every definition that it rests on.

A page has a head, the parts of dev/reading_parts.py, each group with the types of the code that it
needs first, and at the end what is for looking up: placeholders, types with the comments on their
fields, names of the libraries, and where each definition stands. Definitions are laid out by
dev/typeset.py, and the words of the page are compared with those of the sources.
"""
import hashlib
import re
import sys

import declared
import reading_parts
import specs
import typeset
from library import COVERED, LIBRARY, USUAL
from statement_words import (ALONE, EXPLAINED, NOTATION, PAGES, PARTS, PLACEHOLDERS, PLAINER,
                             READING, SAYINGS, WORDS)

# After so many lines a reader may have forgotten what a name is.
FAR = 200


def module_path(module):
    """The file of a module as documents name it: crate/specs/File."""
    return module.replace(".", "/")


def anchor(title):
    """The place of a heading in a page, as GitHub makes it."""
    return re.sub(r"[^\w\- ]", "", title).replace(" ", "-").lower()


def named(names):
    """Names as a list in a sentence."""
    return ", ".join(f"`{name.strip('◌')}`" for name in names)


def first_sentence(text):
    """The first sentence of a comment."""
    return re.split(r"(?<=\.) (?=[A-Z])", " ".join(text.split()))[0]


def comment_on(found, module, name):
    """What a definition says in words: of a theorem, whose parts say the rest, one sentence."""
    said = " ".join(row[2:].strip() for row in found[module].definitions[name].comment)
    if (module, name) in PLAINER:
        digest, shorter = PLAINER[module, name]
        if hashlib.sha256(said.encode()).hexdigest()[:len(digest)] != digest:
            sys.exit(f"proof-map.py: the comment on {module}.{name} has changed; look at PLAINER")
        return shorter
    said = SAYINGS.get((module, name), said)
    if not said:
        sys.exit(f"proof-map.py: {module}.{name} has no comment, and SAYINGS no sentence on it")
    return first_sentence(said) if (module, name) in PARTS else said


def shown_definition(found, module, name, notes=()):
    """A definition: its comment, notes in brackets, and its own lines laid out."""
    definition = found[module].definitions[name]
    said = typeset.comment(comment_on(found, module, name), "-- ")
    said += typeset.comment(f"[{'; '.join(notes)}]", "-- ") if notes else []
    lines = definition.shown
    if lines == definition.lines:
        lines = typeset.definition(lines, reading_parts.is_values(found, module, name))
    return said + definition.scope + lines + [""]


def seen_lines(declaration, fields):
    """The lines of a type without ghost facts, and of a struct with these fields alone."""
    lines, skipping = [], None
    for line in declaration.read_lines(fields):
        indent = len(line) - len(line.lstrip())
        if skipping is None and re.match(r"\s+pub(\(crate\))? ghost |\s+pub\(crate\) ", line):
            skipping = indent
        if skipping is None:
            lines.append(line)
        if skipping is not None and indent == skipping and line.rstrip().endswith(","):
            skipping = None
    return lines


def short_type(declaration, fields):
    """A type or a constant of the code: a sentence, and its declaration, if EXPLAINED in full."""
    is_explained = declaration.name in EXPLAINED
    lay_out = typeset.declaration if is_explained else typeset.short_declaration
    said = first_sentence(" ".join(declaration.comment))
    return typeset.comment(said, "// ") + lay_out(seen_lines(declaration, fields)) + [""]


def full_type(declaration, fields):
    """A type or a constant of the code: its comment, and its declaration with all comments."""
    lines = typeset.declaration(seen_lines(declaration, fields))
    return typeset.comment(" ".join(declaration.comment), "// ") + lines + [""]


def fence(language, lines):
    """Lines as a block of code, without the blank line at their end."""
    return [f"```{language}"] + lines[:-1] + ["```", ""] if lines else []


def unfenced(text, language):
    """The lines of the blocks of code of a language, without comments."""
    blocks = re.findall(rf"^```{language}\n(.*?)^```$", text, re.M | re.S)
    return [line for block in blocks for line in block.split("\n")
            if not line.lstrip().startswith("--")]


def library_names(found, pairs):
    """The definitions of the libraries that occur, each with its module and its first user."""
    names = {}
    for module, name in pairs:
        for of, used in found[module].uses(name):
            used = used.strip("◌")
            if of.partition(".")[0] not in specs.crates() and used not in COVERED:
                names.setdefault(used, (of, (module, name)))
    unknown = sorted(name for name in names if name not in LIBRARY)
    if unknown:
        sys.exit(f"proof-map.py: dev/library.py says nothing of {', '.join(unknown)}")
    return names


def library_notes(names):
    """What names of the libraries are that not all languages have, by their first users."""
    notes = {}
    for name, (_, user) in names.items():
        if name not in USUAL:
            said = LIBRARY[name] if LIBRARY[name].startswith(name) else f"{name}: {LIBRARY[name]}"
            notes.setdefault(user, {})[name] = said
    return notes


def aliases(found, pairs):
    """What the names before a dot mean: of each its module, or the enum whose cases it has."""
    names = {}
    for module, name in pairs:
        for alias, _ in specs.QUALIFIED.findall(found[module].definitions[name].text()):
            if alias in found[module].aliases:
                of = re.sub(r"\.TheVariants$", "", found[module].aliases[alias])
                names.setdefault(f"`{alias}.`", set()).add(f"`{of.split('.')[-1]}`")
    return [f"{alias} for {' or '.join(sorted(of))}" for alias, of in sorted(names.items())]


def place_of(found, module, name):
    """What a name is of, in words: a file of definitions, a type of the code, or a library."""
    owner = specs.owner(found, module, name)
    if owner:
        return f"that of {module_path(owner[0])}"
    crate, _, rest = module.partition(".specs.declared.")
    if rest and crate in specs.crates():
        return f"that of {re.sub('[.]TheVariants$', '', rest).split('.')[-1]}"
    return "the library's"


def twice(found, pairs):
    """What names with two meanings on a page are, by the definition in which they occur."""
    meanings, out = {}, {}
    for module, name in pairs:
        for of, used in found[module].uses(name):
            places = meanings.setdefault(used, {})
            places.setdefault(place_of(found, of, used), set()).add((module, name))
    for used, places in meanings.items():
        if len(places) > 1 and used not in COVERED and used[0].islower():
            for place, users in places.items():
                for user in users:
                    out.setdefault(user, {})[used] = f"{used}: {place}"
    return out


def recalled(found, pairs):
    """What names are that were met last far above, by the definitions that use them again."""
    at, met, notes = 0, {}, {}
    for pair in pairs:
        for used in reading_parts.used_by(found, pair):
            if at - met.get(used, at) > FAR and not reading_parts.is_values(found, *used):
                said = re.split(r"[:.](?: |$)", comment_on(found, *used))[0]
                notes.setdefault(pair, {})[used[1]] = f"{used[1]}: {said}"
            if used in met:
                met[used] = at
        met[pair] = at
        at += len(shown_definition(found, *pair))
    return notes


def line_count(found, pairs):
    """How many lines definitions have on a page, without comments and blank lines."""
    lines = [line for pair in pairs for line in shown_definition(found, *pair)]
    return sum(1 for line in lines if line and not line.lstrip().startswith("--"))


class Page:
    """A page: its parts, its placeholders, and the types that each group of a part needs first."""

    def __init__(self, found, name):
        self.found, self.about = found, PAGES[name]
        self.parts, self.placeholders = reading_parts.page_parts(found, name)
        self.read = [pair for part in self.parts for pair in part.pairs]
        self.pairs = self.read + self.placeholders
        self.names = library_names(found, self.pairs)
        self.notes = twice(found, self.pairs)
        for user, said in [*library_notes(self.names).items(), *recalled(found, self.read).items()]:
            self.notes.setdefault(user, {}).update(said)
        self.fields = declared.words_of(found, self.read)[1]
        self.types, self.first_types = [], {}
        for pairs in (pairs for part in self.parts for pairs in part.groups):
            so_far = self.read[:self.read.index(pairs[-1]) + 1]
            needed, self.closed, self.numbers = declared.types_of(found, so_far)
            self.first_types[pairs[0]] = [of for of in needed if of not in self.types]
            self.types += self.first_types[pairs[0]]

    def definitions(self, pairs):
        """Definitions as lines of code."""
        return [line for pair in pairs
                for line in shown_definition(self.found, *pair, self.notes.get(pair, {}).values())]

    def group(self, part, pairs):
        """A group of a part: the types that it needs first and its definitions.

        A theorem comes before its types. After the first group each has a heading.
        """
        rust = fence("rust", [line for of in self.first_types[pairs[0]]
                              for line in short_type(of, self.fields)])
        if pairs[0] == part.theorem:
            return fence("agda", self.definitions(pairs)) + rust
        heading = [f"### {named([pairs[0][1]])}", ""] if pairs is not part.groups[0] else []
        return heading + rust + fence("agda", self.definitions(pairs))

    def earlier(self, part):
        """Which definitions of a part are on pages that are read before this one."""
        out, left = [], part.pairs
        for page in self.about["after"]:
            known = specs.closure(self.found, [PAGES[page]["root"]])
            names = [pair[1] for pair in left if pair in known]
            left = [pair for pair in left if pair not in known]
            if names:
                which = "all of this" if len(names) == len(part.pairs) else named(names)
                out.append(f"on [{page}]({page}.md): {which}")
        return [f"*Read already {'; '.join(out)}.*", ""] if out else []

    def shown_part(self, part):
        """A part: its heading, words, what of it is on other pages, and its groups."""
        out = [f"## {part.title}", ""]
        out += [f"- {WORDS[word]}" for word in part.words] + ([""] if part.words else [])
        out += self.earlier(part)
        return out + [line for group in part.groups for line in self.group(part, group)]

    def table(self):
        """The parts with their sizes: what each has, and what has to be read for it alone."""
        out = ["| part | fields | definitions | lines | lines so far | to read it alone |",
               "|---|---|---|---|---|---|"]
        so_far = 0
        for part in self.parts:
            lines = line_count(self.found, part.pairs)
            so_far += lines
            alone = specs.closure(self.found, part.roots).intersection(self.read)
            out.append(f"| [{part.title}](#{anchor(part.title)}) | {named(part.fields)} | "
                       f"{len(part.pairs)} | {lines} | {so_far} | "
                       f"{line_count(self.found, alone)} |")
        return out + [""]

    def head(self):
        """What comes before the theorem."""
        about, names = self.about, aliases(self.found, self.read)
        notation = NOTATION.format(numbers=named(self.numbers))
        notation += f" No definition looks into {named(self.closed)}." if self.closed else ""
        notation += f" Short names before a dot: {'; '.join(names)}." if names else ""
        reading = READING.format(count=len(self.pairs), name=about["root"][1])
        return [f"# {about['title']}", "", "Generated by `dev/proof-map.py`; do not edit.", "",
                about["states"], "", f"**Promised by.** {about['promised']}", "",
                f"**How to read.** {reading}", "", *self.table(), f"**Notation.** {notation}", ""]

    def alone(self):
        """For each part what its definitions name of earlier parts."""
        out = ["## Parts alone", "", ALONE, "", "| part | of earlier parts |", "|---|---|"]
        for part in self.parts[1:]:
            used = {pair for own in part.pairs for pair in reading_parts.used_by(self.found, own)}
            rest = [pair[1] for pair in self.read if pair in used and pair not in part.pairs]
            out.append(f"| {part.title} | {named(rest)} |")
        return out + [""]

    def places(self):
        """For each file the definitions and types of the page that it has."""
        out = ["## Where each definition stands", "", "| file | definitions, types |", "|---|---|"]
        places = [(module_path(module), name) for module, name in self.pairs]
        places += [(of.path.partition("/")[2], of.name) for of in self.types]
        for file in sorted({file for file, _ in places}):
            names = sorted(name for of, name in places if of == file)
            out.append(f"| `{file}` | {named(names)} |")
        return out

    def tail(self):
        """What need not be read."""
        out = ["## Placeholders", "", PLACEHOLDERS, ""] if self.placeholders else []
        out += fence("agda", self.definitions(self.placeholders))
        out += ["## Types in full", ""] + fence("rust", [
            line for of in self.types if of.name not in EXPLAINED
            for line in full_type(of, self.fields)])
        out += [*self.alone(), "## Names of the libraries", "", "| name | module | what it is |",
                "|---|---|---|"]
        out += [f"| `{name}` | {self.names[name][0]} | {LIBRARY[name]} |"
                for name in sorted(self.names)]
        return out + ["", *self.places()]

    def text(self):
        """The text of the page."""
        parts = [line for part in self.parts for line in self.shown_part(part)]
        return "\n".join(self.head() + parts + self.tail()) + "\n"


def check_words(found, page, pairs, text):
    """Compares the words of the definitions of a page with those of their files."""
    own = []
    for module, name in pairs:
        definition = found[module].definitions[name]
        words = typeset.words_of(definition.scope + definition.lines)
        rows = specs.read(found[module].path).split("\n")
        file = typeset.words_of(row for row in rows if not row.lstrip().startswith("--"))
        sign = " ".join(typeset.words_of(definition.lines))
        is_whole = all(sign.count(begin) == sign.count(end) for begin, end in ("()", "[]", "{}"))
        if f" {sign} " not in f" {' '.join(file)} " or not is_whole:
            sys.exit(f"proof-map.py: {module}.{name} is not whole")
        own += words
    if typeset.words_of(unfenced(text, "agda")) != own:
        sys.exit(f"proof-map.py: definitions of {page} have other words than in the sources")


def page_text(found, page):
    """The text of a page, whose definitions have the words that they have in the sources."""
    made = Page(found, page)
    text = made.text()
    check_words(found, page, made.pairs, text)
    return text


def path_of(page):
    """The file of a page."""
    return f"docs/statement/{page}.md"
