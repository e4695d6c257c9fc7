"""The parts of a page of docs/statement/: which definitions each has, and in which order.

A page begins with its theorem. Each further part has some fields of the theorem, with what these
rest on and no earlier part has; where they rest on another theorem of dev/statement_words.py, the
parts of that theorem follow. In a part each definition comes after the first that uses it, and of
two that another uses first the one that needs fewer others. So what a definition uses is soon below
it, or above. Placeholders, which stand for what is not there, come last.
"""
import re
import sys

import specs
from statement_words import PAGES, PARTS

# What a field of a placeholder is.
NOTHING = re.compile(r"0|None|\[\]|[A-Z][a-z]\w*")
# A part with fewer definitions is one group. In others a group begins with a definition that needs
# so many, itself among them, if the group before it has so many.
LONG, MANY = 20, 5


class Part:
    """A part of a page: its title, the theorem and the fields of it that it has, what these name,
    its definitions, also in groups, and the words that it explains."""

    def __init__(self, title, theorem, fields, roots, groups, words=()):
        self.title, self.theorem, self.fields, self.roots = title, theorem, fields, roots
        self.groups, self.words = groups, words
        self.pairs = [pair for pairs in groups for pair in pairs]


def is_values(found, module, name):
    """Whether a definition is a record of values or a list of cases, and no statement."""
    definition = found[module].definitions[name]
    if not re.match(r"\s*pub (record|data) ", definition.lines[0]):
        return False
    fields = re.sub(r"\w+ (?=:)", "", definition.text().partition(" where")[2])
    for pair in found[module].meanings(fields, name):
        below = specs.owner(found, *pair)
        if below and not is_values(found, *below):
            return False
    return not re.search("[≡≢≤<×⊎↔]", fields)


def is_placeholder(found, module, name):
    """Whether a definition is a record of values with nothing in them: 0, `None`, no items."""
    _, _, value = found[module].definitions[name].text().partition("=")
    fields = [field.split() for field in re.sub(r"record|[{}]", " ", value).split(";")]
    return value.split()[:1] == ["record"] and all(
        not field or len(field) == 1 and NOTHING.fullmatch(field[0]) for field in fields)


def used_by(found, pair):
    """The definitions that a definition names, in the order of its text."""
    owners = [specs.owner(found, *used) for used in found[pair[0]].uses(pair[1])]
    return [owner for owner in owners if owner and owner != pair]


def reading_order(found, roots, shown):
    """What these rest on and is not shown yet, each after the first that uses it.

    With each definition stands how many, with itself, are there for its sake.
    """
    needed, done, spans = {}, [], {}

    def size(pair):
        if pair not in needed:
            needed[pair] = len(specs.closure(found, [pair]) - set(shown))
        return needed[pair]

    def visit(pair):
        if pair in shown or pair in spans:
            return
        at, spans[pair] = len(done), 0
        done.append(pair)
        for used in sorted(used_by(found, pair), key=size):
            visit(used)
        spans[pair] = len(done) - at

    for root in roots:
        visit(root)
    return {pair: spans[pair] for pair in done}


def in_groups(spans):
    """Definitions in their order, in groups where they are many."""
    groups = [[]]
    for pair, span in spans.items():
        if len(spans) >= LONG and len(groups[-1]) >= MANY and span >= MANY:
            groups.append([])
        groups[-1].append(pair)
    return groups


def fields_of(found, theorem):
    """The fields of a theorem by name, each with the definitions that it names."""
    module, name = theorem
    text = "\n".join(found[module].definitions[name].lines)
    named = {row.split(" :")[0]: found[module].meanings(row, name)
             for row in re.split(r"\n  pub ", text)[1:]}
    owners = {field: [specs.owner(found, *used) for used in pairs]
              for field, pairs in named.items()}
    return {field: [pair for pair in pairs if pair] for field, pairs in owners.items()}


def field_parts(found, theorem, shown):
    """The parts of a theorem's fields, and of the theorems that these rest on."""
    named = fields_of(found, theorem)
    for title, fields, words in PARTS[theorem]:
        roots = [pair for field in fields for pair in named[field]]
        nested = [other for other in PARTS
                  if other not in shown and other in specs.closure(found, roots)]
        spans = reading_order(found, roots, shown | set(nested))
        shown |= set(spans)
        if spans or roots != nested:
            yield Part(title, theorem, fields, roots, in_groups(spans), words)
        for other in nested:
            yield from theorem_parts(found, other, f"{title}: `{other[1]}`", shown)


def theorem_parts(found, theorem, title, shown, words=()):
    """The part of a theorem itself, with the values that it is about, and those of its fields."""
    values = [pair for pair in used_by(found, theorem) if is_values(found, *pair)]
    pairs = [theorem, *reading_order(found, values, shown)]
    shown |= set(pairs)
    yield Part(title, theorem, (), [theorem], [pairs], words)
    yield from field_parts(found, theorem, shown)


def page_parts(found, page):
    """The parts of a page in their order, and its placeholders."""
    about = PAGES[page]
    every = specs.closure(found, [about["root"]])
    placeholders = sorted(pair for pair in every if is_placeholder(found, *pair))
    shown = set(placeholders)
    parts = list(theorem_parts(found, about["root"], "The theorem", shown, about["words"]))
    if shown != every:
        sys.exit(f"proof-map.py: no part of {page} has {sorted(every - shown)}")
    return parts, placeholders
