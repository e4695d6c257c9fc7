"""Lays definitions and types out for the pages of docs/statement/: the same words in fewer lines.

Of a definition only line breaks and spaces change: what fits on one line stands on one line, the
fields of a value are filled in like text, and short equations and plain fields stand side by side.
Other lines are as in the source; so are all lines of a part with `do`, where they have a meaning.
Of a type the comment on a field stands behind the field.
"""
import re
import textwrap

COLUMNS = 100
# Between what stands side by side.
GAP = 4
# An equation with at most this many columns is short.
SHORT = 46
RECORD = re.compile(r"\s*pub (record|data) ")
# A line on which a value ends and another begins, and where a value may be broken.
REOPENED = re.compile(r"^(\s*)\} (else .*\{)$")
FIELD_END = re.compile(r"(?<=;) ")


def words_of(lines):
    """The words of some lines, parted by spaces."""
    return " ".join(lines).split()


def indent_of(line):
    """How far in a line begins."""
    return len(line) - len(line.lstrip())


def comment(text, mark):
    """A comment in lines that begin with this mark."""
    return textwrap.wrap(text, COLUMNS, initial_indent=mark, subsequent_indent=mark)


def parts(lines):
    """The lines of each part of a definition: types, equations, or fields."""
    deep, found = indent_of(lines[0]) + (2 if RECORD.match(lines[0]) else 0), []
    for line in lines:
        is_outer = indent_of(line) <= deep and not line.lstrip().startswith(("}", ")"))
        if not found or is_outer:
            found.append([])
        found[-1].append(line)
    return found


def value_end(lines, start):
    """The line after the value whose fields begin after this line."""
    depth = 0
    for at in range(start, len(lines)):
        depth += lines[at].count("{") - lines[at].count("}")
        if depth <= 0:
            return at + 1
    return len(lines)


def filled(fields, indent, columns):
    """Fields in lines that have at most so many columns."""
    rows = []
    for field in fields:
        if rows and len(rows[-1]) + 1 + len(field) <= columns:
            rows[-1] += " " + field
        else:
            rows.append(" " * (indent + (2 if rows else 0)) + field)
    return rows


def value(lines):
    """A value with its fields in as few lines as they fill, of about the same length."""
    fields, indent = FIELD_END.split(" ".join(words_of(lines))), indent_of(lines[0])
    best = filled(fields, indent, COLUMNS)
    for columns in range(COLUMNS, 0, -1):
        rows = filled(fields, indent, columns)
        if len(rows) > len(best):
            break
        best = rows
    return best


def part(lines):
    """A part of a definition, laid out."""
    line = " " * indent_of(lines[0]) + " ".join(words_of(lines))
    if "do" in words_of(lines) or "(do" in words_of(lines):
        return lines
    if len(line) <= COLUMNS:
        return [line]
    lines = "\n".join(REOPENED.sub(r"\1}\n\1\2", line) for line in lines).split("\n")
    rows, at = [], 0
    while at < len(lines):
        end = value_end(lines, at) if lines[at].endswith("{") else at + 1
        rows += value(lines[at:end]) if end > at + 1 else lines[at:end]
        at = end
    return rows


def side_by_side(rows):
    """Rows in columns, as many as have room."""
    indent, rows = indent_of(rows[0]), [row.strip() for row in rows]
    widest = max(map(len, rows)) + GAP
    most = max(1, (COLUMNS - indent + GAP) // widest)
    columns = -(-len(rows) // -(-len(rows) // most))
    return [" " * indent + "".join(row.ljust(widest) for row in rows[at:at + columns]).rstrip()
            for at in range(0, len(rows), columns)]


def definition(lines, has_plain_fields):
    """The lines of a definition, laid out. Plain fields stand side by side, and so do equations if
    all are short."""
    head, *rest = [part(rows) for rows in parts(lines)]
    rows = [line for laid in rest for line in laid]
    is_short = len(rows) == len(rest) > 1 and max(map(len, rows)) <= SHORT
    if has_plain_fields if RECORD.match(lines[0]) else is_short:
        return head + side_by_side(rows)
    return head + rows


def without_comments(lines):
    """The lines of a type and the comment on each: those that stand above it."""
    rows, said = [], []
    for line in lines:
        if line.lstrip().startswith("///"):
            said.append(line.strip()[3:].strip())
        else:
            rows.append((re.sub(r"\bpub ", "", line), " ".join(said)))
            said = []
    return rows


def declaration(lines):
    """The lines of a type, each field with its comment behind it."""
    rows, out = without_comments(lines), []
    at = max([len(line) for line, words in rows if words], default=0) + 2
    for line, words in rows:
        behind = textwrap.wrap(words, COLUMNS - at - len("// ")) or [""]
        out += [f"{first:{at}}// {row}" if row else first
                for first, row in zip([line] + [""] * (len(behind) - 1), behind)]
    return out


def short_declaration(lines):
    """A type without comments, its fields filled in like text."""
    rows = [".." if line.lstrip().startswith("//") else line
            for line, _ in without_comments(lines)]
    text = re.sub(r", \}", " }", " ".join(words_of(rows)))
    return filled(re.split(r"(?<=,) ", text), 0, COLUMNS)
