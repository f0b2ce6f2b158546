#!/usr/bin/env python3
"""Compares docs/DEFINITIONS.md with the comments of the specs, and fails if they differ. With --write it writes the document.

Each public definition of a spec needs a comment line above it.
"""

import re
import sys
from pathlib import Path
from typing import NamedTuple

TOP = Path(__file__).resolve().parent.parent
DOCUMENT = TOP / "docs/DEFINITIONS.md"
START = re.compile(r" *(?:(?:abbrev|unfoldable) )?pub (?!use |mod |open |ruleset |syntax )(?:(record|data) )?(\S+)(.*)")
MODULE = re.compile(r" *module _ (.*) where")
HEAD = """# Definitions

This text is generated from the comments in `crates/*/specs` by `tools/definitions.py`; change the comments, not the text. It lists every public definition that contracts and proofs use, by crate and file. A crate comes after the crates that it depends on, and a file after the files that it uses. For a definition itself, read the file.

How to read it:

- A name is followed by its arguments: `chunk_bit n chunk i` is bit i of the chunk `chunk`. A definition by cases is listed by its name alone.
- n or N is the number of bytes per chunk, so a chunk has 8n bits.
- A name in lower case is a value or a function. A name with a capital letter is a type or a statement. For example, `IsWidth n` says that a chunk may have n bytes.
- Numbers are natural numbers without an upper limit. A difference is at least 0, and a quotient is rounded down.
- Positions, chunks and bytes are counted from 0. A range from a up to b contains a and not b.
- A bitmap is a list of bits, or a number of pruned chunks with the list of the bits after them.
"""


class Definition(NamedTuple):
    place: str
    term: str
    comment: str
    fields: list  # the fields of a record that have a comment, each with it


def lines_of(path):
    return path.read_text().split("\n")


def crates():
    """The crates that have specs, each after those that it depends on."""
    lines = [line.split(":") for line in (TOP / "crates.txt").read_text().splitlines()]
    needs = {crate.split()[0]: after.split() for crate, after in lines}
    order = []
    while len(order) < len(needs):
        order += [crate for crate in needs if crate not in order and all(need in order or need not in needs for need in needs[crate])]
    return [crate for crate in order if (TOP / "crates" / crate / "specs").is_dir()]


def files(crate):
    """The files of a crate's specs, in the order of its Lib.antt."""
    specs = TOP / "crates" / crate / "specs"
    return [specs / f"{name}.antt" for name in re.findall(r"^pub mod (\w+)$", (specs / "Lib.antt").read_text(), re.MULTILINE)]


def comment_above(lines, at):
    """The comment right above a line, as one text."""
    first = at
    while first > 0 and lines[first - 1].strip().startswith("--"):
        first -= 1
    return " ".join(line.strip().removeprefix("--").strip() for line in lines[first:at])


def block(lines, at):
    """The lines of a definition after its first one, up to the next empty line."""
    end = next((k for k in range(at, len(lines)) if not lines[k].strip()), len(lines))
    return lines[at + 1:end]


def parameters(text):
    """The explicit parameters in a text such as `(n : ℕ) (old new : List ℕ)`."""
    return [name for names in re.findall(r"\(([^():]+) :", text) for name in names.split()]


def arguments(name, kind, rest, body):
    """The arguments of a definition, or None if it is defined by cases."""
    if kind:
        return parameters(rest)
    equations = [line.split(" =")[0].split() for line in body if re.search(r" =( |$)", line)]
    names = [words[1:] for words in equations if words[0] == name]
    return names[0] if len(names) == 1 and all(re.fullmatch(r"[a-z]\w*|N", word) for word in names[0]) else None


def fields(lines):
    """The fields of a record that have a comment."""
    found = [(at, re.match(r" +pub (\S+) :", line)) for at, line in enumerate(lines)]
    return [(field[1], comment_above(lines, at)) for at, field in found if field and comment_above(lines, at)]


def definition(path, lines, at, start, modules):
    """The definition that begins at a line. The parameters of its modules come before its own arguments."""
    kind, name, rest = start.groups()
    body = block(lines, at)
    own = arguments(name, kind, "\n".join([rest, *body]).split(" where")[0], body)
    words = [name] if own is None else [name, *(word for _, names in modules for word in names), *own]
    return Definition(f"{path.relative_to(TOP)}:{at + 1}", " ".join(words), comment_above(lines, at), fields(body) if kind else [])


def definitions(path):
    """The public definitions of a file, in order. The fields of a record are not definitions."""
    lines, modules, record = lines_of(path), [], None
    for at, line in enumerate(lines):
        depth = len(line) - len(line.lstrip())
        if not line:
            continue
        modules = [(outer, names) for outer, names in modules if outer < depth]
        record = record if record is not None and depth > record else None
        module, start = MODULE.match(line), START.match(line)
        if module:
            modules.append((depth, parameters(module[1])))
        elif start and record is None:
            record = depth if start[1] else None
            yield definition(path, lines, at, start, modules)


def head_of(path):
    """The comment at the beginning of a file, as one text."""
    lines = lines_of(path)
    return comment_above(lines, next(at for at, line in enumerate(lines) if not line.startswith("--")))


def section(path):
    """The part of the document on one file, and the places without a comment."""
    found = list(definitions(path))
    missing = [each.place for each in found if not each.comment]
    if not head_of(path):
        missing.append(f"{path.relative_to(TOP)}:1")
    text = f"### `{path.name}`\n\n{head_of(path)}\n\n"
    for each in found:
        text += f"- `{each.term}`: {each.comment}\n"
        text += "".join(f"  - `{name}`: {comment}\n" for name, comment in each.fields)
    return text, missing


def main():
    text, missing = HEAD, []
    for crate in crates():
        text += f"\n## `{crate}`\n"
        for path in files(crate):
            part, places = section(path)
            text += f"\n{part}"
            missing += places
    for place in missing:
        print(f"{place}: no comment line above it")
    if sys.argv[1:] == ["--write"]:
        DOCUMENT.write_text(text)
    elif text != DOCUMENT.read_text():
        print("docs/DEFINITIONS.md differs from the comments of the specs: run tools/definitions.py --write")
        return 1
    return 1 if missing else 0


if __name__ == "__main__":
    sys.exit(main())
