#!/usr/bin/env python3
"""Compares the guide's tables of costs with the public calls of the library crates.

- Each public function of a public type, and each function of a public trait, is in a table whose heading names the type or the trait.
- Each public function of no type is in a table whose heading names the crate: one of a public module, or one that such a module re-exports.
- Each call that a table names is a function of a type, trait or crate in that table's heading, its own or one of a trait that the type implements.
- No two rows are for the same call of the same type.

The heading of a table's first column names the types. Laws are no calls: their costs are in their own documentation. They are in modules `laws`,
or are functions without parameters and result. What is hidden from the documentation is for the other crates of the repository, and is no call.
"""

import re
import sys
from pathlib import Path
from typing import NamedTuple

TOP = Path(__file__).resolve().parent.parent
CRATES = (
    "bitmap_bytes", "bitmap_core", "historical_bitmap", "log_frames", "commit_log", "bitmap_session", "log_store", "authenticated_bitmap",
    "authenticated_history",
)
GUIDE = TOP / "docs/GUIDE.md"
SECTION = "## What each call costs"
HISTORICAL = {"BitMap<N, Clean>": ["CleanBitMap"], "BitMap<N, Dirty<N>>": ["DirtyBitMap"], "BitMap<N, S>": ["CleanBitMap", "DirtyBitMap"]}


class Calls(NamedTuple):
    own: set  # pairs of a public type or trait and a function: the tables have to have them
    inherited: set  # pairs of a type and a function of a trait that it implements: the tables may have them


class Row(NamedTuple):
    types: list
    calls: list


def sources(crate):
    """The texts of a library crate, without its laws."""
    paths = sorted((TOP / "crates" / crate / "src").rglob("*.rt"))
    return [path.read_text() for path in paths if not {"laws", "laws.rt"} & set(path.relative_to(TOP).parts)]


def shown_modules(path):
    """The texts of a module and of its public modules, without laws and hidden modules."""
    text = path.read_text()
    yield text
    folder = path.parent if path.name == "lib.rt" else path.with_suffix("")
    for hidden, name in re.findall(r"^(#\[doc\(hidden\)\]\n)?pub mod (\w+);", text, re.MULTILINE):
        if not hidden and name != "laws":
            yield from shown_modules(folder / f"{name}.rt")


def free_calls(crate):
    """The public functions of a crate that are of no type, without laws."""
    shown = list(shown_modules(TOP / "crates" / crate / "src/lib.rt"))
    exported = {name for text in shown for use in re.findall(r"^pub use ([^;]*);", text, re.MULTILINE) for name in re.findall(r"\w+(?!\w|::)", use)}
    found = [(text, name) for text in sources(crate) for name in re.findall(r"^pub fn (\w+)(?!\w|\(\)$)", text, re.MULTILINE)]
    return {(crate, name) for text, name in found if text in shown or name in exported}


def blocks(text):
    """The heads of the `impl` and `trait` blocks of a source, each with its body. Both begin and end at the left margin."""
    return re.findall(r"^((?:impl|pub trait)\b[^{]*)\{\n(.*?)^\}", text, re.DOTALL | re.MULTILINE)


def type_names(name):
    """The names by which the guide calls a type: without its parameters, but the historical bitmaps have their own names."""
    found = re.match(r"(?:\w+::)*(\w+)", name)
    return HISTORICAL.get(name, [found[1]] if found else [])


def without_parameters(head):
    """The head of an `impl` block after `impl` and its parameters."""
    depth = 0
    rest = head.removeprefix("impl").lstrip()
    for place, sign in enumerate(rest):
        depth += (sign == "<") - (sign == ">")
        if depth == 0:
            return rest[place + 1:].strip() if rest.startswith("<") else rest.strip()
    sys.exit(f"the parameters of this block have no end: {head}")


def public_types(texts):
    """The names of the types that are declared as public."""
    return {name for text in texts for name in re.findall(r"^pub (?:struct|enum|type) (\w+)", text, re.MULTILINE)}


def public_calls(texts):
    calls = Calls(set(), set())
    types = public_types(texts)
    for head, body in (block for text in texts for block in blocks(text)):
        if head.startswith("pub trait"):
            owner = re.match(r"pub trait (\w+)", head)[1]
            calls.own.update((owner, name) for name in re.findall(r"^    (?:final )?fn (\w+)", body, re.MULTILINE))
            continue
        trait, _, name = without_parameters(head).rpartition(" for ")
        pattern, group = (r"^    fn (\w+)", calls.inherited) if trait else (r"^    pub fn (\w+)", calls.own)
        owners = [owner for owner in type_names(name) if owner in types]
        group.update((owner, call) for owner in owners for call in re.findall(pattern, body, re.MULTILINE))
    return calls


def quoted(cell):
    """The names between backquotes of a cell. Operators are no names."""
    return re.findall(r"`(\w+)`", cell)


def rows(text):
    """The rows of the tables in the section on costs: the types of the heading, and the calls of the first column."""
    section = text.partition(f"\n{SECTION}\n")[2].partition("\n## ")[0]
    types = None
    for line in section.split("\n"):
        if not line.startswith("|"):
            types = None
        elif types is None:
            types = quoted(line.split("|")[1])
        elif not line.startswith("|---"):
            yield Row(types, quoted(line.split("|")[1]))


def errors_in(listed, calls):
    known = calls.own | calls.inherited
    seen = set()
    for row in listed:
        for call in row.calls:
            pairs = {(name, call) for name in row.types} & known
            if not pairs:
                yield f"`{call}` is no public call of {' or '.join(row.types)}"
            yield from (f"two rows are for `{name}::{call}`" for name, call in sorted(pairs & seen))
            seen |= pairs
    yield from (f"no row is for `{name}::{call}`" for name, call in sorted(calls.own - seen))


def main():
    calls = public_calls([text for crate in CRATES for text in sources(crate)])
    for crate in CRATES:
        calls.own.update(free_calls(crate))
    listed = list(rows(GUIDE.read_text()))
    errors = list(errors_in(listed, calls))
    for error in errors:
        print(f"{GUIDE.relative_to(TOP)}: {error}")
    print(f"costs: {len(calls.own)} public calls, {len(listed)} rows, {len(errors)} errors")
    return 1 if errors else 0


if __name__ == "__main__":
    sys.exit(main())
