#!/usr/bin/env python3
"""Compares the definitions in docs/THEOREM.md with the specs and sources, and fails if they differ. With --write it writes them there.

A line `<!-- FILE: NAME, NAME -->` is before each fenced block: the block has those definitions of that file, in that order, each under
its comment, and in the modules with parameters or the `impl` that it is in. `Model for T` names the value and the view of a type's model.
Every definition of the specs that one on the page depends on has to be on the page too. A name that has several meanings on the page has
to be in its table of such names. A word of std that a definition uses has to be in the first column of a table of the section HOW.
"""

import re
import sys
from functools import cache
from pathlib import Path

TOP = Path(__file__).resolve().parent.parent
DOCUMENT = TOP / "docs/THEOREM.md"
BLOCK = re.compile(r"<!-- (\S+): ([^\n]+) -->\n```\n(?:[^`\n][^\n]*\n|\n)*```\n")
HOW = "## How to read it"
MODULE = re.compile(r" *module _ .* where")
SHARED = re.compile(r"^\| `([^`|]+)` \|", re.MULTILINE)
DEFINED = re.compile(r"(?: *(?:abbrev|unfoldable) pub | *pub (?:record|data|fn) |pub )(\w+)")
IMPORT = re.compile(r"use Rattle\.(\w+)\.specs\.(\w+)(?:\.(\w+))?(?:\.\{([^}]*)\}| as (\w+))")


@cache
def lines_of(file):
    return (TOP / file).read_text().split("\n")


def line_of(file, name):
    """The index of the line that begins a definition, or None."""
    if name.startswith("Model for "):
        starts = re.compile(rf"impl\b.* {name}\b")
        return next((at for at, line in enumerate(lines_of(file)) if starts.match(line)), None)
    found = ((at, DEFINED.match(line)) for at, line in enumerate(lines_of(file)))
    return next((at for at, start in found if start and start[1] == name), None)


def model(lines, at):
    """The value and the view of a model."""
    end = lines.index("}", at)
    return [lines[at], *(line for line in lines[at:end] if re.match(" *ghost (Value|view) =", line)), "}"]


def definition(file, name):
    """The lines of a definition, up to the next empty line or the body of a function."""
    lines, at = lines_of(file), line_of(file, name)
    if name.startswith("Model for "):
        return model(lines, at)
    end = next(k for k in range(at, len(lines) + 1) if k == len(lines) or not lines[k].strip() or lines[k].strip() == "{")
    return lines[at:end]


def comment(file, name):
    """The comment lines right above a definition of a spec."""
    lines, at = lines_of(file), line_of(file, name)
    first = at
    while file.endswith(".antt") and lines[first - 1].strip().startswith("--"):
        first -= 1
    return lines[first:at]


@cache
def imports(file):
    """The names that a file imports from specs, each with the file and the name of its definition. A name `m` may import a whole file."""
    names = {}
    for crate, module, part, listed, alias in IMPORT.findall("\n".join(lines_of(file))):
        spec = f"crates/{crate}/specs/{module}.antt"
        if (TOP / spec).exists():
            names.update({name.strip(): (spec, part or name.strip()) for name in listed.split(",") if name.strip()})
            names.update({alias: (spec, None)} if alias else {})
    return names


def meaning(file, word):
    """The file and the name of the spec definition that a word of a file refers to, or None."""
    name, _, part = word.partition(".")
    found, imported = imports(file).get(name, (file, name))
    imported = imported or part
    return (found, imported) if found.endswith(".antt") and line_of(found, imported) is not None else None


def scopes(file, name):
    """The lines that begin the modules with parameters, or the `impl`, that a definition is in, the outermost first."""
    lines, at = lines_of(file), line_of(file, name)
    depth, found = indentation(lines[at]), []
    for line in reversed(lines[:at]):
        if line.strip() and indentation(line) < depth:
            depth = indentation(line)
            found += [line] if MODULE.match(line) or line.startswith("impl") else []
    return found[::-1]


def indentation(line):
    return len(line) - len(line.lstrip())


def without_comments(file, name):
    return "\n".join(re.sub("--.*", "", line) for line in definition(file, name))


def depends(file, name):
    """The spec definitions that a definition depends on."""
    text = without_comments(file, name)
    text = re.sub(r"^ *pub \w+ :|\w+ = ", "", text, flags=re.MULTILINE)  # without the names of fields
    found = {meaning(file, word) for word in re.findall(r"[^\s()\[\]{};,]+", text)}
    return found - {None, (file, name)}


def block(found):
    """A fenced block with its definitions. A line that begins a module or an `impl` is before the first definition in it."""
    file, names = found[1], found[2].split(", ")
    text, before = "", []
    for name in names:
        around = scopes(file, name)
        shared = next((k for k, pair in enumerate(zip(before, around)) if pair[0] != pair[1]), min(len(before), len(around)))
        text += ends(before[shared:]) + ("\n" if text else "")
        text += "\n".join(around[shared:] + comment(file, name) + definition(file, name)) + "\n"
        before = around
    return f"<!-- {file}: {found[2]} -->\n```\n" + text + ends(before) + "```\n"


def ends(around):
    """The lines that end some of these modules and `impl`s. A module ends with its indentation."""
    return "".join("}\n" for line in around if line.startswith("impl"))


def fields(file, name):
    """The fields or the constructors of a definition."""
    return re.findall(r"^ +(?:pub )?(\w+) :", "\n".join(definition(file, name)), re.MULTILINE) if file.endswith(".antt") else []


def std_names(file):
    """The names that a file imports from std."""
    lists = re.findall(r"^ *(?:ghost )?use Rattle\.std\.[\w.]+\.\{([^}]*)\}", "\n".join(lines_of(file)), re.MULTILINE)
    return {name.strip() for listed in lists for name in listed.split(",") if " as " not in name}


def several_meanings(named):
    """The names that the page defines twice, that are a definition and a field, or that are a definition and a word of std."""
    defined = [name for _, name in named if not name.startswith("Model for ")]
    data = {(file, name) for file, name in named if re.search(r"\bdata ", "".join(definition(file, name)[:1]))}
    constructors = [field for each in data for field in fields(*each)]
    record_fields = {field for each in named if each not in data for field in fields(*each)}
    used = {file: set(re.findall(r"[\w-]+", "\n".join("\n".join(definition(*each)) for each in named if each[0] == file))) for file, _ in named}
    of_std = {name for file in used if file.endswith(".antt") for name in std_names(file) & used[file]}
    twice = {name for names in (defined, constructors) for name in names if names.count(name) > 1}
    return twice | (set(defined) & (record_fields | of_std))


def words_of_std(file, name):
    """The words of std that a definition uses. An operator such as `if◌then◌else◌` is its words."""
    tokens = set(re.findall(r"[^\s()\[\]{};,]+", without_comments(file, name)))
    operators = [set(re.findall("[^◌]+", name)) for name in std_names(file)]
    return {word for words in operators if words <= tokens for word in words}


def explained_words(page):
    """The words in the first columns of the tables that say how to read the page."""
    section = page.partition(f"\n{HOW}\n")[2].partition("\n## ")[0]
    codes = re.findall(r"`([^`]+)`", " ".join(re.findall(r"^\| (.*?) \|", section, re.MULTILINE)))
    return {word for code in codes for word in re.findall(r"[^\s().,]+", code)}


def errors_of(page):
    """The definitions that a page names and that do not exist; if there are none, those that are missing on the page."""
    named = [(found[1], name) for found in BLOCK.finditer(page) for name in found[2].split(", ")]
    unknown = [f"{file} has no definition of {name}" for file, name in named if not (TOP / file).exists() or line_of(file, name) is None]
    if unknown:
        return unknown
    unlisted = [f"{name} has several meanings and is not in the table of such names" for name in several_meanings(named) - set(SHARED.findall(page))]
    missing = {f"{name} of {file} depends on {other} of {source}, which is not on the page"
               for file, name in named for source, other in depends(file, name) if (source, other) not in named}
    used = {word for each in named for word in words_of_std(*each)}
    unexplained = {f"{word} is a word of std and is in no table of the section that says how to read the page" for word in used - explained_words(page)}
    return sorted(missing | unexplained | set(unlisted))


def main():
    old = DOCUMENT.read_text()
    errors = errors_of(old)
    for error in errors:
        print(f"docs/THEOREM.md: {error}")
    if errors:
        return 1
    new = BLOCK.sub(block, old)
    if sys.argv[1:] == ["--write"]:
        DOCUMENT.write_text(new)
    elif new != old:
        print("docs/THEOREM.md differs from the specs: run tools/theorem.py --write")
        return 1
    return 0


if __name__ == "__main__":
    sys.exit(main())
