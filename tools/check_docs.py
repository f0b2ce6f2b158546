#!/usr/bin/env python3
"""Checks the documents and doc comments.

- Each Rattle example is in the crate `uses`, `store_runs` or `conformance_authenticated`, word for word and with its imports, so that it is proved
  and tested. A clause may be broken at other places.
- Each example in C, Rust or Python is in a tested file of `bindings`, or in an example of `native`.
- Each relative link of a document leads to a file, and to a heading if it names one.
- Each file that a document names exists.
- Each mutant that a table names exists, and each clause that a table names is the label of a clause.
- Each document exists.
"""

import re
import sys
from pathlib import Path
from typing import NamedTuple

TOP = Path(__file__).resolve().parent.parent
USES = [TOP / "crates/uses", TOP / "crates/store_runs", TOP / "crates/conformance_authenticated"]
DOCUMENTS = [
    "README.md", "CONTRIBUTING.md", "docs/GUIDE.md", "docs/TRUST.md", "docs/ARCHITECTURE.md", "docs/DECISIONS.md", "docs/DIFFERENCES.md",
    "docs/SCRIPT.md", "docs/FORMATS.md", "docs/BENCHMARKS.md", "bench/README.md",
]

# The folders and their files that are tested, by the word of a fence.
TESTED = [
    ("c", "bindings/c", ["**/*.c"]),
    ("rs", ".", [*(f"bindings/rust/{name}" for name in ("README.md", "examples/*.rs", "tests/**/*.rs")), "native/examples/*.rs"]),
    ("python", "bindings/python", ["README.md", "tests/**/*.py"]),
]


class Example(NamedTuple):
    place: str
    lines: list


def sources(folder):
    return [path for path in sorted(folder.rglob("*.rt")) if "out" not in path.relative_to(TOP).parts]


def documents():
    return sorted([*TOP.glob("*.md"), *TOP.glob("docs/*.md"), *TOP.glob("bench/*.md")])


def linked_pages():
    """The documents, and the pages of the other folders."""
    folders = [sorted((TOP / folder).glob("**/README.md")) for folder in ("bindings", "examples", "native")]
    return [*documents(), *(page for found in folders for page in found)]


def lines_of(path):
    return path.read_text().split("\n")


def is_open(line):
    """Whether a line begins a clause whose end is on a later one."""
    return line.strip().startswith(("requires", "ensures")) and line.count("{") > line.count("}")


def with_whole_clauses(lines):
    """The lines, with each clause on one of them, as if it had not been broken."""
    whole = []
    for line in lines:
        if not whole or not is_open(whole[-1]):
            whole.append(line)
            continue
        whole[-1] += f" {line.strip()}"
        if not is_open(whole[-1]):
            whole[-1] = re.sub(r"[,;]? ([)}])", r" \1", whole[-1]).replace("( ", "(").replace(" )", ")")
    return whole


def doc_lines(path):
    """The numbered lines of a document, or those of a source's doc comments without their marks."""
    for number, line in enumerate(lines_of(path), 1):
        comment = re.match(r" *//[/!] ?(.*)", line)
        if path.suffix == ".md":
            yield number, line
        elif comment:
            yield number, comment[1]


def fences(path):
    """The fenced blocks of a text: the word after the opening fence, the line's number and the lines in between."""
    block = None
    for number, line in doc_lines(path):
        if line.startswith("```"):
            if block is None:
                block = line[3:], number, []
            else:
                yield block
                block = None
        elif block is not None:
            block[2].append(line)
    if block is not None:
        sys.exit(f"{path.relative_to(TOP)}:{block[1]}: the fence has no end")


def examples(path, word):
    """The examples whose fence has the word."""
    return [Example(f"{path.relative_to(TOP)}:{number}", with_whole_clauses(lines)) for found, number, lines in fences(path) if found == word]


def rattle_examples(path):
    """The Rattle examples: their fence has the word `rust` in a document, and no word in a doc comment."""
    return examples(path, "rust" if path.suffix == ".md" else "")


def agreeing(example, lines, start):
    """How many lines of the example are at line `start` of a source, where they may be indented."""
    indent = lines[start].removesuffix(example[0])
    if indent.strip():
        return 0
    for count, (wanted, line) in enumerate(zip(example, lines[start:])):
        if line != (indent + wanted if wanted else ""):
            return count
    return min(len(example), len(lines) - start)


def example_errors(example, callers):
    if not any(line.startswith("use ") for line in example.lines):
        return [f"{example.place}: the example does not show its imports"]
    return difference(example, callers, "crates/uses/src, crates/store_runs/src or crates/conformance_authenticated/src")


def foreign_errors():
    """The examples of the documents that are in no tested file. A fence of Rust has the word `rs`."""
    for word, folder, names in TESTED:
        callers = [lines_of(path) for name in names for path in sorted((TOP / folder).glob(name))]
        for path in documents():
            for example in examples(path, word):
                yield from difference(example, callers, folder if folder != "." else "bindings/rust and native/examples")


def difference(example, callers, folder):
    """Where the example differs from each of the callers."""
    found = max(agreeing(example.lines, lines, start) for lines in callers for start in range(len(lines)))
    if found == len(example.lines):
        return []
    return [f"{example.place}: the example is not in {folder}, from this line on: {example.lines[found]}"]


def without_code(path):
    """The text of a document without its fenced blocks and the text between backquotes."""
    return re.sub(r"`[^`\n]*`", "", re.sub(r"^```.*?^```", "", path.read_text(), flags=re.DOTALL | re.MULTILINE))


def anchors(path):
    """The anchors of a document's headings."""
    headings = re.findall(r"^#+ +(.+?) *$", re.sub(r"^```.*?^```", "", path.read_text(), flags=re.DOTALL | re.MULTILINE), re.MULTILINE)
    return {re.sub(r"[^\w\- ]", "", heading.lower()).replace(" ", "-") for heading in headings}


def links(path):
    """The relative links of a document."""
    targets = re.findall(r"\]\(([^)\s]+)\)", without_code(path))
    return [target for target in targets if not re.match(r"[a-z]+:", target)]


def link_errors(path, link):
    name, _, anchor = link.partition("#")
    target = path.parent / name if name else path
    if not target.exists():
        return [f"{path.relative_to(TOP)}: the link leads to no file: {link}"]
    if anchor and anchor not in anchors(target):
        return [f"{path.relative_to(TOP)}: the link leads to no heading: {link}"]
    return []


def with_choices(name):
    """The names that a name with one choice in braces means, such as `{a,b}.rt`."""
    choice = re.fullmatch(r"(.*)\{([^}]*)\}(.*)", name)
    return [choice[1] + word + choice[3] for word in choice[2].split(",")] if choice else [name]


def file_errors(path, files):
    """The files that a document names and the repository lacks. A name may leave out the folders before it."""
    names = [name for name in re.findall(r"`([\w./{},-]+\.(?:antt|c|edit|py|rt|script|sh|txt))`", path.read_text()) if "NAME" not in name]
    wanted = [one for name in names for one in with_choices(name.removeprefix("../"))]
    return [f"{path.relative_to(TOP)}: there is no file {name}" for name in wanted if not any(f"/{file}".endswith(f"/{name}") for file in files)]


def table_cells(path):
    """The cells of the tables of a document, each with the heading of its column."""
    heads = []
    for line in lines_of(path):
        cells = [cell.strip() for cell in line.replace("\\|", "").strip("|").split("|")] if line.startswith("|") else []
        if not cells:
            heads = []
        elif not heads:
            heads = cells
        else:
            yield from zip(heads, cells)


def name_errors(path, mutants, labels):
    """The mutants and clauses that the tables of a document name and the repository lacks."""
    place = path.relative_to(TOP)
    for head, cell in table_cells(path):
        if head == "Mutant":
            yield from (f"{place}: there is no mutant {name}" for name in re.findall(r"`(\w+)`", cell) if name not in mutants)
        if head in ("Promise", "Clause"):
            groups = re.findall(r"\(([^()]*)\)", cell) if head == "Promise" else [cell]
            names = [name for group in groups for name in re.findall(r"`((?:\w+::)*[a-z]\w*)`", group)]
            yield from (f"{place}: there is no clause {name}" for name in names if name not in labels)


def known_labels():
    """The labels of clauses, and the names of the public functions: a law is named by its function."""
    texts = [path.read_text() for path in sources(TOP / "crates")]
    found = [re.findall(r"(?:ensures\*?|fn) (\w+)", text) for text in texts]
    calls = {f"{kind}::{name}" for text in texts for kind in re.findall(r"impl.*? (\w+)(?:<.*?>)? ?\{", text) for name in re.findall(r"fn (\w+)", text)}
    return {name for names in found for name in names} | calls


def main():
    texts = [path for path in sources(TOP / "crates") if not any(crate in path.parents for crate in USES)] + documents()
    callers = [with_whole_clauses(lines_of(path)) for crate in USES for path in sources(crate / "src")]
    all_examples = [example for path in texts for example in rattle_examples(path)]
    all_links = [(path, link) for path in linked_pages() for link in links(path)]
    files = [str(path.relative_to(TOP)) for path in TOP.rglob("*") if path.is_file() and "out" not in path.relative_to(TOP).parts]
    mutants = {path.stem for folder in ("must-fail", "mutants") for path in TOP.glob(f"crates/*/{folder}/*.edit")}
    labels = known_labels()
    errors = [error for example in all_examples for error in example_errors(example, callers)]
    errors += foreign_errors()
    errors += [error for path, link in all_links for error in link_errors(path, link)]
    errors += [error for path in documents() for error in file_errors(path, files)]
    errors += [error for path in documents() for error in name_errors(path, mutants, labels)]
    errors += [f"{name}: missing" for name in DOCUMENTS if not (TOP / name).exists()]
    for error in errors:
        print(error)
    print(f"documents: {len(all_examples)} examples, {len(all_links)} links, {len(errors)} errors")
    return 1 if errors else 0


if __name__ == "__main__":
    sys.exit(main())
