#!/usr/bin/env python3
"""Checks that each mutant in `crates/*/must-fail` and `crates/*/mutants` can be applied to the code as it is. It proves nothing.

- A mutant has pairs of an old text and a new one, each after a line that names the file. It has no other lines.
- Each file is in the folders `src`, `specs` and `proofs` of the crate.
- Each old text is in its file exactly once. A later pair is applied to what the earlier ones made.
- Each new text differs from its old text, and so do the files at the end.
- The two folders of a crate have no mutants of the same name.
"""

import re
import sys
from pathlib import Path

TOP = Path(__file__).resolve().parent.parent
FOLDERS = ("src/", "specs/", "proofs/")
LINE = re.compile(r"(file|old|new): ?(.*)")


class Change:
    """The files of a crate as a mutant changes them, line by line of the mutant. Each method returns an error, or None."""

    def __init__(self, crate):
        self.crate = crate
        self.texts = {}
        self.file = self.old = None

    def read(self, line):
        found = LINE.fullmatch(line)
        if not found:
            return "the line begins with none of the words file, old and new"
        return getattr(self, f"read_{found[1]}")(found[2])

    def read_file(self, name):
        error = self.end()
        self.file = name
        if not name.startswith(FOLDERS) or not (self.crate / name).is_file():
            return f"there is no file {name} in {', '.join(FOLDERS)}"
        self.texts.setdefault(name, (self.crate / name).read_text())
        return error

    def read_old(self, old):
        error = self.end()
        self.old = old
        if self.file is None:
            return "the old text has no file"
        if self.file not in self.texts:
            return error
        count = self.texts[self.file].count(old) if old else 0
        return error if count == 1 else f"the old text is {count} times in {self.file}"

    def read_new(self, new):
        old, self.old = self.old, None
        if old is None:
            return "the new text has no old text before it"
        if self.file in self.texts:
            self.texts[self.file] = self.texts[self.file].replace(old, new)
        return "the new text is the old one" if old == new else None

    def end(self):
        """Ends a pair."""
        old, self.old = self.old, None
        return None if old is None else "an old text has no new text"

    def is_none(self):
        return all(text == (self.crate / name).read_text() for name, text in self.texts.items())


def errors_of(mutant):
    """The errors of a mutant, each with the number of its line."""
    change = Change(mutant.parent.parent)
    lines = mutant.read_text().removesuffix("\n").split("\n")
    found = [(number, error) for number, error in enumerate(map(change.read, lines), 1) if error]
    last = change.end() or ("the mutant changes nothing" if change.is_none() and not found else None)
    return found + ([(len(lines), last)] if last else [])


def name_errors(crate):
    """The mutants of the second tier whose names `must-fail` has too."""
    names = {path.name for path in crate.glob("must-fail/*.edit")}
    return [f"{path.relative_to(TOP)}: must-fail has a mutant of this name" for path in sorted(crate.glob("mutants/*.edit")) if path.name in names]


def main():
    mutants = sorted([*TOP.glob("crates/*/must-fail/*.edit"), *TOP.glob("crates/*/mutants/*.edit")])
    errors = [f"{mutant.relative_to(TOP)}:{number}: {error}" for mutant in mutants for number, error in errors_of(mutant)]
    errors += [error for crate in sorted(TOP.glob("crates/*")) for error in name_errors(crate)]
    for error in errors:
        print(error)
    print(f"mutants: {len(mutants)}, {len(errors)} errors")
    return 1 if errors or not mutants else 0


if __name__ == "__main__":
    sys.exit(main())
