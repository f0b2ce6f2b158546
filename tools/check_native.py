#!/usr/bin/env python3
"""Checks the Rust crate in native/, which erase.py generates from the sources.

usage: check_native.py [--after-gate] [--tenth] [--target DIR] [PART..]    runs the parts, or all: generated, tests, store, erased, replay, proved,
                                                                         original, mutants

- generated: native/src/generated is what erase.py writes. docs/NATIVE.md has the forms of conditions that erase.py knows, and each mutant. The tests
  that it names for a mutant exist.
- tests: the crate's tests, examples and doc tests pass, with checks of overflow and as a release; its examples print what they should. Each
  assertion of its functions fails in tests/panics.rs. It builds without the feature `std`. Clippy and rustdoc have no warning, and rustfmt has no
  change.
- store: a program that changes a store is killed again and again, for a minute, and what was acknowledged is there (tools/crash.sh).
- erased: the repository's own tests, erased, pass on the crate.
- replay: the program `replay` over the crate prints what the rows say, and what the reference model gives for random scripts and small batches.
- proved: it prints the same bytes as the proved program on random scripts, if that is built from the sources as they are. With --after-gate the
  proved program is the one that `rt ci` has just left, and has to be there.
- original: what is written for commonware-utils compiles with that crate too, passes, and prints the same, if the environment variable
  COMMONWARE_UTILS names the folder of that crate.
- mutants: wrong changes of the parts that are written by hand, and of the eraser, make a test fail in the file of tests that is to notice them. For
  each it prints its row of the table in docs/NATIVE.md. With --tenth a tenth of them is tried, which the hash of the commit chooses, so that later
  commits try the others.

The gate runs all but `original`, and a tenth of the mutants. A machine without cargo leaves out all but the first part, and says so. DIR keeps
what cargo builds; without it, that is temporary.
"""

import argparse
import os
import re
import shutil
import signal
import subprocess
import sys
import tempfile
from itertools import zip_longest
from pathlib import Path

from built import is_current
from check_runs import random_script
from conditions import FORMS
from native_mutants import ERASER, HAND_WRITTEN
from replay import PROVED, TOP, WIDTHS, report

NATIVE = TOP / "native"
JOBS = "2"
SECONDS = 1200  # the most that one command may take, on a busy machine
# The most processor time that the tests of a mutant may take is 300 seconds: those that do not end have noticed it.
LIMITED = ("sh", "-c", 'ulimit -t 300; exec "$@"', "sh")
PARTS = ("generated", "tests", "store", "erased", "replay", "proved", "original", "mutants")
CRASH_SECONDS = 60  # how long the program that changes a store is killed again and again
SCRIPTS = 1000  # random scripts for the comparison with the proved program

# The messages of assertions that no call breaks, by file: a dense bitmap has no pruned chunk and is in memory, and the size of an encoding fits for
# each width that compiles.
UNBROKEN = {
    "src/generated/bitmap_core/bitmap.rs": ("length overflows u64", "chunk count must fit in usize"),
    "src/generated/bitmap_core/bitmap/readable/dense.rs": ("is pruned",),
}

# The files of the crate that are written for commonware-utils, in each of which one `use` is changed.
FOR_ORIGINAL = ("examples/commonware.rs", "tests/commonware.rs")
ORIGINAL_MANIFEST = """\
[package]
name = "written-for-original"
version = "0.0.0"
edition = "2024"

[dependencies]
commonware-utils = {{ path = "{folder}" }}
"""


class Place:
    """Where the checks write: a temporary folder, and the folder in which cargo builds. Also whether they run after the gate, and whether they try
    a tenth of the mutants."""

    def __init__(self, folder, target, after_gate, is_tenth):
        self.folder, self.target = Path(folder), Path(target or f"{folder}/target").resolve()
        self.after_gate, self.is_tenth = after_gate, is_tenth

    def run(self, *command, folder=NATIVE, **environment):
        """Runs a command. Returns its status and all that it prints."""
        variables = {**os.environ, "CARGO_TARGET_DIR": str(self.target), "CARGO_NET_OFFLINE": "true", **environment}
        process = subprocess.Popen(command, cwd=folder, env=variables, stdout=subprocess.PIPE, stderr=subprocess.STDOUT, text=True, errors="replace",
                                   start_new_session=True)
        try:
            printed, _ = process.communicate(timeout=SECONDS)
        except subprocess.TimeoutExpired:
            # The process and what it has started, such as a test that does not end.
            os.killpg(process.pid, signal.SIGKILL)
            printed, _ = process.communicate()
            printed += f"\nstopped after {SECONDS} seconds"
        return process.returncode, printed

    def case(self, name, *command, **options):
        """A case: the name, and the end of what the command prints if it fails."""
        status, printed = self.run(*command, **options)
        return name, "\n".join(printed.splitlines()[-30:]) if status else None

    def tests(self):
        return self.folder / "tests"

    def program(self):
        return self.target / "release/replay"


def cargo(*words):
    return ["cargo", words[0], "-j", JOBS, *words[1:]]


def check_generated(place):
    forms = {name for cells in rows("Conditions") for name in re.findall(r"`(\w+)`", cells[0])}
    mutants = rows("The mutants")[1:]
    expected = {tuple(row(mutant, [])[:3]) for mutant in [*HAND_WRITTEN, *ERASER]}
    return [
        place.case("generated modules", sys.executable, str(TOP / "tools/erase.py"), "--check"),
        ("table of conditions", table_difference(forms, {form.name for form in FORMS})),
        ("table of mutants", table_difference({tuple(cells[:3]) for cells in mutants}, expected)),
        *(case for cells in mutants for case in named_tests(cells)),
    ]


def rows(section):
    """The cells of the rows of the tables in a section of docs/NATIVE.md."""
    text = (TOP / "docs/NATIVE.md").read_text().partition(f"\n## {section}\n")[2].partition("\n## ")[0]
    return [re.split(r"(?<!\\) \| ", line[2:-2]) for line in text.splitlines() if line.startswith("| ")]


def table_difference(listed, names):
    """How the names that a table lists differ from those that are there, or None."""
    return None if listed == names else f"docs/NATIVE.md lacks {sorted(names - listed)}, and has {sorted(listed - names)} besides"


def row(mutant, failed):
    """The cells of a mutant in docs/NATIVE.md, if these tests fail."""
    file = mutant.file.removeprefix("native/src/").removeprefix("tools/")
    return [mutant.name.replace("|", "\\|"), f"`{file}`", f"`{mutant.tests}.rs`", ", ".join(f"`{test}`" for test in failed)]


def named_tests(cells):
    """The cases of the tests that a row of the table of mutants names: they are in the file that it names."""
    file = NATIVE / "tests" / cells[2].strip("`")
    text = file.read_text() if file.exists() else ""
    tests = re.findall(r"`(\w+)`", cells[3])
    return [(f"{cells[0]}: {test}", None if f"fn {test}()" in text or test == file.stem else f"{file.name} has no such test") for test in tests]


def check_tests(place):
    cases = [
        place.case("tests with checks of overflow", *cargo("test", "--tests", "--examples")),
        place.case("doc tests", *cargo("test", "--doc")),
        place.case("tests of a release", *cargo("test", "--release", "--tests")),
        place.case("without std", *cargo("build", "--no-default-features")),
        place.case("documentation", *cargo("doc", "--no-deps"), RUSTDOCFLAGS="-D warnings"),
        place.case("layout", "cargo", "fmt", "--check"),
    ]
    if shutil.which("cargo-clippy"):
        cases.append(place.case("clippy", *cargo("clippy", "--all-targets"), "--", "-D", "warnings"))
    else:
        print("check_native: clippy is not installed")
    return cases + check_assertions(place) + [check_example(place, file) for file in sorted((NATIVE / "examples").glob("*.printed"))]


def check_assertions(place):
    """The cases of the assertions in the generated modules: each of them fails in tests/panics.rs, unless no call can break it."""
    _, printed = place.run(*cargo("test", "--test", "panics", "--", "--nocapture", "--test-threads=1"), RUST_BACKTRACE="0")
    failed, cases = set(re.findall(r"panicked at (src/\S+\.rs:\d+):", printed)), []
    for file in sorted((NATIVE / "src/generated").rglob("*.rs")):
        path = str(file.relative_to(NATIVE))
        for number, line in enumerate(file.read_text().split("\n"), 1):
            if re.match(r" *assert!\(", line) and not any(words in line for words in UNBROKEN.get(path, ())):
                cases.append((f"{path}:{number}", None if f"{path}:{number}" in failed else "no call in tests/panics.rs breaks this condition"))
    return cases


def check_example(place, file):
    """The case of an example: it prints the text of the file."""
    status, printed = place.run(*cargo("run", "--quiet", "--example", file.stem))
    return f"examples/{file.stem}", None if status == 0 and printed == file.read_text() else printed


def check_store(place):
    """The case of the program that is killed: its last lines say how often it was."""
    status, printed = place.run(str(TOP / "tools/crash.sh"), str(CRASH_SECONDS), CARGO_BUILD_JOBS=JOBS)
    print(printed.rstrip())
    return [("tools/crash.sh", None if status == 0 else f"it ends with status {status}")]


def write_tests(place):
    """Writes the crate of the erased tests. Returns its case."""
    return place.case("erased tests are written", sys.executable, str(TOP / "tools/erase.py"), "--tests", str(place.tests()))


def check_erased(place):
    cases = [write_tests(place)]
    status, printed = place.run(*cargo("test", "--lib"), folder=place.tests())
    passed, failed = re.findall(r"^test (\S+) \.\.\. ok$", printed, re.M), re.findall(r"^test (\S+) \.\.\. FAILED$", printed, re.M)
    print(f"{len(passed)} of the repository's own tests pass on the crate")
    cases += [(test, "fails") for test in failed] + [(test, None) for test in passed]
    return cases if status == 0 or failed else [*cases, ("erased tests", printed[-3000:])]


def build_replay(place):
    """Builds the program `replay` over the crate. Returns its cases."""
    return [write_tests(place), place.case("replay is built", *cargo("build", "--release", "--bin", "replay"), folder=place.tests())]


def check_replay(place):
    cases = build_replay(place)
    program = {"REPLAY_PROGRAM": str(place.program())}
    for tool in (["check_rows.py"], ["check_runs.py", "random", "3000"], ["check_runs.py", "exhaustive"]):
        cases.append(place.case(" ".join(tool), sys.executable, str(TOP / "tools" / tool[0]), *tool[1:], **program))
    return cases


def check_proved(place):
    """The cases of random scripts on both programs: status, output and errors are the same bytes."""
    if not (PROVED.exists() if place.after_gate else is_current(PROVED)):
        print("check_native: there is no proved program of these sources to compare with")
        return [("the proved program", "it is missing")] if place.after_gate else []
    cases, script = build_replay(place), place.folder / "script"
    for number in range(SCRIPTS if place.program().exists() else 0):
        width = WIDTHS[number % len(WIDTHS)]
        script.write_text("\n".join(random_script(f"native {number}", width, 20 + number % 100).lines) + "\n")
        ends = [subprocess.run([program, str(width), script], capture_output=True, timeout=SECONDS) for program in (PROVED, place.program())]
        proved, native = [(end.returncode, end.stdout, end.stderr) for end in ends]
        cases.append((f"script {number} at width {width}", None if proved == native else first_difference(proved, native)))
    return cases


def first_difference(proved, native):
    """How two runs differ: the exit statuses, or the first line that one of them prints and the other does not."""
    if proved[0] != native[0]:
        return f"the proved program ends with status {proved[0]}, and this one with {native[0]}"
    for stream, ours, others in (("line", proved[1], native[1]), ("error line", proved[2], native[2])):
        for number, (line, other) in enumerate(zip_longest(ours.split(b"\n"), others.split(b"\n")), 1):
            if line != other:
                return f"{stream} {number} of the proved program is {line!r}, and of this one {other!r}"
    return None


def check_original(place):
    """The cases of the files that are written for commonware-utils, with that crate."""
    folder = os.environ.get("COMMONWARE_UTILS")
    if not folder:
        print("check_native: COMMONWARE_UTILS names no folder, so nothing is compiled with commonware-utils")
        return []
    package = place.folder / "original"
    for name in FOR_ORIGINAL:
        text = (NATIVE / name).read_text()
        if len(re.findall(r"^use mortarpink::", text, re.M)) != 1:
            return [(name, "it has not one `use` of the crate")]
        (package / name).parent.mkdir(parents=True, exist_ok=True)
        (package / name).write_text(re.sub(r"^use mortarpink::", "use commonware_utils::", text, flags=re.M))
    (package / "src").mkdir()
    (package / "src/lib.rs").touch()
    (package / "Cargo.toml").write_text(ORIGINAL_MANIFEST.format(folder=Path(folder).resolve()))
    printed = (NATIVE / "examples/commonware.printed").read_text()
    status, found = place.run(*cargo("run", "--quiet", "--example", "commonware"), folder=package)
    return [
        ("examples/commonware with commonware-utils", None if status == 0 and found == printed else found),
        place.case("tests/commonware with commonware-utils", *cargo("test", "--test", "commonware"), folder=package),
    ]


def copied(place):
    """A copy of the eraser and of the crate, with the sources and the documents of this repository."""
    copy = place.folder / "mutant"
    shutil.rmtree(copy, ignore_errors=True)
    shutil.copytree(NATIVE, copy / "native", ignore=shutil.ignore_patterns("target", "Cargo.lock"))
    (copy / "tools").mkdir()
    for tool in (TOP / "tools").glob("*.py"):
        shutil.copy(tool, copy / "tools")
    for name in ("crates", "crates.txt", "docs"):
        (copy / name).symlink_to(TOP / name)
    return copy


def check_mutant(place, mutant, erases):
    """The case of a mutant: the crate has to compile, and one of the tests that are to notice it has to fail."""
    copy, path = copied(place), mutant.file
    text = (copy / path).read_text()
    if text.count(mutant.old) != 1:
        return mutant.name, f"{path} has the old text {text.count(mutant.old)} times"
    (copy / path).write_text(text.replace(mutant.old, mutant.new))
    if erases:
        status, printed = place.run(sys.executable, "tools/erase.py", folder=copy)
        if status:
            return mutant.name, f"the eraser stops: {printed[-500:]}"
    # A target of their own: cargo takes what it has built of a copy for the crate, unless a source is newer.
    built = {"folder": copy / "native", "CARGO_TARGET_DIR": str(place.target / "mutants"), "CARGO_PROFILE_DEV_DEBUG": "0"}
    tests = cargo("test", "--test", mutant.tests)
    status, printed = place.run(*tests, "--no-run", **built)
    if status:
        return mutant.name, f"it does not compile: {printed[-500:]}"
    status, printed = place.run(*LIMITED, *tests, **built)
    # A file of tests that ends has no list of those that failed.
    failed = sorted(set(re.findall(r"^test (\S+) \.\.\. FAILED$", printed, re.M)) or set(re.findall(r"exit successfully: \S+/(\w+)-", printed)))[:3]
    print(f"| {' | '.join(row(mutant, failed))} |", flush=True)
    return mutant.name, None if status and failed else f"no test of {mutant.tests} fails: {printed[-500:]}"


def check_mutants(place):
    mutants = [(mutant, False) for mutant in HAND_WRITTEN] + [(mutant, True) for mutant in ERASER]
    return [check_mutant(place, mutant, erases) for mutant, erases in (tenth(mutants) if place.is_tenth else mutants)]


def tenth(mutants):
    """The tenth of some mutants that the hash of the commit chooses, as tools/mutants.sh does."""
    commit = subprocess.run(["git", "rev-parse", "HEAD"], cwd=TOP, capture_output=True, text=True, check=True).stdout
    return mutants[int(commit[:8], 16) % 10 :: 10]


def main():
    parser = argparse.ArgumentParser(description="Checks the Rust crate in native/.")
    parser.add_argument("--after-gate", action="store_true", help="the proved program has to be there")
    parser.add_argument("--tenth", action="store_true", help="a tenth of the mutants is tried")
    parser.add_argument("--target", metavar="DIR", help="where cargo builds")
    parser.add_argument("parts", metavar="PART", nargs="*", help=f"what to check: {', '.join(PARTS)}")
    arguments = parser.parse_args()
    if set(arguments.parts) - set(PARTS):
        parser.error(f"the parts are {', '.join(PARTS)}")
    parts = [part for part in PARTS if part in (arguments.parts or PARTS)]
    if not shutil.which("cargo"):
        parts = [part for part in parts if part == "generated" and shutil.which("rustfmt")]
        print(f"check_native: cargo is missing, so the Rust crate is not built, and {'only compared' if parts else 'not compared'} with the sources")
    checks = {"generated": check_generated, "tests": check_tests, "store": check_store, "erased": check_erased, "replay": check_replay,
              "proved": check_proved, "original": check_original, "mutants": check_mutants}
    with tempfile.TemporaryDirectory() as folder:
        place = Place(folder, arguments.target, arguments.after_gate, arguments.tenth)
        return max([report(f"native crate, {part}", checks[part](place)) for part in parts], default=0)


if __name__ == "__main__":
    sys.exit(main())
