#!/usr/bin/env python3
"""Checks the C library, and its bindings for Rust and Python.

usage: check_bindings.py                  builds the library and installs it twice by tools/package.sh, in a temporary folder
       check_bindings.py --after-gate     the same, over the libraries that `rt ci` has just left
       check_bindings.py --built          the same, with the library that is built, if it is newer than its sources
       check_bindings.py --prefix DIR     takes the library that is installed in DIR
       check_bindings.py --declarations   checks the declarations alone

- The declarations in C, Rust and Python are those that tools/interface.py makes of the Rattle sources, and it notices each change of these.
- The libraries export the declared functions and nothing else, and need only the memory functions of the C library. The shared one is stripped.
- Two packages of one build are the same byte for byte. A package has the header, the README, the changelog, the licence and an example.
- The header compiles as C99 and as C++11 without a warning. The C examples print what they should, with the static and with the shared library.
- The C tests pass with sanitizers, under valgrind, and with failing allocations. The tests of the Rust crate and of the Python package pass.
  The examples of the Rust crate print what they should.
- The calls that take a handle as `const` write neither the handle nor the bitmap, and threads may make them at the same time.
- Python and the Rust crate in `native` change one store in turn, and what they acknowledged is there after each of them is killed.
- The example of replicas works over a Redis server and a PostgreSQL server (tools/check_replicas.py).
- Random scripts through the C interface give what the reference model gives, and free what they allocate (tools/check_frees.py).

A run without valgrind, a C++ compiler, clippy, or a Python with setuptools and wheel leaves out what needs it, and says so.
"""

import argparse
import filecmp
import os
import re
import shutil
import subprocess
import sys
import tempfile
from pathlib import Path
from typing import NamedTuple

import agreements
from c_header import HEADER
from declarations import PREFIX, TOP, declared
from replay import report

TOOLS = ("cc", "cargo", "python3", "pkg-config", "nm")
SECONDS = 3600  # the most that one command may take
KILLS = 200  # how often the programs that change a store are killed
WARNINGS = ("-Wall", "-Wextra", "-Wpedantic", "-Werror")
SANITIZERS = ("-g", "-fsanitize=address,undefined", "-fno-sanitize-recover=all")
LEAKS = ("env", "ASAN_OPTIONS=detect_leaks=1")
WRAPPED = ("-Wl,--wrap=malloc,--wrap=realloc,--wrap=free",)  # gives the library the memory functions of the program
C_TESTS = {"calls": "checks", "allocation_failures": "runs", "readonly": "checks", "threads": "checks"}

# What a package has: what the checks use, and what comes with it.
USED = ("include/mortarpink.h", "lib/libmortarpink.a", "lib/libmortarpink.so", "lib/pkgconfig/mortarpink.pc")
DOCUMENTS = ("share/licenses/mortarpink/LICENSE", *(f"share/doc/mortarpink/{name}" for name in ("README.md", "CHANGELOG.md", "example.c", "example.stdout")))

# What the libraries may need of the C library.
NEEDED = {"bcmp", "free", "malloc", "memcmp", "memcpy", "memmove", "memset", "realloc"}

# A program that uses the header, in C and in C++.
USER = """#include <mortarpink.h>
#include <mortarpink.h>
int main(void) {
    static mortarpink_bitmap kept = MORTARPINK_INITIALIZER;
    mortarpink_bitmap bitmap = MORTARPINK_EMPTY;
    if (mortarpink_new(&bitmap, 8) != MORTARPINK_DONE) return 1;
    kept = bitmap;
    bitmap = MORTARPINK_EMPTY;
    if (mortarpink_free(&bitmap) != MORTARPINK_EMPTY_HANDLE || mortarpink_free(&kept) != MORTARPINK_DONE) return 2;
    return mortarpink_version() == MORTARPINK_VERSION ? 0 : 3;
}
"""


class Place(NamedTuple):
    prefix: Path  # where the library is installed
    folder: Path  # for what the checks make

    @property
    def libraries(self):
        return self.prefix / "lib"

    @property
    def static(self):
        return self.libraries / "libmortarpink.a"

    @property
    def shared(self):
        return self.libraries / "libmortarpink.so"


def run(command, environment=None, **more):
    """Runs a command: its status, and what it prints."""
    ended = subprocess.run([str(word) for word in command], env={**os.environ, **(environment or {})}, stdout=subprocess.PIPE,
                           stderr=subprocess.STDOUT, stdin=subprocess.DEVNULL, text=True, errors="replace", timeout=SECONDS, **more)
    return ended.returncode, ended.stdout


def failure_of(command, environment=None, wanted="", **more):
    """What is wrong with a run of a command, or None. Its output has to match a pattern, which holds for no output that counts nothing."""
    status, printed = run(command, environment, **more)
    if status:
        return f"status {status} of {' '.join(map(str, command))}:\n{printed[-3000:]}"
    return None if re.search(wanted, printed, re.MULTILINE) else f"no line as {wanted} from {' '.join(map(str, command))}:\n{printed[-3000:]}"


def wrong_output(command, environment, file, **more):
    """What is wrong with a run of a command whose output has to be that in a file, or None."""
    status, printed = run(command, environment, **more)
    is_right = status == 0 and printed == file.read_text()
    return None if is_right else f"status {status}, and this is not {file.relative_to(TOP)}:\n{printed[-3000:]}"


def first_failure(*calls):
    """The first failure of some calls in turn, or None."""
    return next((failure for failure in (call() for call in calls) if failure), None)


def is_there(tool, *words):
    """Whether the machine has a tool that a check can do without. If it does not, a line says so."""
    found = shutil.which(tool) and run([tool, *words, "--version"])[0] == 0
    if not found:
        print(f"not run: this machine has no {' '.join([tool, *words])}")
    return found


# The package

def made_packages(folder, options):
    """Installs the library twice from one build with some options. The prefix of the first, and the cases."""
    if "--built" not in options:
        print("building the library: this proves bitmap_c, and what has changed of the crates below it", flush=True)
    prefixes = [folder / name / "mortarpink" for name in ("first", "second")]
    for prefix, words in zip(prefixes, (options, ["--built"])):
        prefix.mkdir(parents=True)
        failure = failure_of([TOP / "tools/package.sh", *words, prefix])
        if failure:
            return None, [("the package", failure)]
    archives = [list(prefix.parent.glob("*.tar.gz")) for prefix in prefixes]
    is_same = all(len(each) == 1 for each in archives) and filecmp.cmp(archives[0][0], archives[1][0], shallow=False)
    return prefixes[0], [("two packages of one build", None if is_same else f"the archives differ: {archives}"),
                         ("the archive", archive_difference(archives[0], prefixes[0], folder))]


def files_of(top):
    """The files and links below a folder, each with its mode and its bytes or its target."""
    paths = [path for path in sorted(top.rglob("*")) if path.is_symlink() or not path.is_dir()]
    return {path.relative_to(top).as_posix(): os.readlink(path) if path.is_symlink() else (path.stat().st_mode, path.read_bytes()) for path in paths}


def archive_difference(archives, prefix, folder):
    """How the tree in the archive differs from the installed one, or None."""
    (folder / "unpacked").mkdir()
    failure = failure_of(["tar", "-xpzf", *archives, "-C", folder / "unpacked"])
    if failure:
        return failure
    trees = [files_of(top) for top in (prefix, *(folder / "unpacked").iterdir())]
    names = {name for tree in trees for name in tree if any(tree[name] != other.get(name) for other in trees)}
    return f"these files differ: {sorted(names)}" if names or len(trees) != 2 else None


# The libraries

def symbols(*words):
    """The symbols that `nm` lists of a library: the names, each with the letter of its kind."""
    status, printed = run(["nm", "--format=posix", *words])
    lines = [line.split(" ") for line in printed.splitlines() if " " in line]
    return {words[0].partition("@")[0]: words[1] for words in lines} if status == 0 else {f"nm fails: {printed}": ""}


def symbol_cases(place):
    wanted = {f"{PREFIX}{name}" for name in declared().functions}
    for file, words in ((place.static, ["--extern-only"]), (place.shared, ["--dynamic"])):
        found = {*symbols("--defined-only", *words, file)}
        difference = f"missing: {sorted(wanted - found)}; not declared: {sorted(found - wanted)}"
        yield f"the functions of {file.name}", None if found == wanted else difference
        needed = {name for name, kind in symbols("--undefined-only", *words, file).items() if kind == "U"}
        yield f"the needs of {file.name}", f"it needs {sorted(needed - NEEDED)}" if needed - NEEDED else None
    status, printed = run(["nm", place.shared])
    is_stripped = status == 0 and printed.rstrip().endswith("no symbols")
    yield f"no symbols in {place.shared.name} but those for its users", None if is_stripped else f"nm lists some:\n{printed[-300:]}"
    missing = [name for name in (*USED, *DOCUMENTS) if not (place.prefix / name).is_file()]
    yield "the files of the package", f"missing: {missing}" if missing else None


def header_cases(place):
    is_same = filecmp.cmp(place.prefix / "include/mortarpink.h", TOP / HEADER, shallow=False)
    yield "the installed header", None if is_same else f"it is not {HEADER}"
    languages = [("cc", "c", "c99")] + [("c++", "c++", "c++11")] * bool(is_there("c++"))
    for compiler, language, standard in languages:
        source, program = place.folder / f"user.{language}", place.folder / f"user_{language}"
        source.write_text(USER)
        command = [compiler, "-x", language, f"-std={standard}", *WARNINGS, f"-I{place.prefix}/include", source, "-x", "none", place.static, "-o", program]
        yield f"the header as {standard}", first_failure(lambda: failure_of(command), lambda: failure_of([program]))


def flags(place):
    """The environment of pkg-config, and the flags that it gives."""
    environment = {"PKG_CONFIG_PATH": str(place.libraries / "pkgconfig")}
    status, printed = run(["pkg-config", "--cflags", "--libs", "mortarpink"], environment)
    return printed.split() if status == 0 else [f"pkg-config-fails: {printed}"]


def example_cases(place):
    """Builds the examples with what pkg-config says, and compares their output."""
    given = flags(place)
    for source in (TOP / "bindings/c/example.c", *sorted((TOP / "bindings/c/examples").glob("*.c"))):
        for kind, words in (("shared", given), ("static", ["-Wl,-Bstatic", *given, "-Wl,-Bdynamic"])):
            program = place.folder / f"{source.stem}_{kind}"
            failure = failure_of(["cc", "-std=c99", "-pthread", *WARNINGS, source, *words, "-o", program])
            libraries = {"LD_LIBRARY_PATH": str(place.libraries)} if kind == "shared" else {}
            yield f"{source.name} with the {kind} library", failure or wrong_output([program], libraries, source.with_suffix(".stdout"))


# The C tests

def c_test(place, name, how, compiler_words=(), run_words=(), is_shared=False):
    """Builds and runs a test program of bindings/c/test: its case."""
    program = place.folder / f"{name}_{how.replace(' ', '_')}"
    library = place.shared if is_shared else place.static
    source = TOP / f"bindings/c/test/{name}.c"
    build = ["cc", "-std=c99", "-O1", *WARNINGS, *compiler_words, f"-I{place.prefix}/include", source, library, "-ldl", "-o", program]
    environment = {"LD_LIBRARY_PATH": str(place.libraries)} if is_shared else {}
    ending = rf"^[1-9]\d* {C_TESTS[name]}, 0 failed$"
    return f"{name}.c {how}", first_failure(lambda: failure_of(build), lambda: failure_of([*run_words, program], environment, ending))


def c_test_cases(place):
    valgrind = ["valgrind", "--quiet", "--error-exitcode=9", "--leak-check=full", "--errors-for-leak-kinds=all"]
    has_valgrind = is_there("valgrind")
    yield c_test(place, "calls", "with the shared library", is_shared=True)
    yield c_test(place, "calls", "with sanitizers", SANITIZERS, LEAKS)
    if has_valgrind:
        yield c_test(place, "calls", "under valgrind", ["-g"], valgrind)
    yield c_test(place, "allocation_failures", "with the static library")
    yield c_test(place, "readonly", "with memory that is read-only", WRAPPED)
    yield c_test(place, "threads", "with four threads", ["-pthread"])
    for tool in ("helgrind", "drd") if has_valgrind else ():
        yield c_test(place, "threads", f"under {tool}", ["-g", "-pthread"], ["valgrind", "--quiet", f"--tool={tool}", "--error-exitcode=9"])


# The bindings

def copied(place, name):
    """The folder of a binding in a copy of all of them, without what was built there."""
    copy = place.folder / "bindings"
    if not copy.exists():
        shutil.copytree(TOP / "bindings", copy, ignore=shutil.ignore_patterns("target", "__pycache__"))
    return copy / name


def rust_cases(place):
    how = {"cwd": copied(place, "rust")}
    environment = {"MORTARPINK_LIB_DIR": str(place.libraries), "CARGO_TARGET_DIR": str(place.folder / "target"), "CARGO_NET_OFFLINE": "true"}
    shared = {**environment, "MORTARPINK_SHARED": "1", "LD_LIBRARY_PATH": str(place.libraries)}
    ending = r"^test result: ok\. [1-9]\d* passed"
    yield "cargo test with the static library", failure_of(["cargo", "test", "--offline"], environment, ending, **how)
    yield "cargo test with the shared library", failure_of(["cargo", "test", "--offline"], shared, ending, **how)
    for file in sorted((TOP / "bindings/rust/examples").glob("*.printed")):
        yield f"the example {file.stem}.rs", wrong_output(["cargo", "run", "--quiet", "--offline", "--example", file.stem], environment, file, **how)
    if is_there("cargo", "clippy"):
        words = ["--offline", "--all-targets", "--", "-D", "warnings"]
        yield "cargo clippy", failure_of(["cargo", "clippy", *words], environment, **how)


def python_cases(place):
    environment = {"MORTARPINK_LIB_DIR": str(place.libraries), "PYTHONDONTWRITEBYTECODE": "1"}
    command = [sys.executable, "-W", "error", "-m", "unittest", "discover", "-s", "tests"]
    # The Python of these tests, and that of the system.
    pythons = filter(None, (sys.executable, shutil.which("python3", path=os.defpath)))
    has_setuptools = any(run([python, "-c", "import setuptools.build_meta, wheel"])[0] == 0 for python in pythons)
    if not has_setuptools:
        print("not run: this machine has no Python with setuptools and wheel")
    ending = r"^Ran [1-9]\d* tests? in .*\n\nOK" + ("$" if has_setuptools else r" \(skipped=\d+\)$")
    yield "the tests of the Python package", failure_of(command, environment, ending, cwd=copied(place, "python"))


def store_cases(place):
    """One store, which a program in Python and one of the Rust crate in `native` change in turn. Each of them is killed."""
    target, python = place.folder / "native", copied(place, "python")
    build = ["cargo", "build", "--quiet", "--offline", "--release", "--example", "crash"]
    command = [sys.executable, python / "tests/exchange.py", target / "release/examples/crash", str(KILLS)]
    environment = {"MORTARPINK_LIB_DIR": str(place.libraries), "PYTHONDONTWRITEBYTECODE": "1"}
    yield "a store of Python and Rust", first_failure(lambda: failure_of(build, {"CARGO_TARGET_DIR": str(target)}, cwd=TOP / "native"),
                                                      lambda: failure_of(command, environment, rf"^{KILLS} kills, [1-9]\d* changes"))


def replica_cases(place):
    """The replicas of the example, over the engines if this machine has them or can install them."""
    status, printed = run([sys.executable, TOP / "tools/check_replicas.py", place.libraries])
    for line in re.findall(r"^not run: .*", printed, re.MULTILINE):
        print(line)
    is_done = status == 0 and re.search(r"^OK$|^not run: ", printed, re.MULTILINE)
    yield "replicas over Redis and PostgreSQL", None if is_done else f"status {status}:\n{printed[-3000:]}"


def script_cases(place):
    """The random scripts."""
    yield "random scripts", failure_of([sys.executable, TOP / "tools/check_frees.py", "--library", place.shared], wanted="none leaked$")


def library_cases(place):
    """Every check of an installed library. The random scripts are last, since a call that crashes ends their process."""
    for cases in (symbol_cases, header_cases, example_cases, c_test_cases, rust_cases, python_cases, store_cases, replica_cases, script_cases):
        try:
            yield from cases(place)
        except (OSError, subprocess.TimeoutExpired) as error:
            yield cases.__name__.replace("_", " "), str(error)


def all_cases(given):
    yield from agreements.all_cases()
    if given.declarations:
        return
    with tempfile.TemporaryDirectory() as name:
        folder = Path(name)
        options = ["--after-gate"] if given.after_gate else ["--built"] if given.built else []
        prefix, cases = (Path(given.prefix).resolve(), []) if given.prefix is not None else made_packages(folder, options)
        yield from cases
        if prefix:
            yield from library_cases(Place(prefix, folder))


def main():
    parser = argparse.ArgumentParser(usage=__doc__.split("usage: ")[1].split("\n\n")[0])
    parser.add_argument("--prefix")
    parser.add_argument("--after-gate", action="store_true")
    parser.add_argument("--built", action="store_true")
    parser.add_argument("--declarations", action="store_true")
    given = parser.parse_args()
    missing = [tool for tool in TOOLS if not shutil.which(tool)]
    if missing and not given.declarations:
        print(f"bindings: this machine has no {', '.join(missing)}", file=sys.stderr)
        return 1
    absent = [name for name in USED if given.prefix is not None and not Path(given.prefix, name).is_file()]
    if absent:
        print(f"bindings: no package is installed in {given.prefix!r}, which has no {', '.join(absent)}", file=sys.stderr)
        return 1
    return report("bindings", list(all_cases(given)), "checks")


if __name__ == "__main__":
    sys.exit(main())
