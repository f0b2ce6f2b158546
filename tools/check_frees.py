#!/usr/bin/env python3
"""Checks that what is allocated is freed: a run ends with none of the program's own blocks left.

usage: check_frees.py                  the tests and `replay`, as the gate has built them
       check_frees.py --library FILE   random scripts through the C interface of the shared library FILE, each of which frees its bitmaps at its end
       check_frees.py --self-test      the self-test alone

A block is the program's own, or the library's, if the call that made it comes from its file. So what the C library keeps for itself is not counted.
The blocks are counted by tools/fail_allocations.c. LeakSanitizer then checks the same runs of the tests and of `replay`.

- Each test of the crates that have tests runs alone.
- `replay` runs on the examples, the rows, long bitmaps, random scripts, wrong arguments and input that is not a script.
- The sources have a word that keeps a block from being freed only where a handle of the C interface takes one.
- Self-test: a program that does not free a block is noticed in both ways. With a library, a bitmap that is not freed is noticed too.

The last line counts the runs, the allocations and the frees. A block that `realloc` resizes counts as freed and allocated again.
"""

import argparse
import os
import re
import subprocess
import sys
import tempfile
from concurrent.futures import ProcessPoolExecutor
from functools import partial
from pathlib import Path
from typing import NamedTuple

from check_errors import broken_scripts, wrong_arguments
from check_rows import long_rows, rows_of
from check_runs import scripts, write
from counter import Blocks, preloaded, take_report
from replay import PROGRAM, TOP, WIDTHS, lines_of, report

TESTED = ("conformance", "conformance_authenticated", "conformance_authenticated_history", "conformance_history", "conformance_log", "conformance_store", "conformance_session",
          "conformance_versions", "replay", "uses")
RANDOM_SCRIPTS = 60  # at each width of `replay`
INTERFACE_SCRIPTS = 2000
LEAST = 700  # the least number of runs without a library
LEAK_STATUS = 99
SECONDS = 3600  # the most that one run may take

# The words that keep a block from being freed, or that give a type memory of its own, and the files that have some.
# The method `forget` of a log is no such word: it removes bytes from a vector.
KEEPING = re.compile(r"\b((?<!\.)(?<!fn )forget|leak|ManuallyDrop|into_raw\w*|Rc|Arc|also_owns)\b")
KEPT = {"crates/bitmap_c/src/handle.rt": ["also_owns", "into_raw_with_allocator"]}

# A program that makes two blocks, and frees as many as its argument says.
SMALL = """#include <stdlib.h>
static void *blocks[2];
int main(int count, char **words) {
    (void)count;
    for (int k = 0; k < 2; k++) blocks[k] = malloc(40);
    for (int k = 0; k < atoi(words[1]); k++) free(blocks[k]);
    blocks[0] = blocks[1] = NULL;
    return 0;
}
"""


class Ways(NamedTuple):
    """The environments of the two ways to check a run."""

    counter: dict
    sanitizer: dict


class Checked(NamedTuple):
    """A run: its blocks, and what is wrong with it by the counter and by LeakSanitizer, or None."""

    name: str
    blocks: Blocks
    counted: str
    sanitized: str


def ended(command, environment):
    return subprocess.run(command, env={**os.environ, **environment}, stdin=subprocess.DEVNULL, stdout=subprocess.PIPE, stderr=subprocess.PIPE,
                          timeout=SECONDS)


def check_run(ways, named):
    """Runs a command in both ways."""
    name, command = named
    plain, again = ended(command, ways.counter), ended(command, ways.sanitizer)
    blocks = take_report(lines_of(plain.stderr))
    counted = blocks.leak if blocks else f"status {plain.returncode}, and its blocks are not reported"
    sanitized = None if again.returncode == plain.returncode else f"status {again.returncode} under LeakSanitizer: {lines_of(again.stderr)[-6:]}"
    return Checked(name, blocks or Blocks(0, 0, 0, 0), counted, sanitized)


def ways_in(folder):
    """Prepares both ways in a folder."""
    sanitizer = ended(["cc", "-print-file-name=liblsan.so"], {}).stdout.decode().strip()
    if "/" not in sanitizer:
        raise FileNotFoundError("this C compiler (cc) has no LeakSanitizer (liblsan.so)")
    # An allocation that is too large fails, as without LeakSanitizer, which by itself would end the run.
    options = f"exitcode={LEAK_STATUS}:allocator_may_return_null=1"
    return Ways(preloaded(folder), {"LD_PRELOAD": sanitizer, "LSAN_OPTIONS": options})


def self_test(folder, ways):
    """Whether two blocks that are freed pass, and one that is not is noticed in both ways."""
    source, program = Path(folder) / "small.c", f"{folder}/small"
    source.write_text(SMALL)
    subprocess.run(["cc", "-O0", "-Wall", "-Wextra", "-o", program, source], check=True)
    freed, kept = (check_run(ways, (f"a program that frees {count} of 2 blocks", [program, str(count)])) for count in (2, 1))
    yield freed.name, freed.counted or freed.sanitized
    is_noticed = kept.blocks.left == 1 and f"status {LEAK_STATUS} " in (kept.sanitized or "")
    yield kept.name, None if is_noticed else f"it is not noticed: {kept.counted}; {kept.sanitized}"


def source_cases():
    """Whether the sources have a word that keeps a block from being freed only where they may."""
    for path in sorted((TOP / "crates").glob("*/src/**/*.rt")):
        name = path.relative_to(TOP).as_posix()
        code = re.sub(r"//.*", "", path.read_text())
        found = KEEPING.findall(code)
        yield name, None if found == KEPT.get(name, []) else f"{found}, not {KEPT.get(name, [])}"


def runs(folder):
    """Each run: its name, and its command."""
    for crate in TESTED:
        tests = TOP / f"crates/{crate}/out/{crate}_tests"
        if not tests.exists():
            raise FileNotFoundError(f"{tests} is missing: the gate builds it")
        for test in re.findall(r"^(\S+): test$", ended([tests, "--list"], {}).stdout.decode(), re.MULTILINE):
            yield f"{crate} {test}", [tests, test]
    rows = [(file.stem, *rows_of(file)) for file in sorted((TOP / "rows").glob("*.rows"))]
    rows += [("long", width, long_rows(width)) for width in WIDTHS]
    written = [(width, write(folder, f"{name}_{width}.script", [command for command, _ in lines])) for name, width, lines in rows]
    for width, path in [*scripts(folder, RANDOM_SCRIPTS), *written]:
        yield f"replay at width {width} on {path.name}", [PROGRAM, str(width), path]
    for name, arguments, *_ in wrong_arguments(TOP / "examples/first.script", folder):
        yield f"replay with {name}", [PROGRAM, *arguments]
    for at, (name, data, *_) in enumerate(broken_scripts()):
        path = Path(folder) / f"broken_{at}.script"
        path.write_bytes(data)
        yield f"replay on {name}", [PROGRAM, "--explain", "8", path]


def all_runs(folder, ways):
    """Every run without a library: their number, their blocks, and the cases."""
    with ProcessPoolExecutor() as pool:
        checked = list(pool.map(partial(check_run, ways), runs(folder), chunksize=8))
    cases = [(each.name, each.counted or each.sanitized) for each in checked]
    cases.append(("the number of runs", None if len(checked) >= LEAST else f"{len(checked)}, not at least {LEAST}"))
    return len(checked), sum(each.blocks.made for each in checked), sum(each.blocks.left for each in checked), [*source_cases(), *cases]


def library_runs(folder, path):
    """The random scripts through the C interface, as `all_runs`. They are one case, whose lines are printed."""
    command = [sys.executable, TOP / "tools/interface_runs.py", path, str(INTERFACE_SCRIPTS)]
    scripts_ended = ended(command, preloaded(folder, f"/{Path(path).name}"))
    printed = scripts_ended.stdout.decode()
    print(printed, end="")
    found = re.search(r"^blocks: (\d+) made, (\d+) left$", printed, re.MULTILINE)
    made, left = map(int, found.groups()) if found else (0, 0)
    failure = None if scripts_ended.returncode == 0 and made else f"status {scripts_ended.returncode}: {lines_of(scripts_ended.stderr)[-8:]}"
    return INTERFACE_SCRIPTS, made, left, [("random scripts through the C interface", failure)]


def main():
    parser = argparse.ArgumentParser(usage=__doc__.split("usage: ")[1].split("\n\n")[0], description=__doc__.split("\n\n", 2)[2],
                                     formatter_class=argparse.RawDescriptionHelpFormatter)
    parser.add_argument("--library")
    parser.add_argument("--self-test", action="store_true")
    given = parser.parse_args()
    with tempfile.TemporaryDirectory() as folder:
        try:
            ways = ways_in(folder)
            tested = list(self_test(folder, ways))
            count, made, left, cases = 0, 0, 0, []
            if given.library:
                count, made, left, cases = library_runs(folder, Path(given.library).resolve(strict=True).parent / Path(given.library).name)
            elif not given.self_test:
                count, made, left, cases = all_runs(folder, ways)
        except (OSError, subprocess.SubprocessError) as error:
            print(f"frees: {error}", file=sys.stderr)
            return 1
    status = report("frees", [*tested, *cases], "checks")
    print(f"{count} runs, {made} allocations, {made - left} frees, {'none leaked' if status == 0 else 'NOT as it should be'}")
    return status


if __name__ == "__main__":
    sys.exit(main())
