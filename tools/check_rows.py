#!/usr/bin/env python3
"""Runs the scripts of rows/ and examples/, and compares the lines that they print with the expected ones.

A file of rows/ begins with the bytes per chunk, as `width 4`. Each line after it is a line of the script, with its reply if it is a
command: `push 1 -> done`, or `40 times push 1 -> done`. An example runs at width 4, and prints the text of the `.printed` file of its name.
Long bitmaps run at each width. The program is the one that the gate has built.
"""

import re
import sys
import tempfile
from pathlib import Path

from replay import PROGRAM, TOP, WIDTHS, Run, lines_of, report, run, stop_without

# In the long bitmaps every third bit is set, from the first on.
LENGTH = 1100


def rows_of(file):
    """The width of a file, and its lines with their replies."""
    first, *lines = file.read_text().splitlines()
    rows = []
    for line in lines:
        times, command, reply = re.fullmatch(r"(?:(\d+) times )?(.*?)(?: -> (.*))?", line).groups()
        rows += [(command, reply)] * int(times or 1)
    return int(first.removeprefix("width ")), rows


def digit(position):
    return "01"[position % 3 == 0]


def positions(start, end):
    return " ".join(["positions", *[str(position) for position in range(start, end) if position % 3 == 0]])


def encoded(width, pruned):
    """The encoding of the long bitmap after so many pruned chunks.

    Three bytes have every third of their 24 bits set. There are 45 times 24 bits, and 20 more.
    """
    data = "499224" * 45 + "499204"
    return f"{pruned:016x}{LENGTH:016x}{data}" + "00" * (-len(data) // 2 % width)


def long_rows(width):
    """Reads positions past 1000 in every way. Bits below 1000 are pushed with their value, the others as 0 and set later."""
    bits = "".join(digit(position) for position in range(LENGTH))
    yield from [("begin", "done")] + [(f"push {digit(position) if position < 1000 else 0}", "done") for position in range(LENGTH)]
    yield from [(f"set {position} {digit(position)}", "done") for position in range(1000, LENGTH)]
    yield from [("commit 1", "done"), ("len", "number 1100"), ("get 1001", "bit 0"), ("get 1002", "bit 1"), ("ones 990 1010", positions(990, 1010)),
                ("ones 0 18446744073709551615", positions(0, LENGTH)), ("encode", f"bytes {encoded(width, 0)}"), ("at 1", f"bitmap 0 {bits}"),
                ("begin", "done"), ("set 1001 1", "done"), ("push 1", "done"), ("commit 2", "done"), ("ones 1090 2000000", "positions 1092 1095 1098 1100"),
                ("ones 999 1003", "positions 999 1001 1002"), ("at 1", f"bitmap 0 {bits}"),
                (f"decode {encoded(width, 5)}4d4e exact:1100", f"read 5 {bits} 2")]


def check_rows(path, width, rows):
    """What is wrong with a run of the rows, or None."""
    path.write_text("".join(command + "\n" for command, _ in rows))
    status, printed, errors = run([str(width), path])
    if status or errors:
        return f"status {status}: {errors}"
    replied = [(command, reply) for command, reply in rows if reply is not None]
    for (command, reply), line in zip(replied, printed):
        if line != reply:
            return f"{command}: {line}, not {reply}"
    return None if len(printed) == len(replied) else f"{len(replied)} replies, {len(printed)} lines"


def check_example(script):
    """What is wrong with a run of an example, or None."""
    expected = Run(0, lines_of(script.with_suffix(".printed").read_bytes()), [])
    ended = run(["4", script])
    return None if ended == expected else f"{ended}, not {expected}"


def cases(path):
    """Each case, and what is wrong with it, or None."""
    for file in sorted((TOP / "rows").glob("*.rows")):
        yield f"rows/{file.name}", check_rows(path, *rows_of(file))
    for width in WIDTHS:
        yield f"a long bitmap at width {width}", check_rows(path, width, list(long_rows(width)))
    for script in sorted((TOP / "examples").glob("*.script")):
        yield f"examples/{script.name}", check_example(script)


def main():
    stop_without(PROGRAM)
    with tempfile.TemporaryDirectory() as folder:
        return report("rows and examples", list(cases(Path(folder) / "rows.script")))


if __name__ == "__main__":
    sys.exit(main())
