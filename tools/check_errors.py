#!/usr/bin/env python3
"""Runs `replay` with wrong arguments, on input that is not a script, on scripts of unusual size and form, and with little memory.

usage: check_errors.py           all runs
       check_errors.py --small   all but those on scripts of a million lines and with little memory, which a program that is not proved, and so
                                 checks itself, does not end in time

Each run has to print the right error line, or the right replies, and end with the right status, without and with the option `--explain`.
With it, the right explanations follow. The program is the one that tools/replay.py names.
"""

import re
import sys
import tempfile
from pathlib import Path

from replay import NO_MEMORY as REFUSED
from replay import PROGRAM, TOP, Run, difference, report, run, stop_without

USAGE = "replay: usage: replay WIDTH SCRIPT, WIDTH one of 1, 3, 4, 8, 32"
UNREAD = "replay: cannot read the script"
UNWRITTEN = "replay: cannot write"
NO_MEMORY = "replay: out of memory"


# Why a line is not a command.
RETURN = "it ends with a carriage return, as in a file with Windows line ends: lines end with a line feed alone"
SPACE = "it has a space too many: one space is between two words, and none is before or after them"
NAME = "there is no command of this name"
DIGIT = "argument 1 has a byte that is not a hexadecimal digit"
ODD = "argument 1 has an odd number of hexadecimal digits, and each byte has two"
RANGE = "argument 2 is not a range: any, exact:A, least:A, most:A or between:A:E with decimal numbers"


def count(found, wanted):
    return f"the command has the wrong number of arguments: {found}, not {wanted}"


def bit(index):
    return f"argument {index} is not a bit, which is 0 or 1"


def number(index):
    return f"argument {index} is not a decimal number up to 18446744073709551615 without sign or leading zeros"


def length(found, wanted):
    return f"argument 1 has the wrong number of bytes: {found}, not {wanted}"


def not_a_command(line):
    return f"replay: line {line} is not a command"


def wrong_arguments(script, folder):
    """Runs with wrong arguments: a name, the arguments, the error line and the status. With the option, the same line is all."""
    yield "no argument", [], USAGE, 2
    yield "one argument", ["4"], USAGE, 2
    yield "three arguments", ["4", script, script], USAGE, 2
    yield "the option at the end", ["4", script, "--explain"], USAGE, 2
    yield "another option", ["--explains", "4", script], USAGE, 2
    yield "the option twice", ["--explain", "--explain", "4", script], USAGE, 2
    for width in ("0", "2", "5", "04", "+4", "4 ", "", "33", "18446744073709551616"):
        yield f"the width {width!r}", [width, script], USAGE, 2
    yield "a wrong width and a missing script", ["2", f"{folder}/none.script"], USAGE, 2
    yield "an argument that is not UTF-8", [b"4", b"\xff.script"], USAGE, 2


def unreadable_scripts(folder):
    """Scripts that cannot be read: a name, the path, and why."""
    yield "a missing script", f"{folder}/none.script", "No such file or directory (os error 2)"
    yield "a folder", folder, "Is a directory (os error 21)"
    yield "a path through a file", f"{folder}/a.script/b", "Not a directory (os error 20)"


# Lines that are not commands, by what is explained.
BROKEN = {
    SPACE: ("begin ", " begin", "push  1", "push 1 ", "decode  any", " # len", "decode - any "),
    NAME: ("Begin", "len#", "frob", "frob 1", "ones-on 1 2 3", "len\t", "push\t1"),
    count(1, 0): ("len 0", "encode 1", "begin 01"),
    count(2, 0): ("len # len",),
    count(0, 1): ("push", "push-byte", "exists", "rewind", "start"),
    count(2, 1): ("push 1 1", "get 1 x"),
    count(0, 2): ("decode",),
    count(1, 2): ("set 1", "decode any", "decode 00", "ones x"),
    count(3, 2): ("decode 00 any any",),
    count(2, 3): ("ones-at 1 2",),
    count(4, 3): ("ones-at 1 2 3 4",),
    bit(1): ("push 2", "push 01", "push -"),
    bit(2): ("set 0 2",),
    number(1): ("get -1", "get +1", "get 01", "get 18446744073709551616", "start -", "start 18446744073709551616", "prune -1", "at -1", "commit 1x", "set x 1",
                "ones -1 0", "ones-at x y z"),
    number(2): ("ones 0 -1", "ones-at 0 y z"),
    number(3): ("ones-at 0 1 z",),
    DIGIT: ("push-byte 0g", "push-byte 0:", "push-byte --", "decode 0g any", "decode -- any", "push-chunk 0g"),
    ODD: ("push-byte 0", "push-chunk 0000000", "decode 0 any"),
    length(0, 1): ("push-byte -",),
    length(2, 1): ("push-byte 0102",),
    length(0, 4): ("push-chunk -",),
    length(3, 4): ("push-chunk 000000",),
    length(5, 4): ("push-chunk 0000000000",),
    RANGE: ("decode 00 some", "decode - all", "decode - any:", "decode - exact", "decode - exact:", "decode - exact:01", "decode - between:1",
            "decode - between:1:2:3", "decode - least:-1"),
}


def commands():
    """The commands of the tables in docs/SCRIPT.md: the name of each, and how many arguments it takes."""
    rows = re.findall(r"^\| (`[a-z].*?`) \|", (TOP / "docs/SCRIPT.md").read_text(), re.MULTILINE)
    forms = [form.split(" ") for row in rows for form in re.findall(r"`(.*?)`", row)]
    return [(name, len(arguments)) for name, *arguments in forms]


def wrong_counts():
    """Lines on which a command has too few or too many arguments, each with why it is not a command."""
    for name, wanted in commands():
        for found in set(range(6)) - {wanted}:
            yield name + " x" * found, count(found, wanted)


def shown(line):
    """The bytes of a line as an explanation shows them: at most 80, with escapes."""
    escapes = {9: "\\t", 10: "\\n", 13: "\\r", 34: '\\"', 39: "\\'", 92: "\\\\"}
    text = "".join(escapes.get(byte) or (chr(byte) if 32 <= byte < 127 else f"\\x{byte:02x}") for byte in line[:80])
    return text if len(line) <= 80 else f"{text}.. ({len(line)} bytes)"


def broken_scripts():
    """Input that is not a script: a name, the bytes, the number of the first line that is not a command, and why it is not."""
    for line, reason in [*((line, reason) for reason, lines in BROKEN.items() for line in lines), *wrong_counts()]:
        yield f"the line {line!r}", f"len\n{line}\nlen\n".encode(), 2, reason
    for byte in (0, 9, 11, 13, 32, 127, 128, 255):
        reason = {13: RETURN, 32: SPACE}.get(byte)
        yield f"the byte {byte} at the end of a line", b"len\n\nlen" + bytes([byte]) + b"\n", 3, reason or NAME
        yield f"the byte {byte} alone", bytes([byte]) + b"\nlen\n", 1, reason or NAME
        yield f"the byte {byte} at the end of a range", b"decode - any" + bytes([byte]) + b"\n", 1, reason or RANGE
    yield "Windows line ends", b"# comment\r\nbegin\r\npush 1\r\n", 2, RETURN
    yield "quotes", b"\"'\\ ", 1, SPACE
    yield "two lines that are not commands", b"# open\n\nlen\nopen\nclose\n", 4, NAME
    yield "a line of 80 bytes", b"a" * 80 + b"\n", 1, NAME
    yield "a line of 81 bytes", b"a" * 81, 1, NAME
    yield "a line of a megabyte", b"len\n" + b"a" * (1 << 20) + b"\n", 2, NAME
    yield "a number of a megabyte", b"get " + b"9" * (1 << 20) + b"\n", 1, number(1)
    yield "a megabyte to decode and one more digit", b"decode " + b"0" * ((1 << 20) + 1) + b" any\n", 1, ODD


def unusual_scripts():
    """Scripts of unusual form: a name, the bytes, and the lines that they print."""
    yield "an empty script", b"", []
    yield "a line feed alone", b"\n", []
    yield "a last line without a line feed", b"len\nlen", ["number 0"] * 2
    yield "a comment of a megabyte with each byte but the line feed", b"#" + bytes(b for b in range(256) if b != 10) * 4096 + b"\nlen\n", ["number 0"]
    yield "a megabyte to decode", b"decode " + b"0" * (1 << 20) + b" any\n", ["read 0 - %d" % ((1 << 19) - 16)]


def large_scripts():
    """Scripts of unusual size: a name, the bytes, and the lines that they print."""
    yield "a million lines", b"len\n" * 1000000, ["number 0"] * 1000000
    yield "a million empty lines", b"\n" * 1000000 + b"len", ["number 0"]
    yield "a million bits", b"begin\n" + b"push-byte ff\n" * 125000 + b"len\ncommit 1\nencode\n", [
        *["done"] * 125001, "number 1000000", "done", "bytes " + "0" * 16 + "00000000000f4240" + "f" * 250000]


def large_script(command, count):
    """The lines of a script: a comment of three megabytes, 4096 commands that print little, so many times a command, and a batch."""
    lines = ["#" * (3 << 20), "begin"] + [f"push-chunk {'ff' * 32}"] * 40 + ["commit 1"]
    return lines + ["get 0"] * 4054 + [command] * count + ["begin", "set 5 0", "commit 2", "at 1", "ones-at 1 0 9", "encode-at 1"]


def little_memory(folder):
    """Runs in so many megabytes, from too few for the script to enough for every command.

    A reply of `ones` takes more memory than its line, so commands run out of memory. A reply of `at` takes less, so the lines do not fit.
    """
    path = Path(folder) / "large.script"
    missing = {"fails for the whole program", "fails for some commands", "does not fail"}
    for command, count in (("ones 0 6000", 300), ("at 1", 1000)):
        lines = large_script(command, count)
        path.write_text("\n".join(lines))
        for megabytes in (4, 6, 8, 12, 16, 20, 24, 32):
            ended = run(["32", path], megabytes=megabytes)
            if ended.status == 0 and not ended.errors:
                missing.discard("fails for some commands" if REFUSED in ended.printed else "does not fail")
                failure = difference(32, lines, ended.printed, may_fail=True)
            else:
                missing.discard("fails for the whole program")
                failure = unexpected(ended, Run(3, [], [NO_MEMORY]))
            yield f"{command} in {megabytes} megabytes", failure
    yield "little memory", f"no run in which an allocation {' or '.join(sorted(missing))}" if missing else None


def unexpected(ended, expected):
    """What a run has done, shortened, if that is not what is expected of it."""
    return None if ended == expected else f"status {ended.status}, {ended.printed[:3]}, {ended.errors}"


def both(name, arguments, status, line, explained, output=None):
    """Runs without and with the option that explains errors: the cases. `line` is the error line, and `explained` the lines after it."""
    for option, errors in ([], [line]), (["--explain"], [line, *(f"  {line}" for line in explained)]):
        ended = run([*option, *arguments]) if output is None else run([*option, *arguments], output=output)
        yield " ".join([name, *option]), unexpected(ended, Run(status, [], errors))


def cases(folder, small):
    """Each case, and what is wrong with it, or None."""
    path = Path(folder) / "a.script"
    path.write_text("len\n")
    for name, arguments, line, status in wrong_arguments(str(path), folder):
        yield from both(name, arguments, status, line, [])
    for name, unreadable, cause in unreadable_scripts(folder):
        yield from both(name, ["4", unreadable], 3, UNREAD, [f"{unreadable}: {cause}"])
    with open(path) as unwritable:
        yield from both("an output that cannot be written", ["4", path], 3, UNWRITTEN, ["Bad file descriptor (os error 9)"], unwritable)
    for name, script, at, reason in broken_scripts():
        path.write_bytes(script)
        yield from both(name, ["4", path], 2, not_a_command(at), [shown(script.split(b"\n")[at - 1]), reason])
    for name, script, printed in [*unusual_scripts(), *([] if small else large_scripts())]:
        path.write_bytes(script)
        yield name, unexpected(run(["4", path]), Run(0, printed, []))
        yield f"{name} --explain", unexpected(run(["--explain", "4", path]), Run(0, printed, []))
    if not small:
        yield from little_memory(folder)


def main():
    stop_without(PROGRAM)
    with tempfile.TemporaryDirectory() as folder:
        return report("errors", list(cases(folder, sys.argv[1:] == ["--small"])))


if __name__ == "__main__":
    sys.exit(main())
