"""What the checks of the program share: how a script is run, and how its lines are compared with the reference model.

The program is the one that the gate has built, or the one that the environment variable REPLAY_PROGRAM names.
"""

import os
import re
import resource
import subprocess
import sys
from pathlib import Path
from typing import NamedTuple

from model import Model, State

TOP = Path(__file__).resolve().parent.parent
PROVED = TOP / "crates/replay/out/replay"
PROGRAM = Path(os.environ.get("REPLAY_PROGRAM", PROVED)).resolve()
WIDTHS = (1, 3, 4, 8, 32)
NO_MEMORY = "refused no-memory"
SECONDS = 600  # the most that one run may take, on a busy machine


class Run(NamedTuple):
    status: int
    printed: list
    errors: list


def stop_without(program):
    """Ends this process with an error that names a program that the gate builds, if it is missing."""
    if not program.exists():
        sys.exit(f"{Path(sys.argv[0]).stem}: {program} is missing: the gate builds it")


def lines_of(output):
    """The lines of an output. A last line without a line feed is marked, so that it equals no expected line."""
    *lines, rest = output.decode(errors="replace").split("\n")
    return [*lines, f"{rest} (without a line feed)"] if rest else lines


def run(arguments, environment=None, output=subprocess.PIPE, megabytes=None):
    """Runs the program, in an address space of so many megabytes if that is given."""
    limit = megabytes and (lambda: resource.setrlimit(resource.RLIMIT_AS, (megabytes << 20, megabytes << 20)))
    ended = subprocess.run([PROGRAM, *arguments], env={**os.environ, **(environment or {})}, stdout=output, stderr=subprocess.PIPE,
                           timeout=SECONDS, preexec_fn=limit)
    return Run(ended.returncode, lines_of(ended.stdout or b""), lines_of(ended.stderr))


def commands_of(lines):
    """The commands of a script, each as its words."""
    return [line.split(" ") for line in lines if line and not line.startswith("#")]


def is_reply(line, reply):
    """Whether a line is the model's reply. A number of entries may be less than the model's, which is an upper limit."""
    entries = re.fullmatch(r"entries (\d+)", line)
    return int(entries[1]) <= reply if entries and isinstance(reply, int) else line == reply


def first_difference(commands, replies, printed):
    """The first printed line that is not the model's reply, or None."""
    if len(printed) != len(commands):
        return f"{len(commands)} commands, {len(printed)} lines"
    for at, (reply, line) in enumerate(zip(replies, printed)):
        if not is_reply(line, reply):
            recent = "; ".join(" ".join(words) for words in commands[max(at - 9, 0) : at + 1])
            return f"command {at + 1}: {recent}: {line}, not {reply}"
    return None


def replies_to(width, commands, printed, may_fail):
    """The model's replies to commands. With `may_fail`, a command that allocates and has printed that it is out of memory changes nothing."""
    model, state = Model(width), State()
    for words, line in zip(commands, printed):
        step = model.step(state, words)
        if may_fail and step.allocates and line == NO_MEMORY:
            yield NO_MEMORY
        else:
            yield step.reply
            state = step.state


def difference(width, lines, printed, may_fail=False):
    """The first difference between the printed lines and the reference model, or None. With `may_fail`, allocations may fail."""
    commands = commands_of(lines)
    return first_difference(commands, replies_to(width, commands, printed, may_fail), printed)


def report(name, cases, kind="runs"):
    """Prints each failed case and the number of cases, and returns the exit status. A case is a name and what is wrong with it, or None."""
    failures = [f"{case}: {failure}" for case, failure in cases if failure]
    for failure in failures[:20]:
        print(failure)
    print(f"{name}: {len(cases)} {kind}, {len(failures)} failed")
    return 1 if failures else 0
