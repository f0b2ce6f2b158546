#!/usr/bin/env python3
"""Runs the program `log_runs` on random scripts, and compares the bytes and the states that it prints with tools/formats.py and tools/model.py.

usage: check_logs.py COUNT [SEED]   COUNT random historical bitmaps with their logs, at each of four widths in turn: the bytes of the log, of the
                                    history and of deltas; what every prefix of the log is recovered to; copies with a flipped bit, with other
                                    bytes at the end, with a frame twice or one less, and with another body; some changes of each byte of a
                                    small log; histories that are read, and deltas that are applied, also flipped and cut off; random inputs, and
                                    forged ones, whose digests are right and whose fields are extreme (tools/hostile.py)
                                    For every third one, also a log of some 200 bytes: every prefix, and every other value of each byte
                                    And logs, histories and deltas of some 256 KiB, with limits on memory and time

Each run of the program has a limit on its memory. Those of large inputs have the limit that docs/FORMATS.md states, and one of processor time.
A program that `rt try` has built has checks that take memory of their own, so that it runs without limits on memory.

tools/formats.py reads and writes the formats from their page alone. The program is the one that the gate has built, or the one that the
environment variable LOG_RUNS_PROGRAM names. Random scripts have fixed seeds.
"""

import os
import resource
import subprocess
import sys
import tempfile
from collections import Counter
from concurrent.futures import ProcessPoolExecutor
from functools import cache, partial
from itertools import islice
from pathlib import Path
from typing import NamedTuple, Optional

from formats import COMMIT, WIDTHS, Entry, Formats, Historical, LoggedScript, ReadError, flipped, frame, other_list
from hostile import Forger, LargeInputs, random_deltas, random_logs
from replay import SECONDS, TOP, report, stop_without

PROGRAM = Path(os.environ.get("LOG_RUNS_PROGRAM", TOP / "crates/log_runs/out/log_runs")).resolve()

# What docs/FORMATS.md states: a reader allocates at most so many bytes for each byte that it reads, and for each chunk in these bytes.
PER_BYTE, PER_CHUNK = 8, 64

# What the program takes beside its readers: always, for each byte that it reads (its digits in the script, and the byte), and for each character
# that it prints.
PROGRAM_BASE, PROGRAM_PER_BYTE, PROGRAM_PER_CHARACTER = 6 << 20, 10, 4

# The most memory that any other run may take, in bytes, and the most processor time of a run of a large input, in seconds.
MOST_MEMORY, MOST_SECONDS = 1 << 28, 30

# The inputs that are counted, in the order in which they are printed.
COUNTED = ("prefixes", "changed bytes", "random inputs", "forged inputs", "large inputs")

# The lines of a script that change a bitmap or what is kept.
CHANGES = {"begin", "push", "push-byte", "push-chunk", "pop", "set", "prune", "commit", "abort", "start", "rewind", "drop-before", "clear"}

# The most bytes of a log of which every byte is changed, and by which masks. The bytes of a shorter log get every other value.
SMALL, MASKS = 700, (1, 128, 255)

# How many forged inputs each reader gets in a run.
FORGED = 40


def in_hex(data):
    return data.hex() or "-"


class LibraryScript(LoggedScript):
    """A random script with its log. The lines that are accepted are kept for the program, with the lines that it has to print."""

    def __init__(self, seed, width):
        self.lines_to_run, self.expected, self.inputs = [], [], Counter()
        super().__init__(seed, width)

    def add(self, *lines):
        for line in lines:
            count = len(self.replies)
            if line.split(" ")[0] in CHANGES:
                self.lines_to_run.append(line)
            super().add(line)
            if str(self.replies[count]).startswith("refused") and self.lines_to_run and line.split(" ")[0] in CHANGES:
                self.lines_to_run.pop()

    def begin_log(self):
        super().begin_log()
        self.lines_to_run.append("begin-log")

    def end_batch(self):
        """Commits the batch if there is one, or aborts it if the commit is refused."""
        if self.state.pending is not None:
            self.add(f"commit {self.next_number()}", "abort")

    def ask(self, line, *expected):
        """Adds a line that prints, and what it has to print."""
        self.lines_to_run.append(line)
        self.expected += [(line, text) for text in expected]

    # What the program prints

    def state_text(self, bitmap):
        write = self.formats.write_pruned
        kept = "".join(f" {number}:{write(state).hex()}" for number, state in bitmap.kept.items())
        return f"{'-' if bitmap.last is None else bitmap.last} {write(bitmap.current).hex()}{kept}"

    def recovered_text(self, data):
        try:
            found = self.formats.recover(data)
        except ReadError as error:
            return str(error)
        return f"{found.place.at} {found.place.chain} {'torn' if found.torn else 'whole'} {self.state_text(found.bitmap)}"

    def changed_texts(self, inputs):
        """For each input what it is recovered to, after its index, if the one before is not recovered to the same."""
        last = ""
        for index, data in enumerate(inputs):
            found = self.recovered_text(data)
            if found != last:
                yield f"{index} {found}"
            last = found


def prefix_texts(script):
    """What every prefix of the log is recovered to: the states come from the reference model."""
    yield "0 Header(Short)"
    yield "32 NoBase"
    for place, bitmap in script.marks:
        state = script.state_text(bitmap)
        yield f"{place.at} {place.at} {place.chain} whole {state}"
        if place.at < len(script.data):
            yield f"{place.at + 1} {place.at} {place.chain} torn {state}"


def ask_prefixes(script):
    script.ask("prefixes", *prefix_texts(script))
    script.inputs["prefixes"] += len(script.data) + 1


def ask_changes(script, masks):
    """Logs in which one byte is changed, each byte by each mask."""
    data = script.data
    for mask in masks:
        copies = (data[:at] + bytes([data[at] ^ mask]) + data[at + 1 :] for at in range(len(data)))
        script.ask(f"changes {mask}", *script.changed_texts(copies))
        script.inputs["changed bytes"] += len(data)


def ask_recovered(script, data):
    script.ask(f"recover {in_hex(data)}", script.recovered_text(data))


def ask_tails(script):
    """Logs that have other bytes at their end, or a frame twice, or one frame less."""
    chance = script.random
    place, _ = chance.choice(script.marks)
    for tail in (bytes(1), bytes(16), bytes(chance.randint(17, 99)), chance.randbytes(15), bytes([1]) + chance.randbytes(99)):
        ask_recovered(script, script.data[: place.at] + tail)
    starts = [32, *(place.at for place, _ in script.marks)]
    start, end = chance.choice(list(zip(starts, starts[1:])))
    ask_recovered(script, script.data[:end] + script.data[start:])
    ask_recovered(script, script.data[:start] + script.data[end:])


def ask_bodies(script):
    """Logs whose last frame has another body: flipped, cut off, or with further bytes."""
    formats, chance = script.formats, script.random
    frames = list(formats.frames(script.data))
    for _ in range(12):
        place, body, _ = chance.choice(frames)
        copy = flipped(body, chance.choice([chance.randrange(8 * len(body)), chance.randrange(min(8 * len(body), 16))]))
        copy = chance.choice([body, copy])[: chance.randint(1, len(body)) if chance.random() < 0.5 else len(body)]
        copy += chance.randbytes(chance.choice([0, 0, 1, 8 + formats.width]))
        ask_recovered(script, script.data[: place.at] + frame(place, copy)[0])


def ask_lists(script):
    """Logs whose last commit has another list, length or pruned count."""
    formats = script.formats
    for (place, bitmap), (_, after) in islice(zip(script.marks, script.marks[1:]), 8):
        if after.current.pruned < bitmap.current.pruned or after.last == bitmap.last:
            continue
        change = other_list(script, bitmap.current, formats.change(bitmap.current, after.current))
        number = bitmap.last + 1 if bitmap.last is not None else 0
        body = formats.write_entry(Entry(COMMIT, min(number, 2**64 - 1), change))
        ask_recovered(script, script.data[: place.at] + frame(place, body)[0])


def ask_histories(script):
    """The history, with bytes after it, in a range that does not admit it, flipped, and cut off."""
    formats, chance, bitmap = script.formats, script.random, script.historical()
    data = formats.write_history(bitmap)
    script.ask("history", in_hex(data))
    copies = [flipped(data, bit) for bit in chance.sample(range(8 * len(data)), 12)]
    copies += [data[: chance.randrange(len(data))] for _ in range(4)]
    for copy in [data, data + chance.randbytes(chance.randint(1, 40)), script.data, *copies]:
        ask_read(script, copy)
    for state in bitmap.kept.values():
        ask_read(script, data, formats.retained(state))


def ask_read(script, data, most=None):
    admitted = range(2**64 if most is None else most + 1)
    try:
        bitmap, rest = script.formats.read_history(data, admitted)
        expected = f"{len(rest)} left {script.state_text(bitmap)}"
    except ReadError as error:
        expected = f"{error}"
    script.ask(f"read {in_hex(data)}" + ("" if most is None else f" {most}"), expected)


def ask_deltas(script):
    """Deltas between kept states, which the rewound bitmap applies, and copies that are flipped or cut off. Returns the bitmap after them."""
    formats, chance = script.formats, script.random
    bitmap = script.historical()
    numbers = list(bitmap.kept)
    script.ask("delta 1 1", "none")
    pairs = [(older, newer) for older in numbers for newer in numbers if older < newer]
    for older, newer in chance.sample(pairs, min(4, len(pairs))):
        script.ask(f"delta {older} {newer}", in_hex(formats.delta(bitmap, older, newer)))
    if not pairs:
        return bitmap
    older, newer = chance.choice(pairs)
    data = formats.delta(bitmap, older, newer)
    script.ask(f"rewind {older}")
    kept = {number: state for number, state in bitmap.kept.items() if number <= older}
    replica = Historical(bitmap.kept[older], kept, older)
    copies = [flipped(data, chance.randrange(8 * len(data))) for _ in range(10)]
    for copy in [*copies, data[: chance.randrange(len(data))], data + bytes(1)]:
        ask_applied(script, replica, copy)
    ask_applied(script, replica, data)
    after = formats.apply_delta(replica, data)
    ask_applied(script, after, data)
    script.ask("state", script.state_text(after))
    return after


def ask_applied(script, bitmap, data):
    """A delta that the bitmap applies. Returns the bitmap after it."""
    try:
        bitmap = script.formats.apply_delta(bitmap, data)
        expected = f"applied {script.state_text(bitmap)}"
    except ReadError as error:
        expected = f"{error}"
    script.ask(f"apply {in_hex(data)}", expected)
    return bitmap


def ask_hostile(script, bitmap):
    """Random and forged inputs, of which the bitmap applies the deltas."""
    forger = Forger(script.formats, script.random)
    for data in random_logs(script.formats, script.random):
        ask_recovered(script, data)
        ask_read(script, data)
        script.inputs["random inputs"] += 2
    for data in random_deltas(script.random):
        bitmap = ask_applied(script, bitmap, data)
        script.inputs["random inputs"] += 1
    for _ in range(FORGED):
        ask_recovered(script, forger.log(script.data, script.marks))
        ask_read(script, forger.history())
        bitmap = ask_applied(script, bitmap, forger.delta(bitmap))
        script.inputs["forged inputs"] += 3


class Case(NamedTuple):
    """A case: what it is, what is wrong with it or None, and how many inputs it had of each kind."""

    name: str
    failure: Optional[str]
    inputs: Counter


def difference(number, seed):
    """The case of a random bitmap with its log."""
    width = WIDTHS[number % len(WIDTHS)]
    script = LibraryScript(f"library {seed} {number}", width)
    if number % 3 == 0:
        script.add(f"start {script.chunks()}")
    script.steps(script.random.randint(0, 30))
    if number % 2:
        script.end_batch()
        script.begin_log()
    script.steps(script.random.randint(5, 40))
    script.end_batch()
    script.ask("log", in_hex(script.data))
    script.ask("state", script.state_text(script.historical()))
    ask_histories(script)
    ask_prefixes(script)
    for bit in script.random.sample(range(8 * len(script.data)), 30):
        ask_recovered(script, flipped(script.data, bit))
        script.inputs["changed bytes"] += 1
    ask_tails(script)
    ask_bodies(script)
    ask_lists(script)
    if len(script.data) <= SMALL:
        ask_changes(script, MASKS)
    ask_hostile(script, ask_deltas(script))
    return case(f"run {number} at width {width}", script)


def small_difference(number, seed):
    """The case of a log of some 200 bytes: two or three frames."""
    width = WIDTHS[number % len(WIDTHS)]
    script = LibraryScript(f"small {seed} {number}", width)
    pushes = [f"push {script.random.randrange(2)}" for _ in range(script.random.randint(1, 7))]
    if number // len(WIDTHS) % 2:
        script.add("begin", *pushes, "commit 1")
        script.begin_log()
        script.add("begin", script.random.choice(["pop", f"set 0 {1 - int(pushes[0][-1])}", "push 1"]), "commit 2")
    else:
        script.add("begin", *pushes, "commit 1", script.random.choice(["rewind 1", "drop-before 2", "clear"]))
    ask_prefixes(script)
    ask_changes(script, range(1, 256))
    return case(f"small log {number} at width {width}", script)


def large_difference(width):
    """The case of the large inputs at a width: the first difference of one of them."""
    large, inputs = LargeInputs(Formats(width)), Counter()
    asked = [(ask_recovered, log) for log in large.logs()] + [(ask_read, history) for history in large.histories()]
    for ask, found in [*asked, (ask_delta, large.delta(replica(width).historical()))]:
        script = replica(width)
        ask(script, found.data)
        characters = sum(len(text) for _, text in script.expected)
        memory = PROGRAM_BASE + (PER_BYTE + PROGRAM_PER_BYTE) * len(found.data) + PER_CHUNK * found.chunks + PROGRAM_PER_CHARACTER * characters
        tried = case(f"{found.name}, at width {width}", script, memory, MOST_SECONDS)
        inputs["large inputs"] += 1
        if tried.failure:
            return tried
    return Case(f"large inputs at width {width}", None, inputs)


def replica(width):
    """A script whose bitmap has one set bit, and is kept under 1."""
    script = LibraryScript("replica", width)
    script.add("begin", "push 1", "commit 1")
    return script


def ask_delta(script, data):
    ask_applied(script, script.historical(), data)


def case(name, script, memory=MOST_MEMORY, seconds=None):
    """The case of a script, which the program runs within limits."""
    return Case(name, first_difference(script, run(script.formats.width, script.lines_to_run, memory, seconds)), script.inputs)


@cache
def has_checks():
    """Whether the program has the checks of `rt try`, with which a limit on its memory would be one on theirs."""
    return b"__asan_init" in PROGRAM.read_bytes()


def limit(memory, seconds):
    """Limits this process, which is about to become the program."""
    if memory is not None:
        resource.setrlimit(resource.RLIMIT_AS, (memory, memory))
    if seconds is not None:
        resource.setrlimit(resource.RLIMIT_CPU, (seconds, seconds))


def run(width, lines, memory, seconds):
    """What the program prints for a script, in so many bytes of memory and seconds of processor time."""
    limits = partial(limit, None if has_checks() else memory, seconds)
    with tempfile.NamedTemporaryFile("w", suffix=".script") as file:
        file.write("".join(f"{line}\n" for line in lines))
        file.flush()
        ended = subprocess.run([PROGRAM, str(width), file.name], capture_output=True, text=True, timeout=SECONDS, preexec_fn=limits)
    return [*ended.stdout.splitlines(), *([f"status {ended.returncode}: {ended.stderr}"] if ended.returncode else [])]


def first_difference(script, printed):
    for (line, expected), found in zip(script.expected, printed):
        if found != expected:
            return f"{line[:300]}: {found[:600]}, not {expected[:600]}"
    if len(printed) != len(script.expected):
        return f"{len(printed)} lines, not {len(script.expected)}; the last is {printed[-1][:300] if printed else 'none'}"
    return None


def main():
    stop_without(PROGRAM)
    count, seed = int(sys.argv[1]), sys.argv[2] if len(sys.argv) > 2 else "0"
    if has_checks():
        print("logs: the program has checks of its own, so that it has no limit on memory")
    with ProcessPoolExecutor() as pool:
        large = pool.map(large_difference, WIDTHS)
        small = pool.map(partial(small_difference, seed=seed), range(count // 3))
        cases = [*large, *small, *pool.map(partial(difference, seed=seed), range(count))]
    inputs = sum((found.inputs for found in cases), Counter())
    print("logs: read and compared:", ", ".join(f"{inputs[kind]:,} {kind}" for kind in COUNTED))
    return report("logs", [(found.name, found.failure) for found in cases])


if __name__ == "__main__":
    if len(sys.argv) not in (2, 3):
        sys.exit(__doc__)
    sys.exit(main())
