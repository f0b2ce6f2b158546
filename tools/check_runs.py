#!/usr/bin/env python3
"""Runs `replay` on scripts, and compares the lines that it prints with the reference model of tools/model.py.

usage: check_runs.py random COUNT               COUNT random scripts, at each of the five widths in turn. Prints per width how many commits cut
                                                chunks off, drops keep a few commits, rewinds undo commits and reads go far back, and fails
                                                if these are too few: 3000 scripts suffice
       check_runs.py exhaustive                 every batch of up to three edits from a small alphabet, on each of a few bitmaps
       check_runs.py allocation_failures COUNT  the examples and COUNT random scripts, at each of the five widths that
                                                their chunks fit. In each run some allocations fail: the K-th alone, the
                                                K-th and the next one, or all from the K-th on, for each K. Each command
                                                that allocates has to reply at least once that it is out of memory, and
                                                each run has to free what it allocates

The program is the one that the gate has built. Random scripts have fixed seeds.
"""

import itertools
import random
import sys
import tempfile
from collections import Counter
from concurrent.futures import ProcessPoolExecutor
from functools import partial
from pathlib import Path

from counter import preloaded, take_report
from model import LAST, Bitmap, Model, State
from replay import NO_MEMORY, PROGRAM, TOP, WIDTHS, commands_of, difference, first_difference, report, run, stop_without

ALLOCATE = {"push", "push-byte", "push-chunk", "set", "prune", "commit", "ones", "encode", "commits", "rewind", "at", "ones-at", "encode-at", "decode"}
READS = {"at", "ones-at", "encode-at"}

# What is counted in random scripts, and the least number at each width.
ONE_CHUNK, MORE_CHUNKS, FAR_BACK = "commits that cut off one chunk", "commits that cut off more chunks", "reads five or more commits back"
SLIDES, UNDONE = "drops that keep three or more commits", "rewinds that undo two or more commits"
LEAST = {ONE_CHUNK: 200, MORE_CHUNKS: 50, FAR_BACK: 500, SLIDES: 500, UNDONE: 200}

# The widths at which every small batch runs.
BATCH_WIDTHS = (1, 3)

# The steps of a random script whose allocations fail.
FAILURE_STEPS = 45


class Script:
    """The lines of a script, the replies to them, the state after them, and the counts of what they do."""

    def __init__(self, width):
        self.model, self.state, self.counts = Model(width), State(), Counter()
        self.lines, self.replies = [], []

    def add(self, *lines):
        for line in lines:
            words = line.split(" ")
            step = self.model.step(self.state, words)
            self.count(words, step.reply)
            self.lines.append(line)
            self.replies.append(step.reply)
            self.state = step.state

    def count(self, words, reply):
        """Counts what a command does, before the state changes."""
        state = self.state
        if words[0] == "commit" and reply == "done":
            cut = self.model.chunks(state.current) - self.model.chunks(state.pending)
            self.counts["commits"] += 1
            self.counts[ONE_CHUNK] += cut == 1
            self.counts[MORE_CHUNKS] += cut > 1
        if words[0] in READS and state.pending is None and int(words[1]) in state.history:
            self.counts[FAR_BACK] += sum(number > int(words[1]) for number in state.history) >= 5
        if words[0] == "drop-before" and state.pending is None:
            kept = sum(number >= int(words[1]) for number in state.history)
            self.counts[SLIDES] += 3 <= kept < len(state.history)
        if words[0] == "rewind" and state.pending is None and int(words[1]) in state.history:
            self.counts[UNDONE] += sum(number > int(words[1]) for number in state.history) >= 2

    def bitmap(self):
        return self.state.pending or self.state.current

    def first(self):
        return self.model.first(self.bitmap())

    def length(self):
        return self.model.length(self.bitmap())

    # Edits of a batch

    def pop(self, count):
        """Pops so many bits, or as many as there are, but at least one, which may be refused."""
        self.add(*["pop"] * max(min(count, len(self.bitmap().bits)), 1))

    def pop_to_bound(self, more_chunks=0, more_bits=0):
        """Pops to the start of the last chunk, and then so many chunks and bits more."""
        width = self.model.chunk_bits
        self.pop((self.length() - 1) % width + 1 + more_chunks * width + more_bits)

    def flip(self, position):
        """Sets a position to the other bit. It is refused if there is no such bit."""
        at = position - self.first()
        bits = self.bitmap().bits
        self.add(f"set {position} {1 - bits[at] if 0 <= at < len(bits) else 1}")


class RandomScript(Script):
    """Chooses the lines of a script, most of which are accepted."""

    def __init__(self, seed, width):
        super().__init__(width)
        self.random = random.Random(f"{seed} at {width}")

    def position(self):
        first, end = self.first(), self.length()
        ends = [0, first - 1, first, first + 1, end - 1, end, end + 1, LAST]
        if self.random.random() < 0.2:
            return min(max(self.random.choice(ends), 0), LAST)
        return self.random.randint(first, min(max(end - 1, first), LAST))

    def number(self):
        last = self.state.last or 0
        near = [last, last + 1, last + 2, last - 1, *self.state.history, self.random.randint(0, 9), LAST - 1, LAST]
        weights = [8] * (len(near) - 2) + [1, 1]
        return min(max(self.random.choices(near, weights)[0], 0), LAST)

    def next_number(self):
        """A number for a commit, which is seldom refused."""
        last = -1 if self.state.last is None else self.state.last
        return min(last + self.random.randint(1, 3), LAST) if self.random.random() < 0.9 else self.number()

    def kept_number(self, numbers):
        """One of some kept numbers, or any number if there are none."""
        return self.random.choice(numbers) if numbers and self.random.random() < 0.9 else self.number()

    def chunks(self):
        most = LAST // self.model.chunk_bits
        return self.random.choice([0, 0, 1, 2, most - 1, most, most + 1, LAST])

    def digits(self, count):
        data = self.random.choice([bytes(count), bytes([255]) * count, self.random.randbytes(count)])
        return data.hex()

    def input(self):
        bits = [self.random.randint(0, 1) for _ in range(self.random.choice([0, 1, 7, 8, 9, self.random.randint(0, 80)]))]
        data = bytearray.fromhex(self.model.encoded(Bitmap(self.random.choice([0, 1, self.chunks()]) & LAST, tuple(bits)))[6:])
        damage = self.random.randint(0, 5)
        if damage == 0:
            del data[self.random.randint(0, len(data)) :]
        elif damage == 1:
            data[self.random.randrange(len(data))] ^= 1 << self.random.randrange(8)
        elif damage == 2:
            data += self.random.randbytes(self.random.randint(1, 5))
        digits = data.hex() if self.random.random() < 0.5 else data.hex().upper()
        return digits or "-"

    def range(self):
        low, high = self.random.randint(0, 20), self.random.randint(10, 90)
        return self.random.choice(["any", "any", f"exact:{low}", f"least:{low}", f"most:{high}", f"between:{low}:{high}"])

    # Edits of a batch, of several lines

    def push_bytes(self):
        """Pushes bytes up to two chunks and a byte."""
        for _ in range(self.random.choice([1, 2, self.model.width, self.random.randint(1, 2 * self.model.width + 1)])):
            self.add(f"push-byte {self.digits(1)}")

    def pop_bits(self):
        """Pops up to two chunks and two bits."""
        self.pop(self.random.randint(1, 2 * self.model.chunk_bits + 2))

    def pop_near_bound(self):
        """Pops to a chunk bound, or one bit past it."""
        self.pop_to_bound(self.random.randint(0, 1), self.random.randint(0, 1))

    def push_popped(self):
        """Pops bits, and pushes the same ones."""
        bits = self.bitmap().bits[-self.random.randint(1, self.model.chunk_bits + 1) :]
        self.pop(len(bits))
        self.add(*[f"push {bit}" for bit in bits])

    def set_and_prune(self):
        """Sets a bit, and prunes its chunk if it is whole."""
        position = self.position()
        self.flip(position)
        self.add(f"prune {min(position + self.model.chunk_bits, self.length())}")

    def push_and_prune(self):
        """Pushes, and prunes all that is whole."""
        self.push_bytes()
        self.add(f"prune {self.length()}")

    def slide(self):
        """Commits a set or a push several times, and drops all but three to five commits each time. Reads the oldest one, and may rewind to it."""
        kept = self.random.randint(3, 5)
        for _ in range(self.random.randint(2, 6)):
            self.add("begin", self.random.choice([f"set {self.position()} {self.random.randint(0, 1)}", f"push {self.random.randint(0, 1)}"]))
            self.add(f"commit {self.next_number()}", "abort")
            if len(self.state.history) > kept:
                self.add(f"drop-before {list(self.state.history)[-kept]}")
        for oldest in list(self.state.history)[:1]:
            self.add(*self.random.sample([f"at {oldest}", f"ones-at {oldest} 0 {self.position()}", f"rewind {oldest}"], 2))

    def batch_step(self):
        """An edit, a read or the end of the batch."""
        chance = self.random
        steps = [
            (9, lambda: self.add(f"push {chance.randint(0, 1)}")),
            (9, self.push_bytes),
            (4, lambda: self.add(f"push-chunk {self.digits(self.model.width)}")),
            (6, lambda: self.add("pop")),
            (6, self.pop_bits),
            (6, self.pop_near_bound),
            (3, self.push_popped),
            (12, lambda: self.add(f"set {self.position()} {chance.randint(0, 1)}")),
            (2, self.set_and_prune),
            (1, self.push_and_prune),
            (2, lambda: self.add(f"prune {self.position()}")),
            (24, lambda: self.add(f"commit {self.next_number()}")),
            (2, lambda: self.add("abort")),
            (12, self.read),
        ]
        self.choose(steps)

    def clean_step(self):
        """A command that needs that there is no batch."""
        chance, kept = self.random, list(self.state.history)
        steps = [
            (40, lambda: self.add("begin")),
            (6, lambda: self.add(f"ones {self.position()} {self.position()}")),
            (4, lambda: self.add("encode")),
            (4, lambda: self.add(f"at {self.number()}")),
            (4, lambda: self.add(f"ones-at {self.number()} {self.position()} {self.position()}")),
            (4, lambda: self.add(f"encode-at {self.number()}")),
            (10, lambda: self.add(chance.choice(["commits", f"exists {self.number()}", "latest", "earliest", "entries"]))),
            (7, lambda: self.add(f"rewind {self.kept_number(kept[-3:])}")),
            (4, lambda: self.add(f"drop-before {self.kept_number(kept[:3])}")),
            (2, self.slide),
            (1, lambda: self.add(chance.choice(["clear", f"start {self.chunks()}"]))),
            (10, self.read),
        ]
        self.choose(steps)

    def read(self):
        """A command that runs in a batch or outside."""
        self.add(self.random.choice(["len", "pruned-chunks", f"get {self.position()}", f"chunk {self.position()}", f"decode {self.input()} {self.range()}"]))

    def choose(self, steps):
        weights, functions = zip(*steps)
        self.random.choices(functions, weights)[0]()

    def steps(self, count):
        """Takes so many random steps, of one line or more."""
        for _ in range(count):
            is_batch = (self.state.pending is not None) != (self.random.random() < 0.05)
            if is_batch:
                self.batch_step()
            else:
                self.clean_step()
            if self.random.random() < 0.02:
                self.lines.append(self.random.choice(["", "# a comment"]))

    def read_all(self):
        """Ends the batch if there is one, and reads every kept commit in each way."""
        if self.state.pending is not None:
            self.add(f"commit {self.next_number()}", "abort")
        for number in self.state.history:
            self.add(f"at {number}", f"ones-at {number} {self.position()} {self.position()}", f"encode-at {number}")
        self.add("entries")


def random_script(seed, width, count):
    """A random script of so many steps, with a read of every kept commit at its end."""
    script = RandomScript(seed, width)
    script.steps(count)
    script.read_all()
    return script


# Every small batch

def starts(width):
    """Bitmaps to start from: the edits of their first two commits."""
    chunk = f"push-chunk {'5d' * width}"
    return {
        "nothing": ([], []),
        "a whole chunk": ([chunk], ["set 0 0"]),
        "two chunks and three bits": ([chunk, "push 1"], [chunk, "push 0", "push 1"]),
        "two chunks less a bit": ([chunk, chunk], ["pop"]),
        "two chunks and two bits after a pruned chunk": ([chunk, chunk, chunk, "push 1", "push 0"], [f"prune {8 * width}"]),
        "a pruned chunk and no bit": ([chunk], [f"prune {8 * width}"]),
    }


def edits(script):
    """The alphabet of batches: each edit adds its lines to the script."""
    return [
        lambda: script.add("push 0"),
        lambda: script.add("push 1"),
        lambda: script.add("push-byte a6"),
        lambda: script.add(f"push-chunk {'3b' * script.model.width}"),
        lambda: script.pop(1),
        script.pop_to_bound,
        lambda: script.pop(script.model.chunk_bits),
        lambda: script.flip(script.first()),
        lambda: script.flip(max(script.length() - 1, 0)),
        lambda: script.add(f"prune {script.length()}"),
        lambda: script.add(f"prune {(script.first() + script.length()) // 2}"),
    ]


def add_batches(script, first, second):
    """Adds every batch of up to three edits. Each follows commits 1 and 2, is commit 3, and is dropped by a rewind after all have been read."""
    script.add("start 0", "begin", *first, "commit 1", "begin", *second, "commit 2")
    for count in range(4):
        for batch in itertools.product(edits(script), repeat=count):
            script.add("begin")
            for edit in batch:
                edit()
            script.add("commit 3", "at 1", "at 2", "at 3", "entries", "rewind 2")


def write(folder, name, lines):
    path = Path(folder) / name
    path.write_text("\n".join(lines) + ("\n" if len(lines) % 2 else ""))
    return path


def check_script(folder, name, script):
    """Runs a script: what is wrong with the run, or None."""
    status, printed, errors = run([str(script.model.width), write(folder, f"{name}.script", script.lines)])
    return first_difference(commands_of(script.lines), script.replies, printed) if status == 0 and not errors else f"status {status}: {errors}"


def check_random(folder, number):
    """Runs a random script: its width, its counts and its case."""
    width = WIDTHS[number % len(WIDTHS)]
    script = random_script(number, width, 20 + number % 120)
    return width, script.counts, (f"script {number} at width {width}", check_script(folder, number, script))


def check_batches(folder, width, start):
    """Runs every small batch on a bitmap: the number of batches, and the case."""
    script = Script(width)
    add_batches(script, *starts(width)[start])
    return script.counts["commits"] - 2, (f"every batch on {start} at width {width}", check_script(folder, f"{width} {start}", script))


def check_failure(width, path, lines, environment):
    """One run in which allocations fail: what is wrong with it, its blocks, and the commands that ran out of memory."""
    status, printed, errors = run([str(width), path], environment)
    blocks = take_report(errors)
    if status == 3:
        is_right = not printed and errors == ["replay: out of memory"]
        return None if is_right else f"{errors}, {len(printed)} lines printed", blocks, set()
    failed = {words[0] for words, line in zip(commands_of(lines), printed) if line == NO_MEMORY}
    failure = difference(width, lines, printed, may_fail=True) if status == 0 and not errors else f"status {status}: {errors}"
    return failure, blocks, failed


def check_failures(counter, width, path):
    """All runs of a script in which allocations fail, as cases, and the commands that ran out of memory in one of them."""
    lines, cases, failed = path.read_text().split("\n"), [], set()
    for mode in ("FAIL_AT", "FAIL_TWO", "FAIL_FROM"):
        for at in itertools.count(1):
            failure, blocks, commands = check_failure(width, path, lines, {**counter, mode: str(at)})
            cases.append((f"{path.name} at width {width}, {mode}={at}", failure or blocks.leak))
            failed |= commands
            if blocks.allocations < at:
                break
    return cases, failed


def fits(width, lines):
    """Whether the chunks that a script pushes have that width."""
    return all(len(words[1]) == 2 * width for words in commands_of(lines) if words[0] == "push-chunk")


def scripts(folder, count):
    """The examples and `count` random scripts, at each width that fits."""
    for path, width in itertools.product(sorted((TOP / "examples").glob("*.script")), WIDTHS):
        if fits(width, path.read_text().split("\n")):
            yield width, path
    for seed, width in itertools.product(range(count), WIDTHS):
        yield width, write(folder, f"{seed}_{width}.script", random_script(seed, width, FAILURE_STEPS).lines)


def shortfalls(counts):
    """The counts that are too small, as cases."""
    for width, (name, least) in itertools.product(WIDTHS, LEAST.items()):
        if counts[width][name] < least:
            yield f"width {width}", f"{counts[width][name]} {name}, not at least {least}"


def check_all_random(folder, pool, count):
    checked, counts = list(pool.map(partial(check_random, folder), range(count), chunksize=20)), {width: Counter() for width in WIDTHS}
    for width, found, _ in checked:
        counts[width] += found
    for width in WIDTHS:
        print(f"width {width}: " + ", ".join(f"{counts[width][name]} {name}" for name in ("commits", *LEAST)))
    return [case for _, _, case in checked] + list(shortfalls(counts))


def check_all_batches(folder, pool):
    checked = list(pool.map(partial(check_batches, folder), *zip(*itertools.product(BATCH_WIDTHS, starts(1)))))
    print(f"{sum(count for count, _ in checked)} batches")
    return [case for _, case in checked]


def check_all_failures(folder, pool, count):
    checked = list(pool.map(partial(check_failures, preloaded(folder)), *zip(*scripts(folder, count))))
    never = ALLOCATE.difference(*(failed for _, failed in checked))
    return [case for cases, _ in checked for case in cases] + [(command, f"never replies {NO_MEMORY}") for command in sorted(never)]


def main():
    what, *counts = sys.argv[1:] or [""]
    parts = {"random": check_all_random, "exhaustive": check_all_batches, "allocation_failures": check_all_failures}
    if what not in parts:
        sys.exit(__doc__)
    stop_without(PROGRAM)
    with tempfile.TemporaryDirectory() as folder, ProcessPoolExecutor() as pool:
        cases = parts[what](folder, pool, *map(int, counts))
    return report(what, cases)


if __name__ == "__main__":
    sys.exit(main())
