#!/usr/bin/env python3
"""Runs the program `root_runs` on random histories, and compares the roots and the proofs that it prints with tools/roots.py.

usage: check_roots.py [COUNT [SEED]]   COUNT random histories of an authenticated bitmap, or 10,000, at each of four widths in turn

Each history has edits, commits and aborts, and at least one pop, one pruned chunk, one rewind, one drop of old versions, one clear, and one
command that is refused. After each change of what is kept, the current root and the root of every kept version are compared, and with each commit
the proof of a chunk of the new version. At the end of a history, and before its rewind, its drop and its clear, proofs of a chunk and of a range of
every kept version are compared. Each proof is read and verified by tools/roots.py, which must refuse a copy with a flipped bit.

The bits of every version are lists, which tools/model.py edits. Roots and proofs are computed from these lists with Python's hashlib. The program is
the one that the gate has built, or the one that the environment variable ROOT_RUNS_PROGRAM names. Random histories have fixed seeds.
"""

import os
import subprocess
import sys
import tempfile
from collections import Counter
from concurrent.futures import ProcessPoolExecutor
from functools import partial
from pathlib import Path
from typing import NamedTuple, Optional

from check_runs import RandomScript
from model import LAST, Bitmap, Model, Refused, bits_of, bytes_of
from replay import SECONDS, TOP, report, stop_without
from roots import audit_path, encoding, leaf, range_encoding, range_siblings, range_verifies, read, read_range, root, tree, verifies

PROGRAM = Path(os.environ.get("ROOT_RUNS_PROGRAM", TOP / "crates/root_runs/out/root_runs")).resolve()

WIDTHS = (1, 3, 8, 32)

# How many histories the program runs at once.
BLOCK = 50

# The commands of the program that change a bitmap or what it keeps, and as what they are counted if they are accepted.
COMMANDS = {name: "edits" for name in ("push", "push-byte", "push-chunk", "truncate", "extend", "set", "set-chunk", "prune")}
COMMANDS |= {"pop": "pops", "begin": "batches", "commit": "commits", "abort": "aborts", "rewind": "rewinds", "drop-before": "drops", "clear": "clears"}

# Those that change what is kept.
KEEPING = {"commit", "rewind", "drop-before", "clear"}

# What is counted, in the order in which it is printed.
COUNTED = (
    "edits", "pops", "pruned chunks", "commits", "aborts", "rewinds", "drops", "clears", "dropped versions", "refused commands", "roots", "proofs of chunks",
    "proofs of ranges", "changed proofs",
)

# What each history has.
IN_EACH = ("pops", "pruned chunks", "rewinds", "clears", "dropped versions", "refused commands")

# The index of the first chunk of a proof is in these bytes of its encoding. Chunks may also be at another index, so no bit of it is flipped.
INDEX = range(24, 32)

# How the proof that a command prints is read and verified, and as what it is counted.
PROOFS = {"prove": (read, verifies, "proofs of chunks"), "prove-range": (read_range, range_verifies, "proofs of ranges")}


class RootModel(Model):
    """The reference model with three more edits."""

    EDITS = Model.EDITS | {"truncate", "extend", "set-chunk"}
    WITHOUT_NUMBERS = Model.WITHOUT_NUMBERS | {"set-chunk"}

    def truncate(self, state, length):
        if not self.first(state.pending) <= length <= self.length(state.pending):
            raise Refused("out-of-bounds")
        return self.edited(state, state.pending._replace(bits=state.pending.bits[: length - self.first(state.pending)]), ())

    def extend(self, state, length):
        zeros = (0,) * max(length - self.length(state.pending), 0)
        return self.edited(state, state.pending._replace(bits=state.pending.bits + zeros), ())

    def set_chunk(self, state, index, digits):
        pruned, bits = state.pending
        start = (int(index) - pruned) * self.chunk_bits
        if not 0 <= start < len(bits):
            raise Refused("out-of-bounds")
        chunk = bits_of(bytes.fromhex(digits))[: len(bits) - start]
        return self.edited(state, Bitmap(pruned, bits[:start] + chunk + bits[start + len(chunk) :]), ())


class Version(NamedTuple):
    """A state of a bitmap, the bytes of its retained chunks, the digest of each chunk, and its root."""

    bitmap: Bitmap
    chunks: list
    digests: list
    root: bytes


class Asked(NamedTuple):
    """A command, the lines that it has to print, and for a proof the root against which it verifies."""

    command: str
    lines: tuple = ()
    root: Optional[bytes] = None


def is_refused(reply):
    return str(reply).startswith("refused")


class RootScript(RandomScript):
    """A random history, with the lines that the program has to print for it."""

    def __init__(self, seed, width):
        super().__init__(f"roots {seed}", width)
        self.model = RootModel(width)
        self.versions, self.asked, self.is_ending = {}, [Asked("new", ("new",))], False
        self.current = self.version(Bitmap(), [])

    # Versions

    def version(self, bitmap, before):
        """The version of a bitmap, after a version with these digests."""
        width, length = self.model.width, self.model.length(bitmap)
        data = bytes_of(bitmap.bits).ljust((self.model.chunks(bitmap) - bitmap.pruned) * width, bytes(1))
        chunks = [data[at : at + width] for at in range(0, len(data), width)]
        # A pruned chunk has the digest that it had before, or that of zeros if no version has its bytes.
        pruned = [before[index] if index < len(before) else leaf(bytes(width)) for index in range(bitmap.pruned)]
        digests = [*pruned, *map(leaf, chunks)]
        return Version(bitmap, chunks, digests, root(width, length, bitmap.pruned, tree(digests)))

    def add(self, *lines):
        """Adds those lines that the program has. After each that changes what is kept, the roots are asked for."""
        for line in lines:
            name, *given = line.split(" ")
            if name not in COMMANDS:
                continue
            before = self.state
            super().add(line)
            if is_refused(self.replies[-1]):
                self.ask(line, "refused")
            else:
                self.ask(line)
                self.follow(name, given, before)

    def count(self, words, reply):
        self.counts["refused commands" if is_refused(reply) else COMMANDS[words[0]]] += 1

    def follow(self, name, given, before):
        """Follows a command that was accepted."""
        if name == "commit":
            self.current = self.versions[int(given[0])] = self.version(self.state.current, self.current.digests)
            self.counts["pruned chunks"] += self.state.current.pruned - before.current.pruned
        if name == "rewind":
            self.current = self.versions[int(given[0])]
        self.counts["dropped versions"] += max(len(before.history) - len(self.state.history), 0)
        if name in KEEPING:
            self.ask_roots()
        if name == "commit":
            self.ask_proof(int(given[0]))

    # What the program has to print

    def ask(self, command, *lines):
        self.asked.append(Asked(command, lines))

    def ask_roots(self):
        kept = [f"{number} {self.versions[number].root.hex()}" for number in self.state.history]
        self.ask("roots", f"current {self.current.root.hex()}", *kept)
        self.counts["roots"] += 1 + len(kept)

    def ask_proof(self, number):
        """Asks for the proof of the chunk of a random position of a version. There is none if the version retains no bit."""
        version, pruned = self.versions[number], self.versions[number].bitmap.pruned
        first, length = self.model.first(version.bitmap), self.model.length(version.bitmap)
        if first == length:
            self.ask(f"prove {number} {first}", "refused")
            return
        position = self.random.randrange(first, length)
        index = position // self.model.chunk_bits
        data = encoding(self.model.width, length, pruned, index, version.chunks[index - pruned], audit_path(index, version.digests))
        self.asked.append(Asked(f"prove {number} {position}", (data.hex(),), version.root))

    def ask_range(self, number):
        """Asks for the proof of a random range of chunks of a version. There is none if the version retains no chunk."""
        version, pruned = self.versions[number], self.versions[number].bitmap.pruned
        if not version.chunks:
            self.ask(f"prove-range {number} {pruned} 1", "refused")
            return
        start = self.random.randrange(len(version.chunks))
        chunks = version.chunks[start : self.random.randint(start + 1, len(version.chunks))]
        first, length = pruned + start, self.model.length(version.bitmap)
        data = range_encoding(self.model.width, length, pruned, first, chunks, range_siblings(first, len(chunks), version.digests))
        self.asked.append(Asked(f"prove-range {number} {first} {len(chunks)}", (data.hex(),), version.root))

    def ask_proofs(self):
        """Asks for proofs of each kept version, and for proofs that there are not."""
        for number in self.state.history:
            self.ask_proof(number)
            self.ask_range(number)
            bitmap, count = self.versions[number].bitmap, self.model.chunks(self.versions[number].bitmap)
            positions, ranges = [self.model.length(bitmap), LAST], [(bitmap.pruned, 0), (count - 1, 2), (count, 1), (bitmap.pruned, LAST), (LAST, LAST)]
            if bitmap.pruned:
                positions.append(self.model.first(bitmap) - 1)
                ranges.append((bitmap.pruned - 1, 1))
            first, length = self.random.choice(ranges)
            self.ask(f"prove {number} {self.random.choice(positions)}", "refused")
            self.ask(f"prove-range {number} {max(first, 0)} {length}", "refused")
        absent = self.random.choice([number for number in (*self.versions, LAST) if number not in self.state.history])
        self.ask(f"prove {absent} {self.position()}", "refused")
        self.ask(f"prove-range {absent} {self.state.current.pruned} 1", "refused")

    # Random steps

    def batch_step(self):
        if self.random.random() < 0.9:
            super().batch_step()
            return
        end, bits = self.length(), self.model.chunk_bits
        self.add(self.random.choice([
            f"truncate {self.position()}", f"truncate {end - self.random.randint(0, min(2 * bits, end))}",
            f"extend {end + self.random.randint(-1, 2 * bits) if end else 1}",
            f"set-chunk {self.position() // bits} {self.digits(self.model.width)}", f"set-chunk {end // bits} {self.digits(self.model.width)}",
        ]))

    def last(self):
        return -1 if self.state.last is None else self.state.last

    def next_number(self):
        """A number for a commit. No commit can follow the greatest one, so it comes at the end of a history alone."""
        number = super().next_number()
        return number if number < LAST - 1 or self.is_ending else LAST

    def pop(self, count):
        """Pops so many bits one by one, or cuts them off at once if they are many."""
        bits = self.bitmap().bits
        if min(count, len(bits)) > self.model.chunk_bits + 8:
            self.add(f"truncate {self.length() - min(count, len(bits))}")
        else:
            super().pop(count)

    def in_batch(self):
        if self.state.pending is None:
            self.add("begin")

    def outside(self):
        """Ends the batch if there is one. It is mostly committed. Some version is kept after it."""
        if self.state.pending is not None:
            self.add(f"commit {self.next_number()}", "abort")
        if not self.state.history:
            self.add("begin", f"push {self.random.randint(0, 1)}", f"commit {self.last() + 1}")

    def pop_one(self):
        self.in_batch()
        self.add(f"push {self.random.randint(0, 1)}", "pop")

    def prune_one(self):
        self.in_batch()
        self.add(f"push-chunk {self.digits(self.model.width)}")
        if self.random.random() < 0.5:
            self.add(f"commit {self.last() + 1}", "begin")
        self.add(f"prune {self.random.choice([self.length(), self.first() + self.model.chunk_bits])}", f"commit {self.last() + 1}")

    def rewind_one(self):
        self.outside()
        self.ask_proofs()
        self.add(f"rewind {self.random.choice(list(self.state.history))}")

    def drop_one(self):
        self.outside()
        self.add("begin", f"set {self.position()} 1", f"commit {self.last() + 1}")
        self.ask_proofs()
        self.add(f"drop-before {self.random.choice(list(self.state.history)[1:])}")

    def clear_once(self):
        self.outside()
        self.ask_proofs()
        self.add("clear")

    def refuse_one(self):
        self.outside()
        refused = [f"commit {self.random.randint(self.last() + 1, LAST)}", f"rewind {self.last() + 1}", "abort", f"push {self.random.randint(0, 1)}"]
        self.add(self.random.choice(refused), "begin", f"commit {self.random.choice([self.last(), LAST])}", f"set {self.length()} 1", "clear")

    def run(self):
        """Takes all steps of a history."""
        chance, events = self.random, [self.pop_one, self.prune_one, self.rewind_one, self.drop_one, self.clear_once, self.refuse_one]
        most = chance.choices([0, 8, 40, 130], [60, 25, 12, 3])[0]
        self.add("begin", *[f"push-chunk {self.digits(self.model.width)}" for _ in range(chance.randint(most // 4, most))])
        for event in chance.sample(events, len(events)):
            self.steps(chance.randint(1, 9))
            event()
        self.is_ending = True
        self.steps(chance.randint(1, 20))
        for _ in range(chance.choices([0, 15], [9, 1])[0]):
            self.add("begin", f"set {self.position()} {chance.randint(0, 1)}", f"push {chance.randint(0, 1)}", f"commit {self.last() + 1}", "abort")
        self.outside()
        self.ask_proofs()
        return self


class Case(NamedTuple):
    """A history: what it is, what is wrong with it or None, and the counts of what it has."""

    name: str
    failure: Optional[str]
    counts: Counter


def first_difference(script, printed):
    """The first difference between what a program has printed for a script and what it has to print, or None."""
    expected = [(at, line) for at, asked in enumerate(script.asked) for line in asked.lines]
    for (at, line), found in zip(expected, printed):
        if found != line:
            recent = "; ".join(asked.command for asked in script.asked[max(at - 9, 0) : at + 1])
            return f"command {at}: {recent}: {found}, not {line}"
    if len(printed) != len(expected):
        return f"{len(printed)} lines, not {len(expected)}"
    proofs = [(script.asked[at], found) for (at, _), found in zip(expected, printed) if script.asked[at].root]
    return next(filter(None, (proof_failure(script, asked, found) for asked, found in proofs)), None)


def proof_failure(script, asked, printed):
    """What is wrong with a printed proof, or None: it has to verify, and a copy with a flipped bit must not."""
    name = asked.command.split(" ")[0]
    data = bytes.fromhex(printed)
    script.counts[PROOFS[name][2]] += 1
    if not is_proof(name, script.model.width, asked.root, data):
        return f"{asked.command}: {printed} does not verify against {asked.root.hex()}"
    byte = script.random.choice([script.random.randrange(INDEX.start), script.random.randrange(INDEX.stop, len(data))])
    changed = data[:byte] + bytes([data[byte] ^ 1 << script.random.randrange(8)]) + data[byte + 1 :]
    script.counts["changed proofs"] += 1
    if is_proof(name, script.model.width, asked.root, changed):
        return f"{asked.command}: {changed.hex()} verifies against {asked.root.hex()}"
    return None


def is_proof(name, width, wanted, data):
    """Whether bytes are the encoding of a proof that verifies against a root. The proof is of the kind that a command prints."""
    read_proof, verifies_proof, _ = PROOFS[name]
    proof = read_proof(width, data)
    return not isinstance(proof, str) and verifies_proof(wanted, *proof)


def run(width, lines):
    """The lines that the program prints for those of a script."""
    with tempfile.NamedTemporaryFile("w", suffix=".script") as file:
        file.write("".join(f"{line}\n" for line in lines))
        file.flush()
        ended = subprocess.run([PROGRAM, str(width), file.name], capture_output=True, text=True, timeout=SECONDS)
    return [*ended.stdout.splitlines(), *([f"status {ended.returncode}: {ended.stderr}"] if ended.returncode else [])]


def block(number, count, seed):
    """The cases of some histories at one width, which the program runs one after another."""
    width = WIDTHS[number % len(WIDTHS)]
    first = number // len(WIDTHS) * BLOCK * len(WIDTHS) + number % len(WIDTHS)
    numbers = range(first, min(first + BLOCK * len(WIDTHS), count), len(WIDTHS))
    scripts = [RootScript(f"history {at} of the seed {seed}", width).run() for at in numbers]
    printed = run(width, [asked.command for script in scripts for asked in script.asked])
    starts = [at for at, line in enumerate(printed) if line == "new"]
    parts = [printed[start:end] for start, end in zip(starts, [*starts[1:], len(printed)])]
    parts += [[f"nothing, and the last line is {printed[-1:]}"]] * (len(scripts) - len(parts))
    return [case(f"history {at} of the seed {seed} at width {width}", *each) for at, *each in zip(numbers, scripts, parts)]


def case(name, script, printed):
    never = [kind for kind in IN_EACH if not script.counts[kind]]
    return Case(name, f"it has no {', '.join(never)}" if never else first_difference(script, printed), script.counts)


def main():
    stop_without(PROGRAM)
    count, seed = int(sys.argv[1]) if len(sys.argv) > 1 else 10_000, sys.argv[2] if len(sys.argv) > 2 else "0"
    with ProcessPoolExecutor() as pool:
        blocks = pool.map(partial(block, count=count, seed=seed), range(-(-count // (BLOCK * len(WIDTHS))) * len(WIDTHS)))
        cases = [case for found in blocks for case in found]
    counts = sum((case.counts for case in cases), Counter())
    print(f"roots of histories, seed {seed}: " + ", ".join(f"{counts[kind]:,} {kind}" for kind in COUNTED))
    return report("roots of histories", [(case.name, case.failure) for case in cases], "histories")


if __name__ == "__main__":
    if len(sys.argv) > 3 or any(not word.isdigit() for word in sys.argv[1:2]):
        sys.exit(__doc__)
    sys.exit(main())
