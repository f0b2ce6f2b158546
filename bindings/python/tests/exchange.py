#!/usr/bin/env python3
"""Two programs change one store in turn, this one and one in Rust, and each is killed. What is left is compared with what was acknowledged.

usage: exchange.py PROGRAM KILLS [SEED]     PROGRAM is the example `crash` of the Rust crate in `native`, which makes the same changes
       exchange.py write PATH ROUND FIRST   the program that is killed: it prints the number of each change that was acknowledged

Each program opens what the other one has left, whole or cut off. The library reads the file between the two, and writes nothing.
"""

import random
import signal
import subprocess
import sys
import tempfile
import time
from pathlib import Path

sys.path.insert(0, str(Path(__file__).parent.parent))

from mortarpink import Bitmap, Store

MAX = 2**64 - 1


class Random:
    """Numbers that look random: those of SplitMix64."""

    def __init__(self, state):
        self.state = state

    def below(self, end):
        self.state = self.state + 0x9E3779B97F4A7C15 & MAX
        value = self.state
        value = (value ^ value >> 30) * 0xBF58476D1CE4E5B9 & MAX
        value = (value ^ value >> 27) * 0x94D049BB133111EB & MAX
        return (value ^ value >> 31) % end


def last_number(bitmap):
    """Returns the last number of a bitmap, or 0. If no commit is kept, it is in the history."""
    return bitmap.latest or int.from_bytes(bitmap.save()[50:58], "big")


def edit(index, batch):
    """Edits a batch: one entry in eight has many chunks."""
    numbers = Random(index ^ MAX)
    for _ in range(300 if numbers.below(8) == 0 else numbers.below(5)):
        batch.push_chunk(numbers.below(MAX).to_bytes(8, "little"))
    first = 64 * batch.pruned_chunks
    if batch.length > first:
        position = first + numbers.below(batch.length - first)
        batch[position] = numbers.below(2) == 0
    batch.push(numbers.below(2) == 0)
    batch.prune(max(batch.length - 50_000, 0))


def change(bitmap, index):
    """Makes the change of a number, which also depends on what is kept, of a store or of a bitmap."""
    numbers, kept = Random(index), list(bitmap.commits())
    kind = numbers.below(40)
    if kind < 3 and kept:
        bitmap.rewind_to(kept[numbers.below(len(kept))])
    elif kind < 6 and kept:
        bitmap.drop_before(kept[numbers.below(len(kept))])
    elif kind == 6:
        bitmap.clear()
    elif kind == 7:
        getattr(bitmap, "compact", lambda: None)()
    else:
        with bitmap.batch(commit=last_number(bitmap) + 1) as batch:
            edit(index, batch)


def write(path, turn, first):
    """Changes the store, from a change on, and prints the number of each one that has returned. It ends when it is killed."""
    with Store(path, buffered=turn % 2 == 1, compact_automatically=turn % 3 == 0) as store:
        while True:
            change(store, first)
            sys.stdout.buffer.write(first.to_bytes(8, "little"))
            sys.stdout.buffer.flush()
            first += 1


def killed(command, first, seconds):
    """Starts a program that writes, and kills it after a while. Returns the number of the change after the last one that was acknowledged."""
    with subprocess.Popen(command, stdout=subprocess.PIPE, stderr=subprocess.PIPE, bufsize=0) as process:
        begun = process.stdout.read(8)
        time.sleep(seconds)
        process.send_signal(signal.SIGKILL)
        printed, errors = process.communicate()
    if process.returncode != -signal.SIGKILL:
        sys.exit(f"exchange: {command[0]} ended by itself: {errors.decode()}")
    printed = begun + printed
    numbers = printed[: len(printed) // 8 * 8]
    return int.from_bytes(numbers[-8:], "little") + 1 if numbers else first


def run(program, kills, seed):
    """Kills the programs in turn, so many times."""
    chooser, expected, changes, further = random.Random(seed), Bitmap(), 0, 0
    with tempfile.TemporaryDirectory() as folder:
        path = Path(folder, "exchange.log")
        for turn in range(kills):
            words = ["write", str(path), str(turn), str(changes)]
            command = [program, *words] if turn % 2 == 0 else [sys.executable, __file__, *words]
            acknowledged = killed(command, changes, chooser.uniform(0, 0.06))
            found, _ = Bitmap.recover(path.read_bytes())
            while changes < acknowledged:
                change(expected, changes)
                changes += 1
            if found.save() != expected.save():
                change(expected, changes)
                changes, further = changes + 1, further + 1
            if found.save() != expected.save():
                sys.exit(f"exchange: after kill {turn} of seed {seed} the store is neither with nor without the change that was cut off")
    print(f"{kills} kills, {changes} changes, {further} of them found whole that were not acknowledged")


def main():
    words = sys.argv[1:]
    if words[:1] == ["write"] and len(words) == 4:
        write(words[1], int(words[2]), int(words[3]))
    elif len(words) in (2, 3):
        run(words[0], int(words[1]), int(words[2]) if len(words) == 3 else time.time_ns())
    else:
        sys.exit(__doc__)


if __name__ == "__main__":
    main()
