"""Prints what calls cost from Python, and how long a commit waits for a thread that reads an old version.

Run it in this folder, with the folder of the C library in MORTARPINK_LIB_DIR:

    MORTARPINK_LIB_DIR=$HOME/mortarpink/lib python3 speed.py

The bitmaps have 2^20 bits in chunks of 8 bytes. Each figure in nanoseconds is the least of several rounds.
"""

import threading
from statistics import median
from time import perf_counter

from mortarpink import Bitmap, InBatchError

BITS = 1 << 20
CALLS = 200_000
ROUNDS = 5
COMMITS = 10_000
WAITS = 200
MANY = 10_000_000


def seconds(work):
    """The seconds that a piece of work takes."""
    start = perf_counter()
    work()
    return perf_counter() - start


def per_call(work, calls):
    """The nanoseconds per call of the fastest round."""
    return 1e9 * min(seconds(work) for _ in range(ROUNDS)) / calls


def bitmap_with_commits(count):
    """A bitmap of zeros whose commits set one bit each."""
    bitmap = Bitmap()
    with bitmap.batch(commit=0) as batch:
        batch.extend_to(BITS)
    for number in range(1, count + 1):
        with bitmap.batch(commit=number) as batch:
            batch[number * 7919 % BITS] = True
    return bitmap


def pushed(call, *arguments):
    """A piece of work: a batch in which a call is made, and which is aborted."""

    def work():
        batch = Bitmap().batch()
        getattr(batch, call)(*arguments)
        batch.abort()

    return work


def single_pushes():
    """Appends bits one by one."""
    batch = Bitmap().batch()
    for _ in range(CALLS):
        batch.push(True)
    batch.abort()


def reads(bits):
    """A piece of work: reads bits one by one."""

    def work():
        for position in range(CALLS):
            bits[position]

    return work


def print_calls():
    """Prints the nanoseconds per call, or per bit of a call with many bits."""
    bitmap = bitmap_with_commits(COMMITS)
    bools, packed = bytes(MANY), bytes(MANY // 8)
    rows = [
        ("`push`, per call", single_pushes, CALLS),
        ("`bitmap[position]`, per call", reads(bitmap), CALLS),
        ("`push_bits` of 10 million bools, per bit", pushed("push_bits", bools), MANY),
        ("`push_bytes` of 1.25 million bytes, per bit", pushed("push_bytes", packed), MANY),
        ("`ones_array` of the current bitmap, per bit of the bitmap", bitmap.ones_array, BITS),
        ("`packed`, per bit of the bitmap", bitmap.packed, BITS),
    ]
    print("| Call | ns |\n|---|---|")
    for name, work, calls in rows:
        print(f"| {name} | {per_call(work, calls):.3g} |", flush=True)


def commit_times(bitmap, read):
    """The milliseconds that each of some commits takes while another thread reads again and again, or nothing if there is no read."""
    done = threading.Event()

    def read_on():
        while not done.is_set():
            try:
                read()
            except InBatchError:  # a version is not read while there is a batch
                pass

    reader = threading.Thread(target=read_on)
    if read:
        reader.start()
    times = []
    for k in range(WAITS):
        number = bitmap.latest + 1

        def commit():
            with bitmap.batch(commit=number) as batch:
                batch[k] = True

        times.append(1e3 * seconds(commit))
    done.set()
    if read:
        reader.join()
    return times


def print_waits():
    """Prints how long a commit takes while another thread counts the set bits of the oldest version."""
    print("\n| While another thread | a commit takes in the median, ms | at most, ms |\n|---|---|---|")
    bitmap = bitmap_with_commits(COMMITS)
    oldest = bitmap.at(0)
    copy = bitmap.checkout(0)
    ways = [("does nothing", None, False), ("counts the oldest version in place", oldest.count_ones, False),
            ("counts it in place, with an index", oldest.count_ones, True), ("counts a bitmap of it, by `checkout`", copy.count_ones, False)]
    for name, read, indexed in ways:
        bitmap.set_indexed(indexed)
        times = commit_times(bitmap, read)
        print(f"| {name} | {median(times):.3g} | {max(times):.3g} |", flush=True)


if __name__ == "__main__":
    print_calls()
    print_waits()
