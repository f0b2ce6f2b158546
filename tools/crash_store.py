#!/usr/bin/env python3
"""Kills the program `store_runs`, which commits to a store of `log_store` in a file, and compares what the file then has with what was acknowledged.

usage: crash_store.py KILLS [SECONDS]   kills it so many times, or for at most so many seconds, not counting the other tests

The program prints each commit, and each drop of old commits, once it is kept. It is killed by SIGKILL at a random time, also while it creates its
file, opens it or compacts it. Then a run without commits prints what the file has: all changes that were acknowledged, and at most one more,
whole. The next run goes on with the same file, and after some kills with a new one. Of each file that is left behind, tools/formats.py reads the same
commits.

Before that, the program runs until its file cannot grow: by a limit on the size of files, and, as root, on a small file system in memory. It has to
end with the error of the system, and all that was acknowledged has to be there. The same holds if one of its calls on files fails: each of them
fails in turn with EIO, by a preloaded library, and has done nothing, half or all of its work (tools/fail_files.c). Two of these calls, at the creation
and at the compaction, are syncs of the folder. And a program that opens a file which another one has open has to end with an error.

The program is the one that the gate has built, or the one that the environment variable STORE_RUNS_PROGRAM names. The edits of a commit follow from
its number; `edited` makes the same ones as the program.
"""

import errno
import os
import random
import resource
import shutil
import signal
import subprocess
import sys
import tempfile
import time
from collections import Counter
from itertools import count, cycle
from pathlib import Path
from typing import NamedTuple

from formats import Formats, Historical, State, be64
from replay import SECONDS, TOP, stop_without

PROGRAM = Path(os.environ.get("STORE_RUNS_PROGRAM", TOP / "crates/store_runs/out/store_runs")).resolve()
FORMATS = Formats(8)
ENDLESS = 10**9  # more commits than a run makes before it is killed
TURNS_PER_FILE = 15
GATE = b"\xa5"  # the byte after the log

# The limits on the size of a file, in bytes, and the free sizes of a small file system, in KiB. Each stops the creation, a commit or a compaction.
LIMITS = (0, 1, 20, 64, 100, 150, 300, 3000, 5000, 9000, 14000, 15000)
FREE = (0, 4, 8, 12, 20, 24, 28, 36)
FILE_SYSTEM = 64

# How many commits a run makes, one of whose calls on files fails, and what that call has done. The run compacts its file once.
FAILING_COMMITS = 6
WAYS = ("nothing", "half", "whole")
FOLDER_SYNCS = 2

# A folder in memory, in which a sync takes no time. Half of the files are there.
MEMORY = "/dev/shm"


class Wrong(Exception):
    """What a file or a run should not be."""


class Bits(NamedTuple):
    """A bitmap: the number of pruned chunks, and the retained bits as a number of so many bits."""

    pruned: int = 0
    count: int = 0
    value: int = 0

    def length(self):
        return 64 * self.pruned + self.count

    def pushed(self, value, count):
        return Bits(self.pruned, self.count + count, self.value | value << self.count)

    def pruned_to(self, position):
        chunks = max(position // 64 - self.pruned, 0)
        return Bits(self.pruned + chunks, self.count - 64 * chunks, self.value >> 64 * chunks)

    def state(self):
        return State(self.pruned, self.length(), self.value.to_bytes(8 * -(-self.count // 64), "little"))


def edited(bits, number):
    """The bitmap after the edits of a commit."""
    count = 1500 if number % 8 == 0 else number % 4
    words = b"".join(be64((number + index) * 0x9E3779B97F4A7C15 % 2**64)[::-1] for index in range(count))
    bits = bits.pushed(int.from_bytes(words, "little"), 64 * count).pushed(int(number % 3 == 0), 1)
    at = max(bits.length() - number % 5000, 0) - 64 * bits.pruned
    if 0 <= at < bits.count:
        bits = bits._replace(value=bits.value | 1 << at)
    return bits.pruned_to(max(bits.length() - 100_000, 0))


class Kept(NamedTuple):
    """What a file has to have: the current bitmap, the kept commits, and the number of the last one. Also whether the next change is a commit, since old
    commits were dropped before it."""

    current: Bits = Bits()
    commits: dict = {}
    last: int = 0
    has_dropped: bool = False

    def next_line(self):
        """The line that the program prints of the next change."""
        number = self.last + 1
        return f"commit {number}" if number % 5 or self.has_dropped else f"drop {number - 3}"

    def after(self):
        """What is kept after the next change."""
        kind, number = self.next_line().split()
        if kind == "drop":
            return self._replace(commits={each: bits for each, bits in self.commits.items() if each >= int(number)}, has_dropped=True)
        bits = edited(self.current, int(number))
        return Kept(bits, {**self.commits, int(number): bits}, int(number))

    def historical(self):
        return Historical(self.current.state(), {number: bits.state() for number, bits in self.commits.items()}, self.last or None)


def shown(bitmap):
    """The lines that a run without commits prints of a historical bitmap."""
    last = bitmap.last or 0
    states = [("current", last, bitmap.current), *(("kept", number, state) for number, state in bitmap.kept.items())]
    return [f"last {last}", *(f"{word} {number} {FORMATS.write_pruned(state).hex()}" for word, number, state in states)]


class Run(NamedTuple):
    status: int
    lines: list
    error: str


def run_of(process, seconds):
    """Waits for a program, and kills it after a while. A line that it has not ended is left out."""
    try:
        output, error = process.communicate(timeout=seconds)
    except subprocess.TimeoutExpired:
        process.kill()
        output, error = process.communicate()
    return Run(process.returncode, output.split("\n")[:-1], error)


def start(path, commits, limit=None, failing=None):
    """Starts the program, of which no file has more bytes than the limit. It gets an error, and no signal, at the limit: Python ignores the signal.
    The environment also has the variables of `failing`."""
    limits = limit is not None and (lambda: resource.setrlimit(resource.RLIMIT_FSIZE, (limit, limit)))
    return subprocess.Popen([PROGRAM, str(path), str(commits)], stdin=subprocess.DEVNULL, stdout=subprocess.PIPE, stderr=subprocess.PIPE, text=True,
                            preexec_fn=limits or None, restore_signals=False, env={**os.environ, **(failing or {})})


class Tested:
    """A file, what it has to have, and how often the program left what."""

    def __init__(self, path, counts):
        self.path, self.counts = path, counts
        self.kept, self.is_made = Kept(), False

    def follow(self, lines):
        """Goes on to what is kept after the lines that a program has printed. The program drops commits again if it did not commit after that."""
        if not lines:
            return
        self.is_made = True
        self.kept = self.kept._replace(has_dropped=False)
        if lines[0] != f"last {self.kept.last}":
            raise Wrong(f"the program found {lines[0]}, not {self.kept.last}")
        for line in lines[1:]:
            if line != self.kept.next_line():
                raise Wrong(f"the program printed {line}, not {self.kept.next_line()}")
            self.kept = self.kept.after()
            self.counts["changes"] += 1

    def compare(self):
        """Opens the file, and compares it with what was acknowledged, and with one change more."""
        if not self.is_made and not self.path.exists():
            return
        before = self.path.stat().st_size
        self.counts["replacements"] += Path(f"{self.path}.new").exists()
        found = run_of(start(self.path, 0), SECONDS)
        if not self.is_made and any(error in found.error for error in ("Header(Short)", "Header(NotALog)")):
            self.path.unlink()
            self.counts["creations"] += 1
            return
        if found.status:
            raise Wrong(f"the file is not opened: {found.error}")
        self.is_made = True
        self.counts["ends"] += self.path.stat().st_size < before
        if found.lines == shown(self.kept.historical()):
            return
        self.kept = self.kept.after()
        self.counts["further"] += 1
        if found.lines != shown(self.kept.historical()):
            raise Wrong(f"after {found.lines[0]} the file is neither with nor without the change that was cut off: {self.kept.next_line()} is next")

    def leave(self):
        """Compares the file with what the second reader reads in it, and removes it."""
        if not self.is_made:
            return
        data = self.path.read_bytes()
        if not data.endswith(GATE) or FORMATS.recover(data[:-1]).bitmap != self.kept.historical():
            raise Wrong("the second reader reads other commits")
        self.path.unlink()


def check_stopped(tested, code, run):
    """Compares the file of a program that ended because a call on it failed."""
    if run.status != 1 or f"Failed(Some({code}))" not in run.error or run.error.count("\n") != 1:
        raise Wrong(f"the program ended with {run.status}: {run.error}")
    tested.follow(run.lines)


def check_limits(folder, counts):
    """Runs the program with limits on the size of its file, and without one afterwards."""
    for limit in LIMITS:
        tested = Tested(folder / f"limited{limit}", counts)
        check_stopped(tested, errno.EFBIG, run_of(start(tested.path, ENDLESS, limit), SECONDS))
        go_on(tested)
        counts["stops"] += 1


def go_on(tested):
    """Compares a file, lets the program make ten further commits, and compares it again."""
    tested.compare()
    further = run_of(start(tested.path, 10), SECONDS)
    if further.status:
        raise Wrong(f"the program cannot go on: {further.error}")
    lines = further.lines.index(f"commit {tested.kept.last + 10}") + 1
    tested.follow(further.lines[:lines])
    tested.compare()
    tested.leave()


def check_full(folder, counts):
    """Fills a small file system, and makes space. Returns whether it can be mounted."""
    folder.mkdir()
    mount = ["mount", "-t", "tmpfs", "-o", f"size={FILE_SYSTEM}k", "mortarpink", folder]
    if subprocess.run(mount, stderr=subprocess.DEVNULL).returncode:
        return False
    try:
        for free in FREE:
            filler, tested = folder / "filler", Tested(folder / "full", counts)
            filler.write_bytes(bytes(1024 * (FILE_SYSTEM - free)))
            check_stopped(tested, errno.ENOSPC, run_of(start(tested.path, ENDLESS), SECONDS))
            filler.unlink()
            go_on(tested)
            counts["full"] += 1
    finally:
        subprocess.run(["umount", folder], check=True)
    return True


def failures(folder, counts, failing):
    """Runs the program with each of its calls on files failing in turn, and without that afterwards. Returns how many calls fail."""
    for number in count(1):
        tested = Tested(folder / "failing", counts)
        run = run_of(start(tested.path, FAILING_COMMITS, failing={**failing, "FAIL_CALL": str(number)}), SECONDS)
        if run.status == 0:
            tested.path.unlink()
            return number - 1
        check_stopped(tested, errno.EIO, run)
        go_on(tested)


def check_failures(folder, counts):
    """Lets the calls of the program on files fail, in all ways, and those for the folder by themselves."""
    library = folder / "fail_files.so"
    subprocess.run(["cc", "-O2", "-Wall", "-Wextra", "-shared", "-fPIC", "-o", library, TOP / "tools/fail_files.c", "-ldl"], check=True)
    preloaded = {"LD_PRELOAD": str(library)}
    counts["failures"] = sum(failures(folder, counts, {**preloaded, "FAIL_AS": way}) for way in WAYS)
    if failures(folder, counts, {**preloaded, "FAIL_FOLDERS": "1"}) != FOLDER_SYNCS:
        raise Wrong("the folder is not synced at the creation and at the compaction alone")


def check_second(folder, counts):
    """Opens a file while a program that commits to it is stopped."""
    tested = Tested(folder / "shared", counts)
    writer = start(tested.path, ENDLESS)
    first = b"".join(iter(lambda: os.read(writer.stdout.fileno(), 1), b"\n")).decode()
    writer.send_signal(signal.SIGSTOP)
    second = run_of(start(tested.path, 1), SECONDS)
    if second.status != 1 or second.lines or "File(Locked)" not in second.error:
        raise Wrong(f"the second program ended with {second.status}: {second.error}")
    tested.follow([first, *run_of(writer, 0).lines])
    tested.compare()
    tested.leave()


def seconds_of(path, commits):
    """How many seconds a run takes."""
    begin = time.monotonic()
    run_of(start(path, commits), SECONDS)
    return time.monotonic() - begin


def kill(tested, commits, longest):
    """Kills the program after a random time. Returns the lines that it has printed."""
    run = run_of(start(tested.path, commits), random.uniform(0, longest))
    if run.status not in (0, -signal.SIGKILL) or (run.status == 0 and commits):
        raise Wrong(f"the program ended by itself with {run.status}: {run.error}")
    tested.counts["kills"] += run.status != 0
    return run.lines


def check_kills(folders, counts, kills, seconds):
    """Kills the program so many times, or until the time is over. The files are in these folders in turn."""
    places = [(folder, seconds_of(folder / "timed", 0), seconds_of(folder / "timed", 16)) for folder in folders]
    end = time.monotonic() + seconds
    for place in cycle(places):
        tested = Tested(place[0] / "killed", counts)
        for turn in range(TURNS_PER_FILE):
            if counts["kills"] >= kills or time.monotonic() >= end:
                tested.leave()
                return
            check_kill(tested, turn, *place[1:])
        tested.leave()


def check_kill(tested, turn, to_open, to_commit):
    """Kills the program, and compares what is left. Every third time, the run that opens what is left is killed too."""
    tested.follow(kill(tested, ENDLESS, to_commit if tested.is_made else to_open))
    if tested.is_made and turn % 3 == 0:
        kill(tested, 0, to_open)
    tested.compare()


def main():
    stop_without(PROGRAM)
    kills, seconds = int(sys.argv[1]), float(sys.argv[2]) if len(sys.argv) > 2 else float("inf")
    counts, disk = Counter(), Path(tempfile.mkdtemp(prefix="crash-store-"))
    memory = Path(tempfile.mkdtemp(prefix="crash-store-", dir=MEMORY)) if os.access(MEMORY, os.W_OK) else disk
    try:
        check_second(memory, counts)
        check_limits(memory, counts)
        check_failures(memory, counts)
        is_mounted = check_full(disk / "small", counts)
        check_kills([memory, disk], counts, kills, seconds)
    except Wrong as error:
        print(f"crash_store: {error}\nthe files are in {memory} and {disk}, after {dict(counts)}")
        return 1
    for folder in {memory, disk}:
        shutil.rmtree(folder)
    disks = f"{counts['full']} full file systems" if is_mounted else "no full file system, since none can be mounted here"
    print(f"crash_store: {counts['kills']} kills, {counts['stops']} limits on the size of the file, {counts['failures']} calls that failed, {disks}; "
          f"{counts['changes']:,} changes acknowledged")
    print(f"left by them: {counts['further']} changes whole that were not acknowledged, {counts['ends']} ends that were cut off, "
          f"{counts['replacements']} compactions that had no effect, {counts['creations']} files without a store")
    print("nothing that was acknowledged is lost, and nothing else is half there")
    return 0


if __name__ == "__main__":
    if len(sys.argv) not in (2, 3):
        sys.exit(__doc__)
    sys.exit(main())
