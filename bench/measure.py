"""Measures what calls cost.

The cost of a call is the processor time of a run, less that of a run with 0 calls. Of each it is the least of several runs, so the start of the
program, and the making of the bitmap, do not count. The programs take turns, so what else the machine does falls on all of them.
"""

import fcntl
import os
import re
import subprocess
import sys
import tempfile
import time
from math import inf
from pathlib import Path
from typing import NamedTuple

# Calls whose checksums differ between programs, because they are hash values.
OWN_SUMS = {"hash"}
# The least time, in seconds, that a difference between two runs can show.
RESOLUTION = 20e-6


class Call(NamedTuple):
    name: str
    times: int  # how often a run runs it
    units: int = 1  # what it does each time, in the units of its table
    others: int = 0  # how often the other programs run it, if they take a far shorter time; else 0


class Run(NamedTuple):
    seconds: float
    megabytes: float
    checksum: str


class Cost(NamedTuple):
    seconds: float  # of all calls of a run
    megabytes: float  # the peak memory that these calls add


def full_pipe():
    """The two ends of a pipe that takes no further byte, and the number of bytes in it."""
    reader, writer = os.pipe()
    size = fcntl.fcntl(writer, fcntl.F_SETPIPE_SZ, 4096)
    os.write(writer, bytes(size))
    return reader, writer, size


def state(process):
    """The letter of a process's state in /proc: S if it waits, Z if it has ended."""
    return Path(f"/proc/{process}/stat").read_text().rpartition(")")[2].split()[0]


def peak(process):
    """The peak memory of a process that has not been waited for, in megabytes: 0 if it has ended.

    The resource usage of an ended process would not do, because it counts the memory that Python had when it started the process."""
    lines = Path(f"/proc/{process}/status").read_text().splitlines()
    return next((int(line.split()[1]) * 1024 / 1e6 for line in lines if line.startswith("VmHWM")), 0)


def run(program, words):
    """Runs a program. Its output is a pipe that is full, so it waits when it prints, and its peak memory can be read."""
    reader, writer, size = full_pipe()
    process = subprocess.Popen([program.path, *map(str, words)], stdin=subprocess.DEVNULL, stdout=writer)
    os.close(writer)
    while state(process.pid) not in "SZ":
        time.sleep(0.0005)
    megabytes = peak(process.pid)
    with os.fdopen(reader, "rb") as file:
        checksum = file.read()[size:].decode().strip()
    _, status, usage = os.wait4(process.pid, 0)
    process.returncode = os.waitstatus_to_exitcode(status)
    if process.returncode:
        sys.exit(f"bench: {program.name}: {' '.join(map(str, words))}: exit status {process.returncode}")
    return Run(usage.ru_utime + usage.ru_stime, megabytes, checksum)


def counted(program, words):
    """Runs a program under valgrind, and returns how many instructions its calls take, in the place of seconds.

    The program reads its clock before these calls and after them. At each reading callgrind writes what it has counted since the last one."""
    with tempfile.TemporaryDirectory() as folder:
        options = ["--tool=callgrind", "--dump-before=clock_gettime*", f"--callgrind-out-file={folder}/out"]
        command = ["valgrind", *options, program.path, *map(str, words)]
        ended = subprocess.run(command, stdin=subprocess.DEVNULL, capture_output=True, text=True)
        part = Path(folder, "out.2")
        if ended.returncode or not part.exists():
            sys.exit(f"{ended.stderr}bench: {program.name}: {' '.join(map(str, words))}: valgrind failed")
        return Run(int(re.search(r"^(?:summary|totals): (\d+)", part.read_text(), re.MULTILINE)[1]), 0, ended.stdout.strip())


def timed(program, words):
    """Runs a program that measures the processor time of its calls itself, and returns this time. Its memory is not measured."""
    environment = {**os.environ, "BENCH_TIME": "1"}
    ended = subprocess.run([program.path, *map(str, words)], env=environment, stdin=subprocess.DEVNULL, capture_output=True, text=True)
    if ended.returncode:
        sys.exit(f"{ended.stderr}bench: {program.name}: {' '.join(map(str, words))}: exit status {ended.returncode}")
    return Run(int(ended.stderr) / 1e9, 0, ended.stdout.strip())


def own_costs(programs, call, width, size, count, commits=()):
    """The cost of a call per program, as `costs`, of programs that measure the time of their calls themselves. So the making of a bitmap, which may
    take longer than the calls, is run once per run, and its time does not count."""
    words, runs = [call.name, width, size, call.times, *commits], {program.name: [] for program in programs}
    for _ in range(count):
        for program in programs:
            runs[program.name].append(timed(program, words))
    compare(call, words, runs)
    return {name: Cost(*least(each)) for name, each in runs.items()}


def counts(programs, call, width, size):
    """The instructions of a call per program. The load of the machine does not change them, so one run of each is enough."""
    words = [call.name, width, size, call.times]
    runs = {program.name: [counted(program, words)] for program in programs}
    compare(call, words, runs)
    return {name: max(each[0].seconds, 1) for name, each in runs.items()}


def compare(call, words, runs):
    """Ends this process if the checksums of runs with the same arguments differ. `runs` has a list per program."""
    sums = {name: sorted({each.checksum for each in found}) for name, found in runs.items()}
    if len({checksum for found in sums.values() for checksum in found}) > 1 and call.name not in OWN_SUMS:
        sys.exit(f"bench: {' '.join(map(str, words))}: the checksums differ: {sums}")


def least(runs):
    """The least time, and the least peak memory, of some runs."""
    return min((each.seconds for each in runs), default=inf), min((each.megabytes for each in runs), default=inf)


def costs(programs, call, width, size, count, commits=()):
    """The cost of a call per program, on bitmaps of `size` bytes with chunks of `width` bytes, of `count` runs each."""
    found = {}
    for times in (call.times, 0):
        words = [call.name, width, size, times, *commits]
        runs = {program.name: [] for program in programs}
        for _ in range(count):
            for program in programs:
                runs[program.name].append(run(program, words))
        compare(call, words, runs)
        found[times] = {name: least(each) for name, each in runs.items()}
    pairs = {name: (found[call.times][name], found[0][name]) for name in found[0]}
    return {name: Cost(taken[0] - start[0], max(taken[1] - start[1], 0)) for name, (taken, start) in pairs.items()}


def ratio(ours, theirs):
    """The time of a cost divided by another's, or None if one of them is too short to be measured."""
    if min(ours.seconds, theirs.seconds) < RESOLUTION:
        return None
    return ours.seconds / theirs.seconds
