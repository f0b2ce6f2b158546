"""Runs the programs of the table `stores`, and measures the disk that they write to.

A program takes the arguments FOLDER COMMITS SETS MODE LAYOUT, and prints lines with a name and a value. `stores/workload.c` has the names.
"""

import os
import shutil
import subprocess
import sys
import tempfile
import time
from pathlib import Path
from statistics import median
from typing import NamedTuple

from programs import LMDB, SQLITE, STORE, WHOLE

BITS = 1 << 20
ENCODING = 8 + BITS // 8  # the bytes of a whole encoding
BLOCK = 512  # the bytes that are written and synced to measure a disk
IN_MEMORY = ("tmpfs", "ramfs")
CHECKSUMS = ("current_checksum", "version_checksum", "bits_checksum")


class Way(NamedTuple):
    title: str  # as the table names it
    program: str
    layout: str


class Setting(NamedTuple):
    sets: int  # the bits that a commit flips
    synced: int  # the commits of a run whose commits are synced
    buffered: int  # the commits of a run that is synced once per 1,000 of them


WAYS = {
    "store": Way("`Store`", STORE, "plain"),
    "store-indexed": Way("`Store` with an index", STORE, "indexed"),
    "sqlite-by-chunk": Way("SQLite, key (chunk, version)", SQLITE, "by-chunk"),
    "sqlite-by-version": Way("SQLite, key (version, chunk)", SQLITE, "by-version"),
    "lmdb-by-chunk": Way("LMDB, key (chunk, version)", LMDB, "by-chunk"),
    "lmdb-by-version": Way("LMDB, key (version, chunk)", LMDB, "by-version"),
    "whole": Way("a file of whole encodings", WHOLE, "whole"),
}
# Buffered runs of both settings change a million chunks.
SETTINGS = [Setting(10, 2000, 100_000), Setting(100, 2000, 10_000)]


def fewer(setting, divisor):
    """A setting with fewer commits, if checksums alone are compared."""
    return setting._replace(synced=max(setting.synced // divisor, 2), buffered=max(setting.buffered // divisor, 2))


def file_system(folder):
    """The type and the device of the file system that has a folder."""
    ended = subprocess.run(["df", "--output=fstype,source", folder], stdout=subprocess.PIPE, text=True, check=True)
    return ended.stdout.splitlines()[1].split()


def syncs_per_second(folder, appends, seconds=2):
    """How often per second a block can be written and synced: at the end of a file, which grows, or each time over the first one."""
    with tempfile.TemporaryFile(dir=folder, buffering=0) as file:
        os.pwrite(file.fileno(), bytes(BLOCK), 0)
        os.fsync(file.fileno())
        count, start = 0, time.monotonic()
        while time.monotonic() < start + seconds:
            count += 1
            os.pwrite(file.fileno(), bytes(BLOCK), count * BLOCK if appends else 0)
            os.fdatasync(file.fileno())
        return count / (time.monotonic() - start)


def check_space(folder, ways, commits):
    """Ends this process if a folder has too little space for the most commits of some ways."""
    needed = (commits + 1) * ENCODING if any(way.program == WHOLE for way in ways) else 0
    if needed > shutil.disk_usage(folder).free:
        sys.exit(f"bench: whole encodings need {needed / 1e9:.0f} GB in {folder}: choose another one by --folder, or other ways by --calls")


def run(program, way, folder, commits, sets, mode):
    """Runs a program in an empty folder, and returns the values that it prints by their names."""
    with tempfile.TemporaryDirectory(dir=folder, prefix="stores-") as own:
        words = list(map(str, [program.path, own, commits, sets, mode, way.layout]))
        ended = subprocess.run(words, stdin=subprocess.DEVNULL, capture_output=True, text=True)
    if ended.returncode:
        sys.exit(f"{ended.stderr}bench: {' '.join(words)}: exit status {ended.returncode}")
    return {name: float(value) if "." in value else int(value) for name, value in map(str.split, ended.stdout.splitlines())}


def compare(what, runs):
    """Ends this process if some runs of the same work read different states. `runs` has a run per way."""
    sums = {title: [run[name] for name in CHECKSUMS] for title, run in runs.items()}
    if len(set(map(tuple, sums.values()))) > 1:
        sys.exit(f"bench: {what}: the checksums differ: {sums}")


def per_second(runs, commits):
    """The median of the commits per second of some runs."""
    return median(commits / run["commit_seconds"] for run in runs)


def write_costs(mode, runs, commits):
    """The columns of a row that say what commits cost."""
    last = runs[-1]
    return {
        f"{mode}_per_second": per_second(runs, commits),
        f"{mode}_write_bytes": last["write_bytes"] / commits,
        f"{mode}_call_bytes": last["call_bytes"] / commits,
    }


def read_costs(last):
    """The columns of a row that say what is left after all commits."""
    return {
        "open_ms": last["open_seconds"] * 1e3,
        "bit_us": last["bit_seconds"] * 1e6,
        "version_ms": last["version_seconds"] * 1e3,
        "files_mb": last["file_bytes"] / 1e6,
        "compacted_mb": last["compacted_bytes"] / 1e6 if "compacted_bytes" in last else None,
        "memory_mb": last["memory_bytes"] / 1e6,
    }


def prepare(folder):
    """Makes a folder if there is none, and returns its path."""
    path = Path(folder).resolve()
    path.mkdir(parents=True, exist_ok=True)
    return path
