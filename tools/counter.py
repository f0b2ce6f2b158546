"""The allocator of tools/fail_allocations.c, which counts a program's own blocks: how it is preloaded, and what it reports.

A block is the program's own if the call that made it comes from the program's file, or from a named library. So what the C library keeps
for itself, such as its buffers, is not counted.
"""

import ctypes
import re
import subprocess
from typing import NamedTuple

from replay import TOP

SOURCE = TOP / "tools/fail_allocations.c"
REPORT = re.compile(r"blocks: (\d+) made, (\d+) left, of (\d+) bytes allocations: (\d+)")


class Blocks(NamedTuple):
    """The blocks of a run: how many the program made, how many are not freed, and of how many bytes; and all allocations of the process."""

    made: int
    left: int
    size: int
    allocations: int

    @property
    def leak(self):
        """What is wrong if a block is not freed, or None."""
        return f"{self.left} of {self.made} blocks are not freed, of {self.size} bytes" if self.left else None


def preloaded(folder, library=None):
    """Compiles the counter in a folder: the environment that preloads it, for the program's own blocks or for those of a library."""
    counter = f"{folder}/fail_allocations.so"
    subprocess.run(["cc", "-O2", "-Wall", "-Wextra", "-shared", "-fPIC", "-o", counter, SOURCE, "-ldl"], check=True)
    return {"LD_PRELOAD": counter, **({"COUNT_IN": library} if library else {})}


def take_report(errors):
    """Takes the counter's two lines off the lines that a run wrote to standard error: its report, or None."""
    found = REPORT.fullmatch(" ".join(errors[-2:]))
    if not found:
        return None
    del errors[-2:]
    return Blocks(*map(int, found.groups()))


def blocks_now():
    """The number of blocks that were made up to now in this process, and of those that are not freed. The counter is preloaded."""
    process = ctypes.CDLL(None)
    process.blocks_made.restype = process.blocks_left.restype = ctypes.c_ulong
    return process.blocks_made(), process.blocks_left()
