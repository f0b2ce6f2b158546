"""A disk in memory for the files of a store: it fails at a call, and returns what a crash may leave of it."""

from __future__ import annotations

import copy
import itertools
import random
from contextlib import contextmanager
from unittest import mock

from mortarpink import LockedError

BLOCK = 512
LOG, NEW, RECEIPTS = "", ".new", ".receipts"


class File:
    """A file: its bytes, and those that it had when it was last synced. A crash may leave any of the blocks in which they differ, or others.

    A sync that fails may lose blocks: they are in memory alone, and no later sync writes them, unless they are written again.
    """

    def __init__(self, data=b""):
        self.data, self.synced, self.lost = bytearray(data), bytes(data), set()

    def blocks(self):
        """Returns the blocks that are not synced, and not lost."""
        end = max(len(self.data), len(self.synced))
        places = [at for at in range(0, end, BLOCK) if at not in self.lost]
        return [at for at in places if self.data[at : at + BLOCK] != self.synced[at : at + BLOCK]]

    def write(self, at, data):
        self.data.extend(bytes(max(at - len(self.data), 0)))
        self.data[at : at + len(data)] = data
        self.lost -= set(range(at // BLOCK * BLOCK, at + len(data), BLOCK))

    def sync(self):
        self.synced = bytes(self.after_crash(self.blocks(), True).data)

    def lose(self):
        self.lost.update(self.blocks())

    def after_crash(self, kept, length, other=None):
        """Returns the file with some of its blocks that are not synced, and with the new length or the one before.

        If there is a function `other`, the bytes of these blocks that are not synced are what it returns. Bytes that were never written
        are zero.
        """
        size = len(self.data) if length else len(self.synced)
        before = self.synced.ljust(size, b"\0")[:size]
        found = bytearray(before)
        for at in kept:
            part = self.data[at : at + BLOCK].ljust(BLOCK, b"\0")
            found[at : at + BLOCK] = part[: max(min(BLOCK, size - at), 0)]
        for place in (place for at in kept if other for place in range(at, min(at + BLOCK, size))):
            if found[place] != before[place]:
                found[place] = other()
        return File(found)


class Disk:
    """The files by their names, and the names that a crash may leave: those at the last sync of the folder, and each set of names since."""

    def __init__(self, files=()):
        self.files = {name: File(data) for name, data in dict(files).items()}
        self.names = [dict(self.files)]
        self.is_locked = False
        # The number of calls that write, the one that fails, and how.
        self.calls, self.failing, self.fault = 0, None, None
        # Called before each call that writes, and after the last one.
        self.at_moment = lambda: None

    def bytes_of(self, name):
        return bytes(self.files[name].data) if name in self.files else None

    def copied(self):
        """Returns a copy that is not locked, and that does not fail."""
        other = Disk()
        other.files, other.names = copy.deepcopy((self.files, self.names))
        return other

    def crashed(self, chooser, names):
        """Returns the disk after a crash that left these names, with blocks that are chosen."""
        found, other = {}, chooser.choice((None, None, lambda: chooser.randrange(256)))
        for name, file in names.items():
            share, blocks = chooser.choice((0, 0.5, 1)), file.blocks()
            kept = [at for at in blocks if chooser.random() < share]
            found[name] = file.after_crash(kept, chooser.random() < max(share, 0.2), other).data
        return Disk(found)

    def after_crash(self, most, seed=0):
        """Returns what a crash may leave, so many disks at most: all of the names, and different blocks."""
        chooser = random.Random(seed)
        return [self.crashed(chooser, names) for names in itertools.islice(itertools.cycle(reversed(self.names)), max(most, len(self.names)))]


class Files:
    """The files of a store on a disk in memory, in the place of those of the operating system."""

    def __init__(self, disk):
        self.disk, self.path, self.has_lock = disk, "orders.log", False

    def has_log(self):
        return LOG in self.disk.files

    def is_own(self):
        return True

    def lock(self):
        if self.disk.is_locked:
            raise LockedError()
        self.disk.is_locked = self.has_lock = True
        if RECEIPTS not in self.disk.files:
            # A lock makes the file, and no call of these tests fails in it.
            self.disk.files[RECEIPTS] = File()
            for names in self.disk.names:
                names.setdefault(RECEIPTS, self.disk.files[RECEIPTS])

    def close(self):
        if self.has_lock:
            self.disk.is_locked = self.has_lock = False

    def read(self, name):
        return self.disk.bytes_of(name)

    @contextmanager
    def call(self, half=lambda: None, lose=lambda: None):
        """A call, which may fail: without an effect, with half of it, with all of it, or losing what is not synced.

        `half` makes half of its effect, and `lose` loses what a sync was to write.
        """
        disk = self.disk
        disk.at_moment()
        disk.calls += 1
        if disk.calls - 1 != disk.failing:
            yield
            return
        number, effect = disk.fault
        if effect == "whole":
            yield
        else:
            {"none": lambda: None, "half": half, "lost": lose}[effect]()
            with self.undone():
                yield
        raise OSError(number, "the call fails")

    @contextmanager
    def undone(self):
        """Undoes what is done to the disk meanwhile."""
        files, names = copy.deepcopy((self.disk.files, self.disk.names))
        yield
        self.disk.files, self.disk.names = files, names

    def changed_names(self):
        self.disk.names.append(dict(self.disk.files))

    def create_new(self):
        with self.call():
            self.disk.files[NEW] = File()
            self.changed_names()

    def write_at(self, name, at, data):
        with self.call(lambda: self.disk.files[name].write(at, data[: len(data) // 2])):
            self.disk.files[name].write(at, data)

    def cut_to(self, name, length):
        with self.call():
            del self.disk.files[name].data[length:]

    def sync(self, name):
        with self.call(lose=lambda: self.disk.files[name].lose()):
            self.disk.files[name].sync()

    def rename_new(self):
        with self.call():
            self.disk.files[LOG] = self.disk.files.pop(NEW)
            self.changed_names()

    def remove_new(self):
        if NEW in self.disk.files:
            with self.call():
                del self.disk.files[NEW]
                self.changed_names()

    def sync_folder(self):
        with self.call():
            self.disk.names = [dict(self.disk.files)]


def on(disk):
    """Returns a context in which stores are opened on a disk in memory."""
    return mock.patch("mortarpink._store.Files", lambda _path: Files(disk))
