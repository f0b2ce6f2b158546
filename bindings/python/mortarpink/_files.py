"""The files of a store, and the calls of the operating system that it makes on them."""

from __future__ import annotations

import fcntl
import os
import stat
from contextlib import suppress
from typing import Optional, Union

from ._errors import LockedError

# The files, by their suffixes: the log, a log that is to replace it, and the receipts, which an open store has a lock on.
LOG = ""
NEW = ".new"
RECEIPTS = ".receipts"

Path = Union[str, bytes, "os.PathLike[str]", "os.PathLike[bytes]"]

# So many bytes are read at once.
SOME = 1 << 24


class Files:
    """The files of a store, in one folder. They are closed with their last reference.

    A write or a cut may be lost in a crash until the file is synced, and a new name until the folder is synced. The calls raise
    OSError.
    """

    def __init__(self, path: Path) -> None:
        # The descriptors of the files that are open.
        self.open: dict[str, int] = {}
        # Links are followed, so that a file has one path, and the path does not depend on the current folder.
        self.path = os.path.realpath(os.fsdecode(path))
        # The process whose store it is: the child of a fork has the same open files.
        self.process = os.getpid()

    def has_log(self) -> bool:
        """Returns whether there is a log."""
        return os.path.exists(self.path)

    def _file(self, name: str) -> int:
        """Returns the descriptor of a file, which is opened if it is not open yet."""
        if name not in self.open:
            self.open[name] = os.open(self.path + name, os.O_RDWR | os.O_CLOEXEC)
        return self.open[name]

    def lock(self) -> None:
        """Locks the store, and makes the file of the receipts if there is none. Raises LockedError if another store has the lock."""
        self.open[RECEIPTS] = os.open(self.path + RECEIPTS, os.O_RDWR | os.O_CREAT | os.O_CLOEXEC, 0o666)
        try:
            fcntl.flock(self.open[RECEIPTS], fcntl.LOCK_EX | fcntl.LOCK_NB)
        except BlockingIOError:
            raise LockedError() from None

    def is_own(self) -> bool:
        """Returns whether the store is one of this process, and not of one that has forked it."""
        return self.process == os.getpid()

    def read(self, name: str) -> Optional[bytes]:
        """Returns all bytes of a file, or None if there is no such file."""
        try:
            file = self._file(name)
        except FileNotFoundError:
            return None
        found = bytearray()
        while part := os.pread(file, SOME, len(found)):
            found += part
        return bytes(found)

    def create_new(self) -> None:
        """Makes an empty file for the new log, in the place of one that an earlier run has left."""
        self._close(NEW)
        self.open[NEW] = os.open(self.path + NEW, os.O_RDWR | os.O_CREAT | os.O_TRUNC | os.O_CLOEXEC, 0o666)
        if LOG in self.open:
            # Who may read the log may read the new one.
            os.fchmod(self.open[NEW], stat.S_IMODE(os.fstat(self.open[LOG]).st_mode))

    def write_at(self, name: str, at: int, data: bytes) -> None:
        """Writes bytes to a file from a position on."""
        rest, file = memoryview(data), self._file(name)
        while rest:
            written = os.pwrite(file, rest, at)
            rest, at = rest[written:], at + written

    def cut_to(self, name: str, length: int) -> None:
        """Removes the bytes of a file after the first `length`."""
        os.ftruncate(self._file(name), length)

    def sync(self, name: str) -> None:
        """Returns once the bytes of a file are on the disk."""
        os.fdatasync(self._file(name))

    def rename_new(self) -> None:
        """Gives the new log the name of the log, and removes the old log."""
        os.rename(self.path + NEW, self.path)
        self._close(LOG)
        self.open[LOG] = self.open.pop(NEW)

    def remove_new(self) -> None:
        """Removes the new log, if there is one."""
        self._close(NEW)
        with suppress(FileNotFoundError):
            os.unlink(self.path + NEW)

    def sync_folder(self) -> None:
        """Returns once the names of the files are on the disk."""
        folder = os.open(os.path.dirname(self.path), os.O_RDONLY | os.O_DIRECTORY | os.O_CLOEXEC)
        try:
            os.fsync(folder)
        finally:
            os.close(folder)

    def _close(self, name: str) -> None:
        """Closes a file if it is open."""
        if name in self.open:
            os.close(self.open.pop(name))

    def close(self) -> None:
        """Ends the lock, and closes the files. The child of a fork has the lock of its parent, and does not end it."""
        if RECEIPTS in self.open and self.is_own():
            # A process that is just being started may have the file too, so that closing it is not enough.
            fcntl.flock(self.open[RECEIPTS], fcntl.LOCK_UN)
        for name in tuple(self.open):
            self._close(name)

    def __del__(self) -> None:
        self.close()
