"""Bitmaps whose commits are in files."""

from __future__ import annotations

import errno
import os
import threading
import weakref
from functools import partial
from typing import Callable, NoReturn, Optional

from ._bitmap import Bitmap, Kept
from ._errors import (
    ClosedError,
    DamagedError,
    DecodeError,
    Error,
    MissingEndError,
    NotAnEndError,
    NotEmptyError,
    OtherLogError,
    check,
)
from ._files import LOG, RECEIPTS, Files, Path
from ._interface import DONE, SIZE, U8
from ._receipts import Place, Receipts
from ._session import Session
from ._stored_log import StoredLog

# The calls that change what a bitmap keeps.
CHANGES = frozenset(("commit", "rewind", "drop_before", "clear", "apply_delta"))

# A log that is shorter than this is not compacted automatically.
LEAST_COMPACTED = 4096


def finish(log: StoredLog, lock: threading._RLock) -> None:
    """Finishes the log of a store that is gone. When the interpreter exits, a daemon thread may be in a call: then it does nothing."""
    if lock.acquire(blocking=False):
        try:
            log.finish()
        finally:
            lock.release()


class StoredSession(Session):
    """A session whose changes are in the file of a log before their calls return.

    A call makes its change, whose entry is then in the log of the bitmap, and writes it to the file. No other thread sees the change
    before. If a handler of a signal raises an exception between the two, the next call that changes the store writes the entry.
    """

    def __init__(self, width: int, log: StoredLog, compacts: bool) -> None:
        super().__init__(width)
        self.log = log
        self.compacts = compacts
        self.is_indexed = False
        # The number of bytes that were cut off the end of the file.
        self.cut_bytes = 0
        # Whether the log of the bitmap may have bytes that are not in the file.
        self._has_unwritten = False
        # The number of bytes of the log from which on it is tested whether to compact it.
        self._next_test = 0
        self._finish = weakref.finalize(self, finish, log, self.lock)

    def status(self, name: str, *arguments: object) -> int:
        call = partial(super().status, name, *arguments)
        return self._kept(call) if name in CHANGES else call()

    def end(self, owner: Callable[[], object], name: str, *arguments: object) -> int:
        call = partial(super().end, owner, name, *arguments)
        return self._kept(call) if name in CHANGES else call()

    def _kept(self, call: Callable[[], int]) -> int:
        """Makes a call that changes what is kept. Returns its status once the change is in the file. Raises ReadOnlyError or OSError."""
        with self.lock:
            if self.closed:
                return call()
            self.log.check_writable()
            self.write()
            self._has_unwritten = True
            status = call()
            self.write()
            if status == DONE:
                self._compact_if_grown()
            return status

    def write(self) -> None:
        """Writes the bytes of the bitmap's log to the file that it does not have yet. The lock is held."""
        if not self._has_unwritten:
            return
        bitmap = Bitmap._of(self)
        data, place = bitmap.log_bytes(), Place(bitmap.log_position, bitmap.log_digest)
        new = data[self.log.place.at - place.at + len(data) :]
        try:
            if new:
                self.log.append(new, place)
        except OSError:
            self._restore()
            raise
        bitmap.forget_log()
        self._has_unwritten = False

    def _restore(self) -> None:
        """Makes the bitmap again that it was before the change that could not be written. Closes it if it cannot be read."""
        other = Session(self.width)
        try:
            is_found = other.recover(self.log.written()) == self.log.place.at
            if self.is_indexed:
                check(other.status("index", 1))
        except (OSError, Error):
            is_found = False
        self._has_unwritten = False
        if is_found:
            self.take(other)
        else:
            self.free()

    def sync(self) -> None:
        """Returns once all changes are on the disk."""
        with self.lock:
            self._check_open()
            self.log.check_writable()
            self.write()
            self.log.sync()

    def compact(self) -> None:
        """Replaces the log by the history of the bitmap."""
        with self.lock:
            self._check_open()
            self.log.check_writable()
            self.write()
            data = Bitmap._of(self).save()
            self.log.replace(data, Place.after(data), self._begin_log)

    def _check_open(self) -> None:
        """Raises ClosedError if the store is closed."""
        if self.closed:
            raise ClosedError()

    def _begin_log(self) -> None:
        """Begins the log of the bitmap anew, as it is in the file."""
        bitmap = Bitmap._of(self)
        bitmap.end_log()
        bitmap.begin_log()
        bitmap.forget_log()

    def _compact_if_grown(self) -> None:
        """Compacts the log if this is asked for and it has grown. A compaction that fails is tried again when it has grown further."""
        position = self.log.place.at
        if not self.compacts or position < max(self._next_test, LEAST_COMPACTED):
            return
        size = SIZE()
        # Without a buffer, the call writes the size alone, or nothing if it cannot allocate.
        self.status("save", (U8 * 0)(), 0, size)
        most = 2 * size.value
        self._next_test = max(most, position + position // 4)
        if 0 < most < position:
            try:
                self.compact()
            except (OSError, Error):
                return
            self._next_test = most

    def free(self) -> None:
        """Makes all changes durable, frees the bitmap, ends the lock, and closes the files. Raises OSError."""
        with self.lock:
            try:
                if not self.closed and self.log.is_writable():
                    self.sync()
            finally:
                super().free()
                self._finish()


def create(session: StoredSession) -> None:
    """Begins a store with an empty bitmap."""
    bitmap = Bitmap._of(session)
    check(session.status("new", session.width))
    check(session.status("start", 0))
    bitmap.begin_log()
    data = bitmap.log_bytes()
    session.log.forget_receipts()
    session.log.replace(data, Place.after(data), bitmap.forget_log)


def open_log(session: StoredSession, data: bytes) -> None:
    """Opens a store that has these bytes in its log. What a crash has left of a change is cut off."""
    good, damage = recover_good(session, data)
    acknowledged = find_acknowledged(session.log.receipts, memoryview(data)[:good], damage)
    session.log.go_on(data, acknowledged, Place.after(data[:good]))
    session.cut_bytes = len(data) - good


def recover_good(session: StoredSession, data: bytes) -> tuple[int, Optional[DamagedError]]:
    """Recovers a log up to the end, or up to a frame that is not whole. Returns the number of good bytes, and the damage after them."""
    try:
        return session.recover(data), None
    except DamagedError as error:
        # A crash may leave such a frame, if it was not synced.
        damage = error
    try:
        return session.recover(data[: damage.position]), damage
    except DecodeError:
        raise damage from None


def find_acknowledged(receipts: Receipts, good: memoryview, damage: Optional[DamagedError]) -> Optional[Place]:
    """Returns the place before which the good bytes of a log are acknowledged, or None if that is not known.

    A frame that is damaged is left out only if it is known that it was not acknowledged.
    """
    found = receipts.acknowledged(good)
    if damage is not None and (found is None or not receipts.are_exact()):
        raise damage
    if found is None and receipts.whole():
        missing = receipts.missing()
        raise MissingEndError(len(good), missing.at) if missing.at > len(good) else OtherLogError(len(good))
    return found


def open_cut(session: StoredSession, data: bytes, at: int) -> None:
    """Opens a store with the changes before a position of its log, and cuts off what comes after it."""
    if not 0 <= at <= len(data) or session.recover(data[:at]) != at:
        raise NotAnEndError()
    session.log.cut_back(Place.after(data[:at]))
    session.cut_bytes = len(data) - at


def start(session: StoredSession, is_created: Optional[bool], cut_at: Optional[int]) -> None:
    """Opens or creates a store in the files of a session, which are locked."""
    files, log = session.log.files, session.log
    log.receipts = Receipts.read(files.read(RECEIPTS) or b"")
    data = files.read(LOG)
    if is_created and data:
        raise NotEmptyError()
    if is_created or is_created is None and not data and log.receipts.are_before_a_log():
        create(session)
    elif is_created is None and not data:
        raise MissingEndError(0, log.receipts.least())
    elif data is None:
        raise missing_file(files)
    elif cut_at is not None:
        open_cut(session, data, cut_at)
    else:
        open_log(session, data)


def missing_file(files: Files) -> OSError:
    """Returns the error that there is no log."""
    return FileNotFoundError(errno.ENOENT, os.strerror(errno.ENOENT), files.path)


class Store(Kept):
    """A bitmap with numbered commits in a file, which outlives its process. It is locked while it is open.

        >>> with Store("orders.log") as store:
        ...     with store.batch(commit=1) as batch:
        ...         batch.push(True)
        >>> with Store("orders.log") as store:
        ...     list(store.commits()), store[0]
        ([1], True)

    Each commit, `rewind_to`, `drop_before`, `clear` and `apply_delta` is on the disk when its call returns. If a crash cuts a call off,
    the store has either the whole change or nothing of it when it is opened again. If a write or a sync fails, the call raises
    OSError, the bitmap is as it was before, and the store is read-only until it is opened again.

    A store has the reads, the versions and the batches of a Bitmap. Its changes wait for the disk, and so do reads of other threads
    that begin meanwhile: they see a change once it is on the disk.
    """

    _session: StoredSession
    _of = Bitmap._of

    def __init__(
        self,
        path: Path,
        width: int = 8,
        *,
        create: Optional[bool] = None,
        buffered: bool = False,
        compact_automatically: bool = False,
        indexed: bool = False,
    ) -> None:
        """Opens the store in a file, and locks it. Begins one with an empty bitmap if the file is missing or empty.

        If `create` is true, the file must be missing or empty, and if it is false, the file must be there. A store that is `buffered`
        has its changes on the disk when `sync` or `close` returns. One that compacts automatically does this when its log has more
        than twice the bytes that it then has, and at least 4,096. The index is that of `set_indexed`.

        Bytes at the end that a crash has left of a change are cut off: `cut_bytes` is their number. Damage raises DamagedError or
        NotAcceptedError with its `position`, and the file is left as it was.

        Raises NoSuchWidthError; LockedError if another store has the file open; NotEmptyError; a DecodeError if the file is no log of
        this width, or is damaged; MissingEndError or OtherLogError if the log is not the one that was acknowledged; NoMemoryError; or
        OSError, which is FileNotFoundError if there is no file.
        """
        self._open(path, width, create, None, buffered, compact_automatically, indexed)

    @classmethod
    def open_cut(
        cls, path: Path, at: int, width: int = 8, *, buffered: bool = False, compact_automatically: bool = False, indexed: bool = False
    ) -> Store:
        """Opens a store with the changes before a position of its log, and cuts off what comes after it, damaged or not.

        This loses changes that were acknowledged. It is for a file that is damaged, or whose end is missing: the position is that of
        the error. Keep a copy of the file before you call it.

        The other arguments are those of `Store`. Raises NotAnEndError if no entry ends at the position, and otherwise as `Store`.
        """
        store = cls.__new__(cls)
        store._open(path, width, False, at, buffered, compact_automatically, indexed)
        return store

    def _open(
        self, path: Path, width: int, create: Optional[bool], cut_at: Optional[int], buffered: bool, compacts: bool, indexed: bool
    ) -> None:
        """Opens or creates the store."""
        files = Files(path)
        super().__init__(StoredSession(width, StoredLog(files, buffered), compacts))
        try:
            if create is False and not files.has_log():
                raise missing_file(files)
            files.lock()
            start(self._session, create, cut_at)
            if indexed:
                self.set_indexed()
        except BaseException:
            self._session.free()
            raise

    def set_indexed(self, indexed: bool = True) -> None:
        super().set_indexed(indexed)
        self._session.is_indexed = bool(indexed)

    set_indexed.__doc__ = Kept.set_indexed.__doc__

    @property
    def position(self) -> int:
        """The number of bytes of the log up to the last change."""
        return self._number("log_position")

    @property
    def cut_bytes(self) -> int:
        """The number of bytes that were cut off the end of the file when the store was opened."""
        return self._session.cut_bytes

    @property
    def is_read_only(self) -> bool:
        """Whether the store can only be read, since a call failed to write. It can be changed once it is opened again.

        In the child of a fork it can only be read too.
        """
        return not self._session.log.is_writable()

    def sync(self) -> None:
        """Returns once all changes are on the disk. It is for stores that are buffered: the changes of others are.

        Raises ReadOnlyError or OSError. After an OSError the store is read-only.
        """
        self._session.sync()

    def compact(self) -> None:
        """Compacts the log: it then has the bitmap with its kept commits, and nothing of what was dropped or rewound.

        The new log is written to another file, which replaces the log once it is on the disk. If a crash cuts the call off, the file
        has the old log or the new one. All changes are on the disk then, those of a buffered store too.

        Raises InBatchError in a batch, ReadOnlyError, NoMemoryError or OSError. If the new log could not be written, the store can
        still be changed. If it could not replace the old one, or if a handler of a signal has raised an exception meanwhile, the
        store is read-only.
        """
        self._session.compact()

    def close(self) -> None:
        """Makes all changes durable, ends the lock and frees the bitmap. Other calls raise ClosedError afterwards.

        Raises OSError. The store is closed then too.
        """
        self._session.free()

    def __reduce__(self) -> NoReturn:
        raise TypeError("a Store cannot be copied or pickled: store.copy() returns a Bitmap")
