"""Handles of the library, and their calls."""

from __future__ import annotations

import os
import threading
import weakref
from array import array
from ctypes import Array
from operator import index, methodcaller
from typing import TYPE_CHECKING, Callable, Iterable, Iterator, Optional, cast

from ._errors import (
    BY_STATUS,
    ClosedError,
    DamagedError,
    InBatchError,
    NoSuchWidthError,
    NotAcceptedError,
    NotInBatchError,
    OutOfBoundsError,
    WrongSizeError,
    check,
)
from ._interface import DONE, NONE, READS, SIZE, U8, U64, Handle
from ._library import CALLS
from ._locks import SharedLock

if TYPE_CHECKING:
    from _typeshed import ReadableBuffer

# No status of the library: the call has not returned.
UNKNOWN = -1

MAX = 2**64 - 1
WIDTHS = (1, 8, 32, 64)

# How many numbers an iterator reads in its first call, and at most in a later one.
FIRST_PAGE = 4096
LAST_PAGE = 16 * FIRST_PAGE


def u64(value: int) -> int:
    """Returns a value if it is from 0 to 2^64 - 1. The library would cut any other one."""
    value = index(value)
    if 0 <= value <= MAX:
        return value
    raise ValueError(f"{value} is not from 0 to 2^64 - 1")


def width_of(value: int) -> int:
    """Returns a number of bytes per chunk. Raises NoSuchWidthError if it is none that the library offers."""
    value = index(value)
    if value in WIDTHS:
        return value
    raise NoSuchWidthError()


def position_of(value: int) -> int:
    """Returns a position. One that is not from 0 to 2^64 - 1 is out of bounds of any bitmap."""
    value = index(value)
    if 0 <= value <= MAX:
        return value
    raise OutOfBoundsError()


def bytes_of(data: ReadableBuffer) -> bytes:
    """Returns the bytes of a buffer, which need not be contiguous. Copies them, unless they cannot change.

    Raises TypeError unless the items of the buffer are single bytes: their format is `B`, `b` or `c`.
    """
    if type(data) is bytes:
        return data
    view = memoryview(data)
    if view.format.lstrip("@=<>!") not in ("B", "b", "c"):
        raise TypeError(f"the items of the buffer are not single bytes: their format is {view.format!r}")
    return bytes(view)


def bits_of(bits: ReadableBuffer | Iterable[object]) -> bytes:
    """Returns a byte per bit: those of a buffer, or the truth values of an iterable.

    Raises TypeError for a string, whose characters are all true, and for a buffer whose items are neither bytes nor booleans.
    """
    if isinstance(bits, str):
        raise TypeError("a string has no bits: give an iterable of truth values")
    try:
        view = memoryview(cast("ReadableBuffer", bits))
    except TypeError:
        return bytes(map(bool, cast("Iterable[object]", bits)))
    return bytes(view) if view.format == "?" else bytes_of(view)


def numbers_of(positions: ReadableBuffer | Iterable[int]) -> Array[U64]:
    """Returns positions as an array of C: a copy of a buffer of 64-bit unsigned integers, or the numbers of an iterable.

    Raises OutOfBoundsError if one is not from 0 to 2^64 - 1.
    """
    try:
        view = memoryview(cast("ReadableBuffer", positions))
    except TypeError:
        view = None
    if view is not None and view.itemsize == 8 and view.format.lstrip("@=<") in ("Q", "L"):
        return (U64 * (view.nbytes // 8)).from_buffer_copy(bytes(view))
    numbers = array("Q", map(position_of, cast("Iterable[int]", positions)))
    return (U64 * len(numbers)).from_buffer_copy(numbers)


def nobody() -> None:
    """The owner of a batch that no object owns, as a weak reference to an object that is gone."""


class Session:
    """A handle, which is freed with the session. Calls that only read share it, and a lock gives other calls the handle alone.

    The lock is reentrant, because a handler of a signal may run between the calls of a thread that holds it. Its `with`
    statements leave no lock taken when a handler raises an exception, since Python enters and leaves a lock at once.
    """

    def __init__(self, width: int) -> None:
        self.width = width_of(width)
        self.handle = Handle()
        self.shared = SharedLock()
        self.lock = self.shared.gate
        self.closed = False
        # While there may be a batch: returns the object that owns it. If it returns None, the next call aborts the batch.
        self.owner: Optional[Callable[[], object]] = None
        self._free = weakref.finalize(self, CALLS["free"], self.handle)
        # When the interpreter exits, a daemon thread may be in a call.
        self._free.atexit = False
        SESSIONS[id(self)] = self

    def free(self) -> None:
        """Frees the bitmap. Later calls find the handle empty."""
        with self.lock:
            self.closed = True
            if self._free.alive:
                self.shared.write(CALLS["free"], self.handle)
                self._free.detach()

    def lose(self) -> None:
        """Closes the bitmap in the child of a fork, without freeing what a call of a thread of the parent was changing."""
        self.closed = True
        self._free.detach()
        self.handle, self.shared = Handle(), SharedLock()
        self.lock = self.shared.gate

    def recover(self, data: bytes) -> int:
        """Makes the bitmap of a log in the handle, which is empty. Returns the number of good bytes.

        Raises NoMemoryError or a DecodeError.
        """
        good = SIZE()
        status = self.status("recover", self.width, data, len(data), good)
        if status in (DamagedError.status, NotAcceptedError.status):
            raise BY_STATUS[status](good.value)
        check(status)
        return good.value

    def take(self, other: Session) -> None:
        """Frees the bitmap, and takes that of another session, which has none afterwards."""
        with self.lock:
            self.shared.write(CALLS["free"], self.handle)
            # No two handles have one bitmap at any time, since a handler of a signal may raise an exception between the steps.
            bitmap, other.handle.session = other.handle.session, None
            self.handle.session = bitmap

    def copied(self) -> Session:
        """Returns a copy, which is not in a batch. Raises NoMemoryError."""
        copy = Session(self.width)
        check(self.status("clone", copy.handle))
        copy.abort()
        return copy

    def checked_out(self, number: int) -> Session:
        """Returns a session of the bitmap at a commit, without commits.

        Raises InBatchError, NoSuchCommitError or NoMemoryError.
        """
        version = Session(self.width)
        check(self.status("checkout", number, version.handle))
        return version

    def __deepcopy__(self, memo: object) -> Session:
        return self.copied()

    def status(self, name: str, *arguments: object) -> int:
        """Calls a function, and returns its status."""
        if name in READS:
            return self.shared.read(self._settle, CALLS[name], self.handle, *arguments)
        with self.lock:
            self._settle()
            return self.shared.write(CALLS[name], self.handle, *arguments)

    def _settle(self) -> None:
        """Aborts a batch whose owner is gone. The lock is held."""
        if self.owner is not None and self.owner() is None:
            self.abort()

    def begin(self, owner: Callable[[], object]) -> int:
        """Begins a batch with an owner, unless there is a batch. Returns the status."""
        with self.lock:
            self._settle()
            if self.owner is not None and not self.closed:
                return InBatchError.status
            self.owner = owner
            return self.shared.write(CALLS["begin"], self.handle)

    def abort(self) -> int:
        """Aborts the batch, whoever owns it, and returns the status."""
        with self.lock:
            self.owner = nobody
            status = self.shared.write(CALLS["abort"], self.handle)
            self.owner = None
            return status

    def drop(self, owner: Callable[[], object]) -> None:
        """Aborts the batch of an owner, unless it has ended."""
        with self.lock:
            if self.owner is owner:
                self.abort()

    def _check_owner(self, owner: Callable[[], object]) -> None:
        """Raises NotInBatchError unless the batch of an owner is open. The lock is held."""
        self._settle()
        if self.owner is not owner:
            raise NotInBatchError()

    def status_in_batch(self, owner: Callable[[], object], name: str, *arguments: object) -> int:
        """Calls a function in the batch of an owner, and returns its status."""
        with self.lock:
            self._check_owner(owner)
            return self.shared.write(CALLS[name], self.handle, *arguments)

    def end(self, owner: Callable[[], object], name: str, *arguments: object) -> int:
        """Calls a function that ends the batch of an owner if it succeeds, and returns its status.

        If a handler of a signal raises an exception before the status is known, the batch has ended too.
        """
        with self.lock:
            self._check_owner(owner)
            status = UNKNOWN
            try:
                status = self.shared.write(CALLS[name], self.handle, *arguments)
            finally:
                if status == DONE:
                    self.owner = None
                elif status == UNKNOWN:
                    self.owner = nobody
            return status


# The sessions by their identity, and the locks that a fork has taken.
SESSIONS: weakref.WeakValueDictionary[int, Session] = weakref.WeakValueDictionary()
TAKEN: list[threading._RLock] = []


def sessions() -> list[Session]:
    """Returns the sessions in the order in which they were made. Forks in several threads take the locks in this order."""
    found = (reference() for reference in SESSIONS.valuerefs())
    return [session for session in found if session is not None]


def take_locks() -> None:
    """Waits before a fork until no other thread is in a call, since the child has only the thread that forks."""
    locks = [session.lock for session in sessions()]
    # One call takes and notes the locks, so that no handler of a signal comes between the two.
    TAKEN.extend(filter(methodcaller("acquire"), locks))
    for session in sessions():
        session.shared.wait()


def release_locks() -> None:
    """Releases the locks after a fork. It may be called again if a handler of a signal has raised an exception in it."""
    while TAKEN:
        try:
            TAKEN[-1].release()
        except RuntimeError:
            pass  # released already
        TAKEN.pop()


def lose_sessions() -> None:
    """Closes in the child what a thread of the parent has. There is none, unless a signal has ended the wait for the locks."""
    release_locks()
    for session in sessions():
        if session.lock.acquire(blocking=False):
            session.lock.release()
            session.shared.forget_readers()
        else:
            session.lose()


os.register_at_fork(before=take_locks, after_in_parent=release_locks, after_in_child=release_locks)
os.register_at_fork(after_in_parent=release_locks, after_in_child=lose_sessions)


class Caller:
    """Calls functions on the handle of a session, and returns what they write."""

    def __init__(self, session: Session) -> None:
        self._session = session

    def _status(self, name: str, *arguments: object) -> int:
        """Calls a function, and returns its status."""
        return self._session.status(name, *arguments)

    def _run(self, name: str, *arguments: object) -> None:
        """Calls a function that has no output."""
        check(self._status(name, *arguments))

    def _number(self, name: str, *arguments: object) -> int:
        """Calls a function, and returns its output, a number."""
        output = U64()
        check(self._status(name, *arguments, output))
        return output.value

    def _bit(self, name: str, *arguments: object) -> bool:
        """Calls a function, and returns its output, a bit."""
        output = U8()
        check(self._status(name, *arguments, output))
        return output.value != 0

    def _found(self, name: str, *arguments: object) -> Optional[int]:
        """Calls a function, and returns its output, or None if there is nothing to return."""
        output = U64()
        status = self._status(name, *arguments, output)
        if status == NONE:
            return None
        check(status)
        return output.value

    def _page(self, size: int, name: str, *arguments: object) -> list[int]:
        """Calls a function that writes a page of at most `size` numbers, and returns them. Only the last page is not full."""
        page, count = (U64 * size)(), SIZE()
        check(self._status(name, *arguments, page, size, count))
        return page[: count.value]

    def _ascending(self, read: Callable[[int, int], list[int]], start: int) -> Iterator[int]:
        """Returns an iterator over the numbers from `start` on that `read` returns in pages. Reads the first page now.

        A page has twice as many numbers as the one before it, up to `LAST_PAGE`.
        """
        session = self._session

        def numbers(page: list[int], size: int) -> Iterator[int]:
            while True:
                for number in page:
                    if session.closed:
                        raise ClosedError()
                    yield number
                if len(page) < size:
                    return
                size = min(2 * size, LAST_PAGE)
                page = read(size, page[-1] + 1)

        return numbers(read(FIRST_PAGE, start), FIRST_PAGE)

    def _encoding(self, name: str, *arguments: object) -> bytes:
        """Calls a function that writes bytes of any number, and returns them."""
        buffer, size = (U8 * 0)(), SIZE()
        while True:
            status = self._status(name, *arguments, buffer, len(buffer), size)
            if status == DONE:
                return bytes(buffer)
            if status != WrongSizeError.status:
                check(status)
            buffer = (U8 * size.value)()
