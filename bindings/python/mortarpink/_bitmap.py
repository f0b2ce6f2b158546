"""Bitmaps, their past states, and batches."""

from __future__ import annotations

import weakref
from array import array
from copy import deepcopy
from ctypes import byref
from functools import partial
from operator import attrgetter, index
from types import TracebackType
from typing import TYPE_CHECKING, Callable, Iterable, Iterator, NoReturn, Optional, SupportsIndex, TypeVar, cast, overload

from ._errors import (
    ClosedError,
    Error,
    InvalidError,
    InvalidLengthError,
    NoLogError,
    NonMonotonicCommitError,
    NoSuchCommitError,
    NotInBatchError,
    OutOfBoundsError,
    PrunedError,
    check,
)
from ._interface import SIZE, U8, U64
from ._session import MAX, Caller, Session, bits_of, bytes_of, nobody, numbers_of, position_of, u64

if TYPE_CHECKING:
    from _typeshed import ReadableBuffer, WriteableBuffer

K = TypeVar("K", bound="Kept")

# The bits of each byte, the lowest first, as bytes.
BITS = [bytes(byte >> place & 1 for place in range(8)) for byte in range(256)]


class _Bits(Caller):
    """The reads of the current bitmap, of its past states and of batches. All positions are absolute."""

    # Iteration over all positions would meet pruned ones: `Bitmap.ones` iterates over the set positions.
    __iter__ = None
    __reversed__ = None

    @property
    def width(self) -> int:
        """The number of bytes per chunk."""
        return self._session.width

    @property
    def length(self) -> int:
        """The length in bits, pruned bits included. `len()` is the same, but Python limits it to `sys.maxsize`."""
        return self._number("len")

    @property
    def pruned_chunks(self) -> int:
        """The number of pruned chunks."""
        return self._number("pruned_chunks")

    def __len__(self) -> int:
        return self.length

    def __bool__(self) -> bool:
        return self.length > 0

    def _from_start(self, position: SupportsIndex) -> int:
        """Returns the position from the start of one that counts from the end if it is negative."""
        position = index(position)
        return position if position >= 0 else position + self.length

    @overload
    def __getitem__(self, position: SupportsIndex) -> bool: ...

    @overload
    def __getitem__(self, position: slice) -> list[bool]: ...

    def __getitem__(self, position: SupportsIndex | slice) -> bool | list[bool]:
        """Returns the bit at a position, or a list of the bits of a slice. A negative position counts from the end.

        A slice ends at the length at the latest, as that of a list. Raises PrunedError if it has a pruned position.
        """
        if isinstance(position, slice):
            return self._slice(position)
        return self.get(self._from_start(position))

    def _slice(self, positions: slice) -> list[bool]:
        """Returns the bits of a slice."""
        with self._session.lock:
            places = range(*positions.indices(self.length))
            if not places or abs(places.step) > 1:
                return [self.get(place) for place in places]
            first, last = min(places[0], places[-1]), max(places[0], places[-1])
            return cast("list[bool]", self.bools(first, last + 1)[:: places.step].tolist())

    def packed(self, start: int = 0, stop: int = MAX) -> bytes:
        """Returns the bits from `start` to `stop` (excluded), eight in a byte. The bit at `start` is the lowest of the first byte.

        The range ends at the length at the latest. The bits of the last byte that are past its end are 0.

        Raises PrunedError if the range has a pruned position, or MemoryError.
        """
        start, stop = u64(start), u64(stop)
        with self._session.lock:
            stop = min(stop, self.length)
            return self.read_bytes(start, stop) if start < stop else b""

    def read_bytes(self, start: int, stop: int) -> bytes:
        """Returns the bits from `start` to `stop` (excluded), eight in a byte. The bit at `start` is the lowest of the first byte.

        The bits of the last byte that are past the range are 0.

        Raises OutOfBoundsError if `stop` is below `start` or above the length, PrunedError if `start` is pruned, or MemoryError.
        """
        start, stop = position_of(start), position_of(stop)
        with self._session.lock:
            self._check_range(start, stop)
            out = bytearray(-(-(stop - start) // 8))
            self.read_bytes_into(out, start, stop)
        return bytes(out)

    def read_bytes_into(self, buffer: WriteableBuffer, start: int, stop: int) -> None:
        """Fills a buffer with the bits from `start` to `stop` (excluded), as `read_bytes` returns them.

        The buffer is contiguous, and has the size of these bytes. Until the call returns, nothing else reads or writes it.

        Raises WrongSizeError if the buffer has another size, OutOfBoundsError if `stop` is below `start` or above the length,
        PrunedError if `start` is pruned, or TypeError if the buffer cannot be written. The buffer is unchanged then.
        """
        start, stop = position_of(start), position_of(stop)
        size = memoryview(buffer).nbytes
        first = U8.from_buffer(buffer) if size else U8()
        self._run("read_bytes", start, stop, byref(first), size)

    def _check_range(self, start: int, stop: int) -> None:
        """Raises OutOfBoundsError or PrunedError unless the bits of a range can be read, so that no memory is taken for it."""
        if not start <= stop <= self.length:
            raise OutOfBoundsError()
        if start < 8 * self.width * self.pruned_chunks:
            raise PrunedError()

    def bools(self, start: int = 0, stop: int = MAX) -> memoryview:
        """Returns the bits from `start` to `stop` (excluded), one in a byte, as a view whose items are `bool`.

        The range and the errors are those of `packed`.
        """
        with self._session.lock:
            packed = self.packed(start, stop)
            count = max(min(stop, self.length) - start, 0)
        return memoryview(b"".join(map(BITS.__getitem__, packed))).cast("?")[:count]

    def get(self, position: int) -> bool:
        """Returns the bit at a position.

        Raises OutOfBoundsError or PrunedError, which are IndexErrors.
        """
        return self._bit("get", position_of(position))

    def chunk(self, position: int) -> bytes:
        """Returns the bytes of the chunk of a position. Bits past the length are 0.

        Raises OutOfBoundsError or PrunedError, which are IndexErrors.
        """
        out = (U8 * self.width)()
        self._run("chunk", position_of(position), out, len(out))
        return bytes(out)

    def ones(self, start: int = 0, stop: int = MAX) -> Iterator[int]:
        """Returns an iterator over the set retained positions from `start` to `stop` (excluded), ascending.

        It reads in pages. Positions that it has not read yet are those of the bitmap at the time of the next page.
        """
        stop = u64(stop)
        return self._ascending(lambda size, least: self._page(size, "ones", least, stop), u64(start))

    def ones_array(self, start: int = 0, stop: int = MAX) -> array[int]:
        """Returns the set retained positions from `start` to `stop` (excluded), ascending, as an array of the type code `Q`.

        All of them are read from the bitmap of one time, in two calls of the library.
        """
        with self._session.lock:
            found = array("Q", bytes(8 * self.count_ones(start, stop)))
            self.ones_into(found, start, stop)
        return found

    def ones_into(self, buffer: WriteableBuffer, start: int = 0, stop: int = MAX) -> int:
        """Writes the set retained positions from `start` to `stop` (excluded) to a buffer, ascending, and returns how many.

        It writes as many as the buffer has items. If it is full then, the next positions begin after the last one. The
        items are unsigned integers of eight bytes: their format is `Q` or `L`. The buffer is contiguous. Until the call
        returns, nothing else reads or writes it.

        Raises TypeError if the buffer has other items, or cannot be written.
        """
        start, stop, count = u64(start), u64(stop), SIZE()
        view = memoryview(buffer)
        if view.itemsize != 8 or view.format.lstrip("@=<") not in ("Q", "L"):
            raise TypeError(f"the items of the buffer are not unsigned integers of eight bytes: their format is {view.format!r}")
        first = U64.from_buffer(view) if view.nbytes else U64()
        self._run("ones", start, stop, byref(first), view.nbytes // 8, count)
        return count.value

    def next_one(self, start: int) -> Optional[int]:
        """Returns the least retained position, from `start` on, whose bit is 1, or None."""
        return self._found("next_one", u64(start))

    def next_zero(self, start: int) -> Optional[int]:
        """Returns the least retained position, from `start` on, whose bit is 0, or None."""
        return self._found("next_zero", u64(start))

    def prev_one(self, stop: int) -> Optional[int]:
        """Returns the greatest retained position below `stop` whose bit is 1, or None."""
        return self._found("prev_one", u64(stop))

    def prev_zero(self, stop: int) -> Optional[int]:
        """Returns the greatest retained position below `stop` whose bit is 0, or None."""
        return self._found("prev_zero", u64(stop))

    def count_ones(self, start: int = 0, stop: int = MAX) -> int:
        """Returns the number of set retained positions from `start` to `stop` (excluded)."""
        return self._number("count_ones", u64(start), u64(stop))

    def select_one(self, k: int) -> Optional[int]:
        """Returns the set retained position number `k`, counted from 0, or None."""
        return self._found("select_one", u64(k))


class _Reads(_Bits):
    """What the current bitmap and its past states have, but no batch."""

    def __bytes__(self) -> bytes:
        """Returns the encoding, which has no commits, no width and no checksum.

        Raises NoMemoryError. Of a Version, raises NoSuchCommitError if its commit is not kept any more.
        """
        return self._encoding("encode")

    def __reduce__(self) -> NoReturn:
        name = type(self).__name__
        raise TypeError(f"a {name} cannot be pickled: pickle the bitmap, or bitmap.checkout(number)")


class Version(_Reads):
    """The bitmap at a commit, read in place. `Bitmap.at` returns it.

    Its reads are of the commit that is kept under the number. They raise NoSuchCommitError if there is none any more.
    After a rewind, that can be another commit under the same number.
    """

    def __init__(self, session: Session, number: int) -> None:
        super().__init__(session)
        self._commit = number

    def _status(self, name: str, *arguments: object) -> int:
        return self._session.status(name + "_at", self._commit, *arguments)

    @property
    def number(self) -> int:
        """The commit number."""
        return self._commit

    def __copy__(self) -> Version:
        return Version(self._session, self._commit)

    def __deepcopy__(self, memo: dict[int, object]) -> Version:
        """Returns the version of a copy of the bitmap and its commits."""
        return Version(deepcopy(self._session, memo), self._commit)

    def __repr__(self) -> str:
        return f"<mortarpink.Version {self.number}>"


class _Early(property):
    """A method whose function is in each object. A `with` statement takes and calls the function without a step of Python.

    So no handler of a signal comes between the statement and the function.
    """

    def __call__(self, batch: Batch, *arguments: object) -> object:
        """Calls the function of an object, as `contextlib.ExitStack` does."""
        return self.__get__(batch)(*arguments)


class Batch(_Bits):
    """A batch of edits on a bitmap. `Bitmap.batch` begins it. Its reads are of the pending bitmap.

    At the end of a `with` block the batch is committed if `Bitmap.batch` was given a number. Otherwise the batch is
    aborted, which drops its edits, unless the block has called `commit`. If the block or the commit raises an
    exception, the batch is aborted. So is an open batch without references. A batch cannot be copied.
    """

    _owner: Callable[[], object] = nobody

    @classmethod
    def _owning(cls, session: Session, number: Optional[int]) -> Batch:
        """Returns a batch whose `with` block has another object for it.

        The owner of the batch is the function that ends the block. This object has it, and then the `with` statement
        alone. So the batch has no owner, and is aborted, if a handler of a signal raises an exception before the function
        takes its first step. Neither the traceback nor the variable of the block has the owner.
        """
        batch, inner = cls(session), cls(session)
        batch._enter, batch._exit = weakref.ref(inner), partial(inner._leave, number)
        batch._owner = inner._owner = weakref.ref(batch._exit)
        return batch

    def _status(self, name: str, *arguments: object) -> int:
        return self._session.status_in_batch(self._owner, name, *arguments)

    def _is_open(self) -> bool:
        """Returns whether the batch is open, or was so when the bitmap was closed."""
        return self._session.owner is self._owner

    def push(self, bit: object) -> None:
        """Appends a bit, by its truth value. Raises TooLongError or NoMemoryError."""
        self._run("push", bool(bit))

    def push_byte(self, byte: int) -> None:
        """Appends the eight bits of a byte, the lowest first. Raises TooLongError or NoMemoryError."""
        (byte,) = bytes([byte])
        self._run("push_byte", byte)

    def push_bytes(self, data: ReadableBuffer) -> None:
        """Appends the bits of the bytes in order, up to the first byte that fails.

        Raises TooLongError or NoMemoryError, whose attribute `appended` is the number of bytes appended.
        """
        data, count = bytes_of(data), SIZE()
        try:
            self._run("push_bytes", data, len(data), count)
        except Error as error:
            error.appended = count.value
            raise

    def push_chunk(self, data: ReadableBuffer) -> None:
        """Appends the bits of one chunk. Raises WrongSizeError, TooLongError or NoMemoryError."""
        data = bytes_of(data)
        self._run("push_chunk", data, len(data))

    def push_bits(self, bits: ReadableBuffer | Iterable[object]) -> None:
        """Appends bits, by their truth values: all of them, or none.

        The bits are an iterable, as a list of bool, or a buffer with one byte or one boolean per bit. Raises TooLongError or
        NoMemoryError.
        """
        data = bits_of(bits)
        self._run("push_bits", data, len(data))

    def pop(self) -> bool:
        """Removes the last bit, and returns it. Raises NoRetainedBitError, an IndexError."""
        return self._bit("pop")

    def set(self, position: int, bit: object) -> None:
        """Replaces the bit at a position, by a truth value. Raises OutOfBoundsError, PrunedError or NoMemoryError."""
        self._run("set", position_of(position), bool(bit))

    def __setitem__(self, position: int, bit: object) -> None:
        """Replaces the bit at a position. A negative position counts from the end."""
        self.set(self._from_start(position), bit)

    def set_many(self, positions: ReadableBuffer | Iterable[int], bit: object = True) -> None:
        """Replaces the bit at each position in order, by one truth value, up to the first position that fails.

        The positions are an iterable, or a buffer of 64-bit unsigned integers, as an `array("Q")`, which is faster. Raises
        OutOfBoundsError, PrunedError or NoMemoryError, whose attribute `replaced` is the number of positions before the one that
        fails. It is 0 if a number is not from 0 to 2^64 - 1.
        """
        numbers, count = numbers_of(positions), SIZE()
        try:
            self._run("set_many", numbers, len(numbers), bool(bit), count)
        except Error as error:
            error.replaced = count.value
            raise

    def set_range(self, start: int, stop: int, bit: object = True) -> None:
        """Replaces each bit from `start` to `stop` (excluded), by a truth value. If `stop` is not above `start`, nothing changes.

        Raises OutOfBoundsError if `stop` is above the length, PrunedError if `start` is pruned, or NoMemoryError.
        """
        self._run("set_range", position_of(start), position_of(stop), bool(bit))

    def set_chunk(self, chunk: int, data: ReadableBuffer) -> None:
        """Replaces the bits of the chunk with an index. Bits past the length are ignored.

        Raises WrongSizeError, OutOfBoundsError, PrunedError or NoMemoryError.
        """
        data = bytes_of(data)
        self._run("set_chunk", position_of(chunk), data, len(data))

    def truncate(self, length: int) -> None:
        """Removes the bits from position `length` on. Raises OutOfBoundsError if that is above the length, or PrunedError."""
        self._run("truncate", position_of(length))

    def extend_to(self, length: int) -> None:
        """Appends zeros up to a length. If the bitmap has that length or more, nothing changes. Raises NoMemoryError."""
        self._run("extend_to", u64(length))

    def prune(self, position: int) -> None:
        """Prunes the chunks before the chunk of a position. Raises OutOfBoundsError or NoMemoryError."""
        self._run("prune", position_of(position))

    def commit(self, number: int) -> None:
        """Ends the batch. The pending bitmap becomes the current one, and is kept under the number.

        The number is above the last one that was committed or rewound to, even if that commit was dropped since. After a
        commit under 2^64 - 2, the greatest number, there is none unless the bitmap is rewound to an earlier commit.
        Raises ReservedCommitNumberError, NonMonotonicCommitError or NoMemoryError. The batch goes on then.
        """
        number, previous = u64(number), U64()
        status = self._session.end(self._owner, "commit", number, previous)
        if status == NonMonotonicCommitError.status:
            raise NonMonotonicCommitError(previous.value, number)
        check(status)

    def abort(self) -> None:
        """Ends the batch, and drops its edits."""
        check(self._session.end(self._owner, "abort"))

    if TYPE_CHECKING:
        _enter: Callable[[], Batch | None]
        _exit: Callable[..., None]

        def __enter__(self) -> Batch: ...

        def __exit__(
            self, kind: type[BaseException] | None, value: BaseException | None, traceback: TracebackType | None
        ) -> None: ...

    else:
        __enter__ = _Early(attrgetter("_enter"), doc="Returns the batch for the block of a `with` statement.")
        __exit__ = _Early(attrgetter("_exit"), doc="Ends the batch at the end of the block.")

    def _leave(self, number: Optional[int], kind: Optional[type[BaseException]], *_: object) -> None:
        """Ends a `with` block, by a commit if it has a number and no exception."""
        try:
            if kind is None and number is not None and self._is_open():
                self.commit(number)
        finally:
            self._session.drop(self._owner)

    def __reduce__(self) -> NoReturn:
        raise TypeError("a Batch cannot be copied or pickled: its edits are those of one bitmap")

    def __repr__(self) -> str:
        return f"<mortarpink.Batch, {'open' if self._is_open() else 'ended'}>"


class Kept(_Reads):
    """What bitmaps and stores have: the reads and edits of the current bitmap and of its commits."""

    if TYPE_CHECKING:

        @classmethod
        def _of(cls, session: Session) -> Bitmap:
            """Returns the bitmap of a session, in memory."""

    def close(self) -> None:
        """Frees the bitmap. Other calls raise ClosedError afterwards, a ValueError."""
        self._session.free()

    def __enter__(self: K) -> K:
        return self

    def __exit__(self, *exception: object) -> None:
        self.close()

    def __repr__(self) -> str:
        try:
            return f"<mortarpink.{type(self).__name__}, {self.length} bits, {self.pruned_chunks} pruned chunks>"
        except ClosedError:
            return f"<mortarpink.{type(self).__name__}, closed>"

    def batch(self, commit: Optional[int] = None) -> Batch:
        """Begins a batch of edits. In a `with` block it ends by a commit under the number, if there is one.

        Without a number, the end of the block aborts the batch and drops its edits, unless the block has called
        `Batch.commit`.

        Raises InBatchError if there is a batch already.
        """
        batch = Batch._owning(self._session, None if commit is None else u64(commit))
        try:
            check(self._session.begin(batch._owner))
        except BaseException:
            # A handler of a signal may have raised it after the batch began. Its traceback has the batch.
            if self._session.owner is batch._owner:
                self._session.owner = nobody
            raise
        return batch

    def abort(self) -> None:
        """Ends the batch that the bitmap is in, if there is one, and drops its edits.

        The batch ends whichever object or thread began it. Further calls of its Batch raise NotInBatchError, and the end
        of its `with` block does nothing. A program calls this when an exception may have left a batch open.
        """
        status = self._session.abort()
        if status != NotInBatchError.status:
            check(status)

    def at(self, number: int) -> Version:
        """Returns the bitmap at a commit, to be read in place. Raises NoSuchCommitError, a LookupError."""
        number = u64(number)
        if not self.commit_exists(number):
            raise NoSuchCommitError()
        return Version(self._session, number)

    def commits(self) -> Iterator[int]:
        """Returns an iterator over the numbers of the kept commits, ascending. It reads in pages, as `ones`.

        A page takes time logarithmic in the kept commits, plus linear in its numbers.
        """
        return self._ascending(lambda size, least: self._page(size, "commits", least), 0)

    def commit_exists(self, number: int) -> bool:
        """Returns whether a commit is kept under the number."""
        return self._bit("exists", u64(number))

    @property
    def latest(self) -> Optional[int]:
        """The greatest number of a kept commit, or None."""
        return self._found("latest")

    @property
    def earliest(self) -> Optional[int]:
        """The least number of a kept commit, or None."""
        return self._found("earliest")

    @property
    def entries(self) -> int:
        """The number of entries in the reverse records of the kept commits, or 2^64 - 1 if there are more.

        The record of a commit has at most one entry per chunk that its batch edited, removed or pruned, and at most one
        more. An entry has the old bytes of one chunk, or no bytes if the commit added the chunk. The number of entries is
        not the number of bytes that the history takes.
        """
        return self._number("entries")

    def changed_chunks(self, older: int, newer: int) -> Iterator[int]:
        """Returns an iterator over the indices of the chunks that differ between two commits, ascending.

        The older number comes first: `changed_chunks(1, 2)`, and not `changed_chunks(2, 1)`. A chunk that only one of
        the versions retains differs. Bits past a length count as zeros, so zeros that are appended to a partly filled
        chunk change no chunk: a replica needs the length too. The iterator reads in pages, as `ones`. A page takes time
        linear in its changed chunks, with a search of each commit after `older` per chunk.

        Raises NoSuchCommitError unless both commits are kept and `older` is at most `newer`.
        """
        older, newer = u64(older), u64(newer)
        try:
            return self._ascending(lambda size, least: self._page(size, "changed_chunks", older, newer, least), 0)
        except NoSuchCommitError:
            if older > newer:
                raise NoSuchCommitError(f"the older number comes first, and {older} is above {newer}") from None
            raise

    def delta(self, older: int, newer: int) -> bytes:
        """Returns the bytes that bring a bitmap at one commit to a later one, by `apply_delta`.

        They have the chunks that differ between the two versions. The bitmap that they are for has the older version as its
        current one, and `older` as its last number. Its other commits do not matter.

        Raises NoSuchCommitError unless both commits are kept and `older` is below `newer`, or NoMemoryError.
        """
        older, newer = u64(older), u64(newer)
        try:
            return self._encoding("delta", older, newer)
        except NoSuchCommitError:
            if older >= newer:
                raise NoSuchCommitError(f"the older number comes first, and {older} is not below {newer}") from None
            raise

    def apply_delta(self, data: ReadableBuffer) -> None:
        """Applies a delta, which is all of the bytes: its newer version becomes current, and is kept under its number.

        Raises NotAtBaseError if the last number, the length, the number of pruned chunks, or a digest of the old bytes of the
        chunks in the delta differ from those of its older version. Raises CutOffError, WrongHeaderError, DamagedError or
        NotAcceptedError, which are DecodeErrors, if the bytes are no delta, or NoMemoryError.
        """
        data = bytes_of(data)
        self._run("apply_delta", data, len(data))

    def checkout(self, number: int) -> Bitmap:
        """Returns a bitmap of its own that is the bitmap at a commit, without commits. Later edits change neither by the other.

        It keeps no log. Raises NoSuchCommitError or NoMemoryError.
        """
        return self._of(self._session.checked_out(u64(number)))

    def set_indexed(self, indexed: bool = True) -> None:
        """Adds an index of the kept commits, or drops it. No result of a call depends on the index.

        With the index, a read of a past state finds a chunk by one search, however many commits are kept. All later
        calls keep the index up to date. It takes memory for the old bytes of each chunk that a kept commit changed.
        Raises NoMemoryError.
        """
        self._run("index", bool(indexed))

    def rewind_to(self, number: int) -> None:
        """Makes the bitmap at a commit current again, and drops the commits after it.

        Raises NoSuchCommitError or NoMemoryError.
        """
        self._run("rewind", u64(number))

    def drop_before(self, number: int) -> int:
        """Drops the commits below the number. Returns how many."""
        return self._number("drop_before", u64(number))

    def clear(self) -> None:
        """Drops all commits. The current bitmap stays."""
        self._run("clear")

    def save(self) -> bytes:
        """Returns the history as bytes: the current bitmap, the kept commits and the last commit number.

        `load` makes a bitmap of them. They have the width, and digests by which damaged bytes are found. The index of
        `set_indexed` is not in them. Raises NoMemoryError.
        """
        return self._encoding("save")

    def copy(self) -> Bitmap:
        """Returns a copy of the bitmap and its commits. It is not in a batch, and keeps no log. Raises NoMemoryError."""
        return self._of(self._session.copied())


class Bitmap(Kept):
    """A bitmap with numbered commits, past states of which are read in place.

    Chunks have 1, 8, 32 or 64 bytes: the width. The bitmap is freed by `close`, at the end of a `with` block, or with
    its last reference. Positions and lengths are in bits. They are absolute: they count from 0, and pruned bits count.

        >>> bitmap = Bitmap()
        >>> with bitmap.batch(commit=7) as batch:
        ...     batch.push(True)
        >>> with bitmap.batch(commit=8) as batch:
        ...     batch[0] = False
        >>> bitmap[0], bitmap.at(7)[0]
        (False, True)

    In a batch, the reads of bits, searches and counts among them, are of the pending bitmap. The other calls, `bytes` and
    those of versions and commits, raise InBatchError. Only `copy`, `abort` and `close` do not, and the calls of a log that
    was begun before.

    Several threads may use a bitmap. Calls that read run at the same time. Any other call has the bitmap to itself, so
    calls of other threads wait. A batch is several calls: threads that begin batches on one bitmap need a lock of their
    own.
    """

    def __init__(self, width: int = 8, pruned_chunks: int = 0) -> None:
        """Makes a bitmap with pruned chunks and no retained bit.

        Raises NoSuchWidthError, PrunedChunksOverflowError or NoMemoryError.
        """
        super().__init__(Session(width))
        self._run("new", self.width)
        self._run("start", u64(pruned_chunks))

    @classmethod
    def _of(cls, session: Session) -> Bitmap:
        bitmap = cls.__new__(cls)
        Caller.__init__(bitmap, session)
        return bitmap

    @classmethod
    def decode(cls, data: ReadableBuffer, width: int = 8, least: int = 0, most: int = MAX) -> tuple[Bitmap, int]:
        """Makes a bitmap, without commits, from the encoding that the bytes begin with.

        The number of retained bits is from `least` to `most`, both included. Returns the bitmap, and the number of
        bytes of the encoding. Raises NoSuchWidthError, a DecodeError or NoMemoryError.

        The encoding has no width and no checksum. Damaged bytes, or bytes read with another width, can be the encoding
        of another bitmap.
        """
        session, data = Session(width), bytes_of(data)
        used, length = SIZE(), U64()
        status = session.status("read", session.width, u64(least), u64(most), data, len(data), used, length)
        if status == InvalidLengthError.status:
            raise InvalidLengthError(length.value)
        check(status)
        return cls._of(session), used.value

    @classmethod
    def from_bytes(cls, data: ReadableBuffer, width: int = 8, least: int = 0, most: int = MAX) -> Bitmap:
        """Makes a bitmap, without commits, from its encoding: the reverse of `bytes(bitmap)`.

        The arguments and errors are those of `decode`. Raises InvalidError if bytes follow the encoding.
        """
        data = bytes_of(data)
        bitmap, used = cls.decode(data, width, least, most)
        if used != len(data):
            raise InvalidError("bytes follow the encoding")
        return bitmap

    @classmethod
    def decode_history(
        cls, data: ReadableBuffer, width: int = 8, least: int = 0, most: int = MAX, least_commits: int = 0, most_commits: int = MAX
    ) -> tuple[Bitmap, int]:
        """Makes a bitmap of the history that the bytes begin with. Returns it, and the number of bytes of the history.

        The number of retained bits, of the current bitmap and of each kept one, is from `least` to `most`, both included. The
        number of commits after the first kept one is from `least_commits` to `most_commits`, both included.

        Raises NoSuchWidthError, NoMemoryError, or a DecodeError: CutOffError, WrongHeaderError, DamagedError, NotAcceptedError
        or OutOfRangeError.
        """
        session, data, used = Session(width), bytes_of(data), SIZE()
        ranges = map(u64, (least, most, least_commits, most_commits))
        check(session.status("load", session.width, *ranges, data, len(data), used))
        return cls._of(session), used.value

    @classmethod
    def load(
        cls, data: ReadableBuffer, width: int = 8, least: int = 0, most: int = MAX, least_commits: int = 0, most_commits: int = MAX
    ) -> Bitmap:
        """Makes a bitmap of a history: the reverse of `save`.

        The arguments and errors are those of `decode_history`. Raises InvalidError if bytes follow the history.
        """
        data = bytes_of(data)
        bitmap, used = cls.decode_history(data, width, least, most, least_commits, most_commits)
        if used != len(data):
            raise InvalidError("bytes follow the history")
        return bitmap

    @classmethod
    def recover(cls, data: ReadableBuffer, width: int = 8) -> tuple[Bitmap, int]:
        """Makes a bitmap of a log, whole or cut off by a crash. Returns it, and the number of good bytes of the log.

        The bitmap is that after the last entry that is whole in the bytes. It keeps the log and goes on with it: its next entry
        belongs right after the good bytes. Bytes after these are what a crash has left of an entry. The program cuts them off its
        file before it appends to it.

        Raises NoSuchWidthError, NoMemoryError, or a DecodeError. CutOffError means that the bytes end before the first bitmap of
        the log does, and WrongHeaderError that they are no log of this width. DamagedError and NotAcceptedError are for
        damage that no cut explains. Their `position` is the number of good bytes before it.
        """
        session = Session(width)
        good = session.recover(bytes_of(data))
        return cls._of(session), good

    def begin_log(self) -> None:
        """Begins a log of what the bitmap keeps. Its first bytes are the history, as `save` returns it.

        From then on each commit, `rewind_to`, `drop_before`, `clear` and `apply_delta` also appends its entry to the log: both,
        or neither. A program writes the bytes of `take_log`, or of `log_bytes`, at the end of a file, from which `recover` makes
        the bitmap again. Until they are taken or forgotten, they are in memory. A copy of the bitmap keeps no log, and neither
        does a bitmap that is unpickled.

        Raises HasLogError if the bitmap keeps a log, InBatchError in a batch, or NoMemoryError.
        """
        self._run("log_begin")

    def end_log(self) -> None:
        """Ends the log. Bytes that were neither taken nor forgotten are lost. Raises NoLogError."""
        self._run("log_end")

    @property
    def keeps_log(self) -> bool:
        """Whether the bitmap keeps a log."""
        status = self._status("log_position", U64())
        if status != NoLogError.status:
            check(status)
        return status != NoLogError.status

    def log_bytes(self) -> bytes:
        """Returns the bytes of the log that were neither taken nor forgotten. They stay in the log.

        They are the bytes of the log before `log_position`. Raises NoLogError.
        """
        return self._encoding("log_bytes")

    def forget_log(self) -> None:
        """Removes the bytes that `log_bytes` returns, once the program has written them to its file.

        An entry that another thread appends between the two calls is removed too. Threads that change the bitmap share a lock
        for their batches: it is held from `log_bytes` to `forget_log`. Raises NoLogError.
        """
        self._run("log_forget")

    def take_log(self) -> bytes:
        """Removes the bytes that `log_bytes` returns, and returns them. No entry of another thread comes between the two.

        Raises NoLogError.
        """
        with self._session.lock:
            data = self.log_bytes()
            self.forget_log()
            return data

    @property
    def log_position(self) -> int:
        """The number of bytes of the whole log, those included that were taken or forgotten. Raises NoLogError."""
        return self._number("log_position")

    @property
    def log_digest(self) -> int:
        """The digest of the whole log, which is its last eight bytes as a number, the most significant first.

        If two logs of one width have the same position and the same digest, they have the same bytes, unless two inputs of the
        digest collide. Raises NoLogError.
        """
        return self._number("log_digest")

    def __reduce__(self) -> tuple[object, ...]:
        """Pickles the history and the width. The index and the log are not pickled. Raises InBatchError in a batch."""
        return type(self).load, (self.save(), self.width)

    def __copy__(self) -> Bitmap:
        return self.copy()

    def __deepcopy__(self, memo: dict[int, object]) -> Bitmap:
        """Returns a copy. Versions that are copied in the same call are versions of the same copy."""
        return self._of(deepcopy(self._session, memo))
