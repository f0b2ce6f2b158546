"""The exceptions, one per status of the library."""

from __future__ import annotations

from typing import Optional

from . import _interface
from ._library import CALLS

# The class of each status.
BY_STATUS: dict[int, type[Error]] = {}


class Error(Exception):
    """The base of the exceptions of this package.

    A call that raises one changes nothing. `Batch.push_bytes` and `Batch.set_many` are the only exceptions.
    """

    # The status of the library, or DONE.
    status = _interface.DONE

    # The number of bytes that `Batch.push_bytes` appended before the error.
    appended = 0

    # The number of positions whose bit `Batch.set_many` replaced before the error.
    replaced = 0

    def __init_subclass__(cls, status: Optional[int] = None) -> None:
        if status is not None:
            cls.status = status
            BY_STATUS[status] = cls

    def _detail(self) -> str:
        return str(self.args[0]) if self.args else ""

    def _text(self) -> str:
        text: str = CALLS["status_text"](self.status).decode() if self.status else ""
        return text

    def __str__(self) -> str:
        texts = (self._text(), self._detail())
        return ": ".join(text for text in texts if text)


class WrongModeError(Error, RuntimeError):
    """The base of the exceptions of a call that needs a batch and has none, or the reverse.

    `Bitmap.batch` begins a batch. `Batch.commit`, `Batch.abort`, `Bitmap.abort` and the end of a `with` block end it.
    """


class InBatchError(WrongModeError, status=_interface.IN_BATCH):
    """The bitmap is in a batch, and the call needs that it is in none."""

    def _text(self) -> str:
        return "the bitmap is in a batch: Batch.commit, Batch.abort, Bitmap.abort or the end of its with block ends it"


class NotInBatchError(WrongModeError, status=_interface.NOT_IN_BATCH):
    """The call is one of a batch that has ended."""

    def _text(self) -> str:
        return "the batch has ended: Bitmap.batch begins another one"


class OutOfBoundsError(Error, IndexError, status=_interface.OUT_OF_BOUNDS):
    """The position is at or past the length; for a prune, past it."""


class PrunedError(Error, IndexError, status=_interface.PRUNED):
    """The position is pruned."""


class TooLongError(Error, OverflowError, status=_interface.TOO_LONG):
    """The length would pass 2^64 - 1."""


class NoRetainedBitError(Error, IndexError, status=_interface.NO_RETAINED_BIT):
    """There is no retained bit to pop."""


class ReservedCommitNumberError(Error, ValueError, status=_interface.RESERVED_COMMIT_NUMBER):
    """The commit number is 2^64 - 1."""


class NonMonotonicCommitError(Error, ValueError, status=_interface.NON_MONOTONIC_COMMIT):
    """The commit number is not above the last one."""

    @property
    def previous(self) -> int:
        """The last commit number."""
        return int(self.args[0])

    @property
    def attempted(self) -> int:
        """The number given to the call."""
        return int(self.args[1])

    def _detail(self) -> str:
        return f"{self.attempted} after {self.previous}"


class PrunedChunksOverflowError(Error, OverflowError, status=_interface.PRUNED_CHUNKS_OVERFLOW):
    """The number of pruned bits would pass 2^64 - 1."""


class DecodeError(Error, ValueError):
    """The base of the errors in the input of `Bitmap.from_bytes`, `decode`, `load`, `decode_history`, `apply_delta` and `recover`.

    `InvalidError` is also that of bytes that are no proof.
    """


class EndOfBufferError(DecodeError, status=_interface.END_OF_BUFFER):
    """The bytes end before the encoding does."""


class InvalidLengthError(DecodeError, status=_interface.INVALID_LENGTH):
    """The encoded number of retained bits is out of range."""

    @property
    def length(self) -> int:
        """The number of retained bits that the bytes have."""
        return int(self.args[0])

    def _detail(self) -> str:
        return f"{self.length} retained bits"


class InvalidError(DecodeError, status=_interface.INVALID):
    """The bytes are not an encoding."""


class WrongHeaderError(DecodeError, status=_interface.WRONG_HEADER):
    """The bytes do not begin as a history, a log or a delta of this width does."""


class CutOffError(DecodeError, status=_interface.CUT_OFF):
    """The bytes end before the history, the delta or the first bitmap of the log does."""


class _AtPosition(Error):
    """The base of the errors that have a position in a log."""

    @property
    def position(self) -> Optional[int]:
        """The number of bytes of the log that are good: those before the damage. None if the error is not of a log."""
        return int(self.args[0]) if self.args else None

    def _detail(self) -> str:
        return "" if self.position is None else f"after {self.position} good bytes"


class DamagedError(_AtPosition, DecodeError, status=_interface.DAMAGED):
    """A digest is not that of the bytes before it."""


class NotAcceptedError(_AtPosition, DecodeError, status=_interface.NOT_ACCEPTED):
    """A part of the bytes is no bitmap, or no commit or other entry that can follow."""


class OutOfRangeError(DecodeError, status=_interface.OUT_OF_RANGE):
    """A number of retained bits or of commits is out of range."""


class NotAtBaseError(Error, ValueError, status=_interface.NOT_AT_BASE):
    """The delta does not start at the current bitmap."""


class HasLogError(Error, RuntimeError, status=_interface.HAS_LOG):
    """The bitmap keeps a log already."""


class NoLogError(Error, RuntimeError, status=_interface.NO_LOG):
    """The bitmap keeps no log. `Bitmap.begin_log` begins one."""


class NotVerifiedError(Error, ValueError, status=_interface.NOT_VERIFIED):
    """The proof does not verify against the root, or it is of another chunk."""


class NoSuchCommitError(Error, LookupError, status=_interface.NO_SUCH_COMMIT):
    """No commit is kept under the number."""


class NoMemoryError(Error, MemoryError, status=_interface.NO_MEMORY):
    """An allocation failed."""


class ClosedError(Error, ValueError, status=_interface.EMPTY_HANDLE):
    """The bitmap is closed."""

    def _text(self) -> str:
        return "the bitmap is closed"


class NoSuchWidthError(Error, ValueError, status=_interface.NO_SUCH_WIDTH):
    """The width is not 1, 8, 32 or 64."""


class WrongSizeError(Error, ValueError, status=_interface.WRONG_SIZE):
    """The chunk or the buffer has the wrong size."""


class StoreError(Error):
    """The base of the errors of a `Store` that a `Bitmap` has not."""

    text = ""

    def _text(self) -> str:
        return self.text

    def _detail(self) -> str:
        return ""


class LockedError(StoreError):
    """Another store has the file open, in this process or in another one."""

    text = "another store has the file open"


class NotEmptyError(StoreError, ValueError):
    """A store was to be created in a file that has bytes."""

    text = "the file has bytes, so no store is created in it"


class MissingEndError(StoreError, _AtPosition, ValueError):
    """The end of the log is missing: all bytes that there are belong to a log, but more of them were acknowledged."""

    text = "the end of the log is missing"

    @property
    def acknowledged(self) -> int:
        """The number of bytes that were acknowledged."""
        return int(self.args[1])

    def _detail(self) -> str:
        return f"{self.position} bytes are good, and {self.acknowledged} were acknowledged"


class OtherLogError(StoreError, _AtPosition, ValueError):
    """The file has another log than the one whose receipts are beside it."""

    text = "the receipts beside the file are those of another log"


class NotAnEndError(StoreError, ValueError):
    """No entry ends at the position at which a log is to be cut off."""

    text = "no entry ends at the position at which the log is to be cut off"


class ReadOnlyError(StoreError):
    """The store can only be read: an earlier call failed to write, or it is the copy of a store that the child of a fork has."""

    text = "the store is read-only until it is opened again"


def check(status: int) -> None:
    """Raises the error of a status that has no details."""
    if status != _interface.DONE:
        raise BY_STATUS[status]()
