"""A bitmap that one process writes, and that others follow through an engine which keeps entries in order.

The writer appends an entry to a stream for each commit: the delta from the commit before it. A replica reads the entries and
applies each of them to a bitmap of its own. The stream is Redis (`redis_stream.py`) or PostgreSQL (`postgres_stream.py`).
"""

from __future__ import annotations

import os
from collections.abc import Callable
from dataclasses import dataclass
from enum import Enum
from pathlib import Path
from typing import Optional, Protocol

from mortarpink import Batch, Bitmap, Error

# The most entries that a replica reads at one time.
PAGE = 256


class Kind(Enum):
    """What an entry says."""

    # The body is the delta from the last commit to the next one.
    DELTA = "delta"

    # The body is the number, in decimal digits, of the commit that the writer rewound to.
    REWIND = "rewind"

    # The body is a whole history.
    HISTORY = "history"


@dataclass(frozen=True)
class Entry:
    """What the writer did. Sequences count from 1, one per entry, without a gap."""

    sequence: int
    kind: Kind
    body: bytes


class SequenceTakenError(Exception):
    """The stream has an entry with this sequence: another writer appended it, or this one did and lost the reply."""


class MissingEntriesError(Exception):
    """Entries before this one have not been applied."""


class Stream(Protocol):
    """An engine that keeps entries in the order of their sequences."""

    def append(self, entry: Entry) -> None:
        """Appends an entry, durably as far as the engine is set up so. Raises SequenceTakenError and appends nothing if there is one with this sequence."""

    def read(self, after: int, most: int) -> list[Entry]:
        """Returns the first entries with a sequence above `after`, ascending, and at most `most` of them. Those that were dropped are missing."""

    def keep_history(self, entry: Entry) -> None:
        """Keeps a whole history, up to and including its sequence, in place of the one kept before."""

    def history(self) -> Optional[Entry]:
        """Returns the history that is kept, or None."""

    def drop_through(self, sequence: int) -> None:
        """Drops the entries up to and including a sequence."""


class Replica:
    """A bitmap that follows a stream. Any version that it keeps can be read by `replica.bitmap.at(number)`."""

    def __init__(self, width: int, sequence: int = 0, history: Optional[bytes] = None) -> None:
        """Begins before the first entry, or with the history up to and including a sequence."""
        self.width = width
        self.sequence = sequence
        self.bitmap = Bitmap(width) if history is None else Bitmap.load(history, width)

    @classmethod
    def open(cls, path: Path, width: int) -> Replica:
        """Begins with what `save` wrote, or before the first entry if there is no such file."""
        try:
            sequence, history = path.read_bytes().split(b"\n", 1)
        except FileNotFoundError:
            return cls(width)
        return cls(width, int(sequence), history)

    def save(self, path: Path) -> None:
        """Writes the sequence and the history to a file. After a crash the file has either these or what it had before."""
        part = path.with_suffix(".part")
        with open(part, "wb") as file:
            file.write(b"%d\n" % self.sequence + self.bitmap.save())
            file.flush()
            os.fsync(file.fileno())
        os.replace(part, path)
        folder = os.open(path.parent, os.O_RDONLY)
        try:
            os.fsync(folder)
        finally:
            os.close(folder)

    def receive(self, entry: Entry) -> bool:
        """Applies an entry if it is the next one.

        Returns False, and changes nothing, if the entry was applied before. Raises MissingEntriesError, and changes nothing, if
        entries before it were not. Raises the error of the library, and changes nothing, if the entry does not fit the bitmap.
        """
        if entry.sequence <= self.sequence:
            return False
        if entry.kind is Kind.HISTORY:
            self.bitmap = Bitmap.load(entry.body, self.width)
        elif entry.sequence > self.sequence + 1:
            raise MissingEntriesError(f"entry {entry.sequence} after {self.sequence}")
        elif entry.kind is Kind.REWIND:
            self.bitmap.rewind_to(int(entry.body))
        else:
            self.bitmap.apply_delta(entry.body)
        self.sequence = entry.sequence
        return True

    def catch_up(self, stream: Stream) -> int:
        """Applies the entries of a stream that are not applied yet. Returns how many it read.

        The replica begins anew with the history that the stream keeps if entries were dropped from the stream before they were
        applied here, or if one of them does not fit, as a rewind to a commit that the replica has dropped.
        """
        count = 0
        while True:
            entries = stream.read(self.sequence, PAGE)
            if entries:
                self._apply(entries, stream)
            elif not self._begins_anew(stream):
                return count
            count += len(entries)

    def _apply(self, entries: list[Entry], stream: Stream) -> None:
        """Applies entries in order, or begins anew at the first that cannot be applied. Those after the history are read again then."""
        try:
            for entry in entries:
                self.receive(entry)
        except (MissingEntriesError, Error):
            if not self._begins_anew(stream):
                raise

    def _begins_anew(self, stream: Stream) -> bool:
        """Takes the history that a stream keeps, if it goes further than this replica. Returns whether it does."""
        history = stream.history()
        return history is not None and self.receive(history)


class Writer:
    """The one process that writes the bitmap of a stream."""

    def __init__(self, stream: Stream, width: int = 8) -> None:
        """Begins with what the stream has. An empty stream gets the empty bitmap, committed under 0."""
        self._stream = stream
        self._state = Replica(width)
        self._state.catch_up(stream)
        if self._state.sequence == 0:
            with self.bitmap.batch(commit=0):
                pass
            self._append(Kind.HISTORY, self.bitmap.save())
            self.keep_history()

    @property
    def bitmap(self) -> Bitmap:
        """The bitmap after the last entry. It may be read, and is written by the calls of the writer alone."""
        return self._state.bitmap

    def _append(self, kind: Kind, body: bytes) -> None:
        entry = Entry(self._state.sequence + 1, kind, body)
        try:
            self._stream.append(entry)
        except BaseException:
            # The entry may be in the stream or not, so only a new writer knows what the bitmap is.
            self.bitmap.close()
            raise
        self._state.sequence = entry.sequence

    def commit(self, number: int, edit: Callable[[Batch], None]) -> None:
        """Edits the bitmap in a batch, commits it under a number, and appends the delta to the stream.

        If the edits or the commit raise an error, nothing is appended, and the bitmap is as before. If the stream raises one, it
        is not known whether the entry was appended: this writer is closed, and a new one begins with what the stream has.
        """
        last = self.bitmap.latest
        assert last is not None, "the writer keeps its last commit"
        with self.bitmap.batch(commit=number) as batch:
            edit(batch)
        self._append(Kind.DELTA, self.bitmap.delta(last, number))

    def rewind_to(self, number: int) -> None:
        """Rewinds the bitmap to a commit, and appends that. Replicas that do not keep this commit begin anew with the history."""
        self.bitmap.rewind_to(number)
        self._append(Kind.REWIND, b"%d" % number)
        self.keep_history()

    def keep_history(self) -> None:
        """Gives the stream the whole history, for replicas that are new or were left behind."""
        self._stream.keep_history(Entry(self._state.sequence, Kind.HISTORY, self.bitmap.save()))

    def drop_before(self, number: int) -> None:
        """Drops the commits below a number here, gives the stream the history, and drops the entries that it replaces.

        Replicas keep their own commits, and drop them by their own choice.
        """
        self.bitmap.drop_before(number)
        self.keep_history()
        self._stream.drop_through(self._state.sequence)
