"""The log of a store in its files."""

from __future__ import annotations

from contextlib import suppress
from typing import Callable, Optional

from ._errors import ReadOnlyError
from ._files import LOG, NEW, RECEIPTS, Files
from ._receipts import BEGUN, KEPT, Place, Receipt, Receipts


class StoredLog:
    """A log in a file, to whose end entries are appended. The calls that write raise ReadOnlyError or OSError."""

    def __init__(self, files: Files, is_buffered: bool) -> None:
        self.files = files
        self.is_buffered = is_buffered
        self.receipts = Receipts()
        # The place after the last entry.
        self.place = Place(0, 0)
        # Whether there are entries that are not acknowledged.
        self.has_unsynced = False
        # Whether a call failed after it had begun to write. Nothing is written any more then.
        self.is_read_only = False

    def is_writable(self) -> bool:
        """Returns whether the log can be written to. In the child of a fork it cannot."""
        return not self.is_read_only and self.files.is_own()

    def check_writable(self) -> None:
        """Raises ReadOnlyError unless the log can be written to."""
        if not self.is_writable():
            raise ReadOnlyError()

    def _write(self, calls: Callable[[], None]) -> None:
        """Makes calls of the files. If one of them fails, nothing is written any more.

        If a handler of a signal raises an exception in them, they can be made again.
        """
        self.check_writable()
        self.is_read_only = True
        try:
            calls()
        except BaseException as error:
            self.is_read_only = isinstance(error, OSError)
            raise
        self.is_read_only = False

    def append(self, data: bytes, place: Place) -> None:
        """Appends the bytes of entries, which end at a place. Returns once they are as durable as the store's calls are."""

        def calls() -> None:
            self.has_unsynced = True
            self.files.write_at(LOG, self.place.at, data)
            if not self.is_buffered:
                self._acknowledge(place)
            self.place = place

        self._write(calls)

    def sync(self) -> None:
        """Returns once all entries are acknowledged."""
        self.check_writable()
        if self.has_unsynced:
            self._write(lambda: self._acknowledge(self.place))

    def _acknowledge(self, place: Place) -> None:
        """Returns once the bytes before a place are on the disk, and the receipt of this too."""
        self.files.sync(LOG)
        self._write_receipt(self.receipts.next(KEPT, place))
        self.has_unsynced = False

    def _write_receipt(self, receipt: Receipt) -> None:
        """Returns once a receipt is on the disk."""
        self.files.write_at(RECEIPTS, receipt.position(), receipt.encoded())
        self.files.sync(RECEIPTS)
        self.receipts = self.receipts.after(receipt)

    def replace(self, data: bytes, place: Place, begin: Callable[[], None]) -> None:
        """Replaces the log by a new one, which ends at a place, and calls `begin` once that is done.

        If the new log cannot be written, the log is as it was and can be written to.
        """
        # While a receipt is written, the log that it may not replace has no entry that a crash may damage.
        self.sync()
        try:
            self._write_new(data)
        except OSError:
            with suppress(OSError):
                self.files.remove_new()
            raise
        self.is_read_only = True
        # Either of the two logs may be found from here on.
        self._write_receipt(self.receipts.next(BEGUN, place))
        self.files.rename_new()
        self.files.sync_folder()
        self._write_receipt(self.receipts.next(KEPT, place))
        self.place, self.has_unsynced = place, False
        begin()
        self.is_read_only = False

    def _write_new(self, data: bytes) -> None:
        """Returns once a new log is on the disk, under its own name."""
        self.files.create_new()
        self.files.write_at(NEW, 0, data)
        self.files.sync(NEW)

    def forget_receipts(self) -> None:
        """Removes all receipts: those of a log that is gone."""
        if not self.receipts.are_none():
            self.files.cut_to(RECEIPTS, 0)
            self.files.sync(RECEIPTS)
            self.receipts = Receipts()

    def go_on(self, data: bytes, acknowledged: Optional[Place], place: Place) -> None:
        """Goes on at a place in the bytes of the log, and cuts off the bytes after it. Those before `acknowledged` are acknowledged.

        The bytes between the two places are written again, since a sync that failed, or a process that ended, may have left them in
        memory alone. If all bytes are acknowledged, the last receipt is written again for the same reason. So the disk has the
        receipts before an entry is appended, and an entry that a crash damages is known not to be acknowledged.
        """
        self.place = place
        # A compaction that was cut off has left this file.
        self.files.remove_new()
        is_cut = place.at < len(data)
        kept = None if is_cut else self.receipts.kept(place)
        if kept is not None:
            self._write_receipt(kept)
            return
        if acknowledged is not None:
            self.receipts = self.receipts.of_the_log(acknowledged)
            self.files.write_at(LOG, acknowledged.at, data[acknowledged.at : place.at])
        if is_cut:
            self.files.cut_to(LOG, place.at)
        self.files.sync_folder()
        self._acknowledge(place)

    def cut_back(self, place: Place) -> None:
        """Goes on at a place before which all bytes are good, whatever the receipts say, and cuts off the bytes after it.

        Both receipts then have this place.
        """
        self.files.sync_folder()
        self._acknowledge(place)
        self.place = place
        self.files.cut_to(LOG, place.at)
        self._acknowledge(place)

    def written(self) -> bytes:
        """Returns the bytes of the log up to the last entry."""
        return (self.files.read(LOG) or b"")[: self.place.at]

    def finish(self) -> None:
        """Makes all entries durable if that can be done, ends the lock, and closes the files. An error is not reported: `sync` does this."""
        with suppress(OSError):
            if self.is_writable():
                self.sync()
        self.files.close()
