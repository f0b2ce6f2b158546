import os
from io import FileIO
from pathlib import Path

from mortarpink import Bitmap, CutOffError


def open_log(path: Path, width: int = 8) -> tuple[Bitmap, FileIO]:
    """Opens the file of a log, and makes the bitmap with all its versions, after a crash too.

    If the file is missing or has no bytes, or if a crash has cut off its first write, the log of an empty bitmap begins. Raises
    DecodeError if the file is damaged.
    """
    data = path.read_bytes() if path.exists() else b""
    try:
        versions, good = Bitmap.recover(data, width)
    except CutOffError:
        keep_copy(data, path)
        versions, good = Bitmap(width), 0
        versions.begin_log()
    file = path.open("ab", buffering=0)
    file.truncate(good)
    return versions, file


def keep_copy(data: bytes, path: Path) -> None:
    """Writes the bytes of a file whose log begins again to a copy beside it, if there are any.

    Raises FileExistsError if there is a copy from an earlier time: then a person has to look at both.
    """
    if data:
        with path.with_suffix(".cut").open("xb") as copy:
            copy.write(data)
            copy.flush()
            os.fsync(copy.fileno())


def append_entries(versions: Bitmap, file: FileIO) -> None:
    """Appends the entries that are not in the file yet. If a call raises, they are still in the log."""
    data = versions.log_bytes()
    # Cuts off what a write that failed has left.
    file.truncate(versions.log_position - len(data))
    if file.write(data) != len(data):
        raise OSError("the file does not take all bytes")
    os.fsync(file.fileno())
    versions.forget_log()
