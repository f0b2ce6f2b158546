import os
from pathlib import Path

from mortarpink import Bitmap


def save_versions(versions: Bitmap, path: Path) -> None:
    """Writes a bitmap with all its versions to a file. A crash leaves the old file or the new one."""
    new = path.with_suffix(".new")
    with new.open("wb") as file:
        file.write(versions.save())
        file.flush()
        os.fsync(file.fileno())
    new.replace(path)


def load_versions(path: Path, width: int = 8) -> Bitmap:
    """Makes the bitmap of a file that `save_versions` wrote, with all its versions. Raises DecodeError if the file is damaged."""
    return Bitmap.load(path.read_bytes(), width)
