from hashlib import sha256
from pathlib import Path
from typing import Union

from mortarpink import Bitmap, Version


def save(bits: Union[Bitmap, Version], path: Path) -> None:
    """Writes the width, the encoding, and a checksum of both to a file."""
    data = bytes([bits.width]) + bytes(bits)
    path.write_bytes(data + sha256(data).digest())


def load(path: Path) -> Bitmap:
    """Makes a bitmap, without commits, of a file that `save` wrote. Raises ValueError if the file is damaged."""
    content = path.read_bytes()
    data, checksum = content[:-32], content[-32:]
    if sha256(data).digest() != checksum:
        raise ValueError(f"{path} is damaged")
    return Bitmap.from_bytes(data[1:], width=data[0])
