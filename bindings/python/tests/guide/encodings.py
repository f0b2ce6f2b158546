from typing import Union

from mortarpink import Bitmap, Version


def to_bytes(bits: Union[Bitmap, Version]) -> bytes:
    """Returns the encoding of the current bitmap, or of a version."""
    return bytes(bits)


def from_bytes(data: bytes) -> Bitmap:
    """Decodes a bitmap of at most 4,096 retained bits. Raises DecodeError unless the bytes are its encoding, with nothing after it."""
    return Bitmap.from_bytes(data, width=8, most=4096)
