from mortarpink import Bitmap


def saved(versions: Bitmap) -> dict[int, bytes]:
    """Returns the encoding of each kept version by its number."""
    return {number: bytes(versions.at(number)) for number in versions.commits()}


def restored(number: int, data: bytes, width: int = 8, most: int = 4096) -> Bitmap:
    """Makes a bitmap of a saved version of at most `most` retained bits, and commits it under its number."""
    bitmap = Bitmap.from_bytes(data, width, most=most)
    bitmap.batch().commit(number)
    return bitmap
