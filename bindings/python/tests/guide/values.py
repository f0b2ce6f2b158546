from mortarpink import Bitmap


def versions_from(versions: Bitmap, first: int) -> bytes:
    """Returns the current bitmap and the versions from a number on, as one value."""
    last = versions.copy()
    last.drop_before(first)
    return last.save()


def received(data: bytes) -> Bitmap:
    """Makes a bitmap with its versions from the bytes of someone else. Raises DecodeError if they are no such bytes.

    No version has more than 4,096 retained bits, and at most 100 versions follow the first one.
    """
    return Bitmap.load(data, width=8, most=4096, most_commits=100)
