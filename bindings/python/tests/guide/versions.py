from typing import Optional

from mortarpink import Bitmap


def bit_then(versions: Bitmap, number: int, position: int) -> Optional[bool]:
    """Returns the bit at a position of a version, or None if the version is not kept or does not retain the position."""
    try:
        return versions.at(number).get(position)
    except LookupError:
        return None
