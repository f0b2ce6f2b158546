from typing import Optional, Union

from mortarpink import Bitmap, Version


def next_around(bits: Union[Bitmap, Version], start: int) -> Optional[int]:
    """Returns the first set position from `start` on, or the first of all."""
    found = bits.next_one(start)
    return bits.next_one(0) if found is None else found
