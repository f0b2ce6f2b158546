from typing import Iterable

from mortarpink import Bitmap, NoMemoryError


def set_all(flags: Bitmap, positions: Iterable[int], number: int) -> bool:
    """Sets some bits in one batch: all of them, or none if memory runs out. Returns whether it has set them."""
    try:
        with flags.batch(commit=number) as batch:
            for position in positions:
                batch[position] = True
    except NoMemoryError:
        return False
    return True
