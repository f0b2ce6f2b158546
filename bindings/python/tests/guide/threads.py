from threading import Lock

from mortarpink import Bitmap


def add_flag(flags: Bitmap, lock: Lock) -> None:
    """Appends a flag under the next number. A batch is several calls, so the threads share a lock for it."""
    with lock, flags.batch(commit=(flags.latest or 0) + 1) as batch:
        batch.push(True)
