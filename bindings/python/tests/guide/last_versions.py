from typing import Iterable

from mortarpink import Bitmap


def commit_set(versions: Bitmap, positions: Iterable[int], number: int, most: int = 100) -> None:
    """Sets some bits, commits that, and keeps the last `most` versions, which are at least one."""
    with versions.batch(commit=number) as batch:
        batch.set_many(positions)
    kept = list(versions.commits())
    if len(kept) > most:
        versions.drop_before(kept[-most])
