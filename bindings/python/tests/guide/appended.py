from mortarpink import Bitmap


def append_version(versions: Bitmap, number: int, bit: bool) -> None:
    """Appends a bit, and commits. If a call raises, the bitmap is unchanged."""
    with versions.batch(commit=number) as batch:
        batch.push(bit)
