from mortarpink import Bitmap


def append(log: Bitmap, event: bool, number: int) -> None:
    """Appends an event, prunes the chunks that end before the last 1,024 bits, and commits. Keeps at most 11 versions."""
    with log.batch(commit=number) as batch:
        batch.push(event)
        batch.prune(max(len(batch) - 1024, 0))
    log.drop_before(max(number - 10, 0))
