"""A log of events with a window: old events and old commits are dropped, while a thread counts the events of an old version."""

import threading

from mortarpink import Bitmap

# The window: how many bits stay, and how many commits.
BITS, COMMITS = 512, 4


def append(log: Bitmap, number: int, events: bytes) -> None:
    """Appends events, eight per byte, prunes the chunks before the window, and drops the commits before it."""
    with log.batch(commit=number) as batch:
        batch.push_bytes(events)
        batch.prune(max(batch.length - BITS, 0))
    log.drop_before(max(number - COMMITS + 1, 0))


def main() -> None:
    log = Bitmap()
    for number in range(1, 6):
        append(log, number, bytes([number, 255]) * 8)

    # The thread has a bitmap of its own, so it waits for no commit, and no commit waits for it.
    version, counts = log.checkout(3), []
    reader = threading.Thread(target=lambda: counts.append((version.length, version.count_ones())))
    reader.start()
    for number in range(6, 21):
        append(log, number, bytes([number, 255]) * 8)
    reader.join()

    print("version 3, counted while the log went on: %d events, %d of them set" % counts[0])
    print(f"now {log.length} events, those from {8 * log.width * log.pruned_chunks} on are kept, and {log.count_ones()} of these are set")
    print(f"the commits {list(log.commits())} are kept")
    changed = list(log.changed_chunks(17, 20))
    print(f"chunks that differ between commits 17 and 20: {changed}")


if __name__ == "__main__":
    main()
