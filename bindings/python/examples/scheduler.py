"""A scheduler gives slots to jobs, and commits once per minute: which slots were taken at an earlier minute?"""

from mortarpink import Bitmap

SLOTS = 24

# Per minute: how many jobs start, and which slots become free.
PLAN = [(5, []), (4, [1, 3]), (6, [0]), (0, [2, 4, 5]), (12, [])]


def free_slots(slots: Bitmap, count: int) -> list[int]:
    """Returns the lowest free slots, at most so many."""
    found: list[int] = []
    slot = slots.next_zero(0)
    while slot is not None and len(found) < count:
        found.append(slot)
        slot = slots.next_zero(slot + 1)
    return found


def main() -> None:
    slots = Bitmap()
    with slots.batch(commit=0) as batch:
        batch.extend_to(SLOTS)

    for minute, (starting, freed) in enumerate(PLAN, 1):
        taken = free_slots(slots, starting)
        with slots.batch(commit=minute) as batch:
            batch.set_many(freed, False)
            batch.set_many(taken, True)
        print(f"minute {minute}: {len(taken)} of {starting} jobs start in {taken}, {freed} become free")

    print(f"now {slots.count_ones()} of {SLOTS} slots are taken: {list(slots.ones())}")
    for minute in slots.commits():
        version = slots.at(minute)
        first = version.next_zero(0)
        print(f"at minute {minute}: {version.count_ones()} taken, the first free slot was {first}")


if __name__ == "__main__":
    main()
