from typing import Optional

from mortarpink import Bitmap


def new_slots(count: int) -> Bitmap:
    """Makes a slot map of free slots, as version 0. It begins as an empty bitmap."""
    slots = Bitmap()
    with slots.batch(commit=0) as batch:
        batch.extend_to(count)
    return slots


def take_slot(slots: Bitmap, number: int) -> Optional[int]:
    """Takes the first free slot, and commits that. Returns None if all slots are taken."""
    slot = slots.next_zero(0)
    if slot is not None:
        with slots.batch(commit=number) as batch:
            batch[slot] = True
    return slot
