use mortarpink_proved::{Bitmap, Error, Width};

/// Makes a slot map of free slots, as version 0. It begins as an empty bitmap.
pub fn new_slots(count: u64) -> Result<Bitmap, Error> {
    let mut slots = Bitmap::new(Width::Bytes8)?;
    let mut batch = slots.begin();
    batch.extend_to(count)?;
    batch.commit(0)?;
    Ok(slots)
}

/// Takes the first free slot, and commits that. Returns `None` if all slots are taken.
pub fn take_slot(slots: &mut Bitmap, number: u64) -> Result<Option<u64>, Error> {
    let Some(slot) = slots.next_zero(0) else {
        return Ok(None);
    };
    let mut batch = slots.begin();
    batch.set(slot, true)?;
    batch.commit(number)?;
    Ok(Some(slot))
}
