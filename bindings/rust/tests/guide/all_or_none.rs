use mortarpink_proved::{Bitmap, Error};

/// Sets some bits in one batch: all of them, or none if a call fails, for instance because an
/// allocation does.
pub fn set_all(flags: &mut Bitmap, positions: &[u64], number: u64) -> Result<(), Error> {
    let mut batch = flags.begin();
    batch.set_many(positions, true)?;
    batch.commit(number)
}
