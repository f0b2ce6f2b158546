use mortarpink_proved::{Bitmap, Error};

/// Sets some bits, commits that, and then keeps the last versions: at most 100 of them.
pub fn commit_set(versions: &mut Bitmap, positions: &[u64], number: u64) -> Result<(), Error> {
    let mut batch = versions.begin();
    batch.set_many(positions, true)?;
    batch.commit(number)?;
    let dropped = versions.commits().count().saturating_sub(100);
    if let Some(oldest) = versions.commits().nth(dropped) {
        versions.drop_before(oldest)?;
    }
    Ok(())
}
