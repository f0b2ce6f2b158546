use mortarpink_proved::{Bitmap, Error};

/// Appends an event, prunes the chunks that end before the last 1,024 bits, and commits.
/// Keeps at most 11 versions, so that the pruned chunks of the others are freed too.
pub fn append(log: &mut Bitmap, event: bool, number: u64) -> Result<(), Error> {
    let mut batch = log.begin();
    batch.push(event)?;
    batch.prune(batch.len().saturating_sub(1024))?;
    batch.commit(number)?;
    log.drop_before(number.saturating_sub(10))?;
    Ok(())
}
