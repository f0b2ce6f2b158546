use crate::updates::Update;
use mortarpink_proved::{Bitmap, Error};

/// Returns whether an update is for this replica: for its latest version and width, and to a later
/// version.
pub fn fits(replica: &Bitmap, update: &Update) -> bool {
    let is_for_version = replica.latest() == Some(update.older) && update.older < update.newer;
    is_for_version && replica.width() == update.width
}

/// Brings a replica of the older version to the newer one, commits it, and returns `true`. If the
/// update does not fit, returns `false`. Then and after an error the replica is unchanged.
pub fn apply_update(replica: &mut Bitmap, update: &Update) -> Result<bool, Error> {
    if !fits(replica, update) {
        return Ok(false);
    }
    let mut batch = replica.begin();
    batch.truncate(update.len.min(batch.len()))?;
    batch.extend_to(update.len)?;
    for (index, chunk) in &update.chunks {
        batch.set_chunk(*index, chunk)?;
    }
    batch.prune(update.pruned_chunks.saturating_mul(update.width.bits()))?;
    batch.commit(update.newer)?;
    Ok(true)
}
