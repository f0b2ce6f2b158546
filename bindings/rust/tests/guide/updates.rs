use mortarpink_proved::{Bitmap, Chunk, Error, Width};

/// What a replica of the older version receives.
pub struct Update {
    /// The number of the version that the replica has to be at.
    pub older: u64,
    /// The number of the version that the update makes.
    pub newer: u64,
    pub width: Width,
    /// The length of the newer version in bits.
    pub len: u64,
    /// The number of pruned chunks of the newer version.
    pub pruned_chunks: u64,
    /// The changed chunks, each with its index.
    pub chunks: Vec<(u64, Chunk)>,
}

/// Makes the update from one version to a later one. A changed chunk that the later version does
/// not retain is left out.
pub fn update_between(versions: &Bitmap, older: u64, newer: u64) -> Result<Update, Error> {
    let (version, width) = (versions.at(newer)?, versions.width());
    let (len, pruned_chunks) = (version.len(), version.pruned_chunks());
    let mut chunks = Vec::new();
    for index in versions.changed_chunks(older, newer)? {
        let first = index * width.bits();
        if pruned_chunks <= index && first < len {
            chunks.push((index, version.chunk(first)?));
        }
    }
    Ok(Update { older, newer, width, len, pruned_chunks, chunks })
}
