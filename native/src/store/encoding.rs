//! The encoding of an entry that is written before it is applied.

use crate::bitmap::historical::DirtyBitMap;
use crate::log::push_chunk;
use crate::support::alloc::AllocError;
use crate::support::vec::VecWithin;
use alloc::vec::Vec;

const COMMIT: u8 = 1;

/// The first byte of the entry of a rewind.
pub(super) const REWIND: u8 = 2;

/// The first byte of an entry that drops commits.
pub(super) const DROP_BEFORE: u8 = 3;

const CLEAR: u8 = 5;

/// Returns the encoding of the entry of a commit of a batch.
pub(super) fn encode_commit<const N: usize>(batch: &DirtyBitMap<N>, number: u64) -> Result<Vec<u8>, AllocError> {
    let mut out = encode_number(COMMIT, number)?;
    out.try_extend_from_slice(&batch.len().to_be_bytes())?;
    out.try_extend_from_slice(&(batch.pruned_chunks() as u64).to_be_bytes())?;
    for chunk in batch.changed_chunks() {
        if let Some(bytes) = batch.retained_bytes(chunk) {
            push_chunk(&mut out, chunk as u64, &bytes)?;
        }
    }
    Ok(out)
}

/// Returns the encoding of an entry that begins with a number.
pub(super) fn encode_number(kind: u8, number: u64) -> Result<Vec<u8>, AllocError> {
    let mut out = Vec::new();
    out.try_push(kind)?;
    out.try_extend_from_slice(&number.to_be_bytes())?;
    Ok(out)
}

/// The encoding of the entry that drops all commits.
pub(super) const CLEARED: [u8; 1] = [CLEAR];
