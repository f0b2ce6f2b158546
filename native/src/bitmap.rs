//! Bitmaps: lists of bits in chunks of a fixed number of bytes.
//!
//! | Type | What it is |
//! |---|---|
//! | [`BitMap<N>`](BitMap) | a list of bits |
//! | [`Prunable<N>`](Prunable) | a bitmap whose oldest chunks can be pruned: the positions of the other bits stay the same |
//! | [`Readable<N>`](Readable) | a trait: reads, searches and counts on any bitmap |
//! | [`historical::CleanBitMap<N>`](historical::CleanBitMap) | a `Prunable` that keeps commits, which are versions of it under numbers |
//! | [`historical::DirtyBitMap<N>`](historical::DirtyBitMap) | the same in a batch of edits, before it is committed |
//! | [`historical::PreparedBitMap<N>`](historical::PreparedBitMap) | a batch whose commit has all its memory, and cannot fail any more |
//! | [`historical::AtCommit<N>`](historical::AtCommit) | the bitmap at a kept commit, read in place |
//!
//! `N` is the width: the number of bytes per chunk. Positions and lengths count bits. Bit 0 of a byte is its lowest.
//!
//! ```
//! use mortarpink::bitmap::{BitMap, Readable};
//!
//! let mut taken: BitMap = BitMap::zeroes(100);
//! taken.set(3, true);
//! taken.set(64, true);
//! taken.push(true);
//! assert_eq!(taken.ones_iter().collect::<Vec<_>>(), [3, 64, 100]);
//! assert_eq!(taken.next_zero(3), Some(4));
//! ```

mod dense;
mod pruned;
mod ranges;
mod versions;

// The original crate has a struct `Iterator` too. `prelude` leaves it out, so that it does not hide Rust's trait.
pub use crate::generated::bitmap_core::bitmap::{BitMap, DEFAULT_CHUNK_SIZE, Iterator, OnesIter, Prunable, Readable};

pub mod prunable {
    //! The error of [`Prunable::new_with_pruned_chunks`](super::Prunable::new_with_pruned_chunks).
    pub use crate::generated::bitmap_core::bitmap::prunable::Error;
}

pub mod historical {
    //! Bitmaps with a history of numbered commits.
    //!
    //! [`CleanBitMap::into_dirty`] turns a bitmap into a batch. A batch is edited, and then committed under a number, or aborted.
    //! [`DirtyBitMap::prepare`] commits it in two steps, of which the second one cannot fail.
    //! The bitmap at a kept commit is read in place by `at` or `gathered`, copied by `get_at_commit`, or made current again by `rewind_to`.
    //!
    //! ```
    //! use mortarpink::bitmap::Readable;
    //! use mortarpink::bitmap::historical::CleanBitMap;
    //!
    //! // Version 1 has the bits 1, 0.
    //! let mut batch = CleanBitMap::<8>::new().into_dirty();
    //! batch.push(true).push(false);
    //! let bitmap = batch.commit(1)?;
    //!
    //! // Version 2 has the bits 1, 1, 1.
    //! let mut batch = bitmap.into_dirty();
    //! batch.set_bit(1, true).push(true);
    //! let bitmap = batch.commit(2)?;
    //!
    //! // Version 1 still has one set bit. Then it becomes the current bitmap again.
    //! assert_eq!(bitmap.at(1).unwrap().count_ones_range(0..3), 1);
    //! assert_eq!(bitmap.changed_chunks(1, 2).unwrap().collect::<Vec<_>>(), [0]);
    //! let bitmap = bitmap.rewind_to(1).map_err(|(_, error)| error).unwrap();
    //! assert_eq!((bitmap.len(), bitmap.latest_commit()), (2, Some(1)));
    //! # Ok::<(), mortarpink::bitmap::historical::Error>(())
    //! ```
    pub use crate::generated::historical_bitmap::bitmap::historical::{
        ApplyError, AtCommit, BitMap, ChangedChunks, Clean, CleanBitMap, CommitNumbers, Commits, Dirty, DirtyBitMap, Edit, Error, Gathered,
        Lent, PendingChanges, PreparedBitMap, PreparedChanges, RewindError, State,
    };
}

pub mod codec {
    //! What decoding admits, and its errors.
    //!
    //! | Value | Encoding |
    //! |---|---|
    //! | `BitMap` | the length in eight bytes, most significant first, and then the chunks in order |
    //! | `Prunable` | the number of pruned chunks in eight bytes, most significant first, and then the retained bits as a `BitMap` |
    //!
    //! Each value has exactly one encoding. Decoding a `BitMap` returns the first of these errors that applies:
    //!
    //! 1. `EndOfBuffer`: there are fewer than eight bytes.
    //! 2. `InvalidLength`: the length is not in the range.
    //! 3. `EndOfBuffer`: bytes of the chunks are missing.
    //! 4. `Invalid`: a bit past the length is set.
    //! 5. `OutOfMemory`: the allocation of the chunks fails.
    //!
    //! Decoding a `Prunable` returns one of these first:
    //!
    //! 1. `EndOfBuffer`: there are fewer than eight bytes for the number of pruned chunks.
    //! 2. `Invalid`: the number of pruned bits does not fit `u64`.
    //!
    //! Then come the errors 1 to 4 of a `BitMap`, for the retained bits. Then comes `Invalid` if the length, with the pruned bits, does not fit
    //! `u64`, and `OutOfMemory` at last.
    pub use crate::generated::bitmap_core::bitmap::codec::{CodecError, EncodeSize, RangeCfg};
}
