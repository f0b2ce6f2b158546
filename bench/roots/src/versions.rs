//! Bitmaps that keep versions, with roots and without, and the edits of their commits.

use mortarpink::bitmap::historical::CleanBitMap;
use mortarpink::bitmap::Prunable;
use mortarpink::roots::{AuthenticatedBitMap, Digest};
use shared::{Positions, BYTE};

// Commits that are made before the measured calls flip the positions of this seed.
const SEED: u64 = 8;

/// A position, and the value that its bit gets.
pub type Edit = (u64, bool);

/// A bitmap that keeps its versions.
pub trait Versions<const N: usize>: Sized {
    /// Returns a bitmap whose version 0 has so many chunks.
    fn filled(chunks: u64) -> Self;

    /// Sets bits, and commits that under a number.
    fn committed(self, edits: &[Edit], number: u64) -> Self;

    /// Returns to the version `number`.
    fn rewound(self, number: u64) -> Self;

    /// Returns the current version.
    fn current(&self) -> &Prunable<N>;
}

// The calls that are written alike for both bitmaps, though their batches are of different types.
macro_rules! calls_of_both {
    ($empty:expr) => {
        fn filled(chunks: u64) -> Self {
            let mut batch = $empty.into_dirty();
            for _ in 0..chunks {
                batch.push_chunk(&[BYTE; N]);
            }
            batch.commit(0).expect("it is the first commit")
        }

        fn committed(self, edits: &[Edit], number: u64) -> Self {
            let mut batch = self.into_dirty();
            for &(bit, value) in edits {
                batch.set_bit(bit, value);
            }
            batch.commit(number).expect("the number is above the last one")
        }

        fn rewound(self, number: u64) -> Self {
            self.rewind_to(number).map_err(|(_, error)| error).expect("the version is kept")
        }
    };
}

impl<const N: usize> Versions<N> for CleanBitMap<N> {
    calls_of_both!(CleanBitMap::new());

    fn current(&self) -> &Prunable<N> {
        CleanBitMap::current(self)
    }
}

impl<const N: usize, D: Digest + Default> Versions<N> for AuthenticatedBitMap<N, D> {
    calls_of_both!(AuthenticatedBitMap::default());

    fn current(&self) -> &Prunable<N> {
        self.bits().current()
    }
}

/// Returns edits that flip `count` random bits, one after another. A copy of the bitmap has what they read, so that a commit only writes.
pub fn flips<const N: usize>(current: &Prunable<N>, seed: u64, count: u64) -> Vec<Edit> {
    let (mut copy, mut positions) = (current.clone(), Positions::from_seed(seed));
    let mut flip = || {
        let bit = positions.step() % copy.len();
        let value = !copy.get_bit(bit);
        copy.set_bit(bit, value);
        (bit, value)
    };
    (0..count).map(|_| flip()).collect()
}

/// Commits `count` versions after the version `last`. Each flips one random bit.
pub fn commit_small<const N: usize, V: Versions<N>>(bitmap: V, last: u64, count: u64) -> V {
    let edits = flips(bitmap.current(), SEED, count);
    edits.chunks(1).zip(last + 1..).fold(bitmap, |bitmap, (edit, number)| bitmap.committed(edit, number))
}

/// Returns a bitmap of the whole chunks that `bytes` bytes fill, with `count` versions after version 0.
pub fn with_commits<const N: usize, V: Versions<N>>(bytes: u64, count: u64) -> V {
    commit_small(V::filled(bytes / N as u64), 0, count)
}
