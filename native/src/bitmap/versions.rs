//! Historical bitmaps: constructors, past states, and the edits of a batch that chain.

use crate::bitmap::Prunable;
use crate::bitmap::historical::{
    ApplyError, BitMap, ChangedChunks, Clean, CleanBitMap, CommitNumbers, Dirty, DirtyBitMap, Error, Gathered, PendingChanges,
    PreparedBitMap, PreparedChanges, State,
};
use crate::support::alloc::{Global, expect_memory, out_of_memory};
use crate::support::clone::TryClone;
use core::iter::FusedIterator;
use core::ops::Range;
use core::{error, fmt};

/// Constructors. `N` has to be at least 1, and `8N` has to fit `u64`: otherwise they do not compile.
impl<const N: usize> BitMap<N, Clean> {
    /// Returns an empty bitmap: no bits, no pruned chunks and no commits. Does not allocate; constant time.
    ///
    /// ```
    /// use mortarpink::bitmap::historical::CleanBitMap;
    ///
    /// let bitmap = CleanBitMap::<8>::new();
    /// assert!(bitmap.is_empty() && bitmap.latest_commit().is_none());
    /// ```
    #[must_use]
    pub fn new() -> Self {
        CleanBitMap::new_within(Global)
    }

    /// Returns a bitmap with `pruned_chunks` pruned chunks, no retained bit and no commits. Does not allocate; constant time.
    ///
    /// # Errors
    ///
    /// Returns `PrunedChunksOverflow` if the number of pruned bits does not fit `u64`.
    ///
    /// ```
    /// use mortarpink::bitmap::historical::CleanBitMap;
    ///
    /// assert_eq!(CleanBitMap::<4>::new_with_pruned_chunks(2).unwrap().len(), 64);
    /// ```
    pub fn new_with_pruned_chunks(pruned_chunks: usize) -> Result<Self, Error> {
        CleanBitMap::new_with_pruned_chunks_within(Global, pruned_chunks)
    }

    /// Makes a historical bitmap of a bitmap, which becomes the current one. There are no commits. Does not allocate; constant
    /// time.
    ///
    /// ```
    /// use mortarpink::bitmap::Prunable;
    /// use mortarpink::bitmap::historical::CleanBitMap;
    ///
    /// let mut saved = Prunable::<8>::new();
    /// saved.push(true);
    /// assert!(CleanBitMap::from_bitmap(saved).get_bit(0));
    /// ```
    #[must_use]
    pub fn from_bitmap(bitmap: Prunable<N>) -> Self {
        CleanBitMap::from_bitmap_within(Global, bitmap)
    }
}

/// Batches and past states.
impl<const N: usize> BitMap<N, Clean> {
    /// Edits the bitmap with a closure, and commits the result under a number.
    ///
    /// # Errors
    ///
    /// Returns the error of the commit. The bitmap is dropped then; `try_apply_batch` returns it.
    ///
    /// # Complexity
    ///
    /// Time and memory are those of [`try_apply_batch`](Self::try_apply_batch).
    ///
    /// # Panics
    ///
    /// Panics if memory runs out.
    ///
    /// ```
    /// use mortarpink::bitmap::historical::CleanBitMap;
    ///
    /// let bitmap = CleanBitMap::<4>::new();
    /// let bitmap = bitmap.apply_batch(1, |batch| {
    ///     batch.push(true).push(false);
    /// })?;
    /// assert_eq!(bitmap.len(), 2);
    /// # Ok::<(), mortarpink::bitmap::historical::Error>(())
    /// ```
    pub fn apply_batch<F: FnOnce(&mut DirtyBitMap<N>)>(self, commit_number: u64, edit: F) -> Result<Self, Error> {
        let mut batch = self.into_dirty();
        edit(&mut batch);
        batch.commit(commit_number)
    }

    /// Returns the bitmap as it was at a commit, to be read in place, with the chunks that later commits changed gathered beforehand,
    /// or `None` if the commit is not kept. It is for a pass over many chunks, for each of which `at` searches in each later record.
    ///
    /// # Complexity
    ///
    /// Time and memory are those of [`try_gathered`](Self::try_gathered).
    ///
    /// # Panics
    ///
    /// Panics if memory runs out.
    ///
    /// ```
    /// use mortarpink::bitmap::Readable;
    /// use mortarpink::bitmap::historical::CleanBitMap;
    ///
    /// let bitmap = CleanBitMap::<4>::new().apply_batch(1, |batch| {
    ///     batch.push(true);
    /// })?;
    /// let bitmap = bitmap.apply_batch(2, |batch| {
    ///     batch.set_bit(0, false);
    /// })?;
    /// assert_eq!(bitmap.gathered(1).unwrap().count_ones_range(0..1), 1);
    /// assert!(bitmap.gathered(3).is_none());
    /// # Ok::<(), mortarpink::bitmap::historical::Error>(())
    /// ```
    #[must_use]
    pub fn gathered(&self, commit_number: u64) -> Option<Gathered<'_, N>> {
        expect_memory(self.try_gathered(commit_number))
    }

    /// Returns the bitmap as it was at a commit, as a bitmap of its own, or `None` if the commit is not kept.
    /// `at` and `gathered` read a past state without a copy.
    ///
    /// # Complexity
    ///
    /// Time and memory are those of [`try_get_at_commit`](Self::try_get_at_commit).
    ///
    /// # Panics
    ///
    /// Panics if memory runs out.
    ///
    /// ```
    /// use mortarpink::bitmap::historical::CleanBitMap;
    ///
    /// let bitmap = CleanBitMap::<4>::new().apply_batch(1, |batch| {
    ///     batch.push(true);
    /// })?;
    /// let bitmap = bitmap.apply_batch(2, |batch| {
    ///     batch.set_bit(0, false);
    /// })?;
    /// assert!(bitmap.get_at_commit(1).unwrap().get_bit(0));
    /// assert!(bitmap.get_at_commit(3).is_none());
    /// # Ok::<(), mortarpink::bitmap::historical::Error>(())
    /// ```
    pub fn get_at_commit(&self, commit_number: u64) -> Option<Prunable<N>> {
        expect_memory(self.try_get_at_commit(commit_number))
    }
}

/// Edits of a batch, which chain. Each has a form `try_..` that returns an error if memory runs out, and leaves the batch unchanged then.
impl<const N: usize> BitMap<N, Dirty<N>> {
    /// Sets the bit at the absolute position `bit` to `value`.
    ///
    /// # Complexity
    ///
    /// Time and memory are those of [`try_set_bit`](Self::try_set_bit).
    ///
    /// # Panics
    ///
    /// Panics if memory runs out, or if `bit` is pruned or not below the pending length.
    ///
    /// ```
    /// use mortarpink::bitmap::historical::CleanBitMap;
    ///
    /// let mut batch = CleanBitMap::<4>::new().into_dirty();
    /// batch.push(true).set_bit(0, false);
    /// assert!(!batch.get_bit(0));
    /// ```
    #[inline]
    pub fn set_bit(&mut self, bit: u64, value: bool) -> &mut Self {
        expect_memory(self.set_bit_unchained(bit, value));
        self
    }

    /// Sets the bit at each position in `range` to `value`. If the range is empty or ends before it starts, nothing changes.
    ///
    /// # Complexity
    ///
    /// Time and memory are those of [`try_set_range`](Self::try_set_range).
    ///
    /// # Panics
    ///
    /// Panics if memory runs out, or if the range starts below the first position that is not pruned, or ends after the pending length.
    ///
    /// ```
    /// use mortarpink::bitmap::Readable;
    /// use mortarpink::bitmap::historical::CleanBitMap;
    ///
    /// let mut batch = CleanBitMap::<4>::new().into_dirty();
    /// batch.push_chunk(&[0; 4]).set_range(3..30, true);
    /// assert_eq!(batch.count_ones_range(0..32), 27);
    /// ```
    pub fn set_range(&mut self, range: Range<u64>, value: bool) -> &mut Self {
        expect_memory(self.set_range_unchained(range, value));
        self
    }

    /// Replaces the chunk at an absolute index by these bytes. Bits past the pending length are ignored.
    ///
    /// # Complexity
    ///
    /// Time and memory are those of [`try_set_chunk`](Self::try_set_chunk).
    ///
    /// # Panics
    ///
    /// Panics if memory runs out, if the chunk is pruned, or if it begins at or after the pending length.
    ///
    /// ```
    /// use mortarpink::bitmap::historical::CleanBitMap;
    ///
    /// let mut batch = CleanBitMap::<4>::new().into_dirty();
    /// batch.push_chunk(&[0; 4]).set_chunk(0, &[1, 0, 0, 128]);
    /// assert!(batch.get_bit(0) && batch.get_bit(31));
    /// ```
    pub fn set_chunk(&mut self, index: usize, chunk: &[u8; N]) -> &mut Self {
        expect_memory(self.set_chunk_unchained(index, chunk));
        self
    }

    /// Appends a bit.
    ///
    /// # Complexity
    ///
    /// Time and memory are those of [`try_push`](Self::try_push).
    ///
    /// # Panics
    ///
    /// Panics if memory runs out, or if the new length does not fit `u64`.
    ///
    /// ```
    /// use mortarpink::bitmap::historical::CleanBitMap;
    ///
    /// let mut batch = CleanBitMap::<4>::new().into_dirty();
    /// batch.push(true).push(false);
    /// assert_eq!(batch.len(), 2);
    /// ```
    #[inline]
    pub fn push(&mut self, bit: bool) -> &mut Self {
        expect_memory(self.push_unchained(bit));
        self
    }

    /// Appends the eight bits of a byte, lowest first, at any length.
    ///
    /// # Complexity
    ///
    /// Time and memory are those of [`try_push_byte`](Self::try_push_byte).
    ///
    /// # Panics
    ///
    /// Panics if memory runs out, or if the new length does not fit `u64`.
    ///
    /// ```
    /// use mortarpink::bitmap::historical::CleanBitMap;
    ///
    /// let mut batch = CleanBitMap::<4>::new().into_dirty();
    /// batch.push(false).push_byte(0b0000_0001);
    /// assert!(batch.get_bit(1) && !batch.get_bit(2));
    /// ```
    pub fn push_byte(&mut self, byte: u8) -> &mut Self {
        expect_memory(self.push_byte_unchained(byte));
        self
    }

    /// Appends the `8N` bits of a chunk, at any length.
    ///
    /// # Complexity
    ///
    /// Time and memory are those of [`try_push_chunk`](Self::try_push_chunk).
    ///
    /// # Panics
    ///
    /// Panics if memory runs out, or if the new length does not fit `u64`.
    ///
    /// ```
    /// use mortarpink::bitmap::historical::CleanBitMap;
    ///
    /// let mut batch = CleanBitMap::<4>::new().into_dirty();
    /// batch.push_chunk(&[1, 2, 3, 4]);
    /// assert_eq!(batch.get_chunk(0), [1, 2, 3, 4]);
    /// ```
    pub fn push_chunk(&mut self, chunk: &[u8; N]) -> &mut Self {
        expect_memory(self.push_chunk_unchained(chunk));
        self
    }

    /// Appends zeros up to a length of `new_len` bits, pruned bits included. If the pending bitmap has that length or more, nothing changes.
    ///
    /// # Complexity
    ///
    /// Time and memory are those of [`try_extend_to`](Self::try_extend_to).
    ///
    /// # Panics
    ///
    /// Panics if memory runs out.
    ///
    /// ```
    /// use mortarpink::bitmap::historical::CleanBitMap;
    ///
    /// let mut batch = CleanBitMap::<4>::new().into_dirty();
    /// batch.push(true).extend_to(70);
    /// assert!(batch.len() == 70 && !batch.get_bit(69));
    /// ```
    pub fn extend_to(&mut self, new_len: u64) -> &mut Self {
        expect_memory(self.extend_to_unchained(new_len));
        self
    }

    /// Appends the bits of a dense bitmap, in order, at any length.
    ///
    /// # Complexity
    ///
    /// Time and memory are those of [`try_extend_from_bitmap`](Self::try_extend_from_bitmap).
    ///
    /// # Panics
    ///
    /// Panics if memory runs out, or if the new length does not fit `u64`.
    ///
    /// ```
    /// use mortarpink::bitmap::BitMap;
    /// use mortarpink::bitmap::historical::CleanBitMap;
    ///
    /// let mut batch = CleanBitMap::<4>::new().into_dirty();
    /// batch.push(false).extend_from_bitmap(&BitMap::ones(40));
    /// assert!(batch.len() == 41 && !batch.get_bit(0) && batch.get_bit(40));
    /// ```
    pub fn extend_from_bitmap(&mut self, other: &crate::bitmap::BitMap<N>) -> &mut Self {
        expect_memory(self.extend_from_bitmap_unchained(other));
        self
    }

    /// Drops the chunks before the one of the absolute position `bit`. Changes nothing if they are already pruned.
    ///
    /// # Complexity
    ///
    /// Time and memory are those of [`try_prune_to_bit`](Self::try_prune_to_bit).
    ///
    /// # Panics
    ///
    /// Panics if memory runs out, or if `bit` is above the pending length.
    ///
    /// ```
    /// use mortarpink::bitmap::historical::CleanBitMap;
    ///
    /// let mut batch = CleanBitMap::<1>::new().into_dirty();
    /// batch.push_chunk(&[7]).push_chunk(&[8]).prune_to_bit(8);
    /// assert_eq!(batch.pruned_chunks(), 1);
    /// ```
    pub fn prune_to_bit(&mut self, bit: u64) -> &mut Self {
        expect_memory(self.prune_to_bit_unchained(bit));
        self
    }

    /// Makes the pending bitmap current, and keeps it as a commit under a number.
    ///
    /// # Errors
    ///
    /// Returns `ReservedCommitNumber` if the number is `u64::MAX`, and `NonMonotonicCommit` if it is not above the last number.
    /// The batch is dropped then; `try_commit` returns it.
    ///
    /// # Complexity
    ///
    /// Time and memory are those of [`try_commit`](Self::try_commit).
    ///
    /// # Panics
    ///
    /// Panics if memory runs out.
    ///
    /// ```
    /// use mortarpink::bitmap::historical::CleanBitMap;
    ///
    /// let mut batch = CleanBitMap::<8>::new().into_dirty();
    /// batch.push(true);
    /// let bitmap = batch.commit(1)?;
    /// assert_eq!(bitmap.latest_commit(), Some(1));
    /// assert!(bitmap.into_dirty().commit(1).is_err());
    /// # Ok::<(), mortarpink::bitmap::historical::Error>(())
    /// ```
    pub fn commit(self, commit_number: u64) -> Result<CleanBitMap<N>, Error> {
        match self.try_commit(commit_number) {
            Ok(bitmap) => Ok(bitmap),
            Err((_, Error::Memory(_))) => out_of_memory(),
            Err((_, error)) => Err(error),
        }
    }

    /// Takes all the memory that a commit under a number needs, as the first of the two steps of `commit`. Then
    /// [`PreparedBitMap::commit`] finishes the commit and cannot fail, and [`PreparedBitMap::into_dirty`] gives the batch back.
    ///
    /// # Errors
    ///
    /// Those of `commit`. The batch is dropped then; `try_prepare` returns it.
    ///
    /// # Complexity
    ///
    /// Time and memory are those of [`try_prepare`](Self::try_prepare).
    ///
    /// # Panics
    ///
    /// Panics if memory runs out.
    ///
    /// Two bitmaps are committed under one number, or neither is. After an error both are dropped here; [`PreparedBitMap`] has an example in
    /// which they are returned:
    ///
    /// ```
    /// use mortarpink::bitmap::historical::{CleanBitMap, DirtyBitMap, Error};
    ///
    /// fn commit_both(
    ///     one: DirtyBitMap<8>,
    ///     two: DirtyBitMap<8>,
    ///     number: u64,
    /// ) -> Result<(CleanBitMap<8>, CleanBitMap<8>), Error> {
    ///     let one = one.prepare(number)?;
    ///     let two = two.prepare(number)?;
    ///     Ok((one.commit(), two.commit()))
    /// }
    ///
    /// let mut taken = CleanBitMap::new().into_dirty();
    /// let mut shared = CleanBitMap::new().into_dirty();
    /// taken.push(true);
    /// shared.push(false);
    /// let (taken, shared) = commit_both(taken, shared, 1)?;
    /// assert_eq!((taken.latest_commit(), shared.latest_commit()), (Some(1), Some(1)));
    /// # Ok::<(), Error>(())
    /// ```
    pub fn prepare(self, commit_number: u64) -> Result<PreparedBitMap<N>, Error> {
        match self.try_prepare(commit_number) {
            Ok(prepared) => Ok(prepared),
            Err((_, Error::Memory(_))) => out_of_memory(),
            Err((_, error)) => Err(error),
        }
    }
}

/// The second step of a commit, which cannot fail.
impl<const N: usize> PreparedBitMap<N> {
    /// Finishes the commit: the result is that of [`DirtyBitMap::commit`] for the batch and the number. Does not allocate.
    ///
    /// # Complexity
    ///
    /// At most that of [`DirtyBitMap::commit`].
    ///
    /// ```
    /// use mortarpink::bitmap::historical::CleanBitMap;
    ///
    /// let mut batch = CleanBitMap::<8>::new().into_dirty();
    /// batch.push(true);
    /// let bitmap = batch.prepare(1)?.commit();
    /// assert!(bitmap.get_bit(0) && bitmap.latest_commit() == Some(1));
    /// # Ok::<(), mortarpink::bitmap::historical::Error>(())
    /// ```
    #[must_use]
    pub fn commit(self) -> CleanBitMap<N> {
        self.try_commit()
    }
}

impl<const N: usize, S: State> Clone for BitMap<N, S> {
    /// Returns an equal bitmap, with its commits and its pending edits. Panics if memory runs out; `TryClone` returns an error instead.
    fn clone(&self) -> Self {
        expect_memory(self.try_clone())
    }
}

impl<const N: usize> Default for BitMap<N, Clean> {
    fn default() -> Self {
        CleanBitMap::new()
    }
}

impl<const N: usize> From<Prunable<N>> for BitMap<N, Clean> {
    /// Makes a historical bitmap of a bitmap, as `from_bitmap` does.
    fn from(bitmap: Prunable<N>) -> Self {
        CleanBitMap::from_bitmap(bitmap)
    }
}

impl<V> DoubleEndedIterator for CommitNumbers<'_, V> {
    /// Returns the last number that is left, or `None` if none is.
    ///
    /// Does not allocate; constant time.
    #[inline]
    fn next_back(&mut self) -> Option<u64> {
        self.commits.next_back().map(|commit| commit.0)
    }
}

impl<V> FusedIterator for CommitNumbers<'_, V> {}

impl<const N: usize> FusedIterator for ChangedChunks<'_, N> {}

impl<const N: usize> FusedIterator for PendingChanges<'_, N> {}

impl<const N: usize> FusedIterator for PreparedChanges<'_, N> {}

impl<E: fmt::Display> fmt::Display for ApplyError<E> {
    fn fmt(&self, f: &mut fmt::Formatter<'_>) -> fmt::Result {
        match self {
            ApplyError::Batch(error) => write!(f, "the edits of the batch failed: {error}"),
            ApplyError::Commit(error) => write!(f, "the commit failed: {error}"),
        }
    }
}

impl<E: error::Error> error::Error for ApplyError<E> {
    /// Returns the source of the error inside, whose text is in that of this error.
    fn source(&self) -> Option<&(dyn error::Error + 'static)> {
        match self {
            ApplyError::Batch(error) => error.source(),
            ApplyError::Commit(error) => error::Error::source(error),
        }
    }
}
