//! Batches of bitmaps with a root for every version.

use super::Digest;
use super::versions::AuthenticatedBitMap;
use crate::bitmap::BitMap;
use crate::bitmap::historical::{DirtyBitMap, Error};
use crate::generated::authenticated_history as generated;
use crate::support::alloc::{AllocError, out_of_memory};
use core::ops::Range;

/// A batch of an [`AuthenticatedBitMap`]: the bitmap with pending edits, of which there may be none yet.
///
/// It has the edits of a [`DirtyBitMap`], which it does not lend: the stored digests are those of the bitmap that the batch began with, and a lent
/// one could be exchanged for another. They are brought up to date by [`commit`](Self::commit). [`bits`](Self::bits) is for reads of the pending
/// bitmap.
///
/// # Memory
///
/// That of the [`AuthenticatedBitMap`], and of the pending edits.
///
/// # Examples
///
/// ```
/// use mortarpink::roots::AuthenticatedBitMap;
/// # mod sha256 { include!(concat!(env!("CARGO_MANIFEST_DIR"), "/examples/sha256/mod.rs")); }
/// # use sha256::Sha256;
///
/// let mut batch = AuthenticatedBitMap::<4, _>::new(Sha256).into_dirty();
/// batch.push(true).push(false).set_bit(1, true);
/// assert_eq!((batch.bits().len(), batch.bits().get_bit(1)), (2, true));
/// let bitmap = batch.commit(1)?;
/// assert_eq!(bitmap.root_at(1), Some(bitmap.root()));
/// # Ok::<(), mortarpink::bitmap::historical::Error>(())
/// ```
#[derive(Debug)]
pub struct DirtyAuthenticatedBitMap<const N: usize, D: Digest>(pub(super) generated::DirtyAuthenticatedBitMap<N, D>);

/// Edits, which chain. Each has a form `try_..` that returns an error if memory runs out, and leaves the batch unchanged then.
impl<const N: usize, D: Digest> DirtyAuthenticatedBitMap<N, D> {
    /// Sets the bit at the absolute position `bit` to `value`.
    ///
    /// # Complexity
    ///
    /// Time and memory are those of [`DirtyBitMap::try_set_bit`].
    ///
    /// # Panics
    ///
    /// Panics if memory runs out, or if `bit` is pruned or not below the pending length.
    ///
    /// ```
    /// use mortarpink::roots::AuthenticatedBitMap;
    /// # mod sha256 { include!(concat!(env!("CARGO_MANIFEST_DIR"), "/examples/sha256/mod.rs")); }
    /// # use sha256::Sha256;
    ///
    /// let mut batch = AuthenticatedBitMap::<4, _>::new(Sha256).into_dirty();
    /// batch.push(true).set_bit(0, false);
    /// assert!(!batch.bits().get_bit(0));
    /// ```
    pub fn set_bit(&mut self, bit: u64, value: bool) -> &mut Self {
        self.0.edits().set_bit(bit, value);
        self
    }

    /// Sets a bit, as `set_bit` does.
    ///
    /// # Errors
    ///
    /// Returns `AllocError` if an allocation fails. The batch is then as it was before this call.
    ///
    /// # Complexity
    ///
    /// Time and memory are those of [`DirtyBitMap::try_set_bit`].
    ///
    /// # Panics
    ///
    /// Panics if `bit` is pruned or not below the pending length.
    ///
    /// ```
    /// use mortarpink::roots::AuthenticatedBitMap;
    /// # mod sha256 { include!(concat!(env!("CARGO_MANIFEST_DIR"), "/examples/sha256/mod.rs")); }
    /// # use sha256::Sha256;
    ///
    /// let mut batch = AuthenticatedBitMap::<4, _>::new(Sha256).into_dirty();
    /// batch.push(true).try_set_bit(0, false)?;
    /// assert!(!batch.bits().get_bit(0));
    /// # Ok::<(), mortarpink::AllocError>(())
    /// ```
    pub fn try_set_bit(&mut self, bit: u64, value: bool) -> Result<&mut Self, AllocError> {
        self.0.edits().try_set_bit(bit, value)?;
        Ok(self)
    }

    /// Sets the bit at each position in `range` to `value`. If the range is empty or ends before it starts, nothing changes.
    ///
    /// # Complexity
    ///
    /// Time and memory are those of [`DirtyBitMap::try_set_range`].
    ///
    /// # Panics
    ///
    /// Panics if memory runs out, or if the range starts below the first position that is not pruned, or ends after the pending length.
    ///
    /// ```
    /// use mortarpink::bitmap::Readable;
    /// use mortarpink::roots::AuthenticatedBitMap;
    /// # mod sha256 { include!(concat!(env!("CARGO_MANIFEST_DIR"), "/examples/sha256/mod.rs")); }
    /// # use sha256::Sha256;
    ///
    /// let mut batch = AuthenticatedBitMap::<4, _>::new(Sha256).into_dirty();
    /// batch.extend_to(32).set_range(3..30, true);
    /// assert_eq!(batch.bits().count_ones_range(0..32), 27);
    /// ```
    pub fn set_range(&mut self, range: Range<u64>, value: bool) -> &mut Self {
        self.0.edits().set_range(range, value);
        self
    }

    /// Sets the bits of a range, as `set_range` does.
    ///
    /// # Errors
    ///
    /// Returns `AllocError` if an allocation fails. The batch is then as it was before this call.
    ///
    /// # Complexity
    ///
    /// Time and memory are those of [`DirtyBitMap::try_set_range`].
    ///
    /// # Panics
    ///
    /// Panics if the range starts below the first position that is not pruned, or ends after the pending length.
    ///
    /// ```
    /// use mortarpink::roots::AuthenticatedBitMap;
    /// # mod sha256 { include!(concat!(env!("CARGO_MANIFEST_DIR"), "/examples/sha256/mod.rs")); }
    /// # use sha256::Sha256;
    ///
    /// let mut batch = AuthenticatedBitMap::<4, _>::new(Sha256).into_dirty();
    /// batch.extend_to(32).try_set_range(3..30, true)?;
    /// assert!(batch.bits().get_bit(29) && !batch.bits().get_bit(30));
    /// # Ok::<(), mortarpink::AllocError>(())
    /// ```
    pub fn try_set_range(&mut self, range: Range<u64>, value: bool) -> Result<&mut Self, AllocError> {
        self.0.edits().try_set_range(range, value)?;
        Ok(self)
    }

    /// Replaces the chunk at an absolute index by these bytes. Bits past the pending length are ignored.
    ///
    /// # Complexity
    ///
    /// Time and memory are those of [`DirtyBitMap::try_set_chunk`].
    ///
    /// # Panics
    ///
    /// Panics if memory runs out, or if the chunk is pruned, or begins at or after the pending length.
    ///
    /// ```
    /// use mortarpink::roots::AuthenticatedBitMap;
    /// # mod sha256 { include!(concat!(env!("CARGO_MANIFEST_DIR"), "/examples/sha256/mod.rs")); }
    /// # use sha256::Sha256;
    ///
    /// let mut batch = AuthenticatedBitMap::<4, _>::new(Sha256).into_dirty();
    /// batch.extend_to(32).set_chunk(0, &[1, 0, 0, 128]);
    /// assert!(batch.bits().get_bit(0) && batch.bits().get_bit(31));
    /// ```
    pub fn set_chunk(&mut self, index: usize, chunk: &[u8; N]) -> &mut Self {
        self.0.edits().set_chunk(index, chunk);
        self
    }

    /// Replaces a chunk, as `set_chunk` does.
    ///
    /// # Errors
    ///
    /// Returns `AllocError` if an allocation fails. The batch is then as it was before this call.
    ///
    /// # Complexity
    ///
    /// Time and memory are those of [`DirtyBitMap::try_set_chunk`].
    ///
    /// # Panics
    ///
    /// Panics if the chunk is pruned, or begins at or after the pending length.
    ///
    /// ```
    /// use mortarpink::roots::AuthenticatedBitMap;
    /// # mod sha256 { include!(concat!(env!("CARGO_MANIFEST_DIR"), "/examples/sha256/mod.rs")); }
    /// # use sha256::Sha256;
    ///
    /// let mut batch = AuthenticatedBitMap::<4, _>::new(Sha256).into_dirty();
    /// batch.extend_to(32).try_set_chunk(0, &[1, 2, 3, 4])?;
    /// assert_eq!(batch.bits().retained_bytes(0), Some([1, 2, 3, 4]));
    /// # Ok::<(), mortarpink::AllocError>(())
    /// ```
    pub fn try_set_chunk(&mut self, index: usize, chunk: &[u8; N]) -> Result<&mut Self, AllocError> {
        self.0.edits().try_set_chunk(index, chunk)?;
        Ok(self)
    }

    /// Appends a bit.
    ///
    /// # Complexity
    ///
    /// Time and memory are those of [`DirtyBitMap::try_push`].
    ///
    /// # Panics
    ///
    /// Panics if memory runs out, or if the new length does not fit `u64`.
    ///
    /// ```
    /// use mortarpink::roots::AuthenticatedBitMap;
    /// # mod sha256 { include!(concat!(env!("CARGO_MANIFEST_DIR"), "/examples/sha256/mod.rs")); }
    /// # use sha256::Sha256;
    ///
    /// let mut batch = AuthenticatedBitMap::<4, _>::new(Sha256).into_dirty();
    /// batch.push(true).push(false);
    /// assert_eq!(batch.bits().len(), 2);
    /// ```
    pub fn push(&mut self, bit: bool) -> &mut Self {
        self.0.edits().push(bit);
        self
    }

    /// Appends a bit, as `push` does.
    ///
    /// # Errors
    ///
    /// Returns `AllocError` if an allocation fails. The batch is then as it was before this call.
    ///
    /// # Complexity
    ///
    /// Time and memory are those of [`DirtyBitMap::try_push`].
    ///
    /// # Panics
    ///
    /// Panics if the new length does not fit `u64`.
    ///
    /// ```
    /// use mortarpink::roots::AuthenticatedBitMap;
    /// # mod sha256 { include!(concat!(env!("CARGO_MANIFEST_DIR"), "/examples/sha256/mod.rs")); }
    /// # use sha256::Sha256;
    ///
    /// let mut batch = AuthenticatedBitMap::<4, _>::new(Sha256).into_dirty();
    /// batch.try_push(true)?.try_push(false)?;
    /// assert_eq!(batch.bits().len(), 2);
    /// # Ok::<(), mortarpink::AllocError>(())
    /// ```
    pub fn try_push(&mut self, bit: bool) -> Result<&mut Self, AllocError> {
        self.0.edits().try_push(bit)?;
        Ok(self)
    }

    /// Appends the eight bits of a byte, lowest first, at any length.
    ///
    /// # Complexity
    ///
    /// Time and memory are those of [`DirtyBitMap::try_push_byte`].
    ///
    /// # Panics
    ///
    /// Panics if memory runs out, or if the new length does not fit `u64`.
    ///
    /// ```
    /// use mortarpink::roots::AuthenticatedBitMap;
    /// # mod sha256 { include!(concat!(env!("CARGO_MANIFEST_DIR"), "/examples/sha256/mod.rs")); }
    /// # use sha256::Sha256;
    ///
    /// let mut batch = AuthenticatedBitMap::<4, _>::new(Sha256).into_dirty();
    /// batch.push(false).push_byte(0b0000_0001);
    /// assert!(batch.bits().get_bit(1) && !batch.bits().get_bit(2));
    /// ```
    pub fn push_byte(&mut self, byte: u8) -> &mut Self {
        self.0.edits().push_byte(byte);
        self
    }

    /// Appends the bits of a byte, as `push_byte` does.
    ///
    /// # Errors
    ///
    /// Returns `AllocError` if an allocation fails. The batch is then as it was before this call.
    ///
    /// # Complexity
    ///
    /// Time and memory are those of [`DirtyBitMap::try_push_byte`].
    ///
    /// # Panics
    ///
    /// Panics if the new length does not fit `u64`.
    ///
    /// ```
    /// use mortarpink::roots::AuthenticatedBitMap;
    /// # mod sha256 { include!(concat!(env!("CARGO_MANIFEST_DIR"), "/examples/sha256/mod.rs")); }
    /// # use sha256::Sha256;
    ///
    /// let mut batch = AuthenticatedBitMap::<4, _>::new(Sha256).into_dirty();
    /// batch.try_push_byte(0b1000_0000)?;
    /// assert!(batch.bits().get_bit(7));
    /// # Ok::<(), mortarpink::AllocError>(())
    /// ```
    pub fn try_push_byte(&mut self, byte: u8) -> Result<&mut Self, AllocError> {
        self.0.edits().try_push_byte(byte)?;
        Ok(self)
    }

    /// Appends the `8N` bits of a chunk, at any length.
    ///
    /// # Complexity
    ///
    /// Time and memory are those of [`DirtyBitMap::try_push_chunk`].
    ///
    /// # Panics
    ///
    /// Panics if memory runs out, or if the new length does not fit `u64`.
    ///
    /// ```
    /// use mortarpink::roots::AuthenticatedBitMap;
    /// # mod sha256 { include!(concat!(env!("CARGO_MANIFEST_DIR"), "/examples/sha256/mod.rs")); }
    /// # use sha256::Sha256;
    ///
    /// let mut batch = AuthenticatedBitMap::<4, _>::new(Sha256).into_dirty();
    /// batch.push_chunk(&[1, 2, 3, 4]);
    /// assert_eq!(batch.bits().retained_bytes(0), Some([1, 2, 3, 4]));
    /// ```
    pub fn push_chunk(&mut self, chunk: &[u8; N]) -> &mut Self {
        self.0.edits().push_chunk(chunk);
        self
    }

    /// Appends the bits of a chunk, as `push_chunk` does.
    ///
    /// # Errors
    ///
    /// Returns `AllocError` if an allocation fails. The batch is then as it was before this call.
    ///
    /// # Complexity
    ///
    /// Time and memory are those of [`DirtyBitMap::try_push_chunk`].
    ///
    /// # Panics
    ///
    /// Panics if the new length does not fit `u64`.
    ///
    /// ```
    /// use mortarpink::roots::AuthenticatedBitMap;
    /// # mod sha256 { include!(concat!(env!("CARGO_MANIFEST_DIR"), "/examples/sha256/mod.rs")); }
    /// # use sha256::Sha256;
    ///
    /// let mut batch = AuthenticatedBitMap::<4, _>::new(Sha256).into_dirty();
    /// batch.try_push_chunk(&[1, 2, 3, 4])?.try_push(true)?;
    /// assert_eq!(batch.bits().len(), 33);
    /// # Ok::<(), mortarpink::AllocError>(())
    /// ```
    pub fn try_push_chunk(&mut self, chunk: &[u8; N]) -> Result<&mut Self, AllocError> {
        self.0.edits().try_push_chunk(chunk)?;
        Ok(self)
    }

    /// Appends zeros up to a length of `new_len` bits, pruned bits included. If the pending bitmap has that length or more, nothing changes.
    ///
    /// # Complexity
    ///
    /// Time and memory are those of [`DirtyBitMap::try_extend_to`].
    ///
    /// # Panics
    ///
    /// Panics if memory runs out.
    ///
    /// ```
    /// use mortarpink::roots::AuthenticatedBitMap;
    /// # mod sha256 { include!(concat!(env!("CARGO_MANIFEST_DIR"), "/examples/sha256/mod.rs")); }
    /// # use sha256::Sha256;
    ///
    /// let mut batch = AuthenticatedBitMap::<4, _>::new(Sha256).into_dirty();
    /// batch.push(true).extend_to(70);
    /// assert!(batch.bits().len() == 70 && !batch.bits().get_bit(69));
    /// ```
    pub fn extend_to(&mut self, new_len: u64) -> &mut Self {
        self.0.edits().extend_to(new_len);
        self
    }

    /// Appends zeros, as `extend_to` does.
    ///
    /// # Errors
    ///
    /// Returns `AllocError` if an allocation fails. The batch is then as it was before this call.
    ///
    /// # Complexity
    ///
    /// Time and memory are those of [`DirtyBitMap::try_extend_to`].
    ///
    /// ```
    /// use mortarpink::roots::AuthenticatedBitMap;
    /// # mod sha256 { include!(concat!(env!("CARGO_MANIFEST_DIR"), "/examples/sha256/mod.rs")); }
    /// # use sha256::Sha256;
    ///
    /// let mut batch = AuthenticatedBitMap::<4, _>::new(Sha256).into_dirty();
    /// batch.try_extend_to(70)?;
    /// assert_eq!(batch.bits().len(), 70);
    /// # Ok::<(), mortarpink::AllocError>(())
    /// ```
    pub fn try_extend_to(&mut self, new_len: u64) -> Result<&mut Self, AllocError> {
        self.0.edits().try_extend_to(new_len)?;
        Ok(self)
    }

    /// Appends the bits of a dense bitmap, in order, at any length.
    ///
    /// # Complexity
    ///
    /// Time and memory are those of [`DirtyBitMap::try_extend_from_bitmap`].
    ///
    /// # Panics
    ///
    /// Panics if memory runs out, or if the new length does not fit `u64`.
    ///
    /// ```
    /// use mortarpink::bitmap::BitMap;
    /// use mortarpink::roots::AuthenticatedBitMap;
    /// # mod sha256 { include!(concat!(env!("CARGO_MANIFEST_DIR"), "/examples/sha256/mod.rs")); }
    /// # use sha256::Sha256;
    ///
    /// let mut batch = AuthenticatedBitMap::<4, _>::new(Sha256).into_dirty();
    /// batch.push(false).extend_from_bitmap(&BitMap::ones(40));
    /// assert!(batch.bits().len() == 41 && batch.bits().get_bit(40));
    /// ```
    pub fn extend_from_bitmap(&mut self, other: &BitMap<N>) -> &mut Self {
        self.0.edits().extend_from_bitmap(other);
        self
    }

    /// Appends the bits of a dense bitmap, as `extend_from_bitmap` does.
    ///
    /// # Errors
    ///
    /// Returns `AllocError` if an allocation fails. The batch is then as it was before this call.
    ///
    /// # Complexity
    ///
    /// Time and memory are those of [`DirtyBitMap::try_extend_from_bitmap`].
    ///
    /// # Panics
    ///
    /// Panics if the new length does not fit `u64`.
    ///
    /// ```
    /// use mortarpink::bitmap::BitMap;
    /// use mortarpink::roots::AuthenticatedBitMap;
    /// # mod sha256 { include!(concat!(env!("CARGO_MANIFEST_DIR"), "/examples/sha256/mod.rs")); }
    /// # use sha256::Sha256;
    ///
    /// let mut batch = AuthenticatedBitMap::<4, _>::new(Sha256).into_dirty();
    /// batch.try_extend_from_bitmap(&BitMap::ones(40))?;
    /// assert_eq!(batch.bits().len(), 40);
    /// # Ok::<(), mortarpink::AllocError>(())
    /// ```
    pub fn try_extend_from_bitmap(&mut self, other: &BitMap<N>) -> Result<&mut Self, AllocError> {
        self.0.edits().try_extend_from_bitmap(other)?;
        Ok(self)
    }

    /// Drops the chunks before the one of the absolute position `bit`. Changes nothing if they are already pruned.
    ///
    /// A dropped chunk keeps the digest that it had when the batch began, so a path from before stays good. One that the batch itself has appended gets
    /// the digest of a chunk of zero bytes, since no version has its bytes.
    ///
    /// # Complexity
    ///
    /// Time and memory are those of [`DirtyBitMap::try_prune_to_bit`].
    ///
    /// # Panics
    ///
    /// Panics if memory runs out, or if `bit` is above the pending length.
    ///
    /// ```
    /// use mortarpink::roots::AuthenticatedBitMap;
    /// # mod sha256 { include!(concat!(env!("CARGO_MANIFEST_DIR"), "/examples/sha256/mod.rs")); }
    /// # use sha256::Sha256;
    ///
    /// let mut batch = AuthenticatedBitMap::<4, _>::new(Sha256).into_dirty();
    /// batch.extend_to(100).prune_to_bit(70);
    /// assert_eq!(batch.bits().pruned_chunks(), 2);
    /// ```
    pub fn prune_to_bit(&mut self, bit: u64) -> &mut Self {
        self.0.edits().prune_to_bit(bit);
        self
    }

    /// Drops chunks, as `prune_to_bit` does.
    ///
    /// # Errors
    ///
    /// Returns `AllocError` if an allocation fails. The batch is then as it was before this call.
    ///
    /// # Complexity
    ///
    /// Time and memory are those of [`DirtyBitMap::try_prune_to_bit`].
    ///
    /// # Panics
    ///
    /// Panics if `bit` is above the pending length.
    ///
    /// ```
    /// use mortarpink::roots::AuthenticatedBitMap;
    /// # mod sha256 { include!(concat!(env!("CARGO_MANIFEST_DIR"), "/examples/sha256/mod.rs")); }
    /// # use sha256::Sha256;
    ///
    /// let mut batch = AuthenticatedBitMap::<4, _>::new(Sha256).into_dirty();
    /// batch.extend_to(100).try_prune_to_bit(70)?;
    /// assert_eq!(batch.bits().pruned_chunks(), 2);
    /// # Ok::<(), mortarpink::AllocError>(())
    /// ```
    pub fn try_prune_to_bit(&mut self, bit: u64) -> Result<&mut Self, AllocError> {
        self.0.edits().try_prune_to_bit(bit)?;
        Ok(self)
    }

    /// Removes the last bit, and returns it.
    ///
    /// # Complexity
    ///
    /// Time and memory are those of [`DirtyBitMap::pop`].
    ///
    /// # Panics
    ///
    /// Panics if no bit is retained.
    ///
    /// ```
    /// use mortarpink::roots::AuthenticatedBitMap;
    /// # mod sha256 { include!(concat!(env!("CARGO_MANIFEST_DIR"), "/examples/sha256/mod.rs")); }
    /// # use sha256::Sha256;
    ///
    /// let mut batch = AuthenticatedBitMap::<4, _>::new(Sha256).into_dirty();
    /// batch.push(true).push(false);
    /// assert!(!batch.pop() && batch.pop());
    /// ```
    pub fn pop(&mut self) -> bool {
        self.0.edits().pop()
    }

    /// Removes the bits at the absolute position `new_len` and after it.
    ///
    /// # Complexity
    ///
    /// Time and memory are those of [`DirtyBitMap::truncate`].
    ///
    /// # Panics
    ///
    /// Panics if `new_len` is above the pending length, or below the first position that is not pruned.
    ///
    /// ```
    /// use mortarpink::roots::AuthenticatedBitMap;
    /// # mod sha256 { include!(concat!(env!("CARGO_MANIFEST_DIR"), "/examples/sha256/mod.rs")); }
    /// # use sha256::Sha256;
    ///
    /// let mut batch = AuthenticatedBitMap::<4, _>::new(Sha256).into_dirty();
    /// batch.extend_to(100).truncate(70);
    /// assert_eq!(batch.bits().len(), 70);
    /// ```
    pub fn truncate(&mut self, new_len: u64) {
        self.0.edits().truncate(new_len);
    }
}

/// Reads, commits and aborts.
impl<const N: usize, D: Digest> DirtyAuthenticatedBitMap<N, D> {
    /// Returns the bitmap with its pending edits, for reads. Does not allocate; constant time.
    ///
    /// ```
    /// use mortarpink::bitmap::Readable;
    /// use mortarpink::roots::AuthenticatedBitMap;
    /// # mod sha256 { include!(concat!(env!("CARGO_MANIFEST_DIR"), "/examples/sha256/mod.rs")); }
    /// # use sha256::Sha256;
    ///
    /// let mut batch = AuthenticatedBitMap::<4, _>::new(Sha256).into_dirty();
    /// batch.extend_to(100).set_bit(70, true);
    /// assert_eq!(batch.bits().next_one(0), Some(70));
    /// ```
    #[must_use]
    pub fn bits(&self) -> &DirtyBitMap<N> {
        self.0.bits()
    }

    /// Makes the pending bitmap current, and keeps it as the version `number`, with its digests.
    ///
    /// # Errors
    ///
    /// Returns `ReservedCommitNumber` if the number is `u64::MAX`, and `NonMonotonicCommit` if it is not above the last number. The batch is dropped
    /// then; `try_commit` returns it.
    ///
    /// # Complexity
    ///
    /// Time and memory are those of [`try_commit`](Self::try_commit).
    ///
    /// # Panics
    ///
    /// Panics if memory runs out.
    ///
    /// ```
    /// use mortarpink::roots::AuthenticatedBitMap;
    /// # mod sha256 { include!(concat!(env!("CARGO_MANIFEST_DIR"), "/examples/sha256/mod.rs")); }
    /// # use sha256::Sha256;
    ///
    /// let mut batch = AuthenticatedBitMap::<4, _>::new(Sha256).into_dirty();
    /// batch.push(true);
    /// let bitmap = batch.commit(1)?;
    /// assert!(bitmap.bits().get_bit(0) && bitmap.root_at(1).is_some());
    /// assert!(bitmap.into_dirty().commit(1).is_err());
    /// # Ok::<(), mortarpink::bitmap::historical::Error>(())
    /// ```
    pub fn commit(self, number: u64) -> Result<AuthenticatedBitMap<N, D>, Error> {
        match self.try_commit(number) {
            Ok(bitmap) => Ok(bitmap),
            Err((_, Error::Memory(_))) => out_of_memory(),
            Err((_, error)) => Err(error),
        }
    }

    /// Makes the pending bitmap current, and keeps it as the version `number`, as `commit` does.
    ///
    /// # Errors
    ///
    /// - `ReservedCommitNumber` if the number is `u64::MAX`;
    /// - `NonMonotonicCommit` if the number is not above the last number;
    /// - `Memory` if an allocation fails, or if the digests would have 2^64 bits or more.
    ///
    /// The batch is returned with the error, unchanged.
    ///
    /// # Memory
    ///
    /// That of [`DirtyBitMap::try_commit`] of the bitmap, and of a commit of its digests, of which at most 62 change per changed chunk.
    ///
    /// # Complexity
    ///
    /// That of [`DirtyBitMap::try_commit`] of the bitmap, and per changed chunk at most 62 hashes and as many edited digests. A chunk that the batch
    /// both appended and pruned counts as a changed chunk. The other chunks are not read.
    ///
    /// ```
    /// use mortarpink::roots::AuthenticatedBitMap;
    /// # mod sha256 { include!(concat!(env!("CARGO_MANIFEST_DIR"), "/examples/sha256/mod.rs")); }
    /// # use sha256::Sha256;
    ///
    /// let batch = AuthenticatedBitMap::<4, _>::new(Sha256).into_dirty();
    /// // The number is reserved, so another one is taken.
    /// let (batch, _) = batch.try_commit(u64::MAX).unwrap_err();
    /// assert!(batch.try_commit(1).is_ok());
    /// ```
    // The error has the batch itself, as that of `try_commit` of `DirtyBitMap` has.
    #[allow(clippy::result_large_err)]
    pub fn try_commit(self, number: u64) -> Result<AuthenticatedBitMap<N, D>, (Self, Error)> {
        match self.0.try_commit(number) {
            Ok(bitmap) => Ok(AuthenticatedBitMap(bitmap)),
            Err((batch, error)) => Err((Self(batch), error)),
        }
    }

    /// Drops the pending edits: returns the bitmap that became this batch.
    ///
    /// # Memory
    ///
    /// Does not allocate.
    ///
    /// # Complexity
    ///
    /// Linear in the pending edits, which are freed.
    ///
    /// ```
    /// use mortarpink::roots::AuthenticatedBitMap;
    /// # mod sha256 { include!(concat!(env!("CARGO_MANIFEST_DIR"), "/examples/sha256/mod.rs")); }
    /// # use sha256::Sha256;
    ///
    /// let mut batch = AuthenticatedBitMap::<4, _>::new(Sha256).into_dirty();
    /// batch.push(true);
    /// assert!(batch.abort().bits().is_empty());
    /// ```
    #[must_use]
    pub fn abort(self) -> AuthenticatedBitMap<N, D> {
        AuthenticatedBitMap(self.0.abort())
    }
}
