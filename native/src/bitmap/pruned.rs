//! Bitmaps with a pruned prefix: constructors, and the edits that may allocate.

use crate::bitmap::codec::{CodecError, RangeCfg};
use crate::bitmap::prunable::Error;
use crate::bitmap::{BitMap, Prunable};
use crate::generated::bitmap_core::bitmap::codec::{EncodeSize, Read, Write};
use crate::support::alloc::{AllocError, Global, expect_memory};
use crate::support::clone::TryClone;
use alloc::vec::Vec;
use core::ops::Range;

/// Constructors. `N` has to be at least 1, and `8N` has to fit `u64`: otherwise they do not compile.
impl<const N: usize> Prunable<N> {
    /// Returns an empty bitmap without pruned chunks. Does not allocate; constant time.
    ///
    /// ```
    /// use mortarpink::bitmap::Prunable;
    ///
    /// assert!(Prunable::<8>::new().is_empty());
    /// ```
    #[must_use]
    pub fn new() -> Self {
        Prunable::new_within(Global)
    }

    /// Returns a bitmap with `pruned_chunks` pruned chunks and no retained bit. Does not allocate; constant time.
    ///
    /// # Errors
    ///
    /// Returns `PrunedChunksOverflow` if the number of pruned bits does not fit `u64`.
    ///
    /// ```
    /// use mortarpink::bitmap::Prunable;
    ///
    /// assert_eq!(Prunable::<4>::new_with_pruned_chunks(3).unwrap().len(), 96);
    /// assert!(Prunable::<4>::new_with_pruned_chunks(usize::MAX).is_err());
    /// ```
    pub fn new_with_pruned_chunks(pruned_chunks: usize) -> Result<Self, Error> {
        Prunable::new_with_pruned_chunks_within(Global, pruned_chunks)
    }
}

/// Edits. Those that may allocate have a form `try_..` that returns an error if memory runs out, and leaves the bitmap unchanged then.
impl<const N: usize> Prunable<N> {
    /// Sets the bit at the absolute position `bit` to `value`. Does not allocate; constant time.
    ///
    /// # Panics
    ///
    /// Panics if `bit` is pruned, or not below the length.
    ///
    /// ```
    /// use mortarpink::bitmap::{BitMap, Prunable};
    ///
    /// let mut bitmap = Prunable::<8>::new();
    /// bitmap.extend_to(10);
    /// bitmap.set_bit(9, true);
    /// assert!(bitmap.get_bit(9));
    /// ```
    #[inline]
    pub fn set_bit(&mut self, bit: u64, value: bool) {
        self.try_set_bit(bit, value);
    }

    /// Sets the bit at each position in `range` to `value`. If the range is empty or ends before it starts, nothing changes.
    /// Does not allocate.
    ///
    /// # Complexity
    ///
    /// Linear in the bytes of the range. Whole chunks are written at once.
    ///
    /// # Panics
    ///
    /// Panics if the range starts below the first position that is not pruned, or ends after the length.
    ///
    /// ```
    /// use mortarpink::bitmap::Prunable;
    ///
    /// let mut bitmap = Prunable::<1>::new_with_pruned_chunks(1).unwrap();
    /// bitmap.extend_to(20);
    /// bitmap.set_range(8..18, true);
    /// assert_eq!(bitmap.count_ones(), 10);
    /// ```
    pub fn set_range(&mut self, range: Range<u64>, value: bool) {
        self.try_set_range(range, value);
    }

    /// Appends a bit.
    ///
    /// # Complexity
    ///
    /// Time and memory are those of [`try_push`](Self::try_push).
    ///
    /// # Panics
    ///
    /// Panics if memory runs out, or if the new length does not fit `u64`.
    ///
    /// ```
    /// use mortarpink::bitmap::Prunable;
    ///
    /// let mut bitmap = Prunable::<8>::new();
    /// bitmap.push(true);
    /// assert!(bitmap.get_bit(0));
    /// ```
    #[inline]
    pub fn push(&mut self, bit: bool) {
        expect_memory(self.try_push(bit));
    }

    /// Appends the eight bits of a byte, lowest first.
    ///
    /// # Complexity
    ///
    /// Time and memory are those of [`try_push_byte`](Self::try_push_byte).
    ///
    /// # Panics
    ///
    /// Panics if memory runs out, if the length is not a multiple of 8, or if the new length does not fit `u64`.
    ///
    /// ```
    /// use mortarpink::bitmap::Prunable;
    ///
    /// let mut bitmap = Prunable::<8>::new();
    /// bitmap.push_byte(0b0000_0010);
    /// assert_eq!((bitmap.len(), bitmap.get_bit(1)), (8, true));
    /// ```
    pub fn push_byte(&mut self, byte: u8) {
        expect_memory(self.try_push_byte(byte));
    }

    /// Appends the `8N` bits of a chunk.
    ///
    /// # Complexity
    ///
    /// Time and memory are those of [`try_push_chunk`](Self::try_push_chunk).
    ///
    /// # Panics
    ///
    /// Panics if memory runs out, if the length is not a multiple of `8N`, or if the new length does not fit `u64`.
    ///
    /// ```
    /// use mortarpink::bitmap::Prunable;
    ///
    /// let mut bitmap = Prunable::<2>::new();
    /// bitmap.push_chunk(&[255, 1]);
    /// assert_eq!(bitmap.count_ones(), 9);
    /// ```
    pub fn push_chunk(&mut self, chunk: &[u8; N]) {
        expect_memory(self.try_push_chunk(chunk));
    }

    /// Appends false bits up to a length of `new_len` bits, pruned ones included. If the bitmap has as many or more, it is unchanged.
    ///
    /// # Complexity
    ///
    /// Time and memory are those of [`try_extend_to`](Self::try_extend_to).
    ///
    /// # Panics
    ///
    /// Panics if memory runs out.
    ///
    /// ```
    /// use mortarpink::bitmap::Prunable;
    ///
    /// let mut bitmap = Prunable::<4>::new_with_pruned_chunks(1).unwrap();
    /// bitmap.extend_to(40);
    /// assert_eq!(bitmap.len(), 40);
    /// ```
    pub fn extend_to(&mut self, new_len: u64) {
        expect_memory(self.try_extend_to(new_len));
    }

    /// Appends the bits of a dense bitmap, in order. Its chunks may have another width.
    ///
    /// # Complexity
    ///
    /// Time and memory are those of [`try_extend_from_bitmap`](Self::try_extend_from_bitmap).
    ///
    /// # Panics
    ///
    /// Panics if memory runs out, or if the sum of the lengths does not fit `u64`.
    ///
    /// ```
    /// use mortarpink::bitmap::{BitMap, Prunable};
    ///
    /// let mut bitmap = Prunable::<8>::new();
    /// bitmap.extend_from_bitmap(&BitMap::<32>::ones(300));
    /// assert_eq!(bitmap.count_ones(), 300);
    /// ```
    pub fn extend_from_bitmap<const M: usize>(&mut self, other: &BitMap<M>) {
        expect_memory(self.try_extend_from_bitmap(other));
    }

    /// Drops the chunks before the one of position `bit`. Changes nothing if they are already pruned. Does not allocate.
    ///
    /// # Complexity
    ///
    /// Linear in the chunks that are dropped. The retained chunks are not moved in memory.
    ///
    /// # Panics
    ///
    /// Panics if `bit` is above the length.
    ///
    /// ```
    /// use mortarpink::bitmap::{BitMap, Prunable};
    ///
    /// let mut bitmap = Prunable::<4>::new();
    /// bitmap.extend_to(100);
    /// bitmap.prune_to_bit(70);
    /// assert_eq!((bitmap.pruned_chunks(), bitmap.pruned_bits(), bitmap.len()), (2, 64, 100));
    /// ```
    pub fn prune_to_bit(&mut self, bit: u64) {
        self.try_prune_to_bit(bit);
    }

    /// Puts pruned chunks back: inserts them, in order, directly before the retained bits. The position of each bit stays the same.
    ///
    /// # Complexity
    ///
    /// Time and memory are those of [`try_unprune`](Self::try_unprune).
    ///
    /// # Panics
    ///
    /// Panics if memory runs out, or if there are more chunks than are pruned.
    ///
    /// ```
    /// use mortarpink::bitmap::Prunable;
    ///
    /// let mut bitmap = Prunable::<1>::new_with_pruned_chunks(3).unwrap();
    /// bitmap.unprune(&[[0], [1]]);
    /// assert_eq!((bitmap.pruned_chunks(), bitmap.get_bit(8), bitmap.get_bit(16)), (1, false, true));
    /// ```
    pub fn unprune(&mut self, chunks: &[[u8; N]]) {
        expect_memory(self.try_unprune(chunks));
    }
}

/// Bytes.
impl<const N: usize> Prunable<N> {
    /// Returns the encoding of the bitmap: the number of pruned chunks in eight bytes, most significant first, and then the retained bits
    /// as those of a dense bitmap.
    ///
    /// # Complexity
    ///
    /// Time and memory are those of [`try_encode`](Self::try_encode).
    ///
    /// # Panics
    ///
    /// Panics if memory runs out.
    ///
    /// ```
    /// use mortarpink::bitmap::Prunable;
    ///
    /// let bitmap = Prunable::<1>::new_with_pruned_chunks(2).unwrap();
    /// assert_eq!(bitmap.encode(), [0, 0, 0, 0, 0, 0, 0, 2, 0, 0, 0, 0, 0, 0, 0, 0]);
    /// ```
    #[must_use]
    pub fn encode(&self) -> Vec<u8> {
        expect_memory(self.try_encode())
    }

    /// Returns the encoding of the bitmap, as `encode` does.
    ///
    /// # Errors
    ///
    /// Returns `AllocError` if the allocation fails.
    ///
    /// # Memory
    ///
    /// Allocates once, space for the encoding.
    ///
    /// # Complexity
    ///
    /// Linear in the bytes of the encoding.
    ///
    /// ```
    /// use mortarpink::bitmap::Prunable;
    ///
    /// assert_eq!(Prunable::<1>::new().try_encode()?, [0; 16]);
    /// # Ok::<(), mortarpink::AllocError>(())
    /// ```
    pub fn try_encode(&self) -> Result<Vec<u8>, AllocError> {
        let mut out = Vec::new();
        self.write(&mut out)?;
        Ok(out)
    }

    /// Appends the encoding of the bitmap, as `encode` returns it, to some bytes.
    ///
    /// # Complexity
    ///
    /// Time and memory are those of [`try_encode_into`](Self::try_encode_into).
    ///
    /// # Panics
    ///
    /// Panics if memory runs out.
    ///
    /// ```
    /// use mortarpink::bitmap::Prunable;
    ///
    /// let mut bytes = vec![1];
    /// Prunable::<1>::new().encode_into(&mut bytes);
    /// assert_eq!(bytes.len(), 1 + 16);
    /// ```
    pub fn encode_into(&self, out: &mut Vec<u8>) {
        expect_memory(self.try_encode_into(out));
    }

    /// Appends the encoding of the bitmap, as `encode_into` does.
    ///
    /// # Errors
    ///
    /// Returns `AllocError` if the allocation fails. `out` is then unchanged.
    ///
    /// # Memory
    ///
    /// Allocates at most once, and only if `out` has no capacity for the encoding.
    ///
    /// # Complexity
    ///
    /// Linear in the bytes of the encoding. Amortized, since the bytes in `out` may be moved.
    ///
    /// ```
    /// use mortarpink::bitmap::Prunable;
    ///
    /// let mut bytes = vec![1];
    /// Prunable::<1>::new().try_encode_into(&mut bytes)?;
    /// assert_eq!(bytes.len(), 1 + 16);
    /// # Ok::<(), mortarpink::AllocError>(())
    /// ```
    pub fn try_encode_into(&self, out: &mut Vec<u8>) -> Result<(), AllocError> {
        self.write(out)
    }

    /// Returns the size of the encoding in bytes. Does not allocate; constant time.
    ///
    /// ```
    /// use mortarpink::bitmap::Prunable;
    ///
    /// assert_eq!(Prunable::<1>::new().encode_size(), 16);
    /// ```
    #[must_use]
    pub fn encode_size(&self) -> usize {
        EncodeSize::encode_size(self)
    }

    /// Reads a bitmap from the start of the bytes, and advances `from` past its encoding. `range` limits the number of retained bits.
    ///
    /// # Errors
    ///
    /// Returns the first error that applies. The module `codec` has their order. `from` is then unchanged.
    ///
    /// # Memory
    ///
    /// Allocates at most once, space for the chunks, and only if no other error applies.
    ///
    /// # Complexity
    ///
    /// Linear in the bytes of the encoding.
    ///
    /// ```
    /// use mortarpink::bitmap::Prunable;
    /// use mortarpink::bitmap::codec::RangeCfg;
    ///
    /// let bytes = Prunable::<4>::new_with_pruned_chunks(7).unwrap().encode();
    /// let bitmap = Prunable::<4>::decode(&mut bytes.as_slice(), &RangeCfg::any()).unwrap();
    /// assert_eq!(bitmap.pruned_chunks(), 7);
    /// ```
    pub fn decode(from: &mut &[u8], range: &RangeCfg) -> Result<Self, CodecError> {
        Prunable::read_cfg(Global, from, range)
    }
}

impl<const N: usize> Clone for Prunable<N> {
    /// Returns an equal bitmap. Panics if memory runs out; `TryClone` returns an error instead.
    fn clone(&self) -> Self {
        expect_memory(self.try_clone())
    }
}

impl<const N: usize> Default for Prunable<N> {
    fn default() -> Self {
        Prunable::new()
    }
}

impl<const N: usize> PartialEq for Prunable<N> {
    /// Returns whether both have the same length, the same number of pruned chunks, and the same retained bits. Takes time at most linear in the
    /// retained chunks.
    fn eq(&self, other: &Self) -> bool {
        let (first, end) = (self.pruned_chunks(), self.chunks_len());
        self.len() == other.len()
            && first == other.pruned_chunks()
            && (first..end).all(|index| self.get_chunk(index) == other.get_chunk(index))
    }
}

impl<const N: usize> Eq for Prunable<N> {}
