//! Dense bitmaps: constructors, the edits that may allocate, conversions and operators.

use crate::bitmap::codec::{CodecError, RangeCfg};
use crate::bitmap::{BitMap, Iterator, OnesIter, Readable};
use crate::generated::bitmap_core::bitmap::codec::{EncodeSize, Read, Write};
use crate::support::alloc::{AllocError, Global, expect_memory};
use crate::support::clone::TryClone;
use crate::support::ops as fallible;
use alloc::vec::Vec;
use core::iter::FusedIterator;
use core::ops::{BitAnd, BitAndAssign, BitOr, BitOrAssign, BitXor, BitXorAssign, Index, Not, Range, Sub, SubAssign};

/// Constructors. `N` has to be at least 1, and `8N` has to fit `u64`: otherwise they do not compile.
impl<const N: usize> BitMap<N> {
    /// Returns an empty bitmap. Does not allocate; constant time.
    ///
    /// ```
    /// use mortarpink::bitmap::BitMap;
    ///
    /// let bitmap: BitMap = BitMap::new();
    /// assert!(bitmap.is_empty());
    /// ```
    ///
    /// ```compile_fail
    /// let bitmap = mortarpink::bitmap::BitMap::<0>::new();
    /// ```
    #[must_use]
    pub fn new() -> Self {
        BitMap::new_within(Global)
    }

    /// Returns an empty bitmap with capacity for the chunks of `size` bits.
    ///
    /// # Complexity
    ///
    /// Time and memory are those of [`try_with_capacity`](Self::try_with_capacity).
    ///
    /// # Panics
    ///
    /// Panics if memory runs out.
    ///
    /// ```
    /// use mortarpink::bitmap::BitMap;
    ///
    /// let bitmap = BitMap::<32>::with_capacity(1000);
    /// assert_eq!(bitmap.len(), 0);
    /// ```
    #[must_use]
    pub fn with_capacity(size: u64) -> Self {
        expect_memory(BitMap::try_with_capacity(size))
    }

    /// Returns an empty bitmap with capacity for the chunks of `size` bits.
    ///
    /// # Errors
    ///
    /// Returns `AllocError` if the allocation fails.
    ///
    /// # Memory
    ///
    /// Allocates at most once, space for the chunks of `size` bits.
    ///
    /// # Complexity
    ///
    /// Constant.
    ///
    /// ```
    /// use mortarpink::bitmap::BitMap;
    ///
    /// assert!(BitMap::<8>::try_with_capacity(100).is_ok());
    /// assert!(BitMap::<8>::try_with_capacity(u64::MAX).is_err());
    /// ```
    pub fn try_with_capacity(size: u64) -> Result<Self, AllocError> {
        BitMap::with_capacity_within(Global, size)
    }

    /// Returns a bitmap of `size` bits that are all false.
    ///
    /// # Complexity
    ///
    /// Time and memory are those of [`try_zeroes`](Self::try_zeroes).
    ///
    /// # Panics
    ///
    /// Panics if memory runs out.
    ///
    /// ```
    /// use mortarpink::bitmap::BitMap;
    ///
    /// assert_eq!(BitMap::<8>::zeroes(100).count_zeros(), 100);
    /// ```
    #[must_use]
    pub fn zeroes(size: u64) -> Self {
        expect_memory(BitMap::try_zeroes(size))
    }

    /// Returns a bitmap of `size` bits that are all false.
    ///
    /// # Errors
    ///
    /// Returns `AllocError` if the allocation fails.
    ///
    /// # Memory
    ///
    /// Allocates at most once, space for the chunks of `size` bits.
    ///
    /// # Complexity
    ///
    /// Linear in the chunks of `size` bits.
    ///
    /// ```
    /// use mortarpink::bitmap::BitMap;
    ///
    /// assert!(BitMap::<8>::try_zeroes(u64::MAX).is_err());
    /// ```
    pub fn try_zeroes(size: u64) -> Result<Self, AllocError> {
        BitMap::zeroes_within(Global, size)
    }

    /// Returns a bitmap of `size` bits that are all true.
    ///
    /// # Complexity
    ///
    /// Time and memory are those of [`try_ones`](Self::try_ones).
    ///
    /// # Panics
    ///
    /// Panics if memory runs out.
    ///
    /// ```
    /// use mortarpink::bitmap::BitMap;
    ///
    /// assert_eq!(BitMap::<8>::ones(100).count_ones(), 100);
    /// ```
    #[must_use]
    pub fn ones(size: u64) -> Self {
        expect_memory(BitMap::try_ones(size))
    }

    /// Returns a bitmap of `size` bits that are all true.
    ///
    /// # Errors
    ///
    /// Returns `AllocError` if the allocation fails.
    ///
    /// # Memory
    ///
    /// Allocates at most once, space for the chunks of `size` bits.
    ///
    /// # Complexity
    ///
    /// Linear in the chunks of `size` bits.
    ///
    /// ```
    /// use mortarpink::bitmap::BitMap;
    ///
    /// assert!(BitMap::<8>::try_ones(u64::MAX).is_err());
    /// ```
    pub fn try_ones(size: u64) -> Result<Self, AllocError> {
        BitMap::ones_within(Global, size)
    }

    /// Returns a bitmap of the given bits, in order. `From` does the same, and panics if memory runs out.
    ///
    /// # Errors
    ///
    /// Returns `AllocError` if the allocation fails.
    ///
    /// # Memory
    ///
    /// Allocates at most once, space for the chunks of the bits.
    ///
    /// # Complexity
    ///
    /// Linear in the bits.
    ///
    /// ```
    /// use mortarpink::bitmap::BitMap;
    ///
    /// let bitmap = BitMap::<8>::try_from_bools(&[true, false])?;
    /// assert!(bitmap.get(0) && !bitmap.get(1));
    /// # Ok::<(), mortarpink::AllocError>(())
    /// ```
    pub fn try_from_bools(bools: &[bool]) -> Result<Self, AllocError> {
        BitMap::from_bools_within(Global, bools)
    }
}

/// Edits that may allocate. Each has a form `try_..` that returns an error if memory runs out, and leaves the bitmap unchanged then.
impl<const N: usize> BitMap<N> {
    /// Appends a bit.
    ///
    /// # Complexity
    ///
    /// Time and memory are those of [`try_push`](Self::try_push).
    ///
    /// # Panics
    ///
    /// Panics if memory runs out, or if the new length does not fit `u64`.
    ///
    /// ```
    /// use mortarpink::bitmap::BitMap;
    ///
    /// let mut bitmap: BitMap = BitMap::new();
    /// bitmap.push(true);
    /// assert!(bitmap.get(0));
    /// ```
    #[inline]
    pub fn push(&mut self, bit: bool) {
        expect_memory(self.try_push(bit));
    }

    /// Appends the `8N` bits of a chunk.
    ///
    /// # Complexity
    ///
    /// Time and memory are those of [`try_push_chunk`](Self::try_push_chunk).
    ///
    /// # Panics
    ///
    /// Panics if memory runs out, if the length is not a multiple of `8N`, or if the new length does not fit `u64`.
    ///
    /// ```
    /// use mortarpink::bitmap::BitMap;
    ///
    /// let mut bitmap = BitMap::<2>::new();
    /// bitmap.push_chunk(&[0b0000_0101, 0]);
    /// assert_eq!(bitmap.len(), 16);
    /// assert!(bitmap.get(0) && !bitmap.get(1) && bitmap.get(2));
    /// ```
    pub fn push_chunk(&mut self, chunk: &[u8; N]) {
        expect_memory(self.try_push_chunk(chunk));
    }

    /// Appends false bits up to a length of `new_len` bits. If the bitmap has as many or more, it is unchanged.
    ///
    /// # Complexity
    ///
    /// Time and memory are those of [`try_extend_to`](Self::try_extend_to).
    ///
    /// # Panics
    ///
    /// Panics if memory runs out.
    ///
    /// ```
    /// use mortarpink::bitmap::BitMap;
    ///
    /// let mut bitmap = BitMap::<8>::ones(3);
    /// bitmap.extend_to(10);
    /// assert_eq!((bitmap.len(), bitmap.count_ones()), (10, 3));
    /// ```
    pub fn extend_to(&mut self, new_len: u64) {
        expect_memory(self.try_extend_to(new_len));
    }

    /// Appends the bits of another bitmap, in order. Its chunks may have another width.
    ///
    /// # Complexity
    ///
    /// Time and memory are those of [`try_extend_from_bitmap`](Self::try_extend_from_bitmap).
    ///
    /// # Panics
    ///
    /// Panics if memory runs out, or if the sum of the lengths does not fit `u64`.
    ///
    /// ```
    /// use mortarpink::bitmap::BitMap;
    ///
    /// let mut bitmap = BitMap::<8>::zeroes(3);
    /// bitmap.extend_from_bitmap(&BitMap::<32>::ones(2));
    /// assert_eq!(bitmap, BitMap::from([false, false, false, true, true]));
    /// ```
    pub fn extend_from_bitmap<const M: usize>(&mut self, other: &BitMap<M>) {
        expect_memory(self.try_extend_from_bitmap(other));
    }

    /// Sets the bit at each position in `range` to `value`. If the range is empty or ends before it starts, nothing changes.
    /// Does not allocate.
    ///
    /// # Complexity
    ///
    /// Linear in the bytes of the range. Whole chunks are written at once.
    ///
    /// # Panics
    ///
    /// Panics if the range ends after the length.
    ///
    /// ```
    /// use mortarpink::bitmap::BitMap;
    ///
    /// let mut bitmap = BitMap::<8>::zeroes(100);
    /// bitmap.set_range(10..90, true);
    /// assert_eq!(bitmap.count_ones(), 80);
    /// ```
    pub fn set_range(&mut self, range: Range<u64>, value: bool) {
        self.try_set_range(range, value);
    }
}

/// Booleans and bytes.
impl<const N: usize> BitMap<N> {
    /// Returns the bits in order, one boolean per bit.
    ///
    /// # Complexity
    ///
    /// Time and memory are those of [`try_to_bools`](Self::try_to_bools).
    ///
    /// # Panics
    ///
    /// Panics if memory runs out.
    ///
    /// ```
    /// use mortarpink::bitmap::BitMap;
    ///
    /// assert_eq!(BitMap::<8>::ones(2).to_bools(), [true, true]);
    /// ```
    #[must_use]
    pub fn to_bools(&self) -> Vec<bool> {
        expect_memory(self.try_to_bools())
    }

    /// Returns the encoding of the bitmap: the length in eight bytes, most significant first, and then the chunks.
    ///
    /// # Complexity
    ///
    /// Time and memory are those of [`try_encode`](Self::try_encode).
    ///
    /// # Panics
    ///
    /// Panics if memory runs out.
    ///
    /// ```
    /// use mortarpink::bitmap::BitMap;
    ///
    /// assert_eq!(BitMap::<1>::ones(3).encode(), [0, 0, 0, 0, 0, 0, 0, 3, 0b111]);
    /// ```
    #[must_use]
    pub fn encode(&self) -> Vec<u8> {
        expect_memory(self.try_encode())
    }

    /// Returns the encoding of the bitmap, as `encode` does.
    ///
    /// # Errors
    ///
    /// Returns `AllocError` if the allocation fails.
    ///
    /// # Memory
    ///
    /// Allocates once, space for the encoding.
    ///
    /// # Complexity
    ///
    /// Linear in the bytes of the encoding.
    ///
    /// ```
    /// use mortarpink::bitmap::BitMap;
    ///
    /// assert_eq!(BitMap::<1>::new().try_encode()?, [0; 8]);
    /// # Ok::<(), mortarpink::AllocError>(())
    /// ```
    pub fn try_encode(&self) -> Result<Vec<u8>, AllocError> {
        let mut out = Vec::new();
        self.write(&mut out)?;
        Ok(out)
    }

    /// Appends the encoding of the bitmap, as `encode` returns it, to some bytes.
    ///
    /// # Complexity
    ///
    /// Time and memory are those of [`try_encode_into`](Self::try_encode_into).
    ///
    /// # Panics
    ///
    /// Panics if memory runs out.
    ///
    /// ```
    /// use mortarpink::bitmap::BitMap;
    ///
    /// let mut bytes = vec![1];
    /// BitMap::<1>::new().encode_into(&mut bytes);
    /// assert_eq!(bytes.len(), 1 + 8);
    /// ```
    pub fn encode_into(&self, out: &mut Vec<u8>) {
        expect_memory(self.try_encode_into(out));
    }

    /// Appends the encoding of the bitmap, as `encode_into` does.
    ///
    /// # Errors
    ///
    /// Returns `AllocError` if the allocation fails. `out` is then unchanged.
    ///
    /// # Memory
    ///
    /// Allocates at most once, and only if `out` has no capacity for the encoding.
    ///
    /// # Complexity
    ///
    /// Linear in the bytes of the encoding. Amortized, since the bytes in `out` may be moved.
    ///
    /// ```
    /// use mortarpink::bitmap::BitMap;
    ///
    /// let mut bytes = vec![1];
    /// BitMap::<1>::new().try_encode_into(&mut bytes)?;
    /// assert_eq!(bytes.len(), 1 + 8);
    /// # Ok::<(), mortarpink::AllocError>(())
    /// ```
    pub fn try_encode_into(&self, out: &mut Vec<u8>) -> Result<(), AllocError> {
        self.write(out)
    }

    /// Returns the size of the encoding in bytes. Does not allocate; constant time.
    ///
    /// ```
    /// use mortarpink::bitmap::BitMap;
    ///
    /// assert_eq!(BitMap::<8>::zeroes(65).encode_size(), 8 + 16);
    /// ```
    #[must_use]
    pub fn encode_size(&self) -> usize {
        EncodeSize::encode_size(self)
    }

    /// Reads a bitmap from the start of the bytes, and advances `from` past its encoding. `range` limits the number of bits.
    ///
    /// # Errors
    ///
    /// Returns the first error that applies. The module `codec` has their order. `from` is then unchanged.
    ///
    /// # Memory
    ///
    /// Allocates at most once, space for the chunks, and only if no other error applies.
    ///
    /// # Complexity
    ///
    /// Linear in the bytes of the encoding.
    ///
    /// ```
    /// use mortarpink::bitmap::BitMap;
    /// use mortarpink::bitmap::codec::RangeCfg;
    ///
    /// let bytes = BitMap::<4>::ones(40).encode();
    /// let mut from = bytes.as_slice();
    /// let bitmap = BitMap::<4>::decode(&mut from, &RangeCfg::at_most(1000)).unwrap();
    /// assert_eq!((bitmap, from.len()), (BitMap::ones(40), 0));
    /// ```
    pub fn decode(from: &mut &[u8], range: &RangeCfg) -> Result<Self, CodecError> {
        BitMap::read_cfg(Global, from, range)
    }
}

impl<const N: usize> Clone for BitMap<N> {
    /// Returns an equal bitmap. Panics if memory runs out; `TryClone` returns an error instead.
    fn clone(&self) -> Self {
        expect_memory(self.try_clone())
    }
}

impl<const N: usize> Default for BitMap<N> {
    fn default() -> Self {
        BitMap::new()
    }
}

impl<T: AsRef<[bool]>, const N: usize> From<T> for BitMap<N> {
    /// Returns a bitmap of the given bits. Panics if memory runs out.
    fn from(bools: T) -> Self {
        expect_memory(BitMap::try_from_bools(bools.as_ref()))
    }
}

impl<const N: usize> From<BitMap<N>> for Vec<bool> {
    /// Returns one boolean per bit. Panics if memory runs out.
    fn from(bitmap: BitMap<N>) -> Self {
        bitmap.to_bools()
    }
}

impl<const N: usize> Extend<bool> for BitMap<N> {
    /// Appends bits. Panics if memory runs out.
    fn extend<I: IntoIterator<Item = bool>>(&mut self, bits: I) {
        for bit in bits {
            self.push(bit);
        }
    }
}

impl<'a, const N: usize> Extend<&'a bool> for BitMap<N> {
    /// Appends bits. Panics if memory runs out.
    fn extend<I: IntoIterator<Item = &'a bool>>(&mut self, bits: I) {
        self.extend(bits.into_iter().copied());
    }
}

impl<'a, const N: usize> FromIterator<&'a bool> for BitMap<N> {
    /// Returns a bitmap of the bits. Panics if memory runs out.
    fn from_iter<I: IntoIterator<Item = &'a bool>>(bits: I) -> Self {
        bits.into_iter().copied().collect()
    }
}

impl<const N: usize> FromIterator<bool> for BitMap<N> {
    /// Returns a bitmap of the bits. Panics if memory runs out.
    fn from_iter<I: IntoIterator<Item = bool>>(bits: I) -> Self {
        let bits = bits.into_iter();
        let mut bitmap = BitMap::with_capacity(bits.size_hint().0 as u64);
        bitmap.extend(bits);
        bitmap
    }
}

impl<'a, const N: usize> IntoIterator for &'a BitMap<N> {
    type Item = bool;
    type IntoIter = Iterator<'a, N>;

    fn into_iter(self) -> Iterator<'a, N> {
        self.iter()
    }
}

impl<const N: usize> ExactSizeIterator for Iterator<'_, N> {}

impl<const N: usize> FusedIterator for Iterator<'_, N> {}

impl<B: Readable<N>, const N: usize> FusedIterator for OnesIter<'_, B, N> {}

impl<const N: usize> Index<u64> for BitMap<N> {
    type Output = bool;

    /// Returns the bit at a position. Panics if it is not below the length.
    #[inline]
    fn index(&self, bit: u64) -> &bool {
        if self.get(bit) { &true } else { &false }
    }
}

/// Implements operators of two bitmaps: the trait, its function and what it does; the trait that assigns, and its function; and the calls that
/// they make, of which the first returns an error if memory runs out.
macro_rules! operators {
    ($($operator:ident $function:ident $words:literal, $assigning:ident $assign:ident by $in_place:ident;)+) => {$(
        impl<const N: usize> $operator for &BitMap<N> {
            type Output = BitMap<N>;

            #[doc = concat!("Returns ", $words)]
            ///
            /// Allocates the new bitmap, and takes time linear in its chunks. Panics if the lengths differ, or if memory runs out.
            fn $function(self, other: &BitMap<N>) -> BitMap<N> {
                assert!(self.len() == other.len(), "BitMap lengths don't match: {} vs {}", self.len(), other.len());
                expect_memory(fallible::$operator::$function(self, other))
            }
        }

        impl<const N: usize> $assigning<&BitMap<N>> for BitMap<N> {
            #[doc = concat!("Keeps ", $words)]
            ///
            /// Does not allocate, and takes time linear in the chunks. Panics if the lengths differ.
            fn $assign(&mut self, other: &BitMap<N>) {
                self.$in_place(other);
            }
        }
    )+};
}

operators! {
    BitAnd bitand "the bits that are set in both bitmaps.", BitAndAssign bitand_assign by and;
    BitOr bitor "the bits that are set in at least one of the bitmaps.", BitOrAssign bitor_assign by or;
    BitXor bitxor "the bits that are set in exactly one of the bitmaps.", BitXorAssign bitxor_assign by xor;
    Sub sub "the bits that are set in the left bitmap and not in the right one.", SubAssign sub_assign by and_not;
}

impl<const N: usize> Not for BitMap<N> {
    type Output = BitMap<N>;

    /// Returns the bitmap with each bit flipped. Does not allocate, and takes time linear in the chunks.
    fn not(mut self) -> BitMap<N> {
        self.flip_all();
        self
    }
}

impl<const N: usize> Not for &BitMap<N> {
    type Output = BitMap<N>;

    /// Returns a copy with each bit flipped. Panics if memory runs out.
    fn not(self) -> BitMap<N> {
        !self.clone()
    }
}
