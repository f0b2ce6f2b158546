use std::fmt;
use std::ops::RangeBounds;

use crate::packed::Bits;
use crate::{Bitmap, Chunk, CommitError, Error, Ones, PushBytesError, SetManyError, Width, range};

/// A batch of edits on a bitmap.
///
/// [`Bitmap::begin`] makes it. Its edits are pending: they change the bitmap when
/// [`commit`](Batch::commit) succeeds. [`abort`](Batch::abort), or dropping the batch, drops the
/// edits. The reads of a batch are of the pending bitmap, searches and counts among them.
///
/// # Memory
///
/// The first edit of a chunk in a batch allocates a copy of that chunk.
///
/// # Examples
///
/// ```
/// use mortarpink_proved::{Bitmap, Width};
///
/// let mut bitmap = Bitmap::new(Width::Bytes8)?;
///
/// let mut batch = bitmap.begin();
/// batch.push_byte(0b0000_0101)?;
/// batch.set(1, true)?;
/// assert_eq!(batch.get(1), Ok(true));
/// batch.commit(1)?;
///
/// let mut batch = bitmap.begin();
/// batch.pop()?;
/// batch.abort();
/// assert_eq!(bitmap.len(), 8);
/// # Ok::<(), mortarpink_proved::Error>(())
/// ```
#[must_use = "a batch that is dropped is aborted"]
pub struct Batch<'a> {
    bitmap: &'a mut Bitmap,
}

/// Edits.
impl<'a> Batch<'a> {
    /// Begins a batch. The bitmap is not in one.
    pub(crate) fn begin(bitmap: &'a mut Bitmap) -> Batch<'a> {
        bitmap.session.begin();
        Batch { bitmap }
    }

    /// Appends a bit.
    ///
    /// # Errors
    ///
    /// - [`Error::TooLong`] if the length would pass `u64::MAX`.
    /// - [`Error::NoMemory`] if an allocation fails.
    pub fn push(&mut self, bit: bool) -> Result<(), Error> {
        self.bitmap.session.push(bit)
    }

    /// Appends the eight bits of a byte, the lowest first.
    ///
    /// # Errors
    ///
    /// The errors of [`push`](Batch::push).
    pub fn push_byte(&mut self, byte: u8) -> Result<(), Error> {
        self.bitmap.session.push_byte(byte)
    }

    /// Appends the bits of the bytes in order, up to the first byte that fails.
    ///
    /// # Errors
    ///
    /// The errors of [`push`](Batch::push), with the number of bytes that were appended.
    pub fn push_bytes(&mut self, bytes: &[u8]) -> Result<(), PushBytesError> {
        let (appended, result) = self.bitmap.session.push_bytes(bytes);
        result.map_err(|error| PushBytesError { appended, error })
    }

    /// Appends the bits of one chunk.
    ///
    /// # Errors
    ///
    /// - [`Error::WrongSize`] if the number of bytes is not the width of the bitmap.
    /// - The errors of [`push`](Batch::push).
    pub fn push_chunk(&mut self, bytes: &[u8]) -> Result<(), Error> {
        self.bitmap.session.push_chunk(bytes)
    }

    /// Appends bits in order: all of them, or none.
    ///
    /// # Errors
    ///
    /// The errors of [`push`](Batch::push). No bit is appended then.
    ///
    /// # Complexity
    ///
    /// Linear in the bits.
    ///
    /// # Memory
    ///
    /// Allocates the chunks of the new bits that the batch has not edited yet. Also allocates a byte
    /// per bit and the chunks of a copy of the bits, which are freed before the return.
    ///
    /// # Examples
    ///
    /// ```
    /// use mortarpink_proved::{Bitmap, Width};
    ///
    /// let mut bitmap = Bitmap::new(Width::Bytes8)?;
    /// let mut batch = bitmap.begin();
    /// batch.push_bits(&[true, false, true])?;
    /// batch.commit(1)?;
    ///
    /// assert_eq!(bitmap.len(), 3);
    /// assert!(bitmap.ones(..).eq([0, 2]));
    /// # Ok::<(), mortarpink_proved::Error>(())
    /// ```
    pub fn push_bits(&mut self, bits: &[bool]) -> Result<(), Error> {
        self.bitmap.session.push_bits(bits)
    }

    /// Removes the last bit, and returns it.
    ///
    /// # Errors
    ///
    /// [`Error::NoRetainedBit`] if all bits are pruned, or there are none.
    pub fn pop(&mut self) -> Result<bool, Error> {
        self.bitmap.session.pop()
    }

    /// Replaces the bit at a position.
    ///
    /// # Errors
    ///
    /// - [`Error::OutOfBounds`] if the position is at or past the length.
    /// - [`Error::Pruned`] if the position is pruned.
    /// - [`Error::NoMemory`] if an allocation fails.
    pub fn set(&mut self, position: u64, bit: bool) -> Result<(), Error> {
        self.bitmap.session.set(position, bit)
    }

    /// Replaces the bit at each position in order, up to the first position that fails.
    ///
    /// # Errors
    ///
    /// The errors of [`set`](Batch::set), with the number of positions at which the bit was replaced.
    ///
    /// # Complexity
    ///
    /// Amortized linear in the positions.
    ///
    /// # Examples
    ///
    /// ```
    /// use mortarpink_proved::{Bitmap, Error, Width};
    ///
    /// let mut bitmap = Bitmap::new(Width::Bytes8)?;
    /// let mut batch = bitmap.begin();
    /// batch.extend_to(100)?;
    /// batch.set_many(&[7, 3, 99], true)?;
    ///
    /// let failed = batch.set_many(&[4, 100, 5], true).unwrap_err();
    /// assert_eq!((failed.replaced(), failed.error()), (1, Error::OutOfBounds));
    /// batch.commit(1)?;
    /// assert!(bitmap.ones(..).eq([3, 4, 7, 99]));
    /// # Ok::<(), Error>(())
    /// ```
    pub fn set_many(&mut self, positions: &[u64], bit: bool) -> Result<(), SetManyError> {
        let (replaced, result) = self.bitmap.session.set_many(positions, bit);
        result.map_err(|error| SetManyError { replaced, error })
    }

    /// Replaces the bits of the chunk at an absolute index. Bits past the length are ignored.
    ///
    /// # Errors
    ///
    /// - [`Error::WrongSize`] if the number of bytes is not the width of the bitmap.
    /// - [`Error::OutOfBounds`] if no bit of the chunk is below the length.
    /// - [`Error::Pruned`] if the chunk is pruned.
    /// - [`Error::NoMemory`] if an allocation fails.
    ///
    /// # Examples
    ///
    /// ```
    /// use mortarpink_proved::{Bitmap, Width};
    ///
    /// let mut bitmap = Bitmap::new(Width::Bytes1)?;
    /// let mut batch = bitmap.begin();
    /// batch.extend_to(12)?;
    /// batch.set_chunk(1, &[0b0101_0101])?;
    /// batch.commit(1)?;
    ///
    /// assert!(bitmap.ones(..).eq([8, 10]));
    /// # Ok::<(), mortarpink_proved::Error>(())
    /// ```
    pub fn set_chunk(&mut self, index: u64, bytes: &[u8]) -> Result<(), Error> {
        self.bitmap.session.set_chunk(index, bytes)
    }

    /// Replaces each bit of a range: all of them, or none.
    ///
    /// A range without a start begins at the first retained position, and a range without an end
    /// ends at the length. If the range is empty, nothing changes.
    ///
    /// # Errors
    ///
    /// - [`Error::OutOfBounds`] if a position of the range is at or past the length.
    /// - [`Error::Pruned`] if a position of the range is pruned.
    /// - [`Error::NoMemory`] if an allocation fails.
    ///
    /// # Complexity
    ///
    /// Linear in the chunks of the range.
    ///
    /// # Memory
    ///
    /// Allocates the chunks of the range that the batch has not edited yet.
    ///
    /// # Examples
    ///
    /// ```
    /// use mortarpink_proved::{Bitmap, Error, Width};
    ///
    /// let mut bitmap = Bitmap::new(Width::Bytes8)?;
    /// let mut batch = bitmap.begin();
    /// batch.extend_to(1000)?;
    /// batch.set_range(10..990, true)?;
    /// batch.set_range(500.., false)?;
    /// assert_eq!(batch.set_range(..1001, true), Err(Error::OutOfBounds));
    /// batch.commit(1)?;
    ///
    /// assert_eq!(bitmap.count_ones(..), 490);
    /// # Ok::<(), Error>(())
    /// ```
    pub fn set_range(&mut self, range: impl RangeBounds<u64>, bit: bool) -> Result<(), Error> {
        let first_retained = self.pruned_chunks() * self.width().bits();
        let range = range::edited(range, (first_retained, self.len()))?;
        self.bitmap.session.set_range(range, bit)
    }

    /// Removes the bits from position `len` on. Pruned bits count. Does not allocate.
    ///
    /// # Errors
    ///
    /// - [`Error::OutOfBounds`] if `len` is above the length.
    /// - [`Error::Pruned`] if `len` is below the number of pruned bits.
    ///
    /// # Complexity
    ///
    /// Linear in the removed chunks that the batch has edited.
    ///
    /// # Examples
    ///
    /// ```
    /// use mortarpink_proved::{Bitmap, Error, Width};
    ///
    /// let mut bitmap = Bitmap::new(Width::Bytes8)?;
    /// let mut batch = bitmap.begin();
    /// batch.push_bytes(&[0xff; 100])?;
    /// batch.truncate(3)?;
    /// assert_eq!(batch.truncate(4), Err(Error::OutOfBounds));
    /// batch.commit(1)?;
    ///
    /// assert!(bitmap.ones(..).eq([0, 1, 2]));
    /// # Ok::<(), Error>(())
    /// ```
    pub fn truncate(&mut self, len: u64) -> Result<(), Error> {
        self.bitmap.session.truncate(len)
    }

    /// Appends clear bits up to a length of `len`. Pruned bits count. If the bitmap has that length or
    /// more, nothing changes.
    ///
    /// # Errors
    ///
    /// [`Error::NoMemory`] if an allocation fails.
    ///
    /// # Complexity
    ///
    /// Linear in the chunks of the new bits.
    ///
    /// # Memory
    ///
    /// Allocates the chunks of the new bits that the batch has not edited yet.
    ///
    /// # Examples
    ///
    /// ```
    /// use mortarpink_proved::{Bitmap, Width};
    ///
    /// let mut bitmap = Bitmap::new(Width::Bytes8)?;
    /// let mut batch = bitmap.begin();
    /// batch.push(true)?;
    /// batch.extend_to(1000)?;
    /// batch.extend_to(10)?;
    /// batch.commit(1)?;
    ///
    /// assert_eq!((bitmap.len(), bitmap.count_ones(..)), (1000, 1));
    /// # Ok::<(), mortarpink_proved::Error>(())
    /// ```
    pub fn extend_to(&mut self, len: u64) -> Result<(), Error> {
        self.bitmap.session.extend_to(len)
    }

    /// Prunes the chunks before the chunk of a position. Other bits keep their positions.
    ///
    /// # Errors
    ///
    /// - [`Error::OutOfBounds`] if the position is past the length.
    /// - [`Error::NoMemory`] if an allocation fails.
    pub fn prune(&mut self, position: u64) -> Result<(), Error> {
        self.bitmap.session.prune(position)
    }

    /// Ends the batch. The pending bitmap becomes the current one, and is kept under a number.
    ///
    /// The number is above the last one that was committed or rewound to, even if that commit was
    /// dropped since. After a commit under `u64::MAX - 1`, the greatest number, there is none unless
    /// the bitmap is rewound to an earlier commit.
    ///
    /// If the bitmap keeps a log, the entry of the commit is appended to it. The entry has the chunks
    /// that the batch changed, with their new bytes.
    ///
    /// # Errors
    ///
    /// The batch is aborted, and the log is unchanged. [`try_commit`](Batch::try_commit) returns the
    /// batch instead.
    ///
    /// - [`Error::ReservedCommitNumber`] if the number is `u64::MAX`.
    /// - [`Error::NonMonotonicCommit`] if the number is not above the last one.
    /// - [`Error::NoMemory`] if an allocation fails, or if the log would have 2^64 bytes or more.
    ///
    /// # Complexity
    ///
    /// Amortized linear in the chunks that the batch edited, pruned or removed, and in the bytes of the
    /// entry.
    ///
    /// # Memory
    ///
    /// Allocates the old bytes of the chunks that the batch changed, and space by which the bitmap, the
    /// list of commits and the log grow.
    pub fn commit(self, number: u64) -> Result<(), Error> {
        Ok(self.try_commit(number)?)
    }

    /// Commits as [`commit`](Batch::commit) does, or returns the batch, which may go on.
    ///
    /// # Errors
    ///
    /// The errors of [`commit`](Batch::commit), with the batch.
    ///
    /// # Examples
    ///
    /// ```
    /// use mortarpink_proved::{Bitmap, Error, Width};
    ///
    /// let mut bitmap = Bitmap::new(Width::Bytes8)?;
    /// bitmap.begin().commit(7)?;
    ///
    /// let mut batch = bitmap.begin();
    /// batch.push(true)?;
    /// let failed = batch.try_commit(7).unwrap_err();
    /// assert_eq!(failed.error(), Error::NonMonotonicCommit { previous: 7, attempted: 7 });
    ///
    /// failed.into_batch().commit(8)?;
    /// assert_eq!(bitmap.len(), 1);
    /// # Ok::<(), Error>(())
    /// ```
    pub fn try_commit(self, number: u64) -> Result<(), CommitError<'a>> {
        match self.bitmap.session.commit(number) {
            Ok(()) => Ok(()),
            Err(error) => Err(CommitError { batch: self, error }),
        }
    }

    /// Ends the batch, and drops its edits.
    pub fn abort(self) {}
}

/// Reads of the pending bitmap.
impl Batch<'_> {
    /// Returns the number of bytes per chunk.
    pub fn width(&self) -> Width {
        self.bitmap.width
    }

    /// Returns the length in bits, pruned bits included.
    pub fn len(&self) -> u64 {
        self.bitmap.session.len(None)
    }

    /// Returns whether the length is 0.
    pub fn is_empty(&self) -> bool {
        self.len() == 0
    }

    /// Returns the number of pruned chunks.
    pub fn pruned_chunks(&self) -> u64 {
        self.bitmap.session.pruned_chunks(None)
    }

    /// Returns the bit at a position.
    ///
    /// # Errors
    ///
    /// - [`Error::OutOfBounds`] if the position is at or past the length.
    /// - [`Error::Pruned`] if the position is pruned.
    pub fn get(&self, position: u64) -> Result<bool, Error> {
        self.bitmap.session.get(None, position)
    }

    /// Returns the chunk of a position.
    ///
    /// # Errors
    ///
    /// The errors of [`get`](Batch::get).
    pub fn chunk(&self, position: u64) -> Result<Chunk, Error> {
        let mut chunk = Chunk::zeroed(self.bitmap.width);
        self.bitmap.session.chunk(None, position, chunk.as_mut_slice())?;
        Ok(chunk)
    }

    /// Fills `out` with the bits of a range, eight in a byte, the lowest bit first.
    ///
    /// # Errors
    ///
    /// The errors of [`Bitmap::read_bytes`].
    pub fn read_bytes(&self, range: impl RangeBounds<u64>, out: &mut [u8]) -> Result<(), Error> {
        self.bits().read(range, out)
    }

    /// Returns the bits of a range, eight in a byte, the lowest bit first.
    ///
    /// # Errors
    ///
    /// The errors of [`Bitmap::packed`].
    pub fn packed(&self, range: impl RangeBounds<u64>) -> Result<Vec<u8>, Error> {
        self.bits().packed(range)
    }

    fn bits(&self) -> Bits<'_> {
        Bits { session: &self.bitmap.session, at: None, width: self.bitmap.width }
    }
}

/// Searches and counts in the pending bitmap. They mean what those of a [`Bitmap`] mean.
impl Batch<'_> {
    /// Returns an iterator over the set retained positions of a range, ascending.
    ///
    /// # Examples
    ///
    /// ```
    /// use mortarpink_proved::{Bitmap, Width};
    ///
    /// let mut slots = Bitmap::new(Width::Bytes8)?;
    /// let mut batch = slots.begin();
    /// batch.extend_to(64)?;
    ///
    /// // Take the lowest free slot, three times.
    /// for _ in 0..3 {
    ///     let free = batch.next_zero(0).expect("a slot is free");
    ///     batch.set(free, true)?;
    /// }
    /// assert!(batch.ones(..).eq([0, 1, 2]));
    /// # Ok::<(), mortarpink_proved::Error>(())
    /// ```
    pub fn ones(&self, range: impl RangeBounds<u64>) -> Ones<'_> {
        Ones::new(&self.bitmap.session, None, range::half_open(range))
    }

    /// Returns the least retained position, from `from` on, whose bit is 1.
    pub fn next_one(&self, from: u64) -> Option<u64> {
        self.bitmap.session.next_one(None, from)
    }

    /// Returns the least retained position, from `from` on, whose bit is 0.
    pub fn next_zero(&self, from: u64) -> Option<u64> {
        self.bitmap.session.next_zero(None, from)
    }

    /// Returns the greatest retained position below `end` whose bit is 1.
    pub fn prev_one(&self, end: u64) -> Option<u64> {
        self.bitmap.session.prev_one(None, end)
    }

    /// Returns the greatest retained position below `end` whose bit is 0.
    pub fn prev_zero(&self, end: u64) -> Option<u64> {
        self.bitmap.session.prev_zero(None, end)
    }

    /// Returns the number of set retained positions in a range.
    pub fn count_ones(&self, range: impl RangeBounds<u64>) -> u64 {
        self.bitmap.session.count_ones(None, range::half_open(range))
    }

    /// Returns the set retained position number `k`, counted from 0.
    pub fn select_one(&self, k: u64) -> Option<u64> {
        self.bitmap.session.select_one(None, k)
    }
}

impl Drop for Batch<'_> {
    fn drop(&mut self) {
        self.bitmap.session.settle();
    }
}

impl fmt::Debug for Batch<'_> {
    fn fmt(&self, f: &mut fmt::Formatter<'_>) -> fmt::Result {
        f.debug_struct("Batch")
            .field("len", &self.len())
            .field("pruned_chunks", &self.pruned_chunks())
            .finish_non_exhaustive()
    }
}
