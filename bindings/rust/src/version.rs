use std::fmt;
use std::ops::RangeBounds;

use crate::ffi::Session;
use crate::packed::Bits;
use crate::{Chunk, Error, Ones, Width, range};

/// The bitmap at a commit, read in place.
///
/// [`Bitmap::at`](crate::Bitmap::at) returns it. It has the reads of a [`Bitmap`](crate::Bitmap),
/// with the same meaning, units and errors.
///
/// # Memory
///
/// Only [`packed`](Version::packed) and [`to_bytes`](Version::to_bytes) allocate.
///
/// # Complexity
///
/// Each chunk that is read costs a search of each commit after this one, or one search if the bitmap
/// is indexed by [`Bitmap::set_indexed`](crate::Bitmap::set_indexed).
///
/// # Examples
///
/// ```
/// use mortarpink_proved::{Bitmap, Width};
///
/// let mut bitmap = Bitmap::new(Width::Bytes8)?;
/// for (number, bit) in [(1, true), (2, false), (3, true)] {
///     let mut batch = bitmap.begin();
///     batch.push(bit)?;
///     batch.commit(number)?;
/// }
///
/// let version = bitmap.at(2)?;
/// assert_eq!(version.number(), 2);
/// assert_eq!(version.len(), 2);
/// assert!(version.ones(..).eq([0]));
/// assert!(bitmap.ones(..).eq([0, 2]));
/// # Ok::<(), mortarpink_proved::Error>(())
/// ```
#[derive(Clone, Copy)]
pub struct Version<'a> {
    session: &'a Session,
    width: Width,
    number: u64,
}

impl<'a> Version<'a> {
    /// Makes a version. Its commit is kept.
    pub(crate) fn new(session: &'a Session, width: Width, number: u64) -> Version<'a> {
        Version { session, width, number }
    }

    /// Returns the commit number.
    pub fn number(&self) -> u64 {
        self.number
    }

    /// Returns the number of bytes per chunk.
    pub fn width(&self) -> Width {
        self.width
    }

    fn at(&self) -> Option<u64> {
        Some(self.number)
    }

    /// Returns the length in bits, pruned bits included.
    pub fn len(&self) -> u64 {
        self.session.len(self.at())
    }

    /// Returns whether the length is 0.
    pub fn is_empty(&self) -> bool {
        self.len() == 0
    }

    /// Returns the number of pruned chunks.
    pub fn pruned_chunks(&self) -> u64 {
        self.session.pruned_chunks(self.at())
    }

    /// Returns the bit at a position.
    ///
    /// # Errors
    ///
    /// - [`Error::OutOfBounds`] if the position is at or past the length.
    /// - [`Error::Pruned`] if the position is pruned.
    pub fn get(&self, position: u64) -> Result<bool, Error> {
        self.session.get(self.at(), position)
    }

    /// Returns the chunk of a position.
    ///
    /// # Errors
    ///
    /// The errors of [`get`](Version::get).
    pub fn chunk(&self, position: u64) -> Result<Chunk, Error> {
        let mut chunk = Chunk::zeroed(self.width);
        self.session.chunk(self.at(), position, chunk.as_mut_slice())?;
        Ok(chunk)
    }

    /// Fills `out` with the bits of a range, eight in a byte, the lowest bit first.
    ///
    /// # Errors
    ///
    /// The errors of [`Bitmap::read_bytes`](crate::Bitmap::read_bytes).
    pub fn read_bytes(&self, range: impl RangeBounds<u64>, out: &mut [u8]) -> Result<(), Error> {
        self.bits().read(range, out)
    }

    /// Returns the bits of a range, eight in a byte, the lowest bit first.
    ///
    /// # Errors
    ///
    /// The errors of [`Bitmap::packed`](crate::Bitmap::packed).
    pub fn packed(&self, range: impl RangeBounds<u64>) -> Result<Vec<u8>, Error> {
        self.bits().packed(range)
    }

    fn bits(&self) -> Bits<'_> {
        Bits { session: self.session, at: self.at(), width: self.width }
    }

    /// Returns an iterator over the set retained positions of a range, ascending.
    pub fn ones(&self, range: impl RangeBounds<u64>) -> Ones<'a> {
        Ones::new(self.session, self.at(), range::half_open(range))
    }

    /// Returns the least retained position, from `from` on, whose bit is 1.
    pub fn next_one(&self, from: u64) -> Option<u64> {
        self.session.next_one(self.at(), from)
    }

    /// Returns the least retained position, from `from` on, whose bit is 0.
    pub fn next_zero(&self, from: u64) -> Option<u64> {
        self.session.next_zero(self.at(), from)
    }

    /// Returns the greatest retained position below `end` whose bit is 1.
    pub fn prev_one(&self, end: u64) -> Option<u64> {
        self.session.prev_one(self.at(), end)
    }

    /// Returns the greatest retained position below `end` whose bit is 0.
    pub fn prev_zero(&self, end: u64) -> Option<u64> {
        self.session.prev_zero(self.at(), end)
    }

    /// Returns the number of set retained positions in a range.
    pub fn count_ones(&self, range: impl RangeBounds<u64>) -> u64 {
        self.session.count_ones(self.at(), range::half_open(range))
    }

    /// Returns the set retained position number `k`, counted from 0.
    pub fn select_one(&self, k: u64) -> Option<u64> {
        self.session.select_one(self.at(), k)
    }

    /// Returns the encoding of this version.
    ///
    /// # Errors
    ///
    /// [`Error::NoMemory`] if an allocation fails.
    ///
    /// # Complexity
    ///
    /// Linear in the current bitmap, plus the later commits and the chunks that they changed.
    pub fn to_bytes(&self) -> Result<Vec<u8>, Error> {
        self.session.encode(self.at())
    }
}

impl fmt::Debug for Version<'_> {
    fn fmt(&self, f: &mut fmt::Formatter<'_>) -> fmt::Result {
        f.debug_struct("Version")
            .field("number", &self.number)
            .field("len", &self.len())
            .field("pruned_chunks", &self.pruned_chunks())
            .finish()
    }
}
