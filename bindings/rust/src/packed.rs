//! The bits of a range, eight in a byte.

use std::ops::RangeBounds;

use crate::ffi::Session;
use crate::{Error, Width, range};

/// Where bits are read: the bitmap at a commit, or the current or pending one.
pub struct Bits<'a> {
    pub session: &'a Session,
    pub at: Option<u64>,
    pub width: Width,
}

impl Bits<'_> {
    /// Returns the first retained position, and the length.
    fn retained(&self) -> (u64, u64) {
        let pruned_bits = self.session.pruned_chunks(self.at) * self.width.bits();
        (pruned_bits, self.session.len(self.at))
    }

    /// Fills a buffer with the bits of a range.
    pub fn read(&self, range: impl RangeBounds<u64>, out: &mut [u8]) -> Result<(), Error> {
        self.session.read_bytes(self.at, range::read(range, self.retained())?, out)
    }

    /// Returns the bits of a range.
    ///
    /// The range is compared with the retained positions first, so that nothing is allocated for bits
    /// that there are not.
    pub fn packed(&self, range: impl RangeBounds<u64>) -> Result<Vec<u8>, Error> {
        let (first_retained, len) = self.retained();
        let (from, to) = range::read(range, (first_retained, len))?;
        if from > to || to > len {
            return Err(Error::OutOfBounds);
        }
        if from < first_retained {
            return Err(Error::Pruned);
        }
        let size = usize::try_from((to - from).div_ceil(8)).map_err(|_| Error::NoMemory)?;
        let mut bytes = Vec::new();
        bytes.try_reserve_exact(size).map_err(|_| Error::NoMemory)?;
        bytes.resize(size, 0);
        self.session.read_bytes(self.at, (from, to), &mut bytes)?;
        Ok(bytes)
    }
}
