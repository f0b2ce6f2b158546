use std::fmt;
use std::ops::Deref;

/// The number of bytes per chunk of a bitmap.
///
/// An edit copies the chunk that it edits, and a commit keeps the old bytes of the chunk.
/// Narrow chunks suit edits that are far apart, and wide chunks suit long runs of edits.
#[derive(Clone, Copy, Debug, PartialEq, Eq, Hash)]
pub enum Width {
    /// One byte per chunk: 8 bits.
    Bytes1,
    /// 8 bytes per chunk: 64 bits.
    Bytes8,
    /// 32 bytes per chunk: 256 bits.
    Bytes32,
    /// 64 bytes per chunk: 512 bits.
    Bytes64,
}

impl Width {
    /// Returns the number of bytes per chunk.
    ///
    /// # Examples
    ///
    /// ```
    /// use mortarpink_proved::Width;
    ///
    /// assert_eq!(Width::Bytes32.bytes(), 32);
    /// ```
    pub const fn bytes(self) -> usize {
        match self {
            Width::Bytes1 => 1,
            Width::Bytes8 => 8,
            Width::Bytes32 => 32,
            Width::Bytes64 => 64,
        }
    }

    /// Returns the number of bits per chunk.
    ///
    /// # Examples
    ///
    /// ```
    /// use mortarpink_proved::Width;
    ///
    /// assert_eq!(Width::Bytes32.bits(), 256);
    /// ```
    pub const fn bits(self) -> u64 {
        8 * self.bytes() as u64
    }
}

/// Chunks of this number of bytes are not offered: it is not 1, 8, 32 or 64.
#[derive(Clone, Copy, Debug, PartialEq, Eq, Hash)]
pub struct NoSuchWidthError(pub u32);

impl fmt::Display for NoSuchWidthError {
    fn fmt(&self, f: &mut fmt::Formatter<'_>) -> fmt::Result {
        write!(f, "no chunks of {} bytes: the widths are 1, 8, 32 and 64", self.0)
    }
}

impl std::error::Error for NoSuchWidthError {}

impl TryFrom<u32> for Width {
    type Error = NoSuchWidthError;

    /// Returns the width with this number of bytes per chunk.
    ///
    /// # Examples
    ///
    /// ```
    /// use mortarpink_proved::{NoSuchWidthError, Width};
    ///
    /// assert_eq!(Width::try_from(32), Ok(Width::Bytes32));
    /// assert_eq!(Width::try_from(16), Err(NoSuchWidthError(16)));
    /// ```
    fn try_from(bytes: u32) -> Result<Width, NoSuchWidthError> {
        match bytes {
            1 => Ok(Width::Bytes1),
            8 => Ok(Width::Bytes8),
            32 => Ok(Width::Bytes32),
            64 => Ok(Width::Bytes64),
            _ => Err(NoSuchWidthError(bytes)),
        }
    }
}

/// A copy of the bytes of one chunk. It dereferences to a slice of them.
///
/// Bit `k` of the chunk is bit `k % 8` of byte `k / 8`, the lowest bit first.
/// Bits past the length of the bitmap are 0.
#[derive(Clone, Copy, PartialEq, Eq, Hash)]
pub struct Chunk {
    bytes: [u8; 64],
    width: Width,
}

impl Chunk {
    pub(crate) fn zeroed(width: Width) -> Chunk {
        Chunk { bytes: [0; 64], width }
    }

    pub(crate) fn as_mut_slice(&mut self) -> &mut [u8] {
        &mut self.bytes[..self.width.bytes()]
    }

    /// Returns the number of bytes per chunk.
    pub fn width(&self) -> Width {
        self.width
    }

    /// Returns the bytes.
    pub fn as_slice(&self) -> &[u8] {
        &self.bytes[..self.width.bytes()]
    }
}

impl Deref for Chunk {
    type Target = [u8];

    fn deref(&self) -> &[u8] {
        self.as_slice()
    }
}

impl AsRef<[u8]> for Chunk {
    fn as_ref(&self) -> &[u8] {
        self.as_slice()
    }
}

impl fmt::Debug for Chunk {
    fn fmt(&self, f: &mut fmt::Formatter<'_>) -> fmt::Result {
        f.debug_tuple("Chunk").field(&self.as_slice()).finish()
    }
}
