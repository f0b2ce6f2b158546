//! What the program uses of `commonware-codec`, over the functions of the Rust crate in `native`.

use commonware_utils::bitmap::codec::{self, CodecError};
use commonware_utils::bitmap::BitMap;
use std::ops::RangeFull;

/// The range of lengths that a read admits.
pub struct RangeCfg(codec::RangeCfg);

impl RangeCfg {
    /// Returns the range of all lengths.
    pub fn new(_all: RangeFull) -> RangeCfg {
        RangeCfg(codec::RangeCfg::any())
    }
}

/// A value that is written as bytes.
pub trait Write {
    /// Appends the bytes of the value.
    fn write(&self, out: &mut Vec<u8>);
}

/// A value that is read from bytes.
pub trait Read: Sized {
    /// Reads a value from the start of the bytes, and advances them.
    fn read_cfg(from: &mut &[u8], range: &RangeCfg) -> Result<Self, CodecError>;
}

impl<const N: usize> Write for BitMap<N> {
    fn write(&self, out: &mut Vec<u8>) {
        self.encode_into(out);
    }
}

impl<const N: usize> Read for BitMap<N> {
    fn read_cfg(from: &mut &[u8], range: &RangeCfg) -> Result<Self, CodecError> {
        BitMap::decode(from, &range.0)
    }
}
