//! The allocator and its error.

use alloc::collections::TryReserveError;
use core::fmt;

/// Rust's global allocator, as a value of no size, which the generated functions pass to each other.
#[derive(Clone, Copy, Debug, Default, PartialEq, Eq)]
pub struct Global;

/// The error of a call that could not allocate.
///
/// The value that the call was to change is as it was before.
///
/// # Examples
///
/// ```
/// use mortarpink::AllocError;
/// use mortarpink::bitmap::BitMap;
///
/// assert_eq!(BitMap::<8>::try_zeroes(u64::MAX), Err(AllocError));
/// ```
#[derive(Clone, Copy, Debug, PartialEq, Eq)]
pub struct AllocError;

impl fmt::Display for AllocError {
    fn fmt(&self, f: &mut fmt::Formatter<'_>) -> fmt::Result {
        f.write_str("memory allocation failed")
    }
}

impl core::error::Error for AllocError {}

impl From<TryReserveError> for AllocError {
    fn from(_: TryReserveError) -> AllocError {
        AllocError
    }
}

#[cfg(feature = "std")]
impl From<AllocError> for std::io::Error {
    fn from(_: AllocError) -> std::io::Error {
        std::io::ErrorKind::OutOfMemory.into()
    }
}

/// Returns the value, or panics if there was no memory for it.
#[inline]
#[track_caller]
pub(crate) fn expect_memory<T>(result: Result<T, AllocError>) -> T {
    match result {
        Ok(value) => value,
        Err(AllocError) => out_of_memory(),
    }
}

/// Panics because an allocation failed.
#[cold]
#[inline(never)]
#[track_caller]
pub(crate) fn out_of_memory() -> ! {
    panic!("out of memory")
}
