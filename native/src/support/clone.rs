//! Copies that may fail.

use super::alloc::AllocError;
use alloc::collections::VecDeque;
use alloc::vec::Vec;

/// A value that can be copied, if there is memory for the copy.
///
/// # Examples
///
/// ```
/// use mortarpink::bitmap::BitMap;
/// use mortarpink::{AllocError, TryClone};
///
/// /// Returns the bits that are set in both bitmaps, or an error if memory runs out.
/// fn try_and(one: &BitMap, other: &BitMap) -> Result<BitMap, AllocError> {
///     let mut both = one.try_clone()?;
///     both.and(other);
///     Ok(both)
/// }
///
/// assert_eq!(try_and(&BitMap::ones(9), &BitMap::zeroes(9))?, BitMap::zeroes(9));
/// # Ok::<(), AllocError>(())
/// ```
pub trait TryClone: Sized {
    /// Returns an equal value.
    ///
    /// # Errors
    ///
    /// Returns `AllocError` if an allocation fails.
    ///
    /// ```
    /// use mortarpink::TryClone;
    /// use mortarpink::bitmap::BitMap;
    ///
    /// assert_eq!(BitMap::<8>::ones(9).try_clone()?, BitMap::ones(9));
    /// # Ok::<(), mortarpink::AllocError>(())
    /// ```
    fn try_clone(&self) -> Result<Self, AllocError>;

    /// Appends copies of the values to a vector that has capacity for them.
    #[doc(hidden)]
    fn append_clones(from: &[Self], to: &mut Vec<Self>) -> Result<(), AllocError> {
        for value in from {
            to.push(value.try_clone()?);
        }
        Ok(())
    }
}

/// Implements `TryClone` for types that are `Copy`: the parameters of the type in brackets, and the type.
macro_rules! clones_by_copy {
    ($([$($parameters:tt)*] $type:ty),+ $(,)?) => {$(
        impl<$($parameters)*> $crate::support::clone::TryClone for $type {
            #[inline]
            fn try_clone(&self) -> Result<Self, $crate::support::alloc::AllocError> {
                Ok(*self)
            }

            #[inline]
            fn append_clones(from: &[Self], to: &mut ::alloc::vec::Vec<Self>) -> Result<(), $crate::support::alloc::AllocError> {
                to.extend_from_slice(from);
                Ok(())
            }
        }
    )+};
}
pub(crate) use clones_by_copy;

clones_by_copy! { [] u8, [] u64, [] usize, [] bool, [T: Copy, const N: usize] [T; N] }

impl<A: TryClone, B: TryClone> TryClone for (A, B) {
    fn try_clone(&self) -> Result<Self, AllocError> {
        Ok((self.0.try_clone()?, self.1.try_clone()?))
    }
}

impl<T: TryClone> TryClone for Option<T> {
    fn try_clone(&self) -> Result<Self, AllocError> {
        match self {
            Some(value) => Ok(Some(value.try_clone()?)),
            None => Ok(None),
        }
    }
}

impl<T: TryClone> TryClone for Vec<T> {
    fn try_clone(&self) -> Result<Self, AllocError> {
        let mut copy = Vec::new();
        copy.try_reserve_exact(self.len())?;
        T::append_clones(self, &mut copy)?;
        Ok(copy)
    }
}

impl<T: TryClone> TryClone for VecDeque<T> {
    fn try_clone(&self) -> Result<Self, AllocError> {
        let (front, back) = self.as_slices();
        let mut copy = Vec::new();
        copy.try_reserve_exact(self.len())?;
        T::append_clones(front, &mut copy)?;
        T::append_clones(back, &mut copy)?;
        Ok(copy.into())
    }
}
