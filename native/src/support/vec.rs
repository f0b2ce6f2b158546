//! Vectors.

use super::alloc::{AllocError, Global};
use alloc::vec::Vec;

/// The calls of Rattle's vectors that take the allocator, or that return an error if it fails. After an error the vector is unchanged.
pub trait VecWithin<T>: Sized {
    /// Returns an empty vector. Does not allocate.
    fn new_within(alloc: Global) -> Self;

    /// Returns an empty vector with capacity for `count` values.
    fn with_capacity_within(alloc: Global, count: usize) -> Result<Self, AllocError>;

    /// Returns a vector of the values of a slice.
    fn from_slice_within(alloc: Global, values: &[T]) -> Result<Self, AllocError>
    where
        T: Copy;

    /// Returns the allocator.
    fn its_allocator(&self) -> &Global;

    /// Appends a value.
    fn try_push(&mut self, value: T) -> Result<(), AllocError>;

    /// Appends a value to a vector that has capacity for it. Does not allocate.
    fn push_reserved(&mut self, value: T);

    /// Appends the values of a slice.
    fn try_extend_from_slice(&mut self, values: &[T]) -> Result<(), AllocError>
    where
        T: Copy;

    /// Truncates the vector to `count` values, or appends copies of `value` up to as many.
    fn try_resize(&mut self, count: usize, value: T) -> Result<(), AllocError>
    where
        T: Copy;
}

impl<T> VecWithin<T> for Vec<T> {
    #[inline]
    fn new_within(_alloc: Global) -> Self {
        Vec::new()
    }

    #[inline]
    fn with_capacity_within(_alloc: Global, count: usize) -> Result<Self, AllocError> {
        let mut vec = Vec::new();
        vec.try_reserve_exact(count)?;
        Ok(vec)
    }

    #[inline]
    fn from_slice_within(alloc: Global, values: &[T]) -> Result<Self, AllocError>
    where
        T: Copy,
    {
        let mut vec = Vec::with_capacity_within(alloc, values.len())?;
        vec.extend_from_slice(values);
        Ok(vec)
    }

    #[inline]
    fn its_allocator(&self) -> &Global {
        &Global
    }

    #[inline]
    fn try_push(&mut self, value: T) -> Result<(), AllocError> {
        if self.len() == self.capacity() {
            self.try_reserve(1)?;
        }
        self.push(value);
        Ok(())
    }

    #[inline]
    fn push_reserved(&mut self, value: T) {
        debug_assert!(self.len() < self.capacity(), "no capacity");
        self.push(value);
    }

    #[inline]
    fn try_extend_from_slice(&mut self, values: &[T]) -> Result<(), AllocError>
    where
        T: Copy,
    {
        self.try_reserve(values.len())?;
        self.extend_from_slice(values);
        Ok(())
    }

    #[inline]
    fn try_resize(&mut self, count: usize, value: T) -> Result<(), AllocError>
    where
        T: Copy,
    {
        self.try_reserve(count.saturating_sub(self.len()))?;
        self.resize(count, value);
        Ok(())
    }
}
