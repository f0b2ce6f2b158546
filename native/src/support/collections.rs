//! Deques.

use super::alloc::{AllocError, Global};
pub use alloc::collections::{VecDeque, vec_deque};

/// The calls of Rattle's deques that take the allocator, or that return an error if it fails. After an error the deque is unchanged.
pub trait DequeWithin<T>: Sized {
    /// Returns an empty deque. Does not allocate.
    fn new_within(alloc: Global) -> Self;

    /// Returns an empty deque with capacity for `count` values.
    fn with_capacity_within(alloc: Global, count: usize) -> Result<Self, AllocError>;

    /// Returns the allocator.
    fn its_allocator(&self) -> &Global;

    /// Appends a value at the back.
    fn try_push_back(&mut self, value: T) -> Result<(), AllocError>;

    /// Appends a value at the back of a deque that has capacity for it. Does not allocate.
    fn push_back_reserved(&mut self, value: T);

    /// Inserts a value at the front of a deque that has capacity for it. Does not allocate.
    fn push_front_reserved(&mut self, value: T);
}

impl<T> DequeWithin<T> for VecDeque<T> {
    #[inline]
    fn new_within(_alloc: Global) -> Self {
        VecDeque::new()
    }

    #[inline]
    fn with_capacity_within(_alloc: Global, count: usize) -> Result<Self, AllocError> {
        let mut deque = VecDeque::new();
        deque.try_reserve_exact(count)?;
        Ok(deque)
    }

    #[inline]
    fn its_allocator(&self) -> &Global {
        &Global
    }

    #[inline]
    fn try_push_back(&mut self, value: T) -> Result<(), AllocError> {
        if self.len() == self.capacity() {
            self.try_reserve(1)?;
        }
        self.push_back(value);
        Ok(())
    }

    #[inline]
    fn push_back_reserved(&mut self, value: T) {
        debug_assert!(self.len() < self.capacity(), "no capacity");
        self.push_back(value);
    }

    #[inline]
    fn push_front_reserved(&mut self, value: T) {
        debug_assert!(self.len() < self.capacity(), "no capacity");
        self.push_front(value);
    }
}
