//! Iterators, which are Rust's own, and collecting with an allocator.

use super::alloc::{AllocError, Global};
use alloc::vec::Vec;
pub use core::iter::Iterator;

/// Collecting the items of an iterator, which may fail.
pub trait CollectWithin: Iterator + Sized {
    /// Collects all items.
    fn collect_within<C: FromItemsWithin<Self::Item>>(self, alloc: Global) -> Result<C, AllocError> {
        C::from_items_within(self, alloc)
    }
}

impl<I: Iterator> CollectWithin for I {}

/// A collection that can be made of items, if there is memory for them.
pub trait FromItemsWithin<T>: Sized {
    /// Returns the collection of the items.
    fn from_items_within<I: Iterator<Item = T>>(items: I, alloc: Global) -> Result<Self, AllocError>;
}

impl<T> FromItemsWithin<T> for Vec<T> {
    fn from_items_within<I: Iterator<Item = T>>(items: I, alloc: Global) -> Result<Self, AllocError> {
        use super::vec::VecWithin;

        let mut vec = Vec::with_capacity_within(alloc, items.size_hint().0)?;
        for item in items {
            vec.try_push(item)?;
        }
        Ok(vec)
    }
}
