//! What the generated modules use of Rattle's standard library, over Rust's `core` and `alloc`. Written by hand, and trusted.
//!
//! Rattle's collections are passed the allocator, and their calls return an error if it fails. Here the allocator is Rust's global one,
//! which the empty value `Global` stands for, and the traits of this module add the calls that return an error to Rust's own collections.
//! The eraser gives these calls names that Rust's collections do not have. Other calls of the sources mean the same in Rust.

pub mod alloc;
pub mod clone;
pub mod collections;
pub mod hash;
pub mod iter;
pub mod ops;
pub mod vec;

pub(crate) use clone::clones_by_copy;

pub mod fmt {
    //! Formatting, which is Rust's own.
    pub use core::fmt::{Debug, Display, Error, Formatter, Result, Write};
}

pub mod mem {
    //! Moving values, as Rust does.
    pub use core::mem::{replace, swap, take};
}

pub mod prelude {
    //! What each generated module imports.
    pub use super::clone::TryClone;
    pub use super::collections::DequeWithin;
    pub use super::iter::CollectWithin;
    pub use super::vec::VecWithin;
    pub use ::alloc::vec::Vec;
}
