//! Bitmaps that remember earlier versions of themselves: a program saves a list of bits under a number, goes on editing it, and can later
//! read the list as it was under that number, or go back to it.
//!
//! The module [`bitmap`] has the types of `commonware_utils::bitmap`, under the same names. The module [`log`] has the bytes from which such a
//! bitmap is made again after a restart, and the module `store` keeps them in a file. The module [`roots`] has roots of versions and proofs of single
//! bits. The module [`prelude`] has what most programs import. The crate has no dependency and no `unsafe`.
//!
//! ```
//! use mortarpink::bitmap::Readable;
//! use mortarpink::bitmap::historical::CleanBitMap;
//!
//! let orders = CleanBitMap::<8>::new();
//! let orders = orders.apply_batch(1, |day| {
//!     day.push(true).push(true);
//! })?;
//! let orders = orders.apply_batch(2, |day| {
//!     day.set_bit(0, false).push(true);
//! })?;
//!
//! // The orders that were open at the end of day 1, and those that are open now.
//! assert_eq!(orders.at(1).unwrap().ones_iter_from(0).collect::<Vec<_>>(), [0, 1]);
//! assert_eq!(orders.current().ones_iter_from(0).collect::<Vec<_>>(), [1, 2]);
//! # Ok::<(), mortarpink::bitmap::historical::Error>(())
//! ```
//!
//! # Trust
//!
//! The modules that do the work are generated from source that a theorem prover has checked, and tested against the program that it has
//! proved. They are not themselves proved. The module `store` is written by hand, and tested. `docs/NATIVE.md` of the repository says what is
//! trusted in addition.
//!
//! # Memory
//!
//! A call that may allocate panics if memory runs out. (Rust's own collections abort the program then.) Its form `try_..` returns an
//! [`AllocError`] instead, and leaves the value unchanged, unless its documentation says otherwise, as those of [`roots`] that edit a batch do.
//! [`TryClone`] has the copies that return an error. The calls of [`log`] and of `store` have one form, which returns its errors.
//!
//! # Features
//!
//! The crate is `no_std`, with `alloc`. The feature `std`, which is on by default, adds the module `store`, and the conversion of
//! [`AllocError`] to `std::io::Error`.
#![no_std]
#![forbid(unsafe_code)]

extern crate alloc;
#[cfg(feature = "std")]
extern crate std;

// The proofs hold if `usize` has 64 bits.
#[cfg(not(target_pointer_width = "64"))]
compile_error!("mortarpink needs a target whose usize has 64 bits");

pub mod bitmap;
#[doc(hidden)]
pub mod generated;
pub mod log;
pub mod roots;
#[cfg(feature = "std")]
pub mod store;
#[doc(hidden)]
pub mod support;

pub mod prelude {
    //! What most programs import: the bitmaps, the traits whose functions are called on them, and the error of allocations.
    //!
    //! It has no name of Rust's own prelude. `use mortarpink::bitmap::*` would hide the trait `Iterator` by the struct
    //! [`bitmap::Iterator`](crate::bitmap::Iterator), which has its name from the original crate.
    //!
    //! ```
    //! use mortarpink::prelude::*;
    //!
    //! /// Returns the positions of the first three set bits of any bitmap.
    //! fn first_three(bitmap: &impl Readable<8>) -> impl Iterator<Item = u64> {
    //!     bitmap.ones_iter_from(0).take(3)
    //! }
    //!
    //! assert!(first_three(&BitMap::ones(9)).eq([0, 1, 2]));
    //! ```
    pub use crate::bitmap::historical::{CleanBitMap, DirtyBitMap};
    pub use crate::bitmap::{BitMap, Prunable, Readable};
    pub use crate::{AllocError, TryClone};
}

#[cfg(doctest)]
#[doc = include_str!("../README.md")]
struct Readme;

pub use support::alloc::AllocError;
pub use support::clone::TryClone;
