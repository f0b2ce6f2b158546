//! Bitmaps with numbered commits, past states of which are read in place.
//!
//! The crate is a safe interface to the C library `mortarpink`. That library is written in Rattle,
//! and each of its calls is proved to do what its contract says. The crate `mortarpink` of the same
//! repository is another one: ordinary Rust, generated from the proved source, without a C library.
//!
//! # Quick start
//!
//! ```
//! use mortarpink_proved::{Bitmap, Width};
//!
//! let mut bitmap = Bitmap::new(Width::Bytes8)?;
//!
//! // Version 1 has two bits.
//! let mut batch = bitmap.begin();
//! batch.push(true)?;
//! batch.push(false)?;
//! batch.commit(1)?;
//!
//! // Version 2 clears the first one.
//! let mut batch = bitmap.begin();
//! batch.set(0, false)?;
//! batch.commit(2)?;
//!
//! // Version 1 is still there to read.
//! assert_eq!(bitmap.get(0), Ok(false));
//! assert_eq!(bitmap.at(1)?.get(0), Ok(true));
//!
//! // Rewinding makes it current again.
//! bitmap.rewind_to(1)?;
//! assert!(bitmap.ones(..).eq([0]));
//! # Ok::<(), mortarpink_proved::Error>(())
//! ```
//!
//! # Units
//!
//! Positions and lengths are in bits. They are absolute: they count from 0, and pruned bits count.
//! Bits are kept in chunks, whose size is the [`Width`]. Chunks have indices from 0, also absolute.
//!
//! # Costs
//!
//! | Call | Time |
//! |---|---|
//! | [`Batch::push`], [`Batch::push_byte`], [`Batch::push_chunk`], [`Batch::set`], [`Batch::set_chunk`] | amortized constant |
//! | [`Batch::push_bytes`], [`Batch::push_bits`] | linear in the bytes or the bits |
//! | [`Batch::set_many`] | amortized linear in the positions |
//! | [`Batch::set_range`], [`Batch::extend_to`] | linear in the chunks of the range or of the new bits |
//! | [`Batch::truncate`] | linear in the removed chunks that the batch has edited |
//! | [`Batch::pop`], [`Batch::get`], [`Batch::chunk`] | constant |
//! | [`Batch::prune`] | amortized linear in the chunks pruned |
//! | [`Batch::commit`], [`Batch::try_commit`] | amortized linear in the chunks that the batch edited, pruned or removed |
//! | [`Batch::abort`] | linear in the chunks that the batch edited or pruned |
//! | [`Bitmap::get`], [`Bitmap::chunk`], [`Bitmap::len`], [`Bitmap::latest`], [`Bitmap::earliest`] | constant |
//! | [`Bitmap::read_bytes`], [`Bitmap::packed`] | linear in the bytes of the range |
//! | searches and counts of a [`Bitmap`] | linear in the chunks that are read |
//! | [`Bitmap::commit_exists`], [`Bitmap::at`] | logarithmic in the commits |
//! | [`Bitmap::rewind_to`] | amortized linear in the dropped commits and in the entries of their records; logarithmic in the commits |
//! | [`Bitmap::drop_before`], [`Bitmap::clear`] | linear in what is dropped |
//! | [`Bitmap::entries`] | linear in the commits |
//! | [`Bitmap::checkout`] | linear in the current bitmap, plus the later commits and the chunks that they changed |
//! | [`Bitmap::set_indexed`] | amortized linear in the commits and in the entries of their records |
//! | [`Bitmap::save`] | linear in the current bitmap and the history, plus per chunk in the history a read through a [`Version`] |
//! | [`Bitmap::load`] | linear in the history |
//! | [`Bitmap::delta`] | as [`Bitmap::changed_chunks`], plus per chunk in the delta two reads through a [`Version`] |
//! | [`Bitmap::apply_delta`] | linear in the delta, plus the chunks that the commit prunes or removes |
//! | [`Bitmap::begin_log`] | as [`Bitmap::save`] |
//! | an entry that a call appends to the log | linear in its bytes; amortized, since the log grows |
//! | [`Bitmap::log_bytes`], [`Bitmap::take_log`] | linear in the bytes |
//! | [`Bitmap::keeps_log`], [`Bitmap::log_position`], [`Bitmap::log_digest`], [`Bitmap::forget_log`], [`Bitmap::end_log`] | constant |
//! | [`Bitmap::recover`] | linear in the log, plus what [`Bitmap::rewind_to`] takes for each rewind in it |
//! | [`verify_chunk`], [`verify_bit`] | one hash per digest of the proof, of which there are at most 64, and two more |
//! | [`verify_range`] | linear in the bytes of the proof, each of which is hashed at most twice |
//! | a chunk read through a [`Version`] | a search of each later commit, or one search if the bitmap is indexed |
//!
//! # Finding the library
//!
//! The build script links `libmortarpink.a` from the folder in `MORTARPINK_LIB_DIR`. Without that
//! variable, it uses the folder that `pkg-config` reports. If `MORTARPINK_SHARED` is set, it links
//! `libmortarpink.so`.
//!
//! Making a bitmap and checking a proof panic if the library has another version of the C interface than this crate.

#![deny(unsafe_code)]
#![warn(missing_docs)]

mod batch;
mod bitmap;
mod chunk;
mod error;
#[allow(unsafe_code)]
mod ffi;
mod log;
mod packed;
mod pages;
mod proof;
mod range;
mod version;

pub use batch::Batch;
pub use bitmap::Bitmap;
pub use chunk::{Chunk, NoSuchWidthError, Width};
pub use error::{CommitError, Error, PushBytesError, RecoverError, SetManyError};
pub use log::Recovered;
pub use pages::{ChangedChunks, Commits, Ones};
pub use proof::{ShownChunk, ShownRange, verify_bit, verify_chunk, verify_range};
pub use version::Version;

/// Runs the example of the README as a test.
#[cfg(doctest)]
#[doc = include_str!("../README.md")]
struct Readme;

/// Returns the version of the C interface that the library has.
///
/// # Examples
///
/// ```
/// assert_eq!(mortarpink_proved::interface_version(), 2);
/// ```
pub fn interface_version() -> u32 {
    ffi::version()
}
