//! The C interface: its declarations, in [`interface`], and a safe function per call.
//!
//! This module has all unsafe code of the crate.
//!
//! # Safety
//!
//! Each call of the library is sound for the same reasons:
//!
//! - **Declarations.** They are generated from the exports of the library, for one version of the
//!   interface. A handle is made only after the library reported this version.
//! - **Handles.** Only [`Session`] has a handle. The handle starts empty, is written by the library
//!   alone, and is freed once, by `drop`. It is never copied: if a `Session` is moved, its old place
//!   is not used again.
//! - **Edits alone, reads together.** A call that takes a handle as `const` writes neither the handle
//!   nor the bitmap, and any number of threads may make such calls at the same time. The methods
//!   that take `&self` make such calls, so a `Session` is `Sync`. The library calls nothing of this
//!   crate, so a call of one thread ends before its next one starts. The handle is in an
//!   [`UnsafeCell`], and no reference to it exists at any time. Only [`Session::settle`] makes an edit
//!   through `&self`, at a time at which no thread reads.
//! - **Pointers.** Each other pointer comes from a reference or a slice of the caller, so it is not
//!   null and points to memory of its type. A root is an array of 32 bytes. Outputs come from `&mut` references, so they overlap
//!   neither each other nor the handle.
//! - **Bits.** A `bool` has the size and the alignment of a byte, and is the byte 0 or 1. So a slice
//!   of them is read as one of bytes. Nothing is written through that pointer.

// Some statuses are not in use: no call of this crate returns them.
#[allow(dead_code)]
mod interface;

use std::cell::UnsafeCell;
use std::ffi::CStr;
use std::ptr;
use std::sync::atomic::{AtomicBool, Ordering};
use std::sync::{Mutex, PoisonError};

use crate::{Error, RecoverError};
use interface::*;

/// Calls a function of the library. The module says why that is sound.
macro_rules! call {
    ($name:ident($($argument:expr),*)) => {
        // SAFETY: See the module.
        unsafe { $name($($argument),*) }
    };
}

/// Calls the function that reads the current bitmap, or the one that reads the bitmap at a commit.
macro_rules! read {
    ($at:expr, $current:ident | $past:ident, $handle:expr $(, $argument:expr)*) => {
        match $at {
            None => call!($current($handle $(, $argument)*)),
            Some(number) => call!($past($handle, number $(, $argument)*)),
        }
    };
}

/// Defines a method that reads a position. It returns `None` if there is no such position.
macro_rules! search {
    ($name:ident, $current:ident | $past:ident) => {
        pub fn $name(&self, at: Option<u64>, argument: u64) -> Option<u64> {
            self.found(|handle, position| read!(at, $current | $past, handle, argument, position))
        }
    };
}

/// Returns the version of the C interface that the library has.
pub fn version() -> u32 {
    call!(mortarpink_version())
}

/// Panics unless the library has the version of the interface that this module declares.
fn check_version() {
    assert_eq!(version(), VERSION, "the library mortarpink has another version of the interface");
}

/// Panics because of a status that the library never returns for the call.
fn unexpected(status: Status) -> ! {
    // SAFETY: The library returns a constant text that ends with a zero byte, for any status.
    let text = unsafe { CStr::from_ptr(mortarpink_status_text(status)) };
    panic!("the library mortarpink returned status {status}: {}", text.to_string_lossy());
}

/// Checks the status of a call that always succeeds.
fn always(status: Status) {
    if status != DONE {
        unexpected(status);
    }
}

/// Returns the error of a status that has no details.
fn check(status: Status) -> Result<(), Error> {
    Err(match status {
        DONE => return Ok(()),
        OUT_OF_BOUNDS => Error::OutOfBounds,
        PRUNED => Error::Pruned,
        TOO_LONG => Error::TooLong,
        NO_RETAINED_BIT => Error::NoRetainedBit,
        RESERVED_COMMIT_NUMBER => Error::ReservedCommitNumber,
        PRUNED_CHUNKS_OVERFLOW => Error::PrunedChunksOverflow,
        END_OF_BUFFER => Error::EndOfBuffer,
        INVALID => Error::Invalid,
        NO_SUCH_COMMIT => Error::NoSuchCommit,
        NO_MEMORY => Error::NoMemory,
        WRONG_SIZE => Error::WrongSize,
        WRONG_HEADER => Error::WrongHeader,
        CUT_OFF => Error::CutOff,
        DAMAGED => Error::Damaged,
        NOT_ACCEPTED => Error::NotAccepted,
        OUT_OF_RANGE => Error::OutOfRange,
        NOT_AT_BASE => Error::NotAtBase,
        HAS_LOG => Error::HasLog,
        NO_LOG => Error::NoLog,
        NOT_VERIFIED => Error::NotVerified,
        status => unexpected(status),
    })
}

/// A bitmap with its commits. Reads take `at`: a commit number, or `None` for the current bitmap.
///
/// Outside the methods of a batch, a caller calls [`settle`](Session::settle) before its first read.
pub struct Session {
    handle: UnsafeCell<Handle>,
    /// Whether there is a batch.
    in_batch: AtomicBool,
    /// Held by the thread that ends a leaked batch.
    settling: Mutex<()>,
}

// SAFETY: The memory of a handle comes from `malloc`, and no call keeps anything per thread.
unsafe impl Send for Session {}

// SAFETY: The methods that take `&self` make calls that only read. The header promises that any number
// of threads may make them at the same time while no call edits the bitmap. The edits take `&mut self`,
// so no other call runs beside them. `settle` is the exception, and says why it is sound.
unsafe impl Sync for Session {}

impl Drop for Session {
    fn drop(&mut self) {
        // The handle is empty if it could not be filled. There is nothing to free then.
        call!(mortarpink_free(self.handle.get()));
    }
}

/// Making, and helpers.
impl Session {
    /// Returns a session with an empty handle.
    fn empty() -> Session {
        check_version();
        let session = ptr::null_mut();
        Session {
            handle: UnsafeCell::new(Handle { session }),
            in_batch: AtomicBool::new(false),
            settling: Mutex::new(()),
        }
    }

    pub fn new(width: u32) -> Result<Session, Error> {
        let session = Session::empty();
        check(call!(mortarpink_new(session.handle.get(), width)))?;
        Ok(session)
    }

    pub fn decode(
        width: u32,
        (least, most): (u64, u64),
        bytes: &[u8],
    ) -> Result<(Session, usize), Error> {
        let session = Session::empty();
        let (handle, start, len) = (session.handle.get(), bytes.as_ptr(), bytes.len());
        let (mut used, mut length) = (0, 0);
        match call!(mortarpink_read(handle, width, least, most, start, len, &mut used, &mut length))
        {
            INVALID_LENGTH => Err(Error::InvalidLength { length }),
            status => check(status).map(|()| (session, used)),
        }
    }

    /// Makes a session from a history. Both ranges have the least and the greatest number.
    pub fn load(
        width: u32,
        (least_bits, most_bits): (u64, u64),
        (least_commits, most_commits): (u64, u64),
        bytes: &[u8],
    ) -> Result<(Session, usize), Error> {
        let session = Session::empty();
        let (handle, start, len, mut used) = (session.handle.get(), bytes.as_ptr(), bytes.len(), 0);
        check(call!(mortarpink_load(
            handle,
            width,
            least_bits,
            most_bits,
            least_commits,
            most_commits,
            start,
            len,
            &mut used
        )))?;
        Ok((session, used))
    }

    /// Makes a session from a log, and returns the number of good bytes.
    pub fn recover(width: u32, bytes: &[u8]) -> Result<(Session, usize), RecoverError> {
        let session = Session::empty();
        let (handle, start, len, mut good) = (session.handle.get(), bytes.as_ptr(), bytes.len(), 0);
        let status = call!(mortarpink_recover(handle, width, start, len, &mut good));
        let at = matches!(status, DAMAGED | NOT_ACCEPTED).then_some(good);
        check(status).map_err(|error| RecoverError { at, error })?;
        Ok((session, good))
    }

    pub fn try_clone(&self) -> Result<Session, Error> {
        let copy = Session::empty();
        check(call!(mortarpink_clone(self.handle.get(), copy.handle.get())))?;
        Ok(copy)
    }

    pub fn checkout(&self, number: u64) -> Result<Session, Error> {
        let copy = Session::empty();
        check(call!(mortarpink_checkout(self.handle.get(), number, copy.handle.get())))?;
        Ok(copy)
    }

    pub fn start(&mut self, pruned_chunks: u64) -> Result<(), Error> {
        check(call!(mortarpink_start(self.handle.get(), pruned_chunks)))
    }

    /// Returns the output of a call that can fail.
    fn output<T: Default>(
        &self,
        call: impl FnOnce(*mut Handle, &mut T) -> Status,
    ) -> Result<T, Error> {
        let mut output = T::default();
        check(call(self.handle.get(), &mut output))?;
        Ok(output)
    }

    /// Returns the output of a call that always succeeds.
    fn value<T: Default>(&self, call: impl FnOnce(*mut Handle, &mut T) -> Status) -> T {
        let mut output = T::default();
        always(call(self.handle.get(), &mut output));
        output
    }

    /// Returns the output of a call, or `None` if there is nothing to return.
    fn found(&self, call: impl FnOnce(*mut Handle, &mut u64) -> Status) -> Option<u64> {
        let mut output = 0;
        match call(self.handle.get(), &mut output) {
            NONE => None,
            status => {
                always(status);
                Some(output)
            }
        }
    }

    /// Returns the status of a call that fills a buffer, and the buffer. The first call has an empty
    /// one, and reports the size.
    fn filled(
        &self,
        call: impl Fn(*mut Handle, *mut u8, usize, &mut usize) -> Status,
    ) -> (Status, Vec<u8>) {
        let (mut bytes, mut size) = (Vec::new(), 0);
        loop {
            match call(self.handle.get(), bytes.as_mut_ptr(), bytes.len(), &mut size) {
                WRONG_SIZE if bytes.try_reserve_exact(size).is_err() => return (NO_MEMORY, bytes),
                WRONG_SIZE => bytes.resize(size, 0),
                status => return (status, bytes),
            }
        }
    }
}

/// A batch.
impl Session {
    pub fn begin(&mut self) {
        always(call!(mortarpink_begin(self.handle.get())));
        *self.in_batch.get_mut() = true;
    }

    pub fn push(&mut self, bit: bool) -> Result<(), Error> {
        check(call!(mortarpink_push(self.handle.get(), bit.into())))
    }

    pub fn push_byte(&mut self, byte: u8) -> Result<(), Error> {
        check(call!(mortarpink_push_byte(self.handle.get(), byte)))
    }

    /// Returns the number of bytes appended, and the error of the next byte.
    pub fn push_bytes(&mut self, bytes: &[u8]) -> (usize, Result<(), Error>) {
        let (start, len, mut count) = (bytes.as_ptr(), bytes.len(), 0);
        let status = call!(mortarpink_push_bytes(self.handle.get(), start, len, &mut count));
        (count, check(status))
    }

    pub fn push_chunk(&mut self, bytes: &[u8]) -> Result<(), Error> {
        check(call!(mortarpink_push_chunk(self.handle.get(), bytes.as_ptr(), bytes.len())))
    }

    pub fn push_bits(&mut self, bits: &[bool]) -> Result<(), Error> {
        let (start, len) = (bits.as_ptr().cast::<u8>(), bits.len());
        check(call!(mortarpink_push_bits(self.handle.get(), start, len)))
    }

    pub fn pop(&mut self) -> Result<bool, Error> {
        let bit: u8 = self.output(|handle, bit| call!(mortarpink_pop(handle, bit)))?;
        Ok(bit != 0)
    }

    pub fn set(&mut self, position: u64, bit: bool) -> Result<(), Error> {
        check(call!(mortarpink_set(self.handle.get(), position, bit.into())))
    }

    /// Returns the number of positions whose bits were replaced, and the error of the next position.
    pub fn set_many(&mut self, positions: &[u64], bit: bool) -> (usize, Result<(), Error>) {
        let (handle, start, len) = (self.handle.get(), positions.as_ptr(), positions.len());
        let mut count = 0;
        let status = call!(mortarpink_set_many(handle, start, len, bit.into(), &mut count));
        (count, check(status))
    }

    pub fn set_chunk(&mut self, index: u64, bytes: &[u8]) -> Result<(), Error> {
        let index = usize::try_from(index).map_err(|_| Error::OutOfBounds)?;
        let (handle, start, len) = (self.handle.get(), bytes.as_ptr(), bytes.len());
        check(call!(mortarpink_set_chunk(handle, index, start, len)))
    }

    pub fn set_range(&mut self, (from, to): (u64, u64), bit: bool) -> Result<(), Error> {
        check(call!(mortarpink_set_range(self.handle.get(), from, to, bit.into())))
    }

    pub fn truncate(&mut self, len: u64) -> Result<(), Error> {
        check(call!(mortarpink_truncate(self.handle.get(), len)))
    }

    pub fn extend_to(&mut self, len: u64) -> Result<(), Error> {
        check(call!(mortarpink_extend_to(self.handle.get(), len)))
    }

    pub fn prune(&mut self, position: u64) -> Result<(), Error> {
        check(call!(mortarpink_prune(self.handle.get(), position)))
    }

    pub fn commit(&mut self, number: u64) -> Result<(), Error> {
        let mut previous = 0;
        match call!(mortarpink_commit(self.handle.get(), number, &mut previous)) {
            NON_MONOTONIC_COMMIT => Err(Error::NonMonotonicCommit { previous, attempted: number }),
            status => {
                check(status)?;
                *self.in_batch.get_mut() = false;
                Ok(())
            }
        }
    }

    /// Aborts the batch, if there is one.
    ///
    /// There is one if a batch ends, which borrows the session mutably, or if it was leaked. Then this
    /// is the first call of each thread that has the session: it waits here until the batch is aborted.
    /// So no thread reads while one of them aborts it.
    pub fn settle(&self) {
        if self.in_batch.load(Ordering::Acquire) {
            let _alone = self.settling.lock().unwrap_or_else(PoisonError::into_inner);
            if self.in_batch.load(Ordering::Acquire) {
                always(call!(mortarpink_abort(self.handle.get())));
                self.in_batch.store(false, Ordering::Release);
            }
        }
    }
}

/// Reads.
impl Session {
    pub fn len(&self, at: Option<u64>) -> u64 {
        self.value(|handle, len| read!(at, mortarpink_len | mortarpink_len_at, handle, len))
    }

    pub fn pruned_chunks(&self, at: Option<u64>) -> u64 {
        self.value(|handle, chunks| {
            read!(at, mortarpink_pruned_chunks | mortarpink_pruned_chunks_at, handle, chunks)
        })
    }

    pub fn get(&self, at: Option<u64>, position: u64) -> Result<bool, Error> {
        let bit: u8 = self.output(|handle, bit| {
            read!(at, mortarpink_get | mortarpink_get_at, handle, position, bit)
        })?;
        Ok(bit != 0)
    }

    pub fn chunk(&self, at: Option<u64>, position: u64, out: &mut [u8]) -> Result<(), Error> {
        let (handle, start, len) = (self.handle.get(), out.as_mut_ptr(), out.len());
        check(read!(at, mortarpink_chunk | mortarpink_chunk_at, handle, position, start, len))
    }

    /// Fills a buffer with the bits of a range, eight in a byte.
    pub fn read_bytes(
        &self,
        at: Option<u64>,
        (from, to): (u64, u64),
        out: &mut [u8],
    ) -> Result<(), Error> {
        let (handle, start, len) = (self.handle.get(), out.as_mut_ptr(), out.len());
        check(read!(
            at,
            mortarpink_read_bytes | mortarpink_read_bytes_at,
            handle,
            from,
            to,
            start,
            len
        ))
    }

    /// Fills a page with set positions, and returns how many there are.
    pub fn ones(&self, at: Option<u64>, (from, to): (u64, u64), page: &mut [u64]) -> usize {
        let (start, len) = (page.as_mut_ptr(), page.len());
        self.value(|handle, count| {
            read!(at, mortarpink_ones | mortarpink_ones_at, handle, from, to, start, len, count)
        })
    }

    search!(next_one, mortarpink_next_one | mortarpink_next_one_at);
    search!(next_zero, mortarpink_next_zero | mortarpink_next_zero_at);
    search!(prev_one, mortarpink_prev_one | mortarpink_prev_one_at);
    search!(prev_zero, mortarpink_prev_zero | mortarpink_prev_zero_at);
    search!(select_one, mortarpink_select_one | mortarpink_select_one_at);

    pub fn count_ones(&self, at: Option<u64>, (from, to): (u64, u64)) -> u64 {
        self.value(|handle, count| {
            read!(at, mortarpink_count_ones | mortarpink_count_ones_at, handle, from, to, count)
        })
    }

    pub fn encode(&self, at: Option<u64>) -> Result<Vec<u8>, Error> {
        let (status, bytes) = self.filled(|handle, start, len, size| {
            read!(at, mortarpink_encode | mortarpink_encode_at, handle, start, len, size)
        });
        check(status).map(|()| bytes)
    }
}

/// Commits.
impl Session {
    pub fn rewind(&mut self, number: u64) -> Result<(), Error> {
        check(call!(mortarpink_rewind(self.handle.get(), number)))
    }

    /// Fills a page with commit numbers, and returns how many there are.
    pub fn commits(&self, from: u64, page: &mut [u64]) -> usize {
        let (start, len) = (page.as_mut_ptr(), page.len());
        self.value(|handle, count| call!(mortarpink_commits(handle, from, start, len, count)))
    }

    pub fn exists(&self, number: u64) -> bool {
        let exists: u8 =
            self.value(|handle, exists| call!(mortarpink_exists(handle, number, exists)));
        exists != 0
    }

    pub fn latest(&self) -> Option<u64> {
        self.found(|handle, number| call!(mortarpink_latest(handle, number)))
    }

    pub fn earliest(&self) -> Option<u64> {
        self.found(|handle, number| call!(mortarpink_earliest(handle, number)))
    }

    /// Fills a page with indices of chunks, and returns how many there are.
    pub fn changed_chunks(
        &self,
        (from, to): (u64, u64),
        first: u64,
        page: &mut [u64],
    ) -> Result<usize, Error> {
        let (start, len) = (page.as_mut_ptr(), page.len());
        self.output(|handle, count| {
            call!(mortarpink_changed_chunks(handle, from, to, first, start, len, count))
        })
    }

    pub fn drop_before(&mut self, number: u64) -> Result<u64, Error> {
        self.output(|handle, dropped| call!(mortarpink_drop_before(handle, number, dropped)))
    }

    pub fn clear(&mut self) -> Result<(), Error> {
        check(call!(mortarpink_clear(self.handle.get())))
    }

    pub fn set_indexed(&mut self, on: bool) -> Result<(), Error> {
        check(call!(mortarpink_index(self.handle.get(), on.into())))
    }

    pub fn entries(&self) -> u64 {
        self.value(|handle, entries| call!(mortarpink_entries(handle, entries)))
    }
}

/// Histories and deltas.
impl Session {
    pub fn save(&self) -> Result<Vec<u8>, Error> {
        let (status, bytes) = self
            .filled(|handle, start, len, size| call!(mortarpink_save(handle, start, len, size)));
        check(status).map(|()| bytes)
    }

    /// Returns the delta, or `None` unless both commits are kept and `from` is below `to`.
    pub fn delta(&self, from: u64, to: u64) -> Result<Option<Vec<u8>>, Error> {
        let (status, bytes) = self.filled(|handle, start, len, size| {
            call!(mortarpink_delta(handle, from, to, start, len, size))
        });
        match status {
            NO_SUCH_COMMIT => Ok(None),
            status => check(status).map(|()| Some(bytes)),
        }
    }

    pub fn apply_delta(&mut self, bytes: &[u8]) -> Result<(), Error> {
        check(call!(mortarpink_apply_delta(self.handle.get(), bytes.as_ptr(), bytes.len())))
    }
}

/// The log.
impl Session {
    pub fn begin_log(&mut self) -> Result<(), Error> {
        check(call!(mortarpink_log_begin(self.handle.get())))
    }

    pub fn end_log(&mut self) -> Result<(), Error> {
        check(call!(mortarpink_log_end(self.handle.get())))
    }

    pub fn log_bytes(&self) -> Result<Vec<u8>, Error> {
        let (status, bytes) = self.filled(|handle, start, len, size| {
            call!(mortarpink_log_bytes(handle, start, len, size))
        });
        check(status).map(|()| bytes)
    }

    pub fn forget_log(&mut self) -> Result<(), Error> {
        check(call!(mortarpink_log_forget(self.handle.get())))
    }

    pub fn log_position(&self) -> Result<u64, Error> {
        self.output(|handle, position| call!(mortarpink_log_position(handle, position)))
    }

    pub fn log_digest(&self) -> Result<u64, Error> {
        self.output(|handle, digest| call!(mortarpink_log_digest(handle, digest)))
    }
}

/// What a proof shows besides bytes.
#[derive(Default)]
pub struct Shown {
    /// The length of the bitmap in bits.
    pub len: u64,
    /// The number of pruned chunks.
    pub pruned_chunks: u64,
    /// The index of the chunk, or of the first one of a range.
    pub first: u64,
}

/// Checks the bytes of a proof of a chunk, and fills a buffer of the size of a chunk with it.
pub fn verify_chunk(root: &[u8; 32], proof: &[u8], chunk: &mut [u8]) -> Result<Shown, Error> {
    check_version();
    let mut shown = Shown::default();
    let Shown { len, pruned_chunks, first } = &mut shown;
    check(call!(mortarpink_verify_chunk(
        chunk.len() as u32,
        root,
        proof.as_ptr(),
        proof.len(),
        chunk.as_mut_ptr(),
        chunk.len(),
        len,
        pruned_chunks,
        first
    )))?;
    Ok(shown)
}

/// Checks the bytes of a proof of a chunk, and returns the bit at a position.
pub fn verify_bit(width: u32, root: &[u8; 32], proof: &[u8], position: u64) -> Result<bool, Error> {
    check_version();
    let (start, len, mut bit) = (proof.as_ptr(), proof.len(), 0);
    check(call!(mortarpink_verify_bit(width, root, start, len, position, &mut bit)))?;
    Ok(bit != 0)
}

/// Checks the bytes of a proof of a range, and fills a buffer with the chunks. With
/// [`Error::WrongSize`], `size` becomes the size that the buffer has to have.
pub fn verify_range(
    width: u32,
    root: &[u8; 32],
    proof: &[u8],
    chunks: &mut [u8],
    size: &mut usize,
) -> Result<Shown, Error> {
    check_version();
    let mut shown = Shown::default();
    let Shown { len, pruned_chunks, first } = &mut shown;
    check(call!(mortarpink_verify_range(
        width,
        root,
        proof.as_ptr(),
        proof.len(),
        chunks.as_mut_ptr(),
        chunks.len(),
        size,
        len,
        pruned_chunks,
        first
    )))?;
    Ok(shown)
}

#[cfg(test)]
mod tests {
    use super::*;

    #[test]
    #[should_panic(expected = "the library mortarpink returned status 17")]
    fn an_unexpected_status_panics() {
        let _ = Session::new(3);
    }

    #[test]
    #[should_panic(expected = "the library mortarpink returned status 1:")]
    fn a_call_in_the_wrong_mode_panics() {
        let mut session = Session::new(8).unwrap();
        session.begin();
        session.begin();
    }
}
