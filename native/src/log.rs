//! The log of a historical bitmap: its commits, rewinds and drops as bytes, from which its state is made again after a restart.
//!
//! A log is bytes that only grow. A program changes the bitmap by calls that also append the change to a [`Log`], and writes the bytes of the `Log`
//! to a file when it wants to. After a crash, any prefix of the file reads as the state after the last change that is whole in it. Only a prefix that
//! has not the whole [base](#parts-of-a-log), the first part of a log, is an error.
//!
//! | Calls | What they do |
//! |---|---|
//! | [`Log::begin`] | begins a log with a bitmap and its kept commits |
//! | [`commit_logged`], [`rewind_logged`], [`drop_before_logged`], [`clear_logged`] | change the bitmap and append the change, or do neither |
//! | [`recover`] | reads a log back, whole or cut off by a crash |
//! | [`write_history`], [`history_size`], [`read_history`] | write and read a bitmap with its kept commits as one value |
//! | [`delta`], [`apply_delta`] | bring a replica from one kept commit to a later one |
//! | [`apply_delta_logged`] | does the same for a replica that has a log of its own |
//!
//! All of these calls return an error if memory runs out, and leave the bitmap and the log unchanged then.
//!
//! ```
//! use mortarpink::bitmap::Readable;
//! use mortarpink::bitmap::historical::CleanBitMap;
//! use mortarpink::log::{Log, commit_logged, recover};
//!
//! let bitmap = CleanBitMap::<4>::new();
//! let mut log = Log::begin(&bitmap)?;
//! let mut batch = bitmap.into_dirty();
//! batch.push(true).push(false).push(true);
//! let bitmap = commit_logged(batch, 7, &mut log).map_err(|(_, error)| error)?;
//!
//! // The program appends the bytes to its file, and then removes them.
//! let mut file = log.bytes().to_vec();
//! log.forget();
//!
//! // The next commit is cut off by a crash, so the file has the state before it.
//! let mut batch = bitmap.into_dirty();
//! batch.set_bit(1, true);
//! commit_logged(batch, 8, &mut log).map_err(|(_, error)| error)?;
//! file.extend_from_slice(&log.bytes()[..30]);
//! let recovered = recover::<4>(&file).unwrap();
//! assert!(recovered.bitmap.current().ones_iter_from(0).eq([0, 2]));
//! assert!(recovered.bitmap.latest_commit() == Some(7) && recovered.torn);
//! # Ok::<(), mortarpink::bitmap::historical::Error>(())
//! ```
//!
//! # Parts of a log
//!
//! A log is a header and a list of [`frames`], each of which has a length, a body and a digest. The body of the first frame is a *base*: the bitmap
//! that the log begins with, at its oldest kept commit. The body of each later one is an [`Entry`]: a commit as the chunks that it changed, a
//! rewind, or commits that were dropped.
//! [`base_bytes`], [`read_base`] and [`from_base`] are for bases, and [`read_entry`], [`push_chunk`], [`check_change`] and [`apply_change`] for entries.
//! `docs/FORMATS.md` of the repository describes the bytes.

pub use crate::generated::commit_log::*;

pub mod frames {
    //! Frames: a log of byte strings in which a write that was cut off, and bytes that were damaged, are found.
    //!
    //! A log is a header and frames. Each frame has a body of one byte or more, and a digest that depends on all frames before it.
    //! A write that was cut off reads as [`Stop::Torn`], and damaged bytes as [`Stop::BadHead`] or [`Stop::BadDigest`].
    //!
    //! ```
    //! use mortarpink::log::frames::{Stop, next_frame, push_frame, push_header, read_header};
    //!
    //! let mut log = Vec::new();
    //! let place = push_header(&mut log, 32)?;
    //! let place = push_frame(&mut log, place, b"one")?;
    //! push_frame(&mut log, place, b"two")?;
    //!
    //! // The last write is cut off by three bytes.
    //! log.truncate(log.len() - 3);
    //! let (place, rest) = read_header(&log, 32).unwrap();
    //! let first = next_frame(place, rest).unwrap();
    //! assert_eq!(first.body, b"one");
    //! assert!(matches!(next_frame(first.next, first.rest), Err(Stop::Torn)));
    //! # Ok::<(), mortarpink::AllocError>(())
    //! ```

    use core::{error, fmt};

    pub use crate::generated::log_frames::*;

    impl fmt::Display for HeaderError {
        fn fmt(&self, f: &mut fmt::Formatter<'_>) -> fmt::Result {
            match self {
                HeaderError::Short => write!(f, "the bytes end within the header"),
                HeaderError::NotALog => write!(f, "the bytes are not a log"),
                HeaderError::Version(version) => write!(f, "the log has version {version} of the format, and not 1"),
                HeaderError::BadCheck => write!(f, "the header is damaged"),
                HeaderError::Width(width) => write!(f, "the log has chunks of {width} bytes, which is not the width of the reader"),
            }
        }
    }

    impl error::Error for HeaderError {}

    impl fmt::Display for Stop {
        fn fmt(&self, f: &mut fmt::Formatter<'_>) -> fmt::Result {
            match self {
                Stop::Torn => write!(f, "the bytes end within a frame"),
                Stop::BadHead => write!(f, "the head of the frame is damaged"),
                Stop::BadDigest => write!(f, "the digest of the frame is not that of its body"),
            }
        }
    }

    impl error::Error for Stop {}
}
