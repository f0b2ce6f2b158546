use std::fmt;

use crate::Batch;

/// The reason why a call failed.
///
/// A call that fails leaves the bitmap, its log and its batch as they were, with three exceptions.
/// [`Batch::push_bytes`] appends the bytes before the one that fails, [`Batch::set_many`] replaces
/// the bits at the positions before the one that fails, and [`Batch::commit`] aborts the batch.
#[derive(Clone, Copy, Debug, PartialEq, Eq, Hash)]
#[non_exhaustive]
pub enum Error {
    /// The position is at or past the length; for a prune, past it.
    OutOfBounds,
    /// The position is pruned.
    Pruned,
    /// The length would pass `u64::MAX`.
    TooLong,
    /// There is no retained bit to pop.
    NoRetainedBit,
    /// The commit number is `u64::MAX`.
    ReservedCommitNumber,
    /// The commit number is not above the last one.
    NonMonotonicCommit {
        /// The last commit number.
        previous: u64,
        /// The number given to the call.
        attempted: u64,
    },
    /// The number of pruned bits would pass `u64::MAX`.
    PrunedChunksOverflow,
    /// The bytes end before the encoding does.
    EndOfBuffer,
    /// The encoded number of retained bits is out of range.
    InvalidLength {
        /// The number of retained bits that the bytes have.
        length: u64,
    },
    /// The bytes are not an encoding.
    Invalid,
    /// No commit is kept under the number.
    NoSuchCommit,
    /// An allocation failed.
    NoMemory,
    /// The chunk or the buffer has the wrong size.
    WrongSize,
    /// The bytes do not begin as a history, a log or a delta of this width does.
    WrongHeader,
    /// The bytes end before the history, the delta or the first bitmap of the log does.
    CutOff,
    /// A digest is not that of the bytes before it: the bytes are damaged.
    Damaged,
    /// A part of the bytes is no bitmap, or no commit or other entry that can follow.
    NotAccepted,
    /// A number of retained bits or of commits is out of range.
    OutOfRange,
    /// The delta does not start at the current bitmap.
    NotAtBase,
    /// The bitmap keeps a log already.
    HasLog,
    /// The bitmap keeps no log.
    NoLog,
    /// The proof does not verify against the root, or it is of another chunk.
    NotVerified,
}

impl fmt::Display for Error {
    fn fmt(&self, f: &mut fmt::Formatter<'_>) -> fmt::Result {
        f.write_str(match self {
            Error::OutOfBounds => "position out of bounds",
            Error::Pruned => "position is pruned",
            Error::TooLong => "length would pass 2^64 - 1",
            Error::NoRetainedBit => "no retained bit to pop",
            Error::ReservedCommitNumber => "commit number 2^64 - 1 is reserved",
            Error::NonMonotonicCommit { previous, attempted } => {
                return write!(
                    f,
                    "commit number {attempted} is not above the last one, {previous}"
                );
            }
            Error::PrunedChunksOverflow => "number of pruned bits would pass 2^64 - 1",
            Error::EndOfBuffer => "bytes end before the encoding does",
            Error::InvalidLength { length } => {
                return write!(f, "encoded number of retained bits, {length}, is out of range");
            }
            Error::Invalid => "bytes are not an encoding",
            Error::NoSuchCommit => "no commit is kept under the number",
            Error::NoMemory => "memory allocation failed",
            Error::WrongSize => "chunk or buffer has the wrong size",
            Error::WrongHeader => {
                "bytes do not begin as a history, a log or a delta of this width does"
            }
            Error::CutOff => {
                "bytes end before the history, the delta or the first bitmap of the log does"
            }
            Error::Damaged => "a digest is not that of the bytes before it",
            Error::NotAccepted => {
                "a part of the bytes is no bitmap, or no commit or other entry that can follow"
            }
            Error::OutOfRange => "a number of retained bits or of commits is out of range",
            Error::NotAtBase => "delta does not start at the current bitmap",
            Error::HasLog => "bitmap keeps a log already",
            Error::NoLog => "bitmap keeps no log",
            Error::NotVerified => {
                "proof does not verify against the root, or it is of another chunk"
            }
        })
    }
}

impl std::error::Error for Error {}

/// The error of [`Batch::try_commit`]: the batch, which may go on, and the reason.
///
/// If it is dropped or converted to an [`Error`], the batch is aborted.
#[derive(Debug)]
pub struct CommitError<'a> {
    pub(crate) batch: Batch<'a>,
    pub(crate) error: Error,
}

impl<'a> CommitError<'a> {
    /// Returns the reason.
    pub fn error(&self) -> Error {
        self.error
    }

    /// Aborts the batch, and returns the reason. It borrows nothing, so it can be a `Box<dyn Error>`.
    ///
    /// # Examples
    ///
    /// ```
    /// use mortarpink_proved::{Bitmap, CommitError, Width};
    ///
    /// fn committed(number: u64) -> Result<Bitmap, Box<dyn std::error::Error>> {
    ///     let mut bitmap = Bitmap::new(Width::Bytes8)?;
    ///     bitmap.begin().try_commit(number).map_err(CommitError::into_error)?;
    ///     Ok(bitmap)
    /// }
    ///
    /// assert!(committed(1).is_ok());
    /// assert!(committed(u64::MAX).is_err());
    /// ```
    pub fn into_error(self) -> Error {
        self.error
    }

    /// Returns the batch.
    pub fn into_batch(self) -> Batch<'a> {
        self.batch
    }
}

impl fmt::Display for CommitError<'_> {
    fn fmt(&self, f: &mut fmt::Formatter<'_>) -> fmt::Result {
        self.error.fmt(f)
    }
}

impl std::error::Error for CommitError<'_> {}

impl From<CommitError<'_>> for Error {
    fn from(commit: CommitError<'_>) -> Error {
        commit.into_error()
    }
}

/// The error of [`Batch::push_bytes`]: how many bytes were appended, and why the next one was not.
#[derive(Clone, Copy, Debug, PartialEq, Eq, Hash)]
pub struct PushBytesError {
    pub(crate) appended: usize,
    pub(crate) error: Error,
}

impl PushBytesError {
    /// Returns the number of bytes that were appended.
    pub fn appended(&self) -> usize {
        self.appended
    }

    /// Returns the reason why the next byte was not appended.
    pub fn error(&self) -> Error {
        self.error
    }
}

impl fmt::Display for PushBytesError {
    fn fmt(&self, f: &mut fmt::Formatter<'_>) -> fmt::Result {
        write!(f, "{} after {} bytes", self.error, self.appended)
    }
}

impl std::error::Error for PushBytesError {}

impl From<PushBytesError> for Error {
    fn from(push: PushBytesError) -> Error {
        push.error
    }
}

/// The error of [`Batch::set_many`]: at how many positions the bit was replaced, and why it was not
/// at the next one.
#[derive(Clone, Copy, Debug, PartialEq, Eq, Hash)]
pub struct SetManyError {
    pub(crate) replaced: usize,
    pub(crate) error: Error,
}

impl SetManyError {
    /// Returns the number of positions at which the bit was replaced.
    pub fn replaced(&self) -> usize {
        self.replaced
    }

    /// Returns the reason why the bit at the next position was not replaced.
    pub fn error(&self) -> Error {
        self.error
    }
}

impl fmt::Display for SetManyError {
    fn fmt(&self, f: &mut fmt::Formatter<'_>) -> fmt::Result {
        write!(f, "{} after {} positions", self.error, self.replaced)
    }
}

impl std::error::Error for SetManyError {}

impl From<SetManyError> for Error {
    fn from(set: SetManyError) -> Error {
        set.error
    }
}

/// The error of [`Bitmap::recover`](crate::Bitmap::recover): why the bytes are not read, and where the
/// frame begins that is not right.
///
/// # Examples
///
/// ```
/// use mortarpink_proved::{Bitmap, Error, Width};
///
/// let mut bitmap = Bitmap::new(Width::Bytes8)?;
/// bitmap.begin_log()?;
/// bitmap.begin().commit(1)?;
/// bitmap.begin().commit(2)?;
/// let mut bytes = bitmap.take_log()?;
/// // The header and the base have 90 bytes, and each entry has 49. This byte is in the second entry.
/// bytes[170] ^= 1;
///
/// let failed = Bitmap::recover(Width::Bytes8, &bytes).unwrap_err();
/// assert_eq!((failed.error(), failed.at()), (Error::Damaged, Some(139)));
/// // The bytes before the damage are a log of the versions before it.
/// let before = Bitmap::recover(Width::Bytes8, &bytes[..139])?;
/// assert!(before.bitmap.commits().eq([1]));
/// # Ok::<(), Error>(())
/// ```
#[derive(Clone, Copy, Debug, PartialEq, Eq, Hash)]
pub struct RecoverError {
    pub(crate) at: Option<usize>,
    pub(crate) error: Error,
}

impl RecoverError {
    /// Returns the position of the first frame that is not right, in bytes from the start of the log.
    ///
    /// The frames before it are whole, and their entries were accepted. Returns `None` unless the
    /// reason is [`Error::Damaged`] or [`Error::NotAccepted`].
    pub fn at(&self) -> Option<usize> {
        self.at
    }

    /// Returns the reason.
    pub fn error(&self) -> Error {
        self.error
    }
}

impl fmt::Display for RecoverError {
    fn fmt(&self, f: &mut fmt::Formatter<'_>) -> fmt::Result {
        match self.at {
            Some(at) => write!(f, "{}, in the frame at byte {at}", self.error),
            None => self.error.fmt(f),
        }
    }
}

impl std::error::Error for RecoverError {}

impl From<RecoverError> for Error {
    fn from(recover: RecoverError) -> Error {
        recover.error
    }
}
