//! Errors of stores.

use crate::bitmap::historical::Error;
use crate::log::RecoverError;
use crate::support::alloc::AllocError;
use std::{error, fmt, io};

/// Why a store was not opened or created. The log is as it was, unless the error is [`Io`](OpenError::Io).
///
/// # Examples
///
/// ```
/// use mortarpink::store::{OpenError, Store};
///
/// let error = Store::<8>::open("no such folder/orders.log").unwrap_err();
/// assert!(matches!(error, OpenError::Io(error) if error.kind() == std::io::ErrorKind::NotFound));
/// ```
#[derive(Debug)]
#[non_exhaustive]
pub enum OpenError {
    /// Another store has the file open, in this process or in another one.
    Locked,

    /// A store was to be created in a file that has bytes.
    NotEmpty,

    /// The file is no log, or it is damaged: [`RecoverError::Damaged`] has the position and what is damaged there. The file was not written to.
    Log(RecoverError),

    /// The end of the log is missing: all bytes that there are belong to a log, but more of them were acknowledged. The file was not written to.
    MissingEnd {
        /// The number of bytes of the log that are good.
        good: u64,

        /// The number of bytes that were acknowledged.
        acknowledged: u64,
    },

    /// The file has another log than the one whose receipts are beside it. The file was not written to.
    OtherLog {
        /// The number of bytes of the log that are good.
        good: u64,
    },

    /// [`open_cut`](super::Store::open_cut) was given a position that is not the end of the base or of an entry. The file was not written to.
    NotAnEnd,

    /// An allocation failed. The file was not written to.
    Memory(AllocError),

    /// A call of the operating system failed. If a store was to be opened, what was acknowledged is in its file, and it can be opened again.
    Io(io::Error),
}

impl fmt::Display for OpenError {
    fn fmt(&self, f: &mut fmt::Formatter<'_>) -> fmt::Result {
        match self {
            OpenError::Locked => write!(f, "another store has the file open"),
            OpenError::NotEmpty => write!(f, "the file has bytes, so no store is created in it"),
            OpenError::Log(error) => write!(f, "{error}"),
            OpenError::MissingEnd { good, acknowledged } => {
                write!(f, "the end of the log is missing: {good} bytes are good, and {acknowledged} were acknowledged")
            }
            OpenError::OtherLog { .. } => write!(f, "the receipts beside the file are those of another log"),
            OpenError::NotAnEnd => write!(f, "no entry ends at the position at which the log is to be cut off"),
            OpenError::Memory(_) => write!(f, "out of memory"),
            OpenError::Io(error) => write!(f, "{error}"),
        }
    }
}

impl error::Error for OpenError {
    fn source(&self) -> Option<&(dyn error::Error + 'static)> {
        match self {
            OpenError::Log(error) => error.source(),
            OpenError::Memory(error) => Some(error),
            OpenError::Io(error) => error.source(),
            _ => None,
        }
    }
}

impl From<io::Error> for OpenError {
    fn from(error: io::Error) -> OpenError {
        OpenError::Io(error)
    }
}

impl From<RecoverError> for OpenError {
    /// Returns `Memory` if an allocation failed, and `Log` otherwise.
    fn from(error: RecoverError) -> OpenError {
        match error {
            RecoverError::Memory(error) => OpenError::Memory(error),
            error => OpenError::Log(error),
        }
    }
}

/// Why a call did not change a store.
///
/// # Examples
///
/// ```
/// use mortarpink::store::{Store, StoreError};
///
/// # let folder = std::env::temp_dir().join(format!("mortarpink-store-error-{}", std::process::id()));
/// # std::fs::create_dir_all(&folder)?;
/// let mut store = Store::<8>::create(folder.join("orders.log"))?;
/// assert!(matches!(store.rewind_to(3), Err(StoreError::NoSuchCommit)));
/// assert!(!store.is_read_only());
/// # std::fs::remove_dir_all(&folder)?;
/// # Ok::<(), Box<dyn std::error::Error>>(())
/// ```
#[derive(Debug)]
#[non_exhaustive]
pub enum StoreError {
    /// An earlier call failed after it had begun to write. The store is read-only until it is opened again.
    ReadOnly,

    /// The number of a commit is reserved, or it is not above the last number. Nothing was written.
    Number(Error),

    /// No commit is kept under the number of a rewind. Nothing was written.
    NoSuchCommit,

    /// An allocation failed, or the log would have 2^64 bytes or more. Nothing was written.
    Memory(AllocError),

    /// A call of the operating system failed. The change may be kept or not, and [`is_read_only`](super::Store::is_read_only) says whether the
    /// store is read-only from now on.
    Io(io::Error),

    /// The change is kept, and then an allocation failed. The store is read-only from now on, and has the change when it is opened again.
    NotApplied(AllocError),
}

impl fmt::Display for StoreError {
    fn fmt(&self, f: &mut fmt::Formatter<'_>) -> fmt::Result {
        match self {
            StoreError::ReadOnly => write!(f, "the store is read-only until it is opened again"),
            StoreError::Number(error) => write!(f, "{error}"),
            StoreError::NoSuchCommit => write!(f, "no commit is kept under this number"),
            StoreError::Memory(_) => write!(f, "out of memory"),
            StoreError::Io(error) => write!(f, "{error}"),
            StoreError::NotApplied(_) => write!(f, "the change is kept, and was not applied: out of memory"),
        }
    }
}

impl error::Error for StoreError {
    fn source(&self) -> Option<&(dyn error::Error + 'static)> {
        match self {
            StoreError::Number(error) => error.source(),
            StoreError::Memory(error) | StoreError::NotApplied(error) => Some(error),
            StoreError::Io(error) => error.source(),
            StoreError::ReadOnly | StoreError::NoSuchCommit => None,
        }
    }
}

impl From<io::Error> for StoreError {
    fn from(error: io::Error) -> StoreError {
        StoreError::Io(error)
    }
}

impl From<AllocError> for StoreError {
    fn from(error: AllocError) -> StoreError {
        StoreError::Memory(error)
    }
}
