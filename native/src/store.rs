//! A historical bitmap in a file, which outlives its process: each commit, rewind and drop is on the disk when its call returns.
//!
//! [`Store`] has the bitmap and its file. Once a call has returned `Ok`, a crash does not lose its change. If a crash cuts a call off, the store
//! has either the whole change or nothing of it when it is opened again.
//!
//! | Calls | What they do |
//! |---|---|
//! | [`Store::open_or_create`], [`Store::open`], [`Store::create`] | open a file, or begin one, and lock it |
//! | [`Store::batch`], [`Batch::commit`] | begin a batch of edits, and commit it |
//! | [`Store::rewind_to`], [`Store::drop_before`], [`Store::clear`] | rewind to a commit, and drop commits |
//! | [`Store::bitmap`] | returns the bitmap with its kept commits, for all reads |
//! | [`Store::compact`] | removes from the file what is no longer kept |
//! | [`Store::sync`] | makes all changes durable, if the store is buffered |
//! | [`Store::open_cut`] | opens a damaged file without its damaged end |
//! | [`Options`] | how a store is opened: its [`Durability`], automatic compaction, and an index |
//!
//! ```
//! use mortarpink::bitmap::Readable;
//! use mortarpink::store::Store;
//!
//! # let folder = std::env::temp_dir().join(format!("mortarpink-store-{}", std::process::id()));
//! # std::fs::create_dir_all(&folder)?;
//! let path = folder.join("orders.log");
//! let mut store = Store::<8>::open_or_create(&path)?;
//!
//! // Day 1: two orders come in. When `commit` returns, they are on the disk.
//! let mut batch = store.batch();
//! batch.push(true).push(true);
//! batch.commit(1)?;
//! drop(store);
//!
//! // The next start goes on where the last one ended.
//! let mut store = Store::<8>::open_or_create(&path)?;
//! let mut batch = store.batch();
//! batch.set_bit(0, false);
//! batch.commit(2)?;
//! assert!(store.bitmap().at(1).unwrap().get_bit(0));
//! assert!(store.bitmap().current().ones_iter_from(0).eq([1]));
//! # drop(store);
//! # std::fs::remove_dir_all(&folder)?;
//! # Ok::<(), Box<dyn std::error::Error>>(())
//! ```
//!
//! # Files
//!
//! The file `orders.log` is a [log](crate::log), which [`recover`](crate::log::recover) reads. The store also has these files in the same folder:
//!
//! | File | What it is |
//! |---|---|
//! | `orders.log.receipts` | says up to which byte the log is acknowledged. A store that is open has a lock on it |
//! | `orders.log.new` | is there while a log is begun or compacted. If a crash leaves it, it is removed when the store is opened |
//!
//! A change appends its entry to the log, syncs the log, writes a *receipt* of this, and syncs the receipt. Then the call returns: the change is
//! *acknowledged*. So each change takes two syncs. A buffered store takes both in [`Store::sync`], for all changes before it.
//!
//! # After a crash
//!
//! [`Store::open`] reads the log up to its end, or up to an entry that is not whole:
//!
//! | What is found | What `open` does |
//! |---|---|
//! | all entries are whole | It opens the store with all of them. The last one may be one whose call was cut off. |
//! | the bytes end within an entry, or are zero from there on | It cuts them off. |
//! | an entry is not whole, though not cut off, and the receipt says that it was not acknowledged. A crash leaves this if only some blocks of a write have reached the disk. | It cuts off the entry and all bytes after it. |
//! | an entry is damaged that was acknowledged, or of which no receipt is there | It returns `Log(Damaged)` with the position, and writes nothing. |
//! | entries that were acknowledged are missing at the end | It returns `MissingEnd`, and writes nothing. |
//!
//! [`Store::cut_bytes`] returns how many bytes were cut off. Once `open` has returned, a crash loses nothing of what it has found. A log without
//! receipts is opened as well, such as one that was copied alone or made by [`Log::begin`](crate::log::Log::begin). Then nothing says what was
//! acknowledged, so that a missing end is not found, and any damage is an error.
//!
//! # Memory
//!
//! If memory runs out, a call returns `Memory` or `NotApplied`. Only the paths of the files are allocated by `std` when a store is opened or created,
//! and if there is no memory for them the program aborts.
//!
//! # What is assumed
//!
//! What a sync has reported as kept is assumed to stay as it is, also while bytes beside it are written. A file that is renamed is assumed to have
//! its old name or its new one after a crash. Nothing is assumed of bytes that were written and not synced: a crash may leave any of them, or
//! others. No program can test this of a disk. The store is tested with such a disk in memory and by processes that are killed, and it is not
//! proved. Only on systems of the Unix family are the names of files synced too, so elsewhere a crash may lose a store that was just created, or
//! bring back the log before a compaction. Other programs must not write to the files of a store.

mod batch;
mod encoding;
mod error;
#[doc(hidden)]
pub mod files;
mod opening;
mod receipts;
mod stored_log;

pub use batch::Batch;
pub use error::{OpenError, StoreError};
pub use opening::Options;
#[doc(hidden)]
pub use opening::Start;

use crate::bitmap::historical::{CleanBitMap, RewindError};
use crate::log::{Log, history_size};
use crate::support::alloc::AllocError;
use encoding::{CLEARED, DROP_BEFORE, REWIND, encode_number};
use opening::place_after;
use std::path::Path;
use stored_log::StoredLog;

/// When a change of a store is on the disk.
///
/// # Examples
///
/// ```
/// use mortarpink::store::Durability;
///
/// assert_eq!(Durability::default(), Durability::Synced);
/// ```
#[derive(Clone, Copy, Debug, Default, PartialEq, Eq, Hash)]
#[non_exhaustive]
pub enum Durability {
    /// When the call returns that makes the change.
    #[default]
    Synced,

    /// When [`sync`](Store::sync) returns. Until then a crash of the system may lose the last changes, and leaves the state after some first ones
    /// of them. The end of the process loses none.
    Buffered,
}

/// A log that is shorter than this is not compacted automatically.
const LEAST_COMPACTED: u64 = 4096;

/// A historical bitmap in a file.
///
/// The file is locked while the store is open. After a call has failed to write or to sync, the store is read-only: what the disk has is not known
/// then. Its bitmap is as it was before the call, and can be read. To go on, drop the store and [`open`](Store::open) it again. `N` is the number
/// of bytes of a chunk.
///
/// # Examples
///
/// ```
/// use mortarpink::store::{OpenError, Store};
///
/// # let folder = std::env::temp_dir().join(format!("mortarpink-locked-{}", std::process::id()));
/// # std::fs::create_dir_all(&folder)?;
/// let path = folder.join("orders.log");
/// let store = Store::<8>::create(&path)?;
/// // The file is in use until the store is dropped.
/// assert!(matches!(Store::<8>::open(&path), Err(OpenError::Locked)));
/// drop(store);
/// Store::<8>::open(&path)?;
/// # std::fs::remove_dir_all(&folder)?;
/// # Ok::<(), Box<dyn std::error::Error>>(())
/// ```
#[derive(Debug)]
pub struct Store<const N: usize> {
    // `None` while there is a batch.
    bitmap: Option<CleanBitMap<N>>,
    log: StoredLog,
    cut_bytes: u64,
    compacts: bool,
    // The number of bytes of the log from which on it is tested whether to compact it.
    next_test: u64,
}

/// Why the bitmap of a store is gone: `mem::forget` was called on a batch.
const LEAKED: &str = "a batch of the store was neither committed nor dropped";

/// Opening and creating. `N` has to be at least 1, and `8N` has to fit `u64`: otherwise they do not compile.
impl<const N: usize> Store<N> {
    /// Opens a store and locks its file. Bytes at the end that a crash has left of a change are cut off.
    ///
    /// [After a crash](self#after-a-crash) says exactly what is cut off. Damage is reported with its position, and the file is left as it was.
    ///
    /// # Errors
    /// - `Locked` if another store has the file open.
    /// - `Log` if the file is no log of this width, or is damaged.
    /// - `MissingEnd` or `OtherLog` if the log is not the one that was acknowledged.
    /// - `Memory` if an allocation fails.
    /// - `Io` if a call of the operating system fails, with `NotFound` if there is no file.
    ///
    /// # Memory
    /// As [`recover`](crate::log::recover), and temporarily all bytes of the file.
    ///
    /// # Complexity
    /// As [`recover`](crate::log::recover). A write and a sync. If not all bytes were acknowledged, up to two writes and three syncs, and the file is
    /// shortened if bytes are cut off.
    ///
    /// # Examples
    ///
    /// ```
    /// use mortarpink::log::RecoverError;
    /// use mortarpink::store::{OpenError, Store};
    ///
    /// # let folder = std::env::temp_dir().join(format!("mortarpink-open-{}", std::process::id()));
    /// # std::fs::create_dir_all(&folder)?;
    /// let path = folder.join("orders.log");
    /// Store::<8>::create(&path)?.batch().commit(1)?;
    ///
    /// // A byte of commit 1 is damaged.
    /// let mut bytes = std::fs::read(&path)?;
    /// bytes[120] ^= 1;
    /// std::fs::write(&path, &bytes)?;
    /// let error = Store::<8>::open(&path).unwrap_err();
    /// assert!(matches!(error, OpenError::Log(RecoverError::Damaged { at: 90, .. })));
    /// # std::fs::remove_dir_all(&folder)?;
    /// # Ok::<(), Box<dyn std::error::Error>>(())
    /// ```
    pub fn open(path: impl AsRef<Path>) -> Result<Store<N>, OpenError> {
        Options::new().open(path)
    }

    /// Creates a store with an empty bitmap, and returns once its file is on the disk. The file must be missing or empty.
    ///
    /// If a crash cuts the call off, there is no file, or the store of an empty bitmap.
    ///
    /// # Errors
    /// - `Locked` if another store has the file open.
    /// - `NotEmpty` if the file has bytes.
    /// - `Memory` if an allocation fails.
    /// - `Io` if a call of the operating system fails.
    ///
    /// # Memory
    /// Temporarily the bytes of the log.
    ///
    /// # Complexity
    /// Three writes, a rename and four syncs. If there are receipts of a log that is gone, they are removed first, with one more sync.
    ///
    /// # Examples
    ///
    /// ```
    /// use mortarpink::store::{OpenError, Store};
    ///
    /// # let folder = std::env::temp_dir().join(format!("mortarpink-create-{}", std::process::id()));
    /// # std::fs::create_dir_all(&folder)?;
    /// let path = folder.join("orders.log");
    /// assert!(Store::<8>::create(&path)?.bitmap().is_empty());
    /// assert!(matches!(Store::<8>::create(&path), Err(OpenError::NotEmpty)));
    /// # std::fs::remove_dir_all(&folder)?;
    /// # Ok::<(), Box<dyn std::error::Error>>(())
    /// ```
    pub fn create(path: impl AsRef<Path>) -> Result<Store<N>, OpenError> {
        Options::new().create(path)
    }

    /// Opens a store as [`open`](Store::open) does, or creates it as [`create`](Store::create) does if its file is missing or empty.
    ///
    /// # Errors
    /// As [`open`](Store::open). If the file is missing or empty, but receipts say that changes were acknowledged, the error is `MissingEnd`:
    /// [`create`](Store::create) begins a new store then.
    ///
    /// # Memory
    /// As [`open`](Store::open) or [`create`](Store::create).
    ///
    /// # Complexity
    /// As [`open`](Store::open) or [`create`](Store::create).
    ///
    /// # Examples
    ///
    /// ```
    /// use mortarpink::store::Store;
    ///
    /// # let folder = std::env::temp_dir().join(format!("mortarpink-open-or-create-{}", std::process::id()));
    /// # std::fs::create_dir_all(&folder)?;
    /// let path = folder.join("orders.log");
    /// Store::<8>::open_or_create(&path)?.batch().commit(1)?;
    /// let store = Store::<8>::open_or_create(&path)?;
    /// assert!(store.bitmap().commits().eq([1]));
    /// # drop(store);
    /// # std::fs::remove_dir_all(&folder)?;
    /// # Ok::<(), Box<dyn std::error::Error>>(())
    /// ```
    pub fn open_or_create(path: impl AsRef<Path>) -> Result<Store<N>, OpenError> {
        Options::new().open_or_create(path)
    }

    /// Opens a store with the changes before a position of its log, and cuts off what comes after it, damaged or not.
    ///
    /// This **loses changes that were acknowledged**. It is for a file that [`open`](Store::open) reports as damaged, or whose end is missing: the
    /// position is that of the error. Keep a copy of the file before you call it.
    ///
    /// # Errors
    /// - `Locked` if another store has the file open.
    /// - `Log` if the bytes before the position are no log, or are damaged.
    /// - `NotAnEnd` if no entry ends at the position.
    /// - `Memory` if an allocation fails.
    /// - `Io` if a call of the operating system fails, with `NotFound` if there is no file.
    ///
    /// # Memory
    /// As [`open`](Store::open).
    ///
    /// # Complexity
    /// As [`recover`](crate::log::recover). Two writes and five syncs, and the file is shortened.
    ///
    /// # Examples
    ///
    /// ```
    /// use mortarpink::log::RecoverError;
    /// use mortarpink::store::{OpenError, Store};
    ///
    /// # let folder = std::env::temp_dir().join(format!("mortarpink-open-cut-{}", std::process::id()));
    /// # std::fs::create_dir_all(&folder)?;
    /// let path = folder.join("orders.log");
    /// let mut store = Store::<8>::create(&path)?;
    /// store.batch().commit(1)?;
    /// store.batch().commit(2)?;
    /// drop(store);
    /// let mut bytes = std::fs::read(&path)?;
    /// *bytes.last_mut().unwrap() ^= 1;
    /// std::fs::write(&path, &bytes)?;
    ///
    /// // Commit 2 is damaged, and this program decides to go on with commit 1.
    /// let store = match Store::<8>::open(&path) {
    ///     Err(OpenError::Log(RecoverError::Damaged { at, .. })) => Store::<8>::open_cut(&path, at)?,
    ///     opened => opened?,
    /// };
    /// assert!(store.bitmap().commits().eq([1]));
    /// # drop(store);
    /// # std::fs::remove_dir_all(&folder)?;
    /// # Ok::<(), Box<dyn std::error::Error>>(())
    /// ```
    pub fn open_cut(path: impl AsRef<Path>, at: u64) -> Result<Store<N>, OpenError> {
        Options::new().open_cut(path, at)
    }
}

/// Reads.
impl<const N: usize> Store<N> {
    /// Returns the bitmap, with its kept commits.
    ///
    /// Does not allocate; constant time.
    ///
    /// # Panics
    /// Panics if [`mem::forget`](core::mem::forget) was called on a batch of the store.
    ///
    /// # Examples
    ///
    /// ```
    /// use mortarpink::bitmap::Readable;
    /// use mortarpink::store::Store;
    ///
    /// # let folder = std::env::temp_dir().join(format!("mortarpink-bitmap-{}", std::process::id()));
    /// # std::fs::create_dir_all(&folder)?;
    /// let mut store = Store::<8>::create(folder.join("orders.log"))?;
    /// for number in [1, 2] {
    ///     let mut batch = store.batch();
    ///     batch.push(true);
    ///     batch.commit(number)?;
    /// }
    /// assert_eq!(store.bitmap().len(), 2);
    /// assert_eq!(store.bitmap().at(1).map(|past| past.len()), Some(1));
    /// # drop(store);
    /// # std::fs::remove_dir_all(&folder)?;
    /// # Ok::<(), Box<dyn std::error::Error>>(())
    /// ```
    pub fn bitmap(&self) -> &CleanBitMap<N> {
        self.bitmap.as_ref().expect(LEAKED)
    }

    /// Returns the number of bytes of the log up to the last change.
    ///
    /// Does not allocate; constant time.
    ///
    /// # Examples
    ///
    /// ```
    /// use mortarpink::store::Store;
    ///
    /// # let folder = std::env::temp_dir().join(format!("mortarpink-position-{}", std::process::id()));
    /// # std::fs::create_dir_all(&folder)?;
    /// let path = folder.join("orders.log");
    /// let mut store = Store::<8>::create(&path)?;
    /// store.batch().commit(1)?;
    /// assert_eq!(store.position(), std::fs::metadata(&path)?.len());
    /// # drop(store);
    /// # std::fs::remove_dir_all(&folder)?;
    /// # Ok::<(), Box<dyn std::error::Error>>(())
    /// ```
    pub fn position(&self) -> u64 {
        self.log.position()
    }

    /// Returns the number of bytes that were cut off the end of the file when the store was opened.
    ///
    /// Does not allocate; constant time.
    ///
    /// # Examples
    ///
    /// ```
    /// use mortarpink::store::Store;
    /// use std::io::Write;
    ///
    /// # let folder = std::env::temp_dir().join(format!("mortarpink-cut-bytes-{}", std::process::id()));
    /// # std::fs::create_dir_all(&folder)?;
    /// let path = folder.join("orders.log");
    /// drop(Store::<8>::create(&path)?);
    ///
    /// // A crash has left five bytes of a commit.
    /// std::fs::OpenOptions::new().append(true).open(&path)?.write_all(&[0, 0, 0, 0, 1])?;
    /// let store = Store::<8>::open(&path)?;
    /// assert_eq!(store.cut_bytes(), 5);
    /// # drop(store);
    /// # std::fs::remove_dir_all(&folder)?;
    /// # Ok::<(), Box<dyn std::error::Error>>(())
    /// ```
    pub fn cut_bytes(&self) -> u64 {
        self.cut_bytes
    }

    /// Returns whether the store can only be read, since a call failed after it had begun to write. It can be changed once it is opened again.
    ///
    /// Does not allocate; constant time.
    ///
    /// # Examples
    ///
    /// ```
    /// use mortarpink::store::Store;
    ///
    /// # let folder = std::env::temp_dir().join(format!("mortarpink-is-read-only-{}", std::process::id()));
    /// # std::fs::create_dir_all(&folder)?;
    /// let mut store = Store::<8>::create(folder.join("orders.log"))?;
    /// // An error before anything is written leaves the store as it was.
    /// assert!(store.batch().commit(u64::MAX).is_err());
    /// assert!(!store.is_read_only());
    /// # drop(store);
    /// # std::fs::remove_dir_all(&folder)?;
    /// # Ok::<(), Box<dyn std::error::Error>>(())
    /// ```
    pub fn is_read_only(&self) -> bool {
        self.log.is_read_only()
    }
}

/// Changes.
impl<const N: usize> Store<N> {
    /// Begins a batch, with no pending edits.
    ///
    /// Does not allocate; constant time.
    ///
    /// # Panics
    /// Panics if [`mem::forget`](core::mem::forget) was called on an earlier batch of the store.
    ///
    /// # Examples
    ///
    /// ```
    /// use mortarpink::store::Store;
    ///
    /// # let folder = std::env::temp_dir().join(format!("mortarpink-begin-batch-{}", std::process::id()));
    /// # std::fs::create_dir_all(&folder)?;
    /// let mut store = Store::<8>::create(folder.join("orders.log"))?;
    /// let mut batch = store.batch();
    /// batch.push(true).push(false);
    /// batch.commit(1)?;
    /// assert_eq!(store.bitmap().len(), 2);
    /// # drop(store);
    /// # std::fs::remove_dir_all(&folder)?;
    /// # Ok::<(), Box<dyn std::error::Error>>(())
    /// ```
    pub fn batch(&mut self) -> Batch<'_, N> {
        Batch::new(self)
    }

    /// Rewinds to a kept commit, as [`rewind_to`](CleanBitMap::rewind_to) of the bitmap does, and returns once this is on the disk, or written if
    /// the store is buffered.
    ///
    /// # Errors
    /// The bitmap is unchanged. It is the first error that applies:
    ///
    /// - `ReadOnly` if an earlier call failed after it had begun to write;
    /// - `NoSuchCommit` if no commit is kept under the number;
    /// - `Memory` if an allocation fails before anything is written;
    /// - `Io` if a write or a sync fails, and `NotApplied` if an allocation fails once the rewind is written. The store is then read-only.
    ///
    /// # Memory
    /// As `rewind_to` of the bitmap, and temporarily the entry of the rewind.
    ///
    /// # Complexity
    /// As `rewind_to` of the bitmap. Two writes and two syncs, or one write if the store is buffered.
    ///
    /// # Panics
    /// Panics if [`mem::forget`](core::mem::forget) was called on a batch of the store.
    ///
    /// # Examples
    ///
    /// ```
    /// use mortarpink::store::Store;
    ///
    /// # let folder = std::env::temp_dir().join(format!("mortarpink-rewind-{}", std::process::id()));
    /// # std::fs::create_dir_all(&folder)?;
    /// let mut store = Store::<8>::create(folder.join("orders.log"))?;
    /// for number in [1, 2, 3] {
    ///     let mut batch = store.batch();
    ///     batch.push(true);
    ///     batch.commit(number)?;
    /// }
    /// store.rewind_to(2)?;
    /// assert_eq!(store.bitmap().len(), 2);
    /// store.drop_before(2)?;
    /// assert!(store.bitmap().commits().eq([2]));
    /// # drop(store);
    /// # std::fs::remove_dir_all(&folder)?;
    /// # Ok::<(), Box<dyn std::error::Error>>(())
    /// ```
    pub fn rewind_to(&mut self, number: u64) -> Result<(), StoreError> {
        self.log.check_writable()?;
        if !self.bitmap().commit_exists(number) {
            return Err(StoreError::NoSuchCommit);
        }
        self.log.append(&encode_number(REWIND, number)?)?;
        match self.take_bitmap().rewind_to(number) {
            Ok(bitmap) => {
                self.bitmap = Some(bitmap);
                self.compact_if_grown();
                Ok(())
            }
            Err((bitmap, RewindError::NoSuchCommit | RewindError::Memory(_))) => {
                self.bitmap = Some(bitmap);
                self.log.set_read_only();
                Err(StoreError::NotApplied(AllocError))
            }
        }
    }

    /// Drops the commits before a number, as [`prune_commits_before`](CleanBitMap::prune_commits_before) of the bitmap does, and returns once this
    /// is on the disk, or written if the store is buffered.
    ///
    /// The entry is written even if no commit is dropped.
    ///
    /// # Errors
    /// The bitmap is unchanged. It is the first error that applies:
    ///
    /// - `ReadOnly` if an earlier call failed after it had begun to write;
    /// - `Memory` if an allocation fails before anything is written;
    /// - `Io` if a write or a sync fails. The store is then read-only.
    ///
    /// # Memory
    /// Temporarily the entry of the drop.
    ///
    /// # Complexity
    /// As `prune_commits_before` of the bitmap. Two writes and two syncs, or one write if the store is buffered.
    ///
    /// # Panics
    /// Panics if [`mem::forget`](core::mem::forget) was called on a batch of the store.
    ///
    /// # Examples
    ///
    /// ```
    /// use mortarpink::store::Store;
    ///
    /// # let folder = std::env::temp_dir().join(format!("mortarpink-drop-before-{}", std::process::id()));
    /// # std::fs::create_dir_all(&folder)?;
    /// let mut store = Store::<8>::create(folder.join("orders.log"))?;
    /// for number in 1..=5 {
    ///     store.batch().commit(number)?;
    /// }
    /// store.drop_before(4)?;
    /// assert!(store.bitmap().commits().eq([4, 5]));
    /// # drop(store);
    /// # std::fs::remove_dir_all(&folder)?;
    /// # Ok::<(), Box<dyn std::error::Error>>(())
    /// ```
    pub fn drop_before(&mut self, number: u64) -> Result<(), StoreError> {
        self.log.check_writable()?;
        let entry = encode_number(DROP_BEFORE, number)?;
        self.drop_commits(&entry, |bitmap| _ = bitmap.prune_commits_before(number))
    }

    /// Drops all commits, as [`clear_history`](CleanBitMap::clear_history) of the bitmap does, and returns once this is on the disk, or written if
    /// the store is buffered.
    ///
    /// The entry is written even if no commit is kept.
    ///
    /// # Errors
    /// As [`drop_before`](Store::drop_before).
    ///
    /// # Memory
    /// As [`drop_before`](Store::drop_before).
    ///
    /// # Complexity
    /// As `clear_history` of the bitmap. Two writes and two syncs, or one write if the store is buffered.
    ///
    /// # Panics
    /// Panics if [`mem::forget`](core::mem::forget) was called on a batch of the store.
    ///
    /// # Examples
    ///
    /// ```
    /// use mortarpink::store::Store;
    ///
    /// # let folder = std::env::temp_dir().join(format!("mortarpink-clear-{}", std::process::id()));
    /// # std::fs::create_dir_all(&folder)?;
    /// let mut store = Store::<8>::create(folder.join("orders.log"))?;
    /// let mut batch = store.batch();
    /// batch.push(true);
    /// batch.commit(1)?;
    /// store.clear()?;
    /// // The current bitmap and the last number stay.
    /// assert_eq!((store.bitmap().commits().count(), store.bitmap().len(), store.bitmap().last_number()), (0, 1, Some(1)));
    /// # drop(store);
    /// # std::fs::remove_dir_all(&folder)?;
    /// # Ok::<(), Box<dyn std::error::Error>>(())
    /// ```
    pub fn clear(&mut self) -> Result<(), StoreError> {
        self.drop_commits(&CLEARED, CleanBitMap::clear_history)
    }

    /// Returns once all changes are on the disk. It is for stores that are [buffered](Durability::Buffered): the changes of others are.
    ///
    /// A store that is dropped does the same, but an error is lost then.
    ///
    /// # Errors
    /// `ReadOnly` if an earlier call failed after it had begun to write, and `Io` if a sync or a write fails. The store is then read-only.
    ///
    /// # Memory
    /// Does not allocate.
    ///
    /// # Complexity
    /// One write and two syncs, or none if all changes are on the disk.
    ///
    /// # Examples
    ///
    /// ```
    /// use mortarpink::store::{Durability, Options};
    ///
    /// # let folder = std::env::temp_dir().join(format!("mortarpink-sync-{}", std::process::id()));
    /// # std::fs::create_dir_all(&folder)?;
    /// let mut store = Options::new().durability(Durability::Buffered).create::<8>(folder.join("orders.log"))?;
    /// for number in 1..=1000 {
    ///     store.batch().commit(number)?;
    /// }
    /// store.sync()?;
    /// # drop(store);
    /// # std::fs::remove_dir_all(&folder)?;
    /// # Ok::<(), Box<dyn std::error::Error>>(())
    /// ```
    pub fn sync(&mut self) -> Result<(), StoreError> {
        self.log.sync()
    }

    /// Compacts the log: it then has the bitmap with its kept commits, and nothing of what was dropped or rewound.
    ///
    /// The new log is written to another file, which replaces the log once it is on the disk. If a crash cuts the call off, the file has the old
    /// log or the new one. Compaction makes all changes durable, those of a buffered store too.
    ///
    /// # Errors
    /// - `ReadOnly` if an earlier call failed after it had begun to write;
    /// - `Memory` if an allocation fails. Nothing was written.
    /// - `Io` if a call of the operating system fails. If the new log could not be written, the store can still be changed. If the new log could
    ///   not replace the old one, it is read-only.
    ///
    /// # Memory
    /// Temporarily the bytes of the new log.
    ///
    /// # Complexity
    /// As [`Log::begin`]. Three writes, a rename and four syncs; if there are changes that are not on the disk, also a write and two syncs.
    ///
    /// # Panics
    /// Panics if [`mem::forget`](core::mem::forget) was called on a batch of the store.
    ///
    /// # Examples
    ///
    /// ```
    /// use mortarpink::store::Store;
    ///
    /// # let folder = std::env::temp_dir().join(format!("mortarpink-compact-{}", std::process::id()));
    /// # std::fs::create_dir_all(&folder)?;
    /// let path = folder.join("orders.log");
    /// let mut store = Store::<8>::create(&path)?;
    /// for number in 1..=100 {
    ///     let mut batch = store.batch();
    ///     batch.push(true);
    ///     batch.commit(number)?;
    /// }
    /// store.drop_before(100)?;
    /// let long = std::fs::metadata(&path)?.len();
    /// store.compact()?;
    /// assert!(std::fs::metadata(&path)?.len() < long / 20);
    /// # drop(store);
    /// # std::fs::remove_dir_all(&folder)?;
    /// # Ok::<(), Box<dyn std::error::Error>>(())
    /// ```
    pub fn compact(&mut self) -> Result<(), StoreError> {
        self.log.check_writable()?;
        let new = Log::begin(self.bitmap())?;
        self.log.replace(new.bytes(), place_after(&new))
    }

    fn drop_commits(&mut self, entry: &[u8], drop: impl FnOnce(&mut CleanBitMap<N>)) -> Result<(), StoreError> {
        let bitmap = self.bitmap.as_mut().expect(LEAKED);
        self.log.append(entry)?;
        drop(bitmap);
        self.compact_if_grown();
        Ok(())
    }

    fn take_bitmap(&mut self) -> CleanBitMap<N> {
        self.bitmap.take().expect(LEAKED)
    }

    /// Compacts the log if this is asked for and the log has grown. A compaction that fails is tried again when the log has grown further.
    fn compact_if_grown(&mut self) {
        let position = self.position();
        if !self.compacts || position < self.next_test.max(LEAST_COMPACTED) {
            return;
        }
        let most = history_size(self.bitmap()).map_or(u64::MAX, |size| size.saturating_mul(2));
        self.next_test = if position > most && self.compact().is_ok() { most } else { most.max(position.saturating_add(position / 4)) };
    }
}
