//! Stores that are created, and opened again.

use super::error::{OpenError, StoreError};
use super::files::{Files, Name, OsFiles};
use super::receipts::{Acknowledged, Receipts};
use super::stored_log::StoredLog;
use super::{Durability, Store};
use crate::bitmap::historical::CleanBitMap;
use crate::log::frames::Place;
use crate::log::{Damage, Log, RecoverError, Recovered, recover};
use crate::support::alloc::AllocError;
use std::boxed::Box;
use std::io::{self, ErrorKind};
use std::path::Path;
use std::vec::Vec;

/// How a store is opened or created.
///
/// # Examples
///
/// ```
/// use mortarpink::store::{Durability, Options};
///
/// # let folder = std::env::temp_dir().join(format!("mortarpink-options-{}", std::process::id()));
/// # std::fs::create_dir_all(&folder)?;
/// let mut store = Options::new()
///     .durability(Durability::Buffered)
///     .compact_automatically(true)
///     .open_or_create::<8>(folder.join("orders.log"))?;
/// for number in 1..=100 {
///     let mut batch = store.batch();
///     batch.push(number % 2 == 0);
///     batch.commit(number)?;
/// }
/// // All hundred commits are durable from here on.
/// store.sync()?;
/// # drop(store);
/// # std::fs::remove_dir_all(&folder)?;
/// # Ok::<(), Box<dyn std::error::Error>>(())
/// ```
#[derive(Clone, Debug, Default, PartialEq, Eq)]
pub struct Options {
    durability: Durability,
    compacts: bool,
    is_indexed: bool,
}

/// How a store is opened. Tests open stores with files of their own.
#[doc(hidden)]
#[derive(Clone, Copy, Debug, PartialEq, Eq)]
pub enum Start {
    Open,
    Create,
    OpenOrCreate,
    OpenCut(u64),
}

impl Options {
    /// Returns the options of [`Store::open`]: [`Durability::Synced`], without automatic compaction and without an index. Does not allocate.
    ///
    /// # Examples
    ///
    /// ```
    /// use mortarpink::store::{Durability, Options};
    ///
    /// assert_eq!(&Options::new(), Options::new().durability(Durability::Synced).compact_automatically(false).indexed(false));
    /// ```
    #[must_use]
    pub fn new() -> Options {
        Options::default()
    }

    /// Sets when a change is on the disk: when its call returns, or when [`sync`](Store::sync) does.
    ///
    /// # Examples
    ///
    /// ```
    /// use mortarpink::store::{Durability, Options};
    ///
    /// # let folder = std::env::temp_dir().join(format!("mortarpink-durability-{}", std::process::id()));
    /// # std::fs::create_dir_all(&folder)?;
    /// let mut store = Options::new().durability(Durability::Buffered).create::<8>(folder.join("orders.log"))?;
    /// // The commit is written, and is not on the disk yet.
    /// store.batch().commit(1)?;
    /// store.sync()?;
    /// # drop(store);
    /// # std::fs::remove_dir_all(&folder)?;
    /// # Ok::<(), Box<dyn std::error::Error>>(())
    /// ```
    pub fn durability(&mut self, durability: Durability) -> &mut Options {
        self.durability = durability;
        self
    }

    /// Sets whether the store is [compacted](Store::compact) when its log has more than twice the bytes that it then has, and at least 4,096.
    ///
    /// A call that changes the store tests this once it has made its change. To know the size of the compacted log takes time for all kept
    /// commits, so the log may grow by a quarter between two tests. If a compaction fails, the call succeeds all the same, since its change is
    /// kept. [`is_read_only`](Store::is_read_only) says whether the store can still be changed.
    ///
    /// # Examples
    ///
    /// ```
    /// use mortarpink::store::{Durability, Options};
    ///
    /// # let folder = std::env::temp_dir().join(format!("mortarpink-automatically-{}", std::process::id()));
    /// # std::fs::create_dir_all(&folder)?;
    /// let mut options = Options::new();
    /// options.compact_automatically(true).durability(Durability::Buffered);
    /// let mut store = options.create::<8>(folder.join("orders.log"))?;
    /// for number in 1..=1000 {
    ///     let mut batch = store.batch();
    ///     batch.push(true);
    ///     batch.commit(number)?;
    ///     store.drop_before(number)?;
    /// }
    /// // Without compaction the log would have nearly 100,000 bytes.
    /// assert!(store.position() < 6000);
    /// # drop(store);
    /// # std::fs::remove_dir_all(&folder)?;
    /// # Ok::<(), Box<dyn std::error::Error>>(())
    /// ```
    pub fn compact_automatically(&mut self, compacts: bool) -> &mut Options {
        self.compacts = compacts;
        self
    }

    /// Sets whether the bitmap has an [index](CleanBitMap::indexed) of its kept commits. With it, reads of past states and compactions take less
    /// time if many commits are kept, and commits take more memory.
    ///
    /// # Examples
    ///
    /// ```
    /// use mortarpink::store::Options;
    ///
    /// # let folder = std::env::temp_dir().join(format!("mortarpink-indexed-{}", std::process::id()));
    /// # std::fs::create_dir_all(&folder)?;
    /// let mut store = Options::new().indexed(true).create::<8>(folder.join("orders.log"))?;
    /// let mut batch = store.batch();
    /// batch.push(true);
    /// batch.commit(1)?;
    /// assert!(store.bitmap().at(1).is_some());
    /// # drop(store);
    /// # std::fs::remove_dir_all(&folder)?;
    /// # Ok::<(), Box<dyn std::error::Error>>(())
    /// ```
    pub fn indexed(&mut self, is_indexed: bool) -> &mut Options {
        self.is_indexed = is_indexed;
        self
    }

    /// Opens a store with these options, as [`Store::open`] does.
    ///
    /// # Errors
    /// As [`Store::open`].
    ///
    /// # Examples
    ///
    /// ```
    /// use mortarpink::store::{Options, Store};
    ///
    /// # let folder = std::env::temp_dir().join(format!("mortarpink-options-open-{}", std::process::id()));
    /// # std::fs::create_dir_all(&folder)?;
    /// let path = folder.join("orders.log");
    /// drop(Store::<8>::create(&path)?);
    /// let store = Options::new().compact_automatically(true).open::<8>(&path)?;
    /// assert!(store.bitmap().is_empty());
    /// # drop(store);
    /// # std::fs::remove_dir_all(&folder)?;
    /// # Ok::<(), Box<dyn std::error::Error>>(())
    /// ```
    pub fn open<const N: usize>(&self, path: impl AsRef<Path>) -> Result<Store<N>, OpenError> {
        let files = OsFiles::new(path.as_ref())?;
        if !files.has_log()? {
            return Err(io::Error::from(ErrorKind::NotFound).into());
        }
        self.start(files.boxed(), Start::Open)
    }

    /// Creates a store with these options, as [`Store::create`] does.
    ///
    /// # Errors
    /// As [`Store::create`].
    ///
    /// # Examples
    ///
    /// ```
    /// use mortarpink::store::Options;
    ///
    /// # let folder = std::env::temp_dir().join(format!("mortarpink-options-create-{}", std::process::id()));
    /// # std::fs::create_dir_all(&folder)?;
    /// let store = Options::new().indexed(true).create::<8>(folder.join("orders.log"))?;
    /// assert!(store.bitmap().is_empty());
    /// # drop(store);
    /// # std::fs::remove_dir_all(&folder)?;
    /// # Ok::<(), Box<dyn std::error::Error>>(())
    /// ```
    pub fn create<const N: usize>(&self, path: impl AsRef<Path>) -> Result<Store<N>, OpenError> {
        self.start(OsFiles::new(path.as_ref())?.boxed(), Start::Create)
    }

    /// Opens a store with these options, or creates it, as [`Store::open_or_create`] does.
    ///
    /// # Errors
    /// As [`Store::open_or_create`].
    ///
    /// # Examples
    ///
    /// ```
    /// use mortarpink::store::Options;
    ///
    /// # let folder = std::env::temp_dir().join(format!("mortarpink-options-either-{}", std::process::id()));
    /// # std::fs::create_dir_all(&folder)?;
    /// let store = Options::new().indexed(true).open_or_create::<8>(folder.join("orders.log"))?;
    /// assert!(store.bitmap().is_empty());
    /// # drop(store);
    /// # std::fs::remove_dir_all(&folder)?;
    /// # Ok::<(), Box<dyn std::error::Error>>(())
    /// ```
    pub fn open_or_create<const N: usize>(&self, path: impl AsRef<Path>) -> Result<Store<N>, OpenError> {
        self.start(OsFiles::new(path.as_ref())?.boxed(), Start::OpenOrCreate)
    }

    /// Opens a store with these options, and cuts off what comes after a position, as [`Store::open_cut`] does.
    ///
    /// # Errors
    /// As [`Store::open_cut`].
    ///
    /// # Examples
    ///
    /// ```
    /// use mortarpink::store::{Options, Store};
    ///
    /// # let folder = std::env::temp_dir().join(format!("mortarpink-options-cut-{}", std::process::id()));
    /// # std::fs::create_dir_all(&folder)?;
    /// let path = folder.join("orders.log");
    /// let mut store = Store::<8>::create(&path)?;
    /// store.batch().commit(1)?;
    /// let end = store.position();
    /// store.batch().commit(2)?;
    /// drop(store);
    /// let store = Options::new().indexed(true).open_cut::<8>(&path, end)?;
    /// assert!(store.bitmap().commits().eq([1]));
    /// # drop(store);
    /// # std::fs::remove_dir_all(&folder)?;
    /// # Ok::<(), Box<dyn std::error::Error>>(())
    /// ```
    pub fn open_cut<const N: usize>(&self, path: impl AsRef<Path>, at: u64) -> Result<Store<N>, OpenError> {
        self.start(OsFiles::new(path.as_ref())?.boxed(), Start::OpenCut(at))
    }

    #[doc(hidden)]
    pub fn start<const N: usize>(&self, mut files: Box<dyn Files>, start: Start) -> Result<Store<N>, OpenError> {
        if !files.lock()? {
            return Err(OpenError::Locked);
        }
        let receipts = Receipts::read(&read(&mut *files, Name::Receipts)?.unwrap_or_default());
        let bytes = read(&mut *files, Name::Log)?;
        let log = StoredLog::new(files, receipts, self.durability);
        let has_bytes = bytes.as_ref().is_some_and(|bytes| !bytes.is_empty());
        match start {
            Start::Create if has_bytes => Err(OpenError::NotEmpty),
            Start::Create => self.create_in(log),
            Start::OpenOrCreate if !has_bytes && receipts.are_before_a_log() => self.create_in(log),
            Start::OpenOrCreate if !has_bytes => Err(OpenError::MissingEnd { good: 0, acknowledged: receipts.least() }),
            Start::Open | Start::OpenOrCreate => self.open_in(log, &receipts, &found(bytes)?),
            Start::OpenCut(at) => self.open_cut_in(log, &found(bytes)?, at),
        }
    }

    /// Begins a store with an empty bitmap.
    fn create_in<const N: usize>(&self, mut log: StoredLog) -> Result<Store<N>, OpenError> {
        let bitmap = self.with_index(CleanBitMap::new())?;
        let begun = Log::begin(&bitmap).map_err(OpenError::Memory)?;
        log.forget_receipts()?;
        log.replace(begun.bytes(), place_after(&begun)).map_err(|error| match error {
            StoreError::Io(error) => OpenError::Io(error),
            error => OpenError::Io(io::Error::other(error)),
        })?;
        Ok(self.store(bitmap, log, 0))
    }

    fn open_in<const N: usize>(&self, mut log: StoredLog, receipts: &Receipts, bytes: &[u8]) -> Result<Store<N>, OpenError> {
        let (found, acknowledged) = find::<N>(bytes, receipts)?;
        let bitmap = self.with_index(found.bitmap)?;
        let place = place_after(&found.log);
        log.go_on(bytes, acknowledged, place)?;
        Ok(self.store(bitmap, log, bytes.len() as u64 - place.at))
    }

    fn open_cut_in<const N: usize>(&self, mut log: StoredLog, bytes: &[u8], at: u64) -> Result<Store<N>, OpenError> {
        let good = usize::try_from(at).ok().and_then(|at| bytes.get(..at)).ok_or(OpenError::NotAnEnd)?;
        let found = recover::<N>(good)?;
        if found.log.position() != at {
            return Err(OpenError::NotAnEnd);
        }
        let bitmap = self.with_index(found.bitmap)?;
        log.cut_back(place_after(&found.log))?;
        Ok(self.store(bitmap, log, bytes.len() as u64 - at))
    }

    fn with_index<const N: usize>(&self, bitmap: CleanBitMap<N>) -> Result<CleanBitMap<N>, OpenError> {
        if self.is_indexed { bitmap.indexed().map_err(|(_, error)| OpenError::Memory(error)) } else { Ok(bitmap) }
    }

    fn store<const N: usize>(&self, bitmap: CleanBitMap<N>, log: StoredLog, cut_bytes: u64) -> Store<N> {
        Store { bitmap: Some(bitmap), log, cut_bytes, compacts: self.compacts, next_test: 0 }
    }
}

/// Returns all bytes of a file, or `None` if there is no such file.
fn read(files: &mut dyn Files, name: Name) -> Result<Option<Vec<u8>>, OpenError> {
    files.read(name).map_err(|error| match error.kind() {
        ErrorKind::OutOfMemory => OpenError::Memory(AllocError),
        _ => OpenError::Io(error),
    })
}

/// Returns the bytes of a log, or an error if there is no file.
fn found(bytes: Option<Vec<u8>>) -> io::Result<Vec<u8>> {
    bytes.ok_or_else(|| ErrorKind::NotFound.into())
}

/// Returns the place after a log.
pub(super) fn place_after<const N: usize>(log: &Log<N>) -> Place {
    Place { at: log.position(), digest: log.digest() }
}

/// Recovers a log up to the end or up to a frame that is not whole. Returns what is recovered, and why no more is, unless the bytes end there.
fn recover_good<const N: usize>(bytes: &[u8]) -> Result<(Recovered<N>, Option<RecoverError>), RecoverError> {
    match recover(bytes) {
        // A crash may leave such a frame, if it was not synced.
        Err(error @ RecoverError::Damaged { at, damage: Damage::Head | Damage::Digest }) => match recover(&bytes[..at as usize]) {
            Ok(found) => Ok((found, Some(error))),
            Err(again @ RecoverError::Memory(_)) => Err(again),
            Err(_) => Err(error),
        },
        found => found.map(|found| (found, None)),
    }
}

/// Recovers what is good of a log. Returns it with the place before which it is acknowledged, if that is known.
///
/// A frame that is damaged is left out only if it is known that it was not acknowledged.
fn find<const N: usize>(bytes: &[u8], receipts: &Receipts) -> Result<(Recovered<N>, Option<Place>), OpenError> {
    let (found, damage) = recover_good::<N>(bytes)?;
    let good = found.log.position();
    match (receipts.acknowledged(&bytes[..good as usize]), damage) {
        (Acknowledged::UpTo(place), None) => Ok((found, Some(place))),
        (Acknowledged::UpTo(place), Some(_)) if receipts.are_exact() => Ok((found, Some(place))),
        (Acknowledged::Unknown, None) => Ok((found, None)),
        (_, Some(error)) => Err(OpenError::Log(error)),
        (Acknowledged::Missing(place), None) if place.at > good => Err(OpenError::MissingEnd { good, acknowledged: place.at }),
        (Acknowledged::Missing(_), None) => Err(OpenError::OtherLog { good }),
    }
}
