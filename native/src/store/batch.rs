//! Batches of stores.

use super::Store;
use super::encoding::encode_commit;
use super::error::StoreError;
use crate::bitmap::historical::{DirtyBitMap, Error};
use crate::support::alloc::AllocError;
use core::ops::{Deref, DerefMut};

/// A batch of a store: pending edits, which are committed to its file, or aborted.
///
/// All calls of [`DirtyBitMap`] edit and read it. If the batch is dropped, the store is as it was before. The `DirtyBitMap` is not to be exchanged
/// for that of another bitmap, as by [`mem::swap`](core::mem::swap): what is then written to the file is not read again.
///
/// # Examples
///
/// ```
/// use mortarpink::bitmap::Readable;
/// use mortarpink::store::Store;
///
/// # let folder = std::env::temp_dir().join(format!("mortarpink-batch-{}", std::process::id()));
/// # std::fs::create_dir_all(&folder)?;
/// let mut store = Store::<8>::create(folder.join("orders.log"))?;
/// let mut batch = store.batch();
/// batch.push(true).push(false).set_bit(1, true);
/// assert_eq!(batch.count_ones_range(0..2), 2);
/// batch.commit(1)?;
///
/// // A batch that is dropped leaves nothing.
/// store.batch().push(true);
/// assert_eq!(store.bitmap().len(), 2);
/// # drop(store);
/// # std::fs::remove_dir_all(&folder)?;
/// # Ok::<(), Box<dyn std::error::Error>>(())
/// ```
#[derive(Debug)]
pub struct Batch<'a, const N: usize> {
    store: &'a mut Store<N>,
    // The pending edits, until they are committed.
    pending: Option<DirtyBitMap<N>>,
}

/// Tests the number of a commit, given the last number.
fn check_number(last: Option<u64>, number: u64) -> Result<(), StoreError> {
    match last {
        _ if number == u64::MAX => Err(StoreError::Number(Error::ReservedCommitNumber)),
        Some(previous) if number <= previous => Err(StoreError::Number(Error::NonMonotonicCommit { previous, attempted: number })),
        _ => Ok(()),
    }
}

impl<'a, const N: usize> Batch<'a, N> {
    pub(super) fn new(store: &'a mut Store<N>) -> Batch<'a, N> {
        let pending = store.take_bitmap().into_dirty();
        Batch { store, pending: Some(pending) }
    }

    /// Commits the batch under a number, and returns once the commit is on the disk; with [`Durability::Buffered`](super::Durability::Buffered),
    /// once it is written.
    ///
    /// # Errors
    /// The pending edits are dropped, and the store's bitmap is as it was before the batch. It is the first error that applies:
    ///
    /// - `ReadOnly` if an earlier call failed after it had begun to write;
    /// - `Number` if the number is `u64::MAX`, or if it is not above the last number;
    /// - `Memory` if an allocation fails before anything is written;
    /// - `Io` if a write or a sync fails, and `NotApplied` if an allocation fails once the commit is written. The store is then read-only.
    ///
    /// # Memory
    /// As `commit` of `DirtyBitMap`, and temporarily the entry of the commit.
    ///
    /// # Complexity
    /// As `commit` of `DirtyBitMap`, and linear in the bytes of the chunks that the batch has edited. Two writes and two syncs, or one write if the
    /// store is buffered.
    ///
    /// # Examples
    ///
    /// ```
    /// use mortarpink::bitmap::historical::Error;
    /// use mortarpink::store::{Store, StoreError};
    ///
    /// # let folder = std::env::temp_dir().join(format!("mortarpink-commit-{}", std::process::id()));
    /// # std::fs::create_dir_all(&folder)?;
    /// let mut store = Store::<8>::create(folder.join("orders.log"))?;
    /// store.batch().commit(1)?;
    /// let error = store.batch().commit(1).unwrap_err();
    /// assert!(matches!(error, StoreError::Number(Error::NonMonotonicCommit { previous: 1, attempted: 1 })));
    /// # drop(store);
    /// # std::fs::remove_dir_all(&folder)?;
    /// # Ok::<(), Box<dyn std::error::Error>>(())
    /// ```
    pub fn commit(self, number: u64) -> Result<(), StoreError> {
        self.try_commit(number).map_err(|(_, error)| error)
    }

    /// Commits the batch as [`commit`](Batch::commit) does. After an error it returns the batch, whose pending edits are unchanged.
    ///
    /// # Errors
    /// As [`commit`](Batch::commit).
    ///
    /// # Memory
    /// As [`commit`](Batch::commit).
    ///
    /// # Complexity
    /// As [`commit`](Batch::commit).
    ///
    /// # Examples
    ///
    /// ```
    /// use mortarpink::store::Store;
    ///
    /// # let folder = std::env::temp_dir().join(format!("mortarpink-try-commit-{}", std::process::id()));
    /// # std::fs::create_dir_all(&folder)?;
    /// let mut store = Store::<8>::create(folder.join("orders.log"))?;
    /// let mut batch = store.batch();
    /// batch.push(true);
    /// // The number is reserved, so another one is taken.
    /// let (batch, _) = batch.try_commit(u64::MAX).unwrap_err();
    /// batch.commit(1)?;
    /// assert!(store.bitmap().get_bit(0));
    /// # drop(store);
    /// # std::fs::remove_dir_all(&folder)?;
    /// # Ok::<(), Box<dyn std::error::Error>>(())
    /// ```
    // The error has the batch itself, as that of `try_commit` of `DirtyBitMap` has.
    #[allow(clippy::result_large_err)]
    pub fn try_commit(mut self, number: u64) -> Result<(), (Self, StoreError)> {
        match self.commit_pending(number) {
            Ok(()) => Ok(()),
            Err(error) => Err((self, error)),
        }
    }

    /// Drops the pending edits. The store is as it was before the batch.
    ///
    /// Does not allocate. Dropping the batch does the same.
    ///
    /// # Examples
    ///
    /// ```
    /// use mortarpink::store::Store;
    ///
    /// # let folder = std::env::temp_dir().join(format!("mortarpink-abort-{}", std::process::id()));
    /// # std::fs::create_dir_all(&folder)?;
    /// let mut store = Store::<8>::create(folder.join("orders.log"))?;
    /// let mut batch = store.batch();
    /// batch.push(true);
    /// batch.abort();
    /// assert!(store.bitmap().is_empty());
    /// # drop(store);
    /// # std::fs::remove_dir_all(&folder)?;
    /// # Ok::<(), Box<dyn std::error::Error>>(())
    /// ```
    pub fn abort(self) {}

    fn commit_pending(&mut self, number: u64) -> Result<(), StoreError> {
        self.store.log.check_writable()?;
        check_number(self.last_number(), number)?;
        let entry = encode_commit(self, number)?;
        self.store.log.append(&entry)?;
        let Some(batch) = self.pending.take() else { unreachable!("{MOVED}") };
        match batch.try_commit(number) {
            Ok(bitmap) => {
                self.store.bitmap = Some(bitmap);
                self.store.compact_if_grown();
                Ok(())
            }
            Err((batch, _)) => {
                self.pending = Some(batch);
                self.store.log.set_read_only();
                Err(StoreError::NotApplied(AllocError))
            }
        }
    }
}

/// What does not happen: the edits are there until the batch itself is gone.
const MOVED: &str = "the edits of the batch are committed";

impl<const N: usize> Deref for Batch<'_, N> {
    type Target = DirtyBitMap<N>;

    fn deref(&self) -> &DirtyBitMap<N> {
        self.pending.as_ref().expect(MOVED)
    }
}

impl<const N: usize> DerefMut for Batch<'_, N> {
    fn deref_mut(&mut self) -> &mut DirtyBitMap<N> {
        self.pending.as_mut().expect(MOVED)
    }
}

/// The store is as it was before the batch, unless the batch is committed.
impl<const N: usize> Drop for Batch<'_, N> {
    fn drop(&mut self) {
        if let Some(batch) = self.pending.take() {
            self.store.bitmap = Some(batch.abort());
        }
    }
}
