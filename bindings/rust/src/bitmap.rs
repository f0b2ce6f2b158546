use std::fmt;
use std::ops::RangeBounds;

use crate::ffi::Session;
use crate::packed::Bits;
use crate::{Batch, ChangedChunks, Chunk, Commits, Error, Ones, Version, Width, range};

/// A bitmap with numbered commits.
///
/// A bitmap has a current version, which a [`Batch`] edits, and the versions of its kept commits,
/// which are read in place as [`Version`]s.
///
/// # Memory
///
/// Reads do not allocate, except for [`packed`](Bitmap::packed), [`to_bytes`](Bitmap::to_bytes),
/// [`save`](Bitmap::save), [`delta`](Bitmap::delta), [`log_bytes`](Bitmap::log_bytes),
/// [`try_clone`](Bitmap::try_clone) and [`checkout`](Bitmap::checkout).
///
/// # Threads
///
/// A bitmap is `Send` and `Sync`: it may move to another thread, and any number of threads may read
/// it at the same time, since reads take `&self`. Edits take `&mut self`, so nothing reads meanwhile.
/// That reads may run at the same time is tested, and not proved.
///
/// ```
/// use mortarpink_proved::{Bitmap, Width};
///
/// let mut bitmap = Bitmap::new(Width::Bytes8)?;
/// bitmap.begin().commit(1)?;
/// let version = bitmap.at(1)?;
/// std::thread::scope(|scope| {
///     scope.spawn(|| assert!(bitmap.is_empty()));
///     scope.spawn(|| assert!(version.is_empty()));
/// });
/// # Ok::<(), mortarpink_proved::Error>(())
/// ```
///
/// # Examples
///
/// ```
/// use mortarpink_proved::{Bitmap, Width};
///
/// let mut bitmap = Bitmap::new(Width::Bytes8)?;
///
/// let mut batch = bitmap.begin();
/// batch.push_bytes(&[0xff, 0x0f])?;
/// batch.commit(1)?;
///
/// assert_eq!(bitmap.len(), 16);
/// assert_eq!(bitmap.count_ones(..), 12);
/// assert_eq!(bitmap.next_zero(0), Some(12));
/// # Ok::<(), mortarpink_proved::Error>(())
/// ```
pub struct Bitmap {
    pub(crate) session: Session,
    pub(crate) width: Width,
}

/// Making, encoding and copying.
impl Bitmap {
    pub(crate) fn from_session(session: Session, width: Width) -> Bitmap {
        Bitmap { session, width }
    }

    /// Makes an empty bitmap.
    ///
    /// # Errors
    ///
    /// [`Error::NoMemory`] if an allocation fails.
    ///
    /// # Examples
    ///
    /// ```
    /// use mortarpink_proved::{Bitmap, Width};
    ///
    /// let bitmap = Bitmap::new(Width::Bytes1)?;
    /// assert!(bitmap.is_empty());
    /// # Ok::<(), mortarpink_proved::Error>(())
    /// ```
    pub fn new(width: Width) -> Result<Bitmap, Error> {
        let session = Session::new(width.bytes() as u32)?;
        Ok(Bitmap::from_session(session, width))
    }

    /// Makes a bitmap with pruned chunks and no retained bit.
    ///
    /// # Errors
    ///
    /// - [`Error::PrunedChunksOverflow`] if the number of pruned bits would pass `u64::MAX`.
    /// - [`Error::NoMemory`] if an allocation fails.
    ///
    /// # Examples
    ///
    /// ```
    /// use mortarpink_proved::{Bitmap, Width};
    ///
    /// let bitmap = Bitmap::with_pruned_chunks(Width::Bytes8, 2)?;
    /// assert_eq!(bitmap.len(), 128);
    /// # Ok::<(), mortarpink_proved::Error>(())
    /// ```
    pub fn with_pruned_chunks(width: Width, pruned_chunks: u64) -> Result<Bitmap, Error> {
        let mut bitmap = Bitmap::new(width)?;
        bitmap.session.start(pruned_chunks)?;
        Ok(bitmap)
    }

    /// Makes a bitmap, without commits, from the encoding that `bytes` begin with.
    ///
    /// `retained` is the range of accepted numbers of retained bits. Returns the bitmap, and the
    /// number of bytes of the encoding.
    ///
    /// The encoding has no width and no checksum. Damaged bytes, or bytes read with another width,
    /// can be the encoding of another bitmap.
    ///
    /// # Errors
    ///
    /// - [`Error::EndOfBuffer`] if the bytes end before the encoding does.
    /// - [`Error::InvalidLength`] if the number of retained bits is not in the range.
    /// - [`Error::Invalid`] if the bytes are not an encoding.
    /// - [`Error::NoMemory`] if an allocation fails.
    ///
    /// # Complexity
    ///
    /// Linear in the encoding.
    ///
    /// # Examples
    ///
    /// ```
    /// use mortarpink_proved::{Bitmap, Error, Width};
    ///
    /// let mut bitmap = Bitmap::new(Width::Bytes8)?;
    /// let mut batch = bitmap.begin();
    /// batch.push_byte(0x81)?;
    /// batch.commit(1)?;
    ///
    /// let bytes = bitmap.to_bytes()?;
    /// let (copy, used) = Bitmap::from_bytes(Width::Bytes8, &bytes, ..=4096)?;
    /// assert_eq!(used, bytes.len());
    /// assert!(copy.ones(..).eq([0, 7]));
    ///
    /// let short = Bitmap::from_bytes(Width::Bytes8, &bytes, ..8);
    /// assert_eq!(short.unwrap_err(), Error::InvalidLength { length: 8 });
    /// # Ok::<(), Error>(())
    /// ```
    pub fn from_bytes(
        width: Width,
        bytes: &[u8],
        retained: impl RangeBounds<u64>,
    ) -> Result<(Bitmap, usize), Error> {
        let retained = range::inclusive(retained);
        let (session, used) = Session::decode(width.bytes() as u32, retained, bytes)?;
        Ok((Bitmap::from_session(session, width), used))
    }

    /// Returns the encoding of the current bitmap. It has no commits.
    ///
    /// The encoding is the number of pruned chunks, then the number of retained bits, then the
    /// retained chunks. Both numbers have eight bytes, the most significant first.
    ///
    /// # Errors
    ///
    /// [`Error::NoMemory`] if an allocation fails.
    ///
    /// # Complexity
    ///
    /// Linear in the encoding.
    pub fn to_bytes(&self) -> Result<Vec<u8>, Error> {
        self.settled().encode(None)
    }

    /// Returns the history of the bitmap: the current bitmap, the kept commits and the last commit
    /// number, with digests by which [`load`](Bitmap::load) finds damaged bytes.
    ///
    /// The index of [`set_indexed`](Bitmap::set_indexed) and the log of [`begin_log`](Bitmap::begin_log)
    /// are not in it.
    ///
    /// # Errors
    ///
    /// [`Error::NoMemory`] if an allocation fails.
    ///
    /// # Complexity
    ///
    /// Linear in the current bitmap and in the history. Each chunk in the history is read at its
    /// commit, which takes a search of each commit after it, or one search if the bitmap is indexed.
    ///
    /// # Memory
    ///
    /// Allocates the history. Also allocates a copy of it and the bitmap at the first kept commit, which
    /// are freed before the return.
    pub fn save(&self) -> Result<Vec<u8>, Error> {
        self.settled().save()
    }

    /// Makes a bitmap from the history that `bytes` begin with, which [`save`](Bitmap::save) wrote.
    ///
    /// `retained` is the range of accepted numbers of retained bits: of the current bitmap, and of
    /// each kept one. `commits` is the range of accepted numbers of commits after the first kept one.
    /// For bytes that the program has written itself, pass `..` for both. Returns the bitmap, and the
    /// number of bytes of the history. Bytes after it are not read.
    ///
    /// The bitmap has the same current version, kept commits and last number as the saved one. A
    /// commit may have fewer entries, so [`entries`](Bitmap::entries) may return a smaller number. It
    /// is not indexed, and keeps no log.
    ///
    /// # Errors
    ///
    /// The first error of the bytes, from the first byte on:
    ///
    /// - [`Error::CutOff`] if the bytes end before the history does.
    /// - [`Error::WrongHeader`] if the bytes do not begin with the header of a history of this width.
    /// - [`Error::Damaged`] if a digest after the header is not that of the bytes before it.
    /// - [`Error::NotAccepted`] if the digests are right, but a part of the bytes is no bitmap, or no
    ///   commit that can follow.
    /// - [`Error::OutOfRange`] if a number of retained bits or of commits is not in its range.
    /// - [`Error::NoMemory`] if an allocation fails.
    ///
    /// # Complexity
    ///
    /// Linear in the bytes of the history. If a commit makes the bitmap grow, it may also move in
    /// memory.
    ///
    /// # Memory
    ///
    /// Allocates the bitmap with its commits. A bitmap whose number of retained bits is out of range
    /// is not allocated.
    ///
    /// # Examples
    ///
    /// ```
    /// use mortarpink_proved::{Bitmap, Error, Width};
    ///
    /// let mut bitmap = Bitmap::new(Width::Bytes8)?;
    /// for number in [1, 2] {
    ///     let mut batch = bitmap.begin();
    ///     batch.push(true)?;
    ///     batch.commit(number)?;
    /// }
    /// let bytes = bitmap.save()?;
    ///
    /// // After a restart both versions are there again.
    /// let (mut bitmap, used) = Bitmap::load(Width::Bytes8, &bytes, ..=4096, ..=100)?;
    /// assert_eq!(used, bytes.len());
    /// assert!(bitmap.at(1)?.ones(..).eq([0]));
    /// bitmap.begin().commit(3)?;
    /// assert!(bitmap.commits().eq([1, 2, 3]));
    ///
    /// let cut_off = Bitmap::load(Width::Bytes8, &bytes[..50], .., ..);
    /// assert_eq!(cut_off.unwrap_err(), Error::CutOff);
    /// # Ok::<(), Error>(())
    /// ```
    pub fn load(
        width: Width,
        bytes: &[u8],
        retained: impl RangeBounds<u64>,
        commits: impl RangeBounds<u64>,
    ) -> Result<(Bitmap, usize), Error> {
        let (retained, commits) = (range::inclusive(retained), range::inclusive(commits));
        let (session, used) = Session::load(width.bytes() as u32, retained, commits, bytes)?;
        Ok((Bitmap::from_session(session, width), used))
    }

    /// Returns a copy of the bitmap and its commits. The copy keeps no log.
    ///
    /// # Errors
    ///
    /// [`Error::NoMemory`] if an allocation fails.
    ///
    /// # Complexity
    ///
    /// Linear in what is copied.
    pub fn try_clone(&self) -> Result<Bitmap, Error> {
        let session = self.settled().try_clone()?;
        Ok(Bitmap::from_session(session, self.width))
    }

    /// Returns the session, out of a batch. It is in one here only if a batch was leaked.
    pub(crate) fn settled(&self) -> &Session {
        self.session.settle();
        &self.session
    }

    pub(crate) fn settled_mut(&mut self) -> &mut Session {
        self.session.settle();
        &mut self.session
    }
}

/// Reads of the current bitmap.
impl Bitmap {
    /// Returns the number of bytes per chunk.
    pub fn width(&self) -> Width {
        self.width
    }

    /// Returns the length in bits, pruned bits included.
    pub fn len(&self) -> u64 {
        self.settled().len(None)
    }

    /// Returns whether the length is 0.
    pub fn is_empty(&self) -> bool {
        self.len() == 0
    }

    /// Returns the number of pruned chunks.
    pub fn pruned_chunks(&self) -> u64 {
        self.settled().pruned_chunks(None)
    }

    /// Returns the bit at a position.
    ///
    /// # Errors
    ///
    /// - [`Error::OutOfBounds`] if the position is at or past the length.
    /// - [`Error::Pruned`] if the position is pruned.
    ///
    /// # Examples
    ///
    /// ```
    /// use mortarpink_proved::{Bitmap, Error, Width};
    ///
    /// let mut bitmap = Bitmap::new(Width::Bytes1)?;
    /// let mut batch = bitmap.begin();
    /// batch.push_bytes(&[0x01, 0x02])?;
    /// batch.prune(8)?;
    /// batch.commit(1)?;
    ///
    /// assert_eq!(bitmap.get(9), Ok(true));
    /// assert_eq!(bitmap.get(7), Err(Error::Pruned));
    /// assert_eq!(bitmap.get(16), Err(Error::OutOfBounds));
    /// # Ok::<(), Error>(())
    /// ```
    pub fn get(&self, position: u64) -> Result<bool, Error> {
        self.settled().get(None, position)
    }

    /// Returns the chunk of a position.
    ///
    /// # Errors
    ///
    /// The errors of [`get`](Bitmap::get).
    ///
    /// # Examples
    ///
    /// ```
    /// use mortarpink_proved::{Bitmap, Width};
    ///
    /// let mut bitmap = Bitmap::new(Width::Bytes8)?;
    /// let mut batch = bitmap.begin();
    /// batch.push_bytes(&[0x01, 0x02])?;
    /// batch.commit(1)?;
    ///
    /// assert_eq!(bitmap.chunk(15)?.as_slice(), [1, 2, 0, 0, 0, 0, 0, 0]);
    /// # Ok::<(), mortarpink_proved::Error>(())
    /// ```
    pub fn chunk(&self, position: u64) -> Result<Chunk, Error> {
        let mut chunk = Chunk::zeroed(self.width);
        self.settled().chunk(None, position, chunk.as_mut_slice())?;
        Ok(chunk)
    }

    /// Fills `out` with the bits of a range, eight in a byte, the lowest bit first.
    ///
    /// Bit `k % 8` of byte `k / 8` is bit `k` of the range. The bits of the last byte past the range are
    /// 0. An end that the range leaves out is that of the retained positions.
    ///
    /// # Errors
    ///
    /// `out` is unchanged after an error.
    ///
    /// - [`Error::WrongSize`] if the length of `out` is not that of the range in bytes, rounded up.
    /// - [`Error::OutOfBounds`] if the range ends before it begins, or past the length.
    /// - [`Error::Pruned`] if the range begins at a pruned position.
    ///
    /// # Examples
    ///
    /// ```
    /// use mortarpink_proved::{Bitmap, Error, Width};
    ///
    /// let mut bitmap = Bitmap::new(Width::Bytes8)?;
    /// let mut batch = bitmap.begin();
    /// batch.push_bytes(&[0b1010_0110, 0b0000_1111])?;
    /// batch.commit(1)?;
    ///
    /// let mut bytes = [0; 1];
    /// bitmap.read_bytes(5..13, &mut bytes)?;
    /// assert_eq!(bytes, [0b0111_1101]);
    /// assert_eq!(bitmap.read_bytes(5..14, &mut bytes), Err(Error::WrongSize));
    /// # Ok::<(), Error>(())
    /// ```
    pub fn read_bytes(&self, range: impl RangeBounds<u64>, out: &mut [u8]) -> Result<(), Error> {
        self.bits().read(range, out)
    }

    /// Returns the bits of a range, eight in a byte, the lowest bit first.
    ///
    /// # Errors
    ///
    /// [`Error::NoMemory`] if the allocation fails, and otherwise the errors of
    /// [`read_bytes`](Bitmap::read_bytes).
    ///
    /// # Memory
    ///
    /// Allocates the bytes.
    ///
    /// # Examples
    ///
    /// ```
    /// use mortarpink_proved::{Bitmap, Error, Width};
    ///
    /// let mut bitmap = Bitmap::new(Width::Bytes8)?;
    /// let mut batch = bitmap.begin();
    /// batch.push_bytes(&[0b1010_0110, 0b0000_1111])?;
    /// batch.commit(1)?;
    ///
    /// assert_eq!(bitmap.packed(..)?, [0b1010_0110, 0b0000_1111]);
    /// assert_eq!(bitmap.packed(5..10)?, [0b0001_1101]);
    /// assert_eq!(bitmap.packed(10..17), Err(Error::OutOfBounds));
    /// # Ok::<(), Error>(())
    /// ```
    pub fn packed(&self, range: impl RangeBounds<u64>) -> Result<Vec<u8>, Error> {
        self.bits().packed(range)
    }

    fn bits(&self) -> Bits<'_> {
        Bits { session: self.settled(), at: None, width: self.width }
    }

    /// Returns an iterator over the set retained positions of a range, ascending.
    ///
    /// # Complexity
    ///
    /// Linear in the chunks of the range, read in pages of 64 positions at first, and of at most 65,536.
    ///
    /// # Examples
    ///
    /// ```
    /// use mortarpink_proved::{Bitmap, Width};
    ///
    /// let mut bitmap = Bitmap::new(Width::Bytes8)?;
    /// let mut batch = bitmap.begin();
    /// batch.push_byte(0b1010_0110)?;
    /// batch.commit(1)?;
    ///
    /// assert!(bitmap.ones(..).eq([1, 2, 5, 7]));
    /// assert!(bitmap.ones(2..7).eq([2, 5]));
    /// # Ok::<(), mortarpink_proved::Error>(())
    /// ```
    pub fn ones(&self, range: impl RangeBounds<u64>) -> Ones<'_> {
        Ones::new(self.settled(), None, range::half_open(range))
    }

    /// Returns the least retained position, from `from` on, whose bit is 1.
    ///
    /// # Complexity
    ///
    /// Linear in the chunks that are read, as are the other searches.
    ///
    /// # Examples
    ///
    /// ```
    /// use mortarpink_proved::{Bitmap, Width};
    ///
    /// let mut bitmap = Bitmap::new(Width::Bytes8)?;
    /// let mut batch = bitmap.begin();
    /// batch.push_byte(0b0010_0110)?;
    /// batch.commit(1)?;
    ///
    /// assert_eq!(bitmap.next_one(3), Some(5));
    /// assert_eq!(bitmap.next_one(6), None);
    /// assert_eq!(bitmap.prev_one(5), Some(2));
    /// assert_eq!(bitmap.prev_zero(3), Some(0));
    /// # Ok::<(), mortarpink_proved::Error>(())
    /// ```
    pub fn next_one(&self, from: u64) -> Option<u64> {
        self.settled().next_one(None, from)
    }

    /// Returns the least retained position, from `from` on, whose bit is 0.
    pub fn next_zero(&self, from: u64) -> Option<u64> {
        self.settled().next_zero(None, from)
    }

    /// Returns the greatest retained position below `end` whose bit is 1.
    pub fn prev_one(&self, end: u64) -> Option<u64> {
        self.settled().prev_one(None, end)
    }

    /// Returns the greatest retained position below `end` whose bit is 0.
    pub fn prev_zero(&self, end: u64) -> Option<u64> {
        self.settled().prev_zero(None, end)
    }

    /// Returns the number of set retained positions in a range.
    ///
    /// # Complexity
    ///
    /// Linear in the chunks of the range.
    pub fn count_ones(&self, range: impl RangeBounds<u64>) -> u64 {
        self.settled().count_ones(None, range::half_open(range))
    }

    /// Returns the set retained position number `k`, counted from 0.
    ///
    /// # Complexity
    ///
    /// Linear in the retained chunks up to that of the position.
    pub fn select_one(&self, k: u64) -> Option<u64> {
        self.settled().select_one(None, k)
    }
}

/// Batches and commits.
impl Bitmap {
    /// Begins a batch of edits on the current bitmap.
    ///
    /// If the bitmap keeps a log, [`Batch::commit`] appends one entry to it for the whole batch. A batch
    /// that is aborted appends none.
    ///
    /// If an earlier batch was leaked, for example by [`std::mem::forget`], the next call on the
    /// bitmap aborts it.
    pub fn begin(&mut self) -> Batch<'_> {
        self.session.settle();
        Batch::begin(self)
    }

    /// Returns the bitmap at a commit, to be read in place.
    ///
    /// # Errors
    ///
    /// [`Error::NoSuchCommit`] if no commit is kept under the number.
    ///
    /// # Examples
    ///
    /// ```
    /// use mortarpink_proved::{Bitmap, Error, Width};
    ///
    /// let mut bitmap = Bitmap::new(Width::Bytes8)?;
    /// bitmap.begin().commit(3)?;
    ///
    /// assert!(bitmap.at(3)?.is_empty());
    /// assert_eq!(bitmap.at(2).unwrap_err(), Error::NoSuchCommit);
    /// # Ok::<(), Error>(())
    /// ```
    pub fn at(&self, number: u64) -> Result<Version<'_>, Error> {
        let session = self.settled();
        if !session.exists(number) {
            return Err(Error::NoSuchCommit);
        }
        Ok(Version::new(session, self.width, number))
    }

    /// Makes a bitmap of its own of the one at a commit. It has no commits, and keeps no log.
    ///
    /// # Errors
    ///
    /// - [`Error::NoSuchCommit`] if no commit is kept under the number.
    /// - [`Error::NoMemory`] if an allocation fails.
    ///
    /// # Complexity
    ///
    /// Linear in the current bitmap, plus the later commits and the chunks that they changed.
    ///
    /// # Examples
    ///
    /// ```
    /// use mortarpink_proved::{Bitmap, Width};
    ///
    /// let mut bitmap = Bitmap::new(Width::Bytes8)?;
    /// for number in [1, 2] {
    ///     let mut batch = bitmap.begin();
    ///     batch.push(true)?;
    ///     batch.commit(number)?;
    /// }
    ///
    /// let mut branch = bitmap.checkout(1)?;
    /// let mut batch = branch.begin();
    /// batch.push(false)?;
    /// batch.commit(1)?;
    /// assert!(branch.ones(..).eq([0]));
    /// assert!(bitmap.ones(..).eq([0, 1]));
    /// # Ok::<(), mortarpink_proved::Error>(())
    /// ```
    pub fn checkout(&self, number: u64) -> Result<Bitmap, Error> {
        let session = self.settled().checkout(number)?;
        Ok(Bitmap::from_session(session, self.width))
    }

    /// Adds an index of the kept commits if `on` is true, and drops it otherwise.
    ///
    /// With the index, a read of a chunk at a commit searches once, however many commits are kept.
    /// Commits, rewinds and calls that drop commits keep the index, and a copy of the bitmap has a copy
    /// of it. A commit then also allocates its entries in the index. Nothing that a call returns
    /// depends on the index.
    ///
    /// # Errors
    ///
    /// [`Error::NoMemory`] if an allocation fails.
    ///
    /// # Complexity
    ///
    /// Amortized linear in the commits and in the entries of their records. Linear in the index if it
    /// is dropped.
    ///
    /// # Examples
    ///
    /// ```
    /// use mortarpink_proved::{Bitmap, Width};
    ///
    /// let mut bitmap = Bitmap::new(Width::Bytes8)?;
    /// bitmap.set_indexed(true)?;
    /// for number in 1..100 {
    ///     let mut batch = bitmap.begin();
    ///     batch.push(number % 2 == 1)?;
    ///     batch.commit(number)?;
    /// }
    /// assert!(bitmap.at(4)?.ones(..).eq([0, 2]));
    /// # Ok::<(), mortarpink_proved::Error>(())
    /// ```
    pub fn set_indexed(&mut self, on: bool) -> Result<(), Error> {
        self.settled_mut().set_indexed(on)
    }

    /// Returns an iterator over the numbers of the kept commits, ascending.
    ///
    /// # Complexity
    ///
    /// The numbers are read in pages of 64 at first, and of at most 65,536. A page is logarithmic in
    /// the kept commits, plus linear in its numbers.
    ///
    /// # Examples
    ///
    /// ```
    /// use mortarpink_proved::{Bitmap, Width};
    ///
    /// let mut bitmap = Bitmap::new(Width::Bytes8)?;
    /// bitmap.begin().commit(3)?;
    /// bitmap.begin().commit(5)?;
    ///
    /// assert!(bitmap.commits().eq([3, 5]));
    /// # Ok::<(), mortarpink_proved::Error>(())
    /// ```
    pub fn commits(&self) -> Commits<'_> {
        Commits::new(self.settled())
    }

    /// Returns whether a commit is kept under a number.
    pub fn commit_exists(&self, number: u64) -> bool {
        self.settled().exists(number)
    }

    /// Returns the greatest number of a kept commit.
    pub fn latest(&self) -> Option<u64> {
        self.settled().latest()
    }

    /// Returns the least number of a kept commit.
    pub fn earliest(&self) -> Option<u64> {
        self.settled().earliest()
    }

    /// Returns an iterator over the indices of the chunks that differ between two commits.
    ///
    /// The indices are absolute and ascending. A chunk that only one of the versions retains
    /// differs. Bits past a length count as zeros, so zeros that are appended to a partly filled
    /// chunk change no chunk: a replica needs the length too.
    ///
    /// # Errors
    ///
    /// [`Error::NoSuchCommit`] unless both commits are kept and `from` is at most `to`.
    ///
    /// # Complexity
    ///
    /// The indices are read in pages of 64 at first, and of at most 65,536. A page examines the
    /// chunks after the previous page, up to its last one, that a commit after `from` and up to `to`
    /// changed. Each costs a search of each commit after `from`.
    ///
    /// # Examples
    ///
    /// ```
    /// use mortarpink_proved::{Bitmap, Width};
    ///
    /// let mut bitmap = Bitmap::new(Width::Bytes1)?;
    /// let mut batch = bitmap.begin();
    /// batch.push_bytes(&[0, 0, 0])?;
    /// batch.commit(1)?;
    ///
    /// let mut batch = bitmap.begin();
    /// batch.set(8, true)?;
    /// batch.push(false)?;
    /// batch.commit(2)?;
    ///
    /// assert!(bitmap.changed_chunks(1, 2)?.eq([1, 3]));
    /// # Ok::<(), mortarpink_proved::Error>(())
    /// ```
    pub fn changed_chunks(&self, from: u64, to: u64) -> Result<ChangedChunks<'_>, Error> {
        let session = self.settled();
        session.changed_chunks((from, to), 0, &mut [])?;
        Ok(ChangedChunks::new(session, (from, to)))
    }

    /// Returns the delta between two commits: bytes that bring a replica from the older version to the
    /// newer one by [`apply_delta`](Bitmap::apply_delta).
    ///
    /// A delta has the chunks in which the two differ, and the number, the length and a digest of the
    /// older one. Returns `None` unless both commits are kept and `older` is below `newer`.
    ///
    /// # Errors
    ///
    /// [`Error::NoMemory`] if an allocation fails.
    ///
    /// # Complexity
    ///
    /// As [`changed_chunks`](Bitmap::changed_chunks), and linear in the delta. Each chunk in the delta
    /// is read at both commits, which takes a search of each commit after them.
    ///
    /// # Memory
    ///
    /// Allocates the delta. Also allocates a copy of it, which is freed before the return.
    ///
    /// # Examples
    ///
    /// ```
    /// use mortarpink_proved::{Bitmap, Error, Width};
    ///
    /// let mut bitmap = Bitmap::new(Width::Bytes8)?;
    /// bitmap.begin().commit(1)?;
    /// let mut replica = bitmap.try_clone()?;
    ///
    /// let mut batch = bitmap.begin();
    /// batch.push_byte(0b0000_0101)?;
    /// batch.commit(2)?;
    ///
    /// let delta = bitmap.delta(1, 2)?.expect("both commits are kept");
    /// replica.apply_delta(&delta)?;
    /// assert!(replica.ones(..).eq([0, 2]));
    /// assert!(replica.commits().eq([1, 2]));
    ///
    /// // The replica is at version 2 now, so the delta does not fit any more.
    /// assert_eq!(replica.apply_delta(&delta), Err(Error::NotAtBase));
    /// assert_eq!(bitmap.delta(2, 1)?, None);
    /// # Ok::<(), Error>(())
    /// ```
    pub fn delta(&self, older: u64, newer: u64) -> Result<Option<Vec<u8>>, Error> {
        self.settled().delta(older, newer)
    }

    /// Applies a delta, which is all of the bytes, as the next commit: its newer bitmap becomes
    /// current, and is kept under its number.
    ///
    /// The last number, the length, the number of pruned chunks, and a digest of the bytes in the
    /// chunks that the delta has are compared with those of the older bitmap, which need not be kept.
    /// Other chunks are not compared. The digest finds damage and mistakes, and is no protection from
    /// someone who forges a delta.
    ///
    /// If the bitmap keeps a log, the entry of the commit is appended to it.
    ///
    /// # Errors
    ///
    /// The bitmap and its log are then unchanged.
    ///
    /// - [`Error::CutOff`] if there are fewer bytes than any delta has, or if the bytes of the chunks
    ///   are not whole.
    /// - [`Error::WrongHeader`] if the bytes do not begin as a delta, or if it has another width.
    /// - [`Error::Damaged`] if the digest at the end is not that of the bytes before it, as in most
    ///   deltas that are cut off.
    /// - [`Error::NotAtBase`] if the delta does not start at the current bitmap.
    /// - [`Error::NotAccepted`] if the digest is right, but the delta has no commit that can follow.
    /// - [`Error::NoMemory`] if an allocation fails, or if the log would have 2^64 bytes or more.
    ///
    /// # Complexity
    ///
    /// Linear in the bytes, plus the chunks that the commit prunes or removes.
    ///
    /// # Memory
    ///
    /// Allocates the reverse record of the commit, and space by which the bitmap, the list of commits
    /// and the log grow.
    pub fn apply_delta(&mut self, bytes: &[u8]) -> Result<(), Error> {
        self.settled_mut().apply_delta(bytes)
    }

    /// Makes the bitmap at a commit current again, and drops the commits after it. If the bitmap keeps
    /// a log, the entry of the rewind is appended to it.
    ///
    /// # Errors
    ///
    /// The bitmap and its log are then unchanged.
    ///
    /// - [`Error::NoSuchCommit`] if no commit is kept under the number.
    /// - [`Error::NoMemory`] if an allocation fails, or if the log would have 2^64 bytes or more.
    ///
    /// # Complexity
    ///
    /// Logarithmic in the commits, and amortized linear in the dropped commits and in the entries of
    /// their records. If the bitmap grows, it may also move in memory.
    ///
    /// # Examples
    ///
    /// ```
    /// use mortarpink_proved::{Bitmap, Width};
    ///
    /// let mut bitmap = Bitmap::new(Width::Bytes8)?;
    /// bitmap.begin().commit(1)?;
    /// let mut batch = bitmap.begin();
    /// batch.push(true)?;
    /// batch.commit(2)?;
    ///
    /// bitmap.rewind_to(1)?;
    /// assert!(bitmap.is_empty());
    /// assert_eq!(bitmap.latest(), Some(1));
    /// # Ok::<(), mortarpink_proved::Error>(())
    /// ```
    pub fn rewind_to(&mut self, number: u64) -> Result<(), Error> {
        self.settled_mut().rewind(number)
    }

    /// Drops the commits below a number. Returns how many. If the bitmap keeps a log, the entry of the
    /// drop is appended to it.
    ///
    /// # Errors
    ///
    /// [`Error::NoMemory`] if the bitmap keeps a log, and an allocation fails or the log would have 2^64
    /// bytes or more. Nothing is dropped then. Without a log the call does not fail.
    ///
    /// # Complexity
    ///
    /// Linear in what is dropped.
    ///
    /// # Memory
    ///
    /// Allocates the entry if the bitmap keeps a log, and otherwise nothing.
    ///
    /// # Examples
    ///
    /// ```
    /// use mortarpink_proved::{Bitmap, Width};
    ///
    /// let mut bitmap = Bitmap::new(Width::Bytes8)?;
    /// bitmap.begin().commit(3)?;
    /// bitmap.begin().commit(5)?;
    ///
    /// assert_eq!(bitmap.drop_before(5), Ok(1));
    /// assert_eq!(bitmap.earliest(), Some(5));
    /// # Ok::<(), mortarpink_proved::Error>(())
    /// ```
    pub fn drop_before(&mut self, number: u64) -> Result<u64, Error> {
        self.settled_mut().drop_before(number)
    }

    /// Drops all commits. The current bitmap stays. If the bitmap keeps a log, the entry of the clear is
    /// appended to it.
    ///
    /// # Errors
    ///
    /// The errors of [`drop_before`](Bitmap::drop_before).
    ///
    /// # Complexity
    ///
    /// Linear in what is dropped.
    ///
    /// # Memory
    ///
    /// Allocates the entry if the bitmap keeps a log, and otherwise nothing.
    pub fn clear(&mut self) -> Result<(), Error> {
        self.settled_mut().clear()
    }

    /// Returns the number of entries in the reverse records of the kept commits, or `u64::MAX` if there are more.
    ///
    /// The record of a commit has at most one entry per chunk that its batch edited, removed or pruned, and at most one
    /// more. An entry has the old bytes of one chunk, or no bytes if the commit added the chunk. The number of entries is
    /// not the number of bytes that the history takes.
    ///
    /// # Complexity
    ///
    /// Linear in the kept commits.
    pub fn entries(&self) -> u64 {
        self.settled().entries()
    }
}

impl fmt::Debug for Bitmap {
    fn fmt(&self, f: &mut fmt::Formatter<'_>) -> fmt::Result {
        f.debug_struct("Bitmap")
            .field("width", &self.width)
            .field("len", &self.len())
            .field("pruned_chunks", &self.pruned_chunks())
            .field("latest", &self.latest())
            .finish()
    }
}
