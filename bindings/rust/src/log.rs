use crate::ffi::Session;
use crate::{Bitmap, Error, RecoverError, Width};

/// A bitmap that [`Bitmap::recover`] has made from the bytes of a log.
///
/// # Examples
///
/// ```
/// use mortarpink_proved::{Bitmap, Recovered, Width};
///
/// let mut bitmap = Bitmap::new(Width::Bytes8)?;
/// bitmap.begin_log()?;
/// let mut file = bitmap.take_log()?;
/// // A crash leaves 20 of the 25 bytes of this entry.
/// bitmap.clear()?;
/// file.extend_from_slice(&bitmap.log_bytes()?[..20]);
///
/// let Recovered { bitmap, good, torn } = Bitmap::recover(Width::Bytes8, &file)?;
/// assert_eq!((bitmap.len(), good, torn), (0, 90, true));
/// // The next entry goes where the good bytes end.
/// file.truncate(good);
/// # Ok::<(), mortarpink_proved::Error>(())
/// ```
#[derive(Debug)]
pub struct Recovered {
    /// The bitmap after the last whole entry of the log. It keeps the log, and goes on with it: its
    /// [`log_position`](Bitmap::log_position) is the number of good bytes, and its log has no bytes
    /// that are not forgotten.
    pub bitmap: Bitmap,

    /// The number of good bytes: those up to the end of the last whole entry.
    pub good: usize,

    /// Whether there are bytes after the good ones. They have to be cut off before the next entry is
    /// appended.
    pub torn: bool,
}

/// The log: the bitmap and its commits as bytes that only grow.
///
/// From [`begin_log`](Bitmap::begin_log) on, each call that changes what is kept appends its entry to
/// the log of the bitmap, or changes nothing. The program appends the bytes to a file when it wants to.
/// After a crash, [`recover`](Bitmap::recover) makes the bitmap again from what the file has.
impl Bitmap {
    /// Begins a log of the bitmap. The log begins with the history of the bitmap, whose bytes are those
    /// of [`save`](Bitmap::save).
    ///
    /// From then on [`Batch::commit`](crate::Batch::commit), [`rewind_to`](Bitmap::rewind_to),
    /// [`drop_before`](Bitmap::drop_before), [`clear`](Bitmap::clear) and
    /// [`apply_delta`](Bitmap::apply_delta) append their entry to the log. If one of them fails, the log
    /// is unchanged. An entry has 24 bytes of a frame and its body: 25 bytes for a commit, and the bytes
    /// of each chunk that the commit changed with 8 more; 9 bytes for a rewind or a drop; and one byte
    /// for a clear.
    ///
    /// # Errors
    ///
    /// - [`Error::HasLog`] if the bitmap keeps a log.
    /// - [`Error::NoMemory`] if an allocation fails.
    ///
    /// # Complexity
    ///
    /// As [`save`](Bitmap::save).
    ///
    /// # Memory
    ///
    /// Allocates the history as bytes, which the log has until [`forget_log`](Bitmap::forget_log). Also
    /// allocates the bitmap at the first kept commit, which is freed before the return.
    ///
    /// # Examples
    ///
    /// ```
    /// use mortarpink_proved::{Bitmap, Error, Width};
    ///
    /// let mut bitmap = Bitmap::new(Width::Bytes8)?;
    /// bitmap.begin_log()?;
    /// let mut batch = bitmap.begin();
    /// batch.push(true)?;
    /// batch.commit(7)?;
    ///
    /// // The program appends the bytes to its file, and then removes them from the log.
    /// let mut file = bitmap.log_bytes()?;
    /// bitmap.forget_log()?;
    ///
    /// // After a restart both versions are there again.
    /// let recovered = Bitmap::recover(Width::Bytes8, &file)?;
    /// assert!(recovered.bitmap.ones(..).eq([0]));
    /// assert_eq!(recovered.bitmap.latest(), Some(7));
    /// assert_eq!(bitmap.begin_log(), Err(Error::HasLog));
    /// # Ok::<(), Error>(())
    /// ```
    pub fn begin_log(&mut self) -> Result<(), Error> {
        self.settled_mut().begin_log()
    }

    /// Ends the log: the bitmap keeps none afterwards. Bytes that were not written are freed.
    ///
    /// # Errors
    ///
    /// [`Error::NoLog`] if the bitmap keeps no log.
    ///
    /// # Complexity
    ///
    /// Constant. Does not allocate.
    ///
    /// # Examples
    ///
    /// ```
    /// use mortarpink_proved::{Bitmap, Error, Width};
    ///
    /// let mut bitmap = Bitmap::new(Width::Bytes8)?;
    /// bitmap.begin_log()?;
    /// bitmap.end_log()?;
    /// assert!(!bitmap.keeps_log());
    /// assert_eq!(bitmap.end_log(), Err(Error::NoLog));
    /// # Ok::<(), Error>(())
    /// ```
    pub fn end_log(&mut self) -> Result<(), Error> {
        self.settled_mut().end_log()
    }

    /// Returns whether the bitmap keeps a log.
    ///
    /// # Complexity
    ///
    /// Constant. Does not allocate.
    ///
    /// # Examples
    ///
    /// ```
    /// use mortarpink_proved::{Bitmap, Width};
    ///
    /// let mut bitmap = Bitmap::new(Width::Bytes8)?;
    /// assert!(!bitmap.keeps_log());
    /// bitmap.begin_log()?;
    /// assert!(bitmap.keeps_log());
    /// // A copy keeps no log.
    /// assert!(!bitmap.try_clone()?.keeps_log());
    /// # Ok::<(), mortarpink_proved::Error>(())
    /// ```
    pub fn keeps_log(&self) -> bool {
        self.log_position().is_ok()
    }

    /// Returns a copy of the bytes of the log that are not forgotten yet. They stay in the log.
    ///
    /// # Errors
    ///
    /// - [`Error::NoLog`] if the bitmap keeps no log.
    /// - [`Error::NoMemory`] if an allocation fails.
    ///
    /// # Complexity
    ///
    /// Linear in the bytes.
    ///
    /// # Memory
    ///
    /// Allocates the copy.
    ///
    /// # Examples
    ///
    /// ```
    /// use mortarpink_proved::{Bitmap, Width};
    ///
    /// let mut bitmap = Bitmap::new(Width::Bytes8)?;
    /// bitmap.begin_log()?;
    /// bitmap.forget_log()?;
    /// bitmap.clear()?;
    /// // A frame has 16 bytes before its body, which is the tag 5 here, and eight after it.
    /// let bytes = bitmap.log_bytes()?;
    /// assert_eq!((bytes.len(), bytes[16]), (25, 5));
    /// # Ok::<(), mortarpink_proved::Error>(())
    /// ```
    pub fn log_bytes(&self) -> Result<Vec<u8>, Error> {
        self.settled().log_bytes()
    }

    /// Removes the bytes that [`log_bytes`](Bitmap::log_bytes) returns, once the program has written
    /// them to its file.
    ///
    /// All bytes are removed, also those that were appended after the last call of
    /// [`log_bytes`](Bitmap::log_bytes). The log keeps its position, its digest, and the capacity for
    /// its bytes.
    ///
    /// # Errors
    ///
    /// [`Error::NoLog`] if the bitmap keeps no log.
    ///
    /// # Complexity
    ///
    /// Constant. Does not allocate.
    ///
    /// # Examples
    ///
    /// ```
    /// use mortarpink_proved::{Bitmap, Width};
    ///
    /// let mut bitmap = Bitmap::new(Width::Bytes8)?;
    /// bitmap.begin_log()?;
    /// let file = bitmap.log_bytes()?;
    /// bitmap.forget_log()?;
    /// assert_eq!((file.len(), bitmap.log_bytes()?.len(), bitmap.log_position()?), (90, 0, 90));
    /// # Ok::<(), mortarpink_proved::Error>(())
    /// ```
    pub fn forget_log(&mut self) -> Result<(), Error> {
        self.settled_mut().forget_log()
    }

    /// Removes the bytes that are not forgotten yet from the log, and returns them.
    ///
    /// If the program cannot write them, they are lost unless it keeps them. So a program that may
    /// fail to write calls [`log_bytes`](Bitmap::log_bytes), and [`forget_log`](Bitmap::forget_log)
    /// after the write.
    ///
    /// # Errors
    ///
    /// The errors of [`log_bytes`](Bitmap::log_bytes). No bytes are removed then.
    ///
    /// # Complexity
    ///
    /// Linear in the bytes.
    ///
    /// # Memory
    ///
    /// Allocates the copy that it returns. The log keeps the capacity for its bytes.
    ///
    /// # Examples
    ///
    /// ```
    /// use mortarpink_proved::{Bitmap, Width};
    ///
    /// let mut bitmap = Bitmap::new(Width::Bytes8)?;
    /// bitmap.begin_log()?;
    /// let mut file = bitmap.take_log()?;
    /// bitmap.begin().commit(1)?;
    /// // The entry of a commit that changed no chunk.
    /// file.extend(bitmap.take_log()?);
    /// assert_eq!(file.len(), 90 + 24 + 25);
    /// # Ok::<(), mortarpink_proved::Error>(())
    /// ```
    pub fn take_log(&mut self) -> Result<Vec<u8>, Error> {
        let bytes = self.log_bytes()?;
        self.forget_log()?;
        Ok(bytes)
    }

    /// Returns the number of bytes of the whole log. Bytes that were forgotten count.
    ///
    /// # Errors
    ///
    /// [`Error::NoLog`] if the bitmap keeps no log.
    ///
    /// # Complexity
    ///
    /// Constant. Does not allocate.
    ///
    /// # Examples
    ///
    /// ```
    /// use mortarpink_proved::{Bitmap, Width};
    ///
    /// let mut bitmap = Bitmap::new(Width::Bytes8)?;
    /// bitmap.begin_log()?;
    /// bitmap.forget_log()?;
    /// bitmap.drop_before(7)?;
    /// // The header and the base, and a frame with nine bytes of an entry.
    /// assert_eq!((bitmap.log_position()?, bitmap.log_bytes()?.len()), (90 + 33, 33));
    /// # Ok::<(), mortarpink_proved::Error>(())
    /// ```
    pub fn log_position(&self) -> Result<u64, Error> {
        self.settled().log_position()
    }

    /// Returns the digest of the whole log: that of its last frame, which depends on all frames before
    /// it.
    ///
    /// If two logs of one width have the same position and the same digest, they have the same bytes,
    /// unless two inputs of the digest collide.
    ///
    /// # Errors
    ///
    /// [`Error::NoLog`] if the bitmap keeps no log.
    ///
    /// # Complexity
    ///
    /// Constant. Does not allocate.
    ///
    /// # Examples
    ///
    /// ```
    /// use mortarpink_proved::{Bitmap, Width};
    ///
    /// let mut bitmap = Bitmap::new(Width::Bytes8)?;
    /// bitmap.begin_log()?;
    /// // It is in the last eight bytes.
    /// assert_eq!(bitmap.log_bytes()?[82..], bitmap.log_digest()?.to_be_bytes());
    /// # Ok::<(), mortarpink_proved::Error>(())
    /// ```
    pub fn log_digest(&self) -> Result<u64, Error> {
        self.settled().log_digest()
    }

    /// Makes a bitmap from the bytes of a log, whole or cut off by a crash. The bitmap keeps the log,
    /// and goes on with it.
    ///
    /// The bitmap is that after the last entry whose frame is whole. It has the current version, the
    /// kept commits and the last number of the bitmap that kept the log; a commit may have fewer
    /// entries, so [`entries`](Bitmap::entries) may return a smaller number. It is not indexed. The
    /// bytes after the last whole frame are torn if they are fewer than 16, if they end within a frame,
    /// or if all of them are zero. Then they are left out, and the program cuts its file off after the
    /// good bytes before it appends the next entry.
    ///
    /// # Errors
    ///
    /// The first error of the bytes, from the first byte on. No bitmap is made then.
    ///
    /// - [`Error::CutOff`] if the bytes end before the header does, which has 32 bytes, or before the
    ///   frame of the base does, which is the bitmap that the log begins with.
    /// - [`Error::WrongHeader`] if the bytes do not begin with the header of a log of this width.
    /// - [`Error::Damaged`] if a frame is not one that was written at its place of this log.
    ///   [`RecoverError::at`] returns the position of the frame.
    /// - [`Error::NotAccepted`] if the digests of a frame are right, but its body is no base, or no
    ///   entry that can follow. [`RecoverError::at`] returns the position of the frame.
    /// - [`Error::NoMemory`] if an allocation fails.
    ///
    /// From a log that is cut off, the error is never [`Error::Damaged`] or [`Error::NotAccepted`].
    ///
    /// # Complexity
    ///
    /// Linear in the bytes, and as [`rewind_to`](Bitmap::rewind_to) for each rewind in the log. If a
    /// commit makes the bitmap grow, it may also move in memory.
    ///
    /// # Memory
    ///
    /// Allocates the bitmap with its commits.
    ///
    /// # Examples
    ///
    /// ```
    /// use mortarpink_proved::{Bitmap, Error, Width};
    ///
    /// let mut bitmap = Bitmap::new(Width::Bytes8)?;
    /// bitmap.begin_log()?;
    /// let mut batch = bitmap.begin();
    /// batch.push_bits(&[true, false, true])?;
    /// batch.commit(7)?;
    /// let mut bytes = bitmap.take_log()?;
    ///
    /// let whole = Bitmap::recover(Width::Bytes8, &bytes)?;
    /// assert_eq!((whole.bitmap.latest(), whole.bitmap.len(), whole.torn), (Some(7), 3, false));
    ///
    /// // Without its last byte it is the log before the commit, and a torn rest.
    /// let cut = Bitmap::recover(Width::Bytes8, &bytes[..154])?;
    /// assert_eq!((cut.bitmap.latest(), cut.good, cut.torn), (None, 90, true));
    ///
    /// // A byte of the base is changed, which is in the first frame.
    /// bytes[60] ^= 1;
    /// let failed = Bitmap::recover(Width::Bytes8, &bytes).unwrap_err();
    /// assert_eq!((failed.error(), failed.at()), (Error::Damaged, Some(32)));
    /// # Ok::<(), Error>(())
    /// ```
    pub fn recover(width: Width, bytes: &[u8]) -> Result<Recovered, RecoverError> {
        let (session, good) = Session::recover(width.bytes() as u32, bytes)?;
        let bitmap = Bitmap::from_session(session, width);
        Ok(Recovered { bitmap, good, torn: good < bytes.len() })
    }
}
