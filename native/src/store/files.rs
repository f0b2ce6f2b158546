//! The files of a store: the calls that it makes on them, and those of the operating system.

use std::boxed::Box;
use std::ffi::OsString;
use std::fmt::Debug;
use std::fs::{self, File, OpenOptions, TryLockError};
use std::io::{self, ErrorKind, Read, Seek, SeekFrom, Write};
use std::path::{Path, PathBuf};
use std::vec::Vec;

/// A file of a store.
#[derive(Clone, Copy, Debug, PartialEq, Eq, PartialOrd, Ord)]
pub enum Name {
    /// The log.
    Log,

    /// A log that is to replace the log, while it is written.
    New,

    /// The receipts, which say what is acknowledged. A store that is open has a lock on this file.
    Receipts,
}

/// The files of a store, in one folder. Tests have files of their own, which fail and crash.
///
/// A write, a cut or a new length may be lost in a crash until the file is synced. A new name may be lost until the folder is synced.
pub trait Files: Debug + Send + Sync {
    /// Locks the store, and makes the file of the receipts if there is none. Returns whether no other store has the lock.
    fn lock(&mut self) -> io::Result<bool>;

    /// Returns all bytes of a file, or `None` if there is no such file.
    fn read(&mut self, name: Name) -> io::Result<Option<Vec<u8>>>;

    /// Makes an empty file for the new log, in the place of one that an earlier run has left.
    fn create_new(&mut self) -> io::Result<()>;

    /// Writes bytes to a file from position `at` on.
    fn write_at(&mut self, name: Name, at: u64, bytes: &[u8]) -> io::Result<()>;

    /// Removes the bytes of a file after the first `len`.
    fn cut_to(&mut self, name: Name, len: u64) -> io::Result<()>;

    /// Returns once the bytes of a file are on the disk.
    fn sync(&mut self, name: Name) -> io::Result<()>;

    /// Gives the new log the name of the log, and removes the old log.
    fn rename_new(&mut self) -> io::Result<()>;

    /// Removes the new log, if there is one.
    fn remove_new(&mut self) -> io::Result<()>;

    /// Returns once the names of the files are on the disk.
    fn sync_folder(&mut self) -> io::Result<()>;
}

/// Files of the operating system.
#[derive(Debug)]
pub(super) struct OsFiles {
    folder: PathBuf,
    log: PathBuf,
    new: PathBuf,
    receipts: PathBuf,
    // The files that are open: the log, the new log, and the receipts.
    open: [Option<File>; 3],
}

/// Returns a path with a suffix.
fn with_suffix(path: &Path, suffix: &str) -> PathBuf {
    let mut name = OsString::from(path);
    name.push(suffix);
    name.into()
}

/// Returns the absolute path of a file, which may be missing. Links are followed, so that a file has one path.
fn absolute(path: &Path) -> io::Result<PathBuf> {
    match fs::canonicalize(path) {
        Err(error) if error.kind() == ErrorKind::NotFound => {
            let name = path.file_name().ok_or(ErrorKind::InvalidInput)?;
            let folder = path.parent().filter(|folder| !folder.as_os_str().is_empty()).unwrap_or(Path::new("."));
            Ok(fs::canonicalize(folder)?.join(name))
        }
        found => found,
    }
}

impl OsFiles {
    /// The files of the store whose log is at this path.
    pub(super) fn new(path: &Path) -> io::Result<OsFiles> {
        let log = absolute(path)?;
        let folder = log.parent().ok_or(ErrorKind::InvalidInput)?.to_path_buf();
        Ok(OsFiles { folder, new: with_suffix(&log, ".new"), receipts: with_suffix(&log, ".receipts"), log, open: [None, None, None] })
    }

    /// Whether there is a log.
    pub(super) fn has_log(&self) -> io::Result<bool> {
        fs::exists(&self.log)
    }

    pub(super) fn boxed(self) -> Box<dyn Files> {
        Box::new(self)
    }

    fn path(&self, name: Name) -> &Path {
        match name {
            Name::Log => &self.log,
            Name::New => &self.new,
            Name::Receipts => &self.receipts,
        }
    }

    /// Returns a file, which is opened if it is not open yet.
    fn file(&mut self, name: Name) -> io::Result<&mut File> {
        let file = match self.open[name as usize].take() {
            Some(file) => file,
            None => OpenOptions::new().read(true).write(true).open(self.path(name))?,
        };
        Ok(self.open[name as usize].insert(file))
    }
}

/// The lock ends with the store. A process that is just being started may have the file too, so closing it is not enough.
impl Drop for OsFiles {
    fn drop(&mut self) {
        if let Some(receipts) = &self.open[Name::Receipts as usize] {
            let _ = receipts.unlock();
        }
    }
}

impl Files for OsFiles {
    fn lock(&mut self) -> io::Result<bool> {
        let receipts = OpenOptions::new().read(true).write(true).create(true).truncate(false).open(&self.receipts)?;
        let locked = receipts.try_lock();
        self.open[Name::Receipts as usize] = Some(receipts);
        match locked {
            Ok(()) => Ok(true),
            Err(TryLockError::WouldBlock) => Ok(false),
            Err(TryLockError::Error(error)) => Err(error),
        }
    }

    fn read(&mut self, name: Name) -> io::Result<Option<Vec<u8>>> {
        let file = match self.file(name) {
            Err(error) if error.kind() == ErrorKind::NotFound => return Ok(None),
            file => file?,
        };
        let mut bytes = Vec::new();
        file.seek(SeekFrom::Start(0))?;
        file.read_to_end(&mut bytes)?;
        Ok(Some(bytes))
    }

    fn create_new(&mut self) -> io::Result<()> {
        let new = OpenOptions::new().read(true).write(true).create(true).truncate(true).open(&self.new)?;
        // Who may read the log may read the new one.
        if let Some(log) = &self.open[Name::Log as usize] {
            new.set_permissions(log.metadata()?.permissions())?;
        }
        self.open[Name::New as usize] = Some(new);
        Ok(())
    }

    fn write_at(&mut self, name: Name, at: u64, bytes: &[u8]) -> io::Result<()> {
        let file = self.file(name)?;
        file.seek(SeekFrom::Start(at))?;
        file.write_all(bytes)
    }

    fn cut_to(&mut self, name: Name, len: u64) -> io::Result<()> {
        self.file(name)?.set_len(len)
    }

    fn sync(&mut self, name: Name) -> io::Result<()> {
        self.file(name)?.sync_data()
    }

    fn rename_new(&mut self) -> io::Result<()> {
        fs::rename(&self.new, &self.log)?;
        self.open[Name::Log as usize] = self.open[Name::New as usize].take();
        Ok(())
    }

    fn remove_new(&mut self) -> io::Result<()> {
        self.open[Name::New as usize] = None;
        match fs::remove_file(&self.new) {
            Err(error) if error.kind() == ErrorKind::NotFound => Ok(()),
            removed => removed,
        }
    }

    fn sync_folder(&mut self) -> io::Result<()> {
        // Other systems than those of the Unix family do not open a folder as a file.
        if cfg!(unix) { File::open(&self.folder)?.sync_all() } else { Ok(()) }
    }
}
