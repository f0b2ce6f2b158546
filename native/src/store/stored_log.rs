//! The log of a store in its files.

use super::Durability;
use super::error::StoreError;
use super::files::{Files, Name};
use super::receipts::{Kind, Receipts};
use crate::log::frames::{Place, push_frame};
use std::boxed::Box;
use std::io;
use std::vec::Vec;

/// A log in a file, to whose end entries are appended.
#[derive(Debug)]
pub(super) struct StoredLog {
    files: Box<dyn Files>,
    receipts: Receipts,
    // The place after the last entry.
    place: Place,
    durability: Durability,
    // Whether there are entries that are not acknowledged.
    has_unsynced: bool,
    // Whether a call failed after it had begun to write. Nothing is written any more then.
    is_read_only: bool,
    // Where a frame is encoded, kept for its capacity.
    frame: Vec<u8>,
}

impl StoredLog {
    /// The log in these files, which is not read yet.
    pub(super) fn new(files: Box<dyn Files>, receipts: Receipts, durability: Durability) -> StoredLog {
        let place = Place { at: 0, digest: 0 };
        StoredLog { files, receipts, place, durability, has_unsynced: false, is_read_only: false, frame: Vec::new() }
    }

    /// The number of bytes up to the last entry.
    pub(super) fn position(&self) -> u64 {
        self.place.at
    }

    pub(super) fn is_read_only(&self) -> bool {
        self.is_read_only
    }

    pub(super) fn set_read_only(&mut self) {
        self.is_read_only = true;
    }

    pub(super) fn check_writable(&self) -> Result<(), StoreError> {
        if self.is_read_only { Err(StoreError::ReadOnly) } else { Ok(()) }
    }

    /// Makes calls of the files. If one of them fails, nothing is written any more.
    fn write(&mut self, calls: impl FnOnce(&mut Self) -> io::Result<()>) -> Result<(), StoreError> {
        self.check_writable()?;
        self.is_read_only = true;
        calls(self)?;
        self.is_read_only = false;
        Ok(())
    }

    /// Appends the frame of an entry's encoding, and returns once it is as durable as the store's calls are.
    pub(super) fn append(&mut self, body: &[u8]) -> Result<(), StoreError> {
        self.check_writable()?;
        self.frame.clear();
        let next = push_frame(&mut self.frame, self.place, body)?;
        self.write(|log| {
            log.has_unsynced = true;
            log.files.write_at(Name::Log, log.place.at, &log.frame)?;
            if log.durability == Durability::Synced {
                log.acknowledge(next)?;
            }
            log.place = next;
            Ok(())
        })
    }

    /// Returns once all entries are acknowledged.
    pub(super) fn sync(&mut self) -> Result<(), StoreError> {
        self.check_writable()?;
        if self.has_unsynced { self.write(|log| log.acknowledge(log.place)) } else { Ok(()) }
    }

    /// Returns once the bytes before a place are on the disk, and the receipt of this too.
    fn acknowledge(&mut self, place: Place) -> io::Result<()> {
        self.files.sync(Name::Log)?;
        self.write_receipt(Kind::Kept, place)?;
        self.has_unsynced = false;
        Ok(())
    }

    fn write_receipt(&mut self, kind: Kind, place: Place) -> io::Result<()> {
        let (receipts, at, block) = self.receipts.with(kind, place);
        self.write_block(at, &block)?;
        self.receipts = receipts;
        Ok(())
    }

    /// Returns once a block of the receipts is on the disk.
    fn write_block(&mut self, at: u64, block: &[u8]) -> io::Result<()> {
        self.files.write_at(Name::Receipts, at, block)?;
        self.files.sync(Name::Receipts)
    }

    /// Replaces the log by a new one, which ends at a place. If the new one cannot be written, the log is as it was and can be written to.
    pub(super) fn replace(&mut self, bytes: &[u8], place: Place) -> Result<(), StoreError> {
        // While a receipt is written, the log that it may not replace has no entry that a crash may damage.
        self.sync()?;
        if let Err(error) = self.write_new(bytes) {
            let _ = self.files.remove_new();
            return Err(error.into());
        }
        self.write(|log| {
            // Either of the two logs may be found from here on.
            log.write_receipt(Kind::Begun, place)?;
            log.files.rename_new()?;
            log.files.sync_folder()?;
            log.write_receipt(Kind::Kept, place)?;
            log.place = place;
            log.has_unsynced = false;
            Ok(())
        })
    }

    fn write_new(&mut self, bytes: &[u8]) -> io::Result<()> {
        self.files.create_new()?;
        self.files.write_at(Name::New, 0, bytes)?;
        self.files.sync(Name::New)
    }

    /// Removes all receipts: those of a log that is gone.
    pub(super) fn forget_receipts(&mut self) -> io::Result<()> {
        if !self.receipts.are_none() {
            self.files.cut_to(Name::Receipts, 0)?;
            self.files.sync(Name::Receipts)?;
            self.receipts = Receipts::NONE;
        }
        Ok(())
    }

    /// Goes on at a place in the bytes of the log, and cuts off the bytes after it. The bytes before `acknowledged` are acknowledged.
    ///
    /// The bytes between the two places are written again, since a sync that failed, or a process that ended, may have left them in memory alone. If
    /// all bytes are acknowledged, the last receipt is written again for the same reason. So the disk has the receipts before an entry is appended,
    /// and an entry that a crash damages is known not to be acknowledged.
    pub(super) fn go_on(&mut self, bytes: &[u8], acknowledged: Option<Place>, place: Place) -> io::Result<()> {
        self.place = place;
        // A compaction that was cut off has left this file.
        self.files.remove_new()?;
        let is_cut = place.at < bytes.len() as u64;
        if let Some((at, block)) = self.receipts.kept(place).filter(|_| !is_cut) {
            return self.write_block(at, &block);
        }
        if let Some(from) = acknowledged {
            self.receipts = self.receipts.of_the_log(from);
            self.files.write_at(Name::Log, from.at, &bytes[from.at as usize..place.at as usize])?;
        }
        if is_cut {
            self.files.cut_to(Name::Log, place.at)?;
        }
        self.files.sync_folder()?;
        self.acknowledge(place)
    }

    /// Goes on at a place before which all bytes are good, whatever the receipts say, and cuts off the bytes after it. Both receipts then have this
    /// place.
    pub(super) fn cut_back(&mut self, place: Place) -> io::Result<()> {
        self.files.sync_folder()?;
        self.acknowledge(place)?;
        self.place = place;
        self.files.cut_to(Name::Log, place.at)?;
        self.acknowledge(place)
    }
}

/// Entries that were not synced are synced if this succeeds. An error is not reported: `sync` does this.
impl Drop for StoredLog {
    fn drop(&mut self) {
        let _ = self.sync();
    }
}
