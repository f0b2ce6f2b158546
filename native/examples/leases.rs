//! Leases of addresses by the blocks of a chain: which addresses were leased at a height, and which changed between two heights.
//! The last 16 heights are kept, a reorganisation rewinds to one of them, and all of them are saved and loaded as bytes.
//!
//! This program was written by a reader who had the page `native/README.md` alone.
//!
//! Run it with `cargo run --example leases`.

use mortarpink::AllocError;
use mortarpink::bitmap::Readable;
use mortarpink::bitmap::codec::RangeCfg;
use mortarpink::bitmap::historical::{CleanBitMap, DirtyBitMap, Error, RewindError};
use mortarpink::log::{read_history, write_history};
use std::error::Error as StdError;

/// The number of heights that are kept.
const WINDOW: u64 = 16;

/// All addresses are below this number.
const MOST_ADDRESSES: u64 = 1 << 20;

/// Bit `i` of a version is set if address `i` is leased at its height. Addresses past the length are not leased.
#[derive(Default)]
struct Leases {
    versions: CleanBitMap<8>,
}

/// Leases and releases addresses in a batch: here alone a batch can run out of memory before its commit.
fn edit(batch: &mut DirtyBitMap<8>, changes: &[(u64, bool)]) -> Result<(), AllocError> {
    for &(address, leased) in changes {
        if address >= batch.len() {
            batch.try_extend_to(address + 1)?;
        }
        batch.try_set_bit(address, leased)?;
    }
    Ok(())
}

impl Leases {
    /// Commits the changes of a block under its height: each is an address, and whether it is leased. After an error nothing has changed.
    ///
    /// # Panics
    ///
    /// If an address is not below `MOST_ADDRESSES`. Without this limit one block could take all memory.
    fn block(&mut self, height: u64, changes: &[(u64, bool)]) -> Result<(), Error> {
        assert!(changes.iter().all(|change| change.0 < MOST_ADDRESSES));
        let mut batch = std::mem::take(&mut self.versions).into_dirty();
        let committed = match edit(&mut batch, changes).map_err(Error::from) {
            Ok(()) => batch.try_commit(height),
            Err(error) => Err((batch, error)),
        };
        match committed {
            Ok(versions) => {
                self.versions = versions;
                if let Some(oldest) = self.versions.commits().rev().nth(WINDOW as usize - 1) {
                    self.versions.prune_commits_before(oldest);
                }
                Ok(())
            }
            Err((batch, error)) => {
                self.versions = batch.abort();
                Err(error)
            }
        }
    }

    /// Returns whether an address was leased at a height, or `None` if the height is not kept.
    fn was_leased(&self, address: u64, height: u64) -> Option<bool> {
        let version = self.versions.at(height)?;
        Some(address < version.len() && version.get_bit(address))
    }

    /// Returns the addresses that were leased at a height, or `None` if the height is not kept.
    fn leased(&self, height: u64) -> Option<Vec<u64>> {
        Some(self.versions.at(height)?.ones_iter_from(0).collect())
    }

    /// Returns the addresses whose state differs between two heights, or `None` unless both are kept and `from` is at most `to`.
    fn changed(&self, from: u64, to: u64) -> Option<Vec<u64>> {
        let (older, newer) = (self.versions.at(from)?, self.versions.at(to)?);
        let mut addresses = Vec::new();
        for index in self.versions.changed_chunks(from, to)? {
            let [before, after] = [&older, &newer].map(|version| u64::from_le_bytes(version.retained_bytes(index).unwrap_or_default()));
            let bits = (0..64).filter(|bit| (before ^ after) >> bit & 1 == 1);
            addresses.extend(bits.map(|bit| index as u64 * 64 + bit));
        }
        Some(addresses)
    }

    /// Makes a height current again, and drops those above it. After an error nothing has changed.
    fn rewind(&mut self, height: u64) -> Result<(), RewindError> {
        let (versions, result) = match std::mem::take(&mut self.versions).rewind_to(height) {
            Ok(versions) => (versions, Ok(())),
            Err((versions, error)) => (versions, Err(error)),
        };
        self.versions = versions;
        result
    }

    /// Returns all kept heights as bytes.
    fn save(&self) -> Result<Vec<u8>, Box<dyn StdError>> {
        let mut bytes = Vec::new();
        write_history(&self.versions, &mut bytes)?;
        Ok(bytes)
    }

    /// Makes the leases from bytes that `save` returned. Bytes that go on after them are refused.
    fn load(mut bytes: &[u8]) -> Result<Self, Box<dyn StdError>> {
        let (bits, commits) = (RangeCfg::at_most(MOST_ADDRESSES), RangeCfg::at_most(WINDOW - 1));
        let versions = read_history::<8>(&mut bytes, &bits, &commits)?;
        if !bytes.is_empty() {
            return Err("there are bytes after the history".into());
        }
        Ok(Self { versions })
    }
}

fn main() -> Result<(), Box<dyn StdError>> {
    // Each block from 50 to 70 leases the address of its height, and releases the one of three blocks before.
    let mut leases = Leases::default();
    for height in 50..=70 {
        leases.block(height, &[(height, true), (height - 3, false)])?;
    }

    // The last 16 heights are 55 to 70. Each has three leases.
    assert!(leases.versions.commits().eq(55..=70));
    assert_eq!(leases.leased(55), Some(vec![53, 54, 55]));
    assert_eq!(leases.leased(70), Some(vec![68, 69, 70]));
    assert_eq!(leases.was_leased(62, 64), Some(true));
    assert_eq!(leases.was_leased(62, 65), Some(false));
    assert_eq!(leases.was_leased(1000, 65), Some(false));
    assert_eq!(leases.was_leased(52, 54), None);

    // What was leased and released between two heights does not differ. Addresses 62 and 64 are in two chunks.
    assert_eq!(leases.changed(55, 70), Some(vec![53, 54, 55, 68, 69, 70]));
    assert_eq!(leases.changed(64, 65), Some(vec![62, 65]));
    assert_eq!(leases.changed(70, 70), Some(vec![]));
    assert_eq!(leases.changed(54, 70), None);
    println!("leased at height 70: {:?}", leases.leased(70).unwrap());

    // A reorganisation: height 66 is current again, and another block comes at height 67.
    leases.rewind(66)?;
    leases.block(67, &[(0, true), (64, false)])?;
    assert!(leases.versions.commits().eq(55..=67));
    assert_eq!(leases.leased(67), Some(vec![0, 65, 66]));
    assert_eq!(leases.changed(66, 67), Some(vec![0, 64]));
    assert_eq!(leases.was_leased(70, 70), None);
    println!("leased at height 67 after the reorganisation: {:?}", leases.leased(67).unwrap());

    // What is refused changes nothing: rewinding to a height that is not kept, and a block whose height is not above the last.
    let saved = leases.save()?;
    assert_eq!(leases.rewind(54), Err(RewindError::NoSuchCommit));
    let late = leases.block(67, &[(1, true)]);
    assert_eq!(late, Err(Error::NonMonotonicCommit { previous: 67, attempted: 67 }));
    assert_eq!(leases.save()?, saved);

    // The bytes have all heights, and the loaded leases go on.
    let mut loaded = Leases::load(&saved)?;
    assert!(loaded.versions.commits().eq(leases.versions.commits()));
    assert!((55..=67).all(|height| loaded.leased(height) == leases.leased(height)));
    loaded.block(68, &[(68, true)])?;
    assert_eq!(loaded.leased(68), Some(vec![0, 65, 66, 68]));
    loaded.rewind(55)?;
    assert_eq!(loaded.leased(55), Some(vec![53, 54, 55]));

    // Bytes that are cut off, or that go on, are refused.
    assert!(Leases::load(&saved[..saved.len() - 1]).is_err());
    assert!(Leases::load(&[&saved[..], &[0]].concat()).is_err());
    println!("the heights 55 to 67 are saved and loaded");
    Ok(())
}
