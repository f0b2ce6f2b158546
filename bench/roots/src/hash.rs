//! SHA-256 as the hash of roots, and how long single hashes take.

use mortarpink::roots::{leaf_digest, node_digest, Digest};
use sha2::Digest as _;
use shared::{timed, Arguments, BYTE};
use std::cell::Cell;

/// SHA-256 of the crate `sha2`.
#[derive(Default)]
pub struct Sha256;

impl Digest for Sha256 {
    fn digest(&self, tag: u8, first: &[u8], second: &[u8]) -> [u8; 32] {
        let mut hasher = sha2::Sha256::new();
        hasher.update([tag]);
        hasher.update(first);
        hasher.update(second);
        hasher.finalize().into()
    }

    fn digest_of_nothing(&self) -> [u8; 32] {
        sha2::Sha256::digest([]).into()
    }
}

/// The same hash, which counts how often it is called.
#[derive(Default)]
pub struct Counted {
    made: Cell<u64>,
}

impl Counted {
    /// Returns how many digests were made so far.
    pub fn made(&self) -> u64 {
        self.made.get()
    }
}

impl Digest for Counted {
    fn digest(&self, tag: u8, first: &[u8], second: &[u8]) -> [u8; 32] {
        self.made.set(self.made.get() + 1);
        Sha256.digest(tag, first, second)
    }

    fn digest_of_nothing(&self) -> [u8; 32] {
        self.made.set(self.made.get() + 1);
        Sha256.digest_of_nothing()
    }
}

/// Returns the first bytes of a digest as a number.
pub fn word_of(digest: &[u8; 32]) -> u64 {
    digest.iter().take(8).fold(0, |word, byte| word << 8 | u64::from(*byte))
}

// Hashes `times` leaves. Each has the first bytes of the digest before, so that no hash can begin early.
fn hash_leaves<const N: usize>(times: u64) -> u64 {
    let mut leaf = [BYTE; N];
    timed(|| {
        for _ in 0..times {
            let digest = leaf_digest(&Sha256, &leaf);
            leaf.iter_mut().zip(digest).for_each(|(byte, new)| *byte = new);
        }
    });
    leaf.iter().fold(0, |sum, byte| sum + u64::from(*byte))
}

// Hashes `times` nodes, each of the digest before.
fn hash_nodes(times: u64) -> u64 {
    let digest = timed(|| (0..times).fold([BYTE; 32], |digest, _| node_digest(&Sha256, &digest, &digest)));
    word_of(&digest)
}

/// Runs a call that hashes alone, if `arguments` name one.
pub fn run<const N: usize>(arguments: &Arguments) -> Option<u64> {
    match arguments.call.as_str() {
        "hash_leaf" => Some(hash_leaves::<N>(arguments.times)),
        "hash_node" => Some(hash_nodes(arguments.times)),
        _ => None,
    }
}
