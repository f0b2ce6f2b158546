//! Commits of many sets with their roots and without, and rewinds.

use crate::hash::{word_of, Counted, Sha256};
use crate::versions::{commit_small, flips, with_commits, Versions};
use mortarpink::bitmap::historical::CleanBitMap;
use mortarpink::roots::{bitmap_root, chunk_digests, AuthenticatedBitMap};
use shared::{timed, Arguments};

// The number of random bits that a timed commit flips.
const SETS: u64 = 100;

// The number of commits by which a rewind goes back.
const REWOUND: u64 = 1000;

// Timed commits flip the positions of this seed.
const SEED: u64 = 9;

// Commits `times` versions after `count` of them, which all stay kept. `read` is called after each commit with its number. Returns the bitmap, and
// the sum of what `read` returned.
fn commit_each<const N: usize, V: Versions<N>>(mut bitmap: V, count: u64, times: u64, read: impl Fn(&V, u64) -> u64) -> (V, u64) {
    let edits = flips(bitmap.current(), SEED, times * SETS);
    timed(|| {
        let mut sum: u64 = 0;
        for (batch, number) in edits.chunks(SETS as usize).zip(count + 1..) {
            bitmap = bitmap.committed(batch, number);
            sum = sum.wrapping_add(read(&bitmap, number));
        }
        (bitmap, sum)
    })
}

// Commits with their roots, and returns how many hashes that takes.
fn count_hashes<const N: usize>(bitmap: AuthenticatedBitMap<N, Counted>, count: u64, times: u64) -> u64 {
    let before = bitmap.hash().made();
    let (bitmap, _) = commit_each(bitmap, count, times, |bitmap, _| word_of(&bitmap.root()));
    bitmap.hash().made() - before
}

// Hashes all chunks of the current version, and what is above them.
fn hash_again<const N: usize>(bitmap: &CleanBitMap<N>) -> u64 {
    let current = bitmap.current();
    word_of(&bitmap_root(&Sha256, current, &chunk_digests(&Sha256, current, &[])))
}

// Returns how many digests depend on some leaves of a tree, whose indices are ascending: those of the leaves, of the nodes above them, each once,
// and the root. `count` is the number of leaves.
fn dependent_digests(mut changed: Vec<usize>, mut count: usize) -> u64 {
    if changed.is_empty() {
        return 0;
    }
    let mut sum = changed.len() + 1;
    while count > 1 {
        changed.iter_mut().for_each(|index| *index /= 2);
        changed.dedup();
        // A last digest without a neighbour goes up a level as it is.
        sum += changed.iter().filter(|index| 2 * **index + 1 < count).count();
        count = count.div_ceil(2);
    }
    sum as u64
}

// Returns how many digests a commit has to change, by the chunks in which its version differs from the one before.
fn count_changed<const N: usize>(bitmap: &CleanBitMap<N>, number: u64) -> u64 {
    let changed = bitmap.changed_chunks(number - 1, number).expect("both versions are kept");
    dependent_digests(changed.collect(), bitmap.len().div_ceil(8 * N as u64) as usize)
}

// Commits small versions after `count` of them and rewinds to before them, `times` times. Only the rewinds are timed.
fn rewind_each<const N: usize, V: Versions<N>>(mut bitmap: V, count: u64, times: u64) -> u64 {
    for _ in 0..times {
        bitmap = commit_small(bitmap, count, REWOUND);
        bitmap = timed(|| bitmap.rewound(count));
    }
    bitmap.current().count_ones()
}

/// Runs a call that commits or rewinds after `count` small commits, if `arguments` name one.
pub fn run<const N: usize>(arguments: &Arguments, count: u64) -> Option<u64> {
    let (bytes, times) = (arguments.bytes, arguments.times);
    let plain = || with_commits::<N, CleanBitMap<N>>(bytes, count);
    let rooted = || with_commits::<N, AuthenticatedBitMap<N, Sha256>>(bytes, count);
    Some(match arguments.call.as_str() {
        "rooted_commit" => commit_each(rooted(), count, times, |bitmap, _| word_of(&bitmap.root())).1,
        "plain_commit" => commit_each(plain(), count, times, |bitmap, _| bitmap.len()).1,
        "rehashed_commit" => commit_each(plain(), count, times, |bitmap, _| hash_again(bitmap)).1,
        "hashes" => count_hashes::<N>(with_commits(bytes, count), count, times),
        "changed_digests" => commit_each(plain(), count, times, count_changed).1,
        "rooted_rewind" => rewind_each(rooted(), count, times),
        "plain_rewind" => rewind_each(plain(), count, times),
        _ => return None,
    })
}
