//! Calls of a historical bitmap with many small commits. Each commit sets one random bit.
//!
//! `commonware-utils` reads a past state by `get_at_commit` only, which rebuilds it:
//!
//! - `kept_get`, `at_get` and `indexed_get` rebuild the oldest commit once per `READS` bits;
//! - `kept_scan`, `at_scan`, `gathered_scan`, `chosen_scan` and `indexed_scan` rebuild it each time;
//! - `kept_rewind` rebuilds the commit to which it would rewind, which is the one before the last, and keeps the last one.

use crate::batches::{committed, count_random, filled};
use crate::dense::sum_of;
use commonware_utils::bitmap::historical::CleanBitMap;
use commonware_utils::bitmap::Readable;
use shared::{timed, Arguments, Positions};
use std::hint::black_box;

// The number of bits that are read of a past state once it is rebuilt.
const READS: u64 = 100;

// Sets a random bit, and commits that under a number.
fn commit_one<const N: usize>(bitmap: CleanBitMap<N>, positions: &mut Positions, number: u64) -> CleanBitMap<N> {
    let mut batch = bitmap.into_dirty();
    let drawn = positions.step();
    let bits = batch.len().max(1);
    batch.set_bit((drawn >> 1) % bits, drawn & 1 == 1);
    committed(batch, number)
}

/// Commits, `times` times, after `count` commits. If `window` is true, then drops the oldest kept commit each time.
pub fn commit_each<const N: usize>(
    mut bitmap: CleanBitMap<N>,
    positions: &mut Positions,
    count: u64,
    times: u64,
    window: bool,
) -> CleanBitMap<N> {
    for round in 0..times {
        bitmap = commit_one(bitmap, positions, count + round + 1);
        if window {
            bitmap.prune_commits_before(round + 1);
        }
    }
    bitmap
}

fn commits_of<const N: usize>(bitmap: &CleanBitMap<N>) -> u64 {
    bitmap.commits().count() as u64
}

// Commits, and rebuilds the commit before, `times` times. Returns how many commits a rewind would leave.
fn rewind_each<const N: usize>(mut bitmap: CleanBitMap<N>, positions: &mut Positions, count: u64, times: u64) -> Option<u64> {
    for round in 0..times {
        bitmap = commit_one(bitmap, positions, count + round + 1);
        black_box(bitmap.get_at_commit(count + round)?);
    }
    Some(commits_of(&bitmap) - times)
}

fn get_each<const N: usize>(bitmap: &CleanBitMap<N>, positions: &mut Positions, times: u64) -> Option<u64> {
    timed(|| {
        let mut sum = 0;
        for first in (0..times).step_by(READS as usize) {
            let found = black_box(bitmap.get_at_commit(0)?);
            sum += count_random(&found, positions, READS.min(times - first));
        }
        Some(sum)
    })
}

fn scan_each<const N: usize>(bitmap: &CleanBitMap<N>, times: u64) -> Option<u64> {
    timed(|| {
        let mut sum = 0;
        for _ in 0..times {
            sum += bitmap.get_at_commit(0)?.ones_iter_from(0).count() as u64;
        }
        Some(sum)
    })
}

/// Runs a call on a bitmap with `count` small commits, if `arguments` name one.
pub fn run<const N: usize>(arguments: &Arguments, count: u64) -> Option<u64> {
    let times = arguments.times;
    let mut positions = Positions::from_seed(4);
    let bitmap = commit_each(filled::<N>(arguments.bytes), &mut positions, 0, count, false);
    match arguments.call.as_str() {
        "kept_commit" => Some(commits_of(&commit_each(bitmap, &mut positions, count, times, false))),
        "kept_window" => Some(commits_of(&commit_each(bitmap, &mut positions, count, times, true))),
        "kept_rewind" => rewind_each(bitmap, &mut positions, count, times),
        "kept_rebuild" => Some(sum_of(times, || bitmap.get_at_commit(0).map_or(0, |found| black_box(found).len()))),
        "kept_get" | "at_get" | "indexed_get" => get_each(&bitmap, &mut positions, times),
        "kept_scan" | "at_scan" | "gathered_scan" | "chosen_scan" | "indexed_scan" => scan_each(&bitmap, times),
        _ => None,
    }
}
