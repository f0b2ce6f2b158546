//! Calls of historical bitmaps. Each runs many batches, reads in a batch, or reads a bitmap with 1001 commits.

use crate::batches::{committed, count_random, edit, filled, read_random};
use crate::dense::sum_of;
use commonware_utils::bitmap::historical::{CleanBitMap, DirtyBitMap};
use shared::{timed, Arguments, Positions, SETS};
use std::hint::black_box;

// The number of the last commit of the bitmap whose past states are read.
const LAST: u64 = 1000;

// Begins a batch and makes its edits. Also returns how many of the bits that they remove or read are set.
fn edited<const N: usize>(bitmap: CleanBitMap<N>, edits: &str, positions: &mut Positions) -> Option<(DirtyBitMap<N>, u64)> {
    let mut batch = bitmap.into_dirty();
    let read = edit(&mut batch, edits, positions)?;
    Some((batch, read))
}

// Edits a batch, reads one of its bits and aborts it, `times` times.
fn abort_each<const N: usize>(mut bitmap: CleanBitMap<N>, edits: &str, times: u64) -> Option<u64> {
    let mut positions = Positions::from_seed(times);
    timed(|| {
        let mut sum = 0;
        for _ in 0..times {
            let (batch, read) = edited(bitmap, edits, &mut positions)?;
            sum += read + read_random(&batch, &mut positions) + batch.len();
            bitmap = batch.abort();
        }
        Some(sum + bitmap.len())
    })
}

// Edits a batch and commits it, `times` times. Earlier commits are dropped.
fn commit_each<const N: usize>(mut bitmap: CleanBitMap<N>, edits: &str, times: u64) -> Option<u64> {
    let mut positions = Positions::from_seed(times);
    let (sum, bitmap) = timed(|| {
        let mut sum = 0;
        for round in 0..times {
            let (batch, read) = edited(bitmap, edits, &mut positions)?;
            sum += read;
            bitmap = committed(batch, round + 1);
            bitmap.prune_commits_before(round + 1);
        }
        Some((sum, bitmap))
    })?;
    Some(sum + bitmap.len() + count_random(bitmap.current(), &mut positions, SETS))
}

// Reads `times` random bits, or the first bytes of as many random chunks, of a batch that has set random bits.
fn read_pending<const N: usize>(bitmap: CleanBitMap<N>, chunks: bool, times: u64) -> Option<u64> {
    let mut positions = Positions::from_seed(times);
    let (batch, _) = edited(bitmap, "set_far", &mut positions)?;
    let bits = batch.len();
    Some(match chunks {
        true => sum_of(times, || u64::from(batch.get_chunk(positions.step() % bits)[0])),
        false => sum_of(times, || read_random(&batch, &mut positions)),
    })
}

// Adds the commits 1 to `LAST`, each of which sets random bits.
fn with_commits<const N: usize>(mut bitmap: CleanBitMap<N>) -> Option<CleanBitMap<N>> {
    let mut positions = Positions::from_seed(LAST);
    for number in 0..LAST {
        let (batch, _) = edited(bitmap, "set_far", &mut positions)?;
        bitmap = committed(batch, number + 1);
    }
    Some(bitmap)
}

// Rebuilds a past state as a bitmap, and reads one of its bits.
fn read_owned<const N: usize>(bitmap: &CleanBitMap<N>, number: u64, times: u64) -> Option<u64> {
    let mut positions = Positions::from_seed(times);
    bitmap.commit_exists(number).then(|| {
        sum_of(times, || bitmap.get_at_commit(number).map_or(0, |found| count_random(black_box(&found), &mut positions, 1)))
    })
}

fn number_each<const N: usize>(bitmap: &CleanBitMap<N>, times: u64) -> u64 {
    timed(|| {
        (0..times).fold(0, |sum, _| {
            bitmap.commits().fold(sum, |sum: u64, number| sum.wrapping_mul(31).wrapping_add(number))
        })
    })
}

// Runs a call of a bitmap with 1001 commits.
fn run_past<const N: usize>(call: &str, bitmap: &CleanBitMap<N>, times: u64) -> Option<u64> {
    let mut positions = Positions::from_seed(times);
    match call {
        "read_oldest" => read_owned(bitmap, 0, times),
        "read_middle" => read_owned(bitmap, LAST / 2, times),
        "read_newest" => read_owned(bitmap, LAST, times),
        "clone_commits" => Some(sum_of(times, || black_box(bitmap.clone()).len())),
        "commit_exists" => Some(sum_of(times, || u64::from(bitmap.commit_exists(positions.step() % (2 * LAST))))),
        "commit_numbers" => Some(number_each(bitmap, times)),
        _ => None,
    }
}

/// Runs a call of a historical bitmap, if `arguments` name one.
pub fn run<const N: usize>(arguments: &Arguments) -> Option<u64> {
    let bitmap = || filled::<N>(arguments.bytes);
    let times = arguments.times;
    match arguments.call.as_str() {
        "pending_bits" => read_pending(bitmap(), false, times),
        "pending_chunks" => read_pending(bitmap(), true, times),
        call @ ("read_oldest" | "read_middle" | "read_newest" | "clone_commits" | "commit_exists" | "commit_numbers") => {
            run_past(call, &with_commits(bitmap())?, times)
        }
        call => match call.split_once('_')? {
            ("batch", edits) => abort_each(bitmap(), edits, times),
            ("commit", edits) => commit_each(bitmap(), edits, times),
            _ => None,
        },
    }
}
