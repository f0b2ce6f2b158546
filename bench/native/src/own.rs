//! Calls of the Rust crate in `native` that `commonware-utils` does not have, or for which it needs others.

use crate::batches::filled as filled_history;
use crate::dense::{filled, sum_of};
use crate::kept::commit_each;
use commonware_utils::bitmap::historical::CleanBitMap;
use commonware_utils::bitmap::{BitMap, Readable};
use shared::{timed, Arguments, Positions};

// Returns how many of `count` random bits of a past state are set.
fn count_random<const N: usize>(found: &impl Readable<N>, positions: &mut Positions, count: u64) -> u64 {
    let bits = found.len();
    sum_of(count, || u64::from(found.get_bit(positions.step() % bits)))
}

// Reads the oldest commit in place: all set positions, or random bits.
fn read_in_place<const N: usize>(found: &impl Readable<N>, scans: bool, positions: &mut Positions, times: u64) -> u64 {
    match scans {
        true => sum_of(times, || found.ones_iter_from(0).count() as u64),
        false => count_random(found, positions, times),
    }
}

// Lists the set positions of the oldest commit, with the chunks that later commits changed gathered anew each time.
fn scan_gathered<const N: usize>(bitmap: &CleanBitMap<N>, times: u64) -> u64 {
    sum_of(times, || bitmap.gathered(0).map_or(0, |found| found.ones_iter_from(0).count() as u64))
}

// Lists the set positions of the oldest commit, in the way that `at_for` chooses anew each time.
fn scan_chosen<const N: usize>(bitmap: &CleanBitMap<N>, times: u64) -> u64 {
    sum_of(times, || bitmap.at_for(0, u64::MAX).map_or(0, |found| found.ones_iter_from(0).count() as u64))
}

// Runs a call that reads the oldest of `count` commits, with an index or without.
fn run_past<const N: usize>(arguments: &Arguments, count: u64) -> Option<u64> {
    let (kind, what) = arguments.call.split_once('_')?;
    if !["at", "chosen", "gathered", "indexed"].contains(&kind) {
        return None;
    }
    let mut positions = Positions::from_seed(4);
    let bitmap = commit_each(filled_history::<N>(arguments.bytes), &mut positions, 0, count, false);
    match kind {
        "chosen" => return Some(scan_chosen(&bitmap, arguments.times)),
        "gathered" => return Some(scan_gathered(&bitmap, arguments.times)),
        _ => (),
    }
    let bitmap = if kind == "indexed" { bitmap.indexed().ok()? } else { bitmap };
    Some(read_in_place(&bitmap.at(0)?, what == "scan", &mut positions, arguments.times))
}

// Appends bits to a bitmap that has no capacity at first.
fn push_new<const N: usize>(bits: u64, times: u64) -> u64 {
    sum_of(times, || {
        let mut map = BitMap::<N>::new();
        (0..bits).for_each(|position| map.push(position % 3 == 0));
        map.count_ones()
    })
}

// Sets and clears a range that leaves out at most seven bits, in turn.
fn set_range<const N: usize>(map: &mut BitMap<N>, times: u64) -> u64 {
    timed(|| {
        for round in 0..times {
            let bits = map.len();
            map.set_range(round % 8..bits, round % 2 == 0);
        }
    });
    map.count_ones()
}

// Clears the bits that another bitmap has set, which has none.
fn and_not<const N: usize>(map: &mut BitMap<N>, times: u64) -> u64 {
    let mut other = map.clone();
    other.set_all(false);
    timed(|| (0..times).for_each(|_| map.and_not(&other)));
    map.count_ones()
}

// Tests whether each set bit is set in an equal bitmap. One bit of both changes in each round.
fn is_subset<const N: usize>(map: &mut BitMap<N>, times: u64) -> u64 {
    let mut other = map.clone();
    sum_of(times, || {
        map.flip(0);
        other.flip(0);
        u64::from(map.is_subset(&other))
    })
}

// Counts the set bits of a range that leaves out at most seven bits.
fn count_ones_range<const N: usize>(map: &BitMap<N>, times: u64) -> u64 {
    timed(|| (0..times).fold(0, |sum, round| sum + map.count_ones_range(round % 8..u64::MAX)))
}

/// Runs a call that `arguments` name, if this crate has it alone.
pub fn run<const N: usize>(arguments: &Arguments) -> Option<u64> {
    if let Some(count) = arguments.commits {
        return run_past::<N>(arguments, count);
    }
    let times = arguments.times;
    let map = || filled::<N>(arguments.bytes);
    Some(match arguments.call.as_str() {
        "push_new" => push_new::<N>(8 * arguments.bytes, times),
        "set_range" => set_range(&mut map(), times),
        "and_not" => and_not(&mut map(), times),
        "is_subset" => is_subset(&mut map(), times),
        "count_ones_range" => count_ones_range(&map(), times),
        _ => return None,
    })
}
