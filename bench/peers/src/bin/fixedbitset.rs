//! The calls of `crates/bench` on the bitmaps of the crate `fixedbitset`.

use fixedbitset::FixedBitSet;
use peers::{dense, sparse};
use shared::{timed, Arguments, Positions, FAR};
use std::hint::black_box;
use std::process::ExitCode;

fn bitmap(words: &[u64]) -> FixedBitSet {
    let blocks = words.iter().flat_map(|word| [*word as u32, (*word >> 32) as u32]);
    FixedBitSet::with_capacity_and_blocks(64 * words.len(), blocks)
}

fn sum_of(times: u64, mut read: impl FnMut() -> u64) -> u64 {
    timed(|| (0..times).fold(0, |sum: u64, _| sum.wrapping_add(read())))
}

fn sum_of_positions(map: &FixedBitSet) -> u64 {
    map.ones().fold(0, |sum: u64, position| sum.wrapping_add(position as u64))
}

// Repeats an edit that takes the round, and counts the set bits at the end.
fn edited(map: &mut FixedBitSet, times: u64, edit: impl Fn(&mut FixedBitSet, u64)) -> u64 {
    timed(|| (0..times).for_each(|round| edit(map, round)));
    map.count_ones(..) as u64
}

// Sets each bit to a value.
fn set_each(map: &mut FixedBitSet, round: u64) {
    for position in 0..map.len() {
        map.set(position, (position as u64 ^ round) % 3 == 0);
    }
}

// Reads bits at random positions, one per `FAR` bits of the bitmap.
fn get_far(map: &FixedBitSet, times: u64) -> u64 {
    let (bits, mut positions) = (map.len() as u64, Positions::from_seed(FAR));
    sum_of(times * bits / FAR, || u64::from(map.contains((positions.step() % bits) as usize)))
}

// Appends bits to a bitmap that has no capacity at first. There is no `push`, so the bitmap grows by a bit before the bit is set.
fn push_new(bits: usize, times: u64) -> u64 {
    sum_of(times, || {
        let mut map = FixedBitSet::with_capacity(0);
        for position in 0..bits {
            map.grow(position + 1);
            map.set(position, position % 3 == 0);
        }
        map.count_ones(..) as u64
    })
}

// Sets and clears a range that leaves out at most seven bits, in turn.
fn set_range(map: &mut FixedBitSet, round: u64) {
    map.set_range((round % 8) as usize.., round % 2 == 0);
}

// Tests whether each set bit is set in an equal bitmap. One bit of both changes in each round.
fn is_subset(map: &mut FixedBitSet, times: u64) -> u64 {
    let mut other = map.clone();
    sum_of(times, || {
        map.toggle(0);
        other.toggle(0);
        u64::from(map.is_subset(&other))
    })
}

// Counts the set bits of a range that leaves out at most seven bits.
fn count_ones_range(map: &FixedBitSet, times: u64) -> u64 {
    timed(|| (0..times).fold(0, |sum, round| sum + map.count_ones((round % 8) as usize..) as u64))
}

// Clears the bits that another bitmap has set, which has none.
fn and_not(map: &mut FixedBitSet, times: u64) -> u64 {
    let none = FixedBitSet::with_capacity(map.len());
    edited(map, times, |map, _| map.difference_with(&none))
}

// Compares with an equal bitmap. One bit of both changes in each round.
fn equal(map: &mut FixedBitSet, times: u64) -> u64 {
    let mut other = map.clone();
    sum_of(times, || {
        map.toggle(0);
        other.toggle(0);
        u64::from(*map == other)
    })
}

fn run(arguments: &Arguments) -> Option<u64> {
    let times = arguments.times;
    let mut map = bitmap(&dense(arguments.bytes));
    let other = map.clone();
    Some(match arguments.call.as_str() {
        "get" => sum_of(times, || (0..map.len()).fold(0, |sum, position| sum + u64::from(map.contains(position)))),
        "get_far" => get_far(&map, times),
        "push_new" => push_new(map.len(), times),
        "set" => edited(&mut map, times, set_each),
        "set_range" => edited(&mut map, times, set_range),
        "and_not" => and_not(&mut map, times),
        "is_subset" => is_subset(&mut map, times),
        "count_ones_range" => count_ones_range(&map, times),
        "flip_all" => edited(&mut map, times, |map, _| map.toggle_range(..)),
        "and" => edited(&mut map, times, |map, _| map.intersect_with(&other)),
        "or" => edited(&mut map, times, |map, _| map.union_with(&other)),
        "xor" => edited(&mut map, times, |map, _| map.symmetric_difference_with(&other)),
        "equal" => equal(&mut map, times),
        "count_ones" => sum_of(times, || black_box(&map).count_ones(..) as u64),
        "clone" => sum_of(times, || black_box(map.clone()).len() as u64),
        "ones_iter" => sum_of(times, || sum_of_positions(&map)),
        "sparse_ones_iter" => {
            let thin = bitmap(&sparse(arguments.bytes));
            sum_of(times, || sum_of_positions(&thin))
        }
        _ => return None,
    })
}

fn main() -> ExitCode {
    shared::main(run)
}
