//! Calls of a dense bitmap.

use commonware_codec::{RangeCfg, Read, Write};
use commonware_utils::bitmap::BitMap;
use shared::{timed, Arguments, Positions, FAR, SPARSE};
use std::hash::{DefaultHasher, Hash, Hasher};
use std::hint::black_box;

/// Returns a bitmap of `bytes` bytes. Four of each eight bits are set.
pub fn filled<const N: usize>(bytes: u64) -> BitMap<N> {
    let bits = 8 * bytes;
    let mut map = BitMap::<N>::from([false, true, true, false, true, false, false, true]);
    while map.len() < bits {
        let more = map.clone();
        map.extend_from_bitmap(&more);
    }
    map.truncate(bits);
    map
}

/// Returns the sum of what a read returns, which is run `times` times.
pub fn sum_of(times: u64, mut read: impl FnMut() -> u64) -> u64 {
    timed(|| (0..times).fold(0, |sum: u64, _| sum.wrapping_add(read())))
}

fn push<const N: usize>(map: &mut BitMap<N>, times: u64) -> u64 {
    let bits = map.len();
    timed(|| {
        for _ in 0..times {
            map.truncate(0);
            for position in 0..bits {
                map.push(position % 3 == 0);
            }
        }
    });
    map.count_ones()
}

fn pop<const N: usize>(map: &mut BitMap<N>, times: u64) -> u64 {
    let bits = map.len();
    sum_of(times, || {
        let mut sum = 0;
        map.extend_to(bits);
        while !map.is_empty() {
            sum += u64::from(map.pop());
        }
        sum
    })
}

fn set<const N: usize>(map: &mut BitMap<N>, times: u64) -> u64 {
    timed(|| {
        for round in 0..times {
            for position in 0..map.len() {
                map.set(position, (position ^ round) % 3 == 0);
            }
        }
    });
    map.count_ones()
}

// Reads bits at random positions, one per `FAR` bits of the bitmap.
fn get_far<const N: usize>(map: &BitMap<N>, times: u64) -> u64 {
    let (bits, mut positions) = (map.len(), Positions::from_seed(FAR));
    sum_of(times * bits / FAR, || u64::from(map.get(positions.step() % bits)))
}

// Repeats an edit that takes the round, and counts the set bits at the end.
fn edited<const N: usize>(map: &mut BitMap<N>, times: u64, edit: impl Fn(&mut BitMap<N>, u64)) -> u64 {
    timed(|| (0..times).for_each(|round| edit(map, round)));
    map.count_ones()
}

// Repeats an operation with an equal bitmap, and counts the set bits at the end.
fn combined<const N: usize>(map: &mut BitMap<N>, times: u64, combine: impl Fn(&mut BitMap<N>, &BitMap<N>)) -> u64 {
    let other = map.clone();
    timed(|| (0..times).for_each(|_| combine(map, &other)));
    map.count_ones()
}

// Compares with an equal bitmap. One bit of both changes in each round.
fn equal<const N: usize>(map: &mut BitMap<N>, times: u64) -> u64 {
    let mut other = map.clone();
    sum_of(times, || {
        map.flip(0);
        other.flip(0);
        u64::from(*map == other)
    })
}

fn hash<const N: usize>(map: &BitMap<N>, times: u64) -> u64 {
    let mut state = DefaultHasher::new();
    timed(|| (0..times).for_each(|_| map.hash(&mut state)));
    state.finish()
}

fn sum_of_positions<const N: usize>(map: &BitMap<N>) -> u64 {
    map.ones_iter().fold(0, |sum: u64, position| sum.wrapping_add(position))
}

// Clears all bits but about one in `SPARSE`, which are at random positions.
fn thin<const N: usize>(map: &mut BitMap<N>) {
    map.set_all(false);
    let mut positions = Positions::from_seed(SPARSE);
    for _ in 0..map.len() / SPARSE {
        map.set(positions.step() % map.len(), true);
    }
}

// Appends a bitmap to the bits of `target`. The capacity is reused.
fn extend<const N: usize, const M: usize>(map: &BitMap<N>, mut target: BitMap<M>, times: u64) -> u64 {
    let first = target.len();
    target.extend_from_bitmap(map);
    timed(|| {
        for _ in 0..times {
            target.truncate(first);
            target.extend_from_bitmap(map);
        }
    });
    target.count_ones()
}

fn extend_to<const N: usize>(bits: u64) -> u64 {
    let mut zeros = BitMap::<N>::new();
    zeros.extend_to(bits);
    black_box(&zeros).len()
}

fn from_bools<const N: usize>(map: &BitMap<N>, times: u64) -> u64 {
    let bools: Vec<bool> = map.iter().collect();
    sum_of(times, || black_box(BitMap::<N>::from(&bools)).len())
}

fn write<const N: usize>(map: &BitMap<N>, times: u64) -> u64 {
    let mut bytes = Vec::new();
    map.write(&mut bytes);
    timed(|| {
        for _ in 0..times {
            bytes.clear();
            map.write(&mut bytes);
        }
    });
    bytes.len() as u64
}

fn read<const N: usize>(map: &BitMap<N>, times: u64) -> u64 {
    let mut bytes = Vec::new();
    map.write(&mut bytes);
    sum_of(times, || {
        BitMap::<N>::read_cfg(&mut bytes.as_slice(), &RangeCfg::new(..)).map_or(0, |same| black_box(same).len())
    })
}

// Calls that edit the bitmap.
fn run_edit<const N: usize>(call: &str, map: &mut BitMap<N>, times: u64) -> Option<u64> {
    Some(match call {
        "push" => push(map, times),
        "pop" => pop(map, times),
        "set" => set(map, times),
        "flip_all" => edited(map, times, |map, _| map.flip_all()),
        "set_all" => edited(map, times, |map, round| map.set_all(round % 2 == 0)),
        "and" => combined(map, times, BitMap::and),
        "or" => combined(map, times, BitMap::or),
        "xor" => combined(map, times, BitMap::xor),
        "truncate" => {
            let bits = map.len();
            edited(map, times, |map, _| {
                map.truncate(0);
                map.extend_to(bits);
            })
        }
        _ => return None,
    })
}

// Calls that read the bitmap.
fn run_read<const N: usize>(call: &str, map: &mut BitMap<N>, times: u64) -> Option<u64> {
    let len = map.len();
    Some(match call {
        "get" => sum_of(times, || (0..len).fold(0, |sum, position| sum + u64::from(map.get(position)))),
        "get_far" => get_far(map, times),
        "equal" => equal(map, times),
        "hash" => hash(map, times),
        "count_ones" => sum_of(times, || black_box(&*map).count_ones()),
        "is_unset" => {
            map.set_all(false);
            sum_of(times, || u64::from(black_box(&*map).is_unset(0..len)))
        }
        "iter" => sum_of(times, || map.iter().fold(0, |sum, bit| sum + u64::from(bit))),
        "ones_iter" => sum_of(times, || sum_of_positions(map)),
        "sparse_ones_iter" => {
            thin(map);
            sum_of(times, || sum_of_positions(map))
        }
        _ => return None,
    })
}

// Calls that make a bitmap, bytes or booleans.
fn run_growth<const N: usize, const M: usize>(call: &str, map: &BitMap<N>, times: u64) -> Option<u64> {
    Some(match call {
        "extend_same" => extend(map, BitMap::<N>::new(), times),
        "extend_same_shifted" => extend(map, BitMap::<N>::ones(3), times),
        "extend_other" => extend(map, BitMap::<M>::new(), times),
        "extend_other_shifted" => extend(map, BitMap::<M>::ones(3), times),
        "extend_to" => sum_of(times, || extend_to::<N>(map.len())),
        "clone" => sum_of(times, || black_box(map.clone()).len()),
        "to_bools" => sum_of(times, || black_box(map.iter().collect::<Vec<bool>>()).len() as u64),
        "from_bools" => from_bools(map, times),
        "write" => write(map, times),
        "read" => read(map, times),
        _ => return None,
    })
}

/// Runs a call of a dense bitmap, if `arguments` name one.
pub fn run<const N: usize, const M: usize>(arguments: &Arguments) -> Option<u64> {
    let mut map = filled::<N>(arguments.bytes);
    let (call, times) = (arguments.call.as_str(), arguments.times);
    run_edit(call, &mut map, times)
        .or_else(|| run_read(call, &mut map, times))
        .or_else(|| run_growth::<N, M>(call, &map, times))
}
