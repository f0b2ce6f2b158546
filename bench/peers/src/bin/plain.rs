//! The calls of `crates/bench` as loops over a `Vec<u64>`, as one writes them without a library.

use peers::dense;
use shared::{timed, Arguments, Positions, FAR};
use std::process::ExitCode;

fn sum_of(times: u64, mut read: impl FnMut() -> u64) -> u64 {
    timed(|| (0..times).fold(0, |sum: u64, _| sum.wrapping_add(read())))
}

// Returns a bit as 0 or 1.
fn bit_at(words: &[u64], position: usize) -> u64 {
    words[position / 64] >> (position % 64) & 1
}

// Reads all bits in order.
fn get(words: &[u64], times: u64) -> u64 {
    sum_of(times, || (0..64 * words.len()).fold(0, |sum, position| sum + bit_at(words, position)))
}

// Reads bits at random positions, one per `FAR` bits of the bitmap.
fn get_far(words: &[u64], times: u64) -> u64 {
    let (bits, mut positions) = (64 * words.len() as u64, Positions::from_seed(FAR));
    sum_of(times * bits / FAR, || bit_at(words, (positions.step() % bits) as usize))
}

// Appends bits to a vector that has no capacity at first.
fn push_new(bits: usize, times: u64) -> u64 {
    sum_of(times, || {
        let mut words: Vec<u64> = Vec::new();
        for position in 0..bits {
            if position % 64 == 0 {
                words.push(0);
            }
            words[position / 64] |= u64::from(position % 3 == 0) << (position % 64);
        }
        words.iter().map(|word| u64::from(word.count_ones())).sum()
    })
}

fn run(arguments: &Arguments) -> Option<u64> {
    let (words, times) = (dense(arguments.bytes), arguments.times);
    Some(match arguments.call.as_str() {
        "get" => get(&words, times),
        "get_far" => get_far(&words, times),
        "push_new" => push_new(64 * words.len(), times),
        _ => return None,
    })
}

fn main() -> ExitCode {
    shared::main(run)
}
