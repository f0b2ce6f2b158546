//! Calls of a bitmap with a pruned prefix.

use crate::dense::{filled, sum_of};
use commonware_utils::bitmap::Prunable;
use shared::{timed, Arguments, BYTE};

// A bitmap of `bytes` bytes, nothing pruned.
fn filled_log<const N: usize>(bytes: u64) -> Prunable<N> {
    let mut log = Prunable::new();
    log.extend_from_bitmap(&filled::<N>(bytes));
    log
}

// Removes all bits and appends `count` items, `times` times. The capacity is reused.
fn refilled<const N: usize>(mut log: Prunable<N>, times: u64, count: u64, append: impl Fn(&mut Prunable<N>, u64)) -> u64 {
    timed(|| {
        for _ in 0..times {
            log.truncate(log.pruned_bits());
            for item in 0..count {
                append(&mut log, item);
            }
        }
    });
    log.len()
}

fn pop<const N: usize>(mut log: Prunable<N>, times: u64) -> u64 {
    let bits = log.len();
    sum_of(times, || {
        let mut sum = 0;
        log.extend_to(bits);
        while log.len() > log.pruned_bits() {
            sum += u64::from(log.pop());
        }
        sum
    })
}

fn get_bit<const N: usize>(mut log: Prunable<N>, times: u64) -> u64 {
    log.prune_to_bit(8 * N as u64);
    sum_of(times, || {
        (log.pruned_bits()..log.len()).fold(0, |sum, position| sum + u64::from(log.get_bit(position)))
    })
}

fn set_bit<const N: usize>(mut log: Prunable<N>, times: u64) -> u64 {
    log.prune_to_bit(8 * N as u64);
    timed(|| {
        for round in 0..times {
            for position in log.pruned_bits()..log.len() {
                log.set_bit(position, (position ^ round) % 3 == 0);
            }
        }
    });
    u64::from(log.get_bit(log.len() - 1))
}

/// Runs a call of a bitmap with a pruned prefix, if `arguments` name one. The bitmap has more than one chunk.
pub fn run<const N: usize>(arguments: &Arguments) -> Option<u64> {
    let log = || filled_log::<N>(arguments.bytes);
    let (times, bits) = (arguments.times, 8 * arguments.bytes);
    Some(match arguments.call.as_str() {
        "prunable_push" => refilled(log(), times, bits, |log, bit| log.push(bit % 3 == 0)),
        "prunable_pop" => pop(log(), times),
        "push_byte" => refilled(log(), times, bits / 8, |log, byte| log.push_byte((byte % 256) as u8)),
        "push_chunk" => refilled(log(), times, bits / (8 * N as u64), |log, _| log.push_chunk(&[BYTE; N])),
        "get_bit" => get_bit(log(), times),
        "set_bit" => set_bit(log(), times),
        _ => return None,
    })
}
