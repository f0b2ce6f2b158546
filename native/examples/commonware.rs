//! A program for `commonware_utils::bitmap`, of which only the line of its `use` is changed:
//!
//! ```text
//! use commonware_utils::bitmap::{historical, BitMap, Prunable, Readable, DEFAULT_CHUNK_SIZE};
//! ```
//!
//! Run it with `cargo run --example commonware`.

use mortarpink::bitmap::{BitMap, DEFAULT_CHUNK_SIZE, Prunable, Readable, historical};

/// The primes below a number, by the sieve of Eratosthenes.
fn primes(end: u64) -> BitMap {
    let mut sieve: BitMap<DEFAULT_CHUNK_SIZE> = BitMap::ones(end);
    for bit in 0..end.min(2) {
        sieve.set(bit, false);
    }
    for bit in 2..end {
        if sieve.get(bit) {
            for multiple in (bit * bit..end).step_by(bit as usize) {
                sieve.set(multiple, false);
            }
        }
    }
    sieve
}

/// A log that keeps the last chunk of its bits.
fn recent(bits: impl Iterator<Item = bool>) -> Prunable<4> {
    let mut log = Prunable::new();
    for bit in bits {
        log.push(bit);
        log.prune_to_bit(log.len() - 1);
    }
    log
}

/// The sum of the set positions of any bitmap.
fn sum<B: Readable<N>, const N: usize>(bitmap: &B) -> u64 {
    bitmap.ones_iter_from(0).sum()
}

fn main() {
    let sieve = primes(100);
    println!("{} primes: {:?}", sieve.count_ones(), sieve.ones_iter().collect::<Vec<_>>());
    println!("{sieve:?}");

    let evens = BitMap::from((0..100).map(|bit| bit % 2 == 0).collect::<Vec<bool>>());
    println!("even primes: {}", (&sieve & &evens).count_ones());
    let mut either = sieve.clone();
    either.or(&evens);
    println!("primes or even: {}, the first ten unset: {}", either.count_ones(), either.is_unset(0..10));

    let log = recent(sieve.iter());
    println!("retained: {} of {}, sum {}", log.len() - log.pruned_bits(), log.len(), sum(&log));

    let mut versions: historical::BitMap<4> = historical::BitMap::new();
    versions = versions
        .apply_batch(1, |batch| {
            batch.push(true).push(false).push_byte(0b0000_1111);
        })
        .unwrap();
    let mut batch: historical::DirtyBitMap<4> = versions.into_dirty();
    batch.set_bit(0, false);
    let popped = batch.pop();
    versions = batch.commit(2).unwrap();
    let past: Prunable<4> = versions.get_at_commit(1).unwrap();
    println!(
        "popped {popped}; sums {} and {}, at commits {:?}",
        sum(&past),
        sum(versions.current()),
        versions.commits().collect::<Vec<_>>()
    );
    match versions.apply_batch(2, |_| ()) {
        Err(historical::Error::NonMonotonicCommit { previous, attempted }) => println!("{attempted} is not above {previous}"),
        other => println!("{other:?}"),
    }
}
