//! One function over bitmaps of all kinds.
//!
//! Run it with `cargo run --example any_bitmap`.

use mortarpink::bitmap::historical::{CleanBitMap, Error};
use mortarpink::bitmap::{BitMap, Readable};

/// Returns the first set position from `from` on, or the first of all if there is none.
fn next_around<const N: usize>(bitmap: &impl Readable<N>, from: u64) -> Option<u64> {
    bitmap.next_one(from).or_else(|| bitmap.next_one(0))
}

fn main() -> Result<(), Error> {
    let mut dense = BitMap::<1>::zeroes(24);
    dense.set(2, true);
    dense.set(20, true);
    println!("a dense bitmap: {:?}, then {:?}", next_around(&dense, 3), next_around(&dense, 21));

    // The same bits in a batch.
    let mut batch = CleanBitMap::<1>::new().into_dirty();
    batch.extend_to(24).set_bit(2, true).set_bit(20, true);
    println!("a batch: {:?}, then {:?}", next_around(&batch, 3), next_around(&batch, 21));
    let versions = batch.commit(1)?;

    // In version 2 the first eight positions are pruned.
    let versions = versions.apply_batch(2, |batch| {
        batch.prune_to_bit(8);
    })?;
    let (past, current) = (versions.at(1).unwrap(), versions.current());
    println!("a past version: {:?}, then {:?}", next_around(&past, 3), next_around(&past, 21));
    println!("the current bitmap: {:?}, then {:?}", next_around(current, 3), next_around(current, 21));
    Ok(())
}
