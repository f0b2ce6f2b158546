//! A first program: two versions of a bitmap, and both are read.
//!
//! Run it with `cargo run --example first`.

use mortarpink::bitmap::Readable;
use mortarpink::bitmap::historical::{CleanBitMap, Error};

fn main() -> Result<(), Error> {
    // A bitmap with chunks of 8 bytes, which begins a batch. Version 1: three orders, all of them open.
    let mut batch = CleanBitMap::<8>::new().into_dirty();
    batch.push(true).push(true).push(true);
    let orders = batch.commit(1)?;

    // Version 2: order 1 is closed, and another one comes in.
    let mut batch = orders.into_dirty();
    batch.set_bit(1, false).push(true);
    let orders = batch.commit(2)?;

    // Both are there to read.
    let then: Vec<u64> = orders.at(1).unwrap().ones_iter_from(0).collect();
    let now: Vec<u64> = orders.current().ones_iter_from(0).collect();
    println!("open in version 1: {then:?}, in version 2: {now:?}");
    Ok(())
}
