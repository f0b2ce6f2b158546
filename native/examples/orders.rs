//! A log of orders: bit k says whether order k is open, and each day is kept under its number.
//!
//! Run it with `cargo run --example orders`.

use mortarpink::AllocError;
use mortarpink::bitmap::codec::RangeCfg;
use mortarpink::bitmap::historical::{CleanBitMap, Error};
use mortarpink::bitmap::{Prunable, Readable};

type Orders = CleanBitMap<8>;

/// The orders that a bitmap says are open.
fn open(orders: &impl Readable<8>) -> Vec<u64> {
    orders.ones_iter_from(0).collect()
}

/// Saves the orders of a day as bytes, or returns an error if memory runs out.
fn saved(orders: &Orders, day: u64) -> Result<Option<Vec<u8>>, AllocError> {
    let Some(past) = orders.try_get_at_commit(day)? else {
        return Ok(None);
    };
    past.try_encode().map(Some)
}

fn main() -> Result<(), Error> {
    // On day 1 three orders come in, and on day 2 order 1 is closed and another comes in.
    let orders = Orders::new().apply_batch(1, |day| {
        day.push(true).push(true).push(true);
    })?;
    let orders = orders.apply_batch(2, |day| {
        day.set_bit(1, false).push(true);
    })?;
    println!("open on day 1: {:?}", open(&orders.at(1).unwrap()));
    println!("open now: {:?}", open(orders.current()));

    // A replica that has seen day 1 gets the chunks that differ.
    let changed: Vec<usize> = orders.changed_chunks(1, 2).unwrap().collect();
    println!("chunks that differ: {changed:?}");

    // A batch that is dropped leaves nothing, and so does a number that is not above the last one.
    let mut day = orders.clone().into_dirty();
    day.push(true);
    drop(day);
    println!("again day 2: {}", orders.clone().apply_batch(2, |_| ()).unwrap_err());

    // Day 1 as bytes, and back.
    let bytes = saved(&orders, 1)?.unwrap();
    let read = Prunable::<8>::decode(&mut bytes.as_slice(), &RangeCfg::at_most(1000)).unwrap();
    println!("read from {} bytes: {:?}", bytes.len(), open(&read));

    // Day 2 is undone.
    let orders = orders.rewind_to(1).unwrap();
    println!("after the rewind: {:?}, latest day {:?}", open(orders.current()), orders.latest_commit());
    Ok(())
}
