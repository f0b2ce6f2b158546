//! A history in a file: the orders of each day are committed to a store, which later starts of the program open again.
//!
//! Run it with `cargo run --example store`.

use mortarpink::bitmap::historical::DirtyBitMap;
use mortarpink::store::{OpenError, Options, Store, StoreError};
use std::path::Path;

/// Opens the orders, or begins them. Fails if another process has them open, or if the file is damaged.
fn open(path: &Path) -> Result<Store<8>, OpenError> {
    let orders = Options::new().compact_automatically(true).open_or_create(path)?;
    if orders.cut_bytes() > 0 {
        println!("a crash has left {} bytes of a change that was not acknowledged", orders.cut_bytes());
    }
    Ok(orders)
}

/// Edits the orders, and commits them as those of a day. When it returns `Ok`, they are on the disk. After an error they are unchanged.
fn close_day(orders: &mut Store<8>, day: u64, edit: impl FnOnce(&mut DirtyBitMap<8>)) -> Result<(), StoreError> {
    let mut batch = orders.batch();
    edit(&mut batch);
    batch.commit(day)
}

/// Keeps the last so many days, and drops those before them.
fn keep_days(orders: &mut Store<8>, days: usize) -> Result<(), StoreError> {
    match orders.bitmap().commits().rev().take(days).last() {
        Some(first) => orders.drop_before(first),
        None => Ok(()),
    }
}

fn print(orders: &Store<8>) {
    use mortarpink::bitmap::Readable;

    let open_orders: Vec<u64> = orders.bitmap().current().ones_iter_from(0).collect();
    println!("days {:?}, open orders {open_orders:?}, {} bytes", orders.bitmap().commits().collect::<Vec<_>>(), orders.position());
}

fn main() -> Result<(), Box<dyn std::error::Error>> {
    let folder = std::env::temp_dir().join(format!("mortarpink-store-{}", std::process::id()));
    std::fs::create_dir(&folder)?;
    let path = folder.join("orders.log");

    // The first start: three orders come in on day 1, and order 1 is closed on day 2.
    let mut orders = open(&path)?;
    close_day(&mut orders, 1, |day| _ = day.push(true).push(true).push(true))?;
    close_day(&mut orders, 2, |day| _ = day.set_bit(1, false))?;
    print(&orders);
    println!("a second store: {}", open(&path).unwrap_err());
    drop(orders);

    // The next start goes on. Day 2 turns out to be wrong, and is closed again.
    let mut orders = open(&path)?;
    orders.rewind_to(1)?;
    close_day(&mut orders, 2, |day| _ = day.set_bit(2, false).push(true))?;
    print(&orders);
    println!("order 2 on day 1: {}", if orders.bitmap().get_at_commit(1).unwrap().get_bit(2) { "open" } else { "closed" });

    // Only the last day is kept, and the file is made short.
    keep_days(&mut orders, 1)?;
    print(&orders);
    orders.compact()?;
    print(&orders);
    std::fs::remove_dir_all(&folder)?;
    Ok(())
}
