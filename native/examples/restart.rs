//! Orders that outlive the process: each day is appended to a file as a commit, and the next start reads the file.
//!
//! Run it with `cargo run --example restart`.

use mortarpink::bitmap::Readable;
use mortarpink::bitmap::historical::{CleanBitMap, DirtyBitMap};
use mortarpink::log::{Log, commit_logged, recover};
use std::error::Error;
use std::fs::{self, File, OpenOptions};
use std::io::{self, Read, Write};
use std::path::Path;

/// The orders, the end of their log, and the file that the log is in.
struct Store {
    orders: CleanBitMap<8>,
    log: Log<8>,
    file: File,
}

/// Appends the bytes of a log to its file, and waits until they are on the disk.
fn save(log: &mut Log<8>, file: &mut File) -> io::Result<()> {
    file.write_all(log.bytes())?;
    file.sync_all()?;
    log.forget();
    Ok(())
}

/// Opens a file of orders, or makes one. What a crash has left of a write is cut off.
fn open(path: &Path) -> Result<Store, Box<dyn Error>> {
    let mut file = OpenOptions::new().read(true).append(true).create(true).open(path)?;
    let mut bytes = Vec::new();
    file.read_to_end(&mut bytes)?;

    let orders = CleanBitMap::new();
    let mut log = Log::begin(&orders)?;
    if log.bytes().starts_with(&bytes) {
        // The file is new, or its first write was cut off.
        file.set_len(0)?;
        save(&mut log, &mut file)?;
        return Ok(Store { orders, log, file });
    }
    let recovered = recover(&bytes)?;
    if recovered.torn {
        file.set_len(recovered.log.position())?;
        println!("the file was cut off from {} to {} bytes", bytes.len(), recovered.log.position());
    }
    Ok(Store { orders: recovered.bitmap, log: recovered.log, file })
}

/// Edits the orders of a day, and saves them as a commit.
fn close_day(store: Store, day: u64, edit: impl FnOnce(&mut DirtyBitMap<8>)) -> Result<Store, Box<dyn Error>> {
    let Store { orders, mut log, mut file } = store;
    let mut batch = orders.into_dirty();
    edit(&mut batch);
    let orders = commit_logged(batch, day, &mut log).map_err(|(_, error)| error)?;
    save(&mut log, &mut file)?;
    Ok(Store { orders, log, file })
}

fn print(store: &Store) {
    let (days, open): (Vec<u64>, Vec<u64>) = (store.orders.commits().collect(), store.orders.current().ones_iter_from(0).collect());
    println!("days {days:?}, open orders {open:?}, {} bytes", store.log.position());
}

fn main() -> Result<(), Box<dyn Error>> {
    let path = std::env::temp_dir().join(format!("mortarpink-restart-{}.log", std::process::id()));

    // The first start: three orders come in on day 1, and order 1 is closed on day 2.
    let store = open(&path)?;
    print(&store);
    let store = close_day(store, 1, |day| _ = day.push(true).push(true).push(true))?;
    let store = close_day(store, 2, |day| _ = day.set_bit(1, false))?;
    print(&store);
    drop(store);

    // A crash has cut off the last write.
    OpenOptions::new().write(true).open(&path)?.set_len(200)?;
    let store = open(&path)?;
    print(&store);
    let store = close_day(store, 2, |day| _ = day.set_bit(2, false))?;
    drop(store);

    // The next start has both days.
    let store = open(&path)?;
    print(&store);
    println!("open on day 1: {:?}", store.orders.at(1).unwrap().ones_iter_from(0).collect::<Vec<_>>());
    fs::remove_file(&path)?;
    Ok(())
}
