//! A history in a file that is written as a whole: a program saves all its commits at once, and the next start reads them again.
//!
//! What was committed after the last save is gone if the program ends. `store.rs` and `restart.rs` keep each commit in a file instead.
//! Run it with `cargo run --example history`.

use mortarpink::bitmap::Readable;
use mortarpink::bitmap::codec::RangeCfg;
use mortarpink::bitmap::historical::CleanBitMap;
use mortarpink::log::{HistoryError, read_history, write_history};
use std::fs::{self, File};
use std::io::{self, ErrorKind, Write};
use std::path::Path;
use std::{error, fmt};

/// Why a file was not read as a history of orders.
#[derive(Debug)]
enum LoadError {
    Io(io::Error),
    History(HistoryError),
    /// This number of bytes is left after the history.
    Rest(usize),
}

impl fmt::Display for LoadError {
    fn fmt(&self, f: &mut fmt::Formatter<'_>) -> fmt::Result {
        match self {
            LoadError::Io(error) => write!(f, "{error}"),
            LoadError::History(error) => write!(f, "{error}"),
            LoadError::Rest(count) => write!(f, "{count} bytes are left after the history"),
        }
    }
}

impl error::Error for LoadError {}

/// Writes the orders of all days to a file. A crash leaves the old file or the new one.
fn save(orders: &CleanBitMap<8>, path: &Path) -> io::Result<()> {
    let mut bytes = Vec::new();
    write_history(orders, &mut bytes)?;
    let new = path.with_extension("new");
    let mut file = File::create(&new)?;
    file.write_all(&bytes)?;
    file.sync_all()?;
    fs::rename(&new, path)
}

/// Reads the orders of all days from a file. There are none if there is no file.
fn load(path: &Path) -> Result<CleanBitMap<8>, LoadError> {
    let bytes = match fs::read(path) {
        Err(error) if error.kind() == ErrorKind::NotFound => return Ok(CleanBitMap::new()),
        bytes => bytes.map_err(LoadError::Io)?,
    };
    let mut rest = bytes.as_slice();
    let orders = read_history(&mut rest, &RangeCfg::any(), &RangeCfg::any()).map_err(LoadError::History)?;
    if rest.is_empty() { Ok(orders) } else { Err(LoadError::Rest(rest.len())) }
}

fn main() -> Result<(), Box<dyn error::Error>> {
    let path = std::env::temp_dir().join(format!("mortarpink-history-{}", std::process::id()));

    // The first start finds no file. Three orders come in on day 1, and order 1 is closed on day 2.
    let orders = load(&path)?;
    let orders = orders.apply_batch(1, |day| _ = day.push(true).push(true).push(true))?;
    let orders = orders.apply_batch(2, |day| _ = day.set_bit(1, false))?;
    save(&orders, &path)?;

    // The next start has both days.
    let orders = load(&path)?;
    println!("days {:?}, open orders {:?}", orders.commits().collect::<Vec<_>>(), orders.current().ones_iter_from(0).collect::<Vec<_>>());
    println!("open on day 1: {:?}", orders.at(1).unwrap().ones_iter_from(0).collect::<Vec<_>>());

    // A file that has lost its last byte is an error.
    File::options().write(true).open(&path)?.set_len(fs::metadata(&path)?.len() - 1)?;
    println!("{}", load(&path).unwrap_err());
    fs::remove_file(&path)?;
    Ok(())
}
