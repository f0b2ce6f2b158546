//! The seats of a hall in a file: a log to which each sale appends its entry. A crash cuts the file
//! off, and the program goes on from there. Another thread reads meanwhile.
//!
//! Run it with `cargo run --example journal`.

use std::fs::{self, File, OpenOptions};
use std::io::{Read, Write};
use std::path::Path;
use std::sync::{RwLock, mpsc};
use std::{env, error, process, thread};

use mortarpink_proved::{Bitmap, Error, Recovered, Width};

const WIDTH: Width = Width::Bytes8;
const SEATS: u64 = 100;

type Outcome<T> = Result<T, Box<dyn error::Error>>;

/// Returns the seats without a sale, and begins their log.
fn new_seats() -> Result<Bitmap, Error> {
    let mut seats = Bitmap::new(WIDTH)?;
    seats.begin_log()?;
    let mut batch = seats.begin();
    batch.extend_to(SEATS)?;
    batch.commit(0)?;
    Ok(seats)
}

/// Opens the file of a log, and makes the seats from it. If the file is new, or if a crash has left
/// less than the bitmap that the log begins with, no seat is sold.
fn open(path: &Path) -> Outcome<(Bitmap, File)> {
    let mut file = OpenOptions::new().read(true).append(true).create(true).open(path)?;
    let mut bytes = Vec::new();
    file.read_to_end(&mut bytes)?;
    match Bitmap::recover(WIDTH, &bytes) {
        Ok(Recovered { bitmap, good, torn }) => {
            println!("{good} of {} bytes are good, torn: {torn}", bytes.len());
            Ok((bitmap, file))
        }
        Err(failed) if failed.error() == Error::CutOff => Ok((new_seats()?, file)),
        Err(failed) => Err(failed.into()),
    }
}

/// The only one who sells seats. Readers have the lock too.
struct Seller<'a> {
    seats: &'a RwLock<Bitmap>,
    file: File,
}

impl Seller<'_> {
    /// Appends the bytes that are not in the file yet. Readers read meanwhile. After an error these
    /// bytes are still in the log, and the next call writes them.
    fn write(&mut self) -> Outcome<()> {
        let (bytes, position) = {
            let seats = self.seats.read().unwrap();
            (seats.log_bytes()?, seats.log_position()?)
        };
        // Cuts off what a crash, or a write that failed, has left after the good bytes.
        self.file.set_len(position - bytes.len() as u64)?;
        self.file.write_all(&bytes)?;
        self.file.sync_data()?;
        Ok(self.seats.write().unwrap().forget_log()?)
    }

    /// Sells seats as a commit. When it has returned, the sale is in the file.
    fn sell(&mut self, sale: u64, seats: &[u64]) -> Outcome<()> {
        let mut current = self.seats.write().unwrap();
        let mut batch = current.begin();
        batch.set_many(seats, true)?;
        batch.commit(sale)?;
        drop(current);
        self.write()
    }
}

/// Makes some sales while another thread counts the sold seats after each of them. Returns the counts.
fn sell_and_count(seller: &mut Seller<'_>, sales: &[(u64, &[u64])]) -> Outcome<Vec<u64>> {
    let (sender, receiver) = mpsc::channel();
    let seats = seller.seats;
    thread::scope(|scope| {
        let count = |sale| seats.read().unwrap().at(sale).map(|version| version.count_ones(..));
        let reader = scope.spawn(move || receiver.into_iter().map(count).collect());
        for (sale, taken) in sales {
            seller.sell(*sale, taken)?;
            sender.send(*sale)?;
        }
        drop(sender);
        let counts: Result<Vec<u64>, Error> = reader.join().unwrap();
        Ok(counts?)
    })
}

/// Opens the file, makes some sales, and prints what there is then.
fn run(path: &Path, sales: &[(u64, &[u64])]) -> Outcome<()> {
    let (seats, file) = open(path)?;
    let seats = RwLock::new(seats);
    let mut seller = Seller { seats: &seats, file };
    let counts = sell_and_count(&mut seller, sales)?;
    println!("seats sold after each sale: {counts:?}");
    let seats = seats.into_inner().unwrap();
    let (sales, sold): (Vec<u64>, Vec<u64>) = (seats.commits().collect(), seats.ones(..).collect());
    println!("sales {sales:?}, seats {sold:?}, {} bytes", seats.log_position()?);
    Ok(())
}

fn main() -> Outcome<()> {
    let path = env::temp_dir().join(format!("mortarpink_journal_{}", process::id()));
    run(&path, &[(1, &[3, 4]), (2, &[60, 61]), (3, &[64]), (4, &[62, 65])])?;

    // A crash leaves the entry of sale 4 without its last ten bytes.
    let file = OpenOptions::new().write(true).open(&path)?;
    file.set_len(file.metadata()?.len() - 10)?;
    run(&path, &[(4, &[62]), (5, &[99])])?;

    // A changed byte is damage, and no crash explains it. The error has the position of its frame.
    let mut bytes = fs::read(&path)?;
    bytes[200] ^= 1;
    let failed = Bitmap::recover(WIDTH, &bytes).unwrap_err();
    println!("{failed}");
    if let Some(at) = failed.at() {
        let before = Bitmap::recover(WIDTH, &bytes[..at])?;
        println!(
            "the bytes before it have sales {:?}",
            before.bitmap.commits().collect::<Vec<_>>()
        );
    }
    fs::remove_file(&path)?;
    Ok(())
}
