//! Versions in a `Store` of the Rust crate in `native`. It does the work of `workload.c`, which says what the arguments and the lines of the output are.
//!
//! The layout is `plain`, or `indexed` for a store whose bitmap has an index of its commits.

use mortarpink::bitmap::Readable;
use mortarpink::store::{Durability, Options, Store};
use shared::{Positions, BYTE};
use std::error::Error;
use std::hint::black_box;
use std::path::PathBuf;
use std::process::ExitCode;
use std::time::{Duration, Instant};
use std::{env, fs};

const WIDTH: usize = 8;
const BITS: u64 = 1 << 20;
const CHUNKS: usize = BITS as usize / 8 / WIDTH;

// A buffered store is synced after so many commits. The reads are repeated so often.
const BUFFERED: u64 = 1000;
const BIT_READS: u32 = 1000;
const VERSION_READS: u32 = 5;

type Outcome<T> = Result<T, Box<dyn Error>>;

struct Work {
    folder: PathBuf,
    commits: u64,
    sets: u64,
    is_synced: bool,
    options: Options,
}

impl Work {
    fn from_words(words: &[String]) -> Outcome<Work> {
        let [folder, commits, sets, mode, layout] = words else {
            return Err("usage: FOLDER COMMITS SETS MODE LAYOUT".into());
        };
        let is_synced = match mode.as_str() {
            "synced" => true,
            "buffered" => false,
            _ => return Err("the mode is synced or buffered".into()),
        };
        let mut options = Options::new();
        options.durability(if is_synced { Durability::Synced } else { Durability::Buffered });
        options.indexed(layout == "indexed");
        Ok(Work { folder: folder.into(), commits: commits.parse()?, sets: sets.parse()?, is_synced, options })
    }

    fn path(&self) -> PathBuf {
        self.folder.join("versions.log")
    }
}

// Returns the number of a name in a file of /proc.
fn field(path: &str, name: &str) -> Outcome<u64> {
    let text = fs::read_to_string(path)?;
    let value = text.lines().find_map(|line| line.strip_prefix(name)?.strip_prefix(':'));
    let number = value.and_then(|value| value.split_whitespace().next()).ok_or("a name of /proc is missing")?;
    Ok(number.parse()?)
}

// Returns the bytes of all files in the folder.
fn files_size(work: &Work) -> Outcome<u64> {
    fs::read_dir(&work.folder)?.try_fold(0, |sum, entry| Ok(sum + entry?.metadata()?.len()))
}

// Returns the checksum of a version, by FNV-1a.
fn checksum(version: &impl Readable<WIDTH>) -> u64 {
    let bytes = (0..CHUNKS).flat_map(|chunk| version.get_chunk(chunk));
    bytes.fold(0xcbf2_9ce4_8422_2325, |sum, byte| (sum ^ u64::from(byte)).wrapping_mul(0x100_0000_01b3))
}

fn print_time(name: &str, taken: Duration) {
    println!("{name} {:.9}", taken.as_secs_f64());
}

// Begins the store with version 0.
fn begin(work: &Work) -> Outcome<Store<WIDTH>> {
    let mut store = work.options.create(work.path())?;
    let mut batch = store.batch();
    for _ in 0..CHUNKS {
        batch.push_chunk(&[BYTE; WIDTH]);
    }
    batch.commit(0)?;
    store.sync()?;
    Ok(store)
}

fn flip_and_commit(work: &Work, store: &mut Store<WIDTH>, positions: &mut Positions, version: u64) -> Outcome<()> {
    let mut batch = store.batch();
    for _ in 0..work.sets {
        let bit = positions.step() % BITS;
        let flipped = !batch.get_bit(bit);
        batch.set_bit(bit, flipped);
    }
    batch.commit(version)?;
    if !work.is_synced && version % BUFFERED == 0 {
        store.sync()?;
    }
    Ok(())
}

fn measure_commits(work: &Work, store: &mut Store<WIDTH>) -> Outcome<()> {
    let counts = || Outcome::Ok((field("/proc/self/io", "write_bytes")?, field("/proc/self/io", "wchar")?));
    let (before, mut positions, start) = (counts()?, Positions::from_seed(1), Instant::now());
    for version in 1..=work.commits {
        flip_and_commit(work, store, &mut positions, version)?;
    }
    store.sync()?;
    print_time("commit_seconds", start.elapsed());
    let after = counts()?;
    println!("write_bytes {}\ncall_bytes {}", after.0 - before.0, after.1 - before.1);
    Ok(())
}

fn measure_opening(work: &Work) -> Outcome<Store<WIDTH>> {
    let start = Instant::now();
    let store = work.options.open(work.path())?;
    print_time("open_seconds", start.elapsed());
    println!("current_checksum {}", checksum(store.bitmap().current()));
    Ok(store)
}

// Reads the version in the middle: single bits, and all bytes.
fn measure_reads(work: &Work, store: &Store<WIDTH>) -> Outcome<()> {
    let (middle, mut positions) = (work.commits / 2, Positions::from_seed(2));
    let missing = "the version in the middle is missing";
    let (start, mut ones) = (Instant::now(), 0);
    for _ in 0..BIT_READS {
        ones += u64::from(store.bitmap().at(middle).ok_or(missing)?.get_bit(positions.step() % BITS));
    }
    print_time("bit_seconds", start.elapsed() / BIT_READS);
    println!("bits_checksum {ones}");
    let start = Instant::now();
    for _ in 0..VERSION_READS {
        black_box(store.bitmap().get_at_commit(middle));
    }
    print_time("version_seconds", start.elapsed() / VERSION_READS);
    println!("version_checksum {}", checksum(&store.bitmap().get_at_commit(middle).ok_or(missing)?));
    println!("memory_bytes {}", field("/proc/self/status", "RssAnon")? * 1024);
    Ok(())
}

fn measure(work: &Work) -> Outcome<()> {
    let mut store = begin(work)?;
    measure_commits(work, &mut store)?;
    drop(store);
    println!("file_bytes {}", files_size(work)?);
    let mut store = measure_opening(work)?;
    measure_reads(work, &store)?;
    store.compact()?;
    drop(store);
    println!("compacted_bytes {}", files_size(work)?);
    Ok(())
}

fn main() -> ExitCode {
    let words: Vec<String> = env::args().skip(1).collect();
    match Work::from_words(&words).and_then(|work| measure(&work)) {
        Ok(()) => ExitCode::SUCCESS,
        Err(error) => {
            eprintln!("stores: {error}");
            ExitCode::FAILURE
        }
    }
}
