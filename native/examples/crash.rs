//! A program that changes a store until it is killed, and one that kills it and compares what is left: the work of `tools/crash.sh`.
//!
//! `crash KILLS SECONDS` kills so many times, or stops after so many seconds. `crash full FOLDER` fills a small file system. `crash write` is
//! the program that is killed: it prints each change that was acknowledged.

use mortarpink::bitmap::historical::{CleanBitMap, DirtyBitMap};
use mortarpink::log::write_history;
use mortarpink::store::{Durability, Options, Store, StoreError};
use std::env;
use std::error::Error;
use std::io::{self, ErrorKind, Read, Write};
use std::path::Path;
use std::process::{Command, ExitCode, Stdio};
use std::time::{Duration, Instant, SystemTime, UNIX_EPOCH};

type Outcome<T> = Result<T, Box<dyn Error>>;

/// A change of the store. Which one comes next depends on its number and on the state, so both programs make the same ones.
#[derive(Clone, Copy, Debug)]
enum Change {
    Commit,
    Rewind(u64),
    DropBefore(u64),
    Clear,
    Compact,
}

/// Numbers that look random: those of SplitMix64.
struct Random(u64);

impl Random {
    fn below(&mut self, end: u64) -> u64 {
        self.0 = self.0.wrapping_add(0x9e37_79b9_7f4a_7c15);
        let mut value = self.0;
        value = (value ^ (value >> 30)).wrapping_mul(0xbf58_476d_1ce4_e5b9);
        value = (value ^ (value >> 27)).wrapping_mul(0x94d0_49bb_1331_11eb);
        (value ^ (value >> 31)) % end
    }
}

fn next_change(index: u64, bitmap: &CleanBitMap<8>) -> Change {
    let mut random = Random(index);
    let kept: Vec<u64> = bitmap.commits().collect();
    let any = |random: &mut Random| kept[random.below(kept.len() as u64) as usize];
    match random.below(40) {
        0..3 if !kept.is_empty() => Change::Rewind(any(&mut random)),
        3..6 if !kept.is_empty() => Change::DropBefore(any(&mut random)),
        6 => Change::Clear,
        7 => Change::Compact,
        _ => Change::Commit,
    }
}

/// Edits a batch: one entry in eight has many chunks.
fn edit(index: u64, batch: &mut DirtyBitMap<8>) {
    let mut random = Random(!index);
    for _ in 0..if random.below(8) == 0 { 300 } else { random.below(5) } {
        batch.push_chunk(&random.below(u64::MAX).to_le_bytes());
    }
    if batch.len() > batch.pruned_chunks() as u64 * 64 {
        let first = batch.pruned_chunks() as u64 * 64;
        let bit = first + random.below(batch.len() - first);
        batch.set_bit(bit, random.below(2) == 0);
    }
    batch.push(random.below(2) == 0);
    batch.prune_to_bit(batch.len().saturating_sub(50_000));
}

fn next_number(bitmap: &CleanBitMap<8>) -> u64 {
    bitmap.last_number().map_or(1, |last| last + 1)
}

/// Makes a change of a store.
fn change(store: &mut Store<8>, index: u64) -> Result<(), StoreError> {
    match next_change(index, store.bitmap()) {
        Change::Commit => {
            let number = next_number(store.bitmap());
            let mut batch = store.batch();
            edit(index, &mut batch);
            batch.commit(number)
        }
        Change::Rewind(number) => store.rewind_to(number),
        Change::DropBefore(number) => store.drop_before(number),
        Change::Clear => store.clear(),
        Change::Compact => store.compact(),
    }
}

/// Makes the same change of a bitmap alone.
fn change_bitmap(bitmap: CleanBitMap<8>, index: u64) -> CleanBitMap<8> {
    let mut bitmap = bitmap;
    match next_change(index, &bitmap) {
        Change::Commit => {
            let number = next_number(&bitmap);
            let mut batch = bitmap.into_dirty();
            edit(index, &mut batch);
            return batch.commit(number).unwrap();
        }
        Change::Rewind(number) => return bitmap.rewind_to(number).unwrap(),
        Change::DropBefore(number) => _ = bitmap.prune_commits_before(number),
        Change::Clear => bitmap.clear_history(),
        Change::Compact => {}
    }
    bitmap
}

/// All that a bitmap keeps, as bytes.
fn image(bitmap: &CleanBitMap<8>) -> Outcome<Vec<u8>> {
    let mut bytes = Vec::new();
    write_history(bitmap, &mut bytes)?;
    Ok(bytes)
}

fn options(round: u64) -> Options {
    let mut options = Options::new();
    options.durability(if round.is_multiple_of(2) { Durability::Synced } else { Durability::Buffered });
    options.compact_automatically(round.is_multiple_of(3));
    options
}

/// Changes the store, from a change on, and prints the number of each one that has returned. It ends when it is killed.
fn write(path: &Path, round: u64, first: u64) -> Outcome<()> {
    let mut store = options(round).open_or_create::<8>(path)?;
    let mut output = io::stdout();
    for index in first.. {
        change(&mut store, index)?;
        output.write_all(&index.to_le_bytes())?;
        output.flush()?;
    }
    Ok(())
}

/// Starts the program that writes, kills it after a while, and returns the number of the change after the last one that was acknowledged.
fn killed(path: &Path, round: u64, first: u64, after: Duration) -> Outcome<u64> {
    let numbers = [round, first].map(|number| number.to_string());
    let mut child =
        Command::new(env::current_exe()?).arg("write").arg(path).args(numbers).stdout(Stdio::piped()).stderr(Stdio::piped()).spawn()?;
    let mut output = child.stdout.take().ok_or("the output is taken")?;
    let reader = std::thread::spawn(move || -> io::Result<Vec<u8>> {
        let mut bytes = Vec::new();
        output.read_to_end(&mut bytes)?;
        Ok(bytes)
    });
    std::thread::sleep(after);
    child.kill()?;
    let ended = child.wait_with_output()?;
    let printed = reader.join().map_err(|_| "the reader has panicked")??;
    if ended.status.code().is_some() {
        return Err(format!("the program ended by itself: {}", String::from_utf8_lossy(&ended.stderr)).into());
    }
    let last = printed.as_chunks::<8>().0.last();
    Ok(last.map_or(first, |last| u64::from_le_bytes(*last) + 1))
}

/// The bitmap without a store, after so many changes.
struct Expected {
    bitmap: CleanBitMap<8>,
    changes: u64,
}

impl Expected {
    fn advance(&mut self, changes: u64) {
        while self.changes < changes {
            self.bitmap = change_bitmap(std::mem::take(&mut self.bitmap), self.changes);
            self.changes += 1;
        }
    }

    /// Opens the store after a kill, and compares it with what was acknowledged. Returns whether one change more was found.
    fn compare(&mut self, path: &Path, acknowledged: u64) -> Outcome<bool> {
        let found = image(Options::new().open_or_create::<8>(path)?.bitmap())?;
        self.advance(acknowledged);
        if found == image(&self.bitmap)? {
            return Ok(false);
        }
        self.advance(acknowledged + 1);
        if found == image(&self.bitmap)? {
            Ok(true)
        } else {
            Err("the store is neither with nor without the change that was cut off".into())
        }
    }
}

/// Kills the program so many times, or until the time is over.
fn run(kills: u64, limit: Duration) -> Outcome<()> {
    let folder = env::temp_dir().join(format!("mortarpink-crash-{}", std::process::id()));
    std::fs::create_dir_all(&folder)?;
    let path = folder.join("crash.log");
    let seed = SystemTime::now().duration_since(UNIX_EPOCH)?.as_nanos() as u64;
    let (start, mut random) = (Instant::now(), Random(seed));
    let mut expected = Expected { bitmap: CleanBitMap::new(), changes: 0 };
    let (mut round, mut further) = (0, 0);
    while round < kills && start.elapsed() < limit {
        let after = Duration::from_micros(random.below(60_000));
        let acknowledged = killed(&path, round, expected.changes, after)?;
        further += u64::from(expected.compare(&path, acknowledged).map_err(|error| format!("kill {round} of seed {seed}: {error}"))?);
        round += 1;
    }
    println!("{round} kills, {} changes, {further} of them found whole that were not acknowledged", expected.changes);
    println!("nothing that was acknowledged is lost, and nothing else is half there");
    std::fs::remove_dir_all(&folder)?;
    Ok(())
}

/// Fills a file system with changes, makes space, and opens the store again.
fn fill(folder: &Path) -> Outcome<()> {
    let path = folder.join("full.log");
    let filler = folder.join("filler");
    std::fs::write(&filler, vec![1; 8192])?;
    let mut store = Store::<8>::create(&path)?;
    let mut expected = Expected { bitmap: CleanBitMap::new(), changes: 0 };
    let error = loop {
        let number = next_number(store.bitmap());
        let mut batch = store.batch();
        edit(number, &mut batch);
        match batch.commit(number) {
            Ok(()) => expected.changes += 1,
            Err(error) => break error,
        }
    };
    let StoreError::Io(cause) = &error else { return Err(error.into()) };
    if cause.kind() != ErrorKind::StorageFull || !store.is_read_only() {
        return Err(format!("the store is not stopped by a full disk: {error}").into());
    }
    let before = image(store.bitmap())?;
    drop(store);
    std::fs::remove_file(&filler)?;
    let mut store = Store::<8>::open(&path)?;
    if image(store.bitmap())? != before {
        return Err("the store is not as it was before the disk was full".into());
    }
    let number = next_number(store.bitmap());
    store.batch().commit(number)?;
    println!(
        "{} commits were kept when the disk was full, and {} bytes of a further one were cut off",
        expected.changes,
        store.cut_bytes()
    );
    Ok(())
}

fn main() -> ExitCode {
    let arguments: Vec<String> = env::args().skip(1).collect();
    let words: Vec<&str> = arguments.iter().map(String::as_str).collect();
    let number = |word: &str| word.parse::<u64>();
    let outcome = (|| match words[..] {
        ["write", path, round, first] => write(Path::new(path), number(round)?, number(first)?),
        ["full", folder] => fill(Path::new(folder)),
        [kills, seconds] => run(number(kills)?, Duration::from_secs(number(seconds)?)),
        _ => Err("usage: crash KILLS SECONDS | crash full FOLDER".into()),
    })();
    match outcome {
        Ok(()) => ExitCode::SUCCESS,
        Err(error) => {
            eprintln!("crash: {error}");
            ExitCode::FAILURE
        }
    }
}
