//! Stores in files of the operating system: locks, compaction, the files beside the log, and what users of Rust expect.

use mortarpink::AllocError;
use mortarpink::bitmap::Readable;
use mortarpink::bitmap::historical::{CleanBitMap, Error};
use mortarpink::log::{Log, RecoverError, commit_logged, recover, write_history};
use mortarpink::store::{Batch, Durability, OpenError, Options, Store, StoreError};
use std::error::Error as _;
use std::fs;
use std::io::{self, Read, Write};
use std::panic::{AssertUnwindSafe, catch_unwind};
use std::path::{Path, PathBuf};
use std::process::{Command, Stdio};
use std::sync::atomic::{AtomicU32, Ordering};

/// A folder that is removed with its files.
struct Folder(PathBuf);

impl Folder {
    fn new() -> Folder {
        static COUNT: AtomicU32 = AtomicU32::new(0);
        let name = format!("mortarpink-test-{}-{}", std::process::id(), COUNT.fetch_add(1, Ordering::Relaxed));
        let path = std::env::temp_dir().join(name);
        fs::create_dir(&path).unwrap();
        Folder(path)
    }

    fn log(&self) -> PathBuf {
        self.0.join("orders.log")
    }

    /// The names of the files in it, in order.
    fn names(&self) -> Vec<String> {
        let mut names: Vec<String> =
            fs::read_dir(&self.0).unwrap().map(|entry| entry.unwrap().file_name().into_string().unwrap()).collect();
        names.sort();
        names
    }
}

impl Drop for Folder {
    fn drop(&mut self) {
        let _ = fs::remove_dir_all(&self.0);
    }
}

/// Commits a set bit more, under each of some numbers.
fn commit(store: &mut Store<8>, numbers: impl IntoIterator<Item = u64>) {
    for number in numbers {
        let mut batch = store.batch();
        batch.push(true);
        batch.commit(number).unwrap();
    }
}

#[test]
fn a_store_outlives_its_process() {
    let folder = Folder::new();
    let mut store = Store::<8>::open_or_create(folder.log()).unwrap();
    commit(&mut store, 1..=4);
    store.rewind_to(3).unwrap();
    store.drop_before(2).unwrap();
    drop(store);
    assert_eq!(folder.names(), ["orders.log", "orders.log.receipts"]);

    let mut store = Store::<8>::open_or_create(folder.log()).unwrap();
    assert!(store.bitmap().commits().eq([2, 3]));
    assert_eq!((store.bitmap().len(), store.bitmap().at(2).unwrap().len(), store.cut_bytes()), (3, 2, 0));
    assert_eq!(store.position(), fs::metadata(folder.log()).unwrap().len());
    store.clear().unwrap();
    drop(store);
    let store = Store::<8>::open(folder.log()).unwrap();
    assert_eq!((store.bitmap().commits().count(), store.bitmap().last_number()), (0, Some(3)));
}

/// The bytes are those that the calls of a `Log` make, and `recover` reads them.
#[test]
fn the_file_is_a_log() {
    let folder = Folder::new();
    let mut store = Store::<8>::create(folder.log()).unwrap();
    let mut log = Log::<8>::begin(store.bitmap()).unwrap();
    let mut bitmap = store.bitmap().clone();
    for number in 1..=20 {
        let mut batch = bitmap.into_dirty();
        let mut stored = store.batch();
        for batch in [&mut batch, &mut *stored] {
            batch.push_chunk(&[number as u8; 8]).push(true);
            let middle = batch.len() / 2;
            batch.prune_to_bit(middle).set_bit(middle, number % 3 == 0);
        }
        bitmap = commit_logged(batch, number, &mut log).unwrap();
        stored.commit(number).unwrap();
    }
    let bytes = fs::read(folder.log()).unwrap();
    assert_eq!(bytes, log.bytes());
    assert!(recover::<8>(&bytes).unwrap().bitmap.commits().eq(1..=20));
}

/// The first receipt of a new log, as the page on formats has it.
#[test]
fn receipts_are_those_of_the_formats() {
    let formats = include_str!("../../docs/FORMATS.md");
    let (_, section) = formats.split_once("\n## Receipts\n").unwrap();
    let (_, worked) = section.split_once("**Worked bytes.**").unwrap();
    let rows = worked.lines().filter(|line| line.starts_with("| ") && line.contains("| `"));
    let digits: String = rows.map(|line| line.split('`').nth(1).unwrap()).take(7).collect();

    let folder = Folder::new();
    Store::<1>::create(folder.log()).unwrap();
    let receipts = fs::read(folder.0.join("orders.log.receipts")).unwrap();
    let found: String = receipts[512..568].iter().map(|byte| format!("{byte:02x}")).collect();
    assert_eq!(found, digits);
    assert!(receipts.len() == 1024 && receipts[568..].iter().all(|byte| *byte == 0));
}

/// A log that a program has written itself, without receipts, is opened.
#[test]
fn a_log_without_receipts_is_opened() {
    let folder = Folder::new();
    commit(&mut Store::create(folder.log()).unwrap(), [1, 2]);
    fs::remove_file(folder.0.join("orders.log.receipts")).unwrap();
    let bytes = fs::read(folder.log()).unwrap();
    fs::write(folder.log(), &bytes[..bytes.len() - 1]).unwrap();
    let store = Store::<8>::open(folder.log()).unwrap();
    assert!(store.bitmap().commits().eq([1]) && store.cut_bytes() > 0);
    drop(store);
    assert_eq!(folder.names(), ["orders.log", "orders.log.receipts"]);
}

/// The bitmap of a program that has kept it in memory goes on in a store.
#[test]
fn a_history_begins_a_store() {
    let folder = Folder::new();
    let mut bitmap = CleanBitMap::<8>::new();
    for number in 1..=3 {
        let mut batch = bitmap.into_dirty();
        batch.push(number == 2);
        bitmap = batch.commit(number).unwrap();
    }
    bitmap.prune_commits_before(2);
    let mut bytes = Vec::new();
    write_history(&bitmap, &mut bytes).unwrap();
    fs::write(folder.log(), bytes).unwrap();
    let mut store = Store::<8>::open(folder.log()).unwrap();
    assert!(store.bitmap().commits().eq([2, 3]) && store.bitmap().current() == bitmap.current());
    commit(&mut store, [4]);
    drop(store);
    let store = Store::<8>::open(folder.log()).unwrap();
    assert!(store.bitmap().commits().eq([2, 3, 4]) && store.cut_bytes() == 0);
}

/// The store of the crate `log_store` keeps this byte after the last entry of its log.
const CLOSED_GATE: u8 = 165;

#[test]
fn a_log_behind_a_closed_gate_is_opened() {
    let folder = Folder::new();
    commit(&mut Store::create(folder.log()).unwrap(), [1, 2]);
    fs::remove_file(folder.0.join("orders.log.receipts")).unwrap();
    let mut bytes = fs::read(folder.log()).unwrap();
    bytes.push(CLOSED_GATE);
    fs::write(folder.log(), &bytes).unwrap();
    let store = Store::<8>::open(folder.log()).unwrap();
    assert!(store.bitmap().commits().eq([1, 2]) && store.cut_bytes() == 1);
}

#[test]
fn errors_say_what_to_do() {
    let folder = Folder::new();
    let missing = Store::<8>::open(folder.log()).unwrap_err();
    assert!(matches!(&missing, OpenError::Io(error) if error.kind() == io::ErrorKind::NotFound));
    assert!(folder.names().is_empty());
    assert!(matches!(Store::<8>::open_cut(folder.log(), 90), Err(OpenError::Io(error)) if error.kind() == io::ErrorKind::NotFound));
    assert!(matches!(Store::<8>::create(folder.0.join("none/orders.log")), Err(OpenError::Io(_))));

    let mut store = Store::<8>::create(folder.log()).unwrap();
    assert!(matches!(store.rewind_to(1), Err(StoreError::NoSuchCommit)));
    let reserved = store.batch().commit(u64::MAX).unwrap_err();
    assert!(matches!(reserved, StoreError::Number(Error::ReservedCommitNumber)));
    commit(&mut store, [4]);
    let (batch, error) = store.batch().try_commit(4).unwrap_err();
    assert!(matches!(error, StoreError::Number(Error::NonMonotonicCommit { previous: 4, attempted: 4 })));
    batch.commit(5).unwrap();
    drop(store);

    let wide = Store::<16>::open(folder.log()).unwrap_err();
    assert_eq!(wide.source().unwrap().to_string(), "the log has chunks of 8 bytes, which is not the width of the reader");
    assert!(matches!(Store::<8>::create(folder.log()), Err(OpenError::NotEmpty)));
    let cut = fs::OpenOptions::new().write(true).open(folder.log()).unwrap();
    cut.set_len(100).unwrap();
    let error = Store::<8>::open(folder.log()).unwrap_err();
    assert_eq!(error.to_string(), "the end of the log is missing: 90 bytes are good, and 204 were acknowledged");
    cut.set_len(20).unwrap();
    assert!(matches!(Store::<8>::open(folder.log()), Err(OpenError::Log(RecoverError::Header(_)))));
}

/// A file that is no log stays, and so does one whose name is that of a new log.
#[test]
fn other_files_stay() {
    let folder = Folder::new();
    let new = folder.0.join("orders.log.new");
    fs::write(folder.log(), "a list of what is to be bought, which is longer than a header").unwrap();
    fs::write(&new, "a newer list").unwrap();
    assert!(matches!(Store::<8>::open(folder.log()), Err(OpenError::Log(RecoverError::Header(_)))));
    assert!(matches!(Store::<8>::open_or_create(folder.log()), Err(OpenError::Log(RecoverError::Header(_)))));
    assert!(matches!(Store::<8>::create(folder.log()), Err(OpenError::NotEmpty)));
    assert_eq!(fs::read_to_string(new).unwrap(), "a newer list");
}

#[test]
fn errors_have_sources_and_conversions() {
    assert_eq!(StoreError::from(AllocError).to_string(), "out of memory");
    assert!(StoreError::NotApplied(AllocError).source().unwrap().is::<AllocError>());
    assert!(OpenError::Memory(AllocError).source().unwrap().is::<AllocError>());
    assert!(StoreError::ReadOnly.source().is_none() && OpenError::Locked.source().is_none());
    let full = || io::Error::from(io::ErrorKind::StorageFull);
    assert!(matches!(StoreError::from(full()), StoreError::Io(error) if error.kind() == io::ErrorKind::StorageFull));
    assert!(matches!(OpenError::from(full()), OpenError::Io(error) if error.kind() == io::ErrorKind::StorageFull));
}

#[test]
fn all_types_are_shared_by_threads() {
    fn is_shared<T: Send + Sync + std::fmt::Debug>() {}
    is_shared::<Store<8>>();
    is_shared::<Batch<'_, 8>>();
    is_shared::<Options>();
    is_shared::<OpenError>();
    is_shared::<StoreError>();
    is_shared::<Durability>();
}

#[test]
fn a_batch_that_is_dropped_leaves_nothing() {
    let folder = Folder::new();
    let mut store = Store::create(folder.log()).unwrap();
    commit(&mut store, [1]);
    let position = store.position();
    store.batch().push(true);
    store.batch().push(true);
    store.batch().abort();
    let panics = catch_unwind(AssertUnwindSafe(|| {
        let mut batch = store.batch();
        batch.push(true);
        panic!("in a batch");
    }));
    assert!(panics.is_err());
    assert_eq!((store.bitmap().len(), store.position()), (1, position));
    commit(&mut store, [2]);
    drop(store);
    assert!(Store::<8>::open(folder.log()).unwrap().bitmap().commits().eq([1, 2]));
}

/// A batch whose destructor does not run takes the bitmap with it. The file keeps what was committed.
#[test]
fn a_batch_that_is_forgotten_takes_the_bitmap() {
    let folder = Folder::new();
    let mut store = Store::create(folder.log()).unwrap();
    commit(&mut store, [1]);
    std::mem::forget(store.batch());
    let calls: [fn(&mut Store<8>); 4] =
        [|store| _ = store.bitmap(), |store| _ = store.batch(), |store| _ = store.clear(), |store| _ = store.compact()];
    for call in calls {
        assert!(catch_unwind(AssertUnwindSafe(|| call(&mut store))).is_err());
    }
    drop(store);
    assert!(Store::<8>::open(folder.log()).unwrap().bitmap().commits().eq([1]));
}

#[test]
fn compaction_leaves_what_is_kept() {
    let folder = Folder::new();
    let mut store = Store::create(folder.log()).unwrap();
    commit(&mut store, 1..=50);
    store.drop_before(49).unwrap();
    let long = store.position();
    fs::write(folder.0.join("orders.log.new"), "what an earlier compaction has left").unwrap();
    store.compact().unwrap();
    assert!(store.position() < long / 10);
    assert_eq!(store.position(), fs::metadata(folder.log()).unwrap().len());
    commit(&mut store, [60]);
    drop(store);
    fs::write(folder.0.join("orders.log.new"), "what a crash has left").unwrap();
    let store = Store::<8>::open(folder.log()).unwrap();
    assert!(store.bitmap().commits().eq([49, 50, 60]) && store.bitmap().at(49).unwrap().len() == 49);
    assert_eq!(folder.names(), ["orders.log", "orders.log.receipts"]);
}

/// A log that is compacted automatically has at most two and a half times its compacted size, and one that is not grows.
#[test]
fn automatic_compaction_bounds_the_file() {
    for compacts in [true, false] {
        let folder = Folder::new();
        let mut options = Options::new();
        options.compact_automatically(compacts).indexed(true).durability(Durability::Buffered);
        let mut store = options.create::<8>(folder.log()).unwrap();
        let mut longest = 0;
        for number in 1..=600 {
            commit(&mut store, [number]);
            store.drop_before(number.saturating_sub(3)).unwrap();
            longest = longest.max(fs::metadata(folder.log()).unwrap().len());
        }
        assert_eq!(longest < 6000, compacts, "{longest} bytes");
        assert!(store.bitmap().at(598).is_some());
        drop(store);
        let store = options.open::<8>(folder.log()).unwrap();
        assert!(store.bitmap().commits().eq(597..=600));
    }
}

/// Without a folder that can be written to, a compaction fails, and the store goes on.
#[test]
fn a_compaction_that_fails_leaves_the_store() {
    let folder = Folder::new();
    let mut store = Store::create(folder.log()).unwrap();
    commit(&mut store, [1, 2]);
    // A folder has the name of the new log.
    fs::create_dir(folder.0.join("orders.log.new")).unwrap();
    assert!(matches!(store.compact(), Err(StoreError::Io(_))));
    assert!(!store.is_read_only());
    commit(&mut store, [3]);
    fs::remove_dir(folder.0.join("orders.log.new")).unwrap();
    store.compact().unwrap();
    drop(store);
    assert!(Store::<8>::open(folder.log()).unwrap().bitmap().commits().eq(1..=3));
}

#[cfg(unix)]
#[test]
fn a_compacted_file_keeps_its_permissions_and_links() {
    use std::os::unix::fs::{PermissionsExt, symlink};
    let folder = Folder::new();
    let link = folder.0.join("link.log");
    commit(&mut Store::create(folder.log()).unwrap(), [1, 2]);
    fs::set_permissions(folder.log(), fs::Permissions::from_mode(0o640)).unwrap();
    symlink(folder.log(), &link).unwrap();
    let mut store = Store::<8>::open(&link).unwrap();
    assert!(matches!(Store::<8>::open(folder.log()), Err(OpenError::Locked)));
    store.compact().unwrap();
    assert!(fs::symlink_metadata(&link).unwrap().is_symlink());
    assert_eq!(fs::metadata(folder.log()).unwrap().permissions().mode() & 0o777, 0o640);
    assert_eq!(folder.names(), ["link.log", "orders.log", "orders.log.receipts"]);
}

/// A store that is opened by a relative path stays where it is. No other test of this file depends on the current folder.
#[test]
fn a_relative_path_is_that_of_the_opening() {
    let folder = Folder::new();
    std::env::set_current_dir(&folder.0).unwrap();
    let mut store = Store::create("orders.log").unwrap();
    std::env::set_current_dir(std::env::temp_dir()).unwrap();
    commit(&mut store, 1..=20);
    store.drop_before(20).unwrap();
    store.compact().unwrap();
    assert_eq!(fs::metadata(folder.log()).unwrap().len(), store.position());
    assert_eq!(folder.names(), ["orders.log", "orders.log.receipts"]);
}

#[test]
fn a_buffered_store_is_synced_when_it_is_dropped() {
    let folder = Folder::new();
    let receipts = folder.0.join("orders.log.receipts");
    let mut store = Options::new().durability(Durability::Buffered).create(folder.log()).unwrap();
    let before = fs::read(&receipts).unwrap();
    commit(&mut store, 1..=3);
    assert_eq!(fs::read(&receipts).unwrap(), before);
    store.sync().unwrap();
    let synced = fs::read(&receipts).unwrap();
    assert_ne!(synced, before);
    store.sync().unwrap();
    assert_eq!(fs::read(&receipts).unwrap(), synced);
    commit(&mut store, [4]);
    drop(store);
    assert_ne!(fs::read(&receipts).unwrap(), synced);
}

/// The name of the environment variable with the path that a second process opens.
const PATH: &str = "MORTARPINK_LOCKED";

/// The second process of the next test: it opens the store, says whether it could, and holds it until it is killed. It does nothing otherwise.
#[test]
fn second_process() {
    let Some(path) = std::env::var_os(PATH) else { return };
    let store = Store::<8>::open(Path::new(&path));
    let said = match store {
        Ok(_) => "opened",
        Err(OpenError::Locked) => "locked",
        Err(_) => "failed",
    };
    println!("the store is {said}.");
    io::stdout().flush().unwrap();
    io::stdin().read_to_end(&mut Vec::new()).unwrap();
}

/// Starts the second process. Returns it with what it says.
fn start_second(path: &Path) -> (std::process::Child, String) {
    let mut second = Command::new(std::env::current_exe().unwrap())
        .args(["--exact", "second_process", "--nocapture", "--test-threads", "1"])
        .env(PATH, path)
        .stdin(Stdio::piped())
        .stdout(Stdio::piped())
        .spawn()
        .unwrap();
    let output = second.stdout.as_mut().unwrap();
    let mut said = String::new();
    while !said.ends_with('.') || !said.contains("the store is") {
        let mut byte = [0];
        output.read_exact(&mut byte).unwrap();
        said.push(byte[0] as char);
    }
    (second, said)
}

#[test]
fn a_second_process_gets_no_lock() {
    let folder = Folder::new();
    let mut store = Store::create(folder.log()).unwrap();
    commit(&mut store, [1]);
    let (mut second, said) = start_second(&folder.log());
    assert!(said.ends_with("the store is locked."), "{said}");
    second.kill().unwrap();
    second.wait().unwrap();

    // The lock of a process that is killed is gone.
    drop(store);
    let (mut second, said) = start_second(&folder.log());
    assert!(said.ends_with("the store is opened."), "{said}");
    assert!(matches!(Store::<8>::open(folder.log()), Err(OpenError::Locked)));
    second.kill().unwrap();
    second.wait().unwrap();
    assert!(Store::<8>::open(folder.log()).is_ok());
}
