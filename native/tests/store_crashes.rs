//! Stores on a disk in memory: a crash at each moment of a run, with each combination of blocks; calls that fail, each in turn; damage.

mod disk;

use disk::{Disk, Fault};
use mortarpink::bitmap::historical::CleanBitMap;
use mortarpink::log::{Damage, RecoverError, write_history};
use mortarpink::store::files::Name;
use mortarpink::store::{Durability, OpenError, Options, Start, Store, StoreError};
use std::collections::BTreeSet;

/// The most ways in which a crash may leave a file that are tried. As a release, the tests try all of them.
const MOST: usize = if cfg!(debug_assertions) { 48 } else { 20_000 };
const MOST_BUFFERED: usize = if cfg!(debug_assertions) { 16 } else { 20_000 };

/// The same of a second crash, which cuts off the opening after the first one.
const MOST_AGAIN: usize = if cfg!(debug_assertions) { 3 } else { 20 };

/// The same of a crash after a store is opened again and takes further commits.
const MOST_LATER: usize = if cfg!(debug_assertions) { 2 } else { 8 };

const ENOSPC: i32 = 28;
const EIO: i32 = 5;

/// The ways in which a call fails.
const FAULTS: [Fault; 6] =
    [Fault::Half(ENOSPC), Fault::Half(EIO), Fault::Whole(ENOSPC), Fault::Whole(EIO), Fault::Lost(ENOSPC), Fault::Lost(EIO)];

fn most(durability: Durability) -> usize {
    if durability == Durability::Synced { MOST } else { MOST_BUFFERED }
}

/// A call that changes a store, or what it has on the disk.
#[derive(Clone, Copy, Debug)]
enum Step {
    /// A commit that appends chunks and sets a bit.
    Commit {
        number: u64,
        chunks: u64,
    },
    Rewind(u64),
    DropBefore(u64),
    Clear,
    Compact,
    Sync,
}

use Step::{Clear, Commit, Compact, DropBefore, Rewind, Sync};

/// Entries of one block and of several; a compaction of a log that has grown, and of one that has not.
const STEPS: [Step; 13] = [
    Commit { number: 1, chunks: 1 },
    Commit { number: 2, chunks: 40 },
    Commit { number: 3, chunks: 0 },
    Commit { number: 5, chunks: 75 },
    Rewind(2),
    Compact,
    Commit { number: 4, chunks: 33 },
    DropBefore(2),
    Commit { number: 9, chunks: 2 },
    Compact,
    Clear,
    Commit { number: 10, chunks: 20 },
    Sync,
];

fn take(store: &mut Store<8>, step: Step) -> Result<(), StoreError> {
    match step {
        Commit { number, chunks } => {
            let mut batch = store.batch();
            for chunk in 0..chunks {
                batch.push_chunk(&[(chunk * number) as u8; 8]);
            }
            batch.push(true).set_bit(0, number % 2 == 0);
            batch.commit(number)
        }
        Rewind(number) => store.rewind_to(number),
        DropBefore(number) => store.drop_before(number),
        Clear => store.clear(),
        Compact => store.compact(),
        Sync => store.sync(),
    }
}

/// All that a bitmap keeps, as bytes.
fn image(bitmap: &CleanBitMap<8>) -> Vec<u8> {
    let mut bytes = Vec::new();
    write_history(bitmap, &mut bytes).unwrap();
    bytes
}

fn open(disk: &Disk) -> Result<Store<8>, OpenError> {
    Options::new().start(disk.files(), Start::Open)
}

fn create(disk: &Disk, durability: Durability) -> Result<Store<8>, OpenError> {
    Options::new().durability(durability).start(disk.files(), Start::Create)
}

/// The images before each step, and after the last one.
fn images() -> Vec<Vec<u8>> {
    let mut store = create(&Disk::default(), Durability::Synced).unwrap();
    let mut images = vec![image(store.bitmap())];
    for step in STEPS {
        take(&mut store, step).unwrap();
        images.push(image(store.bitmap()));
    }
    images
}

/// Opens a store, and takes a commit, which is there when it is opened once more. Returns the image of what was found.
fn reopen(disk: &Disk) -> Vec<u8> {
    let mut store = open(disk).unwrap();
    let found = image(store.bitmap());
    let number = store.bitmap().last_number().map_or(1, |last| last + 1);
    take(&mut store, Commit { number, chunks: 1 }).unwrap();
    let after = image(store.bitmap());
    drop(store);
    let store = open(disk).unwrap();
    assert_eq!((image(store.bitmap()), store.cut_bytes()), (after, 0));
    found
}

/// Runs the steps on a disk that records each moment. The label of a moment has how many steps were acknowledged, and how many were begun.
fn run(durability: Durability) -> Vec<(usize, usize, Disk)> {
    let disk = Disk::default();
    let mut store = create(&disk, durability).unwrap();
    disk.record();
    let mut acknowledged = 0;
    for (index, step) in STEPS.into_iter().enumerate() {
        disk.set_label((acknowledged << 32 | (index + 1)) as u64);
        take(&mut store, step).unwrap();
        if durability == Durability::Synced || matches!(step, Sync | Compact) {
            acknowledged = index + 1;
        }
        disk.set_label((acknowledged << 32 | (index + 1)) as u64);
    }
    let moments = disk.moments();
    moments.into_iter().map(|(label, disk)| ((label >> 32) as usize, label as u32 as usize, disk)).collect()
}

/// After a crash at any moment, in any combination of blocks, the store has some first steps that were begun, among them all that were
/// acknowledged. The same holds if a second crash cuts off the opening.
fn check_crashes(durability: Durability) -> (usize, usize) {
    let images = images();
    let (mut crashes, mut second) = (0, 0);
    for (acknowledged, begun, moment) in run(durability) {
        for disk in moment.after_crash(most(durability)) {
            let allowed = &images[acknowledged..=begun];
            let opening = disk.moments().remove(0).1;
            opening.record();
            let found = open(&opening).map(|store| image(store.bitmap())).unwrap();
            assert!(allowed.contains(&found), "{acknowledged} of {begun} steps");
            crashes += 1;
            for (_, moment) in opening.moments() {
                for disk in moment.after_crash(MOST_AGAIN) {
                    assert!(allowed.contains(&reopen(&disk)), "{acknowledged} of {begun} steps, and a second crash");
                    second += 1;
                }
            }
        }
    }
    (crashes, second)
}

#[test]
fn a_crash_loses_nothing_that_is_acknowledged() {
    let (crashes, second) = check_crashes(Durability::Synced);
    println!("{crashes} crashes, and {second} with a second one");
    assert!(crashes > 100 && second > 300);
}

#[test]
fn a_crash_of_a_buffered_store_leaves_its_first_changes() {
    let (crashes, second) = check_crashes(Durability::Buffered);
    println!("{crashes} crashes, and {second} with a second one");
    assert!(crashes > 100 && second > 500);
}

/// A crash of `create` leaves no store, or an empty one.
#[test]
fn a_crash_leaves_a_store_that_is_created_whole_or_not() {
    let disk = Disk::default();
    disk.record();
    drop(create(&disk, Durability::Synced).unwrap());
    let mut found = BTreeSet::new();
    for (_, moment) in disk.moments() {
        for disk in moment.after_crash(MOST) {
            found.insert(disk.bytes(Name::Log).is_some());
            let store: Store<8> = Options::new().start(disk.files(), Start::OpenOrCreate).unwrap();
            assert!(store.bitmap().is_empty() && store.bitmap().last_number().is_none());
        }
    }
    assert_eq!(found.len(), 2);
}

/// Each call takes as many writes, syncs and other calls of the disk as its documentation says.
#[test]
fn calls_take_the_writes_and_syncs_that_are_documented() {
    for (durability, of_a_change, of_a_sync) in [(Durability::Synced, 4, 0), (Durability::Buffered, 1, 3)] {
        let disk = Disk::default();
        let mut store = create(&disk, durability).unwrap();
        // A new file, three writes, a rename and four syncs.
        assert_eq!(disk.calls(), 9);
        let calls_of = |store: &mut Store<8>, step| {
            let before = disk.calls();
            take(store, step).unwrap();
            disk.calls() - before
        };
        for step in [Commit { number: 1, chunks: 40 }, Commit { number: 2, chunks: 0 }, Rewind(1), DropBefore(1), Clear] {
            assert_eq!(calls_of(&mut store, step), of_a_change, "{step:?}");
        }
        assert_eq!(calls_of(&mut store, Sync), of_a_sync);
        assert_eq!(calls_of(&mut store, Sync), 0);
        take(&mut store, Commit { number: 3, chunks: 1 }).unwrap();
        assert_eq!(calls_of(&mut store, Compact), 9 + of_a_sync);
        assert_eq!(calls_of(&mut store, Compact), 9);
    }
}

/// The same of the calls that open a store.
#[test]
fn opening_takes_the_writes_and_syncs_that_are_documented() {
    let disk = Disk::default();
    let mut store = create(&disk, Durability::Buffered).unwrap();
    let base = store.position();
    take(&mut store, Commit { number: 1, chunks: 1 }).unwrap();
    let calls_of = |start: Start, disk: Disk| {
        let before = disk.calls();
        drop(Options::new().start::<8>(disk.files(), start).unwrap());
        disk.calls() - before
    };
    // The commit was not acknowledged: two writes and three syncs.
    assert_eq!(calls_of(Start::Open, disk.after_kill()), 5);
    // All bytes were acknowledged: a write and a sync.
    store.sync().unwrap();
    drop(store);
    assert_eq!(calls_of(Start::Open, disk.after_kill()), 2);
    // Two writes, five syncs, and a cut.
    assert_eq!(calls_of(Start::OpenCut(base), disk.after_kill()), 8);
    // The end of the bytes is cut off: one cut more. The receipts of a log that is gone are removed: a cut and a sync more.
    let (log, receipts) = (disk.bytes(Name::Log).unwrap(), disk.bytes(Name::Receipts).unwrap());
    let torn = [&log[..], &[0, 0, 0, 0, 1]].concat();
    assert_eq!(calls_of(Start::Open, Disk::with(&[(Name::Log, &torn), (Name::Receipts, &receipts)])), 6);
    assert_eq!(calls_of(Start::Create, Disk::with(&[(Name::Receipts, &receipts)])), 9 + 2);
}

/// An entry of which a crash has left some blocks is cut off if it was not acknowledged. Without a receipt it is an error.
#[test]
fn an_entry_without_some_of_its_blocks_is_cut_off() {
    let disk = Disk::default();
    let mut store = create(&disk, Durability::Buffered).unwrap();
    take(&mut store, Commit { number: 1, chunks: 1 }).unwrap();
    store.sync().unwrap();
    take(&mut store, Commit { number: 2, chunks: 100 }).unwrap();
    let good = 90 + 24 + 25 + 2 * 16;
    let mut kinds = BTreeSet::new();
    for disk in disk.after_crash(1000) {
        let bytes = disk.bytes(Name::Log).unwrap();
        let alone = Disk::with(&[(Name::Log, &bytes)]);
        match open(&alone) {
            Ok(store) => _ = kinds.insert(if store.cut_bytes() > 0 { "torn" } else { "whole" }),
            Err(OpenError::Log(RecoverError::Damaged { at, damage })) => {
                assert!(at == good && matches!(damage, Damage::Head | Damage::Digest));
                assert_eq!(alone.bytes(Name::Log).unwrap(), bytes);
                kinds.insert("damaged");
            }
            Err(error) => panic!("{error}"),
        }
        let store = open(&disk).unwrap();
        assert!(store.bitmap().commits().eq([1]) || store.bitmap().commits().eq([1, 2]));
        assert_eq!(store.cut_bytes(), bytes.len() as u64 - store.position());
    }
    assert!(kinds.into_iter().eq(["damaged", "torn", "whole"]));
}

/// Whether a store that has failed can be changed. Only a compaction that has not begun to replace the log leaves it so.
fn check_after_error(store: &mut Store<8>, step: Step, error: &StoreError) {
    assert!(matches!(error, StoreError::Io(error) if matches!(error.raw_os_error(), Some(ENOSPC | EIO))), "{step:?}: {error}");
    if store.is_read_only() {
        let before = image(store.bitmap());
        let number = store.bitmap().last_number().unwrap_or(0) + 1;
        for step in [Commit { number, chunks: 0 }, Rewind(2), DropBefore(1), Clear, Compact, Sync] {
            assert!(matches!(take(store, step), Err(StoreError::ReadOnly)), "{step:?}");
        }
        assert_eq!(image(store.bitmap()), before);
    } else {
        assert!(matches!(step, Compact), "{step:?}");
    }
}

/// Runs the steps with one call that fails. Returns the disk after the run, and how many steps were acknowledged and begun.
fn run_with_fault(durability: Durability, images: &[Vec<u8>], call: usize, fault: Fault) -> (Disk, usize, usize) {
    let disk = Disk::default();
    let mut store = create(&disk, durability).unwrap();
    disk.fail(call, fault);
    let mut acknowledged = 0;
    for (index, step) in STEPS.into_iter().enumerate() {
        let result = take(&mut store, step);
        if let Err(error) = result {
            assert_eq!(image(store.bitmap()), images[index], "{step:?}, {fault:?} of call {call}");
            check_after_error(&mut store, step, &error);
            if store.is_read_only() {
                return (disk, acknowledged, index + 1);
            }
        } else if durability == Durability::Synced || matches!(step, Sync | Compact) {
            acknowledged = index + 1;
        }
    }
    (disk, acknowledged, STEPS.len())
}

/// Each call fails once, in each way. Then the store is opened again, with a crash before it and without.
fn check_faults(durability: Durability) -> usize {
    let images = images();
    let disk = Disk::default();
    let mut store = create(&disk, durability).unwrap();
    let first = disk.calls();
    STEPS.into_iter().for_each(|step| take(&mut store, step).unwrap());
    let mut count = 0;
    for call in first..disk.calls() {
        for fault in FAULTS {
            let (disk, acknowledged, begun) = run_with_fault(durability, &images, call, fault);
            let allowed = &images[acknowledged..=begun];
            for crashed in disk.after_crash(most(durability)) {
                assert!(allowed.contains(&reopen(&crashed)), "{fault:?} of call {call}, and a crash");
            }
            // What is read may be in memory alone. Once the store is opened, a crash does not lose it.
            let found = open(&disk).map(|store| image(store.bitmap())).unwrap();
            assert!(allowed.contains(&found), "{fault:?} of call {call}");
            for crashed in disk.after_crash(most(durability)) {
                assert_eq!(reopen(&crashed), found, "{fault:?} of call {call}, opened, and a crash");
            }
            count += 1;
        }
    }
    count
}

#[test]
fn a_call_that_fails_loses_nothing_that_is_acknowledged() {
    println!("{} faults", check_faults(Durability::Synced));
}

#[test]
fn a_call_of_a_buffered_store_that_fails_leaves_its_first_changes() {
    println!("{} faults", check_faults(Durability::Buffered));
}

/// Opens a store again, and takes two commits, each with an entry of several blocks. A crash at any moment of this loses nothing that is acknowledged,
/// and what it leaves of an entry is cut off. `allowed` has what may be found at first. Returns the number of crashes.
fn check_further_commits(disk: &Disk, allowed: &[Vec<u8>], most: usize) -> usize {
    disk.set_label(0);
    disk.record();
    let mut store = open(disk).unwrap();
    let mut images = vec![image(store.bitmap())];
    assert!(allowed.contains(&images[0]));
    for chunks in [70, 80] {
        disk.set_label(images.len() as u64);
        let number = store.bitmap().last_number().map_or(1, |last| last + 1);
        take(&mut store, Commit { number, chunks }).unwrap();
        images.push(image(store.bitmap()));
    }
    disk.set_label(images.len() as u64);
    drop(store);
    let mut crashes = 0;
    for (label, moment) in disk.moments() {
        let expected = if label == 0 { allowed } else { &images[label as usize - 1..images.len().min(label as usize + 1)] };
        for crashed in moment.after_crash(most) {
            let found =
                open(&crashed).map(|store| image(store.bitmap())).unwrap_or_else(|error| panic!("a crash in commit {label}: {error}"));
            assert!(expected.contains(&found), "a crash in commit {label}");
            crashes += 1;
        }
    }
    crashes
}

/// If the sync of a receipt fails, the receipt may be in memory alone. It is on the disk once the store is opened again. Otherwise the two receipts
/// that a crash leaves would not follow each other, and an entry that it tears would be reported as damage. The compaction makes the same log again,
/// so its receipt has the place of the one before it.
#[test]
fn a_receipt_whose_sync_failed_is_on_the_disk_once_the_store_is_opened() {
    let receipt_syncs = [(Commit { number: 2, chunks: 1 }, 3), (Compact, 4)];
    let mut crashes = 0;
    for ((step, call), fault) in receipt_syncs.into_iter().flat_map(|sync| FAULTS.map(|fault| (sync, fault))) {
        let disk = Disk::default();
        let mut store = create(&disk, Durability::Synced).unwrap();
        take(&mut store, Commit { number: 1, chunks: 1 }).unwrap();
        take(&mut store, Compact).unwrap();
        let before = image(store.bitmap());
        disk.fail(disk.calls() + call, fault);
        assert!(matches!(take(&mut store, step), Err(StoreError::Io(_))) && store.is_read_only(), "{step:?}");
        drop(store);
        let after = open(&disk.after_kill()).map(|store| image(store.bitmap())).unwrap();
        crashes += check_further_commits(&disk, &[before, after], 300);
    }
    println!("{crashes} crashes");
    assert!(crashes > 1000);
}

/// Each call fails once, and the store is opened again and goes on.
#[test]
fn a_store_goes_on_after_a_call_that_failed() {
    let images = images();
    let mut crashes = 0;
    for durability in [Durability::Synced, Durability::Buffered] {
        let disk = Disk::default();
        let mut store = create(&disk, durability).unwrap();
        let first = disk.calls();
        STEPS.into_iter().for_each(|step| take(&mut store, step).unwrap());
        for call in first..disk.calls() {
            for fault in [Fault::Half(EIO), Fault::Whole(EIO), Fault::Lost(EIO)] {
                let (disk, acknowledged, begun) = run_with_fault(durability, &images, call, fault);
                crashes += check_further_commits(&disk, &images[acknowledged..=begun], MOST_LATER);
            }
        }
    }
    println!("{crashes} crashes");
    assert!(crashes > 1000);
}

/// The process is killed at each moment of a run, and the store is opened again and goes on.
#[test]
fn a_store_goes_on_after_a_kill() {
    let images = images();
    let mut crashes = 0;
    for durability in [Durability::Synced, Durability::Buffered] {
        for (acknowledged, begun, moment) in run(durability) {
            crashes += check_further_commits(&moment.after_kill(), &images[acknowledged..=begun], MOST_LATER);
        }
    }
    println!("{crashes} crashes");
    assert!(crashes > 1000);
}

/// Each call of `open` fails once, in each way. The store is opened after it all the same, with a crash before it and without.
#[test]
fn opening_that_fails_changes_nothing() {
    let images = images();
    for (acknowledged, begun, moment) in run(Durability::Buffered) {
        let allowed = &images[acknowledged..=begun];
        for (index, crashed) in moment.after_crash(MOST_BUFFERED).into_iter().step_by(3).enumerate() {
            for call in 0.. {
                let disk = crashed.moments().remove(0).1;
                disk.fail(call, FAULTS[(index + call) % FAULTS.len()]);
                let Err(error) = open(&disk) else { break };
                assert!(matches!(error, OpenError::Io(_)));
                for disk in disk.after_crash(MOST_AGAIN) {
                    assert!(allowed.contains(&reopen(&disk)));
                }
                assert!(allowed.contains(&reopen(&disk)));
            }
        }
    }
}

/// Each call of `create` fails once, in each way. Then the store is opened if it is there, and is created if it is not.
#[test]
fn creating_that_fails_leaves_no_half_store() {
    for fault in FAULTS {
        for call in 0.. {
            let disk = Disk::default();
            disk.fail(call, fault);
            let Err(error) = create(&disk, Durability::Synced) else { break };
            assert!(matches!(error, OpenError::Io(_)));
            for disk in disk.after_crash(MOST).into_iter().chain([disk]) {
                let store: Store<8> = Options::new().start(disk.files(), Start::OpenOrCreate).unwrap();
                assert!(store.bitmap().is_empty() && store.bitmap().last_number().is_none());
            }
        }
    }
}

/// A store with a few changes, all of which are acknowledged: the bytes of its log and of its receipts, and where each entry ends.
fn small() -> (Vec<u8>, Vec<u8>, Vec<u64>) {
    let disk = Disk::default();
    let mut store = create(&disk, Durability::Synced).unwrap();
    let mut ends = vec![store.position()];
    for step in [Commit { number: 1, chunks: 1 }, Commit { number: 2, chunks: 2 }, Rewind(1), DropBefore(1), Clear] {
        take(&mut store, step).unwrap();
        ends.push(store.position());
    }
    drop(store);
    (disk.bytes(Name::Log).unwrap(), disk.bytes(Name::Receipts).unwrap(), ends)
}

/// Opens a log with its receipts, or alone. After an error the files are as they were.
fn open_bytes(log: &[u8], receipts: Option<&[u8]>) -> Result<Store<8>, OpenError> {
    let disk = Disk::with(&[(Name::Log, log), (Name::Receipts, receipts.unwrap_or_default())]);
    let result = open(&disk);
    if result.is_err() {
        assert_eq!(disk.calls(), 0);
        assert!(disk.bytes(Name::Log).unwrap() == log && disk.bytes(Name::Receipts).unwrap() == receipts.unwrap_or_default());
    }
    result
}

/// Without receipts, each prefix with the base is opened with the entries that are whole in it. With them, each one is too short.
#[test]
fn each_prefix_of_a_log_is_cut_off_or_an_error() {
    let (log, receipts, ends) = small();
    for len in 0..log.len() {
        let prefix = &log[..len];
        match open_bytes(prefix, None) {
            Ok(store) => {
                let good = *ends.iter().rfind(|end| **end <= len as u64).unwrap();
                assert_eq!((store.position(), store.cut_bytes()), (good, len as u64 - good));
            }
            Err(OpenError::Log(RecoverError::Header(_))) => assert!(len < 32),
            Err(error) => assert!(matches!(error, OpenError::Log(RecoverError::NoBase)) && (32..90).contains(&len)),
        }
        match open_bytes(prefix, Some(&receipts)).unwrap_err() {
            OpenError::MissingEnd { good, acknowledged } => assert!(ends.contains(&good) && acknowledged == log.len() as u64),
            error => assert!(matches!(error, OpenError::Log(_)) && len < 90, "{error}"),
        }
    }
}

/// The place of the first error, if bytes from `at` on are damaged: that of the frame that has them.
fn frame_at(ends: &[u64], at: u64) -> u64 {
    ends.iter().copied().rfind(|end| *end <= at).unwrap_or(32)
}

#[test]
fn each_flipped_bit_of_a_log_is_reported() {
    let (log, receipts, ends) = small();
    for at in 0..log.len() {
        for bit in 0..8 {
            let mut damaged = log.clone();
            damaged[at] ^= 1 << bit;
            for receipts in [None, Some(&receipts[..])] {
                match open_bytes(&damaged, receipts).unwrap_err() {
                    OpenError::Log(RecoverError::Header(_)) => assert!(at < 32),
                    OpenError::Log(RecoverError::Damaged { at: place, .. }) => assert_eq!(place, frame_at(&ends, at as u64)),
                    error => panic!("bit {bit} of byte {at}: {error}"),
                }
            }
        }
    }
}

/// Receipts with a flipped bit say less, but the log is whole: the store is opened with all of it.
#[test]
fn each_flipped_bit_of_the_receipts_leaves_the_log() {
    let (log, receipts, _) = small();
    for at in 0..receipts.len() {
        for bit in 0..8 {
            let mut damaged = receipts.clone();
            damaged[at] ^= 1 << bit;
            let store = open_bytes(&log, Some(&damaged)).unwrap();
            assert_eq!((store.position(), store.cut_bytes()), (log.len() as u64, 0));
        }
    }
}

/// If a block of the receipts is damaged, it is not known which entries were acknowledged. So none that is damaged is cut off.
#[test]
fn damaged_receipts_cut_off_no_damaged_entry() {
    let (log, receipts, ends) = small();
    let mut damaged = log.clone();
    *damaged.last_mut().unwrap() ^= 1;
    let changes: [fn(&mut [u8]); 4] =
        [|bytes| bytes[8] ^= 1, |bytes| bytes[520] ^= 1, |bytes| bytes[..512].fill(0), |bytes| bytes[512..].fill(0)];
    for change in changes {
        let mut receipts = receipts.clone();
        change(&mut receipts);
        let error = open_bytes(&damaged, Some(&receipts)).unwrap_err();
        assert!(matches!(error, OpenError::Log(RecoverError::Damaged { at, .. }) if at == ends[ends.len() - 2]));
    }
}

/// Bytes after what is acknowledged are cut off if no whole entry is there. An entry that is whole and not accepted is damage.
#[test]
fn bytes_after_what_is_acknowledged_are_cut_off() {
    let (log, receipts, _) = small();
    for rest in [vec![1], vec![0; 5000], vec![0xff; 16], vec![7; 700], log.clone()] {
        let with_rest = [&log[..], &rest].concat();
        let store = open_bytes(&with_rest, Some(&receipts)).unwrap();
        assert_eq!((store.position(), store.cut_bytes()), (log.len() as u64, rest.len() as u64));
    }
    let store = open_bytes(&log, Some(&receipts)).unwrap();
    let place = mortarpink::log::frames::Place { at: store.position(), digest: u64::from_be_bytes(*log.last_chunk().unwrap()) };
    let mut with_entry = log.clone();
    mortarpink::log::frames::push_frame(&mut with_entry, place, &[9]).unwrap();
    let error = open_bytes(&with_entry, Some(&receipts)).unwrap_err();
    assert!(matches!(error, OpenError::Log(RecoverError::Damaged { damage: Damage::Entry(_), .. })));
}

#[test]
fn another_log_is_an_error() {
    let (log, receipts, _) = small();
    let disk = Disk::default();
    let mut store = create(&disk, Durability::Synced).unwrap();
    for number in 1..=9 {
        take(&mut store, Commit { number, chunks: 1 }).unwrap();
    }
    drop(store);
    let other = disk.bytes(Name::Log).unwrap();
    assert!(other.len() > log.len());
    let error = open_bytes(&other, Some(&receipts)).unwrap_err();
    assert!(matches!(error, OpenError::OtherLog { good } if good == other.len() as u64));
    // The user decides to take it.
    let disk = Disk::with(&[(Name::Log, &other), (Name::Receipts, &receipts)]);
    let store: Store<8> = Options::new().start(disk.files(), Start::OpenCut(other.len() as u64)).unwrap();
    assert!(store.bitmap().commits().eq(1..=9));
    drop(store);
    assert_eq!(open(&disk).unwrap().position(), other.len() as u64);
}

/// A file that is gone is not replaced by an empty store, unless the user asks for it.
#[test]
fn a_log_that_is_gone_is_missed() {
    let (log, receipts, _) = small();
    for disk in [Disk::with(&[(Name::Receipts, &receipts)]), Disk::with(&[(Name::Receipts, &receipts), (Name::Log, &[])])] {
        let result: Result<Store<8>, _> = Options::new().start(disk.files(), Start::OpenOrCreate);
        assert!(matches!(result, Err(OpenError::MissingEnd { good: 0, acknowledged }) if acknowledged == log.len() as u64));
        drop(create(&disk, Durability::Synced).unwrap());
        assert!(open(&disk).unwrap().bitmap().is_empty());
    }
    // Receipts that are damaged do not say that there was no log.
    let disk = Disk::with(&[(Name::Receipts, &[1; 1024])]);
    let result: Result<Store<8>, _> = Options::new().start(disk.files(), Start::OpenOrCreate);
    assert!(matches!(result, Err(OpenError::MissingEnd { good: 0, acknowledged: 0 })));
}

/// A log is opened without its damaged end, at the position of the error. A crash of this call leaves the damaged log or what it was to leave.
#[test]
fn a_damaged_log_is_cut_back_by_an_explicit_call() {
    let (log, receipts, ends) = small();
    for (entry, &end) in ends[..ends.len() - 1].iter().enumerate() {
        let mut damaged = log.clone();
        damaged[end as usize + 20] ^= 1;
        let disk = Disk::with(&[(Name::Log, &damaged), (Name::Receipts, &receipts)]);
        let Err(OpenError::Log(RecoverError::Damaged { at, .. })) = open(&disk) else { panic!("entry {entry} is damaged") };
        assert_eq!(at, end);
        for wrong in [at - 1, at + 1, log.len() as u64 + 1, u64::MAX] {
            let result: Result<Store<8>, _> = Options::new().start(disk.files(), Start::OpenCut(wrong));
            assert!(matches!(result, Err(OpenError::NotAnEnd | OpenError::Log(_))));
        }
        assert_eq!(disk.calls(), 0);
        disk.record();
        let store: Store<8> = Options::new().start(disk.files(), Start::OpenCut(at)).unwrap();
        assert_eq!((store.position(), store.cut_bytes()), (at, log.len() as u64 - at));
        let cut = image(store.bitmap());
        drop(store);
        // Each of the two receipts is of this log.
        for block in [0, 512] {
            let mut receipts = disk.bytes(Name::Receipts).unwrap();
            receipts[block] ^= 1;
            assert_eq!(open_bytes(&disk.bytes(Name::Log).unwrap(), Some(&receipts)).unwrap().position(), at);
        }
        assert_eq!(reopen(&disk), cut);
        for crashed in disk.moments().into_iter().flat_map(|(_, moment)| moment.after_crash(MOST)) {
            let found = open(&crashed).map(|store| (image(store.bitmap()), store.position()));
            match found {
                Ok((_, position)) => assert!(position >= at),
                Err(OpenError::Log(RecoverError::Damaged { at: place, .. })) => assert_eq!(place, at),
                Err(error) => panic!("{error}"),
            }
        }
    }
}

/// A second store of the same files has no lock, and gets it when the first one is dropped.
#[test]
fn a_store_is_locked() {
    let disk = Disk::default();
    let store = create(&disk, Durability::Synced).unwrap();
    assert!(matches!(open(&disk), Err(OpenError::Locked)));
    assert!(matches!(create(&disk, Durability::Synced), Err(OpenError::Locked)));
    drop(store);
    assert!(open(&disk).is_ok());
}
