//! Logs: entries that calls append, what each cut of a log recovers to, and damage.

mod common;
mod random;

use std::fs::{self, OpenOptions};
use std::hash::{DefaultHasher, Hasher};
use std::io::Write;
use std::mem;
use std::path::{Path, PathBuf};
use std::thread;

use common::{WIDTHS, bitmap_of, commit};
use mortarpink_proved::{Batch, Bitmap, Error, RecoverError, Recovered, Width};
use random::Random;

/// The size of the header in bytes, and of a frame without its body.
const HEADER: u64 = 32;
const FRAME: u64 = 24;

/// The sizes of bodies in bytes: a base without chunks, a commit without chunks, a rewind or a drop,
/// and a clear.
const BASE: u64 = 34;
const COMMIT: u64 = 25;
const NUMBER: u64 = 9;
const CLEAR: u64 = 1;

/// The size of a listed chunk in the body of a commit.
fn listed(width: Width) -> u64 {
    8 + width.bytes() as u64
}

/// Returns an empty bitmap that keeps a log.
fn empty(width: Width) -> Bitmap {
    let mut bitmap = Bitmap::new(width).unwrap();
    bitmap.begin_log().unwrap();
    bitmap
}

/// What a bitmap keeps: the encodings of its versions with their numbers, and the current one.
type Kept = (Vec<(u64, Vec<u8>)>, Vec<u8>);

fn kept(bitmap: &Bitmap) -> Kept {
    let version = |number| (number, bitmap.at(number).unwrap().to_bytes().unwrap());
    (bitmap.commits().map(version).collect(), bitmap.to_bytes().unwrap())
}

/// A bitmap that keeps a log, the bytes that it has appended, and after each entry the number of bytes
/// and what is kept.
struct Logged {
    bitmap: Bitmap,
    bytes: Vec<u8>,
    entries: Vec<(usize, Kept)>,
}

impl Logged {
    fn new(mut bitmap: Bitmap) -> Logged {
        bitmap.begin_log().unwrap();
        let bytes = bitmap.take_log().unwrap();
        let entries = vec![(bytes.len(), kept(&bitmap))];
        Logged { bitmap, bytes, entries }
    }

    /// Makes a call that appends one entry, and takes the bytes. Returns how many there are.
    fn call(&mut self, call: impl FnOnce(&mut Bitmap)) -> u64 {
        call(&mut self.bitmap);
        let entry = self.bitmap.take_log().unwrap();
        self.bytes.extend_from_slice(&entry);
        assert_eq!(self.bitmap.log_position(), Ok(self.bytes.len() as u64));
        self.entries.push((self.bytes.len(), kept(&self.bitmap)));
        entry.len() as u64
    }
}

/// Returns a bitmap whose log has each kind of entry.
fn all_entries(width: Width) -> Logged {
    let bits = width.bits();
    let mut logged = Logged::new(Bitmap::new(width).unwrap());
    logged.call(|bitmap| commit(bitmap, 1, |batch| batch.push_byte(0xa5).unwrap()));
    logged.call(|bitmap| commit(bitmap, 2, |batch| batch.extend_to(2 * bits + 1).unwrap()));
    logged.call(|bitmap| commit(bitmap, 4, |batch| batch.prune(bits).unwrap()));
    logged.call(|bitmap| bitmap.rewind_to(2).unwrap());
    logged.call(|bitmap| commit(bitmap, 3, |batch| batch.truncate(3).unwrap()));
    logged.call(|bitmap| assert_eq!(bitmap.drop_before(2), Ok(1)));
    let delta = {
        let mut ahead = logged.bitmap.try_clone().unwrap();
        commit(&mut ahead, 9, |batch| batch.push_byte(0xff).unwrap());
        ahead.delta(3, 9).unwrap().unwrap()
    };
    logged.call(|bitmap| bitmap.apply_delta(&delta).unwrap());
    logged.call(|bitmap| bitmap.clear().unwrap());
    logged.call(|bitmap| bitmap.begin().commit(10).unwrap());
    logged
}

#[test]
fn a_log_begins_with_the_history() {
    for width in WIDTHS {
        let mut bitmap = bitmap_of(width, &vec![0xa5; 2 * width.bytes()]);
        commit(&mut bitmap, 5, |batch| batch.set(0, false).unwrap());
        bitmap.begin_log().unwrap();
        assert_eq!(bitmap.log_bytes(), bitmap.save());
        // The base has two chunks, and the commit after it lists one.
        let base = FRAME + BASE + 2 * width.bytes() as u64;
        let size = HEADER + base + FRAME + COMMIT + listed(width);
        assert_eq!(bitmap.log_position(), Ok(size));
        assert_eq!(bitmap.log_bytes().unwrap().len() as u64, size);
    }
}

/// An edit of a batch.
type Edit = fn(&mut Batch<'_>);

/// Edits, and how many chunks each of them changes.
const EDITS: [(Edit, u64); 6] = [
    (|batch| batch.push(true).unwrap(), 1),
    (|_| (), 0),
    (|batch| batch.set(0, false).unwrap(), 1),
    // Chunk 0 keeps its bytes, and four chunks are new.
    (|batch| batch.extend_to(5 * batch.width().bits()).unwrap(), 4),
    (|batch| batch.set_range(.., false).unwrap(), 0),
    (|batch| batch.prune(3 * batch.width().bits()).unwrap(), 0),
];

/// Checks the number of bytes that each call appends.
fn check_sizes(width: Width) {
    let mut logged = Logged::new(Bitmap::new(width).unwrap());
    assert_eq!(logged.bytes.len() as u64, HEADER + FRAME + BASE);
    for (number, (edit, chunks)) in (1..).zip(EDITS) {
        let size = logged.call(|bitmap| commit(bitmap, number, edit));
        assert_eq!(size, FRAME + COMMIT + chunks * listed(width), "commit {number}");
    }
    assert_eq!(logged.call(|bitmap| bitmap.rewind_to(4).unwrap()), FRAME + NUMBER);
    assert_eq!(logged.call(|bitmap| assert_eq!(bitmap.drop_before(3), Ok(2))), FRAME + NUMBER);
    assert_eq!(logged.call(|bitmap| assert_eq!(bitmap.drop_before(0), Ok(0))), FRAME + NUMBER);
    assert_eq!(logged.call(|bitmap| bitmap.clear().unwrap()), FRAME + CLEAR);
}

#[test]
fn each_entry_has_the_size_of_its_body() {
    WIDTHS.into_iter().for_each(check_sizes);
}

#[test]
fn the_greatest_length_and_number_are_logged() {
    for width in WIDTHS {
        let pruned_chunks = u64::MAX / width.bits();
        let bitmap = Bitmap::with_pruned_chunks(width, pruned_chunks).unwrap();
        let mut logged = Logged::new(bitmap);
        // Pruned chunks take no bytes, and what is left of the positions is in one chunk.
        assert_eq!(logged.bytes.len() as u64, HEADER + FRAME + BASE);
        let extend = |batch: &mut Batch<'_>| batch.extend_to(u64::MAX).unwrap();
        let size = logged.call(|bitmap| commit(bitmap, u64::MAX - 1, extend));
        assert_eq!(size, FRAME + COMMIT + listed(width));
        logged.call(|bitmap| assert_eq!(bitmap.drop_before(u64::MAX), Ok(1)));

        let mut recovered = Bitmap::recover(width, &logged.bytes).unwrap().bitmap;
        assert_eq!((recovered.len(), recovered.pruned_chunks()), (u64::MAX, pruned_chunks));
        assert_eq!(recovered.latest(), None);
        let last = u64::MAX - 1;
        let failed = recovered.begin().commit(last).unwrap_err();
        assert_eq!(failed, Error::NonMonotonicCommit { previous: last, attempted: last });
    }
}

/// The log of `docs/FORMATS.md`, which is worked there by hand.
#[test]
fn the_worked_log_has_its_bytes() {
    let mut bitmap = empty(Width::Bytes1);
    assert_eq!((bitmap.log_position(), bitmap.log_digest()), (Ok(90), Ok(0x210e_4524_3dcc_6fc5)));
    commit(&mut bitmap, 1, |batch| batch.push_bits(&[true, false, true]).unwrap());
    assert_eq!((bitmap.log_position(), bitmap.log_digest()), (Ok(148), Ok(0x047d_3edd_96ac_a7ad)));
    commit(&mut bitmap, 5, |batch| {
        batch.push_bits(&[true, true, false, true, false, false, true, true]).unwrap();
    });
    assert_eq!((bitmap.log_position(), bitmap.log_digest()), (Ok(215), Ok(0xee32_5071_3d15_9206)));
    bitmap.rewind_to(1).unwrap();
    assert_eq!((bitmap.log_position(), bitmap.log_digest()), (Ok(248), Ok(0x68ce_0b47_6a18_468b)));
    assert_eq!(bitmap.drop_before(1), Ok(0));
    assert_eq!((bitmap.log_position(), bitmap.log_digest()), (Ok(281), Ok(0x7587_2cd1_8716_b0dc)));
    bitmap.clear().unwrap();
    assert_eq!((bitmap.log_position(), bitmap.log_digest()), (Ok(306), Ok(0x7356_dd36_b6d8_bbf2)));

    let bytes = bitmap.log_bytes().unwrap();
    assert_eq!(digest(&bytes), 0x1c5c_9ac3_e560_cfc7);
    let Recovered { mut bitmap, good, torn } = Bitmap::recover(Width::Bytes1, &bytes).unwrap();
    assert_eq!((good, torn), (306, false));
    assert!(bitmap.ones(..).eq([0, 2]) && bitmap.len() == 3);
    assert_eq!(bitmap.commits().count(), 0);
    // The last number is 1.
    let repeated = bitmap.begin().commit(1).unwrap_err();
    assert_eq!(repeated, Error::NonMonotonicCommit { previous: 1, attempted: 1 });
}

/// Returns the digest of some bytes, as a log stores it.
fn digest(bytes: &[u8]) -> u64 {
    let mut hasher = DefaultHasher::new();
    hasher.write(bytes);
    hasher.finish()
}

/// Checks what a cut of a log recovers to: the state after the last whole entry, if the base is whole.
fn check_cut(width: Width, bytes: &[u8], whole: Option<&(usize, Kept)>) {
    let len = bytes.len();
    match (Bitmap::recover(width, bytes), whole) {
        (Ok(Recovered { bitmap, good, torn }), Some((end, wanted))) => {
            assert_eq!((good, torn), (*end, *end < len), "{len}");
            assert_eq!(&kept(&bitmap), wanted, "{len}");
            assert_eq!(bitmap.log_position(), Ok(good as u64), "{len}");
            let last = &bytes[good - 8..good];
            assert_eq!(bitmap.log_digest().unwrap().to_be_bytes(), last, "{len}");
            assert_eq!(bitmap.log_bytes(), Ok(vec![]), "{len}");
        }
        (Err(failed), None) => {
            assert_eq!((failed.error(), failed.at()), (Error::CutOff, None), "{len}");
        }
        (found, _) => panic!("{len} bytes: {found:?}"),
    }
}

#[test]
fn every_cut_recovers_the_last_whole_entry() {
    for width in WIDTHS {
        let Logged { bytes, entries, .. } = all_entries(width);
        for len in 0..=bytes.len() {
            let whole = entries.iter().rfind(|(end, _)| *end <= len);
            check_cut(width, &bytes[..len], whole);
        }
    }
}

#[test]
fn zeros_after_a_log_are_torn() {
    for count in [1, 15, 16, 4096] {
        let Logged { mut bytes, entries, .. } = all_entries(Width::Bytes8);
        let end = bytes.len();
        bytes.resize(end + count, 0);
        let recovered = Bitmap::recover(Width::Bytes8, &bytes).unwrap();
        assert_eq!((recovered.good, recovered.torn), (end, true));
        assert_eq!(kept(&recovered.bitmap), entries.last().unwrap().1);
    }
}

/// Recovers a bitmap of bytes that are no log, and returns the error.
fn refusal(width: Width, bytes: &[u8]) -> RecoverError {
    Bitmap::recover(width, bytes).unwrap_err()
}

#[test]
fn every_changed_byte_is_found_at_its_frame() {
    for width in [Width::Bytes1, Width::Bytes8] {
        let Logged { mut bytes, entries, .. } = all_entries(width);
        let starts: Vec<usize> =
            [HEADER as usize].into_iter().chain(entries.iter().map(|entry| entry.0)).collect();
        for index in 0..bytes.len() {
            let at = starts.iter().copied().rfind(|start| *start <= index);
            let wanted = if at.is_none() { Error::WrongHeader } else { Error::Damaged };
            for change in [0x01, 0x80, 0xff] {
                bytes[index] ^= change;
                let failed = refusal(width, &bytes);
                assert_eq!((failed.error(), failed.at()), (wanted, at), "byte {index}");
                bytes[index] ^= change;
            }
        }
        assert!(Bitmap::recover(width, &bytes).is_ok());
    }
}

#[test]
fn the_bytes_before_damage_are_a_log() {
    let Logged { mut bytes, entries, .. } = all_entries(Width::Bytes32);
    let (end, wanted) = &entries[3];
    bytes[end + 20] ^= 4;
    let failed = refusal(Width::Bytes32, &bytes);
    assert_eq!(failed.at(), Some(*end));
    let recovered = Bitmap::recover(Width::Bytes32, &bytes[..*end]).unwrap();
    assert_eq!((&kept(&recovered.bitmap), recovered.torn), (wanted, false));
}

#[test]
fn a_missing_entry_is_found() {
    for width in WIDTHS {
        let Logged { bytes, entries, .. } = all_entries(width);
        for pair in entries.windows(2) {
            let (from, to) = (pair[0].0, pair[1].0);
            let rest = [&bytes[..from], &bytes[to..]].concat();
            match Bitmap::recover(width, &rest) {
                // Without its last entry, a log is a shorter one.
                Ok(recovered) => assert_eq!((to, recovered.good), (bytes.len(), from)),
                Err(failed) => {
                    assert_eq!((failed.error(), failed.at()), (Error::Damaged, Some(from)));
                }
            }
        }
    }
}

#[test]
fn another_width_or_format_has_another_header() {
    for width in WIDTHS {
        let Logged { bitmap, bytes, .. } = all_entries(width);
        for other in WIDTHS.into_iter().filter(|other| *other != width) {
            let failed = refusal(other, &bytes);
            assert_eq!((failed.error(), failed.at()), (Error::WrongHeader, None));
        }
        let encoding = [bitmap.to_bytes().unwrap(), vec![0; HEADER as usize]].concat();
        assert_eq!(refusal(width, &encoding).error(), Error::WrongHeader);
        assert_eq!(refusal(width, &[]).error(), Error::CutOff);
    }
}

/// Returns a log of the empty bitmap, and a frame with a body whose digests are right for its end.
fn with_frame(width: Width, body: &[u8]) -> (usize, Vec<u8>) {
    let bitmap = empty(width);
    let (bytes, at) = (bitmap.log_bytes().unwrap(), bitmap.log_position().unwrap());
    let (start, len) = (at.to_be_bytes(), (body.len() as u64).to_be_bytes());
    let head = digest(&[start, len].concat()).to_be_bytes();
    let chain = bitmap.log_digest().unwrap().to_be_bytes();
    let made = digest(&[&chain[..], body].concat()).to_be_bytes();
    (bytes.len(), [&bytes[..], &len, &head, body, &made].concat())
}

#[test]
fn a_digest_does_not_make_an_entry() {
    for width in WIDTHS {
        // A clear, a drop, and a commit under 7 of no bits.
        let commit = [&[1u8][..], &7u64.to_be_bytes(), &[0; 16]].concat();
        for body in [vec![5], [&[3u8][..], &[0; 8]].concat(), commit] {
            let (_, bytes) = with_frame(width, &body);
            let recovered = Bitmap::recover(width, &bytes).unwrap();
            assert_eq!((recovered.good, recovered.torn), (bytes.len(), false));
        }
        // A base, an unknown tag, a rewind to a number that is not kept, a clear that is too long, a
        // commit that ends early, and a commit under the reserved number.
        let reserved = [&[1u8][..], &[0xff; 8], &[0; 16]].concat();
        let rewind = [&[2u8][..], &[0; 8]].concat();
        for body in [vec![4; 34], vec![6], rewind, vec![5, 0], vec![1; 24], reserved] {
            let (at, bytes) = with_frame(width, &body);
            let failed = refusal(width, &bytes);
            assert_eq!((failed.error(), failed.at()), (Error::NotAccepted, Some(at)));
        }
    }
}

#[test]
fn a_call_that_fails_appends_nothing() {
    for width in WIDTHS {
        let mut bitmap = bitmap_of(width, &[1]);
        bitmap.begin_log().unwrap();
        let before = (bitmap.log_bytes(), bitmap.log_position(), bitmap.log_digest());
        let mut batch = bitmap.begin();
        batch.push(true).unwrap();
        let failed = batch.try_commit(1).unwrap_err();
        assert_eq!(failed.into_batch().try_commit(u64::MAX).unwrap_err().into_error(), {
            Error::ReservedCommitNumber
        });
        bitmap.begin().abort();
        assert_eq!(bitmap.rewind_to(7), Err(Error::NoSuchCommit));
        assert_eq!(bitmap.apply_delta(&[]), Err(Error::CutOff));
        bitmap.set_indexed(true).unwrap();
        assert_eq!((bitmap.log_bytes(), bitmap.log_position(), bitmap.log_digest()), before);
    }
}

#[test]
fn without_a_log_its_calls_fail() {
    let mut bitmap = bitmap_of(Width::Bytes8, &[1]);
    for _ in 0..2 {
        assert!(!bitmap.keeps_log());
        assert_eq!(bitmap.end_log(), Err(Error::NoLog));
        assert_eq!(bitmap.forget_log(), Err(Error::NoLog));
        assert_eq!(bitmap.log_bytes(), Err(Error::NoLog));
        assert_eq!(bitmap.take_log(), Err(Error::NoLog));
        assert_eq!(bitmap.log_position(), Err(Error::NoLog));
        assert_eq!(bitmap.log_digest(), Err(Error::NoLog));

        bitmap.begin_log().unwrap();
        assert!(bitmap.keeps_log());
        assert_eq!(bitmap.begin_log(), Err(Error::HasLog));
        assert!(!bitmap.try_clone().unwrap().keeps_log());
        assert!(!bitmap.checkout(1).unwrap().keeps_log());
        bitmap.end_log().unwrap();
    }
}

#[test]
fn a_log_that_is_begun_again_has_what_is_kept() {
    for width in WIDTHS {
        let Logged { mut bitmap, .. } = all_entries(width);
        commit(&mut bitmap, 11, |batch| batch.push_byte(0x3c).unwrap());
        bitmap.end_log().unwrap();
        commit(&mut bitmap, 12, |batch| batch.push_byte(0x3c).unwrap());
        bitmap.begin_log().unwrap();
        let bytes = bitmap.take_log().unwrap();
        assert_eq!(bitmap.save().as_ref(), Ok(&bytes));
        let recovered = Bitmap::recover(width, &bytes).unwrap();
        assert_eq!(kept(&recovered.bitmap), kept(&bitmap));
    }
}

#[test]
fn forgotten_bytes_count() {
    let mut bitmap = empty(Width::Bytes8);
    let first = bitmap.log_bytes().unwrap();
    assert_eq!(bitmap.log_bytes().as_ref(), Ok(&first));
    bitmap.forget_log().unwrap();
    assert_eq!((bitmap.log_bytes(), bitmap.log_position()), (Ok(vec![]), Ok(90)));
    commit(&mut bitmap, 1, |batch| batch.push(true).unwrap());
    commit(&mut bitmap, 2, |batch| batch.push(true).unwrap());
    let entry = FRAME + COMMIT + listed(Width::Bytes8);
    assert_eq!(bitmap.log_position(), Ok(90 + 2 * entry));
    assert_eq!(bitmap.log_bytes().unwrap().len() as u64, 2 * entry);
    let rest = bitmap.take_log().unwrap();
    assert_eq!(bitmap.take_log(), Ok(vec![]));
    let recovered = Bitmap::recover(Width::Bytes8, &[first, rest].concat()).unwrap();
    assert_eq!(kept(&recovered.bitmap), kept(&bitmap));
    assert_eq!(recovered.bitmap.log_digest(), bitmap.log_digest());
}

#[test]
fn a_leaked_batch_has_no_entry() {
    let mut bitmap = empty(Width::Bytes8);
    let mut batch = bitmap.begin();
    batch.push(true).unwrap();
    mem::forget(batch);
    assert_eq!((bitmap.log_position(), bitmap.len()), (Ok(90), 0));
    let mut batch = bitmap.begin();
    batch.push(true).unwrap();
    mem::forget(batch);
    bitmap.end_log().unwrap();
    mem::forget(bitmap.begin());
    bitmap.begin_log().unwrap();
    assert_eq!(bitmap.log_bytes(), bitmap.save());
}

#[test]
fn a_recovered_bitmap_goes_on_with_its_log() {
    for width in WIDTHS {
        let Logged { bytes, mut bitmap, entries } = all_entries(width);
        let (end, _) = entries[entries.len() - 2];
        let mut recovered = Bitmap::recover(width, &bytes[..bytes.len() - 1]).unwrap();
        assert_eq!((recovered.good, recovered.torn), (end, true));
        // The same entry as the one that was cut off, and then another one in both logs.
        recovered.bitmap.begin().commit(10).unwrap();
        assert_eq!(recovered.bitmap.take_log().unwrap(), bytes[end..]);
        for each in [&mut recovered.bitmap, &mut bitmap] {
            commit(each, 11, |batch| batch.push_byte(0x77).unwrap());
        }
        let entry = bitmap.take_log().unwrap();
        assert_eq!(recovered.bitmap.take_log().as_ref(), Ok(&entry));
        assert_eq!(recovered.bitmap.log_digest(), bitmap.log_digest());
        let again = Bitmap::recover(width, &[bytes, entry].concat()).unwrap();
        assert_eq!(kept(&again.bitmap), kept(&bitmap));
    }
}

#[test]
fn a_delta_is_applied_with_its_entry() {
    for width in WIDTHS {
        let mut writer = bitmap_of(width, &[0x0f]);
        let mut replica = Logged::new(writer.try_clone().unwrap());
        commit(&mut writer, 2, |batch| batch.push_byte(0xf0).unwrap());
        let delta = writer.delta(1, 2).unwrap().unwrap();
        replica.call(|bitmap| bitmap.apply_delta(&delta).unwrap());
        assert_eq!(replica.bitmap.apply_delta(&delta), Err(Error::NotAtBase));
        assert_eq!(replica.bitmap.log_bytes(), Ok(vec![]));
        let recovered = Bitmap::recover(width, &replica.bytes).unwrap();
        assert_eq!(kept(&recovered.bitmap), kept(&writer));
    }
}

/// Returns the path of a file that this run has to itself.
fn path_of(name: &str) -> PathBuf {
    Path::new(env!("CARGO_TARGET_TMPDIR")).join(name)
}

/// Appends the bytes of the log to a file, and then removes them from the log.
fn write_log(bitmap: &mut Bitmap, path: &Path) {
    let mut file = OpenOptions::new().append(true).create(true).open(path).unwrap();
    file.write_all(&bitmap.log_bytes().unwrap()).unwrap();
    file.sync_all().unwrap();
    bitmap.forget_log().unwrap();
}

/// Removes some bytes at the end of a file.
fn cut_off(path: &Path, count: u64) {
    let file = OpenOptions::new().write(true).open(path).unwrap();
    file.set_len(file.metadata().unwrap().len() - count).unwrap();
}

/// Makes the bitmap of a file, and cuts the file off after its good bytes.
fn reopen(width: Width, path: &Path) -> Bitmap {
    let recovered = Bitmap::recover(width, &fs::read(path).unwrap()).unwrap();
    let file = OpenOptions::new().write(true).open(path).unwrap();
    file.set_len(recovered.good as u64).unwrap();
    recovered.bitmap
}

/// Writes a log to a file in pieces. Every tenth time a crash cuts off the last entry.
fn check_pieces(width: Width) {
    let path = path_of(&format!("pieces_{}.log", width.bytes()));
    let _ = fs::remove_file(&path);
    let mut bitmap = empty(width);
    for number in 1..40 {
        commit(&mut bitmap, number, |batch| batch.push_byte(number as u8).unwrap());
        if number % 10 == 0 {
            write_log(&mut bitmap, &path);
            cut_off(&path, 5);
            bitmap = reopen(width, &path);
            assert_eq!(bitmap.latest(), Some(number - 1));
            commit(&mut bitmap, number, |batch| batch.push_byte(number as u8).unwrap());
        }
        if number % 3 == 0 {
            write_log(&mut bitmap, &path);
            assert_eq!(kept(&reopen(width, &path)), kept(&bitmap));
        }
    }
    assert!(bitmap.commits().eq(1..40));
    let bytes: Vec<u8> = (1..40).collect();
    assert!(bitmap.ones(..).eq(bitmap_of(width, &bytes).ones(..)));
    fs::remove_file(&path).unwrap();
}

#[test]
fn a_file_is_written_in_pieces_and_cut_off() {
    WIDTHS.into_iter().for_each(check_pieces);
}

#[test]
fn threads_read_a_log() {
    let Logged { mut bitmap, .. } = all_entries(Width::Bytes8);
    commit(&mut bitmap, 11, |batch| batch.push_byte(0x3c).unwrap());
    let reads = |bitmap: &Bitmap| {
        (bitmap.log_bytes().unwrap(), bitmap.log_position(), bitmap.log_digest(), bitmap.len())
    };
    let wanted = reads(&bitmap);
    thread::scope(|scope| {
        for _ in 0..4 {
            scope.spawn(|| (0..50).for_each(|_| assert_eq!(reads(&bitmap), wanted)));
        }
    });
}

/// Makes a random edit in a batch, or none.
fn random_edit(batch: &mut Batch<'_>, random: &mut Random) {
    let bits = batch.width().bits();
    let (from, to) = (random.below(batch.len() + 1), random.below(batch.len() + 1));
    let edited = match random.below(8) {
        0 => batch.prune(from.min(bits)),
        1 => batch.truncate(from),
        2 | 3 => batch.extend_to(batch.len() + random.below(3 * bits)),
        4 => batch.push_byte(to as u8),
        _ => batch.set_range(from..to, random.below(2) == 1),
    };
    // The positions are not above the length, but they may be pruned.
    assert!(matches!(edited, Ok(()) | Err(Error::Pruned)));
}

/// Makes a random call that appends one entry.
fn random_call(bitmap: &mut Bitmap, random: &mut Random, number: u64) {
    let kept: Vec<u64> = bitmap.commits().collect();
    match random.below(12) {
        0 if !kept.is_empty() => {
            let index = random.below(kept.len() as u64) as usize;
            bitmap.rewind_to(kept[index]).unwrap();
        }
        1 => {
            let from = number.saturating_sub(random.below(9));
            let dropped = kept.iter().filter(|each| **each < from).count() as u64;
            assert_eq!(bitmap.drop_before(from), Ok(dropped));
        }
        2 => bitmap.clear().unwrap(),
        _ => commit(bitmap, number, |batch| {
            (0..random.below(4)).for_each(|_| random_edit(batch, random));
        }),
    }
}

#[test]
fn random_logs_are_recovered_at_each_entry() {
    for (seed, width) in (1..).zip(WIDTHS) {
        let mut random = Random(seed);
        let mut logged = Logged::new(bitmap_of(width, &[seed as u8; 9]));
        for number in 2..60 {
            logged.call(|bitmap| random_call(bitmap, &mut random, number));
        }
        for entry in &logged.entries {
            check_cut(width, &logged.bytes[..entry.0], Some(entry));
        }
        let recovered = Bitmap::recover(width, &logged.bytes).unwrap().bitmap;
        assert_eq!(recovered.log_digest(), logged.bitmap.log_digest());
        assert_eq!(recovered.save(), logged.bitmap.save());
        assert!(recovered.entries() <= logged.bitmap.entries());
    }
}
