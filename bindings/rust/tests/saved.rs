//! Histories as bytes, and deltas: what outlives a process.

mod common;

use std::hash::{DefaultHasher, Hasher};
use std::ops::RangeInclusive;

use common::{WIDTHS, bitmap_of, commit};
use mortarpink_proved::{Bitmap, Error, Width};

/// The size of the header of a history in bytes.
const HEADER: usize = 32;

/// The size of a delta without chunks in bytes.
const EMPTY_DELTA: usize = 88;

/// Returns four versions: 2 changes bits and grows, 3 is cut off, and 4 grows and prunes.
fn four_versions(width: Width) -> Bitmap {
    let bits = width.bits();
    let mut bitmap = bitmap_of(width, &vec![0xa5; 3 * width.bytes() + 1]);
    commit(&mut bitmap, 2, |batch| {
        batch.set(bits + 1, true).unwrap();
        batch.push_bytes(&vec![0x3c; 2 * width.bytes()]).unwrap();
    });
    commit(&mut bitmap, 3, |batch| batch.truncate(2 * bits - 3).unwrap());
    commit(&mut bitmap, 4, |batch| {
        batch.push_bytes(&vec![0xf1; 3 * width.bytes()]).unwrap();
        batch.prune(2 * bits + 1).unwrap();
    });
    bitmap
}

/// Returns four versions after an edit of what is kept.
fn after(width: Width, edit: impl FnOnce(&mut Bitmap)) -> Bitmap {
    let mut bitmap = four_versions(width);
    edit(&mut bitmap);
    bitmap
}

/// Returns bitmaps with histories of each kind, each with its last number.
fn histories(width: Width) -> Vec<(Bitmap, Option<u64>)> {
    let decoded = Bitmap::from_bytes(width, &[0; 16], ..).unwrap().0;
    vec![
        (Bitmap::new(width).unwrap(), None),
        (Bitmap::with_pruned_chunks(width, 7).unwrap(), None),
        (decoded, None),
        (bitmap_of(width, &[]), Some(1)),
        (bitmap_of(width, &[0xff, 0x03]), Some(1)),
        (four_versions(width), Some(4)),
        (after(width, |bitmap| assert_eq!(bitmap.drop_before(3), Ok(2))), Some(4)),
        (after(width, |bitmap| assert_eq!(bitmap.drop_before(4), Ok(3))), Some(4)),
        (after(width, |bitmap| assert_eq!(bitmap.drop_before(9), Ok(4))), Some(4)),
        (after(width, |bitmap| bitmap.clear().unwrap()), Some(4)),
        (after(width, |bitmap| bitmap.rewind_to(2).unwrap()), Some(2)),
        (after(width, |bitmap| bitmap.rewind_to(1).unwrap()), Some(1)),
        (after(width, |bitmap| bitmap.set_indexed(true).unwrap()), Some(4)),
        (after(width, |bitmap| bitmap.begin().commit(900).unwrap()), Some(900)),
    ]
}

/// Returns the encodings of the versions with their numbers, and that of the current bitmap.
fn versions_of(bitmap: &Bitmap) -> (Vec<(u64, Vec<u8>)>, Vec<u8>) {
    let version = |number| (number, bitmap.at(number).unwrap().to_bytes().unwrap());
    (bitmap.commits().map(version).collect(), bitmap.to_bytes().unwrap())
}

/// Loads a history of any numbers of bits and commits, and returns the error.
fn load_error(width: Width, bytes: &[u8]) -> Error {
    Bitmap::load(width, bytes, .., ..).map(drop).unwrap_err()
}

/// Returns the digest of some bytes, as a history and a delta store it.
fn digest(bytes: &[u8]) -> [u8; 8] {
    let mut hasher = DefaultHasher::new();
    hasher.write(bytes);
    hasher.finish().to_be_bytes()
}

#[test]
fn a_saved_bitmap_is_loaded() {
    for width in WIDTHS {
        for (index, (bitmap, last)) in histories(width).into_iter().enumerate() {
            let bytes = bitmap.save().unwrap();
            let (mut loaded, used) = Bitmap::load(width, &bytes, .., ..).unwrap();
            assert_eq!((loaded.width(), used), (width, bytes.len()), "history {index}");
            assert_eq!(versions_of(&loaded), versions_of(&bitmap), "history {index}");
            assert_eq!(loaded.save(), Ok(bytes), "history {index}");
            assert!(loaded.entries() <= bitmap.entries(), "history {index}");
            if let Some(previous) = last {
                let repeated = loaded.begin().commit(previous).unwrap_err();
                let attempted = previous;
                assert_eq!(repeated, Error::NonMonotonicCommit { previous, attempted });
            }
            loaded.begin().commit(last.map_or(0, |last| last + 1)).unwrap();
        }
    }
}

#[test]
fn saving_changes_nothing() {
    for width in WIDTHS {
        let bitmap = four_versions(width);
        let (before, entries) = (versions_of(&bitmap), bitmap.entries());
        assert_eq!(bitmap.save(), bitmap.save());
        assert_eq!((versions_of(&bitmap), bitmap.entries()), (before, entries));
    }
}

#[test]
fn a_loaded_bitmap_goes_on() {
    let bytes = four_versions(Width::Bytes8).save().unwrap();
    let (mut bitmap, _) = Bitmap::load(Width::Bytes8, &bytes, .., ..).unwrap();
    commit(&mut bitmap, 5, |batch| batch.push(true).unwrap());
    assert!(bitmap.commits().eq(1..=5));
    bitmap.rewind_to(2).unwrap();
    let wanted = four_versions(Width::Bytes8);
    assert_eq!(bitmap.to_bytes(), wanted.at(2).unwrap().to_bytes());
    assert_eq!(bitmap.drop_before(2), Ok(1));
    commit(&mut bitmap, 3, |batch| batch.push(true).unwrap());
    assert!(bitmap.commits().eq([2, 3]));
}

#[test]
fn bytes_after_the_history_are_left() {
    for width in WIDTHS {
        let bitmap = four_versions(width);
        let history = bitmap.save().unwrap();
        let bytes = [&history[..], &[0xff; 40], &history].concat();
        let (loaded, used) = Bitmap::load(width, &bytes, .., ..).unwrap();
        assert_eq!(used, history.len());
        assert_eq!(versions_of(&loaded), versions_of(&bitmap));
    }
}

#[test]
fn every_proper_prefix_is_cut_off() {
    for (bitmap, _) in WIDTHS.into_iter().flat_map(histories) {
        let bytes = bitmap.save().unwrap();
        for len in 0..bytes.len() {
            assert_eq!(load_error(bitmap.width(), &bytes[..len]), Error::CutOff, "{len}");
        }
    }
}

#[test]
fn every_changed_byte_is_found() {
    for (bitmap, _) in [Width::Bytes1, Width::Bytes8].into_iter().flat_map(histories) {
        let mut bytes = bitmap.save().unwrap();
        for index in 0..bytes.len() {
            let wanted = if index < HEADER { Error::WrongHeader } else { Error::Damaged };
            for change in [0x01, 0x80, 0xff] {
                bytes[index] ^= change;
                assert_eq!(load_error(bitmap.width(), &bytes), wanted, "byte {index}");
                bytes[index] ^= change;
            }
        }
        assert!(Bitmap::load(bitmap.width(), &bytes, .., ..).is_ok());
    }
}

#[test]
fn another_width_or_format_has_another_header() {
    for width in WIDTHS {
        let bitmap = four_versions(width);
        let (history, encoding) = (bitmap.save().unwrap(), bitmap.to_bytes().unwrap());
        let delta = bitmap.delta(1, 4).unwrap().unwrap();
        for other in WIDTHS.into_iter().filter(|other| *other != width) {
            assert_eq!(load_error(other, &history), Error::WrongHeader);
        }
        assert_eq!(load_error(width, &delta), Error::WrongHeader);
        assert_eq!(load_error(width, &[&encoding[..], &[0; HEADER]].concat()), Error::WrongHeader);
    }
}

/// Returns a history whose base is changed, with the digest of the changed bytes. It has one frame.
fn with_base(bitmap: &Bitmap, change: impl FnOnce(&mut [u8])) -> Vec<u8> {
    let mut bytes = bitmap.save().unwrap();
    let end = bytes.len() - 8;
    change(&mut bytes[HEADER + 16..end]);
    let made = digest(&[&bytes[HEADER - 8..HEADER], &bytes[HEADER + 16..end]].concat());
    bytes[end..].copy_from_slice(&made);
    bytes
}

#[test]
fn a_digest_does_not_make_a_bitmap() {
    let bitmap = bitmap_of(Width::Bytes1, &[0xff, 0x03]);
    assert_eq!(with_base(&bitmap, |_| ()), bitmap.save().unwrap());
    // The number of retained bits is then 15, and the bit after them is set or not.
    let shorter = |last| {
        with_base(&bitmap, |base| {
            base[33] = 15;
            base[35] = last;
        })
    };
    assert!(Bitmap::load(Width::Bytes1, &shorter(0x7f), .., ..).is_ok());
    assert_eq!(load_error(Width::Bytes1, &shorter(0x80)), Error::NotAccepted);
    let no_base = with_base(&bitmap, |base| base[0] ^= 1);
    assert_eq!(load_error(Width::Bytes1, &no_base), Error::NotAccepted);
}

/// Loads a history whose numbers of retained bits and of commits are limited.
fn limited(bytes: &[u8], bits: RangeInclusive<u64>, commits: RangeInclusive<u64>) -> Option<Error> {
    Bitmap::load(Width::Bytes8, bytes, bits, commits).err()
}

#[test]
fn the_numbers_of_bits_and_commits_are_limited() {
    let mut bitmap = bitmap_of(Width::Bytes8, &[0xff; 20]);
    commit(&mut bitmap, 2, |batch| batch.truncate(100).unwrap());
    commit(&mut bitmap, 3, |batch| batch.prune(64).unwrap());
    let (bytes, all) = (bitmap.save().unwrap(), 0..=u64::MAX);
    // The versions retain 160, 100 and 36 bits, and two commits follow the first one.
    for (bits, commits) in [(36..=160, 2..=2), (0..=160, 0..=2), (36..=u64::MAX, 2..=u64::MAX)] {
        assert_eq!(limited(&bytes, bits, commits), None);
    }
    for bits in [0..=159, 37..=160, 100..=160, 161..=u64::MAX, 0..=99] {
        assert_eq!(limited(&bytes, bits, all.clone()), Some(Error::OutOfRange));
    }
    for commits in [0..=1, 3..=u64::MAX, RangeInclusive::new(3, 1)] {
        assert_eq!(limited(&bytes, all.clone(), commits), Some(Error::OutOfRange));
    }
    let half_open = Bitmap::load(Width::Bytes8, &bytes, 36..161, 2..3);
    assert_eq!(half_open.unwrap().0.len(), 100);
    let empty = Bitmap::load(Width::Bytes8, &bytes, 36..36, ..);
    assert_eq!(empty.unwrap_err(), Error::OutOfRange);
    let cut_off = Bitmap::load(Width::Bytes8, &bytes[..bytes.len() - 1], ..161, ..3);
    assert_eq!(cut_off.unwrap_err(), Error::CutOff);
}

#[test]
fn without_a_kept_commit_the_current_bitmap_is_limited() {
    let mut bitmap = bitmap_of(Width::Bytes8, &[0xff; 20]);
    bitmap.clear().unwrap();
    let bytes = bitmap.save().unwrap();
    assert_eq!(limited(&bytes, 160..=160, 0..=0), None);
    assert_eq!(limited(&bytes, 0..=159, 0..=0), Some(Error::OutOfRange));
    assert_eq!(limited(&bytes, 0..=160, 1..=9), Some(Error::OutOfRange));
}

/// Returns a replica that is at one of the versions, and keeps it alone.
fn replica_at(versions: &Bitmap, number: u64) -> Bitmap {
    let mut replica = versions.checkout(number).unwrap();
    replica.begin().commit(number).unwrap();
    replica
}

/// The pairs of an older and a newer version of the four.
const PAIRS: [(u64, u64); 6] = [(1, 2), (1, 3), (1, 4), (2, 3), (2, 4), (3, 4)];

#[test]
fn a_replica_follows_each_delta_once() {
    for width in WIDTHS {
        let versions = four_versions(width);
        for (older, newer) in PAIRS {
            let delta = versions.delta(older, newer).unwrap().unwrap();
            let mut replica = replica_at(&versions, older);
            replica.apply_delta(&delta).unwrap();
            assert!(replica.commits().eq([older, newer]));
            for number in [older, newer] {
                let wanted = versions.at(number).unwrap().to_bytes();
                assert_eq!(replica.at(number).unwrap().to_bytes(), wanted, "{older} to {newer}");
            }
            assert_eq!(replica.to_bytes(), versions.at(newer).unwrap().to_bytes());
            let before = replica.save();
            assert_eq!(replica.apply_delta(&delta), Err(Error::NotAtBase));
            assert_eq!(replica.save(), before);
        }
    }
}

#[test]
fn deltas_one_after_another_make_the_same_versions() {
    for width in WIDTHS {
        let versions = four_versions(width);
        let mut replica = replica_at(&versions, 1);
        for older in 1..4 {
            let delta = versions.delta(older, older + 1).unwrap().unwrap();
            replica.apply_delta(&delta).unwrap();
        }
        assert_eq!(versions_of(&replica), versions_of(&versions));
        assert_eq!(replica.save(), versions.save());
    }
}

#[test]
fn a_replica_need_not_keep_the_older_version() {
    let versions = four_versions(Width::Bytes32);
    let mut replica = replica_at(&versions, 2);
    replica.clear().unwrap();
    replica.apply_delta(&versions.delta(2, 4).unwrap().unwrap()).unwrap();
    assert!(replica.commits().eq([4]));
    assert_eq!(replica.to_bytes(), versions.to_bytes());
    replica.rewind_to(4).unwrap();
}

#[test]
fn only_kept_commits_in_order_have_a_delta() {
    let mut versions = four_versions(Width::Bytes8);
    for (older, newer) in [(1, 1), (4, 4), (2, 1), (4, 1), (0, 1), (1, 5), (5, 6), (0, u64::MAX)] {
        assert_eq!(versions.delta(older, newer), Ok(None));
    }
    versions.drop_before(3).unwrap();
    assert_eq!(versions.delta(2, 3), Ok(None));
    assert!(versions.delta(3, 4).unwrap().is_some());
    versions.clear().unwrap();
    assert_eq!(versions.delta(3, 4), Ok(None));
}

/// Asserts that a replica does not apply some bytes, and is unchanged.
fn refuse(replica: &mut Bitmap, bytes: &[u8], error: Error) {
    let before = replica.save();
    assert_eq!(replica.apply_delta(bytes), Err(error));
    assert_eq!(replica.save(), before);
}

#[test]
fn a_delta_for_another_bitmap_is_refused() {
    for width in WIDTHS {
        let versions = four_versions(width);
        let delta = versions.delta(2, 4).unwrap().unwrap();
        refuse(&mut Bitmap::new(width).unwrap(), &delta, Error::NotAtBase);
        refuse(&mut replica_at(&versions, 1), &delta, Error::NotAtBase);
        refuse(&mut replica_at(&versions, 3), &delta, Error::NotAtBase);
        // The same number, but another length, and then another bit in a chunk of the delta.
        for bits in [1, 0] {
            let mut replica = versions.checkout(2).unwrap();
            commit(&mut replica, 2, |batch| {
                batch.set(2 * width.bits() + 1, true).unwrap();
                batch.push_bits(&vec![false; bits]).unwrap();
            });
            refuse(&mut replica, &delta, Error::NotAtBase);
        }
        // The same number and bits, but a pruned chunk.
        let mut replica = versions.checkout(2).unwrap();
        commit(&mut replica, 2, |batch| batch.prune(width.bits()).unwrap());
        refuse(&mut replica, &delta, Error::NotAtBase);
        for other in WIDTHS.into_iter().filter(|other| *other != width) {
            refuse(&mut four_versions(other), &delta, Error::WrongHeader);
        }
    }
}

#[test]
fn a_delta_of_which_bytes_are_missing_is_refused() {
    for width in WIDTHS {
        let versions = four_versions(width);
        let delta = versions.delta(2, 4).unwrap().unwrap();
        let mut replica = replica_at(&versions, 2);
        for len in 0..delta.len() {
            let wanted = if len < EMPTY_DELTA { Error::CutOff } else { Error::Damaged };
            refuse(&mut replica, &delta[..len], wanted);
        }
        refuse(&mut replica, &[&delta[..], &[0]].concat(), Error::Damaged);
        refuse(&mut replica, &versions.save().unwrap(), Error::WrongHeader);
        // The bytes of the last chunk are not whole, and the digest is that of the others.
        let end = delta.len() - 9;
        let shorter = [&delta[..end], &digest(&delta[..end])].concat();
        refuse(&mut replica, &shorter, Error::CutOff);
        replica.apply_delta(&delta).unwrap();
    }
}

#[test]
fn every_changed_byte_of_a_delta_is_found() {
    for width in WIDTHS {
        let versions = four_versions(width);
        let mut delta = versions.delta(2, 4).unwrap().unwrap();
        let mut replica = replica_at(&versions, 2);
        for index in 0..delta.len() {
            // The first two fields say that this is a delta, and the version of the format.
            let wanted = if index < 16 { Error::WrongHeader } else { Error::Damaged };
            for change in [0x01, 0x80, 0xff] {
                delta[index] ^= change;
                refuse(&mut replica, &delta, wanted);
                delta[index] ^= change;
            }
        }
        replica.apply_delta(&delta).unwrap();
    }
}

/// Returns a delta with one byte replaced, and the digest of the changed bytes.
fn with_byte(delta: &[u8], index: usize, byte: u8) -> Vec<u8> {
    let mut bytes = delta[..delta.len() - 8].to_vec();
    bytes[index] = byte;
    let made = digest(&bytes);
    [&bytes[..], &made].concat()
}

#[test]
fn a_digest_does_not_make_a_commit() {
    for width in WIDTHS {
        let versions = four_versions(width);
        let delta = versions.delta(2, 4).unwrap().unwrap();
        let mut replica = replica_at(&versions, 2);
        assert_eq!(with_byte(&delta, 63, 4), delta);
        // The newer number is not above the older one, and then the newer length is in pruned bits.
        for (index, byte) in [(63, 2), (63, 1), (79, 200)] {
            refuse(&mut replica, &with_byte(&delta, index, byte), Error::NotAccepted);
        }
        // The older number is another one.
        refuse(&mut replica, &with_byte(&delta, 31, 3), Error::NotAtBase);
        replica.apply_delta(&with_byte(&delta, 63, 9)).unwrap();
        assert!(replica.commits().eq([2, 9]));
    }
}
