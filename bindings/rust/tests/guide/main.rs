//! Tests of the callers in `docs/GUIDE.md`, which are in the modules. `tools/check_docs.py` fails if
//! one of them and the guide differ.

mod all_or_none;
mod appended;
#[path = "../common/mod.rs"]
mod common;
mod encodings;
mod files;
mod last_versions;
mod log;
mod logged;
mod reads;
mod replicas;
mod restarts;
mod slots;
mod threads;
mod updates;
mod values;
mod versions;

use std::fs::{self, OpenOptions};
use std::io::Write;
use std::path::Path;
use std::sync::Mutex;

use all_or_none::set_all;
use appended::append_version;
use common::{WIDTHS, bitmap_of, commit};
use encodings::{from_bytes, to_bytes};
use files::{load_version, save_version};
use last_versions::commit_set;
use log::append;
use logged::{append_entries, open};
use mortarpink_proved::{Bitmap, Error, Width};
use reads::read_versions;
use replicas::apply_update;
use restarts::{load, save};
use slots::{new_slots, take_slot};
use threads::count_and_append;
use updates::update_between;
use values::{received, versions_from};
use versions::bit_then;

#[test]
fn each_slot_is_taken_once() {
    let mut slots = new_slots(2).unwrap();
    assert_eq!(take_slot(&mut slots, 1), Ok(Some(0)));
    assert_eq!(take_slot(&mut slots, 2), Ok(Some(1)));
    assert_eq!(take_slot(&mut slots, 3), Ok(None));
    commit(&mut slots, 4, |batch| batch.set(0, false).unwrap());
    assert_eq!(take_slot(&mut slots, 5), Ok(Some(0)));
    assert!(slots.commits().eq([0, 1, 2, 4, 5]));
}

#[test]
fn a_log_keeps_its_last_events() {
    let mut log = Bitmap::new(Width::Bytes1).unwrap();
    for number in 1..=1100 {
        append(&mut log, number % 3 == 0, number).unwrap();
    }
    assert_eq!((log.len(), log.pruned_chunks()), (1100, 9));
    assert_eq!((log.get(1099), log.get(1097)), (Ok(false), Ok(true)));
    assert_eq!(log.get(71), Err(Error::Pruned));
    assert_eq!(log.commits().count(), 11);
}

#[test]
fn a_version_is_appended_or_nothing() {
    let mut versions = bitmap_of(Width::Bytes8, &[5]);
    assert_eq!(append_version(&mut versions, 2, true), Ok(()));
    let refused = Error::NonMonotonicCommit { previous: 2, attempted: 2 };
    assert_eq!(append_version(&mut versions, 2, true), Err(refused));
    assert_eq!((versions.len(), versions.get(8)), (9, Ok(true)));
    assert!(versions.commits().eq([1, 2]));
}

#[test]
fn versions_are_read_in_three_ways() {
    read_versions().unwrap();
}

#[test]
fn a_bit_of_a_past_version() {
    let mut versions = bitmap_of(Width::Bytes1, &[0x0f, 0xff]);
    commit(&mut versions, 2, |batch| {
        batch.set(9, false).unwrap();
        batch.prune(8).unwrap();
    });
    assert_eq!(bit_then(&versions, 1, 9), Some(true));
    assert_eq!(bit_then(&versions, 2, 9), Some(false));
    assert_eq!(bit_then(&versions, 2, 0), None);
    assert_eq!(bit_then(&versions, 1, 16), None);
    assert_eq!(bit_then(&versions, 3, 9), None);
}

#[test]
fn the_last_versions_are_kept() {
    let mut versions = bitmap_of(Width::Bytes8, &[0; 32]);
    for number in 2..252 {
        commit_set(&mut versions, &[number], number).unwrap();
    }
    assert!(versions.commits().eq(152..252));
    assert_eq!(bit_then(&versions, 152, 152), Some(true));
    assert_eq!(bit_then(&versions, 152, 153), Some(false));
    assert_eq!(bit_then(&versions, 151, 151), None);
}

/// Asserts that two bitmaps have the same versions, and the same current one.
fn assert_same(left: &Bitmap, right: &Bitmap) {
    assert!(left.commits().eq(right.commits()));
    for number in left.commits() {
        let (left, right) = (left.at(number).unwrap(), right.at(number).unwrap());
        assert_eq!(left.to_bytes(), right.to_bytes());
    }
    assert_eq!(left.to_bytes(), right.to_bytes());
}

/// Versions 1 and 2 grow, version 3 is cut off, and version 4 grows and prunes.
fn grown_and_cut(width: Width) -> Bitmap {
    let bytes = width.bytes();
    let mut versions = bitmap_of(width, &vec![0xa5; 3 * bytes + 1]);
    commit(&mut versions, 2, |batch| {
        batch.set(width.bits() + 1, true).unwrap();
        batch.push_bytes(&vec![0x3c; 2 * bytes]).unwrap();
    });
    commit(&mut versions, 3, |batch| batch.truncate(2 * width.bits() - 3).unwrap());
    commit(&mut versions, 4, |batch| {
        batch.push_bytes(&vec![0xf1; 3 * bytes]).unwrap();
        batch.prune(2 * width.bits() + 1).unwrap();
    });
    versions
}

/// Returns a replica that is at a version, and keeps no other.
fn replica_at(versions: &Bitmap, number: u64) -> Bitmap {
    let mut replica = versions.checkout(number).unwrap();
    replica.begin().commit(number).unwrap();
    replica
}

#[test]
fn a_replica_applies_an_update_that_fits() {
    for width in WIDTHS {
        let versions = grown_and_cut(width);
        for (older, newer) in [(1, 2), (2, 3), (3, 4), (1, 3), (1, 4), (2, 4)] {
            let update = update_between(&versions, older, newer).unwrap();
            for at in 1..=4 {
                let mut replica = replica_at(&versions, at);
                assert_eq!(apply_update(&mut replica, &update), Ok(at == older));
                let number = if at == older { newer } else { at };
                assert_eq!(replica.latest(), Some(number));
                assert_eq!(replica.to_bytes(), versions.at(number).unwrap().to_bytes());
            }
        }
    }
    let update = update_between(&grown_and_cut(Width::Bytes1), 2, 3).unwrap();
    let mut other = replica_at(&grown_and_cut(Width::Bytes8), 2);
    assert_eq!(apply_update(&mut other, &update), Ok(false));
    assert_eq!(apply_update(&mut Bitmap::new(Width::Bytes1).unwrap(), &update), Ok(false));
}

#[test]
fn a_version_is_decoded_from_its_encoding() {
    let versions = grown_and_cut(Width::Bytes8);
    for number in versions.commits() {
        let mut bytes = to_bytes(&versions, number).unwrap();
        let decoded = from_bytes(&bytes).unwrap();
        assert!(decoded.ones(..).eq(versions.at(number).unwrap().ones(..)));
        bytes.push(0);
        assert_eq!(from_bytes(&bytes).unwrap_err().to_string(), "there are bytes after the bitmap");
        let error = from_bytes(&bytes[..15]).unwrap_err().to_string();
        assert_eq!(error, Error::EndOfBuffer.to_string());
    }
    let long = bitmap_of(Width::Bytes8, &[0; 513]).to_bytes().unwrap();
    let error = from_bytes(&long).unwrap_err().to_string();
    assert_eq!(error, Error::InvalidLength { length: 4104 }.to_string());
}

#[test]
fn a_version_is_loaded_from_its_file() {
    let path = Path::new(env!("CARGO_TARGET_TMPDIR")).join("one_version.history");
    for width in WIDTHS {
        let versions = grown_and_cut(width);
        for number in versions.commits() {
            save_version(&versions, number, &path).unwrap();
            let loaded = load_version(width, &path).unwrap();
            assert_eq!(loaded.to_bytes(), versions.at(number).unwrap().to_bytes());
            assert_eq!(loaded.latest(), None);
        }
        let bytes = fs::read(&path).unwrap();
        let last = bytes.len() - 1;
        for damaged in [&bytes[..last], &[&bytes[..last], &[bytes[last] ^ 1]].concat()] {
            fs::write(&path, damaged).unwrap();
            assert!(load_version(width, &path).is_err());
        }
        fs::write(&path, [&bytes[..], &[0]].concat()).unwrap();
        assert!(load_version(width, &path).is_err());
    }
    fs::remove_file(&path).unwrap();
}

#[test]
fn the_last_versions_are_received() {
    let versions = grown_and_cut(Width::Bytes8);
    for first in 1..=5 {
        let mut expected = versions.try_clone().unwrap();
        expected.drop_before(first).unwrap();
        let bytes = versions_from(&versions, first).unwrap();
        assert_same(&received(&bytes).unwrap(), &expected);
        assert!(received(&bytes[..bytes.len() - 1]).is_err());
        assert!(received(&[&bytes[..], &[0]].concat()).is_err());
    }
    let long = bitmap_of(Width::Bytes8, &[0; 513]).save().unwrap();
    assert_eq!(received(&long).unwrap_err().to_string(), Error::OutOfRange.to_string());
}

#[test]
fn saved_versions_are_loaded() {
    let path = Path::new(env!("CARGO_TARGET_TMPDIR")).join("saved_versions.history");
    for width in WIDTHS {
        let mut versions = bitmap_of(width, &[0xa5; 200]);
        for number in 2..5 {
            commit(&mut versions, number, |batch| batch.set_range(..9 * number, true).unwrap());
            save(&versions, &path).unwrap();
            assert_same(&load(width, &path).unwrap(), &versions);
        }
        let mut loaded = load(width, &path).unwrap();
        loaded.rewind_to(2).unwrap();
        commit(&mut loaded, 3, |batch| batch.push(true).unwrap());
        save(&loaded, &path).unwrap();
        assert_same(&load(width, &path).unwrap(), &loaded);
    }
    assert!(!path.with_extension("new").exists());
    assert!(load(Width::Bytes8, &path).is_err());
    OpenOptions::new().write(true).open(&path).unwrap().set_len(300).unwrap();
    let error = load(Width::Bytes64, &path).unwrap_err();
    assert_eq!(
        error.to_string(),
        "bytes end before the history, the delta or the first bitmap of the log does"
    );
    fs::remove_file(&path).unwrap();
    assert!(load(Width::Bytes64, &path).is_err());
}

#[test]
fn a_file_with_more_than_a_history_is_refused() {
    let path = Path::new(env!("CARGO_TARGET_TMPDIR")).join("more_than_a_history.history");
    let bytes = bitmap_of(Width::Bytes8, &[1]).save().unwrap();
    fs::write(&path, [&bytes[..], &[0]].concat()).unwrap();
    let error = load(Width::Bytes8, &path).unwrap_err();
    assert_eq!(error.to_string(), "there are bytes after the history");
    fs::remove_file(&path).unwrap();
}

#[test]
fn logged_versions_are_opened() {
    let path = Path::new(env!("CARGO_TARGET_TMPDIR")).join("logged_versions.log");
    let _ = fs::remove_file(&path);
    for width in WIDTHS {
        let (mut versions, mut file) = open(width, &path).unwrap();
        for number in 1..5 {
            commit(&mut versions, number, |batch| batch.push_byte(number as u8).unwrap());
            append_entries(&mut versions, &mut file).unwrap();
            assert_same(&open(width, &path).unwrap().0, &versions);
        }
        // A crash cuts off the entry of commit 4, and another write leaves bytes that are no entry.
        file.set_len(file.metadata().unwrap().len() - 1).unwrap();
        let (mut opened, mut file) = open(width, &path).unwrap();
        assert!(opened.commits().eq(1..4));
        versions.rewind_to(3).unwrap();
        assert_same(&opened, &versions);
        file.write_all(&[0xa5; 3]).unwrap();
        commit(&mut opened, 9, |batch| batch.push(true).unwrap());
        append_entries(&mut opened, &mut file).unwrap();
        assert_same(&open(width, &path).unwrap().0, &opened);

        // A byte of the first frame is changed. The file stays as it is.
        let mut bytes = fs::read(&path).unwrap();
        bytes[40] ^= 1;
        fs::write(&path, &bytes).unwrap();
        let error = open(width, &path).unwrap_err().to_string();
        assert_eq!(error, format!("{}, in the frame at byte 32", Error::Damaged));
        assert_eq!(fs::read(&path).unwrap(), bytes);
        fs::remove_file(&path).unwrap();
    }
}

#[test]
fn a_log_whose_first_write_was_cut_off_begins_again() {
    let path = Path::new(env!("CARGO_TARGET_TMPDIR")).join("begun_again.log");
    let copy = path.with_extension("cut");
    let _ = (fs::remove_file(&path), fs::remove_file(&copy));
    for width in WIDTHS {
        let begun = open(width, &path).unwrap().0.log_bytes().unwrap();
        for left in [1, 31, 32, begun.len() - 1] {
            fs::write(&path, &begun[..left]).unwrap();
            let (mut versions, mut file) = open(width, &path).unwrap();
            assert_eq!(fs::read(&copy).unwrap(), begun[..left]);
            commit(&mut versions, 1, |batch| batch.push(true).unwrap());
            append_entries(&mut versions, &mut file).unwrap();
            assert_same(&open(width, &path).unwrap().0, &versions);

            // A copy is not replaced by another one.
            fs::write(&path, &begun[..1]).unwrap();
            assert!(open(width, &path).is_err());
            assert_eq!(fs::read(&path).unwrap(), begun[..1]);
            assert_eq!(fs::read(&copy).unwrap(), begun[..left]);
            fs::remove_file(&copy).unwrap();
        }
        fs::remove_file(&path).unwrap();
    }
}

#[test]
fn all_bits_are_set_or_none() {
    let mut flags = bitmap_of(Width::Bytes8, &[0]);
    assert_eq!(set_all(&mut flags, &[3, 8], 2), Err(Error::OutOfBounds));
    assert_eq!((flags.count_ones(..), flags.latest()), (0, Some(1)));
    assert_eq!(set_all(&mut flags, &[3, 7], 2), Ok(()));
    assert!(flags.ones(..).eq([3, 7]));
}

#[test]
fn one_thread_at_a_time() {
    let flags = Mutex::new(bitmap_of(Width::Bytes8, &[0b0110_0000]));
    let counted = count_and_append(&flags, 2);
    assert!(counted == 2 || counted == 3);
    assert_eq!(flags.lock().unwrap().count_ones(..), 3);
}
