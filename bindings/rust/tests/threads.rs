//! Threads that read one bitmap at the same time.

mod common;

use std::mem;
use std::sync::RwLock;
use std::thread;

use common::{WIDTHS, bitmap_of, commit};
use mortarpink_proved::{Bitmap, Version, Width};

const THREADS: usize = 4;
const ROUNDS: usize = 20;

/// What some reads return: positions or numbers, bytes, and results of searches.
type Reads = (Vec<u64>, Vec<u8>, Vec<Option<u64>>);

/// Returns a bitmap with five commits, of which each changes the bits of the one before.
fn with_five_commits(width: Width) -> Bitmap {
    let bytes: Vec<u8> = (0..200).map(|k| (k * 37 % 251) as u8).collect();
    let mut bitmap = bitmap_of(width, &bytes);
    for number in 2..=5 {
        commit(&mut bitmap, number, |batch| {
            for position in (number..1600).step_by(97) {
                batch.set(position, number % 2 == 0).unwrap();
            }
            batch.push(true).unwrap();
        });
    }
    bitmap
}

/// Returns what the reads of a version return.
fn reads_of_version(version: Version<'_>) -> Reads {
    let (next, prev) = (version.next_zero(3), version.prev_one(900));
    let counts = vec![next, prev, version.select_one(40), Some(version.count_ones(5..1500))];
    (version.ones(..).collect(), version.to_bytes().unwrap(), counts)
}

/// Returns what the reads of a bitmap return, and those of all its versions.
fn reads_of(bitmap: &Bitmap) -> Vec<Reads> {
    let numbers = bitmap.commits().collect();
    let changed = bitmap.changed_chunks(1, 5).unwrap().collect();
    let ends = vec![bitmap.earliest(), bitmap.latest(), bitmap.next_one(7), bitmap.prev_zero(99)];
    let mut found = vec![(numbers, bitmap.to_bytes().unwrap(), ends)];
    found.push((changed, bitmap.chunk(8).unwrap().as_slice().to_vec(), vec![]));
    found.push((vec![], bitmap.save().unwrap(), vec![]));
    found.push((vec![], bitmap.delta(2, 4).unwrap().unwrap(), vec![]));
    if bitmap.keeps_log() {
        let place = vec![bitmap.log_position().unwrap(), bitmap.log_digest().unwrap()];
        found.push((place, bitmap.log_bytes().unwrap(), vec![]));
    }
    found.extend((1..=5).map(|number| reads_of_version(bitmap.at(number).unwrap())));
    found
}

#[test]
fn threads_read_what_one_thread_reads() {
    for width in WIDTHS {
        let mut bitmap = with_five_commits(width);
        for on in [false, true] {
            bitmap.set_indexed(on).unwrap();
            if on {
                bitmap.begin_log().unwrap();
            }
            let wanted = reads_of(&bitmap);
            thread::scope(|scope| {
                for _ in 0..THREADS {
                    scope.spawn(|| (0..ROUNDS).for_each(|_| assert_eq!(reads_of(&bitmap), wanted)));
                }
            });
        }
    }
}

#[test]
fn versions_are_read_by_a_thread_each() {
    let bitmap = with_five_commits(Width::Bytes8);
    thread::scope(|scope| {
        for number in 1..=5 {
            let version = bitmap.at(number).unwrap();
            let wanted = reads_of_version(version);
            scope.spawn(move || assert_eq!(reads_of_version(version), wanted));
        }
    });
}

#[test]
fn threads_copy_a_bitmap() {
    let bitmap = with_five_commits(Width::Bytes32);
    let wanted = reads_of(&bitmap);
    thread::scope(|scope| {
        for _ in 0..THREADS {
            scope.spawn(|| {
                assert_eq!(reads_of(&bitmap.try_clone().unwrap()), wanted);
                let version = bitmap.checkout(3).unwrap();
                assert!(version.ones(..).eq(bitmap.at(3).unwrap().ones(..)));
            });
        }
    });
}

#[test]
fn a_leaked_batch_is_aborted_once() {
    for _ in 0..50 {
        let mut bitmap = with_five_commits(Width::Bytes1);
        let wanted = bitmap.len();
        let mut batch = bitmap.begin();
        batch.push(true).unwrap();
        mem::forget(batch);
        thread::scope(|scope| {
            for _ in 0..THREADS {
                scope.spawn(|| assert_eq!(bitmap.len(), wanted));
            }
        });
    }
}

#[test]
fn reads_and_edits_take_turns() {
    let bitmap = RwLock::new(bitmap_of(Width::Bytes8, &[0xff]));
    thread::scope(|scope| {
        scope.spawn(|| {
            for number in 2..200 {
                commit(&mut bitmap.write().unwrap(), number, |batch| batch.push(true).unwrap());
            }
        });
        for _ in 0..THREADS {
            scope.spawn(|| {
                for _ in 0..200 {
                    let bitmap = bitmap.read().unwrap();
                    let latest = bitmap.latest().unwrap();
                    assert_eq!(bitmap.count_ones(..), latest + 7);
                    assert_eq!(bitmap.at(latest).unwrap().len(), bitmap.len());
                }
            });
        }
    });
    assert_eq!(bitmap.into_inner().unwrap().len(), 206);
}
