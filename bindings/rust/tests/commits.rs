//! Kept commits: listing, rewinding, dropping and comparing them, and copies.

mod common;

use common::{WIDTHS, bitmap_of, commit};
use mortarpink_proved::{Bitmap, Error, Width};

/// Returns a bitmap with these commits. Each one appends a set bit.
fn with_commits(numbers: &[u64]) -> Bitmap {
    let mut bitmap = Bitmap::new(Width::Bytes1).unwrap();
    for &number in numbers {
        commit(&mut bitmap, number, |batch| batch.push(true).unwrap());
    }
    bitmap
}

#[test]
fn commits_are_listed_in_order() {
    let bitmap = with_commits(&[0, 3, 4, 1000]);
    assert!(bitmap.commits().eq([0, 3, 4, 1000]));
    assert_eq!(bitmap.earliest(), Some(0));
    assert_eq!(bitmap.latest(), Some(1000));
    for (number, exists) in [(0, true), (1, false), (3, true), (1000, true), (1001, false)] {
        assert_eq!(bitmap.commit_exists(number), exists);
        assert_eq!(bitmap.at(number).is_ok(), exists);
    }
}

#[test]
fn a_bitmap_without_commits_lists_none() {
    let mut bitmap = Bitmap::new(Width::Bytes64).unwrap();
    assert_eq!(bitmap.commits().count(), 0);
    assert_eq!((bitmap.earliest(), bitmap.latest()), (None, None));
    assert!(!bitmap.commit_exists(0));
    assert_eq!(bitmap.at(0).unwrap_err(), Error::NoSuchCommit);
    assert_eq!(bitmap.changed_chunks(0, 0).unwrap_err(), Error::NoSuchCommit);
    assert_eq!(bitmap.rewind_to(0), Err(Error::NoSuchCommit));
    assert_eq!(bitmap.drop_before(u64::MAX), Ok(0));
    bitmap.clear().unwrap();
    assert_eq!(bitmap.entries(), 0);
}

#[test]
fn commits_of_more_than_one_page() {
    for count in [63, 64, 65, 128, 200] {
        let numbers: Vec<u64> = (0..count).map(|index| 3 * index + 2).collect();
        let bitmap = with_commits(&numbers);
        assert!(bitmap.commits().eq(numbers.iter().copied()));
        let mut commits = bitmap.commits();
        assert_eq!(commits.by_ref().count() as u64, count);
        assert_eq!(commits.next(), None);
        assert_eq!(bitmap.at(numbers[40]).unwrap().len(), 41);
    }
}

#[test]
fn rewinding_makes_a_past_version_current() {
    for width in WIDTHS {
        let mut bitmap = bitmap_of(width, &[0x0f]);
        commit(&mut bitmap, 2, |batch| batch.set(0, false).unwrap());
        commit(&mut bitmap, 3, |batch| {
            batch.push_bytes(&vec![0xff; 2 * width.bytes()]).unwrap();
            batch.prune(width.bits()).unwrap();
        });
        assert_eq!(bitmap.rewind_to(4), Err(Error::NoSuchCommit));
        assert_eq!(bitmap.pruned_chunks(), 1);
        bitmap.rewind_to(3).unwrap();
        assert_eq!(bitmap.len(), 8 + 2 * width.bits());

        bitmap.rewind_to(2).unwrap();
        assert!(bitmap.ones(..).eq([1, 2, 3]));
        assert_eq!((bitmap.len(), bitmap.pruned_chunks()), (8, 0));
        assert!(bitmap.commits().eq([1, 2]));
        assert_eq!(bitmap.at(3).unwrap_err(), Error::NoSuchCommit);

        // Number 3 is free again.
        commit(&mut bitmap, 3, |batch| batch.push(true).unwrap());
        assert_eq!(bitmap.at(3).unwrap().len(), 9);
        assert_eq!(bitmap.at(1).unwrap().len(), 8);
    }
}

#[test]
fn the_number_that_was_rewound_to_is_the_last_one() {
    let mut bitmap = with_commits(&[1, 5, 9]);
    bitmap.rewind_to(5).unwrap();
    let error = bitmap.begin().commit(5).unwrap_err();
    assert_eq!(error, Error::NonMonotonicCommit { previous: 5, attempted: 5 });
    bitmap.begin().commit(6).unwrap();
    assert!(bitmap.commits().eq([1, 5, 6]));
}

#[test]
fn drop_before_drops_lower_numbers() {
    let mut bitmap = with_commits(&[2, 4, 6, 8]);
    assert_eq!(bitmap.drop_before(2), Ok(0));
    assert_eq!(bitmap.drop_before(5), Ok(2));
    assert!(bitmap.commits().eq([6, 8]));
    assert_eq!(bitmap.at(4).unwrap_err(), Error::NoSuchCommit);
    assert_eq!(bitmap.at(6).unwrap().len(), 3);
    assert_eq!(bitmap.drop_before(u64::MAX), Ok(2));
    assert_eq!(bitmap.latest(), None);
    assert_eq!(bitmap.len(), 4);
}

#[test]
fn clear_keeps_the_bitmap_and_the_last_number() {
    let mut bitmap = with_commits(&[2, 4]);
    bitmap.clear().unwrap();
    assert_eq!(bitmap.commits().next(), None);
    assert_eq!((bitmap.len(), bitmap.entries()), (2, 0));
    let error = bitmap.begin().commit(4).unwrap_err();
    assert_eq!(error, Error::NonMonotonicCommit { previous: 4, attempted: 4 });
    bitmap.begin().commit(5).unwrap();
    assert!(bitmap.commits().eq([5]));
}

#[test]
fn entries_are_the_chunks_that_commits_changed() {
    for width in WIDTHS {
        let bits = width.bits();
        let mut bitmap = bitmap_of(width, &vec![0; 4 * width.bytes()]);
        assert_eq!(bitmap.entries(), 4);
        bitmap.begin().commit(2).unwrap();
        assert_eq!(bitmap.entries(), 4);
        commit(&mut bitmap, 3, |batch| {
            batch.set(0, true).unwrap();
            batch.set(1, true).unwrap();
            batch.set(3 * bits, true).unwrap();
        });
        assert_eq!(bitmap.entries(), 6);
        assert_eq!(bitmap.drop_before(3), Ok(2));
        assert_eq!(bitmap.entries(), 2);
    }
}

#[test]
fn changed_chunks_are_absolute_and_ascending() {
    for width in WIDTHS {
        let bits = width.bits();
        let mut bitmap = bitmap_of(width, &vec![0; 5 * width.bytes()]);
        commit(&mut bitmap, 2, |batch| {
            batch.set(4 * bits, true).unwrap();
            batch.set(bits, true).unwrap();
        });
        commit(&mut bitmap, 3, |batch| {
            batch.set(bits, false).unwrap();
            batch.push(false).unwrap();
        });
        commit(&mut bitmap, 4, |batch| batch.prune(2 * bits).unwrap());
        commit(&mut bitmap, 5, |batch| assert_eq!(batch.pop(), Ok(false)));

        let changes: [((u64, u64), &[u64]); 10] = [
            ((1, 1), &[]),
            ((1, 2), &[1, 4]),
            ((2, 3), &[1, 5]),
            ((1, 3), &[4, 5]),
            ((3, 4), &[0, 1]),
            ((4, 5), &[5]),
            ((3, 5), &[0, 1, 5]),
            ((1, 5), &[0, 1, 4]),
            ((2, 4), &[0, 1, 5]),
            ((5, 5), &[]),
        ];
        for ((from, to), expected) in changes {
            let changed: Vec<u64> = bitmap.changed_chunks(from, to).unwrap().collect();
            assert_eq!(changed, expected, "{from} to {to}");
        }
    }
}

#[test]
fn changed_chunks_fails_without_both_commits_in_order() {
    let bitmap = with_commits(&[2, 4]);
    for (from, to) in [(4, 2), (2, 3), (3, 4), (1, 5), (0, u64::MAX), (u64::MAX, u64::MAX)] {
        assert_eq!(bitmap.changed_chunks(from, to).unwrap_err(), Error::NoSuchCommit);
    }
}

#[test]
fn changed_chunks_of_more_than_one_page() {
    for count in [63, 64, 65, 128, 130] {
        let mut bitmap = bitmap_of(Width::Bytes1, &[0; 400]);
        commit(&mut bitmap, 2, |batch| {
            for index in 0..count {
                batch.set(8 * (3 * index + 1), true).unwrap();
            }
        });
        let mut changed = bitmap.changed_chunks(1, 2).unwrap();
        assert!(changed.by_ref().eq((0..count).map(|index| 3 * index + 1)));
        assert_eq!(changed.next(), None);
    }
}

#[test]
fn a_copy_is_independent() {
    for width in WIDTHS {
        let mut bitmap = bitmap_of(width, &[0x0f]);
        commit(&mut bitmap, 2, |batch| batch.push(true).unwrap());
        let mut copy = bitmap.try_clone().unwrap();
        assert_eq!(copy.width(), width);
        assert!(copy.commits().eq([1, 2]));
        assert_eq!(copy.at(1).unwrap().len(), 8);

        commit(&mut copy, 3, |batch| batch.set(0, false).unwrap());
        bitmap.rewind_to(1).unwrap();
        assert_eq!((bitmap.len(), bitmap.get(0)), (8, Ok(true)));
        assert_eq!((copy.len(), copy.get(0)), (9, Ok(false)));
        drop(bitmap);
        assert_eq!(copy.at(2).unwrap().get(0), Ok(true));
        let error = copy.begin().commit(3).unwrap_err();
        assert_eq!(error, Error::NonMonotonicCommit { previous: 3, attempted: 3 });
    }
}
