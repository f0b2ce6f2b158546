//! Positions, lengths and commit numbers at the ends of `u64`.

mod common;

use common::{WIDTHS, bitmap_of, commit};
use mortarpink_proved::{Bitmap, Error, Width};

/// Returns a bitmap with as many pruned chunks as there may be. One less than a chunk fits.
fn longest(width: Width) -> Bitmap {
    Bitmap::with_pruned_chunks(width, u64::MAX / width.bits()).unwrap()
}

/// Appends clear bits up to the last position.
fn fill(bitmap: &mut Bitmap) {
    let bits = bitmap.width().bits();
    commit(bitmap, 1, |batch| {
        for _ in 1..bits {
            batch.push(false).unwrap();
        }
    });
}

#[test]
fn the_number_of_pruned_bits_is_limited() {
    for (width, most) in WIDTHS.into_iter().zip([61, 58, 56, 55].map(|log| (1 << log) - 1)) {
        let bitmap = Bitmap::with_pruned_chunks(width, most).unwrap();
        assert_eq!(bitmap.pruned_chunks(), most);
        assert_eq!(bitmap.len(), u64::MAX - (width.bits() - 1));
        for chunks in [most + 1, u64::MAX] {
            let failed = Bitmap::with_pruned_chunks(width, chunks);
            assert_eq!(failed.unwrap_err(), Error::PrunedChunksOverflow);
        }
    }
}

#[test]
fn the_length_is_limited() {
    for width in WIDTHS {
        let mut bitmap = longest(width);
        let mut batch = bitmap.begin();
        assert_eq!(batch.push_chunk(&vec![0xff; width.bytes()]), Err(Error::TooLong));
        let failed = batch.push_bytes(&vec![0xff; width.bytes() + 3]).unwrap_err();
        assert_eq!(failed.appended(), width.bytes() - 1);
        assert_eq!(failed.error(), Error::TooLong);
        assert_eq!(batch.len(), u64::MAX - 7);
        assert_eq!(batch.push_byte(0), Err(Error::TooLong));
        for _ in 0..7 {
            batch.push(true).unwrap();
        }
        assert_eq!(batch.push(true), Err(Error::TooLong));
        let failed = batch.push_bytes(&[0]).unwrap_err();
        assert_eq!((failed.appended(), failed.error()), (0, Error::TooLong));
        batch.push_bytes(&[]).unwrap();
        assert_eq!(batch.len(), u64::MAX);
        assert_eq!(batch.pop(), Ok(true));
        batch.push(false).unwrap();
        batch.commit(1).unwrap();
        assert_eq!(bitmap.len(), u64::MAX);
        assert_eq!(bitmap.at(1).unwrap().len(), u64::MAX);
    }
}

#[test]
fn the_last_position_is_below_the_length() {
    for width in WIDTHS {
        let mut bitmap = longest(width);
        fill(&mut bitmap);
        let last = u64::MAX - 1;
        commit(&mut bitmap, 2, |batch| {
            batch.set(last, true).unwrap();
            assert_eq!(batch.set(u64::MAX, true), Err(Error::OutOfBounds));
            batch.prune(u64::MAX).unwrap();
        });
        assert_eq!(bitmap.pruned_chunks(), u64::MAX / width.bits());
        assert_eq!(bitmap.get(last), Ok(true));
        assert_eq!(bitmap.get(u64::MAX), Err(Error::OutOfBounds));
        assert_eq!(bitmap.chunk(last).unwrap()[width.bytes() - 1], 0x40);
        assert_eq!(bitmap.chunk(u64::MAX), Err(Error::OutOfBounds));
        assert_eq!(bitmap.packed(..).unwrap(), bitmap.chunk(last).unwrap().as_slice());
        assert_eq!(bitmap.packed(last - 5..u64::MAX).unwrap(), [0x20]);
        assert_eq!(bitmap.packed(last..=last).unwrap(), [1]);
        assert_eq!(bitmap.packed(u64::MAX..u64::MAX).unwrap(), []);
        assert_eq!(bitmap.packed(last..=u64::MAX), Err(Error::OutOfBounds));
        assert_eq!(bitmap.packed(..u64::MAX - width.bits()), Err(Error::OutOfBounds));
        assert_eq!(bitmap.packed(0..u64::MAX), Err(Error::Pruned));
        assert!(bitmap.ones(..).eq([last]));
        assert!(bitmap.ones(..=last).eq([last]));
        assert!(bitmap.ones(last..u64::MAX).eq([last]));
        assert!(bitmap.ones(..=u64::MAX).eq([last]));
        assert_eq!(bitmap.ones(..last).next(), None);
        assert_eq!(bitmap.ones(u64::MAX..).next(), None);
        assert_eq!(bitmap.count_ones(last..), 1);
        assert_eq!(bitmap.count_ones(..last), 0);
        assert_eq!(bitmap.next_one(0), Some(last));
        assert_eq!(bitmap.next_one(u64::MAX), None);
        assert_eq!(bitmap.next_zero(last), None);
        assert_eq!(bitmap.prev_one(u64::MAX), Some(last));
        assert_eq!(bitmap.prev_one(last), None);
        assert_eq!(bitmap.prev_zero(u64::MAX), Some(last - 1));
        assert_eq!(bitmap.select_one(0), Some(last));
    }
}

#[test]
fn versions_reach_the_last_position() {
    for width in WIDTHS {
        let mut bitmap = longest(width);
        fill(&mut bitmap);
        commit(&mut bitmap, 2, |batch| batch.set(u64::MAX - 1, true).unwrap());
        let chunk = u64::MAX / width.bits();
        assert!(bitmap.changed_chunks(1, 2).unwrap().eq([chunk]));
        let (first, second) = (bitmap.at(1).unwrap(), bitmap.at(2).unwrap());
        assert_eq!((first.next_one(0), second.next_one(0)), (None, Some(u64::MAX - 1)));
        assert_eq!(first.prev_zero(u64::MAX), Some(u64::MAX - 1));
        assert_eq!(second.prev_zero(u64::MAX), Some(u64::MAX - 2));
        assert!(second.ones(..).eq([u64::MAX - 1]));
        bitmap.rewind_to(1).unwrap();
        assert_eq!(bitmap.count_ones(..), 0);
    }
}

#[test]
fn the_longest_bitmap_is_encoded() {
    for width in WIDTHS {
        let mut bitmap = longest(width);
        fill(&mut bitmap);
        let bytes = bitmap.to_bytes().unwrap();
        assert_eq!(bytes.len(), 16 + width.bytes());
        assert_eq!(bytes[8..16], (width.bits() - 1).to_be_bytes());
        let (copy, used) = Bitmap::from_bytes(width, &bytes, ..).unwrap();
        assert_eq!((copy.len(), used), (u64::MAX, bytes.len()));
    }
}

#[test]
fn edits_of_many_bits_reach_the_last_position() {
    for width in WIDTHS {
        let mut bitmap = longest(width);
        let (first, last) = (bitmap.len(), u64::MAX - 1);
        let mut batch = bitmap.begin();
        let too_many = vec![true; width.bits() as usize];
        assert_eq!(batch.push_bits(&too_many), Err(Error::TooLong));
        assert_eq!(batch.len(), first);
        batch.push_bits(&too_many[1..]).unwrap();
        assert_eq!(batch.push_bits(&[true]), Err(Error::TooLong));
        batch.truncate(first).unwrap();
        batch.extend_to(u64::MAX).unwrap();
        assert_eq!(batch.len(), u64::MAX);
        batch.set_range(last.., true).unwrap();
        batch.set_range(first..=last, true).unwrap();
        assert_eq!(batch.set_range(last..=u64::MAX, false), Err(Error::OutOfBounds));
        assert_eq!(batch.set_range(first - 1.., false), Err(Error::Pruned));
        let failed = batch.set_many(&[last, u64::MAX], false).unwrap_err();
        assert_eq!((failed.replaced(), failed.error()), (1, Error::OutOfBounds));
        let most = u64::MAX / width.bits();
        batch.set_chunk(most, &vec![0; width.bytes()]).unwrap();
        for index in [most + 1, u64::MAX] {
            let bytes = vec![1; width.bytes()];
            assert_eq!(batch.set_chunk(index, &bytes), Err(Error::OutOfBounds));
        }
        assert_eq!(batch.get(last), Ok(false));
        batch.commit(1).unwrap();
        assert_eq!((bitmap.len(), bitmap.count_ones(..)), (u64::MAX, 0));
    }
}

#[test]
fn the_longest_bitmap_is_saved_and_follows_a_delta() {
    for width in WIDTHS {
        let mut bitmap = longest(width);
        fill(&mut bitmap);
        let last = u64::MAX - 1;
        let mut replica = bitmap.try_clone().unwrap();
        commit(&mut bitmap, last, |batch| batch.set(last, true).unwrap());
        replica.apply_delta(&bitmap.delta(1, last).unwrap().unwrap()).unwrap();
        let bytes = replica.save().unwrap();
        let (mut loaded, used) = Bitmap::load(width, &bytes, .., ..).unwrap();
        assert_eq!((loaded.len(), used), (u64::MAX, bytes.len()));
        assert!(loaded.commits().eq([1, last]));
        assert!(loaded.ones(..).eq([last]));
        assert_eq!(loaded.at(1).unwrap().count_ones(..), 0);
        let repeated = loaded.begin().commit(last).unwrap_err();
        assert_eq!(repeated, Error::NonMonotonicCommit { previous: last, attempted: last });
    }
}

#[test]
fn commit_numbers_end_before_the_greatest() {
    let mut bitmap = bitmap_of(Width::Bytes8, &[]);
    let last = u64::MAX - 1;
    let reserved = bitmap.begin().commit(u64::MAX).unwrap_err();
    assert_eq!(reserved, Error::ReservedCommitNumber);
    commit(&mut bitmap, last, |batch| batch.push(true).unwrap());
    let repeated = bitmap.begin().commit(last).unwrap_err();
    assert_eq!(repeated, Error::NonMonotonicCommit { previous: last, attempted: last });
    let reserved = bitmap.begin().commit(u64::MAX).unwrap_err();
    assert_eq!(reserved, Error::ReservedCommitNumber);

    assert!(bitmap.commits().eq([1, last]));
    assert_eq!(bitmap.at(last).unwrap().len(), 1);
    assert!(bitmap.changed_chunks(1, last).unwrap().eq([0]));
    assert!(!bitmap.commit_exists(u64::MAX));
    assert_eq!(bitmap.at(u64::MAX).unwrap_err(), Error::NoSuchCommit);
    assert_eq!(bitmap.rewind_to(u64::MAX), Err(Error::NoSuchCommit));
    bitmap.rewind_to(last).unwrap();
    assert_eq!(bitmap.drop_before(last), Ok(1));
    assert_eq!(bitmap.drop_before(u64::MAX), Ok(1));
}

#[test]
fn a_page_may_end_at_the_last_commit_number() {
    let mut bitmap = Bitmap::new(Width::Bytes8).unwrap();
    for back in (1..=64).rev() {
        bitmap.begin().commit(u64::MAX - back).unwrap();
    }
    assert!(bitmap.commits().eq(u64::MAX - 64..u64::MAX));
}

#[test]
fn a_page_may_end_at_the_last_position() {
    let mut bitmap = longest(Width::Bytes32);
    fill(&mut bitmap);
    commit(&mut bitmap, 2, |batch| {
        for back in 1..=128 {
            batch.set(u64::MAX - back, true).unwrap();
        }
    });
    assert!(bitmap.ones(..).eq(u64::MAX - 128..u64::MAX));
}
