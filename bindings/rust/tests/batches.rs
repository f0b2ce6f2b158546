//! Batches: edits, reads of the pending bitmap, and the ends of a batch.

mod common;

use std::mem;

use common::{WIDTHS, bitmap_of, commit};
use mortarpink_proved::{Batch, Bitmap, Error, Width};

#[test]
fn a_new_bitmap_is_empty() {
    for width in WIDTHS {
        let bitmap = Bitmap::new(width).unwrap();
        assert_eq!(bitmap.width(), width);
        assert_eq!(bitmap.len(), 0);
        assert!(bitmap.is_empty());
        assert_eq!(bitmap.pruned_chunks(), 0);
        assert_eq!(bitmap.entries(), 0);
        assert_eq!(bitmap.commits().next(), None);
    }
}

#[test]
fn an_empty_bitmap_has_no_positions() {
    for width in WIDTHS {
        let bitmap = Bitmap::new(width).unwrap();
        assert_eq!(bitmap.get(0), Err(Error::OutOfBounds));
        assert_eq!(bitmap.chunk(0), Err(Error::OutOfBounds));
        assert_eq!(bitmap.packed(..), Ok(vec![]));
        assert_eq!(bitmap.packed(0..1), Err(Error::OutOfBounds));
        assert_eq!(bitmap.ones(..).next(), None);
        assert_eq!(bitmap.next_one(0), None);
        assert_eq!(bitmap.next_zero(0), None);
        assert_eq!(bitmap.prev_one(u64::MAX), None);
        assert_eq!(bitmap.prev_zero(u64::MAX), None);
        assert_eq!(bitmap.count_ones(..), 0);
        assert_eq!(bitmap.select_one(0), None);
    }
}

#[test]
fn with_pruned_chunks_has_no_retained_bit() {
    for width in WIDTHS {
        let mut bitmap = Bitmap::with_pruned_chunks(width, 3).unwrap();
        assert_eq!(bitmap.pruned_chunks(), 3);
        assert_eq!(bitmap.len(), 3 * width.bits());
        assert!(!bitmap.is_empty());
        assert_eq!(bitmap.get(3 * width.bits() - 1), Err(Error::Pruned));
        assert_eq!(bitmap.get(3 * width.bits()), Err(Error::OutOfBounds));
        assert_eq!(bitmap.begin().pop(), Err(Error::NoRetainedBit));
        assert_eq!(bitmap.next_zero(0), None);
    }
}

#[test]
fn pushes_append_the_lowest_bit_first() {
    for width in WIDTHS {
        let mut bitmap = Bitmap::new(width).unwrap();
        commit(&mut bitmap, 1, |batch| {
            batch.push(true).unwrap();
            batch.push_byte(0b0000_0110).unwrap();
            batch.push_bytes(&[0x80, 0x01]).unwrap();
            batch.push_bytes(&[]).unwrap();
        });
        assert_eq!(bitmap.len(), 25);
        assert!(bitmap.ones(..).eq([0, 2, 3, 16, 17]));
    }
}

#[test]
fn push_chunk_appends_a_chunk() {
    for width in WIDTHS {
        let bytes: Vec<u8> = (1..=64).take(width.bytes()).collect();
        let mut bitmap = Bitmap::new(width).unwrap();
        commit(&mut bitmap, 1, |batch| {
            batch.push_chunk(&bytes).unwrap();
            batch.push(true).unwrap();
            batch.push_chunk(&bytes).unwrap();
        });
        assert_eq!(bitmap.len(), 2 * width.bits() + 1);
        assert_eq!(bitmap.chunk(0).unwrap().as_slice(), bytes);
        // The second chunk is shifted by one bit: its first byte is 2 * 1 + 1.
        assert_eq!(bitmap.chunk(width.bits()).unwrap()[0], 3);
    }
}

#[test]
fn push_chunk_fails_for_another_size() {
    for width in WIDTHS {
        let mut bitmap = Bitmap::new(width).unwrap();
        let mut batch = bitmap.begin();
        for size in [0, width.bytes() - 1, width.bytes() + 1, 100] {
            assert_eq!(batch.push_chunk(&vec![0xff; size]), Err(Error::WrongSize));
        }
        assert!(batch.is_empty());
    }
}

#[test]
fn pop_returns_the_last_bit() {
    for width in WIDTHS {
        let mut bitmap = bitmap_of(width, &[0b1000_0001]);
        let mut batch = bitmap.begin();
        assert_eq!(batch.pop(), Ok(true));
        for _ in 0..6 {
            assert_eq!(batch.pop(), Ok(false));
        }
        assert_eq!(batch.len(), 1);
        assert_eq!(batch.pop(), Ok(true));
        assert_eq!(batch.pop(), Err(Error::NoRetainedBit));
        assert!(batch.is_empty());
    }
}

#[test]
fn pop_stops_at_the_pruned_chunks() {
    for width in WIDTHS {
        let mut bitmap = bitmap_of(width, &vec![0xff; 2 * width.bytes()]);
        let mut batch = bitmap.begin();
        batch.prune(width.bits()).unwrap();
        for _ in 0..width.bits() {
            assert_eq!(batch.pop(), Ok(true));
        }
        assert_eq!(batch.pop(), Err(Error::NoRetainedBit));
        assert_eq!(batch.len(), width.bits());
        batch.push(false).unwrap();
        assert_eq!(batch.get(width.bits()), Ok(false));
    }
}

#[test]
fn set_replaces_a_bit() {
    for width in WIDTHS {
        let mut bitmap = bitmap_of(width, &[0b0000_0001, 0]);
        commit(&mut bitmap, 2, |batch| {
            batch.set(0, false).unwrap();
            batch.set(15, true).unwrap();
            batch.set(3, false).unwrap();
            assert_eq!(batch.set(16, true), Err(Error::OutOfBounds));
            assert_eq!(batch.set(u64::MAX, true), Err(Error::OutOfBounds));
        });
        assert!(bitmap.ones(..).eq([15]));
        assert!(bitmap.at(1).unwrap().ones(..).eq([0]));
    }
}

#[test]
fn prune_drops_whole_chunks() {
    for width in WIDTHS {
        let bits = width.bits();
        let mut bitmap = bitmap_of(width, &vec![0x01; 3 * width.bytes()]);
        let mut batch = bitmap.begin();
        batch.prune(bits - 1).unwrap();
        assert_eq!(batch.pruned_chunks(), 0);
        batch.prune(2 * bits - 1).unwrap();
        assert_eq!(batch.pruned_chunks(), 1);
        batch.prune(0).unwrap();
        assert_eq!(batch.pruned_chunks(), 1);
        assert_eq!(batch.get(bits - 1), Err(Error::Pruned));
        assert_eq!(batch.set(bits - 1, true), Err(Error::Pruned));
        assert_eq!(batch.chunk(0), Err(Error::Pruned));
        assert_eq!(batch.get(bits), Ok(true));
        assert_eq!(batch.prune(3 * bits + 1), Err(Error::OutOfBounds));
        batch.prune(3 * bits).unwrap();
        assert_eq!(batch.pruned_chunks(), 3);
        assert_eq!(batch.len(), 3 * bits);
        batch.commit(2).unwrap();
        assert_eq!(bitmap.pruned_chunks(), 3);
        assert_eq!(bitmap.at(1).unwrap().pruned_chunks(), 0);
    }
}

#[test]
fn a_batch_reads_its_edits() {
    for width in WIDTHS {
        let mut bitmap = bitmap_of(width, &[0b0000_0011]);
        let mut batch = bitmap.begin();
        batch.set(1, false).unwrap();
        batch.push(true).unwrap();
        assert_eq!(batch.len(), 9);
        assert!(!batch.is_empty());
        assert_eq!(batch.get(0), Ok(true));
        assert_eq!(batch.get(1), Ok(false));
        assert_eq!(batch.get(8), Ok(true));
        assert_eq!(batch.get(9), Err(Error::OutOfBounds));
        assert_eq!(batch.chunk(0).unwrap()[0], 1);
        assert_eq!(batch.chunk(9), Err(Error::OutOfBounds));
        assert_eq!(batch.chunk(8).unwrap().len(), width.bytes());
    }
}

#[test]
fn an_aborted_or_dropped_batch_changes_nothing() {
    let ends: [fn(Batch<'_>); 2] = [|batch| batch.abort(), |batch| drop(batch)];
    for end in ends {
        let mut bitmap = bitmap_of(Width::Bytes8, &[0x0f]);
        let mut batch = bitmap.begin();
        batch.push_byte(0xff).unwrap();
        batch.set(0, false).unwrap();
        batch.prune(16).unwrap();
        end(batch);
        assert_eq!(bitmap.len(), 8);
        assert!(bitmap.ones(..).eq([0, 1, 2, 3]));
        assert!(bitmap.commits().eq([1]));
        bitmap.begin().commit(2).unwrap();
        assert_eq!(bitmap.len(), 8);
    }
}

/// Leaks a batch that appended a byte.
fn leak(bitmap: &mut Bitmap) {
    let mut batch = bitmap.begin();
    batch.push_byte(0xff).unwrap();
    mem::forget(batch);
}

#[test]
fn the_next_read_aborts_a_leaked_batch() {
    let reads: [fn(&Bitmap) -> bool; 23] = [
        |bitmap| bitmap.len() == 8,
        |bitmap| !bitmap.is_empty(),
        |bitmap| bitmap.pruned_chunks() == 0,
        |bitmap| bitmap.get(8) == Err(Error::OutOfBounds),
        |bitmap| bitmap.chunk(0).unwrap().as_slice() == [3, 0, 0, 0, 0, 0, 0, 0],
        |bitmap| bitmap.packed(1..8) == Ok(vec![1]),
        |bitmap| bitmap.ones(..).eq([0, 1]),
        |bitmap| bitmap.next_one(2).is_none(),
        |bitmap| bitmap.next_zero(0) == Some(2),
        |bitmap| bitmap.prev_one(16) == Some(1),
        |bitmap| bitmap.prev_zero(16) == Some(7),
        |bitmap| bitmap.count_ones(..) == 2,
        |bitmap| bitmap.select_one(2).is_none(),
        |bitmap| bitmap.to_bytes().unwrap().len() == 24,
        |bitmap| {
            let (loaded, _) = Bitmap::load(Width::Bytes8, &bitmap.save().unwrap(), .., ..).unwrap();
            loaded.len() == 8
        },
        |bitmap| bitmap.delta(1, 2) == Ok(None),
        |bitmap| bitmap.try_clone().unwrap().len() == 8,
        |bitmap| bitmap.at(1).unwrap().len() == 8,
        |bitmap| bitmap.commits().eq([1]),
        |bitmap| bitmap.commit_exists(1),
        |bitmap| bitmap.latest() == Some(1) && bitmap.earliest() == Some(1),
        |bitmap| bitmap.changed_chunks(1, 1).unwrap().next().is_none(),
        |bitmap| bitmap.entries() == 1,
    ];
    for (index, read) in reads.iter().enumerate() {
        let mut bitmap = bitmap_of(Width::Bytes8, &[3]);
        leak(&mut bitmap);
        assert!(read(&bitmap), "read {index}");
        assert_eq!(bitmap.len(), 8);
    }
}

#[test]
fn the_next_edit_aborts_a_leaked_batch() {
    let edits: [fn(&mut Bitmap); 6] = [
        |bitmap| bitmap.begin().commit(2).unwrap(),
        |bitmap| bitmap.begin().abort(),
        |bitmap| bitmap.rewind_to(1).unwrap(),
        |bitmap| assert_eq!(bitmap.apply_delta(&[]), Err(Error::CutOff)),
        |bitmap| assert_eq!(bitmap.drop_before(1), Ok(0)),
        |bitmap| bitmap.clear().unwrap(),
    ];
    for edit in edits {
        let mut bitmap = bitmap_of(Width::Bytes8, &[3]);
        leak(&mut bitmap);
        edit(&mut bitmap);
        assert_eq!(bitmap.len(), 8);
    }
}

#[test]
fn a_bitmap_with_a_leaked_batch_is_dropped() {
    let mut bitmap = bitmap_of(Width::Bytes1, &[3]);
    leak(&mut bitmap);
    leak(&mut bitmap);
    drop(bitmap);
}

#[test]
fn a_commit_above_the_last_number_succeeds() {
    let mut bitmap = Bitmap::new(Width::Bytes8).unwrap();
    for number in [0, 1, 5, 1 << 40, u64::MAX - 1] {
        commit(&mut bitmap, number, |batch| batch.push(true).unwrap());
        assert_eq!(bitmap.latest(), Some(number));
    }
    assert_eq!(bitmap.len(), 5);
}

#[test]
fn a_failed_try_commit_returns_the_batch() {
    let mut bitmap = bitmap_of(Width::Bytes8, &[1]);
    commit(&mut bitmap, 7, |batch| batch.push(true).unwrap());
    let mut batch = bitmap.begin();
    batch.push(false).unwrap();
    for attempted in [0, 6, 7] {
        let failed = batch.try_commit(attempted).unwrap_err();
        assert_eq!(failed.error(), Error::NonMonotonicCommit { previous: 7, attempted });
        batch = failed.into_batch();
        assert_eq!(batch.len(), 10);
    }
    let failed = batch.try_commit(u64::MAX).unwrap_err();
    assert_eq!(failed.error(), Error::ReservedCommitNumber);
    let mut batch = failed.into_batch();
    batch.push(true).unwrap();
    batch.commit(8).unwrap();
    assert_eq!(bitmap.len(), 11);
    assert!(bitmap.commits().eq([1, 7, 8]));
}

#[test]
fn a_failed_commit_aborts_the_batch() {
    let ends: [fn(Batch<'_>) -> Error; 3] = [
        |batch| batch.commit(1).unwrap_err(),
        |batch| batch.try_commit(1).unwrap_err().into(),
        |batch| batch.try_commit(1).unwrap_err().error(),
    ];
    for end in ends {
        let mut bitmap = bitmap_of(Width::Bytes8, &[1]);
        let mut batch = bitmap.begin();
        batch.push(true).unwrap();
        assert_eq!(end(batch), Error::NonMonotonicCommit { previous: 1, attempted: 1 });
        assert_eq!(bitmap.len(), 8);
        bitmap.begin().try_commit(2).unwrap();
        assert!(bitmap.commits().eq([1, 2]));
    }
}

#[test]
fn ranges_searches_and_counts_are_of_the_pending_bitmap() {
    for width in WIDTHS {
        let mut bitmap = bitmap_of(width, &[0b1010_0110]);
        let mut batch = bitmap.begin();
        batch.push_byte(0b0000_0001).unwrap();
        batch.set(1, false).unwrap();
        assert!(batch.ones(..).eq([2, 5, 7, 8]));
        assert!(batch.ones(3..8).rev().eq([7, 5]));
        assert_eq!((batch.next_one(6), batch.next_one(9)), (Some(7), None));
        assert_eq!((batch.next_zero(7), batch.prev_zero(8)), (Some(9), Some(6)));
        assert_eq!((batch.prev_one(5), batch.prev_one(2)), (Some(2), None));
        assert_eq!((batch.count_ones(..), batch.count_ones(5..=7)), (4, 2));
        assert_eq!((batch.select_one(3), batch.select_one(4)), (Some(8), None));
        assert_eq!(batch.packed(..), Ok(vec![0b1010_0100, 0b0000_0001]));
        assert_eq!(batch.packed(7..=9), Ok(vec![0b011]));
        let mut bytes = [0; 2];
        assert_eq!(batch.read_bytes(5.., &mut bytes), Ok(()));
        assert_eq!(bytes, [0b0000_1101, 0]);
        assert_eq!(batch.packed(7..17), Err(Error::OutOfBounds));
        batch.abort();
        assert!(bitmap.ones(..).eq([1, 2, 5, 7]));
    }
}
