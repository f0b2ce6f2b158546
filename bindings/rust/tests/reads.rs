//! Reads of the current bitmap and of versions.

mod common;

use std::collections::VecDeque;
use std::ops::Bound;

use common::{WIDTHS, bitmap_of, commit};
use mortarpink_proved::{Bitmap, Error, Version, Width};

/// Bits 1, 2, 5, 7, 16 and 23 of 24.
const BYTES: [u8; 3] = [0b1010_0110, 0, 0b1000_0001];

type Bounds = (Bound<u64>, Bound<u64>);

/// Checks the same reads of the current bitmap and, after a commit that changes them all, of commit 1.
fn both(mut bitmap: Bitmap, check: impl Fn(&dyn Reads)) {
    check(&bitmap);
    let width = bitmap.width();
    commit(&mut bitmap, 2, |batch| {
        batch.push_bytes(&vec![0xff; 2 * width.bytes()]).unwrap();
        batch.prune(batch.len() - width.bits()).unwrap();
    });
    check(&bitmap.at(1).unwrap());
}

/// The reads that a bitmap and a version have.
trait Reads {
    fn len(&self) -> u64;
    fn get(&self, position: u64) -> Result<bool, Error>;
    fn chunk(&self, position: u64) -> Result<Vec<u8>, Error>;
    fn packed(&self, range: Bounds) -> Result<Vec<u8>, Error>;
    fn read_bytes(&self, range: Bounds, out: &mut [u8]) -> Result<(), Error>;
    fn ones(&self, range: Bounds) -> Vec<u64>;
    fn count_ones(&self, range: Bounds) -> u64;
    fn next(&self, from: u64) -> (Option<u64>, Option<u64>);
    fn prev(&self, end: u64) -> (Option<u64>, Option<u64>);
    fn select_one(&self, k: u64) -> Option<u64>;
}

macro_rules! reads {
    ($of:ty) => {
        impl Reads for $of {
            fn len(&self) -> u64 {
                assert_eq!(self.is_empty(), self.len() == 0);
                self.len()
            }

            fn get(&self, position: u64) -> Result<bool, Error> {
                self.get(position)
            }

            fn chunk(&self, position: u64) -> Result<Vec<u8>, Error> {
                self.chunk(position).map(|chunk| chunk.to_vec())
            }

            fn packed(&self, range: Bounds) -> Result<Vec<u8>, Error> {
                self.packed(range)
            }

            fn read_bytes(&self, range: Bounds, out: &mut [u8]) -> Result<(), Error> {
                self.read_bytes(range, out)
            }

            fn ones(&self, range: Bounds) -> Vec<u64> {
                self.ones(range).collect()
            }

            fn count_ones(&self, range: Bounds) -> u64 {
                self.count_ones(range)
            }

            fn next(&self, from: u64) -> (Option<u64>, Option<u64>) {
                (self.next_zero(from), self.next_one(from))
            }

            fn prev(&self, end: u64) -> (Option<u64>, Option<u64>) {
                (self.prev_zero(end), self.prev_one(end))
            }

            fn select_one(&self, k: u64) -> Option<u64> {
                self.select_one(k)
            }
        }
    };
}

reads!(Bitmap);
reads!(Version<'_>);

fn half_open(from: u64, to: u64) -> Bounds {
    (Bound::Included(from), Bound::Excluded(to))
}

#[test]
fn bits_and_chunks() {
    for width in WIDTHS {
        both(bitmap_of(width, &BYTES), |reads| {
            assert_eq!(reads.len(), 24);
            for position in 0..24 {
                let is_set = [1, 2, 5, 7, 16, 23].contains(&position);
                assert_eq!(reads.get(position), Ok(is_set));
            }
            assert_eq!(reads.get(24), Err(Error::OutOfBounds));
            assert_eq!(reads.chunk(24), Err(Error::OutOfBounds));
            assert_eq!(reads.chunk(u64::MAX), Err(Error::OutOfBounds));
        });
    }
    both(bitmap_of(Width::Bytes1, &BYTES), |reads| {
        assert_eq!(reads.chunk(0), Ok(vec![0b1010_0110]));
        assert_eq!(reads.chunk(15), Ok(vec![0]));
        assert_eq!(reads.chunk(16), Ok(vec![0b1000_0001]));
    });
    for width in [Width::Bytes8, Width::Bytes32, Width::Bytes64] {
        let mut padded = BYTES.to_vec();
        padded.resize(width.bytes(), 0);
        both(bitmap_of(width, &BYTES), |reads| {
            assert_eq!(reads.chunk(0), Ok(padded.clone()));
            assert_eq!(reads.chunk(23), Ok(padded.clone()));
        });
    }
}

#[test]
fn ranges_as_bytes() {
    let all = (Bound::Unbounded, Bound::Unbounded);
    let ranges: [(Bounds, &[u8]); 11] = [
        (all, &BYTES),
        (half_open(0, 24), &BYTES),
        ((Bound::Included(16), Bound::Unbounded), &[0b1000_0001]),
        ((Bound::Unbounded, Bound::Excluded(7)), &[0b010_0110]),
        ((Bound::Excluded(6), Bound::Included(7)), &[0b1]),
        (half_open(5, 18), &[0b0000_0101, 0b0_1000]),
        (half_open(7, 16), &[0b0000_0001, 0]),
        (half_open(15, 24), &[0b0000_0010, 0b1]),
        (half_open(23, 24), &[1]),
        (half_open(9, 9), &[]),
        (half_open(24, 24), &[]),
    ];
    let refused = [
        half_open(0, 25),
        half_open(25, 25),
        half_open(8, 7),
        half_open(0, u64::MAX),
        (Bound::Included(0), Bound::Included(u64::MAX)),
        (Bound::Excluded(u64::MAX), Bound::Unbounded),
    ];
    for width in WIDTHS {
        both(bitmap_of(width, &BYTES), |reads| {
            for (range, expected) in ranges {
                assert_eq!(reads.packed(range).as_deref(), Ok(expected), "{range:?}");
                let mut bytes = vec![0xaa; expected.len()];
                assert_eq!(reads.read_bytes(range, &mut bytes), Ok(()), "{range:?}");
                assert_eq!(bytes, expected, "{range:?}");
            }
            for range in refused {
                assert_eq!(reads.packed(range), Err(Error::OutOfBounds), "{range:?}");
            }
            let mut bytes = [0xaa; 3];
            for range in [half_open(0, 16), half_open(0, 25), half_open(8, 7)] {
                assert_eq!(reads.read_bytes(range, &mut bytes), Err(Error::WrongSize));
            }
            assert_eq!(reads.read_bytes(half_open(2, 25), &mut bytes), Err(Error::OutOfBounds));
            assert_eq!(reads.read_bytes(half_open(8, 7), &mut []), Err(Error::OutOfBounds));
            assert_eq!(bytes, [0xaa; 3]);
        });
    }
}

#[test]
fn ones_and_counts_of_ranges() {
    let all = [1, 2, 5, 7, 16, 23];
    let ranges: [(Bounds, &[u64]); 12] = [
        ((Bound::Unbounded, Bound::Unbounded), &all),
        (half_open(0, 24), &all),
        (half_open(0, u64::MAX), &all),
        (half_open(1, 23), &[1, 2, 5, 7, 16]),
        (half_open(2, 7), &[2, 5]),
        (half_open(8, 16), &[]),
        (half_open(24, 100), &[]),
        (half_open(5, 5), &[]),
        (half_open(7, 2), &[]),
        ((Bound::Included(16), Bound::Included(23)), &[16, 23]),
        ((Bound::Excluded(2), Bound::Included(7)), &[5, 7]),
        ((Bound::Excluded(u64::MAX), Bound::Unbounded), &[]),
    ];
    for width in WIDTHS {
        both(bitmap_of(width, &BYTES), |reads| {
            for (range, expected) in ranges {
                assert_eq!(reads.ones(range), expected, "{range:?}");
                assert_eq!(reads.count_ones(range), expected.len() as u64, "{range:?}");
            }
        });
    }
}

#[test]
fn searches_forward() {
    for width in WIDTHS {
        both(bitmap_of(width, &BYTES), |reads| {
            assert_eq!(reads.next(0), (Some(0), Some(1)));
            assert_eq!(reads.next(1), (Some(3), Some(1)));
            assert_eq!(reads.next(7), (Some(8), Some(7)));
            assert_eq!(reads.next(8), (Some(8), Some(16)));
            assert_eq!(reads.next(17), (Some(17), Some(23)));
            assert_eq!(reads.next(23), (None, Some(23)));
            assert_eq!(reads.next(24), (None, None));
            assert_eq!(reads.next(u64::MAX), (None, None));
        });
    }
}

#[test]
fn searches_backward() {
    for width in WIDTHS {
        both(bitmap_of(width, &BYTES), |reads| {
            assert_eq!(reads.prev(u64::MAX), (Some(22), Some(23)));
            assert_eq!(reads.prev(24), (Some(22), Some(23)));
            assert_eq!(reads.prev(23), (Some(22), Some(16)));
            assert_eq!(reads.prev(16), (Some(15), Some(7)));
            assert_eq!(reads.prev(3), (Some(0), Some(2)));
            assert_eq!(reads.prev(1), (Some(0), None));
            assert_eq!(reads.prev(0), (None, None));
        });
    }
}

#[test]
fn selections() {
    for width in WIDTHS {
        both(bitmap_of(width, &BYTES), |reads| {
            for (k, position) in [1, 2, 5, 7, 16, 23].into_iter().enumerate() {
                assert_eq!(reads.select_one(k as u64), Some(position));
            }
            assert_eq!(reads.select_one(6), None);
            assert_eq!(reads.select_one(u64::MAX), None);
        });
    }
}

/// Returns a bitmap of three chunks, the first two pruned. The last one has its first and last bit.
fn pruned(width: Width) -> Bitmap {
    let mut bytes = vec![0; width.bytes()];
    bytes[0] |= 0x01;
    bytes[width.bytes() - 1] |= 0x80;
    let mut bitmap = Bitmap::new(width).unwrap();
    commit(&mut bitmap, 1, |batch| {
        batch.push_bytes(&vec![0xff; 2 * width.bytes()]).unwrap();
        batch.push_bytes(&bytes).unwrap();
        batch.prune(2 * width.bits()).unwrap();
    });
    bitmap
}

#[test]
fn reads_after_a_pruned_prefix() {
    for width in WIDTHS {
        let (first, last) = (2 * width.bits(), 3 * width.bits() - 1);
        let all = half_open(0, u64::MAX);
        both(pruned(width), |reads| {
            assert_eq!(reads.len(), last + 1);
            assert_eq!(reads.get(first - 1), Err(Error::Pruned));
            assert_eq!(reads.chunk(0), Err(Error::Pruned));
            assert_eq!(reads.get(first), Ok(true));
            assert_eq!(reads.chunk(last).unwrap().len(), width.bytes());
            let retained = reads.packed((Bound::Unbounded, Bound::Unbounded)).unwrap();
            assert_eq!(retained, reads.chunk(first).unwrap());
            let ends = reads.packed(half_open(first + 1, last + 1)).unwrap();
            assert_eq!((ends.len(), ends.last()), (width.bytes(), Some(&0x40)));
            assert_eq!(reads.packed(half_open(first - 1, last)), Err(Error::Pruned));
            assert_eq!(reads.packed(half_open(0, 0)), Err(Error::Pruned));
            let mut bytes = [0xaa];
            let pruned = half_open(first - 1, first + 1);
            assert_eq!(reads.read_bytes(pruned, &mut bytes), Err(Error::Pruned));
            assert_eq!(bytes, [0xaa]);
            assert_eq!(reads.ones(all), [first, last]);
            assert_eq!(reads.ones(half_open(0, first)), []);
            assert_eq!(reads.count_ones(all), 2);
            assert_eq!(reads.count_ones(half_open(0, last)), 1);
            assert_eq!(reads.next(0), (Some(first + 1), Some(first)));
            assert_eq!(reads.next(first + 1), (Some(first + 1), Some(last)));
            assert_eq!(reads.prev(u64::MAX), (Some(last - 1), Some(last)));
            assert_eq!(reads.prev(first), (None, None));
            assert_eq!(reads.prev(last), (Some(last - 1), Some(first)));
            assert_eq!(reads.select_one(1), Some(last));
            assert_eq!(reads.select_one(2), None);
        });
    }
}

#[test]
fn bits_beside_the_ends_of_chunks() {
    for width in WIDTHS {
        let bits = width.bits();
        let positions = [0, bits - 1, bits, 2 * bits - 1, 2 * bits, 3 * bits];
        let mut bitmap = bitmap_of(width, &vec![0; 3 * width.bytes()]);
        commit(&mut bitmap, 2, |batch| {
            batch.push(false).unwrap();
            for position in positions {
                batch.set(position, true).unwrap();
            }
        });
        assert!(bitmap.ones(..).eq(positions));
        assert_eq!(bitmap.next_one(bits + 1), Some(2 * bits - 1));
        assert_eq!(bitmap.prev_one(bits), Some(bits - 1));
        assert_eq!(bitmap.prev_zero(2 * bits + 1), Some(2 * bits - 2));
        assert_eq!(bitmap.next_zero(2 * bits - 1), Some(2 * bits + 1));
        assert_eq!(bitmap.select_one(5), Some(3 * bits));
        assert_eq!(bitmap.at(1).unwrap().count_ones(..), 0);
        assert_eq!(bitmap.at(2).unwrap().count_ones(bits..=2 * bits), 3);
    }
}

#[test]
fn a_version_is_of_its_commit() {
    for width in WIDTHS {
        let mut bitmap = bitmap_of(width, &[0x0f]);
        commit(&mut bitmap, 2, |batch| batch.set(0, false).unwrap());
        commit(&mut bitmap, 3, |batch| assert_eq!(batch.pop(), Ok(false)));
        commit(&mut bitmap, 4, |batch| batch.push_bytes(&vec![0xff; width.bytes()]).unwrap());
        commit(&mut bitmap, 5, |batch| batch.prune(width.bits()).unwrap());

        let lengths = (1..=5).map(|number| bitmap.at(number).unwrap().len());
        let longer = 7 + width.bits();
        assert!(lengths.eq([8, 8, 7, longer, longer]));
        let pruned = (1..=5).map(|number| bitmap.at(number).unwrap().pruned_chunks());
        assert!(pruned.eq([0, 0, 0, 0, 1]));
        assert!(bitmap.at(1).unwrap().ones(..).eq([0, 1, 2, 3]));
        assert!(bitmap.at(2).unwrap().ones(..).eq([1, 2, 3]));
        assert_eq!(bitmap.at(3).unwrap().get(7), Err(Error::OutOfBounds));
        assert_eq!(bitmap.at(4).unwrap().get(7), Ok(true));
        assert_eq!(bitmap.at(5).unwrap().get(7), Err(Error::Pruned));
        assert_eq!(bitmap.at(5).unwrap().next_one(0), Some(width.bits()));
        assert_eq!(bitmap.at(4).unwrap().number(), 4);
    }
}

#[test]
fn a_batch_leaves_the_versions() {
    let mut bitmap = bitmap_of(Width::Bytes8, &[0x0f]);
    let mut batch = bitmap.begin();
    batch.set(0, false).unwrap();
    drop(batch);
    assert_eq!(bitmap.at(1).unwrap().get(0), Ok(true));
}

#[test]
fn ones_of_more_than_one_page() {
    for count in [63, 64, 65, 127, 128, 129, 1000] {
        let mut bitmap = Bitmap::new(Width::Bytes32).unwrap();
        commit(&mut bitmap, 1, |batch| {
            for _ in 0..count {
                batch.push(true).unwrap();
            }
        });
        assert!(bitmap.ones(..).eq(0..count));
        assert!(bitmap.at(1).unwrap().ones(5..).eq(5..count));
        let mut ones = bitmap.ones(..);
        assert_eq!(ones.by_ref().count() as u64, count);
        assert_eq!((ones.next(), ones.next()), (None, None));
    }
}

#[test]
fn ones_from_both_ends() {
    let bitmap = bitmap_of(Width::Bytes8, &[0b1010_0110; 48]);
    let version = bitmap.at(1).unwrap();
    for range in
        [half_open(0, 384), half_open(3, 380), half_open(70, 71), half_open(9, 9), half_open(7, 2)]
    {
        let expected: Vec<u64> = bitmap.ones(range).collect();
        assert!(bitmap.ones(range).rev().eq(expected.iter().rev().copied()));
        assert!(version.ones(range).rev().eq(expected.iter().rev().copied()));
        for backward in 1..4 {
            let (mut ones, mut left) = (version.ones(range), VecDeque::from(expected.clone()));
            for turn in 0..=expected.len() {
                if turn % 4 < backward {
                    assert_eq!(ones.next_back(), left.pop_back());
                } else {
                    assert_eq!(ones.next(), left.pop_front());
                }
            }
            assert_eq!((ones.next(), ones.next_back(), ones.next()), (None, None, None));
        }
    }
}

#[test]
fn iterators_and_reads_may_alternate() {
    let bitmap = bitmap_of(Width::Bytes8, &[0xff; 32]);
    let version = bitmap.at(1).unwrap();
    let (mut current, mut past) = (bitmap.ones(..), version.ones(1..));
    for position in 0..255 {
        assert_eq!(current.next(), Some(position));
        assert_eq!(past.next(), Some(position + 1));
        assert_eq!(bitmap.get(position), Ok(true));
    }
    assert_eq!((current.next(), past.next()), (Some(255), None));
}
