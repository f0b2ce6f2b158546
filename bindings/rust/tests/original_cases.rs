//! The cases of the Rust crate that this library follows, as far as they apply to the calls here.
//!
//! The names and values are those of the original. Its historical bitmap has no tests of its own, so
//! the module `historical` has the cases of its documentation. The modules `prunable` and `plain`
//! have those of the tests of its two other bitmaps.
//!
//! # What differs
//!
//! - A case that pins a panic expects the error instead.
//! - Chunks of 2, 3, 4, 5, 7, 9, 12 or 16 bytes are not offered. If the case depends on the ends of
//!   chunks, it has chunks of 8 bytes here. The positions are then scaled to these. Otherwise it has
//!   each width that is offered.
//! - Cases of the same shape are one test, with all their values.
//! - The plain bitmap's encoding has no number of pruned chunks. Its cases have 0 of them here.
//! - Truncating and extending are pops and pushes here, and counts of zeros are differences.
//! - After the original drops all commits, any number may follow. Here the last number still counts.
//!
//! # What does not apply
//!
//! | Cases of the original | Why |
//! |---|---|
//! | `default`, `with_capacity`, `zeroes`, `ones` as constructors; `from` | bitmaps are filled by batches |
//! | `flip`, `flip_all`, `set_all` | there is no such edit |
//! | `and`, `or`, `xor`, their length mismatches | there are no operations on two bitmaps |
//! | `equality`, `debug_formatting` of the bits | bitmaps are not compared, and `Debug` has no bits |
//! | `iterator`, its edge cases | iterators are over set positions alone |
//! | `extend_from_bitmap` | its shape is here, with bytes in place of a bitmap |
//! | `pop_chunk`, its panics; `truncate_larger_size_panics` | there is no such edit |
//! | `set_chunk_by_index`, its panics; `clear_trailing_bits` | chunks are not replaced as a whole |
//! | `last_chunk`, `is_chunk_aligned`, `chunks_len` | there is no such read |
//! | `chunk_calculations`, `get_bit_from_chunk` | there are no functions of positions alone |
//! | `encode_size`, `max_encode_size` | sizes are not computed apart from the encoding |
//! | the bytes that a failed read consumes | a failed read takes none |
//! | conformance of the encoding, with a feature | its values come from a generator of the original |

mod common;

use common::{WIDTHS, bitmap_of, commit};
use mortarpink_proved::{Batch, Bitmap, Error, Width};

const CHUNKS: [[u8; 8]; 3] = [
    [0x01, 0x02, 0x03, 0x04, 0x11, 0x12, 0x13, 0x14],
    [0x05, 0x06, 0x07, 0x08, 0x15, 0x16, 0x17, 0x18],
    [0x09, 0x0a, 0x0b, 0x0c, 0x19, 0x1a, 0x1b, 0x1c],
];

fn push_all(batch: &mut Batch<'_>, bits: impl IntoIterator<Item = bool>) {
    for bit in bits {
        batch.push(bit).unwrap();
    }
}

/// Returns a bitmap whose commit 1 appended the bits.
fn of_bits(width: Width, bits: impl IntoIterator<Item = bool>) -> Bitmap {
    let mut bitmap = Bitmap::new(width).unwrap();
    commit(&mut bitmap, 1, |batch| push_all(batch, bits));
    bitmap
}

/// Returns a bitmap with set bits at these positions.
fn of_ones(width: Width, len: u64, ones: &[u64]) -> Bitmap {
    of_bits(width, (0..len).map(|position| ones.contains(&position)))
}

/// Returns a bitmap with the first chunks of `CHUNKS`.
fn of_chunks(count: usize) -> Bitmap {
    bitmap_of(Width::Bytes8, CHUNKS[..count].as_flattened())
}

/// Prunes under the next commit number.
fn prune(bitmap: &mut Bitmap, position: u64) {
    let number = bitmap.latest().unwrap() + 1;
    commit(bitmap, number, |batch| batch.prune(position).unwrap());
}

fn count_zeros(bitmap: &Bitmap) -> u64 {
    bitmap.len() - bitmap.pruned_chunks() * bitmap.width().bits() - bitmap.count_ones(..)
}

/// Returns what is decoded from the encoding of a bitmap.
fn decoded(bitmap: &Bitmap) -> Bitmap {
    let bytes = bitmap.to_bytes().unwrap();
    let (copy, used) = Bitmap::from_bytes(bitmap.width(), &bytes, ..).unwrap();
    assert_eq!(used, bytes.len());
    copy
}

/// Checks that two bitmaps have the same bits.
fn assert_same(left: &Bitmap, right: &Bitmap) {
    assert_eq!(left.len(), right.len());
    assert_eq!(left.pruned_chunks(), right.pruned_chunks());
    for position in left.pruned_chunks() * left.width().bits()..left.len() {
        assert_eq!(left.get(position), right.get(position), "position {position}");
    }
}

/// Returns the bytes of two numbers and of chunks.
fn encoding(pruned_chunks: u64, retained: u64, chunks: &[u8]) -> Vec<u8> {
    [&pruned_chunks.to_be_bytes(), &retained.to_be_bytes(), chunks].concat()
}

/// Returns the error of decoding, or `None`.
fn decode_error(bytes: &[u8], least: u64, most: u64) -> Option<Error> {
    Bitmap::from_bytes(Width::Bytes8, bytes, least..=most).err()
}

mod historical {
    use super::*;

    #[test]
    fn into_dirty_and_apply_batch() {
        for width in WIDTHS {
            assert_eq!(of_bits(width, [true, false]).len(), 2);
        }
    }

    #[test]
    fn get_at_commit() {
        for width in WIDTHS {
            let mut bitmap = of_bits(width, [true, false]);
            commit(&mut bitmap, 2, |batch| {
                batch.set(0, false).unwrap();
                batch.push(true).unwrap();
            });
            let state_at_1 = bitmap.at(1).unwrap();
            assert_eq!(state_at_1.len(), 2);
            assert_eq!(state_at_1.get(0), Ok(true));
            assert_eq!(state_at_1.get(1), Ok(false));
            assert_eq!(bitmap.len(), 3);
            assert_eq!(bitmap.get(0), Ok(false));
        }
    }

    #[test]
    fn get_at_commit_without_the_commit() {
        let bitmap = of_bits(Width::Bytes8, [true]);
        for number in [0, 2, u64::MAX] {
            assert_eq!(bitmap.at(number).unwrap_err(), Error::NoSuchCommit);
        }
    }

    #[test]
    fn push_and_pop_cancel() {
        let mut bitmap = of_bits(Width::Bytes8, [false; 10]);
        let mut batch = bitmap.begin();
        batch.push(true).unwrap();
        assert_eq!(batch.len(), 11);
        assert_eq!(batch.pop(), Ok(true));
        assert_eq!(batch.len(), 10);
        batch.commit(2).unwrap();
        assert_eq!(bitmap.changed_chunks(1, 2).unwrap().next(), None);
    }

    #[test]
    fn the_last_set_wins() {
        let mut bitmap = of_bits(Width::Bytes8, [false; 10]);
        let mut batch = bitmap.begin();
        batch.set(5, true).unwrap();
        batch.set(5, false).unwrap();
        assert_eq!(batch.get(5), Ok(false));
        batch.commit(2).unwrap();
        assert_eq!(bitmap.get(5), Ok(false));
    }

    #[test]
    fn set_and_pop_cancel() {
        let mut bitmap = of_bits(Width::Bytes8, [false; 10]);
        let mut batch = bitmap.begin();
        batch.set(9, true).unwrap();
        assert_eq!(batch.pop(), Ok(true));
        assert_eq!(batch.len(), 9);
        batch.push(false).unwrap();
        batch.commit(2).unwrap();
        assert_eq!(bitmap.get(9), Ok(false));
    }

    #[test]
    fn reads_prefer_appended_bits_then_modified_bits() {
        let mut bitmap = of_bits(Width::Bytes8, [false; 10]);
        let mut batch = bitmap.begin();
        assert_eq!((batch.pop(), batch.pop()), (Ok(false), Ok(false)));
        batch.push(true).unwrap();
        batch.set(7, true).unwrap();
        assert_eq!((batch.get(6), batch.get(7), batch.get(8)), (Ok(false), Ok(true), Ok(true)));
        batch.set(8, false).unwrap();
        assert_eq!(batch.get(8), Ok(false));
        assert_eq!(batch.get(9), Err(Error::OutOfBounds));
    }

    #[test]
    fn all_unpruned_bits_are_popped() {
        let mut bitmap = of_bits(Width::Bytes1, [true; 40]);
        prune(&mut bitmap, 32);
        commit(&mut bitmap, 3, |batch| {
            for _ in 0..8 {
                assert_eq!(batch.pop(), Ok(true));
            }
            assert_eq!(batch.pop(), Err(Error::NoRetainedBit));
        });
        assert_eq!((bitmap.len(), bitmap.pruned_chunks()), (32, 4));
        let before = bitmap.at(2).unwrap();
        assert_eq!((before.len(), before.pruned_chunks()), (40, 4));
        assert!(before.ones(..).eq(32..40));
        assert_eq!(bitmap.at(1).unwrap().count_ones(..), 40);
    }

    #[test]
    fn a_chunk_is_appended_and_pruned_in_one_batch() {
        let mut bitmap = of_chunks(1);
        commit(&mut bitmap, 2, |batch| {
            batch.push_chunk(&CHUNKS[1]).unwrap();
            batch.push_chunk(&CHUNKS[2]).unwrap();
            batch.prune(128).unwrap();
            assert_eq!(batch.chunk(64), Err(Error::Pruned));
        });
        assert_eq!(bitmap.chunk(128).unwrap().as_slice(), CHUNKS[2]);
        assert_eq!(bitmap.at(1).unwrap().chunk(0).unwrap().as_slice(), CHUNKS[0]);
    }

    #[test]
    fn a_batch_fails_where_the_original_panics() {
        let mut bitmap = of_chunks(2);
        let mut batch = bitmap.begin();
        batch.prune(64).unwrap();
        assert_eq!(batch.get(128), Err(Error::OutOfBounds));
        assert_eq!(batch.get(63), Err(Error::Pruned));
        assert_eq!(batch.chunk(128), Err(Error::OutOfBounds));
        assert_eq!(batch.chunk(63), Err(Error::Pruned));
        assert_eq!(batch.set(128, true), Err(Error::OutOfBounds));
        assert_eq!(batch.set(63, true), Err(Error::Pruned));
        assert_eq!(batch.prune(129), Err(Error::OutOfBounds));
        batch.prune(128).unwrap();
        assert_eq!(batch.pop(), Err(Error::NoRetainedBit));
        assert_eq!(Bitmap::new(Width::Bytes8).unwrap().begin().pop(), Err(Error::NoRetainedBit));
    }

    #[test]
    fn commit_errors() {
        let mut bitmap = of_bits(Width::Bytes8, [true]);
        let error = bitmap.begin().commit(1).unwrap_err();
        assert_eq!(error, Error::NonMonotonicCommit { previous: 1, attempted: 1 });
        let error = bitmap.begin().commit(0).unwrap_err();
        assert_eq!(error, Error::NonMonotonicCommit { previous: 1, attempted: 0 });
        let error = bitmap.begin().commit(u64::MAX).unwrap_err();
        assert_eq!(error, Error::ReservedCommitNumber);
    }

    #[test]
    fn abort_discards_all_mutations() {
        let mut bitmap = of_bits(Width::Bytes8, [true, false]);
        let mut batch = bitmap.begin();
        batch.push(true).unwrap();
        batch.set(0, false).unwrap();
        batch.abort();
        assert_eq!((bitmap.len(), bitmap.get(0)), (2, Ok(true)));
    }

    #[test]
    fn prune_commits_before_and_clear_history() {
        let mut bitmap = Bitmap::new(Width::Bytes8).unwrap();
        for number in 1..=5 {
            commit(&mut bitmap, number, |batch| batch.push(true).unwrap());
        }
        assert_eq!(bitmap.drop_before(3), Ok(2));
        assert_eq!((bitmap.earliest(), bitmap.latest()), (Some(3), Some(5)));
        assert!(!bitmap.commit_exists(2));
        bitmap.clear().unwrap();
        assert_eq!(bitmap.commits().next(), None);
        assert_eq!(bitmap.len(), 5);
    }
}

mod prunable {
    use super::*;

    #[test]
    fn new() {
        let bitmap = Bitmap::new(Width::Bytes32).unwrap();
        assert_eq!((bitmap.len(), bitmap.pruned_chunks()), (0, 0));
        assert!(bitmap.is_empty());
    }

    #[test]
    fn new_with_pruned_chunks() {
        let bitmap = Bitmap::with_pruned_chunks(Width::Bytes8, 1).unwrap();
        assert_eq!((bitmap.len(), bitmap.pruned_chunks()), (64, 1));
    }

    #[test]
    fn new_with_pruned_chunks_overflow() {
        for width in WIDTHS {
            let result = Bitmap::with_pruned_chunks(width, u64::MAX / width.bits() + 1);
            assert_eq!(result.unwrap_err(), Error::PrunedChunksOverflow);
        }
    }

    #[test]
    fn push_and_get_bits() {
        for width in WIDTHS {
            let bitmap = of_bits(width, [true, false, true]);
            assert_eq!(bitmap.len(), 3);
            assert_eq!([0, 1, 2].map(|k| bitmap.get(k)), [Ok(true), Ok(false), Ok(true)]);
        }
    }

    #[test]
    fn push_chunk() {
        let mut bitmap = Bitmap::new(Width::Bytes8).unwrap();
        let chunk = [0xaa, 0xbb, 0xcc, 0xdd, 0xaa, 0xbb, 0xcc, 0xdd];
        commit(&mut bitmap, 1, |batch| batch.push_chunk(&chunk).unwrap());
        assert_eq!(bitmap.len(), 64);
        assert_eq!(bitmap.chunk(0).unwrap().as_slice(), chunk);
    }

    #[test]
    fn set_bit() {
        for width in WIDTHS {
            let mut bitmap = of_bits(width, [false; 3]);
            assert_eq!(bitmap.get(1), Ok(false));
            commit(&mut bitmap, 2, |batch| batch.set(1, true).unwrap());
            assert_eq!(bitmap.get(1), Ok(true));
            commit(&mut bitmap, 3, |batch| batch.set(1, false).unwrap());
            assert_eq!(bitmap.get(1), Ok(false));
        }
    }

    #[test]
    fn pruning_basic() {
        let mut bitmap = of_chunks(3);
        assert_eq!((bitmap.len(), bitmap.pruned_chunks()), (192, 0));
        prune(&mut bitmap, 64);
        assert_eq!((bitmap.len(), bitmap.pruned_chunks()), (192, 1));
        assert_eq!(bitmap.chunk(64).unwrap().as_slice(), CHUNKS[1]);
        assert_eq!(bitmap.chunk(128).unwrap().as_slice(), CHUNKS[2]);
        prune(&mut bitmap, 128);
        assert_eq!((bitmap.len(), bitmap.pruned_chunks()), (192, 2));
        assert_eq!(bitmap.chunk(128).unwrap().as_slice(), CHUNKS[2]);
    }

    #[test]
    fn pruned_bits_and_chunks_panic() {
        let mut bitmap = of_chunks(2);
        prune(&mut bitmap, 64);
        assert_eq!(bitmap.get(0), Err(Error::Pruned));
        assert_eq!(bitmap.chunk(0), Err(Error::Pruned));
        assert_eq!(bitmap.begin().set(0, true), Err(Error::Pruned));
    }

    #[test]
    fn prune_to_bit_out_of_bounds() {
        let mut bitmap = bitmap_of(Width::Bytes1, &[1, 2, 3]);
        assert_eq!(bitmap.begin().prune(25), Err(Error::OutOfBounds));
        assert_eq!(bitmap.begin().prune(24), Ok(()));
    }

    #[test]
    fn pruning_with_partial_chunk() {
        let mut bitmap = bitmap_of(Width::Bytes8, &[[0xff; 8], [0xaa; 8]].concat());
        commit(&mut bitmap, 2, |batch| push_all(batch, [true, false, true]));
        assert_eq!(bitmap.len(), 131);
        prune(&mut bitmap, 64);
        assert_eq!((bitmap.len(), bitmap.pruned_chunks()), (131, 1));
        assert_eq!([128, 129, 130].map(|k| bitmap.get(k)), [Ok(true), Ok(false), Ok(true)]);
    }

    #[test]
    fn prune_idempotent() {
        let mut bitmap = of_chunks(2);
        for position in [64, 64, 32] {
            prune(&mut bitmap, position);
            assert_eq!(bitmap.pruned_chunks(), 1);
        }
    }

    #[test]
    fn push_after_pruning() {
        let mut bitmap = of_chunks(2);
        prune(&mut bitmap, 64);
        assert_eq!(bitmap.len(), 128);
        commit(&mut bitmap, 3, |batch| batch.push_chunk(&CHUNKS[2]).unwrap());
        assert_eq!(bitmap.len(), 192);
        assert_eq!(bitmap.chunk(128).unwrap().as_slice(), CHUNKS[2]);
    }

    #[test]
    fn different_chunk_sizes() {
        for width in WIDTHS {
            let bitmap = of_bits(width, (0..10).map(|i| i % 2 == 0));
            assert_eq!(bitmap.len(), 10);
            assert!(bitmap.ones(..).eq([0, 2, 4, 6, 8]));
        }
    }

    #[test]
    fn get_chunk() {
        let mut bitmap = of_chunks(3);
        for (index, chunk) in (0..).zip(CHUNKS) {
            assert_eq!(bitmap.chunk(64 * index).unwrap().as_slice(), chunk);
        }
        prune(&mut bitmap, 64);
        for (index, chunk) in (0..).zip(CHUNKS).skip(1) {
            assert_eq!(bitmap.chunk(64 * index).unwrap().as_slice(), chunk);
        }
    }

    #[test]
    fn pop() {
        for width in WIDTHS {
            let mut bitmap = of_bits(width, [true, false, true]);
            let mut batch = bitmap.begin();
            assert_eq!([batch.pop(), batch.pop(), batch.pop()], [Ok(true), Ok(false), Ok(true)]);
            assert!(batch.is_empty());
            push_all(&mut batch, (0..100).map(|i| i % 3 == 0));
            assert_eq!(batch.len(), 100);
            for i in (0..100).rev() {
                assert_eq!(batch.pop(), Ok(i % 3 == 0));
                assert_eq!(batch.len(), i);
            }
        }
    }

    #[test]
    fn truncate() {
        let mut bitmap = of_bits(Width::Bytes8, (0..160).map(|i| i % 3 == 0));
        commit(&mut bitmap, 2, |batch| {
            while batch.len() > 129 {
                batch.pop().unwrap();
            }
        });
        assert!(bitmap.ones(..).eq((0..129).step_by(3)));
        prune(&mut bitmap, 64);
        commit(&mut bitmap, 4, |batch| assert_eq!(batch.pop(), Ok(false)));
        assert_eq!(bitmap.len(), 128);
        assert!(bitmap.ones(..).eq((66..128).step_by(3)));
    }

    #[test]
    fn truncate_into_pruned_region_panics() {
        let mut bitmap = bitmap_of(Width::Bytes8, &[0xff; 16]);
        prune(&mut bitmap, 64);
        let mut batch = bitmap.begin();
        while batch.len() > 64 {
            batch.pop().unwrap();
        }
        assert_eq!(batch.pop(), Err(Error::NoRetainedBit));
    }

    #[test]
    fn write_read() {
        for width in WIDTHS {
            let empty = decoded(&Bitmap::new(width).unwrap());
            assert!(empty.is_empty());
            assert_eq!(empty.pruned_chunks(), 0);
            let mut original = bitmap_of(width, &[0xaa, 0xbb, 0xcc, 0xdd, 0x11, 0x22, 0x33, 0x44]);
            commit(&mut original, 2, |batch| push_all(batch, [true, false, true]));
            assert_eq!(original.len(), 67);
            assert_same(&decoded(&original), &original);
        }
    }

    #[test]
    fn write_read_with_pruning() {
        let mut original = of_chunks(3);
        prune(&mut original, 64);
        let copy = decoded(&original);
        assert_eq!((copy.len(), copy.pruned_chunks()), (192, 1));
        assert_eq!(copy.chunk(64).unwrap().as_slice(), CHUNKS[1]);
        assert_eq!(copy.chunk(128).unwrap().as_slice(), CHUNKS[2]);
    }

    #[test]
    fn write_read_with_pruning_2() {
        let bytes: Vec<u8> = (0..40).collect();
        let mut original = bitmap_of(Width::Bytes8, &bytes);
        prune(&mut original, 192);
        assert_eq!((original.len(), original.pruned_chunks()), (320, 3));
        let copy = decoded(&original);
        assert_same(&copy, &original);
        assert_eq!(copy.chunk(319).unwrap().as_slice(), &bytes[32..]);
    }

    #[test]
    fn encode_size_matches() {
        let mut bitmap = of_chunks(3);
        assert_eq!(bitmap.to_bytes().unwrap().len(), 16 + 24);
        prune(&mut bitmap, 64);
        assert_eq!(bitmap.to_bytes().unwrap().len(), 16 + 16);
        commit(&mut bitmap, 3, |batch| batch.push(true).unwrap());
        assert_eq!(bitmap.to_bytes().unwrap().len(), 16 + 24);
    }

    #[test]
    fn read_max_len_validation() {
        let bytes = of_bits(Width::Bytes8, [true; 10]).to_bytes().unwrap();
        assert_eq!(decode_error(&bytes, 0, 100), None);
        assert_eq!(decode_error(&bytes, 0, 5), Some(Error::InvalidLength { length: 10 }));
    }

    #[test]
    fn read_range_bounds_retained_bits() {
        let mut original = of_bits(Width::Bytes8, (0..100).map(|i| i % 3 == 0));
        prune(&mut original, 64);
        let bytes = original.to_bytes().unwrap();
        assert_eq!(decode_error(&bytes, 36, 36), None);
        let out_of_range = Some(Error::InvalidLength { length: 36 });
        assert_eq!(decode_error(&bytes, 100, 100), out_of_range);
        assert_eq!(decode_error(&bytes, 37, u64::MAX), out_of_range);
        assert_same(&decoded(&original), &original);

        let mut original = of_bits(Width::Bytes1, [true; 96]);
        prune(&mut original, 96);
        let bytes = original.to_bytes().unwrap();
        let (copy, _) = Bitmap::from_bytes(Width::Bytes1, &bytes, 0..=0).unwrap();
        assert_eq!((copy.len(), copy.pruned_chunks()), (96, 12));
    }

    #[test]
    fn codec_roundtrip_different_chunk_sizes() {
        for width in WIDTHS {
            let original = of_bits(width, (0..100).map(|i| i % 3 == 0));
            assert_same(&decoded(&original), &original);
        }
    }

    #[test]
    fn read_pruned_chunks_overflow() {
        let bytes = encoding(u64::MAX / 64 + 1, 0, &[]);
        assert_eq!(decode_error(&bytes, 0, u64::MAX), Some(Error::Invalid));
    }

    #[test]
    fn read_total_length_overflow() {
        let most = u64::MAX / 64;
        let retained = u64::MAX - 64 * most + 1;
        let bytes = encoding(most, retained, &[0; 8]);
        assert_eq!(decode_error(&bytes, 0, u64::MAX), Some(Error::Invalid));
    }

    /// Compares the first set position of each range with that of a list of positions.
    fn check_ones_iter_ranges(bitmap: &Bitmap, stride: u64) {
        let (bits, len) = (bitmap.width().bits(), bitmap.len());
        let pruned = bitmap.pruned_chunks() * bits;
        let step = bits.min(64);
        let is_bound = |position: &u64| bits <= 64 || [0, 1, step - 1].contains(&(position % step));
        let bounds: Vec<u64> = (0..=len + 1).filter(is_bound).collect();
        let pairs = bounds.iter().flat_map(|from| bounds.iter().map(move |to| (*from, *to)));
        for (from, to) in pairs.filter(|(from, to)| from <= to) {
            let first = from.max(pruned).next_multiple_of(stride);
            let expected = (first < to.min(len)).then_some(first);
            assert_eq!(bitmap.ones(from..to).next(), expected, "{bitmap:?}, {from}..{to}");
        }
    }

    #[test]
    fn ones_iter_range_matches_bit_scan() {
        for width in WIDTHS {
            let len = 3 * width.bits() + 3;
            for stride in [1, 7, 63, 65, len + 1] {
                let mut bitmap = of_bits(width, (0..len).map(|position| position % stride == 0));
                check_ones_iter_ranges(&bitmap, stride);
                prune(&mut bitmap, width.bits());
                check_ones_iter_ranges(&bitmap, stride);
            }
        }
    }

    #[test]
    fn ones_iter_range_near_max() {
        let mut bitmap = Bitmap::with_pruned_chunks(Width::Bytes8, u64::MAX / 64).unwrap();
        let from = bitmap.len();
        commit(&mut bitmap, 1, |batch| push_all(batch, [false; 63]));
        assert_eq!(bitmap.len(), u64::MAX);
        assert_eq!(bitmap.ones(from..u64::MAX).next(), None);
        commit(&mut bitmap, 2, |batch| batch.set(u64::MAX - 1, true).unwrap());
        assert_eq!(bitmap.ones(from..u64::MAX - 1).next(), None);
        assert_eq!(bitmap.ones(from..u64::MAX).next(), Some(u64::MAX - 1));
    }

    #[test]
    fn ones_iter_pruned_bits_near_max() {
        let mut bitmap = Bitmap::with_pruned_chunks(Width::Bytes8, u64::MAX / 64).unwrap();
        let start = bitmap.len();
        assert_eq!(start, u64::MAX - 63);
        assert_eq!(bitmap.ones(..).next(), None);
        commit(&mut bitmap, 1, |batch| push_all(batch, (0..32).map(|i| i == 0 || i == 31)));
        assert!(bitmap.ones(..).eq([start, start + 31]));
    }

    #[test]
    fn ones_iter_with_pruning() {
        let mut bitmap = of_ones(Width::Bytes8, 192, &[80, 110, 128, 180]);
        prune(&mut bitmap, 64);
        assert_eq!(bitmap.pruned_chunks(), 1);
        assert!(bitmap.ones(64..).eq([80, 110, 128, 180]));
        assert!(bitmap.ones(100..).eq([110, 128, 180]));
        assert_eq!(bitmap.ones(181..).next(), None);
    }

    #[test]
    fn ones_iter_all_ones_with_pruning() {
        let mut bitmap = of_bits(Width::Bytes8, [true; 192]);
        prune(&mut bitmap, 128);
        assert_eq!(bitmap.pruned_chunks(), 2);
        assert!(bitmap.ones(128..).eq(128..192));
    }

    #[test]
    fn ones_iter_empty_after_pruning() {
        let mut bitmap = of_bits(Width::Bytes8, [false; 128]);
        prune(&mut bitmap, 64);
        assert_eq!(bitmap.ones(64..).next(), None);
    }

    #[test]
    fn ones_iter_from_pruned_region_fast_forwards() {
        let mut bitmap = of_bits(Width::Bytes8, [true; 128]);
        prune(&mut bitmap, 64);
        assert!(bitmap.ones(0..).eq(64..128));
    }

    #[test]
    fn extend_to() {
        let mut bitmap = of_bits(Width::Bytes8, (0..60).map(|i| i % 2 == 0));
        commit(&mut bitmap, 2, |batch| push_all(batch, [false; 70]));
        assert_eq!(bitmap.len(), 130);
        assert!(bitmap.ones(..).eq((0..60).step_by(2)));
        prune(&mut bitmap, 64);
        commit(&mut bitmap, 4, |batch| push_all(batch, [false; 70]));
        assert_eq!((bitmap.len(), bitmap.count_ones(..)), (200, 0));
    }
}

mod plain {
    use super::*;

    #[test]
    fn zeroes_and_ones() {
        for width in WIDTHS {
            for len in [0, 1, 10] {
                let zeroes = of_bits(width, vec![false; len]);
                assert_eq!((zeroes.count_ones(..), count_zeros(&zeroes)), (0, len as u64));
                let ones = of_bits(width, vec![true; len]);
                assert_eq!((ones.count_ones(..), count_zeros(&ones)), (len as u64, 0));
            }
        }
    }

    /// Checks that the last chunk of a pending bitmap is zero past the length.
    fn check_trailing_bits_zero(batch: &Batch<'_>, width: Width) {
        let chunk = batch.chunk(batch.len() - 1).unwrap();
        let first = (batch.len() - 1) % width.bits() + 1;
        for bit in first..width.bits() {
            assert_eq!(chunk[bit as usize / 8] >> (bit % 8) & 1, 0);
        }
    }

    #[test]
    fn invariant_trailing_bits_are_zero() {
        for width in WIDTHS {
            let mut bitmap = Bitmap::new(width).unwrap();
            let mut batch = bitmap.begin();
            for i in 0..37 {
                batch.push(i % 2 == 0).unwrap();
                check_trailing_bits_zero(&batch, width);
            }
            push_all(&mut batch, [true; 40]);
            for _ in 0..15 {
                assert_eq!(batch.pop(), Ok(true));
                check_trailing_bits_zero(&batch, width);
            }
        }
    }

    #[test]
    fn get_set() {
        for width in WIDTHS {
            let mut bitmap = of_bits(width, [true, false, true]);
            commit(&mut bitmap, 2, |batch| {
                batch.set(1, true).unwrap();
                batch.set(2, false).unwrap();
            });
            assert!(bitmap.ones(..).eq([0, 1]));
        }
    }

    #[test]
    fn byte_operations() {
        for width in WIDTHS {
            let mut bitmap = Bitmap::new(width).unwrap();
            commit(&mut bitmap, 1, |batch| {
                batch.push_byte(0xff).unwrap();
                assert_eq!(batch.len(), 8);
                batch.push_byte(0x00).unwrap();
                assert_eq!(batch.len(), 16);
            });
            assert!(bitmap.ones(..).eq(0..8));
        }
    }

    #[test]
    fn extend_from_bytes_matches_push() {
        for width in WIDTHS {
            let bytes: Vec<u8> = (0..3 * width.bytes() + 2).map(|i| (i * 37 + 11) as u8).collect();
            let bits = || bytes.iter().flat_map(|byte| (0..8).map(move |k| byte >> k & 1 == 1));
            for prefix in [0, 1, 7, 8, 9, width.bits() - 1, width.bits(), width.bits() + 1] {
                let start = || (0..prefix).map(|i| i % 3 == 0 || i % 7 == 0);
                let mut actual = of_bits(width, start());
                commit(&mut actual, 2, |batch| batch.push_bytes(&bytes).unwrap());
                assert_same(&actual, &of_bits(width, start().chain(bits())));
            }
        }
    }

    #[test]
    fn count_operations() {
        for width in WIDTHS {
            let bitmap = of_bits(width, [true, false, true, true, false]);
            assert_eq!((bitmap.count_ones(..), count_zeros(&bitmap)), (3, 2));
            let bitmap = bitmap_of(width, &[0xff, 0x00, 0xaa]);
            assert_eq!((bitmap.count_ones(..), count_zeros(&bitmap)), (12, 12));
        }
    }

    #[test]
    fn different_chunk_sizes() {
        for (width, byte, ones) in [(Width::Bytes8, 0xff, 64), (Width::Bytes32, 0x55, 128)] {
            let mut bitmap = bitmap_of(width, &vec![byte; width.bytes()]);
            commit(&mut bitmap, 2, |batch| push_all(batch, [true, false]));
            assert_eq!(bitmap.len(), width.bits() + 2);
            assert_eq!(bitmap.count_ones(..), ones + 1);
            assert_eq!(count_zeros(&bitmap), width.bits() - ones + 1);
        }
    }

    #[test]
    fn ones_iter_range() {
        let bitmap = of_bits(Width::Bytes64, (0..1100).map(|bit| bit % 3 == 0));
        let bounds: Vec<u64> =
            (0..=1101).filter(|bit| [0, 1, 32, 63].contains(&(bit % 64))).collect();
        for start in &bounds {
            for end in &bounds {
                let expected = (start.next_multiple_of(3)..*end.min(&1100)).step_by(3);
                let mut ones = bitmap.ones(start..end);
                assert!(ones.by_ref().eq(expected), "{start}..{end}");
                assert_eq!(ones.next(), None);
            }
        }
    }

    #[test]
    fn ones_iter_of_small_bitmaps() {
        for width in WIDTHS {
            assert_eq!(Bitmap::new(width).unwrap().ones(..).next(), None);
            assert_eq!(of_bits(width, [false; 100]).ones(..).next(), None);
            assert!(of_bits(width, [true; 100]).ones(..).eq(0..100));
            assert!(of_bits(width, [true]).ones(..).eq([0]));
            assert_eq!(of_bits(width, [false]).ones(..).next(), None);
        }
    }

    #[test]
    fn ones_iter_at_single_bits() {
        let cases: [(u64, &[u64]); 4] = [
            (64, &[0, 31, 32, 63]),
            (96, &[7, 40, 95]),
            (35, &[31, 32, 34]),
            (600, &[0, 63, 64, 127, 128, 255, 256, 511, 512, 599]),
        ];
        for width in WIDTHS {
            for (len, ones) in cases {
                assert!(of_ones(width, len, ones).ones(..).eq(ones.iter().copied()));
            }
        }
    }

    #[test]
    fn ones_iter_from_midway() {
        for width in WIDTHS {
            let bitmap = of_ones(width, 64, &[5, 20, 40, 60]);
            assert!(bitmap.ones(20..).eq([20, 40, 60]));
            assert!(bitmap.ones(21..).eq([40, 60]));
            assert_eq!(bitmap.ones(61..).next(), None);
        }
    }

    #[test]
    fn ones_iter_matches_count_ones() {
        for width in WIDTHS {
            let bitmap = of_bits(width, (0..200).map(|i| i % 7 == 0));
            assert_eq!(bitmap.ones(..).count() as u64, bitmap.count_ones(..));
            assert_eq!(bitmap.count_ones(..), 29);
            assert!(of_bits(width, (0..100).map(|i| i % 5 == 0)).ones(..).eq((0..100).step_by(5)));
        }
    }

    #[test]
    fn ones_iter_from_mid_word() {
        let bitmap = of_bits(Width::Bytes32, [true; 300]);
        for position in [0, 1, 63, 64, 65, 191, 192, 255, 256, 299] {
            assert!(bitmap.ones(position..).eq(position..300));
        }
    }

    #[test]
    fn ones_iter_word_aligned_len() {
        assert!(of_bits(Width::Bytes8, [true; 64]).ones(..).eq(0..64));
        assert!(of_bits(Width::Bytes32, [true; 256]).ones(..).eq(0..256));
    }

    #[test]
    fn codec_edge_cases() {
        for width in WIDTHS {
            for (len, stride) in [(32, 2), (35, 3), (100, 7)] {
                let original = of_bits(width, (0..len).map(|i| i % stride == 0));
                assert_same(&decoded(&original), &original);
            }
        }
    }

    #[test]
    fn codec_empty_chunk_optimization() {
        let size = |len| of_bits(Width::Bytes8, vec![true; len]).to_bytes().unwrap().len();
        assert_eq!([size(0), size(64), size(70)], [16, 16 + 8, 16 + 16]);
    }

    #[test]
    fn codec_error_cases() {
        let long = Some(Error::InvalidLength { length: 100 });
        assert_eq!(decode_error(&encoding(0, 100, &[0; 16]), 0, 99), long);
        assert_eq!(decode_error(&encoding(0, 100, &[0; 8]), 0, u64::MAX), Some(Error::EndOfBuffer));
        let mut bytes = of_bits(Width::Bytes8, [true; 20]).to_bytes().unwrap();
        *bytes.last_mut().unwrap() |= 0xf0;
        assert_eq!(decode_error(&bytes, 0, u64::MAX), Some(Error::Invalid));
    }

    #[test]
    fn codec_lengths_without_payload() {
        for (len, chunks) in [(u64::MAX, 0), (65, 15), ((u64::from(u32::MAX) + 1) * 64, 0)] {
            let bytes = encoding(0, len, &vec![0; chunks]);
            assert_eq!(decode_error(&bytes, 0, u64::MAX), Some(Error::EndOfBuffer));
        }
        let long = Some(Error::InvalidLength { length: 100 });
        assert_eq!(decode_error(&encoding(0, 100, &[]), 0, 99), long);
    }

    #[test]
    fn codec_range_config() {
        let bytes = of_bits(Width::Bytes8, (0..100).map(|i| i % 3 == 0)).to_bytes().unwrap();
        let long = Some(Error::InvalidLength { length: 100 });
        for (least, most) in [(0, 50), (99, 99), (101, u64::MAX)] {
            assert_eq!(decode_error(&bytes, least, most), long);
        }
        for (least, most) in [(0, 100), (0, 101), (100, 100)] {
            assert_eq!(decode_error(&bytes, least, most), None);
        }
        let empty = encoding(0, 0, &[]);
        assert_eq!([decode_error(&empty, 0, 0), decode_error(&empty, 0, 1)], [None, None]);
    }
}
