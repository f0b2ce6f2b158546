//! Edits of many bits, compared with the same edits bit by bit.

mod common;

use std::ops::Bound;

use common::{WIDTHS, bitmap_of, commit};
use mortarpink_proved::{Batch, Bitmap, Error, Width};

/// Returns a bitmap with a pruned chunk, two whole chunks, and one with five bits.
fn with_pruned_chunk(width: Width) -> Bitmap {
    let mut bitmap = bitmap_of(width, &vec![0b0110_1001; 3 * width.bytes()]);
    commit(&mut bitmap, 2, |batch| {
        batch.push_bits(&[true, false, false, true, true]).unwrap();
        batch.prune(width.bits()).unwrap();
    });
    bitmap
}

/// Asserts that two edits make the same version of equal bitmaps, and keep the same older ones.
fn assert_same(width: Width, many: impl FnOnce(&mut Batch<'_>), each: impl FnOnce(&mut Batch<'_>)) {
    let (mut left, mut right) = (with_pruned_chunk(width), with_pruned_chunk(width));
    commit(&mut left, 3, many);
    commit(&mut right, 3, each);
    assert_eq!(left.save(), right.save());
}

/// Returns the bits of a batch from the first retained one on.
fn bits_of(batch: &Batch<'_>) -> Vec<bool> {
    let first = batch.pruned_chunks() * batch.width().bits();
    (first..batch.len()).map(|position| batch.get(position).unwrap()).collect()
}

/// Asserts that an edit fails, and changes nothing.
fn refuse(
    batch: &mut Batch<'_>,
    edit: impl FnOnce(&mut Batch<'_>) -> Result<(), Error>,
    error: Error,
) {
    let before = (bits_of(batch), batch.pruned_chunks());
    assert_eq!(edit(batch), Err(error));
    assert_eq!((bits_of(batch), batch.pruned_chunks()), before);
}

/// Returns some positions: the ends of chunks and of the retained bits, and their neighbours.
fn ends(width: Width) -> Vec<u64> {
    let bits = width.bits();
    let around = [bits, bits + 3, 2 * bits, 3 * bits, 3 * bits + 5];
    let mut ends: Vec<u64> = around.into_iter().flat_map(|end| [end, end + 1]).collect();
    ends.extend([2 * bits - 1, 3 * bits - 1, 3 * bits + 4]);
    ends
}

#[test]
fn push_bits_appends_each_bit() {
    for width in WIDTHS {
        for len in
            [0, 1, 2, 3, 4, 7, 8, 9, width.bits() + 2, width.bits() + 3, 3 * width.bits() + 1]
        {
            let bits: Vec<bool> = (0..len).map(|k| k % 3 == 0 || k % 7 == 2).collect();
            assert_same(
                width,
                |batch| batch.push_bits(&bits).unwrap(),
                |batch| bits.iter().for_each(|bit| batch.push(*bit).unwrap()),
            );
        }
    }
}

#[test]
fn set_many_sets_each_position_in_order() {
    for width in WIDTHS {
        let positions: Vec<u64> = (width.bits()..3 * width.bits() + 5)
            .rev()
            .step_by(3)
            .chain([width.bits(); 2])
            .collect();
        for bit in [false, true] {
            assert_same(
                width,
                |batch| batch.set_many(&positions, bit).unwrap(),
                |batch| positions.iter().for_each(|one| batch.set(*one, bit).unwrap()),
            );
        }
        assert_same(width, |batch| batch.set_many(&[], true).unwrap(), |_| ());
    }
}

#[test]
fn set_many_stops_at_the_first_error() {
    for width in WIDTHS {
        let bits = width.bits();
        let mut bitmap = with_pruned_chunk(width);
        let mut batch = bitmap.begin();
        for (wrong, error) in [
            (3 * bits + 5, Error::OutOfBounds),
            (u64::MAX, Error::OutOfBounds),
            (bits - 1, Error::Pruned),
            (0, Error::Pruned),
        ] {
            batch.set_many(&[bits, 2 * bits, 3 * bits], false).unwrap();
            let positions = [bits, 2 * bits, wrong, 3 * bits, 0, u64::MAX];
            let failed = batch.set_many(&positions, true).unwrap_err();
            assert_eq!((failed.replaced(), failed.error()), (2, error));
            let found = [bits, 2 * bits, 3 * bits].map(|position| batch.get(position));
            assert_eq!(found, [Ok(true), Ok(true), Ok(false)]);
            let failed = batch.set_many(&[wrong], true).unwrap_err();
            assert_eq!((failed.replaced(), failed.error()), (0, error));
            // A caller goes on after the position that failed.
            batch.set_many(&positions[3..4], true).unwrap();
            assert_eq!(batch.get(3 * bits), Ok(true));
        }
    }
}

#[test]
fn set_chunk_sets_the_bits_of_a_chunk() {
    for width in WIDTHS {
        let bytes: Vec<u8> = (0..width.bytes()).map(|k| (k * 37 + 0xb2) as u8).collect();
        for index in 1..=3 {
            assert_same(
                width,
                |batch| batch.set_chunk(index, &bytes).unwrap(),
                |batch| {
                    for bit in 0..width.bits() {
                        let (position, byte) =
                            (index * width.bits() + bit, bytes[bit as usize / 8]);
                        if position < batch.len() {
                            batch.set(position, byte >> (bit % 8) & 1 == 1).unwrap();
                        }
                    }
                },
            );
        }
    }
}

#[test]
fn set_chunk_fails_for_a_wrong_size_or_index() {
    for width in WIDTHS {
        let mut bitmap = with_pruned_chunk(width);
        let mut batch = bitmap.begin();
        let bytes = vec![0xff; width.bytes()];
        for index in [0, 1, 4, u64::MAX] {
            for size in [0, width.bytes() - 1, width.bytes() + 1] {
                let wrong = vec![0xff; size];
                refuse(&mut batch, |batch| batch.set_chunk(index, &wrong), Error::WrongSize);
            }
        }
        refuse(&mut batch, |batch| batch.set_chunk(0, &bytes), Error::Pruned);
        for index in [4, 5, 1 << 58, u64::MAX] {
            refuse(&mut batch, |batch| batch.set_chunk(index, &bytes), Error::OutOfBounds);
        }
        // Chunk 3 has no bits any more.
        batch.truncate(3 * width.bits()).unwrap();
        refuse(&mut batch, |batch| batch.set_chunk(3, &bytes), Error::OutOfBounds);
        batch.set_chunk(2, &bytes).unwrap();
    }
}

#[test]
fn set_range_sets_each_position() {
    for width in WIDTHS {
        let len = 3 * width.bits() + 5;
        for from in ends(width) {
            for to in ends(width).into_iter().filter(|to| *to <= len || *to <= from) {
                for bit in [false, true] {
                    assert_same(
                        width,
                        |batch| batch.set_range(from..to, bit).unwrap(),
                        |batch| (from..to).for_each(|one| batch.set(one, bit).unwrap()),
                    );
                }
            }
        }
    }
}

#[test]
fn ranges_may_have_each_form() {
    for width in WIDTHS {
        let (first, len) = (width.bits(), 3 * width.bits() + 5);
        let set = |from, to| {
            move |batch: &mut Batch<'_>| (from..to).for_each(|one| batch.set(one, true).unwrap())
        };
        assert_same(width, |batch| batch.set_range(.., true).unwrap(), set(first, len));
        assert_same(
            width,
            |batch| batch.set_range(first + 2.., true).unwrap(),
            set(first + 2, len),
        );
        assert_same(width, |batch| batch.set_range(..len - 2, true).unwrap(), set(first, len - 2));
        assert_same(width, |batch| batch.set_range(..=len - 2, true).unwrap(), set(first, len - 1));
        let after_first = (Bound::Excluded(first), Bound::Included(first + 2));
        assert_same(
            width,
            |batch| batch.set_range(after_first, true).unwrap(),
            set(first + 1, first + 3),
        );
        // Ranges without a position may be anywhere.
        for (from, to) in [(0, 0), (len + 9, len + 9), (u64::MAX, 0), (len, first), (7, 3)] {
            assert_same(width, |batch| batch.set_range(from..to, true).unwrap(), |_| ());
        }
        assert_same(width, |batch| batch.set_range(len + 9.., true).unwrap(), |_| ());
        let after_all = (Bound::Excluded(u64::MAX), Bound::Unbounded);
        assert_same(width, |batch| batch.set_range(after_all, true).unwrap(), |_| ());
    }
}

#[test]
fn set_range_fails_as_a_whole() {
    for width in WIDTHS {
        let (first, len) = (width.bits(), 3 * width.bits() + 5);
        let mut bitmap = with_pruned_chunk(width);
        let mut batch = bitmap.begin();
        for bit in [false, true] {
            for from in [0, first - 1, first, len - 1, len, u64::MAX - 1] {
                for to in [len + 1, u64::MAX].into_iter().filter(|to| *to > from) {
                    refuse(&mut batch, |batch| batch.set_range(from..to, bit), Error::OutOfBounds);
                }
                refuse(
                    &mut batch,
                    |batch| batch.set_range(from..=u64::MAX, bit),
                    Error::OutOfBounds,
                );
            }
            for from in [0, first - 1] {
                for to in [first, first + 1, len] {
                    refuse(&mut batch, |batch| batch.set_range(from..to, bit), Error::Pruned);
                }
                refuse(&mut batch, |batch| batch.set_range(from.., bit), Error::Pruned);
            }
        }
    }
}

#[test]
fn truncate_pops_the_bits_after_a_length() {
    for width in WIDTHS {
        let (first, len) = (width.bits(), 3 * width.bits() + 5);
        for shorter in ends(width).into_iter().filter(|end| *end <= len) {
            let pop = |batch: &mut Batch<'_>| {
                while batch.len() > shorter {
                    batch.pop().unwrap();
                }
            };
            assert_same(width, |batch| batch.truncate(shorter).unwrap(), pop);
        }
        let mut bitmap = with_pruned_chunk(width);
        let mut batch = bitmap.begin();
        for longer in [len + 1, u64::MAX] {
            refuse(&mut batch, |batch| batch.truncate(longer), Error::OutOfBounds);
        }
        for pruned in [0, first - 1] {
            refuse(&mut batch, |batch| batch.truncate(pruned), Error::Pruned);
        }
        batch.truncate(first).unwrap();
        assert_eq!((batch.len(), batch.pop()), (first, Err(Error::NoRetainedBit)));
    }
}

#[test]
fn extend_to_pushes_clear_bits() {
    for width in WIDTHS {
        let len = 3 * width.bits() + 5;
        for longer in [
            0,
            1,
            width.bits(),
            len - 1,
            len,
            len + 1,
            len + 3,
            4 * width.bits(),
            9 * width.bits() + 1,
        ] {
            let push = |batch: &mut Batch<'_>| {
                while batch.len() < longer {
                    batch.push(false).unwrap();
                }
            };
            assert_same(width, |batch| batch.extend_to(longer).unwrap(), push);
        }
    }
}

#[test]
fn edits_of_many_bits_follow_each_other() {
    for width in WIDTHS {
        let mut bitmap = with_pruned_chunk(width);
        let before = bitmap.to_bytes();
        let (first, len) = (width.bits(), 3 * width.bits() + 5);
        let mut batch = bitmap.begin();
        batch.set_range(.., true).unwrap();
        batch.truncate(first + 3).unwrap();
        batch.extend_to(len).unwrap();
        assert_eq!(
            bits_of(&batch),
            [[true; 3].to_vec(), vec![false; (len - first) as usize - 3]].concat()
        );
        batch.abort();
        assert_eq!(bitmap.to_bytes(), before);
    }
}
