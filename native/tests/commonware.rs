//! Code for `commonware_utils::bitmap` that calls each public function of its bitmaps. Only the line of the `use` below is changed for this
//! crate. `tools/check_native.py original` runs this file with both crates.

use mortarpink::bitmap::{BitMap, DEFAULT_CHUNK_SIZE, Iterator as Bits, OnesIter, Prunable, Readable, historical};
use std::collections::HashSet;

/// The bits of a bitmap as a string of digits, from position 0 on.
fn digits<const N: usize>(bitmap: &BitMap<N>) -> String {
    bitmap.iter().map(|bit| if bit { '1' } else { '0' }).collect()
}

/// A bitmap of the digits of a string.
fn bits<const N: usize>(digits: &str) -> BitMap<N> {
    let bools: Vec<bool> = digits.chars().map(|digit| digit == '1').collect();
    BitMap::from(bools)
}

#[test]
fn constants_and_constructors_of_dense_bitmaps() {
    let bitmap: BitMap = BitMap::new();
    assert_eq!((bitmap.len(), bitmap.is_empty(), bitmap.is_chunk_aligned()), (0, true, true));
    assert_eq!((BitMap::<DEFAULT_CHUNK_SIZE>::CHUNK_SIZE_BITS, BitMap::<2>::EMPTY_CHUNK, BitMap::<2>::FULL_CHUNK), (64, [0; 2], [255; 2]));
    assert_eq!((BitMap::<4>::default().len(), BitMap::<4>::with_capacity(100).len()), (0, 0));
    assert_eq!((BitMap::<4>::zeroes(33).count_zeros(), BitMap::<4>::ones(33).count_ones()), (33, 33));
    assert_eq!(digits(&BitMap::<4>::from([true, false])), "10");
    assert_eq!(digits(&BitMap::<4>::from(&[true, false][..])), "10");
    assert_eq!(BitMap::<4>::max_encode_size(33) % 4, BitMap::<4>::max_encode_size(65) % 4);
}

#[test]
fn edits_of_dense_bitmaps() {
    let mut bitmap = bits::<1>("0110");
    bitmap.push(true);
    bitmap.set(0, true);
    bitmap.flip(1);
    assert_eq!(digits(&bitmap), "10101");
    assert!(bitmap.pop());
    bitmap.extend_to(8);
    assert_eq!(digits(&bitmap), "10100000");
    bitmap.push_chunk(&[3]);
    bitmap.truncate(10);
    assert_eq!(digits(&bitmap), "1010000011");
    bitmap.flip_all();
    assert_eq!(digits(&bitmap), "0101111100");
    bitmap.extend_from_bitmap(&bits::<8>("11"));
    assert_eq!(digits(&bitmap), "010111110011");
    bitmap.set_all(true);
    assert_eq!(bitmap, BitMap::ones(12));
    let (one, other) = (bits::<1>("1100"), bits::<1>("1010"));
    for (edit, expected) in [(BitMap::and as fn(&mut BitMap<1>, &BitMap<1>), "1000"), (BitMap::or, "1110"), (BitMap::xor, "0110")] {
        let mut bitmap = one.clone();
        edit(&mut bitmap, &other);
        assert_eq!(digits(&bitmap), expected);
    }
}

#[test]
fn reads_of_dense_bitmaps() {
    let bitmap = bits::<1>("0110000001");
    assert_eq!((bitmap.len(), bitmap.is_chunk_aligned(), bitmap.get(1), bitmap[0]), (10, false, true, false));
    assert_eq!((bitmap.count_ones(), bitmap.count_zeros()), (3, 7));
    assert!(bitmap.is_unset(3..9) && !bitmap.is_unset(3..10));
    assert!(BitMap::<1>::get_bit_from_chunk(&[4], 2));
    let ones: OnesIter<'_, BitMap<1>, 1> = bitmap.ones_iter();
    assert_eq!(ones.collect::<Vec<u64>>(), [1, 2, 9]);
    let mut iterator: Bits<'_, 1> = bitmap.iter();
    iterator.next();
    assert_eq!((iterator.len(), iterator.size_hint()), (9, (9, Some(9))));
    assert_eq!(Vec::<bool>::from(bits::<1>("011")), [false, true, true]);
    assert_eq!(format!("{bitmap:?}"), "BitMap[0110000001]");
}

#[test]
fn operators_and_hashes_of_dense_bitmaps() {
    let (one, other) = (bits::<1>("1100"), bits::<1>("1010"));
    assert_eq!([digits(&(&one & &other)), digits(&(&one | &other)), digits(&(&one ^ &other))], ["1000", "1110", "0110"]);
    assert!(one != other && one == one.clone());
    assert_eq!(HashSet::from([one.clone(), other, one]).len(), 2);
}

/// A bitmap of two-byte chunks: one pruned chunk and ten retained bits.
fn pruned() -> Prunable<2> {
    let mut bitmap = Prunable::new();
    bitmap.extend_from_bitmap(&bits::<8>("11111111111111110000000001"));
    bitmap.prune_to_bit(17);
    bitmap
}

#[test]
fn edits_of_pruned_bitmaps() {
    let mut bitmap = Prunable::<2>::new_with_pruned_chunks(1).unwrap();
    assert!(Prunable::<2>::new_with_pruned_chunks(usize::MAX).is_err());
    assert!((Prunable::<2>::new().is_empty(), Prunable::<2>::default().len()) == (true, 0));
    bitmap.push(true);
    bitmap.extend_to(24);
    bitmap.push_byte(0b11);
    bitmap.push_chunk(&[7, 0]);
    assert_eq!((bitmap.len(), bitmap.pop_chunk()), (48, [7, 0]));
    bitmap.truncate(26);
    assert!(bitmap.pop());
    bitmap.set_bit(16, false);
    bitmap.set_chunk_by_index(1, &[9, 1]);
    assert_eq!(bitmap.ones_iter_from(0).collect::<Vec<u64>>(), [16, 19, 24]);
    assert_eq!(bitmap.clone().len(), 25);
}

#[test]
fn reads_of_pruned_bitmaps() {
    let bitmap = pruned();
    assert_eq!((bitmap.len(), bitmap.is_empty(), bitmap.is_chunk_aligned()), (26, false, false));
    assert_eq!((bitmap.chunks_len(), bitmap.pruned_chunks(), bitmap.complete_chunks(), bitmap.pruned_bits()), (2, 1, 1, 16));
    assert_eq!((bitmap.get_bit(25), *bitmap.get_chunk_containing(25), *bitmap.get_chunk(1)), (true, [0, 2], [0, 2]));
    assert_eq!(bitmap.last_chunk(), (&[0, 2], 10));
    assert!(Prunable::<2>::get_bit_from_chunk(&[0, 2], 25));
    assert_eq!((Prunable::<2>::chunk_byte_bitmask(25), Prunable::<2>::chunk_byte_offset(25), Prunable::<2>::to_chunk_index(25)), (2, 1, 1));
    assert_eq!(Prunable::<2>::CHUNK_SIZE_BITS, 16);
}

/// A bitmap of a user: every third bit of a hundred is set.
struct Thirds;

impl Readable<4> for Thirds {
    fn complete_chunks(&self) -> usize {
        3
    }

    fn get_chunk(&self, chunk: usize) -> [u8; 4] {
        let word = (0..32).map(|bit| 32 * chunk as u64 + bit).enumerate().filter(|(_, bit)| bit.is_multiple_of(3) && *bit < 100);
        word.fold(0u32, |word, (place, _)| word | 1 << place).to_le_bytes()
    }

    fn last_chunk(&self) -> ([u8; 4], u64) {
        (self.get_chunk(3), 4)
    }

    fn pruned_chunks(&self) -> usize {
        0
    }

    fn len(&self) -> u64 {
        100
    }
}

/// What the trait says of a bitmap.
#[derive(Debug, PartialEq)]
struct Reads<const N: usize> {
    chunks: (usize, usize, [u8; N], u64),
    bits: (u64, u64, bool),
    ones: [Vec<u64>; 2],
}

fn read<const N: usize>(bitmap: &impl Readable<N>) -> Reads<N> {
    let (last, size) = bitmap.last_chunk();
    let from = bitmap.len() - 10;
    Reads {
        chunks: (bitmap.pruned_chunks(), bitmap.complete_chunks(), last, size),
        bits: (bitmap.pruned_bits(), bitmap.len(), bitmap.is_empty()),
        ones: [bitmap.ones_iter_from(from).collect(), bitmap.ones_iter_range(from..from + 9).collect()],
    }
}

#[test]
fn the_trait_of_all_bitmaps() {
    let thirds = Reads { chunks: (0, 3, [9, 0, 0, 0], 4), bits: (0, 100, false), ones: [vec![90, 93, 96, 99], vec![90, 93, 96]] };
    assert_eq!(read(&Thirds), thirds);
    assert!(Thirds.get_bit(99) && !Thirds.get_bit(98));
    assert_eq!(read(&pruned()), Reads { chunks: (1, 1, [0, 2], 10), bits: (16, 26, false), ones: [vec![25], vec![]] });
    let dense = Reads { chunks: (0, 1, [2], 2), bits: (0, 10, false), ones: [vec![1, 2, 9], vec![1, 2]] };
    assert_eq!(read(&bits::<1>("0110000001")), dense);
    assert!(Readable::get_bit(&pruned(), 25));
    assert_eq!(Readable::get_chunk(&pruned(), 1), [0, 2]);
}

/// Two commits: the second one clears a bit, appends some and prunes a chunk.
fn versions() -> historical::CleanBitMap<1> {
    let first: historical::BitMap<1> = historical::BitMap::new();
    let first = first
        .apply_batch(1, |batch| {
            batch.push(true).push(false).push_byte(255);
        })
        .unwrap();
    let mut batch: historical::DirtyBitMap<1> = first.into_dirty();
    batch.set_bit(9, false).push_chunk(&[1]).prune_to_bit(8);
    batch.commit(3).unwrap()
}

#[test]
fn edits_of_batches() {
    let mut batch = versions().into_dirty();
    assert_eq!((batch.len(), batch.is_empty(), batch.pruned_chunks()), (18, false, 1));
    assert!(!batch.pop());
    assert_eq!((batch.get_bit(8), batch.get_chunk(8)), (true, [5]));
    batch.push(true);
    assert_eq!(batch.get_chunk(17), [2]);
    assert_eq!(batch.clone().abort().len(), 18);
    assert_eq!(batch.commit(4).unwrap().current().ones_iter_from(0).collect::<Vec<u64>>(), [8, 10, 17]);
}

#[test]
fn reads_of_historical_bitmaps() {
    let mut bitmap = versions();
    assert_eq!((bitmap.len(), bitmap.is_empty(), bitmap.pruned_chunks(), bitmap.get_bit(10)), (18, false, 1, true));
    assert_eq!(*bitmap.get_chunk_containing(8), [5]);
    assert_eq!(bitmap.commits().collect::<Vec<u64>>(), [1, 3]);
    assert_eq!((bitmap.earliest_commit(), bitmap.latest_commit(), bitmap.commit_exists(2)), (Some(1), Some(3), false));
    let past: Prunable<1> = bitmap.get_at_commit(1).unwrap();
    assert_eq!(past.ones_iter_from(0).collect::<Vec<u64>>(), [0, 2, 3, 4, 5, 6, 7, 8, 9]);
    assert!(bitmap.get_at_commit(2).is_none());
    assert_eq!(bitmap.clone().prune_commits_before(3), 1);
    bitmap.clear_history();
    assert_eq!((bitmap.latest_commit(), bitmap.current().len()), (None, 18));
    assert_eq!(historical::CleanBitMap::<1>::new_with_pruned_chunks(2).unwrap().len(), 16);
    assert!(historical::CleanBitMap::<1>::default().is_empty());
}

#[test]
fn errors_of_commits() {
    let error = versions().apply_batch(3, |_| ()).unwrap_err();
    assert_eq!(error, historical::Error::NonMonotonicCommit { previous: 3, attempted: 3 });
    assert_eq!(versions().into_dirty().commit(u64::MAX).unwrap_err(), historical::Error::ReservedCommitNumber);
    assert_eq!(historical::CleanBitMap::<4>::new_with_pruned_chunks(usize::MAX).unwrap_err(), historical::Error::PrunedChunksOverflow);
}

#[test]
fn states_of_historical_bitmaps() {
    fn copied<S: historical::State>(bitmap: &historical::BitMap<4, S>) -> historical::BitMap<4, S>
    where
        historical::BitMap<4, S>: Clone,
    {
        bitmap.clone()
    }

    let clean: historical::BitMap<4, historical::Clean> = historical::BitMap::new();
    assert!(copied(&clean).is_empty());
    let dirty: historical::BitMap<4, historical::Dirty<4>> = clean.into_dirty();
    assert!(copied(&dirty).is_empty());
}
