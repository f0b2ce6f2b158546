//! Each condition of a public call: the call panics, with the message of the original crate if that has one, and changes nothing.
//!
//! `tools/check_native.py tests` finds that each assertion of the crate's functions fails here.

#[path = "../examples/sha256/mod.rs"]
mod sha256;

use mortarpink::bitmap::historical::{CleanBitMap, DirtyBitMap, Edit};
use mortarpink::bitmap::{BitMap, Prunable, Readable};
use mortarpink::log::frames::{Place, next_frame, push_frame};
use mortarpink::log::{Past, from_base};
use mortarpink::roots::{
    AuthenticatedBitMap, append_leaf, append_leaf_in_batch, bitmap_root, chunk_digests, node_count, node_position, prove,
    prove_from_bitmap, prove_from_stored, prove_range, prove_range_from_bitmap, prove_range_from_stored, replace_leaf,
    replace_leaf_in_batch, tree_from_bitmap, tree_from_stored, truncate_leaves, truncate_leaves_in_batch, try_append_leaf,
    try_chunk_digests, try_prove, try_prove_from_stored, try_prove_range, try_prove_range_from_stored, update_digests,
};
use sha256::Sha256;
use std::panic::{AssertUnwindSafe, catch_unwind};

/// The message with which a call panics.
#[track_caller]
fn panic_of<T>(call: impl FnOnce() -> T) -> String {
    let Err(payload) = catch_unwind(AssertUnwindSafe(call)) else {
        panic!("the call returned");
    };
    match payload.downcast_ref::<String>() {
        Some(message) => message.clone(),
        None => payload.downcast_ref::<&str>().unwrap().to_string(),
    }
}

/// A bitmap of one byte per chunk: two pruned chunks, and ten retained bits, every third of which is set.
fn pruned() -> Prunable<1> {
    let mut bitmap = Prunable::new();
    for bit in 0..26 {
        bitmap.push(bit % 3 == 0);
    }
    bitmap.prune_to_bit(17);
    bitmap
}

/// A bitmap that is as long as a bitmap can be, less seven bits.
fn longest() -> Prunable<1> {
    let mut bitmap = Prunable::new_with_pruned_chunks(usize::MAX / 8).unwrap();
    bitmap.push(true);
    bitmap
}

fn batch() -> DirtyBitMap<1> {
    CleanBitMap::from_bitmap(pruned()).into_dirty()
}

#[test]
fn of_dense_bitmaps() {
    let mut bitmap = BitMap::<1>::from([true, false, true]);
    let same = bitmap.clone();
    assert_eq!(panic_of(|| bitmap.get(3)), "bit 3 out of bounds (len: 3)");
    assert_eq!(panic_of(|| bitmap[3]), "bit 3 out of bounds (len: 3)");
    assert_eq!(panic_of(|| bitmap.set(3, true)), "bit 3 out of bounds (len: 3)");
    assert_eq!(panic_of(|| bitmap.flip(u64::MAX)), "bit 18446744073709551615 out of bounds (len: 3)");
    assert_eq!(panic_of(|| bitmap.set_range(1..4, true)), "range end 4 out of bounds (len: 3)");
    assert_eq!(panic_of(|| bitmap.is_unset(0..4)), "range end 4 out of bounds (len: 3)");
    assert_eq!(panic_of(|| bitmap.truncate(4)), "cannot truncate to a larger size");
    assert_eq!(panic_of(|| bitmap.push_chunk(&[1])), "cannot add chunk when not chunk aligned");
    assert_eq!(panic_of(|| BitMap::<1>::new().pop()), "Cannot pop from empty bitmap");
    assert_eq!(bitmap, same);
}

#[test]
fn of_two_dense_bitmaps() {
    let (mut left, right) = (BitMap::<1>::ones(3), BitMap::<1>::ones(4));
    let expected = "BitMap lengths don't match: 3 vs 4";
    assert_eq!(panic_of(|| left.and(&right)), expected);
    assert_eq!(panic_of(|| left.or(&right)), expected);
    assert_eq!(panic_of(|| left.xor(&right)), expected);
    assert_eq!(panic_of(|| left.and_not(&right)), expected);
    assert_eq!(panic_of(|| left.is_subset(&right)), expected);
    assert_eq!(panic_of(|| left.is_disjoint(&right)), expected);
    assert_eq!(panic_of(|| &left & &right), expected);
    assert_eq!(panic_of(|| &left | &right), expected);
    assert_eq!(panic_of(|| &left ^ &right), expected);
    assert_eq!(panic_of(|| &left - &right), expected);
    assert_eq!(left, BitMap::ones(3));
}

#[test]
fn of_reads_of_pruned_bitmaps() {
    let (bitmap, none) = (pruned(), Prunable::<1>::new_with_pruned_chunks(2).unwrap());
    assert_eq!(panic_of(|| bitmap.get_bit(15)), "bit pruned: 15");
    assert_eq!(panic_of(|| bitmap.get_bit(26)), "bit 26 out of bounds (len: 26)");
    assert_eq!(panic_of(|| bitmap.get_chunk_containing(15)), "bit pruned: 15");
    assert_eq!(panic_of(|| bitmap.get_chunk_containing(26)), "bit 26 out of bounds (len: 26)");
    assert_eq!(panic_of(|| *bitmap.get_chunk(1)), "chunk 1 is pruned (pruned_chunks: 2)");
    assert_eq!(panic_of(|| *bitmap.get_chunk(4)), "chunk 4 out of bounds (chunks: 4)");
    assert_eq!(panic_of(|| bitmap.is_unset(15..26)), "range start 15 is pruned");
    assert_eq!(panic_of(|| bitmap.is_unset(16..27)), "range end 27 out of bounds (len: 26)");
    assert_eq!(panic_of(|| none.last_chunk()), "no bit is retained");
}

#[test]
fn of_edits_of_pruned_bitmaps() {
    let mut bitmap = pruned();
    assert_eq!(panic_of(|| bitmap.set_bit(15, true)), "bit pruned: 15");
    assert_eq!(panic_of(|| bitmap.set_bit(26, true)), "bit 26 out of bounds (len: 26)");
    assert_eq!(panic_of(|| bitmap.set_range(15..26, true)), "range start 15 is pruned");
    assert_eq!(panic_of(|| bitmap.set_range(16..27, true)), "range end 27 out of bounds (len: 26)");
    assert_eq!(panic_of(|| bitmap.truncate(15)), "cannot truncate into pruned region");
    assert_eq!(panic_of(|| bitmap.truncate(27)), "cannot truncate to a larger size");
    assert_eq!(panic_of(|| bitmap.prune_to_bit(27)), "bit 27 out of bounds (len: 26)");
    assert_eq!(panic_of(|| bitmap.push_byte(0)), "cannot add byte when not byte aligned");
    assert_eq!(panic_of(|| bitmap.push_chunk(&[0])), "cannot add chunk when not chunk aligned");
    assert_eq!(panic_of(|| bitmap.pop_chunk()), "cannot pop chunk when not chunk aligned");
    assert_eq!(panic_of(|| bitmap.unprune(&[[0]; 3])), "cannot unprune 3 chunks (only 2 pruned)");
    assert_eq!(panic_of(|| bitmap.set_chunk_by_index(1, &[0])), "cannot set pruned chunk 1 (pruned_chunks: 2)");
    assert_eq!(panic_of(|| bitmap.set_chunk_by_index(4, &[0])), "chunk index 4 out of bounds (chunks_len: 4)");
    assert_eq!(panic_of(|| bitmap.set_chunk_by_index(3, &[4])), "non-zero bits beyond bitmap length");
    assert_eq!(bitmap.encode(), pruned().encode());
    bitmap.truncate(16);
    assert_eq!(panic_of(|| bitmap.pop()), "Cannot pop from empty bitmap");
    assert_eq!(panic_of(|| bitmap.pop_chunk()), "cannot pop chunk: bitmap has fewer than CHUNK_SIZE_BITS bits");
}

#[test]
fn of_lengths_near_the_end() {
    let mut bitmap = longest();
    let others = [BitMap::<2>::zeroes(7), BitMap::<2>::zeroes(6)];
    assert_eq!(panic_of(|| bitmap.extend_from_bitmap(&others[0])), "length overflows u64");
    bitmap.extend_from_bitmap(&others[1]);
    assert_eq!(bitmap.len(), u64::MAX);
    assert_eq!(panic_of(|| bitmap.push(true)), "length overflows u64");
    let mut batch = CleanBitMap::from_bitmap(bitmap).into_dirty();
    assert_eq!(panic_of(|| batch.push(true).len()), "length overflows u64");
    assert_eq!(panic_of(|| batch.push_byte(0).len()), "length overflows u64");
    assert_eq!(panic_of(|| batch.push_chunk(&[0]).len()), "length overflows u64");
    assert_eq!(panic_of(|| batch.extend_from_bitmap(&BitMap::ones(1)).len()), "length overflows u64");
    assert_eq!(panic_of(|| batch.try_push(true).is_ok()), "length overflows u64");
    assert_eq!(panic_of(|| batch.try_push_byte(0).is_ok()), "length overflows u64");
    assert_eq!(panic_of(|| batch.try_push_chunk(&[0]).is_ok()), "length overflows u64");
    assert_eq!(panic_of(|| batch.try_extend_from_bitmap(&BitMap::ones(1)).is_ok()), "length overflows u64");
    assert_eq!(panic_of(|| batch.try_extend_to(0).unwrap().try_push(true).is_ok()), "length overflows u64");
    assert_eq!(panic_of(|| batch.try_extend_to(0).unwrap().try_push_byte(0).is_ok()), "length overflows u64");
    assert_eq!(panic_of(|| batch.try_extend_to(0).unwrap().try_push_chunk(&[0]).is_ok()), "length overflows u64");
    assert_eq!(panic_of(|| batch.try_extend_to(0).unwrap().try_extend_from_bitmap(&BitMap::ones(1)).is_ok()), "length overflows u64");
    assert_eq!(batch.extend_from_bitmap(&BitMap::new()).len(), u64::MAX);
    let mut empty = Prunable::<1>::new_with_pruned_chunks(usize::MAX / 8).unwrap();
    assert_eq!(panic_of(|| empty.push_byte(0)), "length overflows u64");
    assert_eq!(panic_of(|| empty.push_chunk(&[0])), "length overflows u64");
}

#[test]
fn of_historical_bitmaps() {
    let bitmap = CleanBitMap::from_bitmap(pruned()).apply_batch(1, |_| ()).unwrap();
    assert_eq!(panic_of(|| bitmap.get_bit(15)), "bit pruned: 15");
    assert_eq!(panic_of(|| bitmap.get_bit(26)), "bit 26 out of bounds (len: 26)");
    assert_eq!(panic_of(|| *bitmap.get_chunk_containing(15)), "bit pruned: 15");
    assert_eq!(panic_of(|| *bitmap.get_chunk_containing(26)), "bit 26 out of bounds (len: 26)");
    let past = bitmap.at(1).unwrap();
    assert_eq!(panic_of(|| past.get_chunk(1)), "chunk 1 is pruned (pruned_chunks: 2)");
    assert_eq!(panic_of(|| past.get_bit(15)), "bit pruned: 15");
    assert_eq!(panic_of(|| past.get_bit(26)), "bit 26 out of bounds (len: 26)");
    assert_eq!(panic_of(|| past.get_chunk(4)), "chunk 4 out of bounds (chunks: 4)");
    assert_eq!(panic_of(|| past.retained_bytes(usize::MAX)), "chunk 18446744073709551615 starts past u64::MAX");
    let gathered = bitmap.gathered(1).unwrap();
    assert_eq!(panic_of(|| gathered.get_chunk(1)), "chunk 1 is pruned (pruned_chunks: 2)");
    assert_eq!(panic_of(|| gathered.get_chunk(4)), "chunk 4 out of bounds (chunks: 4)");
    assert_eq!(panic_of(|| gathered.chunks_around(1).1), "chunk 1 is pruned (pruned_chunks: 2)");
    assert_eq!(panic_of(|| gathered.chunks_around(4).1), "chunk 4 out of bounds (chunks: 4)");
    let either = bitmap.at_for(1, 0).unwrap();
    assert_eq!(panic_of(|| either.get_chunk(1)), "chunk 1 is pruned (pruned_chunks: 2)");
    assert_eq!(panic_of(|| either.get_chunk(4)), "chunk 4 out of bounds (chunks: 4)");
    assert_eq!(panic_of(|| either.chunks_around(1).1), "chunk 1 is pruned (pruned_chunks: 2)");
    assert_eq!(panic_of(|| either.chunks_around(4).1), "chunk 4 out of bounds (chunks: 4)");
    let later = Prunable::new_with_pruned_chunks(3).unwrap();
    assert_eq!(panic_of(|| bitmap.clone().commit_replaced(2, later).is_ok()), "3 pruned chunks are less than the length (26 bits)");
    assert!(bitmap.clone().commit_replaced(2, Prunable::new_with_pruned_chunks(4).unwrap()).is_ok());
    let empty = CleanBitMap::<1>::new().apply_batch(1, |_| ()).unwrap();
    assert_eq!(panic_of(|| empty.at(1).unwrap().last_chunk()), "no bit is retained");
    assert_eq!(panic_of(|| empty.gathered(1).unwrap().last_chunk()), "no bit is retained");
    assert_eq!(panic_of(|| empty.at_for(1, 0).unwrap().last_chunk()), "no bit is retained");
}

#[test]
fn of_batches() {
    let mut batch = batch();
    assert_eq!(panic_of(|| batch.get_bit(15)), "cannot get bit 15: chunk 1 is pruned (pruned up to chunk 2)");
    assert_eq!(panic_of(|| batch.get_bit(26)), "bit offset 26 out of bounds (len: 26)");
    assert_eq!(panic_of(|| batch.get_chunk(15)), "cannot get chunk at bit offset 15: chunk 1 is pruned (pruned up to chunk 2)");
    assert_eq!(panic_of(|| batch.get_chunk(26)), "bit offset 26 out of bounds (len: 26)");
    assert_eq!(panic_of(|| batch.set_bit(15, true).len()), "cannot set bit 15: chunk 1 is pruned (pruned up to chunk 2)");
    assert_eq!(panic_of(|| batch.set_bit(26, true).len()), "cannot set bit 26: out of bounds (len: 26)");
    assert_eq!(panic_of(|| batch.set_range(15..20, true).len()), "range start 15 is pruned");
    assert_eq!(panic_of(|| batch.set_range(16..27, true).len()), "range end 27 out of bounds (len: 26)");
    assert_eq!(panic_of(|| batch.set_chunk(1, &[0]).len()), "chunk 1 is pruned (pruned_chunks: 2)");
    assert_eq!(panic_of(|| batch.set_chunk(4, &[0]).len()), "chunk 4 out of bounds (chunks: 4)");
    assert_eq!(panic_of(|| batch.truncate(15)), "bit 15 is pruned");
    assert_eq!(panic_of(|| batch.truncate(27)), "bit 27 out of bounds (len: 26)");
    assert_eq!(panic_of(|| batch.prune_to_bit(27).len()), "cannot prune to bit 27: beyond projected length (26)");
    for _ in 0..10 {
        batch.pop();
    }
    assert_eq!(panic_of(|| batch.pop()), "cannot pop from empty bitmap");
    assert_eq!(batch.len(), 16);
    assert_eq!(panic_of(|| Readable::last_chunk(&batch)), "no bit is retained");
}

/// The forms of edits that return an error if memory runs out: of a batch, and of an edit that goes before.
#[test]
fn of_chained_edits() {
    let mut batch = batch();
    assert_eq!(panic_of(|| batch.try_set_bit(15, true).is_ok()), "cannot set bit 15: chunk 1 is pruned (pruned up to chunk 2)");
    assert_eq!(panic_of(|| batch.try_set_bit(26, true).is_ok()), "cannot set bit 26: out of bounds (len: 26)");
    assert_eq!(panic_of(|| batch.try_set_range(15..20, true).is_ok()), "range start 15 is pruned");
    assert_eq!(panic_of(|| batch.try_set_range(16..27, true).is_ok()), "range end 27 out of bounds (len: 26)");
    assert_eq!(panic_of(|| batch.try_set_chunk(1, &[0]).is_ok()), "chunk 1 is pruned (pruned_chunks: 2)");
    assert_eq!(panic_of(|| batch.try_set_chunk(4, &[0]).is_ok()), "chunk 4 out of bounds (chunks: 4)");
    assert_eq!(panic_of(|| batch.try_prune_to_bit(27).is_ok()), "cannot prune to bit 27: beyond projected length (26)");
    let mut after_push = |edit: fn(Edit<'_, 1>) -> bool| {
        let pushed = batch.try_push(true).unwrap();
        let message = panic_of(|| edit(pushed));
        assert!(batch.pop());
        message
    };
    assert_eq!(after_push(|edit| edit.try_set_bit(15, true).is_ok()), "cannot set bit 15: chunk 1 is pruned (pruned up to chunk 2)");
    assert_eq!(after_push(|edit| edit.try_set_bit(27, true).is_ok()), "cannot set bit 27: out of bounds (len: 27)");
    assert_eq!(after_push(|edit| edit.try_set_range(15..20, true).is_ok()), "range start 15 is pruned");
    assert_eq!(after_push(|edit| edit.try_set_range(16..28, true).is_ok()), "range end 28 out of bounds (len: 27)");
    assert_eq!(after_push(|edit| edit.try_set_chunk(1, &[0]).is_ok()), "chunk 1 is pruned (pruned_chunks: 2)");
    assert_eq!(after_push(|edit| edit.try_set_chunk(4, &[0]).is_ok()), "chunk 4 out of bounds (chunks: 4)");
    assert_eq!(after_push(|edit| edit.try_prune_to_bit(28).is_ok()), "cannot prune to bit 28: beyond projected length (27)");
    assert!(batch.abort().current() == &pruned());
}

#[test]
fn of_the_trait() {
    let dense = BitMap::<1>::zeroes(3);
    assert_eq!(panic_of(|| Readable::get_bit(&dense, 3)), "bit 3 out of bounds (len: 3)");
    assert_eq!(panic_of(|| Readable::get_chunk(&dense, 1)), "chunk 1 out of bounds (chunks: 1)");
    assert_eq!(panic_of(|| dense.chunks_around(1).1), "chunk 1 out of bounds (chunks: 1)");
    assert_eq!(panic_of(|| Readable::last_chunk(&BitMap::<1>::new())), "no bit is retained");
    assert_eq!(panic_of(|| Readable::get_bit(&pruned(), 15)), "bit pruned: 15");
    assert_eq!(panic_of(|| Readable::get_chunk(&pruned(), 1)), "chunk 1 is pruned (pruned_chunks: 2)");
    assert_eq!(panic_of(|| Readable::get_chunk(&pruned(), 4)), "chunk 4 out of bounds (chunks: 4)");
    assert_eq!(panic_of(|| pruned().chunks_around(1).1), "chunk 1 is pruned (pruned_chunks: 2)");
    assert_eq!(panic_of(|| pruned().chunks_around(4).1), "chunk 4 out of bounds (chunks: 4)");
    assert_eq!(panic_of(|| Readable::last_chunk(&Prunable::<1>::new_with_pruned_chunks(2).unwrap())), "no bit is retained");
    assert_eq!(panic_of(|| Readable::get_chunk(&batch(), 1)), "chunk 1 is pruned (pruned_chunks: 2)");
    assert_eq!(panic_of(|| Readable::get_chunk(&batch(), 4)), "chunk 4 out of bounds (chunks: 4)");
}

#[test]
fn of_logs() {
    let (mut log, place) = (Vec::new(), Place { at: u64::MAX - 3, digest: 0 });
    assert_eq!(panic_of(|| push_frame(&mut log, place, &[])), "body is empty");
    assert_eq!(panic_of(|| next_frame(place, &[0; 4]).is_ok()), "the bytes end past position 2^64 - 1");
    assert!(next_frame(place, &[0; 3]).is_err());
    for past in [Past::Dropped(u64::MAX), Past::KeptUnder { number: u64::MAX, count: 0 }] {
        assert_eq!(panic_of(|| from_base(Prunable::<1>::new(), past)), "the number u64::MAX is reserved");
    }
}

#[test]
fn of_roots() {
    let digests = [[0; 32]; 3];
    assert_eq!(panic_of(|| prove(&Sha256, &digests, 3)), "index 3 out of bounds (len: 3)");
    assert_eq!(panic_of(|| try_prove(&Sha256, &[], 0)), "index 0 out of bounds (len: 0)");
    assert_eq!(panic_of(|| prove_range(&Sha256, &digests, 1, 0)), "a range has at least one chunk");
    assert_eq!(panic_of(|| prove_range(&Sha256, &digests, 1, 3)), "range of 3 from 1 out of bounds (len: 3)");
    assert_eq!(panic_of(|| try_prove_range(&Sha256, &digests, 4, 1)), "range of 1 from 4 out of bounds (len: 3)");
    assert_eq!(
        panic_of(|| try_prove_range(&Sha256, &digests, usize::MAX, 2)),
        "range of 2 from 18446744073709551615 out of bounds (len: 3)"
    );
    let pruned = pruned();
    assert_eq!(panic_of(|| chunk_digests(&Sha256, &pruned, &digests)), "there are 3 digests of pruned chunks (pruned_chunks: 2)");
    assert_eq!(panic_of(|| try_chunk_digests(&Sha256, &pruned, &[])), "there are 0 digests of pruned chunks (pruned_chunks: 2)");
    assert_eq!(panic_of(|| bitmap_root(&Sha256, &pruned, &digests)), "there are 3 digests (chunks: 4)");
}

#[test]
fn of_stored_digests() {
    let stored = [[0; 32]; 3];
    assert_eq!(panic_of(|| node_count(1 << 63)), "n 9223372036854775808 is not below 2^63");
    assert_eq!(panic_of(|| node_position(62, 0)), "level 62 is not below 62");
    assert_eq!(panic_of(|| node_position(u32::MAX, u64::MAX)), "level 4294967295 is not below 62");
    assert_eq!(panic_of(|| node_position(61, 1)), "subtree 1 of level 61 does not end below 2^62");
    assert_eq!(panic_of(|| node_position(0, (1 << 62) - 1)), "subtree 4611686018427387903 of level 0 does not end below 2^62");
    assert_eq!(panic_of(|| node_position(1, u64::MAX)), "subtree 18446744073709551615 of level 1 does not end below 2^62");
    assert_eq!(panic_of(|| tree_from_stored(&Sha256, &stored, (1 << 61) + 1)), "n 2305843009213693953 is above 2^61");
    assert_eq!(panic_of(|| tree_from_stored(&Sha256, &stored, 1 << 61)), "3 digests are stored for 2305843009213693952 leaves");
    assert_eq!(panic_of(|| tree_from_stored(&Sha256, &stored, 3)), "3 digests are stored for 3 leaves");
    assert_eq!(panic_of(|| prove_from_stored(&Sha256, &stored, 2, 2)), "index 2 out of bounds (len: 2)");
    assert_eq!(panic_of(|| prove_from_stored(&Sha256, &stored, 1, 0)), "3 digests are stored for 1 leaves");
    assert_eq!(panic_of(|| try_prove_from_stored(&Sha256, &stored, u64::MAX, 0)), "n 18446744073709551615 is above 2^61");
    assert_eq!(panic_of(|| append_leaf(&Sha256, &mut stored.to_vec(), 1 << 61, &[0; 32])), "n 2305843009213693952 is not below 2^61");
    assert_eq!(panic_of(|| append_leaf(&Sha256, &mut stored.to_vec(), 3, &[0; 32])), "3 digests are stored for 3 leaves");
    assert_eq!(panic_of(|| try_append_leaf(&Sha256, &mut stored.to_vec(), 1, &[0; 32])), "3 digests are stored for 1 leaves");
    assert_eq!(panic_of(|| replace_leaf(&Sha256, &mut stored.clone(), (1 << 61) + 1, 0, &[0; 32])), "n 2305843009213693953 is above 2^61");
    assert_eq!(panic_of(|| replace_leaf(&Sha256, &mut stored.clone(), 2, 2, &[0; 32])), "index 2 out of bounds (len: 2)");
    assert_eq!(panic_of(|| replace_leaf(&Sha256, &mut stored.clone(), 3, 0, &[0; 32])), "3 digests are stored for 3 leaves");
    assert_eq!(panic_of(|| truncate_leaves(&mut stored.to_vec(), 1 << 63)), "kept 9223372036854775808 is not below 2^63");
    assert_eq!(panic_of(|| prove_range_from_stored(&Sha256, &stored, 2, 1, 0)), "a range has at least one chunk");
    assert_eq!(panic_of(|| prove_range_from_stored(&Sha256, &stored, 2, 1, 2)), "range of 2 from 1 out of bounds (len: 2)");
    assert_eq!(
        panic_of(|| prove_range_from_stored(&Sha256, &stored, 2, 3, u64::MAX)),
        "range of 18446744073709551615 from 3 out of bounds (len: 2)"
    );
    assert_eq!(panic_of(|| prove_range_from_stored(&Sha256, &stored, 1, 0, 1)), "3 digests are stored for 1 leaves");
    assert_eq!(panic_of(|| try_prove_range_from_stored(&Sha256, &stored, u64::MAX, 0, 1)), "n 18446744073709551615 is above 2^61");
}

/// One digest as the chunk of a bitmap, and then that chunk pruned.
#[test]
fn of_stored_digests_in_bitmaps() {
    let mut chunks = Prunable::<32>::new();
    chunks.push_chunk(&[0; 32]);
    assert_eq!(panic_of(|| tree_from_bitmap(&Sha256, &chunks, (1 << 61) + 1)), "n 2305843009213693953 is above 2^61");
    assert_eq!(panic_of(|| tree_from_bitmap(&Sha256, &chunks, 2)), "256 bits of digests are stored for 2 leaves");
    assert_eq!(panic_of(|| prove_from_bitmap(&Sha256, &chunks, (1 << 61) + 1, 0)), "n 2305843009213693953 is above 2^61");
    assert_eq!(panic_of(|| prove_from_bitmap(&Sha256, &chunks, 1, 1)), "index 1 out of bounds (len: 1)");
    assert_eq!(panic_of(|| prove_from_bitmap(&Sha256, &chunks, 2, 0)), "256 bits of digests are stored for 2 leaves");
    assert_eq!(panic_of(|| prove_range_from_bitmap(&Sha256, &chunks, (1 << 61) + 1, 0, 1)), "n 2305843009213693953 is above 2^61");
    assert_eq!(panic_of(|| prove_range_from_bitmap(&Sha256, &chunks, 1, 0, 0)), "a range has at least one chunk");
    assert_eq!(panic_of(|| prove_range_from_bitmap(&Sha256, &chunks, 1, 0, 2)), "range of 2 from 0 out of bounds (len: 1)");
    assert_eq!(panic_of(|| prove_range_from_bitmap(&Sha256, &chunks, 2, 0, 1)), "256 bits of digests are stored for 2 leaves");
    chunks.prune_to_bit(256);
    assert_eq!(panic_of(|| tree_from_bitmap(&Sha256, &chunks, 1)), "stored has pruned chunks");
    assert_eq!(panic_of(|| prove_from_bitmap(&Sha256, &chunks, 1, 0)), "stored has pruned chunks");
    assert_eq!(panic_of(|| prove_range_from_bitmap(&Sha256, &chunks, 1, 0, 1)), "stored has pruned chunks");
}

/// The same in a batch.
#[test]
fn of_stored_digests_in_batches() {
    let prepared = CleanBitMap::<1>::new().into_dirty().prepare(1).unwrap();
    let mut batch = CleanBitMap::<32>::new().into_dirty();
    batch.push_chunk(&[0; 32]);
    let counts = "256 bits of digests are stored for 2 leaves";
    assert_eq!(panic_of(|| append_leaf_in_batch(&Sha256, &mut batch, 2, &[0; 32])), counts);
    assert_eq!(panic_of(|| replace_leaf_in_batch(&Sha256, &mut batch, 1, 1, &[0; 32])), "index 1 out of bounds (len: 1)");
    assert_eq!(panic_of(|| replace_leaf_in_batch(&Sha256, &mut batch, 2, 0, &[0; 32])), counts);
    assert_eq!(panic_of(|| truncate_leaves_in_batch(&mut batch, 2, 1)), counts);
    assert_eq!(panic_of(|| update_digests(&Sha256, &prepared, &mut batch, 2).is_ok()), counts);
    batch.prune_to_bit(256);
    assert_eq!(panic_of(|| append_leaf_in_batch(&Sha256, &mut batch, 1, &[0; 32])), "stored has pruned chunks");
    assert_eq!(panic_of(|| replace_leaf_in_batch(&Sha256, &mut batch, 1, 0, &[0; 32])), "stored has pruned chunks");
    assert_eq!(panic_of(|| truncate_leaves_in_batch(&mut batch, 1, 0)), "stored has pruned chunks");
    assert_eq!(panic_of(|| update_digests(&Sha256, &prepared, &mut batch, 1).is_ok()), "stored has pruned chunks");
    assert_eq!(batch.len(), 256);
}

/// Bitmaps with a root for each version, and their batches, whose edits have the conditions of `DirtyBitMap`.
#[test]
fn of_bitmaps_with_roots() {
    let mut batch = AuthenticatedBitMap::<1, _>::new(Sha256).into_dirty();
    batch.extend_to(26).set_bit(20, true).prune_to_bit(17);
    let map = batch.commit(1).unwrap();
    let root = map.root();
    assert_eq!(panic_of(|| map.prove(4)), "chunk 4 out of bounds (chunks: 4)");
    assert_eq!(panic_of(|| map.try_prove(usize::MAX)), "chunk 18446744073709551615 out of bounds (chunks: 4)");
    assert_eq!(panic_of(|| map.prove_range(1, 0)), "a range has at least one chunk");
    assert_eq!(panic_of(|| map.prove_range(1, 4)), "range of 4 from 1 out of bounds (chunks: 4)");
    assert_eq!(panic_of(|| map.prove_range(5, 1)), "range of 1 from 5 out of bounds (chunks: 4)");
    assert_eq!(panic_of(|| map.try_prove_range(usize::MAX, 2)), "range of 2 from 18446744073709551615 out of bounds (chunks: 4)");
    let mut batch = map.into_dirty();
    assert_eq!(panic_of(|| batch.bits().get_bit(15)), "cannot get bit 15: chunk 1 is pruned (pruned up to chunk 2)");
    assert_eq!(panic_of(|| _ = batch.set_bit(15, true)), "cannot set bit 15: chunk 1 is pruned (pruned up to chunk 2)");
    assert_eq!(panic_of(|| batch.try_set_bit(26, true).is_ok()), "cannot set bit 26: out of bounds (len: 26)");
    assert_eq!(panic_of(|| _ = batch.set_range(15..20, true)), "range start 15 is pruned");
    assert_eq!(panic_of(|| batch.try_set_range(16..27, true).is_ok()), "range end 27 out of bounds (len: 26)");
    assert_eq!(panic_of(|| _ = batch.set_chunk(1, &[0])), "chunk 1 is pruned (pruned_chunks: 2)");
    assert_eq!(panic_of(|| batch.try_set_chunk(4, &[0]).is_ok()), "chunk 4 out of bounds (chunks: 4)");
    assert_eq!(panic_of(|| batch.truncate(15)), "bit 15 is pruned");
    assert_eq!(panic_of(|| batch.truncate(27)), "bit 27 out of bounds (len: 26)");
    assert_eq!(panic_of(|| _ = batch.prune_to_bit(27)), "cannot prune to bit 27: beyond projected length (26)");
    assert_eq!(panic_of(|| batch.try_prune_to_bit(27).is_ok()), "cannot prune to bit 27: beyond projected length (26)");
    assert_eq!(batch.bits().changed_chunks().count(), 0);
    assert_eq!(batch.commit(2).unwrap().root(), root);
}
