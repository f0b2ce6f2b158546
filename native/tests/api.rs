//! What Rust users expect of the types: traits, conversions and operators, and that code is generic over any bitmap.

#[path = "../examples/sha256/mod.rs"]
mod sha256;

use mortarpink::bitmap::codec::{CodecError, EncodeSize, RangeCfg};
use mortarpink::bitmap::historical::{
    ApplyError, AtCommit, ChangedChunks, CleanBitMap, Commits, DirtyBitMap, Edit, Error, Gathered, PendingChanges, PreparedBitMap,
    PreparedChanges, RewindError,
};
use mortarpink::bitmap::{BitMap, DEFAULT_CHUNK_SIZE, Iterator as Bits, OnesIter, Prunable, Readable, prunable};
use mortarpink::{AllocError, TryClone, log, roots};
use sha256::Sha256;
use std::collections::hash_map::DefaultHasher;
use std::fmt::Debug;
use std::hash::{Hash, Hasher};
use std::ops::Bound;
use std::panic::{RefUnwindSafe, UnwindSafe};

fn hash_of(value: &impl Hash) -> u64 {
    let mut hasher = DefaultHasher::new();
    value.hash(&mut hasher);
    hasher.finish()
}

/// Whether values of a type move between threads, are shared between them, and can be printed while a program is debugged.
fn is_usual<T: Send + Sync + Unpin + UnwindSafe + RefUnwindSafe + Debug>() {}

#[test]
fn all_types_have_the_usual_traits() {
    is_usual::<BitMap>();
    is_usual::<Prunable<8>>();
    is_usual::<Bits<'_, 8>>();
    is_usual::<OnesIter<'_, BitMap<8>, 8>>();
    is_usual::<OnesIter<'_, AtCommit<'_, 8>, 8>>();
    is_usual::<CleanBitMap<8>>();
    is_usual::<DirtyBitMap<8>>();
    is_usual::<AtCommit<'_, 8>>();
    is_usual::<Gathered<'_, 8>>();
    is_usual::<Commits<'_, 8>>();
    is_usual::<ChangedChunks<'_, 8>>();
    is_usual::<PendingChanges<'_, 8>>();
    is_usual::<PreparedBitMap<8>>();
    is_usual::<PreparedChanges<'_, 8>>();
    is_usual::<(RangeCfg, CodecError, prunable::Error, Error, RewindError, ApplyError<AllocError>)>();
    is_usual::<AllocError>();
    is_usual::<(log::Past, log::BaseError, log::DecodeError, log::EntryError, log::ApplyError)>();
    is_usual::<(log::Change<'_>, log::Entry<'_>, log::frames::Frame<'_>, log::frames::Place)>();
    is_usual::<(log::frames::Stop, log::frames::HeaderError)>();
    is_usual::<(log::Log<8>, log::Recovered<8>)>();
    is_usual::<(log::Damage, log::RecoverError, log::HistoryError, log::DeltaError)>();
    is_usual::<(roots::Proof<'_, 8>, roots::DecodeError)>();
    is_usual::<(roots::AuthenticatedBitMap<8, Sha256>, roots::DirtyAuthenticatedBitMap<8, Sha256>)>();
}

/// A proof has all its fields in its text, and differs from one with another field.
#[test]
fn proofs_are_compared_copied_and_printed() {
    let proof = roots::Proof { len: 3, pruned: 0, index: 0, chunk: &[5], path: &[] };
    let others = [
        roots::Proof { len: 4, ..proof },
        roots::Proof { pruned: 1, ..proof },
        roots::Proof { index: 1, ..proof },
        roots::Proof { chunk: &[7], ..proof },
        roots::Proof { path: &[[0; 32]], ..proof },
    ];
    assert!(others.iter().all(|other| *other != proof) && proof.try_clone() == Ok(proof));
    assert_eq!(format!("{proof:?}"), "Proof { len: 3, pruned: 0, index: 0, chunk: [5], path: [] }");
}

/// A guard of edits borrows its batch mutably, so it is not unwind safe.
#[test]
fn guards_are_shared_between_threads() {
    fn is_shared<T: Send + Sync + Debug>() {}

    is_shared::<Edit<'_, 8>>();
}

/// The width of a bitmap.
fn width_of<const N: usize>(_: &BitMap<N>) -> usize {
    N
}

#[test]
fn the_width_has_a_default() {
    let bitmap: BitMap = BitMap::default();
    assert_eq!((width_of(&bitmap), DEFAULT_CHUNK_SIZE), (8, 8));
    assert_eq!(BitMap::<8>::CHUNK_SIZE_BITS, 64);
    assert_eq!(bitmap.len(), 0);
    assert_eq!(BitMap::<4>::FULL_CHUNK, [255; 4]);
    assert_eq!(Prunable::<4>::CHUNK_SIZE_BITS, 32);
}

#[test]
fn bitmaps_are_collections_of_booleans() {
    let mut bitmap: BitMap<2> = [true, false].into_iter().collect();
    bitmap.extend([true, true]);
    assert_eq!(Vec::<bool>::from(bitmap.clone()), [true, false, true, true]);
    assert_eq!((&bitmap).into_iter().filter(|bit| *bit).count(), 3);
    assert_eq!(bitmap.iter().len(), 4);
    assert_eq!(BitMap::<2>::from(vec![true, false, true, true]), bitmap);
    assert_eq!(BitMap::<2>::from([true, false, true, true]), bitmap);
    assert_eq!((bitmap[0], bitmap[1]), (true, false));
    assert_eq!([true, false, true, true].iter().collect::<BitMap<2>>(), bitmap);
    bitmap.extend(&[false]);
    assert_eq!(bitmap, BitMap::from([true, false, true, true, false]));
    bitmap.pop();
    assert_eq!(format!("{bitmap:?}"), "BitMap[1011]");
}

#[test]
fn equal_bitmaps_have_equal_hashes() {
    let (left, mut right) = (BitMap::<3>::ones(50), BitMap::<3>::zeroes(50));
    assert_ne!(left, right);
    right.flip_all();
    assert_eq!((left.clone(), hash_of(&left)), (right.clone(), hash_of(&right)));
}

#[test]
fn operators_make_new_bitmaps() {
    let (left, right) = (BitMap::<1>::from([true, true, false, false]), BitMap::<1>::from([true, false, true, false]));
    assert_eq!(&left & &right, BitMap::from([true, false, false, false]));
    assert_eq!(&left | &right, BitMap::from([true, true, true, false]));
    assert_eq!(&left ^ &right, BitMap::from([false, true, true, false]));
    assert_eq!(&left - &right, BitMap::from([false, true, false, false]));
    assert_eq!(!&left, BitMap::from([false, false, true, true]));
    assert!((&left & &right).is_subset(&left) && (&left - &right).is_disjoint(&right));
}

#[test]
fn operators_change_bitmaps() {
    let (left, right) = (BitMap::<1>::from([true, true, false, false]), BitMap::<1>::from([true, false, true, false]));
    let changed = |change: fn(&mut BitMap<1>, &BitMap<1>)| {
        let mut bitmap = left.clone();
        change(&mut bitmap, &right);
        bitmap
    };
    assert_eq!(changed(|bitmap, other| *bitmap &= other), &left & &right);
    assert_eq!(changed(|bitmap, other| *bitmap |= other), &left | &right);
    assert_eq!(changed(|bitmap, other| *bitmap ^= other), &left ^ &right);
    assert_eq!(changed(|bitmap, other| *bitmap -= other), &left - &right);
}

#[test]
fn pruned_bitmaps_are_compared() {
    let of = |pruned, bits: &[bool]| {
        let mut bitmap = Prunable::<1>::new_with_pruned_chunks(pruned).unwrap();
        bitmap.extend_from_bitmap(&BitMap::<8>::from(bits));
        bitmap
    };
    let bitmap = of(1, &[true; 9]);
    assert_eq!(bitmap, of(1, &[true; 9]));
    assert_eq!(CleanBitMap::from(bitmap.clone()).current(), &bitmap);
    let last = [true, true, true, true, true, true, true, true, false];
    for other in [of(1, &[true; 8]), of(2, &[true]), of(0, &[true; 17]), of(1, &last)] {
        assert_ne!(bitmap, other);
    }
}

/// The positions of the set bits of any bitmap.
fn positions<const N: usize>(bitmap: &impl Readable<N>) -> Vec<u64> {
    bitmap.ones_iter_from(0).collect()
}

#[test]
fn code_is_generic_over_bitmaps() {
    let dense = BitMap::<4>::from([false, true, true]);
    let mut pruned = Prunable::<4>::default();
    pruned.extend_from_bitmap(&dense);
    let clean = CleanBitMap::from_bitmap(pruned.clone()).apply_batch(1, |_| ()).unwrap();
    assert_eq!(positions(&dense), [1, 2]);
    assert_eq!(positions(&pruned), [1, 2]);
    assert_eq!(positions(clean.current()), [1, 2]);
    assert_eq!(positions(&clean.at(1).unwrap()), [1, 2]);
    assert_eq!(positions(&clean.into_dirty()), [1, 2]);
}

#[test]
fn historical_bitmaps_are_copied_whole() {
    let bitmap = CleanBitMap::<4>::default().apply_batch(3, |batch| {
        batch.push(true).push_byte(0xf0).push_chunk(&[1; 4]);
    });
    let bitmap = bitmap.unwrap();
    let copy = bitmap.clone();
    let mut batch = bitmap.into_dirty();
    batch.set_bit(0, false).set_range(1..3, true).prune_to_bit(33);
    let pending = batch.clone();
    let bitmap = batch.commit(4).unwrap();
    assert_eq!(copy.commits().collect::<Vec<_>>(), [3]);
    assert_eq!(bitmap.commits().collect::<Vec<_>>(), [3, 4]);
    assert_eq!(pending.abort().current().encode(), copy.current().encode());
    assert_eq!(bitmap.get_at_commit(3).unwrap().encode(), copy.current().encode());
    assert_eq!((bitmap.pruned_chunks(), bitmap.len()), (1, 41));
}

#[test]
fn numbers_of_commits_rise() {
    let bitmap = CleanBitMap::<4>::new().apply_batch(5, |_| ()).unwrap();
    let error = bitmap.clone().apply_batch(5, |_| ()).unwrap_err();
    assert_eq!(error, Error::NonMonotonicCommit { previous: 5, attempted: 5 });
    assert_eq!(bitmap.clone().into_dirty().commit(u64::MAX).unwrap_err(), Error::ReservedCommitNumber);
    let (bitmap, error) = bitmap.rewind_to(4).unwrap_err();
    assert_eq!((bitmap.latest_commit(), error), (Some(5), RewindError::NoSuchCommit));
    assert_eq!(error.to_string(), "no commit is kept under that number");
}

/// Each commit changes the chunk that the one before it appended, and few commits are kept. So the index has few chunks at a time, and its
/// trie is made anew now and then.
#[test]
fn an_index_follows_chunks_that_move_on() {
    let byte_at = |bitmap: &CleanBitMap<1>, number: u64, chunk: u64| bitmap.at(number).unwrap().get_chunk(chunk as usize)[0];
    let bitmap = CleanBitMap::<1>::new().apply_batch(0, |batch| {
        batch.push_byte(0);
    });
    let mut bitmap = bitmap.unwrap().indexed().map_err(|(_, error)| error).unwrap();
    for number in 1..=1000 {
        bitmap = bitmap
            .apply_batch(number, |batch| {
                batch.set_chunk(number as usize - 1, &[1]).push_byte(0);
            })
            .unwrap();
        bitmap.prune_commits_before(number.saturating_sub(3));
        for kept in bitmap.commits() {
            let whole = bitmap.get_at_commit(kept).unwrap();
            assert!((kept.saturating_sub(20)..=kept).all(|chunk| byte_at(&bitmap, kept, chunk) == whole.get_chunk(chunk as usize)[0]));
            assert!(byte_at(&bitmap, kept, kept) == 0 && kept.checked_sub(1).is_none_or(|last| byte_at(&bitmap, kept, last) == 1));
        }
    }
    let bitmap = bitmap.rewind_to(998).map_err(|(_, error)| error).unwrap();
    assert_eq!((byte_at(&bitmap, 997, 996), byte_at(&bitmap, 997, 997), byte_at(&bitmap, 998, 997)), (1, 0, 1));
}

/// Numbers are listed from both ends, also after the list of commits has wrapped around in memory.
#[test]
fn numbers_of_commits_are_listed_from_both_ends() {
    let mut bitmap = CleanBitMap::<4>::new();
    for number in 1..=40 {
        bitmap = bitmap.apply_batch(number, |_| ()).unwrap();
        bitmap.prune_commits_before(number.saturating_sub(6));
    }
    assert!(bitmap.commits().rev().eq((34..=40).rev()));
    assert!(bitmap.commits_from(38).rev().eq([40, 39, 38]));
    assert_eq!(bitmap.commits().rfind(|number| number % 5 == 0), Some(40));

    let mut numbers = bitmap.commits();
    assert_eq!((numbers.next(), numbers.next_back(), numbers.next_back()), (Some(34), Some(40), Some(39)));
    assert!(numbers.by_ref().eq(35..=38));
    assert_eq!((numbers.next(), numbers.next_back(), numbers.next_back()), (None, None, None));
    assert_eq!(CleanBitMap::<4>::new().commits().next_back(), None);
}

#[test]
fn wrong_bytes_are_errors() {
    let bytes = Prunable::<2>::new_with_pruned_chunks(1).unwrap().encode();
    assert_eq!(EncodeSize::encode_size(&Prunable::<2>::new()), bytes.len());
    let mut short = &bytes[..15];
    assert!(matches!(Prunable::<2>::decode(&mut short, &RangeCfg::any()), Err(CodecError::EndOfBuffer)));
    assert_eq!(short.len(), 15);
    let error = BitMap::<2>::decode(&mut BitMap::<2>::ones(5).encode().as_slice(), &RangeCfg::exact(4)).unwrap_err();
    assert_eq!(error.to_string(), "the length 5 is out of range");
}

/// A list of errors as trait objects, as `?` makes them.
#[test]
fn errors_are_errors() -> Result<(), Box<dyn std::error::Error + Send + Sync>> {
    let bitmap = BitMap::<2>::decode(&mut BitMap::<2>::ones(5).encode().as_slice(), &RangeCfg::any())?;
    let pruned = Prunable::<8>::new_with_pruned_chunks(1)?;
    let clean = CleanBitMap::from_bitmap(pruned).apply_batch(1, |_| ())?;
    assert_eq!(std::io::Error::from(mortarpink::AllocError).kind(), std::io::ErrorKind::OutOfMemory);
    assert_eq!((bitmap.len(), clean.len()), (5, 64));
    Ok(())
}

/// Whether an error is copied, compared, and passed as a trait object between threads.
fn is_usual_error<T: std::error::Error + Copy + Eq + Send + Sync + 'static>() {}

#[test]
fn all_errors_have_the_usual_traits() {
    is_usual_error::<AllocError>();
    is_usual_error::<CodecError>();
    is_usual_error::<prunable::Error>();
    is_usual_error::<Error>();
    is_usual_error::<RewindError>();
    is_usual_error::<ApplyError<AllocError>>();
    is_usual_error::<log::DecodeError>();
    is_usual_error::<log::EntryError>();
    is_usual_error::<log::ApplyError>();
    is_usual_error::<log::BaseError>();
    is_usual_error::<log::DeltaError>();
    is_usual_error::<log::Damage>();
    is_usual_error::<log::RecoverError>();
    is_usual_error::<log::HistoryError>();
    is_usual_error::<log::frames::HeaderError>();
    is_usual_error::<log::frames::Stop>();
    is_usual_error::<roots::DecodeError>();
    assert_eq!(BitMap::<2>::decode(&mut &[0][..], &RangeCfg::any()), Err(CodecError::EndOfBuffer));
}

/// The texts of an error and of its sources, one after the other.
fn texts(error: &dyn std::error::Error) -> Vec<String> {
    std::iter::successors(Some(error), |error| error.source()).map(|error| error.to_string()).collect()
}

/// Each reason is in the text of an error or in its sources, and not in both.
#[test]
fn reasons_are_texts_or_sources() {
    let (width, entry) = (log::frames::HeaderError::Width(4), log::EntryError::Decode(log::DecodeError::Short));
    let (base, short) = (log::BaseError::State(CodecError::EndOfBuffer), log::DecodeError::Short.to_string());
    let damaged = |damage| log::RecoverError::Damaged { at: 32, damage };
    let cases: [(&dyn std::error::Error, &[&str]); 17] = [
        (&AllocError, &["memory allocation failed"]),
        (&Error::Memory(AllocError), &["out of memory", "memory allocation failed"]),
        (&Error::ReservedCommitNumber, &["the commit number u64::MAX is reserved"]),
        (&RewindError::Memory(AllocError), &["out of memory", "memory allocation failed"]),
        (&RewindError::NoSuchCommit, &["no commit is kept under that number"]),
        (&entry, &["the bytes encode no entry", &short]),
        (&log::EntryError::Chunks, &["the chunks of the commit are not those that differ"]),
        (&log::ApplyError::Entry(entry), &["the bitmap does not accept the entry", "the bytes encode no entry", &short]),
        (&log::DeltaError::Change(entry), &["the bitmap does not accept the change of the delta", "the bytes encode no entry", &short]),
        (&base, &["the state of the base: the bytes end too early"]),
        (&log::BaseError::Memory(AllocError), &["out of memory", "memory allocation failed"]),
        (&log::HistoryError::Base(base), &["the first frame has no base: the state of the base: the bytes end too early"]),
        (&log::HistoryError::Entry(entry), &["a frame has no commit that the bitmap accepts", "the bytes encode no entry", &short]),
        (
            &log::RecoverError::Header(width),
            &[
                "the bytes do not begin with the header of a log of this width",
                "the log has chunks of 4 bytes, which is not the width of the reader",
            ],
        ),
        (&damaged(log::Damage::Head), &["the log is damaged at byte 32: the head of the frame is damaged"]),
        (
            &damaged(log::Damage::Base(base)),
            &["the log is damaged at byte 32: the first frame has no base: the state of the base: the bytes end too early"],
        ),
        (&damaged(log::Damage::Entry(entry)), &["the log is damaged at byte 32: the bytes encode no entry", &short]),
    ];
    for (error, expected) in cases {
        assert_eq!(texts(error), expected, "{error:?}");
    }
}

/// Edits a bitmap by a closure that fails, and passes its error on.
fn edit_that_fails() -> Result<CleanBitMap<4>, Box<dyn std::error::Error>> {
    let edit = |_: &mut DirtyBitMap<4>| Err(Error::Memory(AllocError));
    Ok(CleanBitMap::<4>::new().try_apply_batch(1, edit).map_err(|(_, error)| error)?)
}

#[test]
fn errors_of_batches_are_errors() {
    let error = edit_that_fails().unwrap_err();
    assert_eq!(texts(&*error), ["the edits of the batch failed: out of memory", "memory allocation failed"]);
    assert_eq!(error.downcast_ref(), Some(&ApplyError::Batch(Error::Memory(AllocError))));
    let error: ApplyError<AllocError> = ApplyError::Commit(Error::Memory(AllocError));
    assert_eq!(texts(&error), ["the commit failed: out of memory", "memory allocation failed"]);
    let (_, error) = CleanBitMap::<4>::new().try_apply_batch(u64::MAX, |_| Ok::<(), &str>(())).unwrap_err();
    assert_eq!(error.to_string(), "the commit failed: the commit number u64::MAX is reserved");
}

#[test]
fn ranges_are_ranges_of_lengths() {
    let past = |least| (Bound::Excluded(least), Bound::Unbounded);
    assert_eq!(RangeCfg::from(..), RangeCfg::any());
    assert_eq!(RangeCfg::from(3..), RangeCfg::at_least(3));
    assert_eq!(RangeCfg::from(..=4096), RangeCfg::at_most(4096));
    assert_eq!(RangeCfg::from(..4096), RangeCfg::at_most(4095));
    assert_eq!(RangeCfg::from(3..=5), RangeCfg::between(3, 5));
    assert_eq!(RangeCfg::from(3..5), RangeCfg::between(3, 4));
    assert_eq!(RangeCfg::from(past(3)), RangeCfg::at_least(4));
    for none in [RangeCfg::from(..0), RangeCfg::from(5..5), RangeCfg::from(past(u64::MAX))] {
        assert!([0, 1, 4, 5, u64::MAX].iter().all(|length| !none.contains(*length)), "{none:?}");
    }
    let bytes = BitMap::<2>::ones(5).encode();
    assert_eq!(BitMap::<2>::decode(&mut &bytes[..], &(..5).into()), Err(CodecError::InvalidLength(5)));
    assert_eq!(BitMap::<2>::decode(&mut &bytes[..], &(..=5).into()), Ok(BitMap::ones(5)));
}

mod with_the_prelude {
    use mortarpink::prelude::*;

    /// The first and the last of some positions.
    fn ends(mut positions: impl Iterator<Item = u64>) -> Option<(u64, u64)> {
        let first = positions.next()?;
        Some((first, positions.last().unwrap_or(first)))
    }

    #[test]
    fn the_prelude_hides_no_name_of_rust() -> Result<(), AllocError> {
        let bitmap = BitMap::<8>::from([false, true, true, false]).try_clone()?;
        assert_eq!(ends(bitmap.ones_iter_from(0)), Some((1, 2)));
        let clean = CleanBitMap::from_bitmap(Prunable::<8>::new());
        let batch: DirtyBitMap<8> = clean.into_dirty();
        assert_eq!((ends(batch.ones_iter_from(0)), batch.next_one(0)), (None, None));
        Ok(())
    }
}

/// After their end, iterators return `None` however often they are called.
#[test]
fn iterators_stay_at_their_end() {
    fn ends(mut items: impl std::iter::FusedIterator) {
        assert!(items.by_ref().count() > 0);
        assert!((0..3).all(|_| items.next().is_none()));
    }

    let mut batch = CleanBitMap::<1>::new().into_dirty();
    batch.push_byte(5).push_byte(6);
    ends(batch.changed_chunks());
    ends(batch.clone().prepare(1).unwrap().changed_chunks());
    let bitmap = batch.commit(1).unwrap().apply_batch(2, |batch| {
        batch.set_bit(0, false);
    });
    let bitmap = bitmap.unwrap();
    ends(bitmap.commits());
    ends(bitmap.changed_chunks(1, 2).unwrap());
    ends(bitmap.current().ones_iter_from(0));
    ends(BitMap::<1>::ones(9).iter());
}
