//! Each allocation of each scenario fails once: the call returns an error, and leaves the value as it was.

#[path = "../examples/sha256/mod.rs"]
mod sha256;

use mortarpink::bitmap::codec::{CodecError, RangeCfg};
use mortarpink::bitmap::historical::{ApplyError, CleanBitMap, DirtyBitMap, Error, RewindError};
use mortarpink::bitmap::{BitMap, Prunable, Readable};
use mortarpink::log::{
    DeltaError, HistoryError, Log, RecoverError, apply_delta, apply_delta_logged, clear_logged, commit_logged, delta, drop_before_logged,
    read_history, recover, rewind_logged, write_history,
};
use mortarpink::roots::{
    AuthenticatedBitMap, DirtyAuthenticatedBitMap, Proof, RangeProof, append_leaf, chunk_digests, leaf_digests, prove, prove_from_stored,
    prove_range, prove_range_from_stored, try_append_leaf, try_chunk_digests, try_leaf_digests, try_prove, try_prove_from_stored,
    try_prove_range, try_prove_range_from_stored,
};
use mortarpink::store::files::{Files, Name};
use mortarpink::store::{OpenError, Options, Start, Store, StoreError};
use mortarpink::support::alloc::Global;
use mortarpink::support::collections::{DequeWithin, VecDeque};
use mortarpink::support::iter::CollectWithin;
use mortarpink::support::ops::{BitAnd, BitOr, BitXor, Sub};
use mortarpink::support::vec::VecWithin;
use mortarpink::{AllocError, TryClone};
use sha256::Sha256;
use std::alloc::{GlobalAlloc, Layout, System};
use std::cell::Cell;
use std::fmt::Debug;
use std::io;
use std::sync::LazyLock;

thread_local! {
    /// How many allocations of this thread succeed before one fails; none fails if it is `None`.
    static LEFT: Cell<Option<u64>> = const { Cell::new(None) };
}

/// Rust's allocator, of which one allocation may fail.
struct Failing;

#[global_allocator]
static FAILING: Failing = Failing;

/// Whether this allocation is to fail. None fails that a panic makes to print itself, since it may have a lock.
fn fails() -> bool {
    if std::thread::panicking() {
        return false;
    }
    LEFT.with(|left| {
        let count = left.get();
        left.set(count.and_then(|count| count.checked_sub(1)));
        count == Some(0)
    })
}

// SAFETY: each call is passed on to Rust's allocator, or returns null, which says that it failed.
unsafe impl GlobalAlloc for Failing {
    unsafe fn alloc(&self, layout: Layout) -> *mut u8 {
        if fails() { std::ptr::null_mut() } else { unsafe { System.alloc(layout) } }
    }

    unsafe fn dealloc(&self, pointer: *mut u8, layout: Layout) {
        unsafe { System.dealloc(pointer, layout) }
    }

    unsafe fn realloc(&self, pointer: *mut u8, layout: Layout, size: usize) -> *mut u8 {
        if fails() { std::ptr::null_mut() } else { unsafe { System.realloc(pointer, layout, size) } }
    }
}

/// Runs a call of which allocation `count`, counted from 0, fails. Returns its result, and whether there was such an allocation.
fn with_failure<T>(count: u64, call: impl FnOnce() -> T) -> (T, bool) {
    LEFT.with(|left| left.set(Some(count)));
    let result = call();
    (result, LEFT.with(|left| left.replace(None)).is_none())
}

/// Runs a call with each of its allocations failing, and then without a failure. Returns how many failed.
///
/// `call` says whether it ran out of memory. `image` has all that users can read of the value.
fn each<T, I: PartialEq + Debug>(make: impl Fn() -> T, image: impl Fn(&T) -> I, call: impl Fn(T) -> (T, bool)) -> u64 {
    for count in 0.. {
        let value = make();
        let before = image(&value);
        let ((value, is_error), failed) = with_failure(count, || call(value));
        assert_eq!(is_error, failed, "allocation {count}");
        if !failed {
            return count;
        }
        assert_eq!(image(&value), before, "allocation {count}");
    }
    unreachable!()
}

/// The same for an edit of a value in place.
fn each_edit<T, I: PartialEq + Debug>(
    make: impl Fn() -> T,
    image: impl Fn(&T) -> I,
    edit: impl Fn(&mut T) -> Result<(), AllocError>,
) -> u64 {
    each(make, image, |mut value| {
        let is_error = edit(&mut value).is_err();
        (value, is_error)
    })
}

fn dense() -> BitMap<4> {
    let mut bitmap = BitMap::new();
    bitmap.extend((0..64).map(|bit| bit % 3 == 0));
    bitmap
}

/// A bitmap to append.
static ONES: LazyLock<BitMap<4>> = LazyLock::new(|| BitMap::ones(100));

fn pruned() -> Prunable<4> {
    let mut bitmap = Prunable::new();
    bitmap.extend_from_bitmap(&dense());
    bitmap.prune_to_bit(40);
    bitmap
}

/// Five commits, each of which sets a bit, appends bits and prunes.
fn versions() -> CleanBitMap<4> {
    (1..=5).fold(CleanBitMap::new(), |bitmap, number| {
        let edit = |batch: &mut DirtyBitMap<4>| {
            for bit in 0..100 {
                batch.push((bit * 7 + number) % 3 == 0);
            }
            let end = batch.len();
            batch.set_bit(end - 20, true).prune_to_bit(number * 40);
        };
        bitmap.apply_batch(number, edit).unwrap()
    })
}

/// Four commits. The last three change bits in many of a hundred chunks, which a rewind gathers in several nodes, and prune.
fn long_versions() -> CleanBitMap<4> {
    let first = |batch: &mut DirtyBitMap<4>| {
        batch.extend_to(3200);
    };
    (2..=4).fold(CleanBitMap::new().apply_batch(1, first).unwrap(), |bitmap, number| {
        let edit = |batch: &mut DirtyBitMap<4>| {
            for bit in (number * 40..3200).step_by(100) {
                batch.set_bit(bit, true);
            }
            batch.prune_to_bit(number * 40);
        };
        bitmap.apply_batch(number, edit).unwrap()
    })
}

/// The versions with pending edits.
fn batch() -> DirtyBitMap<4> {
    let mut batch = versions().into_dirty();
    batch.push(true).set_bit(300, true);
    batch
}

/// All that users can read of a bitmap with commits.
fn clean_image(bitmap: &CleanBitMap<4>) -> (Vec<u8>, Vec<(u64, Vec<u8>)>) {
    let past = bitmap.commits().map(|number| (number, bitmap.get_at_commit(number).unwrap().encode()));
    (bitmap.current().encode(), past.collect())
}

/// All that users can read of a batch.
fn batch_image(batch: &DirtyBitMap<4>) -> (u64, usize, Vec<u64>, Vec<usize>) {
    (batch.len(), batch.pruned_chunks(), batch.ones_iter_from(0).collect(), batch.changed_chunks().collect())
}

#[test]
fn of_dense_bitmaps() {
    assert_eq!(each_edit(dense, BitMap::encode, |bitmap| bitmap.try_push_chunk(&[1; 4])), 0, "there was capacity");
    let (full, other) = (|| BitMap::<4>::zeroes(128), dense());
    assert_eq!(each_edit(full, BitMap::encode, |bitmap| bitmap.try_push(true)), 1);
    assert_eq!(each_edit(full, BitMap::encode, |bitmap| bitmap.try_push_chunk(&[1; 4])), 1);
    assert_eq!(each_edit(full, BitMap::encode, |bitmap| bitmap.try_extend_to(1000)), 1);
    assert_eq!(each_edit(full, BitMap::encode, |bitmap| bitmap.try_extend_from_bitmap(&other)), 1);
}

#[test]
fn of_values_that_are_made() {
    let bools = [true; 100];
    let bytes = dense().encode();
    let made = |make: &dyn Fn() -> bool| each(|| (), |()| (), |()| ((), make()));
    assert_eq!(made(&|| BitMap::<4>::try_with_capacity(100).is_err()), 1);
    assert_eq!(made(&|| BitMap::<4>::try_zeroes(100).is_err()), 1);
    assert_eq!(made(&|| BitMap::<4>::try_ones(100).is_err()), 1);
    assert_eq!(made(&|| BitMap::<4>::try_from_bools(&bools).is_err()), 1);
    let decoded = || BitMap::<4>::decode(&mut bytes.as_slice(), &RangeCfg::any());
    assert_eq!(made(&|| matches!(decoded(), Err(CodecError::OutOfMemory))), 1);
    let (dense, pruned) = (dense(), pruned());
    let bytes = pruned.encode();
    let decoded = || Prunable::<4>::decode(&mut bytes.as_slice(), &RangeCfg::any());
    assert_eq!(made(&|| matches!(decoded(), Err(CodecError::OutOfMemory))), 1);
    assert_eq!(made(&|| dense.try_clone().is_err()), 1);
    assert_eq!(made(&|| dense.try_to_bools().is_err()), 1);
    assert_eq!(made(&|| dense.try_encode().is_err()), 1);
    assert_eq!(made(&|| pruned.try_clone().is_err()), 1);
    assert_eq!(made(&|| pruned.try_encode().is_err()), 1);
    assert_eq!(each_edit(|| vec![1], Vec::clone, |bytes| dense.try_encode_into(bytes)), 1);
    assert_eq!(each_edit(|| vec![1], Vec::clone, |bytes| pruned.try_encode_into(bytes)), 1);
    assert_eq!(made(&|| BitAnd::bitand(&dense, &dense).is_err()), 1);
    assert_eq!(made(&|| BitOr::bitor(&dense, &dense).is_err()), 1);
    assert_eq!(made(&|| BitXor::bitxor(&dense, &dense).is_err()), 1);
    assert_eq!(made(&|| Sub::sub(&dense, &dense).is_err()), 1);
}

#[test]
fn of_roots() {
    let made = |make: &dyn Fn() -> bool| each(|| (), |()| (), |()| ((), make()));
    let (dense, digests) = (dense(), [[1; 32]; 64]);
    let proof = Proof { len: 8, pruned: 0, index: 0, chunk: &[1], path: &digests };
    assert_eq!(made(&|| try_chunk_digests(&Sha256, &dense, &[]).is_err()), 1);
    // The lists grow: from none to four, and then to twice as many.
    assert_eq!(made(&|| try_leaf_digests(&Sha256, &[[1]; 9]).is_err()), 3);
    assert_eq!(made(&|| try_prove(&Sha256, &digests, 5).is_err()), 2);
    assert_eq!(made(&|| try_prove_from_stored(&Sha256, &digests[..63], 32, 5).is_err()), 2);
    // There is space for two of the six digests that leaf 31 adds.
    let stored = || {
        let mut stored = Vec::with_capacity(59);
        stored.extend_from_slice(&digests[..57]);
        stored
    };
    assert_eq!(each_edit(stored, Vec::clone, |stored| try_append_leaf(&Sha256, stored, 31, &[2; 32])), 1);
    assert_eq!(made(&|| try_prove_range(&Sha256, &digests, 5, 3).is_err()), 2);
    assert_eq!(made(&|| try_prove_range_from_stored(&Sha256, &digests[..63], 32, 5, 1).is_err()), 2);
    assert!(made(&|| proof.try_write().is_err()) > 1);
    let range = RangeProof { len: 16, pruned: 0, first: 0, chunks: &[[1], [2]], siblings: &digests };
    assert!(made(&|| range.try_write().is_err()) > 1);
}

type WithRoots = AuthenticatedBitMap<4, Sha256>;

/// Three commits of a bitmap with roots, which append, set a bit and prune.
fn with_roots() -> WithRoots {
    (1..=3).fold(AuthenticatedBitMap::new(Sha256), |bitmap, number| {
        let mut batch = bitmap.into_dirty();
        batch.extend_to(150 * number).set_bit(150 * number - 20, true).prune_to_bit(40 * number);
        batch.commit(number).unwrap()
    })
}

/// The same with pending edits.
fn batch_with_roots() -> DirtyAuthenticatedBitMap<4, Sha256> {
    let mut batch = with_roots().into_dirty();
    batch.set_bit(300, true).extend_to(600).prune_to_bit(200);
    batch
}

/// All that users can read of a bitmap with roots.
#[derive(Debug, PartialEq)]
struct ImageWithRoots {
    bits: (Vec<u8>, Vec<(u64, Vec<u8>)>),
    root: [u8; 32],
    past: Vec<Option<[u8; 32]>>,
}

fn image_with_roots(bitmap: &WithRoots) -> ImageWithRoots {
    let past = bitmap.bits().commits().map(|number| bitmap.root_at(number));
    ImageWithRoots { bits: clean_image(bitmap.bits()), root: bitmap.root(), past: past.collect() }
}

/// A commit takes memory for its bits and for its digests. If any of it is missing, the batch can be aborted, or committed later.
#[test]
fn of_commits_with_roots() {
    let (before, after) = (image_with_roots(&with_roots()), image_with_roots(&batch_with_roots().commit(9).unwrap()));
    let pending = batch_image(batch_with_roots().bits());
    let mut count = 0;
    loop {
        let batch = batch_with_roots();
        let (left, failed) = with_failure(count, || batch.try_commit(9).err());
        let Some((batch, error)) = left else {
            assert!(!failed, "allocation {count}");
            break;
        };
        assert!(failed && error == Error::Memory(AllocError), "allocation {count}");
        assert_eq!(batch_image(batch.bits()), pending, "allocation {count}");
        match count % 2 {
            0 => assert_eq!(image_with_roots(&batch.abort()), before, "allocation {count}"),
            _ => assert_eq!(image_with_roots(&batch.commit(9).unwrap()), after, "allocation {count}"),
        }
        count += 1;
    }
    let of_bits = each(
        || batch_with_roots().bits().clone(),
        batch_image,
        |bits| match bits.try_commit(9) {
            Ok(bitmap) => (bitmap.into_dirty(), false),
            Err((bits, _)) => (bits, true),
        },
    );
    assert!(count > of_bits, "{count} allocations, of which {of_bits} are for the bits");
}

#[test]
fn of_rewinds_and_proofs_with_roots() {
    let rewind = |bitmap: WithRoots| match bitmap.rewind_to(1) {
        Ok(bitmap) => (bitmap, false),
        Err((bitmap, error)) => (bitmap, error == RewindError::Memory(AllocError)),
    };
    assert!(each(with_roots, image_with_roots, rewind) > 3);
    let failures = |read: fn(&WithRoots) -> bool| {
        each(with_roots, image_with_roots, |bitmap| {
            let is_error = read(&bitmap);
            (bitmap, is_error)
        })
    };
    assert_eq!(failures(|bitmap| bitmap.try_prove(13).is_err()), 1);
    assert_eq!(failures(|bitmap| bitmap.try_prove_at(1, 4).is_err()), 1);
    assert_eq!(failures(|bitmap| bitmap.try_prove_range(5, 2).is_err()), 1);
    assert_eq!(failures(|bitmap| bitmap.try_prove_range_at(2, 5, 2).is_err()), 1);
    assert_eq!(failures(|bitmap| bitmap.try_prove_at(1, 5).is_err() || bitmap.root_at(2).is_none()), 0);
}

/// The edits that chain and return an error, with their names, for a type of batches whose bitmap is as long as that of `versions`, or nearly so.
macro_rules! chained_edits {
    ($batch:ty) => {{
        type Edit = fn(&mut $batch) -> Result<(), AllocError>;
        let edits: [(&str, Edit); 9] = [
            ("try_push", |batch| batch.try_push(true).map(drop)),
            ("try_push_byte", |batch| batch.try_push_byte(1).map(drop)),
            ("try_push_chunk", |batch| batch.try_push_chunk(&[1; 4]).map(drop)),
            ("try_set_bit", |batch| batch.try_set_bit(250, true).map(drop)),
            ("try_set_chunk", |batch| batch.try_set_chunk(8, &[9; 4]).map(drop)),
            ("try_set_range", |batch| batch.try_set_range(210..450, true).map(drop)),
            ("try_extend_to", |batch| batch.try_extend_to(700).map(drop)),
            ("try_extend_from_bitmap", |batch| batch.try_extend_from_bitmap(&ONES).map(drop)),
            ("try_prune_to_bit", |batch| batch.try_prune_to_bit(400).map(drop)),
        ];
        edits
    }};
}

#[test]
fn of_edits_with_roots() {
    assert_eq!(ONES.len(), 100);
    for (name, edit) in chained_edits!(DirtyAuthenticatedBitMap<4, Sha256>) {
        let failed = each_edit(|| with_roots().into_dirty(), |batch| batch_image(batch.bits()), edit);
        assert!(failed > 0, "{name} allocates in a batch without edits");
    }
}

/// The calls over Rust's collections, of which each has no capacity left.
#[test]
fn of_the_support() {
    let full = || Vec::from([1u64; 4]);
    assert_eq!(each_edit(full, Vec::clone, |vec| vec.try_push(2)), 1);
    assert_eq!(each_edit(full, Vec::clone, |vec| vec.try_extend_from_slice(&[2])), 1);
    assert_eq!(each_edit(full, Vec::clone, |vec| vec.try_resize(5, 2)), 1);
    assert_eq!(each_edit(full, Vec::clone, |vec| Vec::from_slice_within(Global, vec).map(drop)), 1);
    assert_eq!(each_edit(full, Vec::clone, |vec| vec.iter().collect_within::<Vec<_>>(Global).map(drop)), 1);
    let deque = || VecDeque::from([1u64; 4]);
    assert_eq!(each_edit(deque, VecDeque::clone, |deque| deque.try_push_back(2)), 1);
    assert_eq!(each_edit(deque, VecDeque::clone, |deque| deque.try_clone().map(drop)), 1);
    assert_eq!(each_edit(deque, VecDeque::clone, |_| VecDeque::<u64>::with_capacity_within(Global, 1).map(drop)), 1);
}

#[test]
fn of_pruned_bitmaps() {
    let full = || {
        let mut bitmap = Prunable::<4>::new_with_pruned_chunks(3).unwrap();
        bitmap.extend_from_bitmap(&BitMap::<4>::zeroes(128));
        bitmap
    };
    let other = dense();
    assert_eq!(each_edit(full, Prunable::encode, |bitmap| bitmap.try_push(true)), 1);
    assert_eq!(each_edit(full, Prunable::encode, |bitmap| bitmap.try_push_byte(1)), 1);
    assert_eq!(each_edit(full, Prunable::encode, |bitmap| bitmap.try_push_chunk(&[1; 4])), 1);
    assert_eq!(each_edit(full, Prunable::encode, |bitmap| bitmap.try_extend_to(1000)), 1);
    assert_eq!(each_edit(full, Prunable::encode, |bitmap| bitmap.try_extend_from_bitmap(&other)), 1);
    assert_eq!(each_edit(full, Prunable::encode, |bitmap| bitmap.try_unprune(&[[1; 4]; 3])), 1);
}

#[test]
fn of_edits_of_a_batch() {
    type Edit = fn(&mut DirtyBitMap<4>) -> Result<(), AllocError>;
    let unchained: [(&str, Edit); 9] = [
        ("push", |batch| batch.push_unchained(true)),
        ("push_byte", |batch| batch.push_byte_unchained(1)),
        ("push_chunk", |batch| batch.push_chunk_unchained(&[1; 4])),
        ("set_bit", |batch| batch.set_bit_unchained(250, true)),
        ("set_chunk", |batch| batch.set_chunk_unchained(8, &[9; 4])),
        ("set_range", |batch| batch.set_range_unchained(210..450, true)),
        ("extend_to", |batch| batch.extend_to_unchained(700)),
        ("extend_from_bitmap", |batch| batch.extend_from_bitmap_unchained(&ONES)),
        ("prune_to_bit", |batch| batch.prune_to_bit_unchained(400)),
    ];
    assert_eq!(ONES.len(), 100);
    for (name, edit) in unchained.into_iter().chain(chained_edits!(DirtyBitMap<4>)) {
        let failed = each_edit(|| versions().into_dirty(), batch_image, edit);
        assert!(failed > 0, "{name} allocates in a batch without edits");
        each_edit(batch, batch_image, edit);
    }
}

/// A length that no memory has space for is an error at once, and leaves nothing.
#[test]
fn of_lengths_past_all_memory() {
    for start in [batch, || versions().into_dirty()] {
        let mut batch = start();
        let before = batch_image(&batch);
        assert!(batch.try_extend_to(1 << 60).is_err());
        assert!(batch.try_extend_to(u64::MAX).is_err());
        assert_eq!(batch_image(&batch), before);
    }
}

/// In a chain, the edits before the one that fails stay, and it leaves nothing.
#[test]
fn of_chained_edits() {
    let edit = |batch: &mut DirtyBitMap<4>| -> Result<(), AllocError> {
        let edit = batch.try_set_bit(250, true)?.try_set_chunk(9, &[9; 4])?.try_set_range(330..450, true)?;
        edit.try_push(true)?.try_push_byte(1)?.try_push_chunk(&[1; 4])?.try_prune_to_bit(430)?;
        Ok(())
    };
    let mut batch = versions().into_dirty();
    let mut images = vec![batch_image(&batch)];
    let edits: [fn(&mut DirtyBitMap<4>) -> &mut DirtyBitMap<4>; 7] = [
        |batch| batch.set_bit(250, true),
        |batch| batch.set_chunk(9, &[9; 4]),
        |batch| batch.set_range(330..450, true),
        |batch| batch.push(true),
        |batch| batch.push_byte(1),
        |batch| batch.push_chunk(&[1; 4]),
        |batch| batch.prune_to_bit(430),
    ];
    for edit in edits {
        edit(&mut batch);
        images.push(batch_image(&batch));
    }
    let mut least = 0;
    for count in 0.. {
        let mut batch = versions().into_dirty();
        let (result, failed) = with_failure(count, || edit(&mut batch));
        assert_eq!(result.is_err(), failed, "allocation {count}");
        let made = images.iter().position(|image| *image == batch_image(&batch)).unwrap();
        assert!(least <= made && (made == 7) != failed, "allocation {count}: {made} edits are made");
        least = made;
        if !failed {
            assert!(count > 3, "{count} allocations");
            break;
        }
    }
}

#[test]
fn of_commits() {
    let commit = |batch: DirtyBitMap<4>| match batch.try_commit(9) {
        Ok(bitmap) => (bitmap.into_dirty(), false),
        Err((batch, error)) => (batch, error == Error::Memory(AllocError)),
    };
    assert!(each(batch, batch_image, commit) > 0);
    let apply = |bitmap: CleanBitMap<4>| match bitmap.try_apply_batch(9, |batch: &mut DirtyBitMap<4>| batch.push_chunk_unchained(&[7; 4])) {
        Ok(bitmap) => (bitmap, false),
        Err((bitmap, ApplyError::Batch(AllocError) | ApplyError::Commit(Error::Memory(AllocError)))) => (bitmap, true),
        Err((bitmap, _)) => (bitmap, false),
    };
    assert!(each(versions, clean_image, apply) > 0);
}

/// The batch stays as it was if the first step of its commit fails, and the second step has no allocation that could fail.
#[test]
fn of_prepared_commits() {
    let pruned = || {
        let mut batch = batch();
        batch.prune_to_bit(400).set_range(410..480, true);
        batch
    };
    let with_index = || {
        let mut batch = indexed().into_dirty();
        batch.set_range(210..450, true).extend_to(700);
        batch
    };
    let image = |batch: &DirtyBitMap<4>| (batch_image(batch), indexed_image(&batch.clone().abort()));
    let prepare = |batch: DirtyBitMap<4>| match batch.try_prepare(9) {
        Ok(prepared) => (prepared.into_dirty(), false),
        Err((batch, error)) => (batch, error == Error::Memory(AllocError)),
    };
    let makes: [&dyn Fn() -> DirtyBitMap<4>; 3] = [&batch, &pruned, &with_index];
    for make in makes {
        let allocations = each(make, image, prepare);
        let commit = |batch: DirtyBitMap<4>| match batch.try_commit(9) {
            Ok(bitmap) => (bitmap.into_dirty(), false),
            Err((batch, error)) => (batch, error == Error::Memory(AllocError)),
        };
        assert_eq!(each(make, image, commit), allocations, "the first step makes all allocations of the commit");
        assert!(allocations > 0);

        // The first allocation of each of these calls would fail.
        let prepared = make().prepare(9).unwrap();
        let (count, failed) = with_failure(0, || prepared.changed_chunks().count());
        assert!(count > 0 && !failed);
        let (bitmap, failed) = with_failure(0, || prepared.commit());
        assert!(bitmap.latest_commit() == Some(9) && !failed);
        let prepared = make().prepare(9).unwrap();
        let (undone, failed) = with_failure(0, || prepared.into_dirty());
        assert!(image(&undone) == image(&make()) && !failed);
    }
}

/// The versions with an index.
fn indexed() -> CleanBitMap<4> {
    versions().indexed().map_err(|(_, error)| error).unwrap()
}

/// All that users can read of a bitmap with commits, also by its past states in place, which use the index.
fn indexed_image(bitmap: &CleanBitMap<4>) -> (Vec<u8>, Vec<Vec<u64>>) {
    let past = bitmap.commits().map(|number| bitmap.at(number).unwrap().ones_iter_from(0).collect());
    (bitmap.current().encode(), past.collect())
}

#[test]
fn of_indexed_bitmaps() {
    let index = |bitmap: CleanBitMap<4>| match bitmap.indexed() {
        Ok(bitmap) => (bitmap, false),
        Err((bitmap, AllocError)) => (bitmap, true),
    };
    assert!(each(versions, indexed_image, index) > 0);
    let commit =
        |bitmap: CleanBitMap<4>| match bitmap.try_apply_batch(9, |batch: &mut DirtyBitMap<4>| batch.set_range_unchained(210..450, true)) {
            Ok(bitmap) => (bitmap, false),
            Err((bitmap, ApplyError::Batch(AllocError) | ApplyError::Commit(Error::Memory(AllocError)))) => (bitmap, true),
            Err((bitmap, _)) => (bitmap, false),
        };
    assert!(each(indexed, indexed_image, commit) > each(versions, indexed_image, commit));
}

#[test]
fn of_rewinding() {
    let rewind_to = |number| {
        move |bitmap: CleanBitMap<4>| match bitmap.rewind_to(number) {
            Ok(bitmap) => (bitmap, false),
            Err((bitmap, error)) => (bitmap, error == RewindError::Memory(AllocError)),
        }
    };
    for number in 1..5 {
        assert!(each(versions, indexed_image, rewind_to(number)) > 0);
        assert!(each(indexed, indexed_image, rewind_to(number)) > 0);
    }
    // The map of the gathered chunks grows: its chunks, their indices and its nodes.
    assert!(each(long_versions, clean_image, rewind_to(1)) > 12);
}

#[test]
fn of_past_states_and_copies() {
    let read = |bitmap: CleanBitMap<4>| {
        let is_error = bitmap.try_get_at_commit(1).is_err();
        (bitmap, is_error)
    };
    let gather = |bitmap: CleanBitMap<4>| {
        let is_error = bitmap.try_gathered(1).is_err();
        (bitmap, is_error)
    };
    let copy = |bitmap: CleanBitMap<4>| {
        let is_error = bitmap.try_clone().is_err();
        (bitmap, is_error)
    };
    for make in [versions, indexed] {
        assert!(each(make, clean_image, read) > 0);
        assert!(each(make, clean_image, gather) > 0);
        assert!(each(make, clean_image, copy) > 0);
    }
    assert!(each(indexed, clean_image, copy) > each(versions, clean_image, copy));
}

/// All that users can read of a log.
fn log_image(log: &Log<4>) -> (Vec<u8>, u64, u64) {
    (log.bytes().to_vec(), log.position(), log.digest())
}

/// The versions, and a log that begins with them, whose bytes are taken.
fn logged() -> (CleanBitMap<4>, Log<4>) {
    let bitmap = versions();
    let mut log = Log::begin(&bitmap).unwrap();
    log.take();
    (bitmap, log)
}

/// The bitmap and the log are both changed, or neither is.
#[test]
fn of_logged_calls() {
    let image = |(bitmap, log): &(CleanBitMap<4>, Log<4>)| (clean_image(bitmap), log_image(log));
    let pending = || (batch(), logged().1);
    let commit = |(batch, mut log): (DirtyBitMap<4>, Log<4>)| match commit_logged(batch, 9, &mut log) {
        Ok(bitmap) => ((bitmap.into_dirty(), log), false),
        Err((batch, error)) => ((batch, log), error == Error::Memory(AllocError)),
    };
    assert!(each(pending, |(batch, log)| (batch_image(batch), log_image(log)), commit) > 2);
    let rewind = |(bitmap, mut log): (CleanBitMap<4>, Log<4>)| match rewind_logged(bitmap, 2, &mut log) {
        Ok(bitmap) => ((bitmap, log), false),
        Err((bitmap, error)) => ((bitmap, log), error == RewindError::Memory(AllocError)),
    };
    assert!(each(logged, image, rewind) > 1);
    assert!(each_edit(logged, image, |(bitmap, log)| drop_before_logged(bitmap, 3, log)) > 0);
    assert!(each_edit(logged, image, |(bitmap, log)| clear_logged(bitmap, log)) > 0);
}

#[test]
fn of_logs_and_histories() {
    let begin = |bitmap: CleanBitMap<4>| {
        let is_error = Log::begin(&bitmap).is_err();
        (bitmap, is_error)
    };
    assert!(each(versions, clean_image, begin) > 2);
    let (bitmap, some) = (versions(), || b"some".to_vec());
    let bytes = Log::begin(&bitmap).unwrap().take();
    assert!(each_edit(some, Vec::clone, |out| write_history(&bitmap, out).map(drop)) > 2);
    let read_log = |()| ((), matches!(recover::<4>(&bytes), Err(RecoverError::Memory(AllocError))));
    assert!(each(|| (), |_| (), read_log) > 5);
    let read = |mut from| {
        let result = read_history::<4>(&mut from, &RangeCfg::any(), &RangeCfg::any());
        (from, matches!(result, Err(HistoryError::Memory(AllocError))))
    };
    assert!(each(|| bytes.as_slice(), |from| from.to_vec(), read) > 5);
}

#[test]
fn of_deltas() {
    let write = |bitmap: CleanBitMap<4>| {
        let is_error = delta(&bitmap, 2, 5).is_err();
        (bitmap, is_error)
    };
    assert!(each(versions, clean_image, write) > 0);
    let bytes = delta(&versions(), 2, 5).unwrap().unwrap();
    let replica = || versions().rewind_to(2).unwrap();
    let apply = |bitmap: CleanBitMap<4>| match apply_delta(bitmap, &bytes) {
        Ok(bitmap) => (bitmap, false),
        Err((bitmap, error)) => (bitmap, error == DeltaError::Memory(AllocError)),
    };
    assert!(each(replica, clean_image, apply) > 0);
    let replica_logged = || {
        let bitmap = replica();
        let mut log = Log::begin(&bitmap).unwrap();
        log.take();
        (bitmap, log)
    };
    let image = |(bitmap, log): &(CleanBitMap<4>, Log<4>)| (clean_image(bitmap), log_image(log));
    let apply_logged = |(bitmap, mut log): (CleanBitMap<4>, Log<4>)| match apply_delta_logged(bitmap, &bytes, &mut log) {
        Ok(bitmap) => ((bitmap, log), false),
        Err((bitmap, error)) => ((bitmap, log), error == DeltaError::Memory(AllocError)),
    };
    assert!(each(replica_logged, image, apply_logged) > 1);
}

#[test]
fn of_calls_that_return_no_error() {
    let panics = |call: &dyn Fn()| {
        let (result, failed) = with_failure(0, || std::panic::catch_unwind(std::panic::AssertUnwindSafe(call)));
        failed && result.is_err_and(|payload| payload.downcast_ref::<&str>() == Some(&"out of memory"))
    };
    let dense = dense();
    assert!(panics(&|| drop(BitMap::<4>::zeroes(100))));
    assert!(panics(&|| drop(dense.clone())));
    assert!(panics(&|| drop(&dense & &dense)));
    assert!(panics(&|| drop(dense.encode())));
    assert!(panics(&|| BitMap::<4>::new().push(true)));
    assert!(panics(&|| {
        CleanBitMap::<4>::new().into_dirty().push(true);
    }));
    assert!(panics(&|| drop(CleanBitMap::<4>::new().into_dirty().commit(1))));
    assert!(panics(&|| drop(CleanBitMap::<4>::new().into_dirty().prepare(1))));
    let digests = [[1; 32]; 3];
    assert!(panics(&|| drop(chunk_digests(&Sha256, &dense, &[]))));
    assert!(panics(&|| drop(leaf_digests(&Sha256, &[[1]]))));
    assert!(panics(&|| drop(prove(&Sha256, &digests, 1))));
    assert!(panics(&|| append_leaf(&Sha256, &mut Vec::new(), 0, &[1; 32])));
    assert!(panics(&|| drop(prove_from_stored(&Sha256, &digests, 2, 1))));
    assert!(panics(&|| drop(prove_range(&Sha256, &digests, 1, 1))));
    assert!(panics(&|| drop(prove_range_from_stored(&Sha256, &digests, 2, 1, 1))));
    assert!(panics(&|| drop(RangeProof { len: 8, pruned: 0, first: 0, chunks: &[[1]], siblings: &digests }.write())));
    assert!(panics(&|| drop(Proof { len: 8, pruned: 0, index: 0, chunk: &[1], path: &digests }.write())));
    let bitmap = with_roots();
    assert!(panics(&|| drop(bitmap.prove(13))));
    assert!(panics(&|| drop(bitmap.prove_at(1, 4))));
    assert!(panics(&|| drop(bitmap.prove_range(5, 2))));
    assert!(panics(&|| drop(bitmap.prove_range_at(2, 5, 2))));
    assert!(panics(&|| _ = WithRoots::new(Sha256).into_dirty().push(true)));
    assert!(panics(&|| drop(WithRoots::new(Sha256).into_dirty().commit(1))));
}

/// Files in memory. To read them returns an error if memory runs out, and what is written is lost.
#[derive(Debug)]
struct Fixed(Vec<u8>);

impl Files for Fixed {
    fn lock(&mut self) -> io::Result<bool> {
        Ok(true)
    }

    fn read(&mut self, name: Name) -> io::Result<Option<Vec<u8>>> {
        let bytes = if name == Name::Log { &self.0[..] } else { &[] };
        let mut copy = Vec::new();
        copy.try_reserve_exact(bytes.len())?;
        copy.extend_from_slice(bytes);
        Ok(Some(copy))
    }

    fn create_new(&mut self) -> io::Result<()> {
        Ok(())
    }

    fn write_at(&mut self, _name: Name, _at: u64, _bytes: &[u8]) -> io::Result<()> {
        Ok(())
    }

    fn cut_to(&mut self, _name: Name, _len: u64) -> io::Result<()> {
        Ok(())
    }

    fn sync(&mut self, _name: Name) -> io::Result<()> {
        Ok(())
    }

    fn rename_new(&mut self) -> io::Result<()> {
        Ok(())
    }

    fn remove_new(&mut self) -> io::Result<()> {
        Ok(())
    }

    fn sync_folder(&mut self) -> io::Result<()> {
        Ok(())
    }
}

#[test]
fn openings_of_stores() {
    let log = Log::begin(&versions()).unwrap();
    let torn = [log.bytes(), &[0, 0, 0, 0, 1]].concat();
    for (start, bytes) in [(Start::Open, &torn[..]), (Start::OpenCut(log.position()), &torn), (Start::Create, &[])] {
        for count in 0.. {
            let files = Box::new(Fixed(bytes.to_vec()));
            let (result, failed) = with_failure(count, || Options::new().indexed(true).start::<4>(files, start));
            match result {
                Ok(_) => assert!(!failed && count > 0, "{start:?}"),
                Err(error) => assert!(failed && matches!(error, OpenError::Memory(_)), "{start:?}, allocation {count}: {error:?}"),
            }
            if !failed {
                break;
            }
        }
    }
}

/// A store whose changes fail for an allocation has none of the change, or has it when it is opened again.
#[test]
fn changes_of_stores() {
    type Change = fn(&mut Store<4>) -> Result<(), StoreError>;
    let changes: [Change; 4] = [
        |store| {
            let mut batch = store.batch();
            batch.try_push(true)?;
            batch.try_set_bit(330, true)?;
            batch.try_prune_to_bit(240)?;
            batch.commit(8)
        },
        |store| store.rewind_to(3),
        |store| store.drop_before(4),
        Store::compact,
    ];
    let folder = std::env::temp_dir().join(format!("mortarpink-memory-{}", std::process::id()));
    std::fs::create_dir(&folder).unwrap();
    for (index, change) in changes.into_iter().enumerate() {
        for count in 0.. {
            let path = folder.join(format!("{index}-{count}.log"));
            std::fs::write(&path, Log::begin(&versions()).unwrap().bytes()).unwrap();
            let mut store = Store::<4>::open(&path).unwrap();
            let (result, failed) = with_failure(count, || change(&mut store));
            match result {
                Ok(()) => assert!(!failed),
                Err(StoreError::Memory(_)) => assert!(!store.is_read_only()),
                Err(StoreError::NotApplied(_)) => assert!(store.is_read_only()),
                Err(error) => panic!("{error}"),
            }
            let (kept, is_read_only) = (clean_image(store.bitmap()), store.is_read_only());
            drop(store);
            let store = Store::<4>::open(&path).unwrap();
            assert_eq!(clean_image(store.bitmap()) == kept, !is_read_only, "allocation {count}");
            if !failed {
                break;
            }
            assert_eq!(kept, clean_image(&versions()), "allocation {count}");
        }
    }
    std::fs::remove_dir_all(&folder).unwrap();
}
