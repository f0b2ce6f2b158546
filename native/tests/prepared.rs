//! Commits in two steps: they do what `commit` does, or leave the batch as it was.

use mortarpink::bitmap::Readable;
use mortarpink::bitmap::historical::{CleanBitMap, DirtyBitMap, Error};

/// All that users can read of a bitmap: it, its commits by both reads, the costs that its calls report, and the last number.
#[derive(Clone, Debug, PartialEq)]
struct Image {
    current: Vec<u8>,
    past: Vec<(u64, Vec<u8>, Vec<u64>)>,
    entries: u64,
    last: Option<u64>,
}

fn clean_image(bitmap: &CleanBitMap<2>) -> Image {
    let past = bitmap.commits().map(|number| {
        let state = bitmap.get_at_commit(number).unwrap();
        (number, state.encode(), bitmap.at(number).unwrap().ones_iter_from(0).collect())
    });
    Image { current: bitmap.current().encode(), past: past.collect(), entries: bitmap.reverse_entries() as u64, last: bitmap.last_number() }
}

/// The same of a batch: its pending bits, its changes, and the bitmap that it would be if it were aborted.
#[derive(Clone, Debug, PartialEq)]
struct BatchImage {
    len: u64,
    pruned_chunks: usize,
    ones: Vec<u64>,
    changes: Vec<(usize, Option<[u8; 2]>)>,
    aborted: Image,
}

fn batch_image(batch: &DirtyBitMap<2>) -> BatchImage {
    BatchImage {
        len: batch.len(),
        pruned_chunks: batch.pruned_chunks(),
        ones: batch.ones_iter_from(0).collect(),
        changes: batch.changed_chunks().map(|chunk| (chunk, batch.retained_bytes(chunk))).collect(),
        aborted: clean_image(&batch.clone().abort()),
    }
}

/// The changes of a batch that a prepared commit has to list: its changed chunks that the pending bitmap retains, with their bytes.
fn changes_of(batch: &DirtyBitMap<2>) -> Vec<(usize, [u8; 2])> {
    batch.changed_chunks().filter_map(|chunk| Some((chunk, batch.retained_bytes(chunk)?))).collect()
}

/// Takes each way through the two steps, and compares it with the batch and with `commit`. Returns what `commit` gives.
fn commit_in_all_ways(batch: DirtyBitMap<2>, number: u64) -> CleanBitMap<2> {
    let before = batch_image(&batch);
    let prepared = batch.clone().prepare(number).unwrap();
    assert_eq!(prepared.number(), number);
    assert_eq!((prepared.pending_len(), prepared.pending_pruned_chunks()), (batch.len(), batch.pruned_chunks()));
    assert_eq!(prepared.changed_chunks().collect::<Vec<_>>(), changes_of(&batch));
    let (least, most) = prepared.changed_chunks().size_hint();
    assert!((least..=most.unwrap()).contains(&prepared.changed_chunks().count()));
    let finished = prepared.commit();

    let undone = batch.clone().prepare(number).unwrap().into_dirty();
    assert_eq!(batch_image(&undone), before);
    let again = undone.try_prepare(number).map_err(|(_, error)| error).unwrap().commit();

    let committed = batch.commit(number).unwrap();
    assert_eq!(clean_image(&finished), clean_image(&committed));
    assert_eq!(clean_image(&again), clean_image(&committed));
    committed
}

/// Numbers that depend on a seed alone.
struct Chance(u64);

impl Chance {
    fn below(&mut self, end: u64) -> u64 {
        self.0 = self.0.wrapping_mul(6364136223846793005).wrapping_add(1442695040888963407);
        (self.0 >> 33) % end
    }
}

/// Makes some edits of each kind.
fn edit(batch: &mut DirtyBitMap<2>, chance: &mut Chance) {
    for _ in 0..chance.below(12) {
        let (start, end) = (batch.pruned_bits(), batch.len());
        match chance.below(9) {
            0 => drop(batch.push(chance.below(2) == 1)),
            1 => drop(batch.push_byte(chance.below(256) as u8)),
            2 => drop(batch.push_chunk(&[chance.below(256) as u8, 0])),
            3 => drop(batch.extend_to(end + chance.below(70))),
            4 if end > start => drop(batch.set_bit(start + chance.below(end - start), chance.below(2) == 1)),
            5 if end > start => {
                let from = start + chance.below(end - start);
                batch.set_range(from..from + chance.below(end - from + 1), chance.below(2) == 1);
            }
            6 if end > start => drop(batch.prune_to_bit(start + chance.below((end - start).min(40) + 1))),
            // The bytes that the chunk has: it is marked, and does not change.
            7 if end > start => {
                let chunk = (start + chance.below(end - start)) / 16;
                let bytes = batch.retained_bytes(chunk as usize).unwrap();
                batch.set_chunk(chunk as usize, &bytes);
            }
            _ => {
                for _ in 0..chance.below(30).min(end - start) {
                    batch.pop();
                }
            }
        }
    }
}

#[test]
fn two_steps_do_what_one_does() {
    let mut batch = CleanBitMap::new().into_dirty();
    batch.push_chunk(&[1, 2]).push_chunk(&[3, 4]).push(true);
    let mut batch = commit_in_all_ways(batch, 1).into_dirty();
    batch.set_bit(0, false).prune_to_bit(16).push(false);
    let mut batch = commit_in_all_ways(batch, 2).into_dirty();
    batch.pop();
    batch.pop();
    let bitmap = commit_in_all_ways(batch, 7);
    assert!(bitmap.commits().eq([1, 2, 7]));
    assert_eq!(commit_in_all_ways(bitmap.into_dirty(), 8).latest_commit(), Some(8));
}

#[test]
fn random_batches_are_committed_alike() {
    let mut chance = Chance(11);
    for round in 0..60 {
        let mut bitmap = CleanBitMap::new();
        if round % 2 == 1 {
            bitmap = bitmap.indexed().unwrap();
        }
        let mut number = chance.below(3);
        for _ in 0..20 {
            let mut batch = bitmap.into_dirty();
            edit(&mut batch, &mut chance);
            bitmap = commit_in_all_ways(batch, number);
            number += 1 + chance.below(3);
            match chance.below(8) {
                0 => drop(bitmap.prune_commits_before(number.saturating_sub(5))),
                1 => {
                    let kept: Vec<_> = bitmap.commits().collect();
                    number = kept[chance.below(kept.len() as u64) as usize];
                    bitmap = bitmap.rewind_to(number).map_err(|(_, error)| error).unwrap();
                    number += 1;
                }
                _ => (),
            }
        }
    }
}

#[test]
fn refused_numbers_leave_the_batch() {
    let bitmap = CleanBitMap::<2>::new().apply_batch(5, |batch| {
        batch.push_chunk(&[1, 2]);
    });
    let mut batch = bitmap.unwrap().into_dirty();
    batch.set_bit(0, false).push(true);
    let before = batch_image(&batch);
    for (number, expected) in [
        (0, Error::NonMonotonicCommit { previous: 5, attempted: 0 }),
        (4, Error::NonMonotonicCommit { previous: 5, attempted: 4 }),
        (5, Error::NonMonotonicCommit { previous: 5, attempted: 5 }),
        (u64::MAX, Error::ReservedCommitNumber),
    ] {
        assert_eq!(batch.clone().prepare(number).unwrap_err(), expected);
        let (returned, error) = batch.try_prepare(number).unwrap_err();
        assert_eq!((batch_image(&returned), error), (before.clone(), expected));
        batch = returned;
    }
    assert_eq!(batch.prepare(u64::MAX - 1).unwrap().commit().latest_commit(), Some(u64::MAX - 1));
}

/// A chunk that is marked and has its old bytes is not listed; nor is one that the commit prunes. One that it appends is, also if it is zero.
#[test]
fn listed_changes_are_those_of_the_bytes() {
    let bitmap = CleanBitMap::<2>::new().apply_batch(1, |batch| {
        for byte in 1..=5 {
            batch.push_chunk(&[byte, 0]);
        }
    });
    let mut batch = bitmap.unwrap().into_dirty();
    batch.set_chunk(0, &[9, 9]).prune_to_bit(16);
    batch.set_chunk(1, &[2, 0]).set_chunk(2, &[7, 0]).extend_to(96);
    let prepared = batch.prepare(2).unwrap();
    assert!(prepared.changed_chunks().eq([(2, [7, 0]), (5, [0, 0])]));
    assert_eq!((prepared.number(), prepared.pending_len(), prepared.pending_pruned_chunks()), (2, 96, 1));
    // They can be listed again, and what is undone can be prepared again.
    assert_eq!(prepared.changed_chunks().count(), 2);
    let again = prepared.into_dirty().prepare(3).unwrap();
    assert!(again.changed_chunks().eq([(2, [7, 0]), (5, [0, 0])]));
}

/// Commits two batches under one number, or neither, and then returns both.
fn commit_both(
    one: DirtyBitMap<2>,
    two: DirtyBitMap<2>,
    number: u64,
) -> Result<(CleanBitMap<2>, CleanBitMap<2>), Box<(DirtyBitMap<2>, DirtyBitMap<2>)>> {
    let one = match one.try_prepare(number) {
        Ok(one) => one,
        Err((one, _)) => return Err(Box::new((one, two))),
    };
    match two.try_prepare(number) {
        Ok(two) => Ok((one.commit(), two.commit())),
        Err((two, _)) => Err(Box::new((one.into_dirty(), two))),
    }
}

#[test]
fn two_bitmaps_are_committed_or_neither() {
    let make = |number| {
        let bitmap = CleanBitMap::<2>::new().apply_batch(number, |batch| {
            batch.push_chunk(&[1, 2]);
        });
        let mut batch = bitmap.unwrap().into_dirty();
        batch.set_bit(3, true).push(true);
        batch
    };
    let before = (batch_image(&make(1)), batch_image(&make(5)));
    let (one, two) = *commit_both(make(1), make(5), 5).unwrap_err();
    assert_eq!((batch_image(&one), batch_image(&two)), before);
    let (two, one) = *commit_both(two, one, 5).unwrap_err();
    assert_eq!((batch_image(&one), batch_image(&two)), before);
    let (one, two) = commit_both(one, two, 6).unwrap();
    assert!(one.commits().eq([1, 6]) && two.commits().eq([5, 6]));
}
