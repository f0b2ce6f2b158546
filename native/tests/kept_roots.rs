//! Roots and proofs of the versions that a bitmap keeps: they are those of a second computation, and those that are computed from all chunks.

#[path = "../examples/sha256/mod.rs"]
mod sha256;

use mortarpink::AllocError;
use mortarpink::bitmap::historical::{CleanBitMap, DirtyBitMap, Error, RewindError};
use mortarpink::bitmap::{BitMap, Readable};
use mortarpink::roots::{
    AuthenticatedBitMap, DirtyAuthenticatedBitMap, Proof, RangeProof, bitmap_root, chunk_digests, leaf_digest, prove, prove_range,
    verify_bit, verify_chunk,
};
use sha256::{Hasher, Sha256};

type Digests = Vec<[u8; 32]>;
type Map<const N: usize> = AuthenticatedBitMap<N, Sha256>;
type Batch<const N: usize> = DirtyAuthenticatedBitMap<N, Sha256>;

/// The same chain of edits of two batches.
macro_rules! edit_both {
    ($one:expr, $other:expr, $($edits:tt)*) => {{
        $one.$($edits)*;
        $other.$($edits)*;
    }};
}

/// The edits of version `k`, each of which depends on `k` alone: those of `edited` in `tools/roots.py`.
fn edit_version(batch: &mut Batch<3>, k: u64) {
    let retained = |batch: &Batch<3>| batch.bits().len() - 24 * batch.bits().pruned_chunks() as u64;
    batch.truncate(batch.bits().len() - (7 * (k % 4)).min(retained(batch)));
    for _ in 0..11 * (k % 6) {
        let place = batch.bits().len();
        batch.push(place * k % 7 < 3);
    }
    if retained(batch) > 0 {
        let first = batch.bits().len() - retained(batch);
        batch.set_bit(first + 5 * k % retained(batch), k % 2 == 1);
    }
    if k.is_multiple_of(13) {
        let end = batch.bits().len() + 60;
        batch.extend_from_bitmap(&BitMap::ones(60)).prune_to_bit(end);
    } else if k.is_multiple_of(5) {
        batch.prune_to_bit(batch.bits().len().saturating_sub(40));
    }
}

/// Commits the versions of some numbers.
fn with_versions(map: Map<3>, numbers: std::ops::RangeInclusive<u64>) -> Map<3> {
    numbers.fold(map, |map, number| {
        let mut batch = map.into_dirty();
        edit_version(&mut batch, number);
        batch.commit(number).unwrap()
    })
}

/// What `tools/roots.py` computes of the same versions: its function `digest_of_versions` says what is hashed.
const OF_VERSIONS: &str = "8637956114ae9dfd234b11e45947f9a32dcad51fb18b270449a8860d8337be29";

#[test]
fn roots_and_proofs_of_versions_are_those_of_a_second_computation() {
    let map = with_versions(AuthenticatedBitMap::new(Sha256), 1..=30);
    let mut map = with_versions(map.rewind_to(24).unwrap(), 31..=40);
    assert_eq!(map.prune_commits_before(5), 4);
    let mut hasher = Hasher::new();
    for number in map.bits().commits() {
        let past = map.bits().at(number).unwrap();
        let (len, pruned, count) = (past.len(), past.pruned_chunks(), past.len().div_ceil(24) as usize);
        hasher.update(&map.root_at(number).unwrap());
        let chunks: Vec<[u8; 3]> = (pruned..count).map(|index| past.retained_bytes(index).unwrap()).collect();
        for (index, chunk) in (pruned..).zip(&chunks) {
            let path = map.prove_at(number, index).unwrap();
            hasher.update(&Proof { len, pruned: pruned as u64, index: index as u64, chunk, path: &path }.write());
        }
        if let Some(siblings) = map.prove_range_at(number, pruned, chunks.len()) {
            hasher.update(&RangeProof { len, pruned: pruned as u64, first: pruned as u64, chunks: &chunks, siblings: &siblings }.write());
        }
    }
    assert_eq!(hasher.finalize().map(|byte| format!("{byte:02x}")).concat(), OF_VERSIONS);
    assert_eq!(map.root_at(40), Some(map.root()));
}

/// Numbers that depend on a seed alone.
struct Chance(u64);

impl Chance {
    fn below(&mut self, end: u64) -> u64 {
        self.0 = self.0.wrapping_mul(6364136223846793005).wrapping_add(1442695040888963407);
        (self.0 >> 33) % end
    }

    fn bit(&mut self) -> bool {
        self.below(2) == 1
    }
}

/// Makes an edit of a random kind in both batches.
fn edit<const N: usize>(batch: &mut Batch<N>, twin: &mut DirtyBitMap<N>, chance: &mut Chance) -> Result<(), AllocError> {
    let (start, end) = (8 * N as u64 * twin.pruned_chunks() as u64, twin.len());
    let (retained, bit) = (end - start, chance.bit());
    match chance.below(12) {
        0 => edit_both!(batch, twin, push(bit)),
        1 => edit_both!(batch, twin, try_push_byte(end as u8)?),
        2 => edit_both!(batch, twin, push_chunk(&[end as u8; N])),
        3 => {
            let len = end + chance.below(30);
            edit_both!(batch, twin, try_extend_to(len)?);
        }
        4 | 5 if retained > 0 => {
            let position = start + chance.below(retained);
            edit_both!(batch, twin, set_bit(position, bit));
        }
        6 if retained > 0 => {
            let from = start + chance.below(retained);
            let to = from + chance.below(end - from + 1);
            edit_both!(batch, twin, try_set_range(from..to, bit)?);
        }
        7 if retained > 0 => {
            let index = ((start + chance.below(retained)) / (8 * N as u64)) as usize;
            edit_both!(batch, twin, set_chunk(index, &[!end as u8; N]));
        }
        8 if end > 40 => {
            let position = (start + chance.below(retained + 1)).min(end - 20);
            edit_both!(batch, twin, prune_to_bit(position));
        }
        9 if retained > 0 => {
            let len = end - chance.below(retained.min(20) + 1);
            edit_both!(batch, twin, truncate(len));
        }
        _ if retained > 0 => assert_eq!(batch.pop(), twin.pop()),
        _ => edit_both!(batch, twin, push(bit)),
    }
    Ok(())
}

/// A bitmap with roots beside a bitmap that has the same edits. Of each kept version, and of the current bitmap, there are the digests of all chunks.
struct History<const N: usize> {
    map: Map<N>,
    twin: CleanBitMap<N>,
    versions: Vec<Version>,
    current: Digests,
}

/// A kept version, with the root that was computed from all its chunks when it was committed.
#[derive(Clone)]
struct Version {
    number: u64,
    digests: Digests,
    root: [u8; 32],
}

/// The digests of the chunks of a bitmap that follows one with the digests `before`: a pruned chunk keeps its digest, and one that no version has had
/// that of zeros.
fn digests_after<const N: usize>(before: &Digests, bitmap: &impl Readable<N>) -> Digests {
    let mut pruned = before.clone();
    pruned.resize(bitmap.pruned_chunks(), leaf_digest(&Sha256, &[0; N]));
    chunk_digests(&Sha256, bitmap, &pruned)
}

impl<const N: usize> History<N> {
    fn new() -> Self {
        History { map: AuthenticatedBitMap::new(Sha256), twin: CleanBitMap::new(), versions: Vec::new(), current: Vec::new() }
    }

    /// The number above the last one.
    fn next_number(&self) -> u64 {
        self.map.bits().last_number().map_or(0, |last| last + 1)
    }

    /// Edits both bitmaps, and commits them under a number, after the errors of numbers that are not allowed. Some batches are aborted.
    fn commit(self, number: u64, chance: &mut Chance) -> Self {
        let History { map, twin, mut versions, current } = self;
        let (before, last) = (image(&map), map.bits().last_number());
        let (mut batch, mut twin) = (map.into_dirty(), twin.into_dirty());
        for _ in 0..chance.below(8) {
            edit(&mut batch, &mut twin, chance).unwrap();
        }
        assert_eq!(batch_image(batch.bits()), batch_image(&twin));
        for wrong in [last, Some(u64::MAX)].into_iter().flatten() {
            let (returned, error) = batch.try_commit(wrong).unwrap_err();
            assert_eq!(error, twin.clone().commit(wrong).unwrap_err());
            assert_eq!(batch_image(returned.bits()), batch_image(&twin));
            batch = returned;
        }
        if chance.below(6) == 0 {
            let map = batch.abort();
            assert_eq!(image(&map), before);
            return History { map, twin: twin.abort(), versions, current };
        }
        let (map, twin) = (batch.commit(number).unwrap(), twin.commit(number).unwrap());
        let current = digests_after(&current, twin.current());
        let root = bitmap_root(&Sha256, twin.current(), &current);
        versions.push(Version { number, digests: current.clone(), root });
        History { map, twin, versions, current }
    }

    /// Rewinds both bitmaps to a kept version, after the error of a number that is not kept.
    fn rewind(self, chance: &mut Chance) -> Self {
        let (before, wrong) = (image(&self.map), self.next_number());
        let (map, error) = self.map.rewind_to(wrong).unwrap_err();
        assert_eq!((image(&map), error), (before, RewindError::NoSuchCommit));
        if self.versions.is_empty() {
            return History { map, ..self };
        }
        let mut versions = self.versions;
        versions.truncate(1 + chance.below(versions.len() as u64) as usize);
        let Version { number, digests: current, .. } = versions.last().cloned().unwrap();
        let twin = self.twin.rewind_to(number).map_err(|(_, error)| error).unwrap();
        History { map: map.rewind_to(number).map_err(|(_, error)| error).unwrap(), twin, versions, current }
    }

    /// Drops the versions below a number, or all of them.
    fn drop_versions(&mut self, chance: &mut Chance) {
        if chance.below(4) == 0 {
            self.map.clear_history();
            self.twin.clear_history();
            self.versions.clear();
        } else if let Some(Version { number, .. }) = self.versions.get(chance.below(6) as usize) {
            let (number, before) = (*number, self.versions.len());
            self.versions.retain(|version| version.number >= number);
            assert_eq!(self.map.prune_commits_before(number), before - self.versions.len());
            self.twin.prune_commits_before(number);
        }
    }

    /// Compares the bitmap with its twin, and the root of each version with the one that was computed from all its chunks.
    fn check(&self, chance: &mut Chance) {
        assert_eq!(clean_image(self.map.bits()), clean_image(&self.twin));
        assert_eq!(self.map.root(), bitmap_root(&Sha256, self.twin.current(), &self.current));
        assert!(self.map.bits().commits().eq(self.versions.iter().map(|version| version.number)));
        for Version { number, root, .. } in &self.versions {
            assert_eq!(self.map.root_at(*number), Some(*root), "version {number}");
        }
        for number in [self.next_number(), u64::MAX] {
            assert!(self.map.root_at(number).is_none() && self.map.prove_at(number, 0).is_none());
            assert!(self.map.prove_range_at(number, 0, 1).is_none());
        }
        if !self.versions.is_empty() {
            let version = &self.versions[chance.below(self.versions.len() as u64) as usize];
            self.check_proofs(version, chance);
            self.check_ranges(version, chance);
        }
        self.check_current(chance);
    }

    /// Computes the root of each version from the chunks that it has now.
    fn check_from_scratch(&self) {
        for Version { number, digests, root } in &self.versions {
            let past = self.map.bits().at(*number).unwrap();
            assert_eq!(bitmap_root(&Sha256, &past, &chunk_digests(&Sha256, &past, &digests[..past.pruned_chunks()])), *root);
        }
    }

    /// The proofs of some chunks of a version show them, and no other bit, chunk or version.
    fn check_proofs(&self, version: &Version, chance: &mut Chance) {
        let Version { number, digests, root } = version;
        let past = self.twin.at(*number).unwrap();
        let (len, pruned) = (past.len(), past.pruned_chunks() as u64);
        let paths: Vec<Digests> = (0..digests.len()).map(|index| self.map.prove_at(*number, index).unwrap()).collect();
        assert!(self.map.prove_at(*number, digests.len()).is_none());
        let retained = digests.len() as u64 - pruned;
        for _ in 0..retained.min(3) {
            let index = (pruned + chance.below(retained)) as usize;
            let (chunk, path) = (past.retained_bytes(index).unwrap(), &paths[index]);
            let proof = Proof { len, pruned, index: index as u64, chunk: &chunk, path };
            assert!(proof.verify(&Sha256, root), "chunk {index} of version {number}");
            // A neighbour with the same bytes and digests beside it is shown by the same proof.
            for other in [index.wrapping_sub(1), index + 1] {
                let is_same = other < digests.len() && (digests[other], &paths[other]) == (digests[index], path);
                assert_eq!(Proof { index: other as u64, ..proof }.verify(&Sha256, root), is_same);
            }
            let position = 8 * (N * index) as u64 + chance.below(8 * N as u64);
            let mut changed = chunk;
            changed[(position / 8) as usize - N * index] ^= 1 << (position % 8);
            assert!(!Proof { chunk: &changed, ..proof }.verify(&Sha256, root));
            for bit in [false, true] {
                let is_there = position < len && past.get_bit(position) == bit;
                assert_eq!(verify_bit(&Sha256, root, len, pruned, position, bit, &chunk, path), is_there);
            }
            for other in &self.versions {
                let is_shown = proof.verify(&Sha256, &other.root);
                assert_eq!(is_shown, other.root == *root, "chunk {index} of {number}, by the root of {}", other.number);
            }
        }
    }

    /// The proofs of the current bitmap are those of the last version, if it is kept, and those from the digests of all chunks.
    fn check_current(&self, chance: &mut Chance) {
        if self.current.is_empty() {
            return;
        }
        let first = chance.below(self.current.len() as u64) as usize;
        let count = 1 + chance.below((self.current.len() - first) as u64) as usize;
        let (path, siblings) = (self.map.prove(first), self.map.prove_range(first, count));
        assert_eq!(path, prove(&Sha256, &self.current, first));
        assert_eq!(siblings, prove_range(&Sha256, &self.current, first, count));
        if let Some(Version { number, .. }) = self.versions.last() {
            assert_eq!(self.map.prove_at(*number, first), Some(path));
            assert_eq!(self.map.prove_range_at(*number, first, count), Some(siblings));
        }
    }

    /// A proof of a range of chunks of a version shows these chunks, and no changed one. Ranges that the version does not have give none.
    fn check_ranges(&self, version: &Version, chance: &mut Chance) {
        let Version { number, digests, root } = version;
        let past = self.twin.at(*number).unwrap();
        let (pruned, count) = (past.pruned_chunks(), digests.len());
        for (first, count) in [(0, 0), (0, count + 1), (count, 1), (count + 1, 0), (1, usize::MAX), (usize::MAX, 1)] {
            assert!(self.map.prove_range_at(*number, first, count).is_none(), "{count} chunks from {first} on");
        }
        if pruned == count {
            return;
        }
        let first = pruned + chance.below((count - pruned) as u64) as usize;
        let end = first + 1 + chance.below((count - first) as u64) as usize;
        let mut chunks: Vec<[u8; N]> = (first..end).map(|index| past.retained_bytes(index).unwrap()).collect();
        let siblings = self.map.prove_range_at(*number, first, end - first).unwrap();
        let verifies = |chunks: &[[u8; N]]| {
            let proof = RangeProof { len: past.len(), pruned: pruned as u64, first: first as u64, chunks, siblings: &siblings };
            proof.verify(&Sha256, root)
        };
        assert!(verifies(&chunks) && !verifies(&chunks[1..]));
        let changed = chance.below(chunks.len() as u64) as usize;
        chunks[changed][N - 1] ^= 1 << chance.below(8);
        assert!(!verifies(&chunks));
    }
}

/// All that users can read of a bitmap with commits.
#[derive(Debug, PartialEq)]
struct CleanImage {
    current: Vec<u8>,
    last: Option<u64>,
    past: Vec<(u64, Vec<u8>)>,
}

fn clean_image<const N: usize>(bitmap: &CleanBitMap<N>) -> CleanImage {
    let past = bitmap.commits().map(|number| (number, bitmap.get_at_commit(number).unwrap().encode()));
    CleanImage { current: bitmap.current().encode(), last: bitmap.last_number(), past: past.collect() }
}

/// All that users can read of a batch.
fn batch_image<const N: usize>(batch: &DirtyBitMap<N>) -> (u64, usize, Vec<u64>, Vec<usize>) {
    (batch.len(), batch.pruned_chunks(), batch.ones_iter_from(0).collect(), batch.changed_chunks().collect())
}

/// The same of a bitmap with roots, and its roots: the current one, and those of the kept versions.
fn image<const N: usize>(map: &Map<N>) -> (CleanImage, [u8; 32], Vec<Option<[u8; 32]>>) {
    (clean_image(map.bits()), map.root(), map.bits().commits().map(|number| map.root_at(number)).collect())
}

/// Runs some histories, each of twelve steps, of which most are commits. Returns how many versions they kept at their ends.
fn run<const N: usize>(seed: u64, histories: u64) -> usize {
    let (mut chance, mut kept) = (Chance(seed), 0);
    for _ in 0..histories {
        let mut history = History::<N>::new();
        for _ in 0..12 {
            history = match chance.below(8) {
                0 => history.rewind(&mut chance),
                1 => {
                    history.drop_versions(&mut chance);
                    history
                }
                _ => {
                    let number = history.next_number() + chance.below(3);
                    history.commit(number, &mut chance)
                }
            };
            history.check(&mut chance);
        }
        history.check_from_scratch();
        kept += history.versions.len();
    }
    kept
}

#[test]
fn random_histories_have_the_roots_of_their_bitmaps() {
    assert!(run::<1>(3, 100) > 200);
    assert!(run::<4>(5, 100) > 200);
}

#[test]
fn each_edit_is_that_of_a_batch() -> Result<(), AllocError> {
    let (mut batch, mut twin) = (AuthenticatedBitMap::<2, _>::new(Sha256).into_dirty(), CleanBitMap::<2>::new().into_dirty());
    let dense = BitMap::ones(20);
    edit_both!(batch, twin, extend_to(40).push(true).push_byte(0xa5).push_chunk(&[1, 2]).extend_from_bitmap(&dense));
    edit_both!(batch, twin, set_chunk(1, &[7, 8]).set_bit(30, true).set_range(17..27, false).prune_to_bit(20));
    assert_eq!(batch_image(batch.bits()), batch_image(&twin));
    edit_both!(batch, twin, try_extend_to(100)?.try_push(true)?.try_push_byte(0x5a)?.try_push_chunk(&[3, 4])?);
    edit_both!(batch, twin, try_extend_from_bitmap(&dense)?.try_set_bit(70, false)?.try_set_range(80..99, true)?);
    edit_both!(batch, twin, try_set_chunk(3, &[9, 10])?.try_prune_to_bit(40)?);
    assert_eq!(batch_image(batch.bits()), batch_image(&twin));
    assert_eq!((batch.pop(), batch.pop()), (twin.pop(), twin.pop()));
    edit_both!(batch, twin, truncate(120));
    assert_eq!(batch_image(batch.bits()), batch_image(&twin));
    let (map, twin) = (batch.commit(1).unwrap(), twin.commit(1).unwrap());
    assert_eq!(clean_image(map.bits()), clean_image(&twin));
    Ok(())
}

/// Versions whose commits are refused or aborted, and a number that is not kept.
#[test]
fn errors_leave_the_value() {
    let mut batch = Map::<1>::default().into_dirty();
    batch.push_chunk(&[5]);
    let map = batch.commit(7).unwrap();
    let before = image(&map);
    let mut batch = map.into_dirty();
    batch.push_chunk(&[6]).prune_to_bit(8);
    let (batch, error) = batch.try_commit(7).unwrap_err();
    assert_eq!(error, Error::NonMonotonicCommit { previous: 7, attempted: 7 });
    let (batch, error) = batch.try_commit(u64::MAX).unwrap_err();
    assert_eq!((error, batch.bits().pruned_chunks()), (Error::ReservedCommitNumber, 1));
    let map = batch.abort();
    assert_eq!(image(&map), before);
    for number in [0, 6, 8, u64::MAX] {
        assert_eq!(map.root_at(number), None);
    }
    let (map, error) = map.rewind_to(u64::MAX).unwrap_err();
    assert_eq!((image(&map), error), (before, RewindError::NoSuchCommit));
    let mut batch = map.into_dirty();
    batch.push(true);
    assert_eq!(batch.commit(7).unwrap_err(), Error::NonMonotonicCommit { previous: 7, attempted: 7 });
}

/// A path from before a chunk was pruned stays good, with the new number of pruned chunks. So does the one that is made then.
#[test]
fn a_pruned_chunk_keeps_its_proof() {
    let mut batch = Map::<4>::default().into_dirty();
    for byte in 1..=5 {
        batch.push_chunk(&[byte; 4]);
    }
    let map = batch.commit(1).unwrap();
    let path = map.prove(0);
    let mut batch = map.into_dirty();
    batch.prune_to_bit(64);
    let map = batch.commit(2).unwrap();
    assert_eq!((map.prove(0), map.prove_at(1, 0), map.prove_at(2, 0)), (path.clone(), Some(path.clone()), Some(path.clone())));
    for (pruned, is_shown) in [(0, false), (1, false), (2, true)] {
        assert_eq!(verify_chunk(map.hash(), &map.root(), 160, pruned, 0, &[1; 4], &path), is_shown);
    }
}
