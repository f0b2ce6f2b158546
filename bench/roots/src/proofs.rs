//! Proofs of chunks at random, of the current version and of version 0, and what checks them.

use crate::hash::{word_of, Sha256};
use crate::versions::with_commits;
use mortarpink::roots::{AuthenticatedBitMap, Proof};
use shared::{timed, Arguments, Positions};
use std::hint::black_box;

// The chunks whose proofs are made have the positions of this seed.
const SEED: u64 = 10;

// So many proofs are checked in turn.
const PROOFS: u64 = 64;

type Rooted<const N: usize> = AuthenticatedBitMap<N, Sha256>;

// Returns the number of chunks of the current version, which are all whole.
fn chunks_of<const N: usize>(bitmap: &Rooted<N>) -> u64 {
    bitmap.bits().len() / (8 * N as u64)
}

// Makes the audit paths of `times` random chunks.
fn prove_each(chunks: u64, times: u64, prove: impl Fn(usize) -> Option<Vec<[u8; 32]>>) -> Option<u64> {
    let mut positions = Positions::from_seed(SEED);
    timed(|| {
        (0..times).try_fold(0, |sum: u64, _| {
            let path = prove((positions.step() % chunks) as usize)?;
            Some(sum.wrapping_add(path.first().map_or(0, word_of)))
        })
    })
}

// Makes the root of version 0, `times` times.
fn read_each<const N: usize>(bitmap: &Rooted<N>, times: u64) -> Option<u64> {
    timed(|| (0..times).try_fold(0, |sum: u64, _| Some(sum.wrapping_add(word_of(&bitmap.root_at(black_box(0))?)))))
}

// Returns the bytes of a proof of a chunk of the current version.
fn written<const N: usize>(bitmap: &Rooted<N>, chunk: u64) -> Vec<u8> {
    let (bytes, path) = (bitmap.bits().current().get_chunk(chunk as usize), bitmap.prove(chunk as usize));
    Proof { len: bitmap.bits().len(), pruned: 0, index: chunk, chunk: bytes, path: &path }.write()
}

// Reads and checks proofs of random chunks of the current version, `times` times. Returns how many bytes these proofs have.
fn verify_each<const N: usize>(bitmap: &Rooted<N>, times: u64) -> u64 {
    let (root, mut positions) = (bitmap.root(), Positions::from_seed(SEED));
    let proofs: Vec<_> = (0..PROOFS).map(|_| written(bitmap, positions.step() % chunks_of(bitmap))).collect();
    timed(|| {
        proofs.iter().cycle().take(times as usize).fold(0, |sum, bytes| {
            let proof = Proof::<N>::read(bytes).expect("the bytes are those of a proof");
            assert!(proof.verify(&Sha256, &root), "a proof does not verify");
            sum + bytes.len() as u64
        })
    })
}

/// Runs a call on roots or proofs with `count` small commits after version 0, if `arguments` name one.
pub fn run<const N: usize>(arguments: &Arguments, count: u64) -> Option<u64> {
    let times = arguments.times;
    let bitmap: Rooted<N> = with_commits(arguments.bytes, count);
    match arguments.call.as_str() {
        "prove" => prove_each(chunks_of(&bitmap), times, |chunk| Some(bitmap.prove(chunk))),
        "prove_at" => prove_each(chunks_of(&bitmap), times, |chunk| bitmap.prove_at(0, chunk)),
        "root_at" => read_each(&bitmap, times),
        "verify" => Some(verify_each(&bitmap, times)),
        _ => None,
    }
}
