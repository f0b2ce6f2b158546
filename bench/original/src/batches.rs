//! Batches of edits of a historical bitmap.

use commonware_utils::bitmap::historical::{CleanBitMap, DirtyBitMap};
use commonware_utils::bitmap::Prunable;
use shared::{Positions, BYTE, PUSHES, SETS};

// The number of chunks that a batch appends and prunes.
const SLID: u64 = 100;

/// Returns a bitmap with one commit, of the whole chunks that `bytes` bytes fill.
pub fn filled<const N: usize>(bytes: u64) -> CleanBitMap<N> {
    let mut batch = CleanBitMap::<N>::new().into_dirty();
    for _ in 0..bytes / N as u64 {
        batch.push_chunk(&[BYTE; N]);
    }
    committed(batch, 0)
}

/// Commits a batch. The numbers of the benchmarks are in ascending order.
pub fn committed<const N: usize>(batch: DirtyBitMap<N>, number: u64) -> CleanBitMap<N> {
    batch.commit(number).expect("the number is above the last one")
}

/// Returns a random bit of a batch as a number, or 0 if the batch has pruned chunks.
pub fn read_random<const N: usize>(batch: &DirtyBitMap<N>, positions: &mut Positions) -> u64 {
    let position = positions.step() % batch.len().max(1);
    if batch.pruned_chunks() == 0 {
        return u64::from(batch.get_bit(position));
    }
    0
}

/// Returns how many of `count` random bits of a bitmap are set.
pub fn count_random<const N: usize>(found: &Prunable<N>, positions: &mut Positions, count: u64) -> u64 {
    let (first, bits) = (found.pruned_bits(), found.len());
    let mut sum = 0;
    for _ in 0..count {
        let position = positions.step() % bits.max(1);
        if position >= first {
            sum += u64::from(found.get_bit(position));
        }
    }
    sum
}

fn set_far<const N: usize>(batch: &mut DirtyBitMap<N>, positions: &mut Positions) {
    let bits = batch.len().max(1);
    for edit in 0..SETS {
        batch.set_bit(positions.step() % bits, edit % 2 == 0);
    }
}

fn push_bits<const N: usize>(batch: &mut DirtyBitMap<N>, count: u64) {
    for edit in 0..count {
        batch.push(edit % 3 == 0);
    }
}

fn pop_bits<const N: usize>(batch: &mut DirtyBitMap<N>) -> u64 {
    (0..SETS).fold(0, |sum, _| sum + u64::from(batch.pop()))
}

// Makes a random edit, or reads a random bit. Returns the bit that it removes or reads as a number.
fn edit_or_read<const N: usize>(batch: &mut DirtyBitMap<N>, drawn: u64) -> u64 {
    let value = drawn & 8 == 8;
    let position = drawn / 16 % batch.len().max(1);
    match drawn % 8 {
        0..=2 => batch.set_bit(position, value),
        3 | 4 => batch.push(value),
        5 | 6 => return u64::from(batch.pop()),
        _ => return u64::from(batch.get_bit(position)),
    };
    0
}

fn slide<const N: usize>(batch: &mut DirtyBitMap<N>) {
    for _ in 0..SLID {
        batch.push_chunk(&[BYTE; N]);
    }
    let chunks = batch.pruned_chunks() as u64 + SLID;
    batch.prune_to_bit(chunks * 8 * N as u64);
}

/// Makes the edits of a batch that a name says, and returns how many of the bits that they remove or read are set.
pub fn edit<const N: usize>(batch: &mut DirtyBitMap<N>, edits: &str, positions: &mut Positions) -> Option<u64> {
    match edits {
        "nothing" => {}
        "set_far" => set_far(batch, positions),
        "set_near" => (0..SETS).for_each(|edit| {
            batch.set_bit(edit % 8, edit % 3 == 0);
        }),
        "push" => push_bits(batch, PUSHES),
        "push_byte" => {
            batch.push(true);
            (0..PUSHES).for_each(|edit| {
                batch.push_byte((edit % 256) as u8);
            });
        }
        "push_chunk" => {
            batch.push(true);
            (0..PUSHES).for_each(|_| {
                batch.push_chunk(&[BYTE; N]);
            });
        }
        "pop" => return Some(pop_bits(batch)),
        "push_pop" => {
            push_bits(batch, SETS);
            return Some(pop_bits(batch));
        }
        "mixed" => return Some((0..SETS).fold(0, |sum, _| sum + edit_or_read(batch, positions.step()))),
        "slide" => slide(batch),
        _ => return None,
    }
    Some(0)
}
