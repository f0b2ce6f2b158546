//! What the programs of the peers share: versions that are all kept, and the words of a dense bitmap.

pub mod croaring;

use im_rc::Vector;
use shared::{Arguments, Positions, BYTE, PUSHES, SETS, SPARSE};

/// A bitmap with the versions that it has had.
pub trait Versions {
    /// Returns a bitmap of some words, which are its first version.
    fn from_words(words: Vec<u64>) -> Self;

    /// Sets a bit to a value.
    fn set(&mut self, position: u64, value: bool);

    /// Appends a bit.
    fn push(&mut self, value: bool);

    /// Keeps the bitmap as a version.
    fn commit(&mut self);

    /// Returns a bit of a version. Versions are counted from 0.
    fn get(&self, version: usize, position: u64) -> bool;
}

/// A list of words.
pub trait Words: Clone + FromIterator<u64> {
    /// Returns the word at an index.
    fn word(&self, index: usize) -> u64;

    /// Replaces the word at an index.
    fn put(&mut self, index: usize, word: u64);

    /// Appends a word.
    fn append(&mut self, word: u64);
}

impl Words for Vec<u64> {
    fn word(&self, index: usize) -> u64 {
        self[index]
    }

    fn put(&mut self, index: usize, word: u64) {
        self[index] = word;
    }

    fn append(&mut self, word: u64) {
        self.push(word);
    }
}

impl Words for Vector<u64> {
    fn word(&self, index: usize) -> u64 {
        self[index]
    }

    fn put(&mut self, index: usize, word: u64) {
        self.set(index, word);
    }

    fn append(&mut self, word: u64) {
        self.push_back(word);
    }
}

/// A bitmap in a list of words, with a clone of the list for each version.
pub struct Clones<W> {
    current: W,
    bits: u64,
    kept: Vec<W>,
}

impl<W: Words> Versions for Clones<W> {
    fn from_words(words: Vec<u64>) -> Self {
        let bits = 64 * words.len() as u64;
        let current: W = words.into_iter().collect();
        let kept = vec![current.clone()];
        Clones { current, bits, kept }
    }

    fn set(&mut self, position: u64, value: bool) {
        let index = (position / 64) as usize;
        self.current.put(index, with_bit(self.current.word(index), position, value));
    }

    fn push(&mut self, value: bool) {
        if self.bits % 64 == 0 {
            self.current.append(u64::from(value));
        } else if value {
            self.set(self.bits, true);
        }
        self.bits += 1;
    }

    fn commit(&mut self) {
        self.kept.push(self.current.clone());
    }

    fn get(&self, version: usize, position: u64) -> bool {
        self.kept[version].word((position / 64) as usize) >> (position % 64) & 1 == 1
    }
}

// Sets the bit at `position`, which is counted in the bits of a word.
fn with_bit(word: u64, position: u64, value: bool) -> u64 {
    let mask = 1 << (position % 64);
    if value {
        word | mask
    } else {
        word & !mask
    }
}

// Counts the set bits among some random ones of a version.
fn count_random(bitmap: &impl Versions, version: u64, bits: u64) -> u64 {
    let mut positions = Positions::from_seed(1);
    (0..SETS).map(|_| u64::from(bitmap.get(version as usize, positions.step() % bits.max(1)))).sum()
}

/// Edits and commits, with all versions kept, if `arguments` name such a call.
pub fn keep_each<V: Versions>(arguments: &Arguments) -> Option<u64> {
    let edits = arguments.call.strip_prefix("keep_")?;
    let (mut bits, times) = (8 * arguments.bytes, arguments.times);
    let mut bitmap = V::from_words(vec![u64::from_le_bytes([BYTE; 8]); (bits / 64) as usize]);
    let mut positions = Positions::from_seed(times);
    let mut earlier = bits;
    for _ in 0..times {
        earlier = bits;
        match edits {
            "set_far" => (0..SETS).for_each(|edit| bitmap.set(positions.step() % bits, edit % 2 == 0)),
            "set_near" => (0..SETS).for_each(|edit| bitmap.set(edit % 8, edit % 3 == 0)),
            "push" => (0..PUSHES).for_each(|edit| bitmap.push(edit % 3 == 0)),
            _ => return None,
        }
        bits += if edits == "push" { PUSHES } else { 0 };
        bitmap.commit();
    }
    let read = count_random(&bitmap, times, bits) + count_random(&bitmap, times.saturating_sub(1), earlier);
    Some(read + bits)
}

/// Returns the words of a dense bitmap. Four of each eight bits are set.
pub fn dense(bytes: u64) -> Vec<u64> {
    vec![u64::from_le_bytes([0b1001_0110; 8]); (bytes / 8) as usize]
}

/// Returns the words of a bitmap with about one set bit in `SPARSE`, at random positions.
pub fn sparse(bytes: u64) -> Vec<u64> {
    let bits = 8 * bytes;
    let mut words = vec![0; (bytes / 8) as usize];
    let mut positions = Positions::from_seed(SPARSE);
    for _ in 0..bits / SPARSE {
        let position = positions.step() % bits;
        let word = &mut words[(position / 64) as usize];
        *word = with_bit(*word, position, true);
    }
    words
}
