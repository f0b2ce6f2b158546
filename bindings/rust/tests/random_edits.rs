//! Random batches, compared with lists of bits.

mod random;

use mortarpink_proved::{Batch, Bitmap, Error, Version, Width};
use random::Random;

/// A bitmap as a list of its retained bits.
#[derive(Clone)]
struct List {
    width: Width,
    pruned_chunks: u64,
    bits: Vec<bool>,
}

impl List {
    fn first(&self) -> u64 {
        self.pruned_chunks * self.width.bits()
    }

    fn len(&self) -> u64 {
        self.first() + self.bits.len() as u64
    }

    fn get(&self, position: u64) -> Result<bool, Error> {
        if position >= self.len() {
            return Err(Error::OutOfBounds);
        }
        let index = position.checked_sub(self.first()).ok_or(Error::Pruned)?;
        Ok(self.bits[index as usize])
    }

    /// Returns the retained positions with a bit.
    fn positions(&self, bit: bool) -> impl DoubleEndedIterator<Item = u64> {
        (self.first()..self.len()).filter(move |position| self.get(*position) == Ok(bit))
    }

    fn packed(&self, from: u64, to: u64) -> Result<Vec<u8>, Error> {
        if from > to || to > self.len() {
            return Err(Error::OutOfBounds);
        }
        let first = from.checked_sub(self.first()).ok_or(Error::Pruned)?;
        let bits = &self.bits[first as usize..(to - self.first()) as usize];
        let byte = |bits: &[bool]| bits.iter().rev().fold(0, |byte, bit| 2 * byte + u8::from(*bit));
        Ok(bits.chunks(8).map(byte).collect())
    }

    fn chunk(&self, position: u64) -> Result<Vec<u8>, Error> {
        self.get(position)?;
        let first = position / self.width.bits() * self.width.bits();
        let mut bytes = vec![0; self.width.bytes()];
        for bit in 0..self.width.bits() {
            if self.get(first + bit) == Ok(true) {
                bytes[bit as usize / 8] |= 1 << (bit % 8);
            }
        }
        Ok(bytes)
    }

    fn to_bytes(&self) -> Vec<u8> {
        let numbers = [self.pruned_chunks.to_be_bytes(), (self.len() - self.first()).to_be_bytes()];
        let firsts = (self.first()..self.len()).step_by(self.width.bits() as usize);
        numbers
            .concat()
            .into_iter()
            .chain(firsts.flat_map(|first| self.chunk(first).unwrap()))
            .collect()
    }

    /// Returns the indices of the chunks that differ.
    fn changed_chunks(&self, to: &List) -> Vec<u64> {
        let chunks = self.len().max(to.len()).div_ceil(self.width.bits());
        let last = |list: &List, index| list.len().min((index + 1) * self.width.bits()).max(1) - 1;
        let bytes = |list: &List, index| {
            let position = last(list, index);
            (position / self.width.bits() == index).then(|| list.chunk(position).ok()).flatten()
        };
        (0..chunks).filter(|index| bytes(self, *index) != bytes(to, *index)).collect()
    }

    fn push_bytes(&mut self, bytes: &[u8]) {
        let bits = bytes.iter().flat_map(|byte| (0..8).map(move |k| byte >> k & 1 == 1));
        self.bits.extend(bits);
    }

    fn set(&mut self, position: u64, bit: bool) -> Result<(), Error> {
        self.get(position)?;
        let index = position - self.first();
        self.bits[index as usize] = bit;
        Ok(())
    }

    fn set_many(&mut self, positions: &[u64], bit: bool) -> (usize, Result<(), Error>) {
        for (index, &position) in positions.iter().enumerate() {
            if let Err(error) = self.set(position, bit) {
                return (index, Err(error));
            }
        }
        (positions.len(), Ok(()))
    }

    fn set_chunk(&mut self, index: u64, bytes: &[u8]) -> Result<(), Error> {
        self.get(index * self.width.bits())?;
        for bit in 0..self.width.bits() {
            // The bits past the length are ignored.
            let value = bytes[bit as usize / 8] >> (bit % 8) & 1 == 1;
            let _ = self.set(index * self.width.bits() + bit, value);
        }
        Ok(())
    }

    fn set_range(&mut self, from: u64, to: u64, bit: bool) -> Result<(), Error> {
        if from < to && to > self.len() {
            return Err(Error::OutOfBounds);
        }
        (from..to).try_for_each(|position| self.set(position, bit))
    }

    fn truncate(&mut self, len: u64) -> Result<(), Error> {
        if len > self.len() {
            return Err(Error::OutOfBounds);
        }
        let kept = len.checked_sub(self.first()).ok_or(Error::Pruned)?;
        self.bits.truncate(kept as usize);
        Ok(())
    }

    fn extend_to(&mut self, len: u64) {
        while self.len() < len {
            self.bits.push(false);
        }
    }

    fn prune(&mut self, position: u64) -> Result<(), Error> {
        if position > self.len() {
            return Err(Error::OutOfBounds);
        }
        let first = (position / self.width.bits() * self.width.bits()).max(self.first());
        self.bits.drain(..(first - self.first()) as usize);
        self.pruned_chunks = first / self.width.bits();
        Ok(())
    }
}

/// Makes the same random edit of many bits in a batch and in a list.
fn edit_many(batch: &mut Batch<'_>, list: &mut List, random: &mut Random) {
    let (from, to, bit) =
        (random.below(list.len() + 2), random.below(list.len() + 2), random.below(2) == 1);
    match random.below(6) {
        0 => {
            let bits: Vec<bool> = (0..random.below(100)).map(|_| random.below(2) == 1).collect();
            batch.push_bits(&bits).unwrap();
            list.bits.extend(bits);
        }
        1 => {
            let positions: Vec<u64> = (0..3).map(|_| random.below(list.len() + 1)).collect();
            let (replaced, result) = list.set_many(&positions, bit);
            let failed = batch.set_many(&positions, bit).err();
            assert_eq!(failed.map(|failed| (failed.replaced(), failed.error())), {
                result.err().map(|error| (replaced, error))
            });
        }
        2 => {
            let (index, chunk) = (from / list.width.bits(), vec![to as u8; list.width.bytes()]);
            assert_eq!(batch.set_chunk(index, &chunk), list.set_chunk(index, &chunk));
        }
        3 if random.below(4) == 0 => assert_eq!(batch.truncate(from), list.truncate(from)),
        4 => {
            batch.extend_to(from + 9).unwrap();
            list.extend_to(from + 9);
        }
        _ => assert_eq!(batch.set_range(from..to, bit), list.set_range(from, to, bit)),
    }
}

/// Makes the same random edit in a batch and in a list.
fn edit(batch: &mut Batch<'_>, list: &mut List, random: &mut Random) {
    let (position, bit) = (random.below(list.len() + 2), random.below(2) == 1);
    let bytes: Vec<u8> = (0..random.below(20)).map(|_| random.below(256) as u8).collect();
    match random.below(10) {
        0 => {
            batch.push(bit).unwrap();
            list.bits.push(bit);
        }
        1 => {
            batch.push_byte(position as u8).unwrap();
            list.push_bytes(&[position as u8]);
        }
        2 => {
            batch.push_bytes(&bytes).unwrap();
            list.push_bytes(&bytes);
        }
        3 => {
            let chunk = vec![random.below(256) as u8; list.width.bytes()];
            batch.push_chunk(&chunk).unwrap();
            list.push_bytes(&chunk);
        }
        4 => assert_eq!(batch.pop().ok(), list.bits.pop()),
        5 if random.below(4) == 0 => assert_eq!(batch.prune(position), list.prune(position)),
        8.. => edit_many(batch, list, random),
        _ => assert_eq!(batch.set(position, bit), list.set(position, bit)),
    }
    let position = random.below(list.len() + 2);
    assert_eq!(batch.get(position), list.get(position));
    assert_eq!(batch.chunk(position).map(|chunk| chunk.to_vec()), list.chunk(position));
    assert_eq!((batch.len(), batch.pruned_chunks()), (list.len(), list.pruned_chunks));
}

/// Compares all reads of a bitmap or of a version with those of a list.
macro_rules! compare {
    ($name:ident, $of:ty) => {
        fn $name(reads: $of, list: &List, random: &mut Random) {
            assert_eq!((reads.len(), reads.pruned_chunks()), (list.len(), list.pruned_chunks));
            assert!(reads.ones(..).eq(list.positions(true)));
            assert_eq!(reads.to_bytes().unwrap(), list.to_bytes());
            let (from, to) = (random.below(list.len() + 2), random.below(list.len() + 2));
            let ones: Vec<u64> =
                list.positions(true).filter(|one| (from..to).contains(one)).collect();
            assert!(reads.ones(from..to).eq(ones.iter().copied()));
            assert_eq!(reads.count_ones(from..to), ones.len() as u64);
            assert_eq!(reads.select_one(from / 2), list.positions(true).nth(from as usize / 2));
            assert_eq!(reads.next_one(from), list.positions(true).find(|one| *one >= from));
            assert_eq!(reads.next_zero(from), list.positions(false).find(|zero| *zero >= from));
            assert_eq!(reads.prev_one(to), list.positions(true).rfind(|one| *one < to));
            assert_eq!(reads.prev_zero(to), list.positions(false).rfind(|zero| *zero < to));
            assert_eq!(reads.packed(from..to), list.packed(from, to));
            assert_eq!(reads.get(from), list.get(from));
            assert_eq!(reads.chunk(to).map(|chunk| chunk.to_vec()), list.chunk(to));
        }
    };
}

compare!(compare_current, &Bitmap);
compare!(compare_version, Version<'_>);

/// A bitmap, and lists of its current version and of its commits.
struct Pair {
    bitmap: Bitmap,
    current: List,
    commits: Vec<(u64, List)>,
}

impl Pair {
    fn new(width: Width) -> Pair {
        let current = List { width, pruned_chunks: 0, bits: Vec::new() };
        Pair { bitmap: Bitmap::new(width).unwrap(), current, commits: Vec::new() }
    }

    /// Runs a batch of random edits, and commits or aborts it.
    fn batch(&mut self, random: &mut Random, number: u64) {
        let mut list = self.current.clone();
        let mut batch = self.bitmap.begin();
        for _ in 0..random.below(12) {
            edit(&mut batch, &mut list, random);
        }
        if random.below(5) == 0 {
            return batch.abort();
        }
        batch.commit(number).unwrap();
        self.current = list.clone();
        self.commits.push((number, list));
    }

    /// Brings a replica of the first kept commit to the last one, and returns it.
    fn replica(&self) -> Bitmap {
        let (first, last) = (self.commits[0].0, self.commits[self.commits.len() - 1].0);
        let mut replica = self.bitmap.try_clone().unwrap();
        replica.rewind_to(first).unwrap();
        if let Some(delta) = self.bitmap.delta(first, last).unwrap() {
            replica.apply_delta(&delta).unwrap();
        }
        replica
    }

    /// Rewinds, drops commits, or replaces the bitmap by a copy.
    fn change(&mut self, random: &mut Random) {
        let index = random.below(self.commits.len() as u64) as usize;
        let number = self.commits[index].0;
        match random.below(12) {
            0 => {
                self.bitmap.rewind_to(number).unwrap();
                self.current = self.commits[index].1.clone();
                self.commits.truncate(index + 1);
            }
            1 => {
                assert_eq!(self.bitmap.drop_before(number), Ok(index as u64));
                self.commits.drain(..index);
            }
            2 => self.bitmap = self.bitmap.try_clone().unwrap(),
            3 => {
                let bytes = self.bitmap.save().unwrap();
                let (loaded, used) = Bitmap::load(self.current.width, &bytes, .., ..).unwrap();
                assert_eq!(used, bytes.len());
                self.bitmap = loaded;
            }
            _ => {}
        }
    }

    fn compare(&self, random: &mut Random) {
        compare_current(&self.bitmap, &self.current, random);
        assert!(self.bitmap.commits().eq(self.commits.iter().map(|commit| commit.0)));
        for (number, list) in &self.commits {
            compare_version(self.bitmap.at(*number).unwrap(), list, random);
        }
        let (from, to) = (&self.commits[0], &self.commits[self.commits.len() / 2]);
        let changed = self.bitmap.changed_chunks(from.0, to.0).unwrap();
        assert_eq!(changed.collect::<Vec<u64>>(), from.1.changed_chunks(&to.1));
        compare_current(&self.replica(), &self.current, random);
    }
}

#[test]
fn random_batches_match_lists() {
    let widths = [Width::Bytes1, Width::Bytes8, Width::Bytes32, Width::Bytes64];
    for (seed, width) in (1..).zip(widths) {
        let mut random = Random(seed);
        let mut pair = Pair::new(width);
        for number in 0..40 {
            pair.batch(&mut random, number);
            if !pair.commits.is_empty() {
                pair.change(&mut random);
                pair.compare(&mut random);
            }
        }
    }
}
