//! Bitmaps whose chunks are stored in two parts, as pruning and appending leave them, do what a list of booleans does.

use mortarpink::bitmap::codec::RangeCfg;
use mortarpink::bitmap::historical::CleanBitMap;
use mortarpink::bitmap::{BitMap, Prunable, Readable};

/// A bitmap and the list of its bits, of which as many as are pruned are at the front.
struct Pair<const N: usize> {
    bitmap: Prunable<N>,
    bits: Vec<bool>,
}

/// A generator of numbers, with a fixed seed.
struct Numbers(u64);

impl Numbers {
    fn below(&mut self, end: u64) -> u64 {
        self.0 = self.0.wrapping_mul(6364136223846793005).wrapping_add(1442695040888963407);
        (self.0 >> 33) % end.max(1)
    }
}

impl<const N: usize> Pair<N> {
    fn new() -> Self {
        Pair { bitmap: Prunable::new(), bits: Vec::new() }
    }

    fn range(&self, numbers: &mut Numbers) -> std::ops::Range<u64> {
        let (first, end) = (self.bitmap.pruned_bits(), self.bitmap.len());
        let from = first + numbers.below(end - first + 1);
        from..from + numbers.below(end - from + 1)
    }

    /// One edit. Appending and pruning are the most frequent, so that the chunks move through their buffer.
    fn edit(&mut self, numbers: &mut Numbers) {
        match numbers.below(8) {
            0 | 1 => self.append(numbers),
            2 | 3 => {
                let bit = self.bitmap.pruned_bits() + numbers.below(self.bitmap.len() - self.bitmap.pruned_bits() + 1);
                self.bitmap.prune_to_bit(bit);
            }
            4 => self.fill(numbers),
            5 => self.shorten(numbers),
            6 => self.unprune(numbers),
            _ => {
                let range = self.range(numbers);
                if range.start < self.bitmap.len() {
                    self.bitmap.set_bit(range.start, !self.bits[range.start as usize]);
                    self.bits[range.start as usize] ^= true;
                }
            }
        }
    }

    fn append(&mut self, numbers: &mut Numbers) {
        let more: Vec<bool> = (0..numbers.below(40 * N as u64)).map(|_| numbers.below(3) == 0).collect();
        self.bitmap.extend_from_bitmap(&BitMap::<5>::from(&more));
        self.bits.extend(more);
    }

    fn fill(&mut self, numbers: &mut Numbers) {
        let (range, value) = (self.range(numbers), numbers.below(2) == 0);
        self.bitmap.set_range(range.clone(), value);
        self.bits[range.start as usize..range.end as usize].fill(value);
    }

    fn shorten(&mut self, numbers: &mut Numbers) {
        let len = self.bitmap.len() - numbers.below(self.bitmap.len() - self.bitmap.pruned_bits() + 1) / 4;
        self.bitmap.truncate(len);
        self.bits.truncate(len as usize);
    }

    fn unprune(&mut self, numbers: &mut Numbers) {
        let chunk = [numbers.below(256) as u8; N];
        if self.bitmap.pruned_chunks() > 0 {
            self.bitmap.unprune(&[chunk]);
            let first = self.bitmap.pruned_bits() as usize;
            let bits: Vec<bool> = (0..8 * N).map(|bit| chunk[bit / 8] >> (bit % 8) & 1 == 1).collect();
            self.bits[first..first + 8 * N].copy_from_slice(&bits);
        }
    }

    /// Compares each read of the bitmap with that of the list.
    fn check(&self, numbers: &mut Numbers) {
        let (bitmap, first) = (&self.bitmap, self.bitmap.pruned_bits() as usize);
        let set: Vec<u64> = (first..self.bits.len()).filter(|&bit| self.bits[bit]).map(|bit| bit as u64).collect();
        assert_eq!(bitmap.len(), self.bits.len() as u64);
        assert_eq!(bitmap.ones_iter_from(0).collect::<Vec<_>>(), set);
        assert_eq!(bitmap.zeros_iter_from(0).count(), self.bits.len() - first - set.len());
        assert_eq!(bitmap.count_ones(), set.len() as u64);
        let range = self.range(numbers);
        assert_eq!(bitmap.is_unset(range.clone()), bitmap.count_ones_range(range.clone()) == 0);
        assert_eq!(bitmap.next_one(range.start), set.iter().copied().find(|&bit| bit >= range.start));
        assert_eq!(bitmap.prev_one(range.end), set.iter().copied().rfind(|&bit| bit < range.end));
        assert_eq!(bitmap.select_one(3), set.get(3).copied());
        let bytes = bitmap.clone().encode();
        let read = Prunable::<N>::decode(&mut bytes.as_slice(), &RangeCfg::any()).unwrap();
        assert_eq!(read.ones_iter_from(0).collect::<Vec<_>>(), set);
        assert_eq!(bytes.len(), bitmap.encode_size());
    }
}

fn run<const N: usize>(seed: u64) {
    let (mut pair, mut numbers) = (Pair::<N>::new(), Numbers(seed));
    for _ in 0..300 {
        pair.edit(&mut numbers);
        pair.check(&mut numbers);
    }
}

#[test]
fn pruned_bitmaps_are_lists() {
    run::<1>(1);
    run::<3>(2);
    run::<8>(3);
    run::<32>(4);
}

/// A batch over such a bitmap, whose versions are compared with copies.
#[test]
fn versions_are_copies() {
    let mut numbers = Numbers(5);
    let (mut bitmap, mut copies) = (CleanBitMap::<4>::new(), Vec::new());
    for number in 1..60 {
        let edit = |batch: &mut mortarpink::bitmap::historical::DirtyBitMap<4>| {
            for _ in 0..numbers.below(300) {
                batch.push(numbers.below(3) == 0);
            }
            let (first, end) = (batch.pruned_bits(), batch.len());
            batch.prune_to_bit(first + numbers.below(end - first + 1) / 2);
            let (first, end) = (batch.pruned_bits(), batch.len());
            if first < end {
                batch.set_bit(first + numbers.below(end - first), true);
            }
        };
        bitmap = bitmap.apply_batch(number, edit).unwrap();
        copies.push((number, bitmap.current().encode()));
    }
    let bitmap = bitmap.indexed().map_err(|(_, error)| error).unwrap();
    for (number, copy) in copies {
        assert_eq!(bitmap.get_at_commit(number).unwrap().encode(), copy);
        let rewound = bitmap.clone().rewind_to(number).map_err(|(_, error)| error).unwrap();
        assert_eq!(rewound.current().encode(), copy);
        let ones: Vec<u64> = rewound.current().ones_iter_from(0).collect();
        assert_eq!(bitmap.at(number).unwrap().ones_iter_from(0).collect::<Vec<_>>(), ones);
    }
}
