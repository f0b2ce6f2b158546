//! The calls of `crates/bench` on CRoaring bitmaps that copy on write.

use peers::croaring::Roaring;
use peers::{dense, keep_each, sparse, Versions};
use shared::Arguments;
use std::process::ExitCode;

struct Copied {
    current: Roaring,
    bits: u64,
    kept: Vec<Roaring>,
}

impl Versions for Copied {
    fn from_words(words: Vec<u64>) -> Copied {
        let current = Roaring::from_words(&words);
        let kept = vec![current.clone()];
        Copied { current, bits: 64 * words.len() as u64, kept }
    }

    fn set(&mut self, position: u64, value: bool) {
        self.current.put(position, value);
    }

    fn push(&mut self, value: bool) {
        if value {
            self.current.put(self.bits, true);
        }
        self.bits += 1;
    }

    fn commit(&mut self) {
        self.kept.push(self.current.clone());
    }

    fn get(&self, version: usize, position: u64) -> bool {
        self.kept[version].contains(position)
    }
}

fn sums(words: &[u64], times: u64) -> u64 {
    let set = Roaring::from_words(words);
    (0..times).fold(0, |sum: u64, _| sum.wrapping_add(set.sum()))
}

fn run(arguments: &Arguments) -> Option<u64> {
    match arguments.call.as_str() {
        "ones_iter" => Some(sums(&dense(arguments.bytes), arguments.times)),
        "sparse_ones_iter" => Some(sums(&sparse(arguments.bytes), arguments.times)),
        _ => keep_each::<Copied>(arguments),
    }
}

fn main() -> ExitCode {
    shared::main(run)
}
