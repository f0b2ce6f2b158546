//! Hashing: Rust's traits, and the hasher of Rattle's standard library.

pub use core::hash::{Hash, Hasher};

/// A hasher by SipHash-1-3 with both keys 0.
///
/// The hasher of that name in Rust's `std` is the same so far. It is not in `core`, and Rust may change it: the digests of logs may not change.
#[derive(Clone, Debug)]
pub struct DefaultHasher {
    state: [u64; 4],
    // The last bytes that are not a whole word, the first of them lowest.
    rest: u64,
    // The number of all bytes.
    len: u64,
}

impl DefaultHasher {
    /// Returns a hasher that no bytes are written to.
    #[allow(clippy::new_without_default)]
    pub fn new() -> Self {
        DefaultHasher { state: [0x736f6d6570736575, 0x646f72616e646f6d, 0x6c7967656e657261, 0x7465646279746573], rest: 0, len: 0 }
    }

    /// Takes in a whole word.
    fn write_word(&mut self, word: u64) {
        self.state[3] ^= word;
        round(&mut self.state);
        self.state[0] ^= word;
    }

    /// Takes in a byte.
    fn write_byte(&mut self, byte: u8) {
        self.rest |= u64::from(byte) << (8 * (self.len % 8));
        self.len = self.len.wrapping_add(1);
        if self.len.is_multiple_of(8) {
            self.write_word(self.rest);
            self.rest = 0;
        }
    }
}

/// One round of SipHash.
fn round(state: &mut [u64; 4]) {
    let [mut a, mut b, mut c, mut d] = *state;
    a = a.wrapping_add(b);
    b = b.rotate_left(13) ^ a;
    a = a.rotate_left(32);
    c = c.wrapping_add(d);
    d = d.rotate_left(16) ^ c;
    a = a.wrapping_add(d);
    d = d.rotate_left(21) ^ a;
    c = c.wrapping_add(b);
    b = b.rotate_left(17) ^ c;
    c = c.rotate_left(32);
    *state = [a, b, c, d];
}

impl Hasher for DefaultHasher {
    fn write(&mut self, bytes: &[u8]) {
        // Bytes up to a whole word, then words, then the bytes that are left.
        let first = (self.len.wrapping_neg() % 8).min(bytes.len() as u64) as usize;
        let (first, rest) = bytes.split_at(first);
        let (words, last) = rest.as_chunks::<8>();
        first.iter().for_each(|&byte| self.write_byte(byte));
        for word in words {
            self.write_word(u64::from_le_bytes(*word));
        }
        self.len = self.len.wrapping_add(8 * words.len() as u64);
        last.iter().for_each(|&byte| self.write_byte(byte));
    }

    fn finish(&self) -> u64 {
        let mut state = self.state;
        let last = self.rest | (self.len << 56);
        state[3] ^= last;
        round(&mut state);
        state[0] ^= last;
        state[2] ^= 0xff;
        for _ in 0..3 {
            round(&mut state);
        }
        state[0] ^ state[1] ^ state[2] ^ state[3]
    }
}
