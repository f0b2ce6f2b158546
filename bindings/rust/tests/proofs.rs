//! Checks of proofs against a root. The proofs are those of the worked root in `docs/FORMATS.md`.

use mortarpink_proved::{Error, ShownRange, Width, verify_bit, verify_chunk, verify_range};

/// The root of 20 bits in the chunks `01`, `80` and `0f`, of which the first is pruned.
const ROOT: &str = "e30df6a24c0a4623dca2543e7d1ae2fd927984e85be2b6771a037ed9ec585591";

/// The proof of chunk 2.
const CHUNK_2: &str = concat!(
    "0000000000000001000000000000001400000000000000010000000000000002",
    "00000000000000010fe5b8ce24c2528ae6278fb86b3801653d16e79c75eed779",
    "5c3f8846edb783f926",
);

/// The proof of the chunks 1 and 2.
const CHUNKS_1_AND_2: &str = concat!(
    "0000000000000001000000000000001400000000000000010000000000000001",
    "00000000000000020000000000000001800fb413f47d13ee2fe6c845b2ee141a",
    "f81de858df4ec549a58b7970bb96645bc8d2",
);

fn bytes(digits: &str) -> Vec<u8> {
    let pairs = (0..digits.len()).step_by(2).map(|at| &digits[at..at + 2]);
    pairs.map(|pair| u8::from_str_radix(pair, 16).unwrap()).collect()
}

fn root() -> [u8; 32] {
    bytes(ROOT).try_into().unwrap()
}

/// Returns each copy of some bytes in which one bit differs, with the byte that has it.
fn changed(data: &[u8]) -> impl Iterator<Item = (usize, Vec<u8>)> {
    (0..8 * data.len()).map(|bit| {
        let mut copy = data.to_vec();
        copy[bit / 8] ^= 1 << (bit % 8);
        (bit / 8, copy)
    })
}

#[test]
fn a_chunk_is_shown() {
    let shown = verify_chunk(Width::Bytes1, &root(), &bytes(CHUNK_2)).unwrap();
    assert_eq!(&shown.chunk[..], [0x0f]);
    assert_eq!((shown.index, shown.len, shown.pruned_chunks), (2, 20, 1));
}

#[test]
fn bits_are_shown() {
    let at = |position| verify_bit(Width::Bytes1, &root(), &bytes(CHUNK_2), position);
    assert!((16..20).all(|position| at(position) == Ok(true)));
    assert_eq!((at(20), at(u64::MAX)), (Err(Error::OutOfBounds), Err(Error::OutOfBounds)));
    assert_eq!((at(0), at(7)), (Err(Error::Pruned), Err(Error::Pruned)));
    assert_eq!((at(8), at(15)), (Err(Error::NotVerified), Err(Error::NotVerified)));
}

#[test]
fn a_range_is_shown() {
    let shown = ShownRange { chunks: vec![0x80, 0x0f], first: 1, len: 20, pruned_chunks: 1 };
    assert_eq!(verify_range(Width::Bytes1, &root(), &bytes(CHUNKS_1_AND_2)), Ok(shown));
    // The same numbers, but no chunk.
    let mut none = bytes(&CHUNKS_1_AND_2[..96]);
    (none[39], none[47]) = (0, 0);
    assert_eq!(verify_range(Width::Bytes1, &root(), &none), Err(Error::NotVerified));
}

#[test]
fn no_bit_of_a_proof_or_a_root_can_be_another_one() {
    let (root, chunk, range) = (root(), bytes(CHUNK_2), bytes(CHUNKS_1_AND_2));
    for (at, data) in changed(&chunk) {
        let is_head = at < 8 || (32..40).contains(&at);
        let error = if is_head { Error::Invalid } else { Error::NotVerified };
        assert_eq!(verify_chunk(Width::Bytes1, &root, &data), Err(error));
    }
    for (at, data) in changed(&range) {
        let is_head = at < 8 || (32..48).contains(&at);
        let error = if is_head { Error::Invalid } else { Error::NotVerified };
        assert_eq!(verify_range(Width::Bytes1, &root, &data), Err(error));
    }
    for (_, other) in changed(&root) {
        let other: [u8; 32] = other.try_into().unwrap();
        assert_eq!(verify_chunk(Width::Bytes1, &other, &chunk), Err(Error::NotVerified));
        assert_eq!(verify_range(Width::Bytes1, &other, &range), Err(Error::NotVerified));
    }
}

#[test]
fn other_lengths_and_widths_are_no_proofs() {
    let (root, chunk, range) = (root(), bytes(CHUNK_2), bytes(CHUNKS_1_AND_2));
    for end in 0..chunk.len() {
        assert_eq!(verify_chunk(Width::Bytes1, &root, &chunk[..end]), Err(Error::Invalid));
    }
    for end in 0..range.len() {
        assert_eq!(verify_range(Width::Bytes1, &root, &range[..end]), Err(Error::Invalid));
    }
    for width in [Width::Bytes8, Width::Bytes32, Width::Bytes64] {
        assert_eq!(verify_chunk(width, &root, &chunk), Err(Error::Invalid));
        assert_eq!(verify_bit(width, &root, &chunk, 16), Err(Error::Invalid));
        assert_eq!(verify_range(width, &root, &range), Err(Error::Invalid));
    }
}

#[test]
fn what_a_proof_says_counts_only_with_its_root() {
    let mut root = root();
    root[0] ^= 1;
    for position in [7, 16, 20] {
        let found = verify_bit(Width::Bytes1, &root, &bytes(CHUNK_2), position);
        assert_eq!(found, Err(Error::NotVerified));
    }
}
