//! Roots and proofs: values that are known, encodings that are read again, and proofs that are false.

mod formats;
#[path = "../examples/sha256/mod.rs"]
mod sha256;

use formats::{bytes_of, rows, section};
use mortarpink::bitmap::historical::CleanBitMap;
use mortarpink::bitmap::{BitMap, Prunable, Readable};
use mortarpink::roots::{
    DecodeError, Proof, RangeProof, append_leaf, bitmap_root, chunk_digests, leaf_digest, leaf_digests, node_count, node_digest,
    node_position, prove, prove_from_stored, prove_range, prove_range_from_stored, replace_leaf, root_digest, tree_digest,
    tree_from_bitmap, tree_from_stored, truncate_leaves, update_digests, verify_bit, verify_chunk, verify_range,
};
use sha256::{Hasher, Sha256};
use std::collections::HashMap;

type Digests = Vec<[u8; 32]>;

/// SHA-256 of some bytes.
fn hashed(bytes: &[u8]) -> [u8; 32] {
    let mut hasher = Hasher::new();
    hasher.update(bytes);
    hasher.finalize()
}

#[test]
fn sha_256_has_its_published_values() {
    let blocks = "abcdefghbcdefghicdefghijdefghijkefghijklfghijklmghijklmnhijklmnoijklmnopjklmnopqklmnopqrlmnopqrsmnopqrstnopqrstu";
    for (input, expected) in [
        ("", "e3b0c44298fc1c149afbf4c8996fb92427ae41e4649b934ca495991b7852b855"),
        ("abc", "ba7816bf8f01cfea414140de5dae2223b00361a396177a9cb410ff61f20015ad"),
        ("abcdbcdecdefdefgefghfghighijhijkijkljklmklmnlmnomnopnopq", "248d6a61d20638b8e5c026930c3e6039a33ce45964ff2167f6ecedd419db06c1"),
        (blocks, "cf5b16a778af8380036ce59e7b0492370b249b11e8f07a51afac45037afee9d1"),
        (&"a".repeat(1_000_000), "cdc76e5c9914fb9281a1c7e284d73e67f1809a48a497200e046d39ccc7112cd0"),
    ] {
        assert_eq!(hashed(input.as_bytes()).to_vec(), bytes_of(expected), "{} bytes", input.len());
    }
}

/// The leaves that implementations of certificate transparency test with.
const EIGHT: [&str; 8] = ["", "00", "10", "2021", "3031", "40414243", "5051525354555657", "606162636465666768696a6b6c6d6e6f"];

fn eight_digests() -> Digests {
    EIGHT.iter().map(|leaf| leaf_digest(&Sha256, &bytes_of(leaf))).collect()
}

/// The roots that they have for the first leaves: for none, one, and so on.
const PUBLISHED: [&str; 9] = [
    "e3b0c44298fc1c149afbf4c8996fb92427ae41e4649b934ca495991b7852b855",
    "6e340b9cffb37a989ca544e6bb780a2c78901d3fb33738768511a30617afa01d",
    "fac54203e7cc696cf0dfcb42c92a1d9dbaf70ad9e621f4bd8d98662f00e3c125",
    "aeb6bcfe274b70a14fb067a5e5578264db0fa9b51af5e0ba159158f329e06e77",
    "d37ee418976dd95753c1c73862b9398fa2a2cf9b4ff0fdfe8b30cd95209614b7",
    "4e3bbb1f7b478dcfe71fb631631519a3bca12c9aefca1612bfce4c13a86264d4",
    "76e67dadbcdf1e10e1b74ddc608abd2f98dfb16fbce75277b5232a127f2087ef",
    "ddb89be403809e325750d3d263cd78929c2942b7942a34b77e122c9594a74c8c",
    "5dc9da79a70659a9ad559cb701ded9a2ab9d823aad2f4960cfe370eff4604328",
];

#[test]
fn trees_of_up_to_eight_leaves_have_the_published_digests() {
    let digests = eight_digests();
    for (count, expected) in PUBLISHED.iter().enumerate() {
        assert_eq!(tree_digest(&Sha256, &digests[..count]).to_vec(), bytes_of(expected), "{count} leaves");
    }
}

/// The digests of the worked root of the formats, by their names.
fn worked() -> HashMap<&'static str, [u8; 32]> {
    let rows = rows(section("### A worked root")).filter(|cells| cells[3].len() == 66);
    rows.map(|cells| (cells[1], bytes_of(cells[3].trim_matches('`')).try_into().unwrap())).collect()
}

/// The bitmap of the worked root: 20 bits in chunks of one byte, of which the first is pruned.
fn worked_bitmap() -> Prunable<1> {
    let mut bitmap = Prunable::new();
    bitmap.push_byte(0x01);
    bitmap.push_byte(0x80);
    bitmap.extend_from_bitmap(&BitMap::<1>::ones(4));
    bitmap.prune_to_bit(8);
    bitmap
}

#[test]
fn the_worked_root_is_that_of_the_formats() {
    let (worked, bitmap) = (worked(), worked_bitmap());
    let digests = chunk_digests(&Sha256, &bitmap, &[worked["d0"]]);
    assert_eq!(digests, ["d0", "d1", "d2"].map(|name| worked[name]));
    assert_eq!(leaf_digests(&Sha256, &[[0x01], [0x80], [0x0f]]), digests);
    assert_eq!(node_digest(&Sha256, &digests[0], &digests[1]), worked["n"]);
    assert_eq!(tree_digest(&Sha256, &digests), worked["tree"]);
    assert_eq!(bitmap_root(&Sha256, &bitmap, &digests), worked["root"]);
    assert_eq!(root_digest::<_, 1>(&Sha256, 20, 1, &worked["tree"]), worked["root"]);
    assert_eq!(prove(&Sha256, &digests, 1), [worked["d0"], worked["d2"]]);
    assert_eq!(prove(&Sha256, &digests, 2), [worked["n"]]);
}

/// What `tools/roots.py` computes of the same bitmaps: its function `digest_of_many` says what is hashed.
const OF_MANY: &str = "6880cc9623a0bb72e5b3f06e036e47e8e27fa060ee7b033a8b1366a5e728f9ff";

#[test]
fn roots_and_proofs_are_those_of_a_second_computation() {
    let mut hasher = Hasher::new();
    for len in 0..=120 {
        let dense: BitMap<3> = (0..len).map(|k| k * k % 7 < 3).collect();
        let digests = chunk_digests(&Sha256, &dense, &[]);
        hasher.update(&bitmap_root(&Sha256, &dense, &digests));

        let (mut bitmap, pruned) = (Prunable::<3>::new(), len / 48);
        bitmap.extend_from_bitmap(&dense);
        bitmap.prune_to_bit(24 * pruned);
        assert_eq!(chunk_digests(&Sha256, &bitmap, &digests[..pruned as usize]), digests);
        let root = bitmap_root(&Sha256, &bitmap, &digests);
        hasher.update(&root);
        for index in 0..digests.len() {
            let path = prove(&Sha256, &digests, index);
            let proof = Proof { len, pruned, index: index as u64, chunk: &dense.get_chunk(index), path: &path };
            assert!(proof.verify(&Sha256, &root));
            let bytes = proof.write();
            assert_eq!(Proof::read(&bytes), Ok(proof));
            hasher.update(&bytes);
        }
    }
    assert_eq!(hasher.finalize().to_vec(), bytes_of(OF_MANY));
}

/// What `tools/roots.py` computes of the proofs of ranges of the same bitmaps: its function `digest_of_ranges` says what is hashed.
const RANGES_OF_MANY: &str = "e7829ea94c98204a3848b6e732012666d09e351393997238950f115a0eff6475";

#[test]
fn proofs_of_ranges_are_those_of_a_second_computation() {
    let mut hasher = Hasher::new();
    for len in 0..=120 {
        let dense: BitMap<3> = (0..len).map(|k| k * k % 7 < 3).collect();
        let (mut bitmap, pruned) = (Prunable::<3>::new(), len / 48);
        bitmap.extend_from_bitmap(&dense);
        bitmap.prune_to_bit(24 * pruned);
        let digests = chunk_digests(&Sha256, &dense, &[]);
        let root = bitmap_root(&Sha256, &bitmap, &digests);
        let chunks: Vec<[u8; 3]> = (0..digests.len()).map(|index| dense.get_chunk(index)).collect();
        for first in 0..chunks.len() {
            for end in first + 1..=chunks.len() {
                let siblings = prove_range(&Sha256, &digests, first, end - first);
                let proof = RangeProof { len, pruned, first: first as u64, chunks: &chunks[first..end], siblings: &siblings };
                assert!(proof.verify(&Sha256, &root));
                let bytes = proof.write();
                assert_eq!(RangeProof::read(&bytes), Ok(proof));
                hasher.update(&bytes);
            }
        }
    }
    assert_eq!(hasher.finalize().to_vec(), bytes_of(RANGES_OF_MANY));
}

/// Each range of up to nine chunks, with the chunks, the place and the siblings of others.
#[test]
fn a_range_shows_no_other_range() {
    for count in 1..=9u8 {
        let chunks: Vec<[u8; 1]> = (1..=count).map(|byte| [byte]).collect();
        let (digests, len) = (leaf_digests(&Sha256, &chunks), 8 * u64::from(count));
        let root = root_digest::<_, 1>(&Sha256, len, 0, &tree_digest(&Sha256, &digests));
        let all = || (0..chunks.len()).flat_map(|first| (first + 1..=chunks.len()).map(move |end| (first, end)));
        for (first, end) in all() {
            let siblings = prove_range(&Sha256, &digests, first, end - first);
            assert!(siblings.len() <= 8);
            let proof = RangeProof { len, pruned: 0, first: first as u64, chunks: &chunks[first..end], siblings: &siblings };
            for (other_first, other_end) in all() {
                let other = RangeProof { chunks: &chunks[other_first..other_end], ..proof };
                assert_eq!(other.verify(&Sha256, &root), (first, end) == (other_first, other_end), "{other:?}");
                let other = RangeProof { first: other_first as u64, ..proof };
                assert_eq!(other.verify(&Sha256, &root), first == other_first, "{other:?}");
            }
            for index in 0..siblings.len() {
                let mut changed = siblings.clone();
                changed[index][0] ^= 1;
                assert!(!RangeProof { siblings: &changed, ..proof }.verify(&Sha256, &root), "sibling {index} is another");
                changed = siblings.clone();
                changed.remove(index);
                assert!(!RangeProof { siblings: &changed, ..proof }.verify(&Sha256, &root), "sibling {index} is left out");
            }
            let longer = [&siblings[..], &[root]].concat();
            assert!(!RangeProof { siblings: &longer, ..proof }.verify(&Sha256, &root), "a sibling is too many");
            assert!(!RangeProof { len: len - 1, ..proof }.verify(&Sha256, &root), "the length is another");
            assert!(!RangeProof { pruned: 1, ..proof }.verify(&Sha256, &root), "the pruned chunks are others");
            assert!(!RangeProof { first: u64::MAX, ..proof }.verify(&Sha256, &root), "the range is past the last chunk");
            assert!(!RangeProof { chunks: &[], ..proof }.verify(&Sha256, &root), "the range has no chunk");
            // The range of one chunk has the digests of the chunk's path.
            let mut path = prove(&Sha256, &digests, first);
            let mut siblings = prove_range(&Sha256, &digests, first, 1);
            path.sort_unstable();
            siblings.sort_unstable();
            assert_eq!(path, siblings);
        }
    }
}

/// The encoding of the proof of the chunks 1 and 2 of the worked root.
fn worked_range() -> Vec<u8> {
    RangeProof { len: 20, pruned: 1, first: 1, chunks: &[[0x80], [0x0f]], siblings: &[worked()["d0"]] }.write()
}

#[test]
fn an_encoding_of_a_range_has_the_fields_of_the_formats() {
    let (worked, bytes) = (worked(), worked_range());
    let rows = rows(section("### A worked range")).skip(1);
    assert_eq!(bytes, rows.map(|cells| bytes_of(cells[2].trim_matches('`'))).collect::<Vec<_>>().concat());
    let proof = RangeProof::<1>::read(&bytes).unwrap();
    assert!(proof.verify(&Sha256, &worked["root"]) && !proof.verify(&Sha256, &worked["tree"]));
    assert!(verify_range(&Sha256, &worked["root"], 20, 1, 1, &[[0x80], [0x0f]], &[worked["d0"]]));
    let long = RangeProof { siblings: &[[0; 32]; 128], ..proof };
    assert_eq!(RangeProof::read(&long.write()), Ok(long));
    let none = RangeProof::<1> { chunks: &[], siblings: &[], ..proof };
    assert_eq!(RangeProof::read(&none.write()), Ok(none));
}

#[test]
fn the_first_error_of_an_encoding_of_a_range_is_reported() {
    let error_of = |bytes: &[u8]| RangeProof::<1>::read(bytes).err();
    let bytes = worked_range();
    for count in 0..bytes.len() {
        let expected = if count < 48 { DecodeError::Short } else { DecodeError::Length };
        assert_eq!(error_of(&bytes[..count]), Some(expected), "the first {count} bytes");
    }
    assert_eq!(error_of(&[&bytes[..], &[0]].concat()), Some(DecodeError::Length));
    // Numbers of chunks whose bytes would not fit `u64`, or would be the right ones if they wrapped.
    for count in [1, 3, 34, u64::MAX, (1 << 63) + 2] {
        let mut other = bytes.clone();
        other[32..40].copy_from_slice(&count.to_be_bytes());
        assert_eq!(error_of(&other), Some(DecodeError::Length), "{count} chunks");
    }
    let mut other = [&bytes[..], &[0]].concat();
    other[47] = 129;
    assert_eq!(error_of(&other), Some(DecodeError::TooManyDigests(129)));
    other[7] = 2;
    assert_eq!(error_of(&other), Some(DecodeError::Width(2)));
    assert_eq!(error_of(&other[..47]), Some(DecodeError::Short));
    let two = RangeProof { len: 40, pruned: 0, first: 0, chunks: &[[1, 2], [3, 4]], siblings: &[] }.write();
    assert_eq!(RangeProof::<2>::read(&two[..51]), Err(DecodeError::Length));
}

#[test]
fn a_changed_byte_makes_no_other_proof_of_a_range() {
    let (root, bytes) = (worked()["root"], worked_range());
    for at in 0..bytes.len() {
        for change in 1..=255 {
            let mut changed = bytes.clone();
            changed[at] ^= change;
            let verifies = RangeProof::<1>::read(&changed).is_ok_and(|proof| proof.verify(&Sha256, &root));
            assert!(!verifies, "byte {at} is {}", changed[at]);
        }
    }
}

/// The digests of all complete subtrees of a tree, each after those of its halves.
fn stored(leaves: &[[u8; 32]]) -> Digests {
    let (mut stored, mut waiting) = (Vec::new(), Vec::<(u32, [u8; 32])>::new());
    for &leaf in leaves {
        let mut last = (0, leaf);
        stored.push(leaf);
        while let Some(&(level, left)) = waiting.last().filter(|(level, _)| *level == last.0) {
            waiting.pop();
            last = (level + 1, node_digest(&Sha256, &left, &last.1));
            stored.push(last.1);
        }
        waiting.push(last);
    }
    stored
}

#[test]
fn trees_are_computed_from_stored_digests() {
    let leaves: Digests = (0..33).map(|leaf| leaf_digest(&Sha256, &[leaf])).collect();
    let all = stored(&leaves);
    for n in 0..=leaves.len() {
        let (leaves, stored) = (&leaves[..n], &all[..node_count(n as u64) as usize]);
        assert_eq!(tree_from_stored(&Sha256, stored, n as u64), tree_digest(&Sha256, leaves), "{n} leaves");
        for i in 0..n {
            assert_eq!(prove_from_stored(&Sha256, stored, n as u64, i as u64), prove(&Sha256, leaves, i), "leaf {i} of {n}");
            for count in 1..=n - i {
                let siblings = prove_range_from_stored(&Sha256, stored, n as u64, i as u64, count as u64);
                assert_eq!(siblings, prove_range(&Sha256, leaves, i, count), "{count} leaves from {i} on of {n}");
            }
        }
    }
    for (level, index) in [(0, 0), (0, 31), (1, 7), (2, 7), (3, 3), (4, 1), (5, 0)] {
        let (start, size) = (index << level, 1 << level);
        assert_eq!(all[node_position(level, index as u64) as usize], tree_digest(&Sha256, &leaves[start..start + size]));
    }
    assert_eq!(node_count((1 << 63) - 1), u64::MAX - 64);
    assert_eq!(node_position(61, 0), (1 << 62) - 2);
    assert_eq!(node_position(0, (1 << 62) - 2), node_count((1 << 62) - 2));
}

#[test]
fn leaves_of_stored_digests_are_appended_replaced_and_removed() {
    let leaves: Digests = (0..33).map(|leaf| leaf_digest(&Sha256, &[leaf])).collect();
    let other = leaf_digest(&Sha256, b"other");
    let mut appended = Vec::new();
    for (n, leaf) in leaves.iter().enumerate() {
        append_leaf(&Sha256, &mut appended, n as u64, leaf);
        assert_eq!(appended, stored(&leaves[..=n]), "{n} leaves and one more");
    }
    for n in 1..=leaves.len() {
        for i in 0..n {
            let (mut replaced, mut digests) = (leaves[..n].to_vec(), stored(&leaves[..n]));
            replaced[i] = other;
            replace_leaf(&Sha256, &mut digests, n as u64, i as u64, &other);
            assert_eq!(digests, stored(&replaced), "leaf {i} of {n}");
        }
        for kept in 0..n + 2 {
            let mut digests = stored(&leaves[..n]);
            truncate_leaves(&mut digests, kept as u64);
            assert_eq!(digests, stored(&leaves[..kept.min(n)]), "{kept} of {n} leaves");
        }
    }
    truncate_leaves(&mut appended, (1 << 63) - 1);
    assert_eq!(appended, stored(&leaves));
}

/// The encoding of the proof of chunk 1 of the worked root.
fn worked_proof() -> Vec<u8> {
    let worked = worked();
    Proof { len: 20, pruned: 1, index: 1, chunk: &[0x80], path: &[worked["d0"], worked["d2"]] }.write()
}

/// Why bytes are no proof of a bitmap with chunks of one byte.
fn error_of(bytes: &[u8]) -> Option<DecodeError> {
    Proof::<1>::read(bytes).err()
}

#[test]
fn an_encoding_has_the_fields_of_the_formats() {
    let (worked, bytes) = (worked(), worked_proof());
    let numbers: Vec<u64> = bytes[..40].chunks(8).map(|number| u64::from_be_bytes(number.try_into().unwrap())).collect();
    assert_eq!(numbers, [1, 20, 1, 1, 2]);
    assert_eq!(bytes[40..], [&[0x80], &worked["d0"][..], &worked["d2"]].concat());
    let proof = Proof::<1>::read(&bytes).unwrap();
    assert!(proof.verify(&Sha256, &worked["root"]) && !proof.verify(&Sha256, &worked["tree"]));
    assert_eq!(proof.write(), bytes);
    let long = Proof { path: &[[0; 32]; 64], ..proof };
    assert_eq!(Proof::read(&long.write()), Ok(long));
}

#[test]
fn the_first_error_of_an_encoding_is_reported() {
    let bytes = worked_proof();
    for count in 0..bytes.len() {
        let expected = if count < 40 { DecodeError::Short } else { DecodeError::Length };
        assert_eq!(error_of(&bytes[..count]), Some(expected), "the first {count} bytes");
    }
    assert_eq!(error_of(&[&bytes[..], &[0]].concat()), Some(DecodeError::Length));
    let mut other = [&bytes[..], &[0]].concat();
    other[39] = 65;
    assert_eq!(error_of(&other), Some(DecodeError::TooManyDigests(65)));
    other[7] = 2;
    assert_eq!(error_of(&other), Some(DecodeError::Width(2)));
    assert_eq!(error_of(&other[..39]), Some(DecodeError::Short));
    // A number of digests whose bytes would not fit `u64`.
    other[7] = 1;
    other[32..40].copy_from_slice(&u64::MAX.to_be_bytes());
    assert_eq!(error_of(&other), Some(DecodeError::TooManyDigests(u64::MAX)));
    let long = Proof { len: 20, pruned: 1, index: 1, chunk: &[0x80], path: &[[0; 32]; 65] }.write();
    assert_eq!(error_of(&long), Some(DecodeError::TooManyDigests(65)));
}

#[test]
fn errors_say_what_is_wrong() {
    for (error, expected) in [
        (DecodeError::Short, "the bytes end within the numbers of the proof"),
        (DecodeError::Width(2), "the proof is of chunks of 2 bytes, which is not the width of the reader"),
        (DecodeError::TooManyDigests(65), "the proof has 65 digests, and that of a chunk has at most 64, and that of a range 128"),
        (DecodeError::Length, "the number of bytes is not that of the chunks and the digests of the proof"),
    ] {
        assert_eq!(error.to_string(), expected);
    }
}

#[test]
fn a_changed_byte_makes_no_other_proof() {
    let (root, bytes) = (worked()["root"], worked_proof());
    for at in 0..bytes.len() {
        for change in 1..=255 {
            let mut changed = bytes.clone();
            changed[at] ^= change;
            let verifies = Proof::<1>::read(&changed).is_ok_and(|proof| proof.verify(&Sha256, &root));
            assert!(!verifies, "byte {at} is {}", changed[at]);
        }
    }
}

#[test]
fn a_proof_shows_no_neighbour() {
    for count in 1..=9u8 {
        let chunks: Vec<[u8; 1]> = (1..=count).map(|byte| [byte]).collect();
        let (digests, len) = (leaf_digests(&Sha256, &chunks), 8 * u64::from(count));
        let root = root_digest::<_, 1>(&Sha256, len, 0, &tree_digest(&Sha256, &digests));
        let paths: Vec<Digests> = (0..chunks.len()).map(|index| prove(&Sha256, &digests, index)).collect();
        let all = || 0..chunks.len();
        for (index, chunk, path) in all().flat_map(|a| all().flat_map(move |b| all().map(move |c| (a, b, c)))) {
            let proof = Proof { len, pruned: 0, index: index as u64, chunk: &chunks[chunk], path: &paths[path] };
            assert_eq!(proof.verify(&Sha256, &root), index == chunk && chunk == path, "{proof:?}");
        }
        let last = Proof { len, pruned: 0, index: u64::from(count) - 1, chunk: &chunks[chunks.len() - 1], path: paths.last().unwrap() };
        assert!(last.verify(&Sha256, &root));
        assert!(!Proof { index: u64::from(count), ..last }.verify(&Sha256, &root), "it is past the last chunk");
        assert!(!Proof { len: len - 1, ..last }.verify(&Sha256, &root), "the length is another");
        assert!(!Proof { pruned: 1, ..last }.verify(&Sha256, &root), "the pruned chunks are others");
        let longer = [last.path, &[root]].concat();
        assert!(!Proof { path: &longer, ..last }.verify(&Sha256, &root), "the path is too long");
        let shorter = &last.path[..last.path.len().saturating_sub(1)];
        assert_eq!(Proof { path: shorter, ..last }.verify(&Sha256, &root), count == 1, "the path is too short");
    }
}

#[test]
fn a_proof_of_a_bit_shows_that_bit_alone() {
    let (worked, bitmap) = (worked(), worked_bitmap());
    let digests = chunk_digests(&Sha256, &bitmap, &[worked["d0"]]);
    let chunks = [[0x01], [0x80], [0x0f]];
    let set = [0, 15, 16, 17, 18, 19];
    for (index, chunk) in chunks.iter().enumerate() {
        let path = prove(&Sha256, &digests, index);
        for position in 0..30 {
            let is_there = position < 20 && position / 8 == index as u64;
            for bit in [false, true] {
                let is_shown = verify_bit(&Sha256, &worked["root"], 20, 1, position, bit, chunk, &path);
                assert_eq!(is_shown, is_there && bit == set.contains(&position), "bit {position} of chunk {index} is {bit}");
            }
        }
    }
}

#[test]
fn a_proof_stays_good_when_chunks_are_pruned() {
    let mut bitmap = Prunable::<4>::new();
    bitmap.extend_from_bitmap(&(0..150).map(|k| k % 5 < 2).collect::<BitMap<4>>());
    let digests = chunk_digests(&Sha256, &bitmap, &[]);
    let (chunk, path) = (*bitmap.get_chunk(2), prove(&Sha256, &digests, 2));
    for pruned in 0..=4 {
        bitmap.prune_to_bit(32 * pruned);
        let root = bitmap_root(&Sha256, &bitmap, &digests);
        for other in 0..=4 {
            assert_eq!(verify_chunk(&Sha256, &root, 150, other, 2, &chunk, &path), other == pruned);
        }
    }
}

/// A bitmap whose bits are set, also those of its chunks past the length, which may have any value.
struct Loose(u64);

impl Readable<2> for Loose {
    fn complete_chunks(&self) -> usize {
        (self.0 / 16) as usize
    }

    fn get_chunk(&self, _: usize) -> [u8; 2] {
        [0xff; 2]
    }

    fn last_chunk(&self) -> ([u8; 2], u64) {
        ([0xff; 2], (self.0 - 1) % 16 + 1)
    }

    fn pruned_chunks(&self) -> usize {
        0
    }

    fn len(&self) -> u64 {
        self.0
    }
}

#[test]
fn bits_past_the_length_are_in_no_root() {
    for len in 1..=48 {
        let bitmap = BitMap::<2>::ones(len);
        let digests = chunk_digests(&Sha256, &bitmap, &[]);
        assert_eq!(chunk_digests(&Sha256, &Loose(len), &[]), digests, "{len} bits");
        assert_eq!(bitmap_root(&Sha256, &Loose(len), &digests), bitmap_root(&Sha256, &bitmap, &digests));
    }
}

/// Each version of a bitmap has its tree in the version of the stored digests under the same number. Commits set bits, append, remove and prune.
#[test]
fn stored_digests_follow_the_commits_of_a_bitmap() {
    let (mut bitmap, mut stored) = (CleanBitMap::<2>::new(), CleanBitMap::<32>::new());
    let (mut leaves, mut trees) = (Digests::new(), Vec::new());
    for number in 1..=60u64 {
        let count = bitmap.current().chunks_len() as u64;
        let mut batch = bitmap.into_dirty();
        match number % 5 {
            0 => batch.truncate(batch.len() - (number % 40).min(batch.len() - 16 * batch.pruned_chunks() as u64)),
            1 => _ = batch.prune_to_bit(batch.len().saturating_sub(200)),
            2 => _ = batch.set_range(batch.len().saturating_sub(30)..batch.len(), number % 2 == 0),
            _ => _ = batch.extend_to(batch.len() + 2 * number).push(true),
        }
        let pruned = batch.pruned_chunks();
        let prepared = batch.prepare(number).unwrap();
        let mut digests = stored.into_dirty();
        update_digests(&Sha256, &prepared, &mut digests, count).unwrap();
        stored = digests.commit(number).unwrap();
        bitmap = prepared.commit();
        leaves = chunk_digests(&Sha256, bitmap.current(), &leaves[..pruned]);
        trees.push((bitmap.current().chunks_len() as u64, tree_digest(&Sha256, &leaves)));
    }
    assert!(bitmap.pruned_chunks() > 10 && trees.iter().any(|(count, _)| *count > 60));
    for (number, (count, tree)) in (1..).zip(trees) {
        assert_eq!(tree_from_bitmap(&Sha256, &stored.at(number).unwrap(), count), tree, "version {number}");
    }
}

#[test]
fn versions_and_batches_have_the_roots_of_their_bitmaps() {
    let (mut bitmap, mut roots, mut kept) = (CleanBitMap::<1>::new(), Vec::new(), Digests::new());
    for number in 1..=6u64 {
        let mut batch = bitmap.into_dirty();
        batch.push_byte(number as u8).set_bit(8 * (number / 2), true);
        let digests = chunk_digests(&Sha256, &batch, &kept);
        kept.extend_from_slice(&digests[kept.len()..number as usize / 3]);
        batch.prune_to_bit(8 * (number / 3));
        roots.push(bitmap_root(&Sha256, &batch, &digests));
        bitmap = batch.commit(number).unwrap();
        assert_eq!(bitmap_root(&Sha256, bitmap.current(), &digests), roots[number as usize - 1]);
    }
    for number in 1..=6 {
        let past = bitmap.at(number).unwrap();
        let digests = chunk_digests(&Sha256, &past, &kept[..past.pruned_chunks()]);
        assert_eq!(bitmap_root(&Sha256, &past, &digests), roots[number as usize - 1], "version {number}");
    }
}
