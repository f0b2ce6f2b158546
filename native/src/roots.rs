//! Roots of bitmaps, and proofs of single chunks, of ranges of chunks, and of bits, which are checked against them.
//!
//! A *root* is 32 bytes that stand for one state of a bitmap. Someone who has the root can check one chunk or one bit of that state, and needs no
//! other chunk: a *proof* has the chunk, and at most 64 digests of 32 bytes. The hash is a type that implements [`Digest`]. SHA-256 is the usual
//! one, and this crate has none.
//!
//! | Calls | What they do |
//! |---|---|
//! | [`chunk_digests`], [`bitmap_root`] | return the digests of the chunks of any bitmap, and its root |
//! | [`prove`] | returns the audit path of a chunk |
//! | [`Proof::write`], [`Proof::read`], [`Proof::verify`] | write, read and check a proof |
//! | [`verify_bit`], [`verify_chunk`] | check a bit or a chunk |
//! | [`prove_range`], [`verify_range`] | return what one proof of several chunks that follow one another needs, and check it |
//! | [`RangeProof::write`], [`RangeProof::read`], [`RangeProof::verify`] | write, read and check such a proof |
//! | [`leaf_digests`], [`leaf_digest`], [`node_digest`], [`tree_digest`], [`root_digest`] | are the parts of a root, for chunks that are in no bitmap |
//! | [`node_count`], [`node_position`], [`tree_from_stored`], [`prove_from_stored`], [`prove_range_from_stored`] | compute a tree, audit paths and the digests of a range from digests that are stored, of which they read few |
//! | [`append_leaf`], [`replace_leaf`], [`truncate_leaves`] | append, replace and remove leaves of a tree whose digests are stored |
//! | [`append_leaf_in_batch`], [`replace_leaf_in_batch`], [`truncate_leaves_in_batch`] | do the same if the stored digests are the chunks of a batch |
//! | [`update_digests`] | makes the stored digests in a batch follow a prepared commit of the bitmap whose tree they are |
//! | [`tree_from_bitmap`], [`prove_from_bitmap`], [`prove_range_from_bitmap`] | do the same with stored digests that are the chunks of a bitmap, such as a past version of one with history |
//! | [`AuthenticatedBitMap`], [`DirtyAuthenticatedBitMap`] | are a historical bitmap that stores its digests, and a batch of it: each version that it keeps has a root and proofs |
//!
//! ```
//! use mortarpink::bitmap::{BitMap, Readable};
//! use mortarpink::roots::{Digest, Proof, bitmap_root, chunk_digests, prove, verify_bit};
//! # mod sha256 { include!(concat!(env!("CARGO_MANIFEST_DIR"), "/examples/sha256/mod.rs")); }
//! # use sha256::Sha256;
//!
//! // The server has a bitmap, and publishes its root. `Sha256` implements `Digest`.
//! let mut bitmap = BitMap::<8>::zeroes(1000);
//! bitmap.set(70, true);
//! let digests = chunk_digests(&Sha256, &bitmap, &[]);
//! let root = bitmap_root(&Sha256, &bitmap, &digests);
//!
//! // Bit 70 is in chunk 1.
//! let path = prove(&Sha256, &digests, 1);
//! let bytes = Proof { len: 1000, pruned: 0, index: 1, chunk: &bitmap.get_chunk(1), path: &path }.write();
//!
//! // Someone with the root alone checks that the bit is set.
//! let proof = Proof::<8>::read(&bytes)?;
//! let is_shown = |bit| verify_bit(&Sha256, &root, proof.len, proof.pruned, 70, bit, proof.chunk, proof.path);
//! assert!(is_shown(true) && !is_shown(false));
//! # Ok::<(), mortarpink::roots::DecodeError>(())
//! ```
//!
//! # What a check is worth
//!
//! If [`verify_bit`] returns `true`, then each bitmap with that root has that bit, unless two different inputs with one digest were hashed: one for
//! the check, and one for the bitmap. No one knows two such inputs for SHA-256. The client has to get the root from someone whom it trusts, and
//! has to know which state it stands for. A hash for which such inputs can be found makes a root worthless.
//!
//! # Pruned chunks
//!
//! The tree has all chunks by their absolute index. A pruned chunk stays in it by its digest, which whoever prunes has to keep: [`chunk_digests`]
//! takes these digests. So pruning changes the root by the number of pruned chunks alone, and an audit path from before stays good.
//!
//! `docs/FORMATS.md` of the repository describes the tree, the root and the encoding of a proof.

mod batch;
mod versions;

pub use batch::DirtyAuthenticatedBitMap;
pub use versions::AuthenticatedBitMap;

use crate::bitmap::Readable;
use crate::bitmap::historical::DirtyBitMap;
use crate::support::alloc::{AllocError, Global, expect_memory};
use crate::support::vec::VecWithin;
use alloc::vec::Vec;
use core::{error, fmt};

pub use crate::generated::authenticated_bitmap::encoding::{DecodeError, Proof};
pub use crate::generated::authenticated_bitmap::follow::update_digests;
pub use crate::generated::authenticated_bitmap::hash::Digest;
pub use crate::generated::authenticated_bitmap::node_edits::{
    truncate_leaves_in_batch, try_append_leaf_in_batch, try_replace_leaf_in_batch,
};
pub use crate::generated::authenticated_bitmap::range::{try_prove_range, verify_range};
pub use crate::generated::authenticated_bitmap::range_encoding::RangeProof;
pub use crate::generated::authenticated_bitmap::root::{root_digest, verify_bit, verify_chunk};
pub use crate::generated::authenticated_bitmap::store::{
    node_count, node_position, replace_leaf, tree_from_bitmap, tree_from_stored, truncate_leaves, try_append_leaf, try_prove_from_bitmap,
    try_prove_from_stored, try_prove_range_from_bitmap, try_prove_range_from_stored,
};
pub use crate::generated::authenticated_bitmap::tree::{leaf_digest, node_digest, tree_digest, try_leaf_digests, try_prove};

/// The number of chunks of a bitmap, with the pruned ones.
fn chunk_count<const N: usize>(bitmap: &impl Readable<N>) -> u64 {
    bitmap.len().div_ceil(8 * N as u64)
}

/// The chunk at an index, with zeros from the length of the bitmap on, where the bits that `get_chunk` returns may have any value.
fn padded_chunk<const N: usize>(bitmap: &impl Readable<N>, index: usize) -> [u8; N] {
    let width = 8 * N as u64;
    let bits = (bitmap.len() - index as u64 * width).min(width) as usize;
    let mut chunk = bitmap.get_chunk(index);
    if !bits.is_multiple_of(8) {
        chunk[bits / 8] &= (1 << (bits % 8)) - 1;
    }
    chunk[bits.div_ceil(8)..].fill(0);
    chunk
}

/// Returns the digests of all chunks of a bitmap, by their index: those of `pruned`, and then those of the retained chunks.
///
/// `pruned` has the digests of the pruned chunks, which were kept when these were pruned. It is empty if no chunk is pruned. The bitmap may be a
/// past version, or a batch. The bits of the last chunk from the length on count as zeros, also if `get_chunk` of the bitmap returns others.
///
/// # Memory
///
/// Allocates 32 bytes per chunk of the bitmap, pruned ones included.
///
/// # Complexity
///
/// One call of `get_chunk` and one hash per retained chunk.
///
/// # Panics
///
/// Panics if memory runs out, or if `pruned` has not one digest per pruned chunk.
///
/// ```
/// use mortarpink::bitmap::{Prunable, Readable};
/// use mortarpink::roots::chunk_digests;
/// # mod sha256 { include!(concat!(env!("CARGO_MANIFEST_DIR"), "/examples/sha256/mod.rs")); }
/// # use sha256::Sha256;
///
/// let mut bitmap = Prunable::<1>::new();
/// bitmap.extend_to(20);
/// let digests = chunk_digests(&Sha256, &bitmap, &[]);
///
/// // The digest of a pruned chunk is kept.
/// bitmap.prune_to_bit(8);
/// assert_eq!(chunk_digests(&Sha256, &bitmap, &digests[..1]), digests);
/// ```
#[must_use]
pub fn chunk_digests<D: Digest, const N: usize>(hash: &D, bitmap: &impl Readable<N>, pruned: &[[u8; 32]]) -> Vec<[u8; 32]> {
    expect_memory(try_chunk_digests(hash, bitmap, pruned))
}

/// Returns the digests of all chunks of a bitmap, as `chunk_digests` does.
///
/// # Errors
///
/// Returns `AllocError` if the allocation fails.
///
/// # Complexity
///
/// Time and memory are those of [`chunk_digests`].
///
/// # Panics
///
/// Panics if `pruned` has not one digest per pruned chunk.
///
/// ```
/// use mortarpink::bitmap::BitMap;
/// use mortarpink::roots::try_chunk_digests;
/// # mod sha256 { include!(concat!(env!("CARGO_MANIFEST_DIR"), "/examples/sha256/mod.rs")); }
/// # use sha256::Sha256;
///
/// assert_eq!(try_chunk_digests(&Sha256, &BitMap::<1>::zeroes(20), &[])?.len(), 3);
/// # Ok::<(), mortarpink::AllocError>(())
/// ```
pub fn try_chunk_digests<D: Digest, const N: usize>(
    hash: &D,
    bitmap: &impl Readable<N>,
    pruned: &[[u8; 32]],
) -> Result<Vec<[u8; 32]>, AllocError> {
    let pruned_chunks = bitmap.pruned_chunks();
    assert!(pruned.len() == pruned_chunks, "there are {} digests of pruned chunks (pruned_chunks: {pruned_chunks})", pruned.len());
    let count = chunk_count(bitmap) as usize;
    let mut digests = Vec::with_capacity_within(Global, count)?;
    digests.extend_from_slice(pruned);
    digests.extend((pruned.len()..count).map(|index| leaf_digest(hash, &padded_chunk(bitmap, index))));
    Ok(digests)
}

/// Returns the root of a bitmap, from the digests of all its chunks, which [`chunk_digests`] returns.
///
/// It is [`root_digest`] of the width, the length and the pruned chunks of the bitmap, and of [`tree_digest`].
///
/// # Memory
///
/// Does not allocate.
///
/// # Complexity
///
/// One hash per chunk, pruned ones included.
///
/// # Panics
///
/// Panics if there is not one digest per chunk.
///
/// ```
/// use mortarpink::bitmap::BitMap;
/// use mortarpink::roots::{bitmap_root, chunk_digests, root_digest, tree_digest};
/// # mod sha256 { include!(concat!(env!("CARGO_MANIFEST_DIR"), "/examples/sha256/mod.rs")); }
/// # use sha256::Sha256;
///
/// let bitmap = BitMap::<4>::ones(100);
/// let digests = chunk_digests(&Sha256, &bitmap, &[]);
/// let root = root_digest::<_, 4>(&Sha256, 100, 0, &tree_digest(&Sha256, &digests));
/// assert_eq!(bitmap_root(&Sha256, &bitmap, &digests), root);
/// ```
#[must_use]
pub fn bitmap_root<D: Digest, const N: usize>(hash: &D, bitmap: &impl Readable<N>, digests: &[[u8; 32]]) -> [u8; 32] {
    let count = chunk_count(bitmap);
    assert!(digests.len() as u64 == count, "there are {} digests (chunks: {count})", digests.len());
    root_digest::<D, N>(hash, bitmap.len(), bitmap.pruned_chunks() as u64, &tree_digest(hash, digests))
}

/// Returns the digest of each leaf, in the order of the leaves. Leaves have `N` bytes.
///
/// # Complexity
///
/// Time and memory are those of [`try_leaf_digests`].
///
/// # Panics
///
/// Panics if memory runs out.
///
/// ```
/// use mortarpink::roots::{leaf_digest, leaf_digests};
/// # mod sha256 { include!(concat!(env!("CARGO_MANIFEST_DIR"), "/examples/sha256/mod.rs")); }
/// # use sha256::Sha256;
///
/// let digests = leaf_digests(&Sha256, &[[1, 2], [3, 4]]);
/// assert_eq!(digests, [leaf_digest(&Sha256, &[1, 2]), leaf_digest(&Sha256, &[3, 4])]);
/// ```
#[must_use]
pub fn leaf_digests<D: Digest, const N: usize>(hash: &D, leaves: &[[u8; N]]) -> Vec<[u8; 32]> {
    expect_memory(try_leaf_digests(hash, leaves))
}

/// Returns the audit path of leaf `i`, from the digests of all leaves: the digests beside the way from the leaf to the root, the leaf's sibling
/// first.
///
/// # Complexity
///
/// Time and memory are those of [`try_prove`].
///
/// # Panics
///
/// Panics if memory runs out, or if `i` is not below the number of `digests`.
///
/// ```
/// use mortarpink::roots::{leaf_digests, prove};
/// # mod sha256 { include!(concat!(env!("CARGO_MANIFEST_DIR"), "/examples/sha256/mod.rs")); }
/// # use sha256::Sha256;
///
/// let digests = leaf_digests(&Sha256, &[[1], [2]]);
/// assert_eq!(prove(&Sha256, &digests, 0), [digests[1]]);
/// ```
#[must_use]
pub fn prove<D: Digest>(hash: &D, digests: &[[u8; 32]], i: usize) -> Vec<[u8; 32]> {
    expect_memory(try_prove(hash, digests, i))
}

/// Appends a leaf to a tree of `n` leaves, by its digest: appends the digest, and that of each subtree that the leaf completes, to the stored
/// digests. There are [`node_count(n)`](node_count) of them before.
///
/// # Complexity
///
/// Time and memory are those of [`try_append_leaf`].
///
/// # Panics
///
/// Panics if memory runs out; or if `n` is not below 2^61; or if the number of `stored` is not `node_count(n)`.
///
/// ```
/// use mortarpink::roots::{append_leaf, leaf_digests, tree_digest, tree_from_stored};
/// # mod sha256 { include!(concat!(env!("CARGO_MANIFEST_DIR"), "/examples/sha256/mod.rs")); }
/// # use sha256::Sha256;
///
/// let leaves = leaf_digests(&Sha256, &[[1], [2], [3]]);
/// let mut stored = Vec::new();
/// for (n, leaf) in leaves.iter().enumerate() {
///     append_leaf(&Sha256, &mut stored, n as u64, leaf);
/// }
/// assert_eq!(tree_from_stored(&Sha256, &stored, 3), tree_digest(&Sha256, &leaves));
/// ```
pub fn append_leaf<D: Digest>(hash: &D, stored: &mut Vec<[u8; 32]>, n: u64, digest: &[u8; 32]) {
    expect_memory(try_append_leaf(hash, stored, n, digest));
}

/// Appends a leaf to a tree of `n` leaves whose stored digests are the chunks of a batch. It does what [`append_leaf`] does.
///
/// # Complexity
///
/// Time and memory are those of [`try_append_leaf_in_batch`].
///
/// # Panics
///
/// Panics if memory runs out; or if the digests would have 2^64 bits or more; or if chunks of `stored` are pruned; or if the number of chunks of
/// `stored` is not `node_count(n)`, or the last is not full.
///
/// ```
/// use mortarpink::bitmap::historical::{CleanBitMap, Error};
/// use mortarpink::roots::{append_leaf_in_batch, leaf_digests, tree_digest, tree_from_bitmap};
/// # mod sha256 { include!(concat!(env!("CARGO_MANIFEST_DIR"), "/examples/sha256/mod.rs")); }
/// # use sha256::Sha256;
///
/// let leaves = leaf_digests(&Sha256, &[[1], [2], [3]]);
/// let mut stored = CleanBitMap::<32>::new();
/// for (n, leaf) in leaves.iter().enumerate() {
///     stored = stored.apply_batch(n as u64, |batch| {
///         append_leaf_in_batch(&Sha256, batch, n as u64, leaf);
///     })?;
/// }
///
/// // The trees of two leaves and of three.
/// assert_eq!(tree_from_bitmap(&Sha256, &stored.at(1).unwrap(), 2), tree_digest(&Sha256, &leaves[..2]));
/// assert_eq!(tree_from_bitmap(&Sha256, stored.current(), 3), tree_digest(&Sha256, &leaves));
/// # Ok::<(), Error>(())
/// ```
pub fn append_leaf_in_batch<D: Digest>(hash: &D, stored: &mut DirtyBitMap<32>, n: u64, digest: &[u8; 32]) {
    expect_memory(try_append_leaf_in_batch(hash, stored, n, digest));
}

/// Replaces leaf `i` of a tree of `n` leaves whose stored digests are the chunks of a batch. It does what [`replace_leaf`] does.
///
/// # Complexity
///
/// Time and memory are those of [`try_replace_leaf_in_batch`].
///
/// # Panics
///
/// Panics if memory runs out; or if `i` is not below `n`; or if chunks of `stored` are pruned; or if the number of chunks of `stored` is not
/// `node_count(n)`, or the last is not full.
///
/// ```
/// use mortarpink::bitmap::historical::CleanBitMap;
/// use mortarpink::roots::{append_leaf_in_batch, node_digest, replace_leaf_in_batch};
/// # mod sha256 { include!(concat!(env!("CARGO_MANIFEST_DIR"), "/examples/sha256/mod.rs")); }
/// # use sha256::Sha256;
///
/// let [a, b, c] = [[1; 32], [2; 32], [3; 32]];
/// let mut stored = CleanBitMap::<32>::new().into_dirty();
/// append_leaf_in_batch(&Sha256, &mut stored, 0, &a);
/// append_leaf_in_batch(&Sha256, &mut stored, 1, &b);
/// replace_leaf_in_batch(&Sha256, &mut stored, 2, 0, &c);
/// assert_eq!((stored.get_chunk(0), stored.get_chunk(512)), (c, node_digest(&Sha256, &c, &b)));
/// ```
pub fn replace_leaf_in_batch<D: Digest>(hash: &D, stored: &mut DirtyBitMap<32>, n: u64, i: u64, digest: &[u8; 32]) {
    expect_memory(try_replace_leaf_in_batch(hash, stored, n, i, digest));
}

/// Returns the audit path of leaf `i` of the tree of `n` leaves, from the stored digests. There are [`node_count(n)`](node_count) of them.
///
/// # Complexity
///
/// Time and memory are those of [`try_prove_from_stored`].
///
/// # Panics
///
/// Panics if memory runs out; or if `n` is above 2^61; or if `i` is not below `n`; or if the number of `stored` is not `node_count(n)`.
///
/// ```
/// use mortarpink::roots::{leaf_digests, node_digest, prove, prove_from_stored};
/// # mod sha256 { include!(concat!(env!("CARGO_MANIFEST_DIR"), "/examples/sha256/mod.rs")); }
/// # use sha256::Sha256;
///
/// let leaves = leaf_digests(&Sha256, &[[1], [2], [3]]);
/// let stored = [leaves[0], leaves[1], node_digest(&Sha256, &leaves[0], &leaves[1]), leaves[2]];
/// assert_eq!(prove_from_stored(&Sha256, &stored, 3, 2), prove(&Sha256, &leaves, 2));
/// ```
#[must_use]
pub fn prove_from_stored<D: Digest>(hash: &D, stored: &[[u8; 32]], n: u64, i: u64) -> Vec<[u8; 32]> {
    expect_memory(try_prove_from_stored(hash, stored, n, i))
}

/// Returns the audit path of leaf `i` of the tree of `n` leaves, from a bitmap that has the [`node_count(n)`](node_count) stored digests as chunks.
///
/// # Complexity
///
/// Time and memory are those of [`try_prove_from_bitmap`].
///
/// # Panics
///
/// Panics if memory runs out; or if `n` is above 2^61; or if `i` is not below `n`; or if chunks of `stored` are pruned; or if the number of chunks of
/// `stored` is not `node_count(n)`, or the last is not full.
///
/// ```
/// use mortarpink::bitmap::BitMap;
/// use mortarpink::roots::{leaf_digests, node_digest, prove, prove_from_bitmap};
/// # mod sha256 { include!(concat!(env!("CARGO_MANIFEST_DIR"), "/examples/sha256/mod.rs")); }
/// # use sha256::Sha256;
///
/// let leaves = leaf_digests(&Sha256, &[[1], [2], [3]]);
/// let mut stored = BitMap::<32>::new();
/// for digest in [leaves[0], leaves[1], node_digest(&Sha256, &leaves[0], &leaves[1]), leaves[2]] {
///     stored.push_chunk(&digest);
/// }
/// assert_eq!(prove_from_bitmap(&Sha256, &stored, 3, 2), prove(&Sha256, &leaves, 2));
/// ```
#[must_use]
pub fn prove_from_bitmap<D: Digest>(hash: &D, stored: &impl Readable<32>, n: u64, i: u64) -> Vec<[u8; 32]> {
    expect_memory(try_prove_from_bitmap(hash, stored, n, i))
}

/// Returns the siblings of the `count` chunks from `first` on, from the digests of all chunks: the digests of the largest parts of the tree that
/// have none of these chunks, from left to right.
///
/// # Complexity
///
/// Time and memory are those of [`try_prove_range`].
///
/// # Panics
///
/// Panics if memory runs out; or if `count` is 0; or if the range ends after the last of `digests`.
///
/// ```
/// use mortarpink::roots::{leaf_digests, node_digest, prove_range};
/// # mod sha256 { include!(concat!(env!("CARGO_MANIFEST_DIR"), "/examples/sha256/mod.rs")); }
/// # use sha256::Sha256;
///
/// // The chunks 2 and 3 of five are beside the chunks 0 and 1, and beside chunk 4.
/// let digests = leaf_digests(&Sha256, &[[1], [2], [3], [4], [5]]);
/// let siblings = prove_range(&Sha256, &digests, 2, 2);
/// assert_eq!(siblings, [node_digest(&Sha256, &digests[0], &digests[1]), digests[4]]);
/// ```
#[must_use]
pub fn prove_range<D: Digest>(hash: &D, digests: &[[u8; 32]], first: usize, count: usize) -> Vec<[u8; 32]> {
    expect_memory(try_prove_range(hash, digests, first, count))
}

/// Returns the siblings of the `count` chunks from `first` on in the tree of `n` chunks, from the stored digests, as [`prove_range`] does from those of
/// all chunks. There are [`node_count(n)`](node_count) of them.
///
/// # Complexity
///
/// Time and memory are those of [`try_prove_range_from_stored`].
///
/// # Panics
///
/// Panics if memory runs out; or if `n` is above 2^61; or if `count` is 0; or if the range ends after chunk `n - 1`; or if the number of `stored` is
/// not `node_count(n)`.
///
/// ```
/// use mortarpink::roots::{leaf_digests, node_digest, prove_range, prove_range_from_stored};
/// # mod sha256 { include!(concat!(env!("CARGO_MANIFEST_DIR"), "/examples/sha256/mod.rs")); }
/// # use sha256::Sha256;
///
/// let leaves = leaf_digests(&Sha256, &[[1], [2], [3]]);
/// let stored = [leaves[0], leaves[1], node_digest(&Sha256, &leaves[0], &leaves[1]), leaves[2]];
/// assert_eq!(prove_range_from_stored(&Sha256, &stored, 3, 1, 2), prove_range(&Sha256, &leaves, 1, 2));
/// ```
#[must_use]
pub fn prove_range_from_stored<D: Digest>(hash: &D, stored: &[[u8; 32]], n: u64, first: u64, count: u64) -> Vec<[u8; 32]> {
    expect_memory(try_prove_range_from_stored(hash, stored, n, first, count))
}

/// Returns the siblings of the `count` chunks from `first` on in the tree of `n` chunks, from a bitmap that has the [`node_count(n)`](node_count)
/// stored digests as chunks.
///
/// # Complexity
///
/// Time and memory are those of [`try_prove_range_from_bitmap`].
///
/// # Panics
///
/// Panics if memory runs out; or if `n` is above 2^61; or if `count` is 0; or if the range ends after chunk `n - 1`; or if chunks of `stored` are
/// pruned; or if the number of chunks of `stored` is not `node_count(n)`, or the last is not full.
///
/// ```
/// use mortarpink::bitmap::BitMap;
/// use mortarpink::roots::{leaf_digests, node_digest, prove_range, prove_range_from_bitmap};
/// # mod sha256 { include!(concat!(env!("CARGO_MANIFEST_DIR"), "/examples/sha256/mod.rs")); }
/// # use sha256::Sha256;
///
/// let leaves = leaf_digests(&Sha256, &[[1], [2], [3]]);
/// let mut stored = BitMap::<32>::new();
/// for digest in [leaves[0], leaves[1], node_digest(&Sha256, &leaves[0], &leaves[1]), leaves[2]] {
///     stored.push_chunk(&digest);
/// }
/// assert_eq!(prove_range_from_bitmap(&Sha256, &stored, 3, 1, 2), prove_range(&Sha256, &leaves, 1, 2));
/// ```
#[must_use]
pub fn prove_range_from_bitmap<D: Digest>(hash: &D, stored: &impl Readable<32>, n: u64, first: u64, count: u64) -> Vec<[u8; 32]> {
    expect_memory(try_prove_range_from_bitmap(hash, stored, n, first, count))
}

/// Bytes. `8N` has to fit `u64`: otherwise they do not compile.
impl<const N: usize> Proof<'_, N> {
    /// Returns the encoding of the proof: 40 bytes for its numbers, `N` for the chunk, and 32 per digest.
    ///
    /// A path of more than 64 digests, which no tree has, is written, and is not read again.
    ///
    /// # Complexity
    ///
    /// Time and memory are those of [`try_write`](Self::try_write).
    ///
    /// # Panics
    ///
    /// Panics if memory runs out.
    ///
    /// ```
    /// use mortarpink::roots::Proof;
    ///
    /// let proof = Proof { len: 3, pruned: 0, index: 0, chunk: &[0b101], path: &[] };
    /// let bytes = proof.write();
    /// assert_eq!((bytes.len(), Proof::read(&bytes)), (41, Ok(proof)));
    /// ```
    #[must_use]
    pub fn write(&self) -> Vec<u8> {
        expect_memory(self.try_write())
    }

    /// Returns the encoding of the proof, as `write` does.
    ///
    /// # Errors
    ///
    /// Returns `AllocError` if an allocation fails.
    ///
    /// # Memory
    ///
    /// Allocates the bytes of the encoding: 40, `N` for the chunk, and 32 per digest.
    ///
    /// # Complexity
    ///
    /// Linear in these bytes.
    ///
    /// ```
    /// use mortarpink::roots::Proof;
    ///
    /// let proof = Proof { len: 3, pruned: 0, index: 0, chunk: &[0b101], path: &[[7; 32]] };
    /// assert_eq!(proof.try_write()?.len(), 40 + 1 + 32);
    /// # Ok::<(), mortarpink::AllocError>(())
    /// ```
    pub fn try_write(&self) -> Result<Vec<u8>, AllocError> {
        self.write_within(Global)
    }
}

/// Bytes. `8N` has to fit `u64`: otherwise they do not compile.
impl<const N: usize> RangeProof<'_, N> {
    /// Returns the encoding of the proof: 48 bytes for its numbers, `N` per chunk, and 32 per sibling.
    ///
    /// More than 128 siblings, which no range has, are written, and are not read again.
    ///
    /// # Complexity
    ///
    /// Time and memory are those of [`try_write`](Self::try_write).
    ///
    /// # Panics
    ///
    /// Panics if memory runs out.
    ///
    /// ```
    /// use mortarpink::roots::RangeProof;
    ///
    /// let proof = RangeProof { len: 11, pruned: 0, first: 0, chunks: &[[0xff], [0b101]], siblings: &[] };
    /// let bytes = proof.write();
    /// assert_eq!((bytes.len(), RangeProof::read(&bytes)), (50, Ok(proof)));
    /// ```
    #[must_use]
    pub fn write(&self) -> Vec<u8> {
        expect_memory(self.try_write())
    }

    /// Returns the encoding of the proof, as `write` does.
    ///
    /// # Errors
    ///
    /// Returns `AllocError` if an allocation fails.
    ///
    /// # Memory
    ///
    /// Allocates the bytes of the encoding: 48, `N` per chunk, and 32 per sibling.
    ///
    /// # Complexity
    ///
    /// Linear in these bytes.
    ///
    /// ```
    /// use mortarpink::roots::RangeProof;
    ///
    /// let proof = RangeProof { len: 19, pruned: 0, first: 0, chunks: &[[0xff], [0xff]], siblings: &[[7; 32]] };
    /// assert_eq!(proof.try_write()?.len(), 48 + 2 + 32);
    /// # Ok::<(), mortarpink::AllocError>(())
    /// ```
    pub fn try_write(&self) -> Result<Vec<u8>, AllocError> {
        self.write_within(Global)
    }
}

impl fmt::Display for DecodeError {
    fn fmt(&self, f: &mut fmt::Formatter<'_>) -> fmt::Result {
        match self {
            DecodeError::Short => write!(f, "the bytes end within the numbers of the proof"),
            DecodeError::Width(width) => write!(f, "the proof is of chunks of {width} bytes, which is not the width of the reader"),
            DecodeError::TooManyDigests(count) => {
                write!(f, "the proof has {count} digests, and that of a chunk has at most 64, and that of a range 128")
            }
            DecodeError::Length => write!(f, "the number of bytes is not that of the chunks and the digests of the proof"),
        }
    }
}

impl error::Error for DecodeError {}
