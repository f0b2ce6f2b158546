//! Bitmaps with a root for every version that they keep.

use super::Digest;
use super::batch::DirtyAuthenticatedBitMap;
use crate::bitmap::historical::{CleanBitMap, RewindError};
use crate::generated::authenticated_history as generated;
use crate::support::alloc::{AllocError, Global, expect_memory};
use alloc::vec::Vec;

/// A historical bitmap with a root for its current state and for every version that it keeps. `N` is the number of bytes per chunk, and `D` is the
/// hash.
///
/// It stores the digests of its chunks in a second historical bitmap, which is committed, pruned and rewound together with the first. So a root or a
/// proof of any version takes a few stored digests and a few hashes, and reads no chunk. A bitmap begins empty: the digests of the versions of a
/// [`CleanBitMap`] that exists already are not known.
///
/// # Memory
///
/// The bitmap and its versions, and fewer than two digests of 32 bytes per chunk, pruned ones included. Each kept version adds at most 62 digests per
/// chunk that it changed.
///
/// # Examples
///
/// ```
/// use mortarpink::roots::{AuthenticatedBitMap, Proof, verify_bit};
/// # mod sha256 { include!(concat!(env!("CARGO_MANIFEST_DIR"), "/examples/sha256/mod.rs")); }
/// # use sha256::Sha256;
///
/// // Bit 70 is set in version 1, and cleared in version 2. `Sha256` implements `Digest`.
/// let mut batch = AuthenticatedBitMap::<8, _>::new(Sha256).into_dirty();
/// batch.extend_to(1000).set_bit(70, true);
/// let mut batch = batch.commit(1)?.into_dirty();
/// batch.set_bit(70, false);
/// let bitmap = batch.commit(2)?;
/// let (root_1, root_2) = (bitmap.root_at(1).unwrap(), bitmap.root_at(2).unwrap());
///
/// // The server proves what bit 70 was in version 1. It is in chunk 1.
/// let past = bitmap.bits().at(1).unwrap();
/// let chunk = past.retained_bytes(1).unwrap();
/// let path = bitmap.prove_at(1, 1).unwrap();
/// let bytes = Proof { len: 1000, pruned: 0, index: 1, chunk: &chunk, path: &path }.write();
///
/// // Someone with the roots alone checks the bytes.
/// let proof = Proof::<8>::read(&bytes).unwrap();
/// let is_shown = |root| verify_bit(&Sha256, root, proof.len, proof.pruned, 70, true, proof.chunk, proof.path);
/// assert!(is_shown(&root_1) && !is_shown(&root_2));
/// # Ok::<(), mortarpink::bitmap::historical::Error>(())
/// ```
#[derive(Debug)]
pub struct AuthenticatedBitMap<const N: usize, D: Digest>(pub(super) generated::AuthenticatedBitMap<N, D>);

impl<const N: usize, D: Digest> AuthenticatedBitMap<N, D> {
    /// Returns an empty bitmap: no bits, no pruned chunks and no versions. Does not allocate; constant time.
    ///
    /// `N` has to be at least 1, and `8N` has to fit `u64`: otherwise the call does not compile.
    ///
    /// ```
    /// use mortarpink::roots::{AuthenticatedBitMap, root_digest, tree_digest};
    /// # mod sha256 { include!(concat!(env!("CARGO_MANIFEST_DIR"), "/examples/sha256/mod.rs")); }
    /// # use sha256::Sha256;
    ///
    /// let bitmap = AuthenticatedBitMap::<4, _>::new(Sha256);
    /// assert!(bitmap.bits().is_empty());
    /// assert_eq!(bitmap.root(), root_digest::<_, 4>(&Sha256, 0, 0, &tree_digest(&Sha256, &[])));
    /// ```
    #[must_use]
    pub fn new(hash: D) -> Self {
        Self(generated::AuthenticatedBitMap::new_within(Global, hash))
    }

    /// Returns the historical bitmap. Its commits are the kept versions. Does not allocate; constant time.
    ///
    /// ```
    /// use mortarpink::roots::AuthenticatedBitMap;
    /// # mod sha256 { include!(concat!(env!("CARGO_MANIFEST_DIR"), "/examples/sha256/mod.rs")); }
    /// # use sha256::Sha256;
    ///
    /// let mut batch = AuthenticatedBitMap::<4, _>::new(Sha256).into_dirty();
    /// batch.push(true);
    /// let bitmap = batch.commit(7)?;
    /// assert!(bitmap.bits().get_bit(0) && bitmap.bits().commits().eq([7]));
    /// # Ok::<(), mortarpink::bitmap::historical::Error>(())
    /// ```
    #[must_use]
    pub fn bits(&self) -> &CleanBitMap<N> {
        self.0.bits()
    }

    /// Returns the hash. Does not allocate; constant time.
    ///
    /// ```
    /// use mortarpink::roots::{AuthenticatedBitMap, root_digest, tree_digest};
    /// # mod sha256 { include!(concat!(env!("CARGO_MANIFEST_DIR"), "/examples/sha256/mod.rs")); }
    /// # use sha256::Sha256;
    ///
    /// let bitmap = AuthenticatedBitMap::<4, _>::new(Sha256);
    /// let hash = bitmap.hash();
    /// assert_eq!(bitmap.root(), root_digest::<_, 4>(hash, 0, 0, &tree_digest(hash, &[])));
    /// ```
    #[must_use]
    pub fn hash(&self) -> &D {
        self.0.hash()
    }

    /// Turns the bitmap into a batch with no pending edits. Does not allocate; constant time.
    ///
    /// ```
    /// use mortarpink::roots::AuthenticatedBitMap;
    /// # mod sha256 { include!(concat!(env!("CARGO_MANIFEST_DIR"), "/examples/sha256/mod.rs")); }
    /// # use sha256::Sha256;
    ///
    /// let mut batch = AuthenticatedBitMap::<4, _>::new(Sha256).into_dirty();
    /// batch.push(true);
    /// assert_eq!(batch.commit(1)?.bits().len(), 1);
    /// # Ok::<(), mortarpink::bitmap::historical::Error>(())
    /// ```
    #[must_use]
    pub fn into_dirty(self) -> DirtyAuthenticatedBitMap<N, D> {
        DirtyAuthenticatedBitMap(self.0.into_dirty())
    }

    /// Returns the root of the current bitmap.
    ///
    /// # Memory
    ///
    /// Does not allocate.
    ///
    /// # Complexity
    ///
    /// Logarithmic in the number of chunks: reads and hashes one digest per set bit of that number.
    ///
    /// ```
    /// use mortarpink::roots::{AuthenticatedBitMap, bitmap_root, chunk_digests};
    /// # mod sha256 { include!(concat!(env!("CARGO_MANIFEST_DIR"), "/examples/sha256/mod.rs")); }
    /// # use sha256::Sha256;
    ///
    /// let mut batch = AuthenticatedBitMap::<4, _>::new(Sha256).into_dirty();
    /// batch.extend_to(100).set_bit(70, true);
    /// let bitmap = batch.commit(1)?;
    /// // It is the root that is computed from all chunks.
    /// let current = bitmap.bits().current();
    /// assert_eq!(bitmap.root(), bitmap_root(&Sha256, current, &chunk_digests(&Sha256, current, &[])));
    /// # Ok::<(), mortarpink::bitmap::historical::Error>(())
    /// ```
    #[must_use]
    pub fn root(&self) -> [u8; 32] {
        self.0.root()
    }

    /// Returns the root of the version `number`, or `None` if that version is not kept.
    ///
    /// # Memory
    ///
    /// Does not allocate.
    ///
    /// # Complexity
    ///
    /// A search among the kept versions, and then logarithmic in the number of chunks: reads and hashes one digest per set bit of that number. Each is
    /// read as [`at`](CleanBitMap::at) of a historical bitmap reads a chunk.
    ///
    /// ```
    /// use mortarpink::roots::AuthenticatedBitMap;
    /// # mod sha256 { include!(concat!(env!("CARGO_MANIFEST_DIR"), "/examples/sha256/mod.rs")); }
    /// # use sha256::Sha256;
    ///
    /// let mut batch = AuthenticatedBitMap::<4, _>::new(Sha256).into_dirty();
    /// batch.push(true);
    /// let bitmap = batch.commit(7)?;
    /// assert_eq!(bitmap.root_at(7), Some(bitmap.root()));
    /// assert_eq!(bitmap.root_at(8), None);
    /// # Ok::<(), mortarpink::bitmap::historical::Error>(())
    /// ```
    #[must_use]
    pub fn root_at(&self, number: u64) -> Option<[u8; 32]> {
        self.0.root_at(number)
    }

    /// Returns the audit path of a chunk of the current bitmap, by its absolute index. The chunk may be pruned.
    ///
    /// The path shows the bytes that [`retained_bytes`](CleanBitMap::retained_bytes) of the bitmap returns for the chunk.
    ///
    /// # Complexity
    ///
    /// Time and memory are those of [`try_prove`](Self::try_prove).
    ///
    /// # Panics
    ///
    /// Panics if memory runs out, or if the current bitmap has no chunk `chunk`.
    ///
    /// ```
    /// use mortarpink::roots::{AuthenticatedBitMap, verify_chunk};
    /// # mod sha256 { include!(concat!(env!("CARGO_MANIFEST_DIR"), "/examples/sha256/mod.rs")); }
    /// # use sha256::Sha256;
    ///
    /// let mut batch = AuthenticatedBitMap::<4, _>::new(Sha256).into_dirty();
    /// batch.extend_to(100).set_bit(70, true);
    /// let bitmap = batch.commit(1)?;
    /// let path = bitmap.prove(2);
    /// assert!(verify_chunk(&Sha256, &bitmap.root(), 100, 0, 2, &[64, 0, 0, 0], &path));
    /// # Ok::<(), mortarpink::bitmap::historical::Error>(())
    /// ```
    #[must_use]
    pub fn prove(&self, chunk: usize) -> Vec<[u8; 32]> {
        expect_memory(self.try_prove(chunk))
    }

    /// Returns the audit path of a chunk of the current bitmap, as `prove` does.
    ///
    /// # Errors
    ///
    /// Returns `AllocError` if an allocation fails.
    ///
    /// # Memory
    ///
    /// Allocates 32 bytes per digest of the path, of which there are at most 61.
    ///
    /// # Complexity
    ///
    /// Quadratic in the logarithm of the number of chunks. Most digests of the path are stored, and are not computed.
    ///
    /// # Panics
    ///
    /// Panics if the current bitmap has no chunk `chunk`.
    ///
    /// ```
    /// use mortarpink::roots::AuthenticatedBitMap;
    /// # mod sha256 { include!(concat!(env!("CARGO_MANIFEST_DIR"), "/examples/sha256/mod.rs")); }
    /// # use sha256::Sha256;
    ///
    /// let mut batch = AuthenticatedBitMap::<4, _>::new(Sha256).into_dirty();
    /// batch.extend_to(100);
    /// assert_eq!(batch.commit(1)?.try_prove(0).unwrap().len(), 2);
    /// # Ok::<(), mortarpink::bitmap::historical::Error>(())
    /// ```
    pub fn try_prove(&self, chunk: usize) -> Result<Vec<[u8; 32]>, AllocError> {
        self.0.try_prove(chunk)
    }

    /// Returns the audit path of a chunk of the version `number`, by its absolute index. Returns `None` if that version is not kept, or if it has no
    /// such chunk. The chunk may be pruned.
    ///
    /// The path shows the bytes that [`retained_bytes`](crate::bitmap::historical::AtCommit::retained_bytes) of the bitmap at that commit returns for
    /// the chunk. (`get_chunk` may return other bits past the length.)
    ///
    /// # Complexity
    ///
    /// Time and memory are those of [`try_prove_at`](Self::try_prove_at).
    ///
    /// # Panics
    ///
    /// Panics if memory runs out.
    ///
    /// ```
    /// use mortarpink::roots::{AuthenticatedBitMap, verify_bit};
    /// # mod sha256 { include!(concat!(env!("CARGO_MANIFEST_DIR"), "/examples/sha256/mod.rs")); }
    /// # use sha256::Sha256;
    ///
    /// let mut batch = AuthenticatedBitMap::<4, _>::new(Sha256).into_dirty();
    /// batch.extend_to(100).set_bit(70, true);
    /// let mut batch = batch.commit(1)?.into_dirty();
    /// batch.set_bit(70, false);
    /// let bitmap = batch.commit(2)?;
    ///
    /// let chunk = bitmap.bits().at(1).unwrap().retained_bytes(2).unwrap();
    /// let path = bitmap.prove_at(1, 2).unwrap();
    /// assert!(verify_bit(&Sha256, &bitmap.root_at(1).unwrap(), 100, 0, 70, true, &chunk, &path));
    /// assert!(bitmap.prove_at(1, 4).is_none() && bitmap.prove_at(3, 0).is_none());
    /// # Ok::<(), mortarpink::bitmap::historical::Error>(())
    /// ```
    #[must_use]
    pub fn prove_at(&self, number: u64, chunk: usize) -> Option<Vec<[u8; 32]>> {
        expect_memory(self.try_prove_at(number, chunk))
    }

    /// Returns the audit path of a chunk of the version `number`, as `prove_at` does.
    ///
    /// # Errors
    ///
    /// Returns `AllocError` if an allocation fails.
    ///
    /// # Memory
    ///
    /// Allocates 32 bytes per digest of the path, of which there are at most 61. Does not allocate if it returns `None`.
    ///
    /// # Complexity
    ///
    /// A search among the kept versions, and then quadratic in the logarithm of the number of chunks. Most digests of the path are stored, and are not
    /// computed. Each is read as [`at`](CleanBitMap::at) of a historical bitmap reads a chunk.
    ///
    /// ```
    /// use mortarpink::roots::AuthenticatedBitMap;
    /// # mod sha256 { include!(concat!(env!("CARGO_MANIFEST_DIR"), "/examples/sha256/mod.rs")); }
    /// # use sha256::Sha256;
    ///
    /// let mut batch = AuthenticatedBitMap::<4, _>::new(Sha256).into_dirty();
    /// batch.push(true);
    /// let bitmap = batch.commit(1)?;
    /// // The tree of one chunk has no other digest.
    /// assert_eq!(bitmap.try_prove_at(1, 0), Ok(Some(vec![])));
    /// # Ok::<(), mortarpink::bitmap::historical::Error>(())
    /// ```
    pub fn try_prove_at(&self, number: u64, chunk: usize) -> Result<Option<Vec<[u8; 32]>>, AllocError> {
        self.0.try_prove_at(number, chunk)
    }

    /// Returns the siblings of the `count` chunks from the absolute index `first` on of the current bitmap. The chunks may be pruned.
    ///
    /// The siblings show the bytes that [`retained_bytes`](CleanBitMap::retained_bytes) of the bitmap returns for the chunks.
    /// [`verify_range`](super::verify_range) checks them.
    ///
    /// # Complexity
    ///
    /// Time and memory are those of [`try_prove_range`](Self::try_prove_range).
    ///
    /// # Panics
    ///
    /// Panics if memory runs out; or if `count` is 0; or if the range ends after the last chunk of the current bitmap.
    ///
    /// ```
    /// use mortarpink::roots::{AuthenticatedBitMap, verify_range};
    /// # mod sha256 { include!(concat!(env!("CARGO_MANIFEST_DIR"), "/examples/sha256/mod.rs")); }
    /// # use sha256::Sha256;
    ///
    /// let mut batch = AuthenticatedBitMap::<4, _>::new(Sha256).into_dirty();
    /// batch.extend_to(100).set_range(32..96, true);
    /// let bitmap = batch.commit(1)?;
    /// let siblings = bitmap.prove_range(1, 2);
    /// assert!(verify_range(&Sha256, &bitmap.root(), 100, 0, 1, &[[255; 4]; 2], &siblings));
    /// # Ok::<(), mortarpink::bitmap::historical::Error>(())
    /// ```
    #[must_use]
    pub fn prove_range(&self, first: usize, count: usize) -> Vec<[u8; 32]> {
        expect_memory(self.try_prove_range(first, count))
    }

    /// Returns the siblings of chunks of the current bitmap, as `prove_range` does.
    ///
    /// # Errors
    ///
    /// Returns `AllocError` if an allocation fails.
    ///
    /// # Memory
    ///
    /// Allocates 32 bytes per sibling, of which there are at most 122.
    ///
    /// # Complexity
    ///
    /// Linear in `count`, and quadratic in the logarithm of the number of chunks. Most siblings are stored, and are not computed.
    ///
    /// # Panics
    ///
    /// Panics if `count` is 0; or if the range ends after the last chunk of the current bitmap.
    ///
    /// ```
    /// use mortarpink::roots::AuthenticatedBitMap;
    /// # mod sha256 { include!(concat!(env!("CARGO_MANIFEST_DIR"), "/examples/sha256/mod.rs")); }
    /// # use sha256::Sha256;
    ///
    /// let mut batch = AuthenticatedBitMap::<4, _>::new(Sha256).into_dirty();
    /// batch.extend_to(100);
    /// let bitmap = batch.commit(1)?;
    /// // The range of all chunks has no sibling.
    /// assert_eq!(bitmap.try_prove_range(0, 4), Ok(vec![]));
    /// # Ok::<(), mortarpink::bitmap::historical::Error>(())
    /// ```
    pub fn try_prove_range(&self, first: usize, count: usize) -> Result<Vec<[u8; 32]>, AllocError> {
        self.0.try_prove_range(first, count)
    }

    /// Returns the siblings of the `count` chunks from the absolute index `first` on of the version `number`. Returns `None` if that version is not
    /// kept, if it does not have all of these chunks, or if `count` is 0.
    ///
    /// The siblings show the bytes that [`retained_bytes`](crate::bitmap::historical::AtCommit::retained_bytes) of the bitmap at that commit returns
    /// for the chunks. [`verify_range`](super::verify_range) checks them.
    ///
    /// # Complexity
    ///
    /// Time and memory are those of [`try_prove_range_at`](Self::try_prove_range_at).
    ///
    /// # Panics
    ///
    /// Panics if memory runs out.
    ///
    /// ```
    /// use mortarpink::roots::{AuthenticatedBitMap, verify_range};
    /// # mod sha256 { include!(concat!(env!("CARGO_MANIFEST_DIR"), "/examples/sha256/mod.rs")); }
    /// # use sha256::Sha256;
    ///
    /// let mut batch = AuthenticatedBitMap::<4, _>::new(Sha256).into_dirty();
    /// batch.extend_to(100).set_range(32..96, true);
    /// let bitmap = batch.commit(1)?;
    /// let siblings = bitmap.prove_range_at(1, 1, 2).unwrap();
    /// assert!(verify_range(&Sha256, &bitmap.root(), 100, 0, 1, &[[255; 4]; 2], &siblings));
    /// assert!(bitmap.prove_range_at(1, 3, 2).is_none());
    /// # Ok::<(), mortarpink::bitmap::historical::Error>(())
    /// ```
    #[must_use]
    pub fn prove_range_at(&self, number: u64, first: usize, count: usize) -> Option<Vec<[u8; 32]>> {
        expect_memory(self.try_prove_range_at(number, first, count))
    }

    /// Returns the siblings of chunks of the version `number`, as `prove_range_at` does.
    ///
    /// # Errors
    ///
    /// Returns `AllocError` if an allocation fails.
    ///
    /// # Memory
    ///
    /// Allocates 32 bytes per sibling, of which there are at most 122. Does not allocate if it returns `None`.
    ///
    /// # Complexity
    ///
    /// A search among the kept versions, and then linear in `count`, and quadratic in the logarithm of the number of chunks. Most siblings are stored,
    /// and are not computed. Each is read as [`at`](CleanBitMap::at) of a historical bitmap reads a chunk.
    ///
    /// ```
    /// use mortarpink::roots::AuthenticatedBitMap;
    /// # mod sha256 { include!(concat!(env!("CARGO_MANIFEST_DIR"), "/examples/sha256/mod.rs")); }
    /// # use sha256::Sha256;
    ///
    /// let mut batch = AuthenticatedBitMap::<4, _>::new(Sha256).into_dirty();
    /// batch.extend_to(100);
    /// let bitmap = batch.commit(1)?;
    /// // The range of all chunks has no sibling.
    /// assert_eq!(bitmap.try_prove_range_at(1, 0, 4), Ok(Some(vec![])));
    /// # Ok::<(), mortarpink::bitmap::historical::Error>(())
    /// ```
    pub fn try_prove_range_at(&self, number: u64, first: usize, count: usize) -> Result<Option<Vec<[u8; 32]>>, AllocError> {
        self.0.try_prove_range_at(number, first, count)
    }

    /// Drops the kept versions whose numbers are below `number`, and returns how many were dropped.
    ///
    /// The current bitmap, its root and the other versions stay. The last number stays too, so a dropped number is not used again.
    ///
    /// # Memory
    ///
    /// Does not allocate.
    ///
    /// # Complexity
    ///
    /// At most linear in the dropped versions and the entries of their reverse records, which are freed.
    ///
    /// ```
    /// use mortarpink::roots::AuthenticatedBitMap;
    /// # mod sha256 { include!(concat!(env!("CARGO_MANIFEST_DIR"), "/examples/sha256/mod.rs")); }
    /// # use sha256::Sha256;
    ///
    /// let mut bitmap = AuthenticatedBitMap::<4, _>::new(Sha256);
    /// for number in 1..=3 {
    ///     bitmap = bitmap.into_dirty().commit(number)?;
    /// }
    /// assert_eq!(bitmap.prune_commits_before(3), 2);
    /// assert!(bitmap.root_at(2).is_none() && bitmap.root_at(3).is_some());
    /// # Ok::<(), mortarpink::bitmap::historical::Error>(())
    /// ```
    pub fn prune_commits_before(&mut self, number: u64) -> usize {
        self.0.prune_commits_before(number)
    }

    /// Drops all kept versions. The current bitmap, its root and the last number stay.
    ///
    /// # Memory
    ///
    /// Does not allocate.
    ///
    /// # Complexity
    ///
    /// At most linear in the kept versions and the entries of their reverse records, which are freed.
    ///
    /// ```
    /// use mortarpink::roots::AuthenticatedBitMap;
    /// # mod sha256 { include!(concat!(env!("CARGO_MANIFEST_DIR"), "/examples/sha256/mod.rs")); }
    /// # use sha256::Sha256;
    ///
    /// let mut bitmap = AuthenticatedBitMap::<4, _>::new(Sha256).into_dirty().commit(1)?;
    /// let root = bitmap.root();
    /// bitmap.clear_history();
    /// assert_eq!((bitmap.root_at(1), bitmap.root()), (None, root));
    /// # Ok::<(), mortarpink::bitmap::historical::Error>(())
    /// ```
    pub fn clear_history(&mut self) {
        self.0.clear_history();
    }

    /// Rewinds to the version `number`: it becomes the current bitmap, and the versions after it are dropped.
    ///
    /// The version itself and those before it stay. `number` becomes the last number, so the next commit has to have a greater one.
    ///
    /// # Errors
    ///
    /// - `NoSuchCommit` if the version is not kept, as `u64::MAX` never is;
    /// - `Memory` if an allocation fails, or if more than 2^31 - 1 chunks or digests have to be restored.
    ///
    /// The bitmap is returned with the error, unchanged.
    ///
    /// # Memory
    ///
    /// Allocates a copy of the stored digests, those of the kept versions included, and what [`rewind_to`](CleanBitMap::rewind_to) of the two
    /// historical bitmaps allocates. Does not allocate if the version is not kept.
    ///
    /// # Complexity
    ///
    /// Linear in the stored digests, those of the kept versions included, and then that of [`rewind_to`](CleanBitMap::rewind_to) of the two historical
    /// bitmaps. Hashes nothing.
    ///
    /// ```
    /// use mortarpink::roots::AuthenticatedBitMap;
    /// # mod sha256 { include!(concat!(env!("CARGO_MANIFEST_DIR"), "/examples/sha256/mod.rs")); }
    /// # use sha256::Sha256;
    ///
    /// let bitmap = AuthenticatedBitMap::<4, _>::new(Sha256).into_dirty().commit(1)?;
    /// let root = bitmap.root();
    /// let mut batch = bitmap.into_dirty();
    /// batch.push(true);
    /// let bitmap = batch.commit(2)?;
    ///
    /// // Commit 3 is not there, and the bitmap is returned.
    /// let (bitmap, _) = bitmap.rewind_to(3).unwrap_err();
    /// let bitmap = bitmap.rewind_to(1).map_err(|(_, error)| error).unwrap();
    /// assert_eq!((bitmap.root(), bitmap.root_at(2)), (root, None));
    /// # Ok::<(), mortarpink::bitmap::historical::Error>(())
    /// ```
    // The error has the bitmap itself, as that of `rewind_to` of `CleanBitMap` has.
    #[allow(clippy::result_large_err)]
    pub fn rewind_to(self, number: u64) -> Result<Self, (Self, RewindError)> {
        match self.0.rewind_to(number) {
            Ok(bitmap) => Ok(Self(bitmap)),
            Err((bitmap, error)) => Err((Self(bitmap), error)),
        }
    }
}

impl<const N: usize, D: Digest + Default> Default for AuthenticatedBitMap<N, D> {
    /// Returns an empty bitmap, as `new` does with the hash's default.
    fn default() -> Self {
        Self::new(D::default())
    }
}
