//! Checks of proofs against a root, for which there is no bitmap.

use crate::{Chunk, Error, Width, ffi};

/// A chunk that a proof shows. [`verify_chunk`] returns it.
#[derive(Clone, Copy, Debug, PartialEq, Eq)]
pub struct ShownChunk {
    /// The bytes of the chunk. Those of its bits that are at or past the length are not part of the
    /// bitmap.
    pub chunk: Chunk,

    /// The index of the chunk, from 0 on. Pruned chunks count.
    pub index: u64,

    /// The length of the bitmap in bits. Pruned bits count.
    pub len: u64,

    /// The number of pruned chunks.
    pub pruned_chunks: u64,
}

/// Chunks that a proof of a range shows. [`verify_range`] returns them.
#[derive(Clone, Debug, PartialEq, Eq)]
pub struct ShownRange {
    /// The bytes of the chunks, one chunk after another.
    pub chunks: Vec<u8>,

    /// The index of the first chunk, from 0 on. Pruned chunks count.
    pub first: u64,

    /// The length of the bitmap in bits. Pruned bits count.
    pub len: u64,

    /// The number of pruned chunks.
    pub pruned_chunks: u64,
}

/// Checks a proof of a chunk against a root, with SHA-256, and returns what it shows.
///
/// A root is 32 bytes that stand for one state of a bitmap. The caller has it from someone whom it
/// trusts, and needs no bitmap. The proof may be from anyone. If the call returns `Ok`, each bitmap
/// with that root has this length, this number of pruned chunks and this chunk, unless two different
/// inputs of SHA-256 have one digest. Of a pruned chunk a bitmap has the digest alone, and the chunk
/// has that digest. The crate `mortarpink` makes roots and proofs.
///
/// # Errors
///
/// - [`Error::Invalid`] if the bytes are not the encoding of a proof of a chunk of this width.
/// - [`Error::NotVerified`] if the proof does not verify against the root.
///
/// # Complexity
///
/// One hash for the chunk, one per digest of the proof, of which there are at most 64, and one for
/// the root. Does not allocate.
///
/// # Examples
///
/// ```
/// use mortarpink_proved::{Error, Width, verify_bit, verify_chunk};
///
/// // The bytes of hexadecimal digits.
/// fn bytes(digits: &str) -> Vec<u8> {
///     let pairs = (0..digits.len()).step_by(2).map(|at| &digits[at..at + 2]);
///     pairs.map(|pair| u8::from_str_radix(pair, 16).unwrap()).collect()
/// }
///
/// // The root of 20 bits in chunks of one byte, the first of which is pruned.
/// let root = "e30df6a24c0a4623dca2543e7d1ae2fd927984e85be2b6771a037ed9ec585591";
/// let root: [u8; 32] = bytes(root).try_into().unwrap();
/// // Chunk 2 of it, and the digest beside it.
/// let mut proof = bytes(concat!(
///     "0000000000000001000000000000001400000000000000010000000000000002",
///     "00000000000000010fe5b8ce24c2528ae6278fb86b3801653d16e79c75eed779",
///     "5c3f8846edb783f926",
/// ));
///
/// let shown = verify_chunk(Width::Bytes1, &root, &proof)?;
/// assert_eq!((shown.index, shown.len, shown.pruned_chunks), (2, 20, 1));
/// assert_eq!(&shown.chunk[..], [0x0f]);
/// assert_eq!(verify_bit(Width::Bytes1, &root, &proof, 17), Ok(true));
///
/// // Another byte of the chunk, and a bit of another chunk.
/// proof[40] = 0x0e;
/// assert_eq!(verify_chunk(Width::Bytes1, &root, &proof), Err(Error::NotVerified));
/// proof[40] = 0x0f;
/// assert_eq!(verify_bit(Width::Bytes1, &root, &proof, 15), Err(Error::NotVerified));
/// # Ok::<(), Error>(())
/// ```
pub fn verify_chunk(width: Width, root: &[u8; 32], proof: &[u8]) -> Result<ShownChunk, Error> {
    let mut chunk = Chunk::zeroed(width);
    let shown = ffi::verify_chunk(root, proof, chunk.as_mut_slice())?;
    Ok(ShownChunk { chunk, index: shown.first, len: shown.len, pruned_chunks: shown.pruned_chunks })
}

/// Checks a proof of the chunk of a position against a root, with SHA-256, and returns the bit at
/// the position.
///
/// [`verify_chunk`] says what a root is, and has an example. If the call returns `Ok`, each bitmap
/// with that root retains the position and has this bit there, unless two different inputs of
/// SHA-256 have one digest. With [`Error::OutOfBounds`] and [`Error::Pruned`] the proof verifies too:
/// each bitmap with that root has no such position, or has pruned it.
///
/// # Errors
///
/// - [`Error::Invalid`] if the bytes are not the encoding of a proof of a chunk of this width.
/// - [`Error::NotVerified`] if the proof does not verify against the root.
/// - [`Error::OutOfBounds`] if the position is at or past the length that the proof shows.
/// - [`Error::Pruned`] if the position is in a chunk that the proof shows as pruned.
/// - [`Error::NotVerified`] if the proof is of another chunk than that of the position.
///
/// # Complexity
///
/// As [`verify_chunk`].
pub fn verify_bit(
    width: Width,
    root: &[u8; 32],
    proof: &[u8],
    position: u64,
) -> Result<bool, Error> {
    ffi::verify_bit(width.bytes() as u32, root, proof, position)
}

/// Checks a proof of a range of chunks against a root, with SHA-256, and returns the chunks.
///
/// [`verify_chunk`] says what a root is. If the call returns `Ok`, each bitmap with that root has
/// what is returned, in the same sense.
///
/// # Errors
///
/// - [`Error::Invalid`] if the bytes are not the encoding of a proof of a range of this width.
/// - [`Error::NoMemory`] if the allocation of the chunks fails.
/// - [`Error::NotVerified`] if the proof does not verify against the root, or has no chunk.
///
/// # Complexity
///
/// One hash per chunk, one per node of the tree above them, which are fewer than the chunks and the
/// digests of the proof together, and one for the root. Allocates the chunks.
///
/// # Examples
///
/// ```
/// use mortarpink_proved::{Width, verify_range};
///
/// // The bytes of hexadecimal digits.
/// fn bytes(digits: &str) -> Vec<u8> {
///     let pairs = (0..digits.len()).step_by(2).map(|at| &digits[at..at + 2]);
///     pairs.map(|pair| u8::from_str_radix(pair, 16).unwrap()).collect()
/// }
///
/// let root = "e30df6a24c0a4623dca2543e7d1ae2fd927984e85be2b6771a037ed9ec585591";
/// let root: [u8; 32] = bytes(root).try_into().unwrap();
/// let proof = bytes(concat!(
///     "0000000000000001000000000000001400000000000000010000000000000001",
///     "00000000000000020000000000000001800fb413f47d13ee2fe6c845b2ee141a",
///     "f81de858df4ec549a58b7970bb96645bc8d2",
/// ));
///
/// let shown = verify_range(Width::Bytes1, &root, &proof)?;
/// assert_eq!((shown.first, &shown.chunks[..]), (1, &[0x80, 0x0f][..]));
/// # Ok::<(), mortarpink_proved::Error>(())
/// ```
pub fn verify_range(width: Width, root: &[u8; 32], proof: &[u8]) -> Result<ShownRange, Error> {
    let (mut chunks, mut size) = (Vec::new(), 0);
    loop {
        match ffi::verify_range(width.bytes() as u32, root, proof, &mut chunks, &mut size) {
            Err(Error::WrongSize) => {
                chunks.try_reserve_exact(size).map_err(|_| Error::NoMemory)?;
                chunks.resize(size, 0);
            }
            Err(error) => return Err(error),
            Ok(shown) => {
                return Ok(ShownRange {
                    chunks,
                    first: shown.first,
                    len: shown.len,
                    pruned_chunks: shown.pruned_chunks,
                });
            }
        }
    }
}
