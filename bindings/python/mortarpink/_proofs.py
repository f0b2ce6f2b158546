"""Checks of proofs against a root, for which there is no bitmap."""

from __future__ import annotations

from typing import TYPE_CHECKING, NamedTuple

from ._errors import WrongSizeError, check
from ._interface import SIZE, U8, U64, WRONG_SIZE
from ._library import CALLS
from ._session import bytes_of, position_of, width_of

if TYPE_CHECKING:
    from _typeshed import ReadableBuffer

ROOT_SIZE = 32


class ShownChunk(NamedTuple):
    """A chunk that a proof shows. `verify_chunk` returns it."""

    # The bytes of the chunk. Those of its bits that are at or past the length are not part of the bitmap.
    chunk: bytes

    # The index of the chunk, from 0 on. Pruned chunks count.
    index: int

    # The length of the bitmap in bits. Pruned bits count.
    length: int

    # The number of pruned chunks.
    pruned_chunks: int


class ShownRange(NamedTuple):
    """Chunks that a proof of a range shows. `verify_range` returns them."""

    # The bytes of the chunks, one chunk after another.
    chunks: bytes

    # The index of the first chunk, from 0 on. Pruned chunks count.
    first: int

    # The length of the bitmap in bits. Pruned bits count.
    length: int

    # The number of pruned chunks.
    pruned_chunks: int


def root_of(root: ReadableBuffer) -> bytes:
    """Returns the bytes of a root. Raises WrongSizeError unless there are 32."""
    data = bytes_of(root)
    if len(data) == ROOT_SIZE:
        return data
    raise WrongSizeError()


def verify_chunk(root: ReadableBuffer, proof: ReadableBuffer, width: int = 8) -> ShownChunk:
    """Checks a proof of a chunk against a root, with SHA-256, and returns what it shows.

    A root is 32 bytes that stand for one state of a bitmap with chunks of `width` bytes. The caller has it from someone
    whom it trusts, and needs no bitmap. The proof may be from anyone. If the call returns, each bitmap with that root has
    this length, this number of pruned chunks and this chunk, unless two different inputs of SHA-256 have one digest. Of a
    pruned chunk a bitmap has the digest alone, and the chunk has that digest.

    Raises NoSuchWidthError; WrongSizeError if the root does not have 32 bytes; InvalidError if the bytes are not the encoding
    of a proof of a chunk of this width; and NotVerifiedError if the proof does not verify against the root.
    """
    root, data, width = root_of(root), bytes_of(proof), width_of(width)
    chunk, length, pruned_chunks, at = (U8 * width)(), U64(), U64(), U64()
    check(CALLS["verify_chunk"](width, root, data, len(data), chunk, width, length, pruned_chunks, at))
    return ShownChunk(bytes(chunk), at.value, length.value, pruned_chunks.value)


def verify_bit(root: ReadableBuffer, proof: ReadableBuffer, position: int, width: int = 8) -> bool:
    """Checks a proof of the chunk of a position against a root, with SHA-256, and returns the bit at the position.

    `verify_chunk` says what a root is. If the call returns, each bitmap with that root retains the position and has this bit
    there, unless two different inputs of SHA-256 have one digest.

    Raises the exceptions of `verify_chunk`; OutOfBoundsError if the position is at or past the length that the proof shows;
    PrunedError if it is in a chunk that the proof shows as pruned; and NotVerifiedError if the proof is of another chunk. With
    OutOfBoundsError, for a position from 0 to 2^64 - 1, and with PrunedError, the proof verifies too.
    """
    root, data, width, bit = root_of(root), bytes_of(proof), width_of(width), U8()
    check(CALLS["verify_bit"](width, root, data, len(data), position_of(position), bit))
    return bool(bit.value)


def verify_range(root: ReadableBuffer, proof: ReadableBuffer, width: int = 8) -> ShownRange:
    """Checks a proof of a range of chunks against a root, with SHA-256, and returns the chunks.

    `verify_chunk` says what a root is. If the call returns, each bitmap with that root has what is returned, in the same
    sense.

    Raises NoSuchWidthError; WrongSizeError if the root does not have 32 bytes; InvalidError if the bytes are not the encoding
    of a proof of a range of this width; and NotVerifiedError if the proof does not verify against the root, or has no chunk.
    """
    root, data, width = root_of(root), bytes_of(proof), width_of(width)
    length, pruned_chunks, first, size = U64(), U64(), U64(), SIZE()
    while True:
        chunks = (U8 * size.value)()
        status = CALLS["verify_range"](width, root, data, len(data), chunks, size.value, size, length, pruned_chunks, first)
        if status != WRONG_SIZE:
            check(status)
            return ShownRange(bytes(chunks), first.value, length.value, pruned_chunks.value)
