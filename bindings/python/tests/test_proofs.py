"""Checks of proofs against a root. The proofs are those of the worked root in docs/FORMATS.md."""

import unittest
from hashlib import sha256

from mortarpink import (
    InvalidError,
    NoSuchWidthError,
    NotVerifiedError,
    OutOfBoundsError,
    PrunedError,
    ShownChunk,
    ShownRange,
    WrongSizeError,
    verify_bit,
    verify_chunk,
    verify_range,
)
from support import MAX

# 20 bits in the chunks 01, 80 and 0f, of which the first is pruned.
ROOT = bytes.fromhex("e30df6a24c0a4623dca2543e7d1ae2fd927984e85be2b6771a037ed9ec585591")
CHUNK_2 = bytes.fromhex(
    "0000000000000001 0000000000000014 0000000000000001 0000000000000002 0000000000000001 0f"
    "e5b8ce24c2528ae6278fb86b3801653d16e79c75eed7795c3f8846edb783f926"
)
CHUNKS_1_AND_2 = bytes.fromhex(
    "0000000000000001 0000000000000014 0000000000000001 0000000000000001 0000000000000002 0000000000000001 80 0f"
    "b413f47d13ee2fe6c845b2ee141af81de858df4ec549a58b7970bb96645bc8d2"
)

# Where the numbers are that say how many bytes a proof has, besides the first eight bytes.
COUNT = range(32, 40)
COUNTS = range(32, 48)


def digest(data):
    return sha256(data).digest()


def numbers(*values):
    """Numbers in eight bytes each, the most significant byte first."""
    return b"".join(value.to_bytes(8, "big") for value in values)


def changed(data):
    """Each copy of some bytes in which one bit differs, with the byte that has it."""
    for bit in range(8 * len(data)):
        copy = bytearray(data)
        copy[bit // 8] ^= 1 << bit % 8
        yield bit // 8, bytes(copy)


class Proofs(unittest.TestCase):
    def test_chunk(self):
        self.assertEqual(verify_chunk(ROOT, CHUNK_2, 1), ShownChunk(b"\x0f", 2, 20, 1))
        for data in CHUNK_2, bytearray(CHUNK_2), memoryview(CHUNK_2):
            self.assertEqual(verify_chunk(memoryview(ROOT), data, width=1).index, 2)

    def test_bit(self):
        for position in range(16, 20):
            self.assertIs(verify_bit(ROOT, CHUNK_2, position, 1), True)
        for position in 20, MAX, MAX + 1, -1:
            with self.assertRaises(OutOfBoundsError):
                verify_bit(ROOT, CHUNK_2, position, 1)
        for position in 0, 7:
            with self.assertRaises(PrunedError):
                verify_bit(ROOT, CHUNK_2, position, 1)
        for position in 8, 15:
            with self.assertRaises(NotVerifiedError):
                verify_bit(ROOT, CHUNK_2, position, 1)

    def test_range(self):
        self.assertEqual(verify_range(ROOT, CHUNKS_1_AND_2, 1), ShownRange(b"\x80\x0f", 1, 20, 1))
        with self.assertRaises(NotVerifiedError):
            verify_range(ROOT, numbers(1, 20, 1, 1, 0, 0), 1)

    def test_each_width(self):
        for width in 1, 8, 32, 64:
            with self.subTest(width=width):
                chunk = bytes(range(2, width + 2))
                # The tree of one chunk is its digest, and its path is empty.
                root = digest(b"\x02" + numbers(width, 8 * width, 0) + digest(b"\x00" + chunk))
                self.assertEqual(verify_chunk(root, numbers(width, 8 * width, 0, 0, 0) + chunk, width), ShownChunk(chunk, 0, 8 * width, 0))
                self.assertEqual(verify_range(root, numbers(width, 8 * width, 0, 0, 1, 0) + chunk, width), ShownRange(chunk, 0, 8 * width, 0))
                bits = [verify_bit(root, numbers(width, 8 * width, 0, 0, 0) + chunk, k, width) for k in range(8 * width)]
                self.assertEqual(bits, [bool(chunk[k // 8] >> k % 8 & 1) for k in range(8 * width)])

    def test_changed_bits(self):
        for at, data in changed(CHUNK_2):
            with self.assertRaises(InvalidError if at < 8 or at in COUNT else NotVerifiedError):
                verify_chunk(ROOT, data, 1)
        for at, data in changed(CHUNKS_1_AND_2):
            with self.assertRaises(InvalidError if at < 8 or at in COUNTS else NotVerifiedError):
                verify_range(ROOT, data, 1)
        for _, root in changed(ROOT):
            for call, data in (verify_chunk, CHUNK_2), (verify_range, CHUNKS_1_AND_2):
                with self.assertRaises(NotVerifiedError):
                    call(root, data, 1)

    def test_other_lengths(self):
        for call, proof in (verify_chunk, CHUNK_2), (verify_range, CHUNKS_1_AND_2):
            for data in (*(proof[:end] for end in range(len(proof))), proof + b"\0", proof + bytes(32)):
                with self.assertRaises(InvalidError):
                    call(ROOT, data, 1)

    def test_what_counts_only_with_its_root(self):
        for position in 7, 16, 20:
            with self.assertRaises(NotVerifiedError):
                verify_bit(digest(ROOT), CHUNK_2, position, 1)

    def test_arguments(self):
        for root in b"", ROOT[1:], ROOT + b"\0":
            for call, data in (verify_chunk, CHUNK_2), (verify_range, CHUNKS_1_AND_2):
                with self.assertRaises(WrongSizeError):
                    call(root, data, 1)
        for width in 0, 3, 16, 2**32 + 1:
            with self.assertRaises(NoSuchWidthError):
                verify_chunk(ROOT, CHUNK_2, width)
        # The width is 8 unless it is given.
        with self.assertRaises(InvalidError):
            verify_chunk(ROOT, CHUNK_2)
        with self.assertRaises(TypeError):
            verify_chunk(ROOT, "0f", 1)


if __name__ == "__main__":
    unittest.main()
