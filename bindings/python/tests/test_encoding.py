"""Encodings, and bitmaps made from them."""

import array
import unittest

from mortarpink import (
    Bitmap,
    DecodeError,
    EndOfBufferError,
    InvalidError,
    InvalidLengthError,
    NoMemoryError,
    NoSuchCommitError,
    NoSuchWidthError,
)
from support import MAX, bitmap_of, failing, with_versions


def encoding(pruned_chunks, bits, chunks=b""):
    """The encoding of a bitmap: two numbers, the most significant byte first, and the retained chunks."""
    return pruned_chunks.to_bytes(8, "big") + bits.to_bytes(8, "big") + chunks


class Encoding(unittest.TestCase):
    def test_empty_bitmap(self):
        self.assertEqual(bytes(Bitmap()), bytes(16))
        self.assertEqual(bytes(Bitmap(1, 2**61 - 1)), encoding(2**61 - 1, 0))

    def test_bitmap_of_each_width(self):
        for width in 1, 8, 32, 64:
            with self.subTest(width=width):
                bitmap = bitmap_of("0" * 8 * width + "1011", width=width, pruned_chunks=258)
                expected = encoding(258, 8 * width + 4, bytes(width) + b"\x0d" + bytes(width - 1))
                self.assertEqual(bytes(bitmap), expected)
                self.assertEqual(bytes(Bitmap.from_bytes(expected, width)), expected)

    def test_versions(self):
        bitmap = with_versions()
        self.assertEqual(bytes(bitmap.at(3)), encoding(0, 4, b"\x0d"))
        self.assertEqual(bytes(bitmap.at(5)), encoding(0, 10, b"\x4d\x03"))
        self.assertEqual(bytes(bitmap.at(9)), encoding(2, 2, b"\x02"))
        self.assertEqual(bytes(bitmap), bytes(bitmap.at(9)))

    def test_errors(self):
        bitmap = bitmap_of("1")
        version = bitmap.at(1)
        with failing("encode"), self.assertRaises(NoMemoryError):
            bytes(bitmap)
        with failing("encode_at"), self.assertRaises(NoMemoryError):
            bytes(version)
        bitmap.clear()
        self.assertRaises(NoSuchCommitError, bytes, version)


class Decoding(unittest.TestCase):
    def test_from_bytes(self):
        bitmap = Bitmap.from_bytes(encoding(2, 10, b"\x4d\x03"), 1)
        self.assertEqual((bitmap.width, len(bitmap), bitmap.pruned_chunks), (1, 26, 2))
        self.assertEqual(list(bitmap.ones()), [16, 18, 19, 22, 24, 25])
        self.assertEqual((list(bitmap.commits()), bitmap.latest), ([], None))
        with bitmap.batch(0) as batch:
            batch.push(True)
        self.assertEqual((bitmap[-1], len(bitmap)), (True, 27))

    def test_buffers(self):
        data = encoding(0, 4, b"\x0d")
        spread = bytearray(2 * len(data))
        spread[::2] = data
        for buffer in bytearray(data), memoryview(data), memoryview(spread)[::2], array.array("B", data):
            self.assertEqual(list(Bitmap.from_bytes(buffer, 1).ones()), [0, 2, 3])
        for other in "0" * 17, 17, None:
            self.assertRaises(TypeError, Bitmap.from_bytes, other, 1)

    def test_large_buffer(self):
        data = encoding(0, 1 << 23, b"\x01" * (1 << 20))
        bitmap = Bitmap.from_bytes(data, 64)
        self.assertEqual((len(bitmap), bitmap.count_ones()), (1 << 23, 1 << 20))
        self.assertEqual(bytes(bitmap), data)

    def test_decode_the_start_of_the_bytes(self):
        data = encoding(1, 3, b"\x05" + bytes(7))
        bitmap, used = Bitmap.decode(data + b"more")
        self.assertEqual((list(bitmap.ones()), len(bitmap), used), ([64, 66], 67, 24))
        self.assertEqual(bytes(bitmap), data)
        with self.assertRaises(InvalidError) as caught:
            Bitmap.from_bytes(data + b"\x00")
        self.assertEqual(str(caught.exception), "the bytes are not an encoding: bytes follow the encoding")

    def test_limits(self):
        data = encoding(5, 3, b"\x05")
        for least, most in (0, MAX), (3, 3), (0, 3), (3, MAX):
            self.assertEqual(len(Bitmap.from_bytes(data, 1, least, most)), 43)
        for least, most in (0, 2), (4, MAX), (4, 2), (MAX, MAX), (0, 0):
            with self.assertRaises(InvalidLengthError) as caught:
                Bitmap.from_bytes(data, 1, least=least, most=most)
            self.assertEqual(caught.exception.length, 3)
            self.assertEqual(str(caught.exception), "the encoded number of retained bits is out of range: 3 retained bits")
        for least, most in (-1, 3), (0, MAX + 1):
            self.assertRaises(ValueError, Bitmap.from_bytes, data, 1, least, most)

    def test_a_length_out_of_range_is_found_before_the_chunks(self):
        with self.assertRaises(InvalidLengthError) as caught:
            Bitmap.decode(encoding(0, MAX), most=1 << 20)
        self.assertEqual(caught.exception.length, MAX)

    def test_bytes_that_end_early(self):
        data = encoding(0, 9, b"\x4d\x01")
        for size in range(len(data)):
            with self.assertRaises(EndOfBufferError):
                Bitmap.from_bytes(data[:size], 1)
        self.assertRaises(EndOfBufferError, Bitmap.from_bytes, encoding(0, MAX))

    def test_bytes_that_are_no_encoding(self):
        set_past_the_length = encoding(0, 9, b"\x4d\x03")
        too_many_pruned = encoding(2**61, 0)
        too_long = encoding(2**61 - 1, 8, b"\x00")
        for data in set_past_the_length, too_many_pruned, too_long:
            with self.assertRaises(InvalidError) as caught:
                Bitmap.decode(data, 1)
            self.assertIsInstance(caught.exception, DecodeError)
        self.assertEqual(Bitmap.from_bytes(encoding(2**61 - 1, 7, b"\x00"), 1).length, MAX)

    def test_other_errors(self):
        for width in 0, 2, 16, -8, 2**32 + 8, MAX + 2:
            self.assertRaises(NoSuchWidthError, Bitmap.from_bytes, bytes(16), width)
        self.assertRaises(TypeError, Bitmap.from_bytes, bytes(16), 8.0)
        with failing("read"), self.assertRaises(NoMemoryError):
            Bitmap.from_bytes(bytes(16))

    def test_subclass(self):
        class Mine(Bitmap):
            pass

        self.assertIs(type(Mine.from_bytes(bytes(16))), Mine)
        self.assertIs(type(Mine(1).copy()), Mine)
