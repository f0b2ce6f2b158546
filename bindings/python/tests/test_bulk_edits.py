"""Edits of many bits in one call, beside the same edits bit by bit."""

import array
import ctypes
import random
import unittest

from mortarpink import Batch, Bitmap, NoMemoryError, OutOfBoundsError, PrunedError, TooLongError, WrongModeError, WrongSizeError
from support import MAX, bitmap_of, failing

WIDTHS = 1, 8, 32, 64


def bitmap_with(width, chooser, pruned_chunks=2):
    """Returns a bitmap with random bits in several chunks."""
    bitmap = Bitmap(width, pruned_chunks)
    with bitmap.batch(1) as batch:
        batch.push_bits([chooser.random() < 0.5 for _ in range(3 * 8 * width + 5)])
    return bitmap


def after(bitmap, edit):
    """Returns the encoding of a copy after an edit in a batch."""
    copy = bitmap.copy()
    with copy.batch(2) as batch:
        edit(batch)
    return bytes(copy)


class BulkEdits(unittest.TestCase):
    def assert_as_singles(self, bitmap, edit, single, *positions):
        """An edit does what a single one does at each of the positions."""

        def singles(batch):
            for position in positions:
                single(batch, position)

        self.assertEqual(after(bitmap, edit), after(bitmap, singles))

    def test_bits_are_appended(self):
        for width in WIDTHS:
            chooser = random.Random(width)
            bitmap = bitmap_with(width, chooser)
            for count in 0, 1, 7, 8, 8 * width, 20 * width + 3:
                bits = [chooser.random() < 0.5 for _ in range(count)]
                packed = bytes(bits)
                for given in bits, packed, bytearray(packed), memoryview(packed).cast("?"), iter(bits), [int(bit) * 7 for bit in bits]:
                    self.assert_as_singles(bitmap, lambda batch: batch.push_bits(given), Batch.push, *bits)

    def test_ranges_are_set(self):
        for width in WIDTHS:
            chooser = random.Random(width)
            bitmap = bitmap_with(width, chooser)
            first, length = 16 * width, bitmap.length
            for _ in range(40):
                start, stop = sorted((chooser.randrange(first, length + 1), chooser.randrange(first, length + 1)))
                bit = chooser.random() < 0.5
                self.assert_as_singles(bitmap, lambda batch: batch.set_range(start, stop, bit), lambda batch, at: batch.set(at, bit), *range(start, stop))

    def test_positions_are_set(self):
        for width in WIDTHS:
            chooser = random.Random(width)
            bitmap = bitmap_with(width, chooser)
            positions = [chooser.randrange(16 * width, bitmap.length) for _ in range(50)]
            numbers = array.array("Q", positions)
            for given in positions, numbers, (ctypes.c_uint64 * 50)(*positions), memoryview(numbers):
                for bit in False, True:
                    self.assert_as_singles(bitmap, lambda batch: batch.set_many(given, bit), lambda batch, at: batch.set(at, bit), *positions)
            self.assert_as_singles(bitmap, lambda batch: batch.set_many(iter(positions)), lambda batch, at: batch.set(at, True), *positions)
            self.assertEqual(after(bitmap, lambda batch: batch.set_many(())), bytes(bitmap))

    def test_lengths_are_changed(self):
        for width in WIDTHS:
            bitmap = bitmap_with(width, random.Random(width))
            for length in 16 * width, 16 * width + 1, 24 * width, bitmap.length - 1, bitmap.length:
                self.assert_as_singles(bitmap, lambda batch: batch.truncate(length), lambda batch, _: batch.pop(), *range(bitmap.length - length))
            for length in 0, bitmap.length, bitmap.length + 1, bitmap.length + 17 * width:
                count = max(length - bitmap.length, 0)
                self.assert_as_singles(bitmap, lambda batch: batch.extend_to(length), lambda batch, _: batch.push(False), *range(count))

    def test_chunks_are_replaced(self):
        for width in WIDTHS:
            chooser = random.Random(width)
            bitmap = bitmap_with(width, chooser)
            for chunk in range(2, 6):
                data = chooser.randbytes(width)
                places = range(8 * width * chunk, min(8 * width * (chunk + 1), bitmap.length))
                bits = {place: data[(place - places[0]) // 8] >> (place - places[0]) % 8 & 1 for place in places}
                self.assert_as_singles(bitmap, lambda batch: batch.set_chunk(chunk, data), lambda batch, at: batch.set(at, bits[at]), *places)

    def test_errors_change_nothing(self):
        bitmap = bitmap_of("0110" * 5, pruned_chunks=2)
        calls = [
            (OutOfBoundsError, "set_range", 16, 37), (PrunedError, "set_range", 15, 20), (OutOfBoundsError, "set_range", -1, 20),
            (OutOfBoundsError, "set_chunk", 5, b"1"), (PrunedError, "set_chunk", 1, b"1"), (WrongSizeError, "set_chunk", 2, b"12"),
            (OutOfBoundsError, "truncate", 37), (PrunedError, "truncate", 15), (OutOfBoundsError, "set_many", [37]), (PrunedError, "set_many", [3]),
            (OutOfBoundsError, "set_many", [17, MAX + 1]), (TypeError, "push_bits", "0110"), (TypeError, "push_bits", array.array("Q", [1])),
            (TypeError, "set_many", ["1"]), (ValueError, "extend_to", -1),
        ]
        for error, name, *arguments in calls:
            with self.subTest(name=name, arguments=arguments), bitmap.batch() as batch:
                before = batch.packed(16)
                self.assertRaises(error, getattr(batch, name), *arguments)
                self.assertEqual((batch.packed(16), batch.length), (before, 36))

    def test_positions_before_the_one_that_fails_stay_set(self):
        bitmap = bitmap_of("0000")
        with bitmap.batch(2) as batch:
            with self.assertRaises(OutOfBoundsError) as caught:
                batch.set_many([1, 3, 4, 0])
            self.assertEqual(caught.exception.replaced, 2)
        self.assertEqual(list(bitmap.ones()), [1, 3])

    def test_the_longest_bitmap(self):
        with Bitmap(1, 2**61 - 1).batch() as batch:
            batch.push_bits([True] * 7)
            self.assertRaises(TooLongError, batch.push_bits, [True])
            batch.set_range(MAX - 7, MAX, False)
            self.assertRaises(OutOfBoundsError, batch.set_range, MAX - 7, MAX + 1)
            batch.extend_to(MAX)
            self.assertEqual(batch.length, MAX)

    def test_memory_runs_out(self):
        for name, *arguments in ("push_bits", [1]), ("set_many", [1]), ("set_range", 0, 1), ("set_chunk", 0, b"1"), ("extend_to", 9):
            with failing(name), bitmap_of("11").batch() as batch:
                self.assertRaises(NoMemoryError, getattr(batch, name), *arguments)

    def test_a_length_past_all_memory(self):
        with bitmap_of("11").batch() as batch:
            for length in 2**60, MAX:
                self.assertRaises(NoMemoryError, batch.extend_to, length)
            self.assertEqual((batch.length, list(batch.ones())), (2, [0, 1]))

    def test_a_batch_that_has_ended(self):
        batch = bitmap_of("11").batch()
        batch.abort()
        for name, *arguments in ("push_bits", [1]), ("set_many", [1]), ("set_range", 0, 1), ("set_chunk", 0, b"1"), ("extend_to", 9), ("truncate", 1):
            self.assertRaises(WrongModeError, getattr(batch, name), *arguments)


if __name__ == "__main__":
    unittest.main()
