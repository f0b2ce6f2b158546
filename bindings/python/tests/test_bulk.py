"""Reads of many bits in one call: slices, packed bits, views of `bool`, and positions in buffers."""

import array
import ctypes
import random
import threading
import unittest
from unittest import mock

from mortarpink import (
    Bitmap,
    ClosedError,
    InBatchError,
    NoSuchCommitError,
    NotInBatchError,
    OutOfBoundsError,
    PrunedError,
    WrongModeError,
    WrongSizeError,
)
from mortarpink._library import CALLS
from support import MAX, bitmap_of, failing, with_versions


def digits_of(count, seed=1):
    """Returns so many random digits, 0 or 1."""
    return "".join(random.Random(seed).choices("01", k=count))


class Slices(unittest.TestCase):
    def setUp(self):
        self.digits = digits_of(200)
        self.bits = [digit == "1" for digit in self.digits]
        self.bitmap = bitmap_of(self.digits)

    def test_as_of_a_list(self):
        ends = None, 0, 1, 7, 8, 63, 64, 199, 200, 201, MAX, MAX + 5, -1, -8, -200, -201, -MAX
        for start in ends:
            for stop in ends:
                for step in None, 1, 2, 3, 70, -1, -2, -70:
                    part = slice(start, stop, step)
                    self.assertEqual(self.bitmap[part], self.bits[part], part)
        self.assertIs(self.bitmap[:1][0], self.bits[0])

    def test_a_step_of_zero(self):
        with self.assertRaises(ValueError):
            self.bitmap[::0]

    def test_slices_of_a_batch_and_of_versions(self):
        with self.bitmap.batch(2) as batch:
            batch.push(True)
            self.assertEqual((batch[190:], self.bitmap[-11:]), ([*self.bits[190:], True],) * 2)
            batch[0] = not self.bits[0]
        self.assertEqual((self.bitmap.at(1)[:3], self.bitmap[:3]), (self.bits[:3], [not self.bits[0], *self.bits[1:3]]))

    def test_pruned_positions(self):
        bitmap = bitmap_of("0110", pruned_chunks=2)
        self.assertEqual((bitmap[16:], bitmap[-3:], bitmap[18::2], bitmap[5:5]), ([False, True, True, False], [True, True, False], [True], []))
        for part in slice(None), slice(15, 20), slice(0, 20, 19), slice(None, None, -1):
            with self.assertRaises(PrunedError):
                bitmap[part]

    def test_slices_of_the_longest_bitmap(self):
        bitmap = Bitmap(1, 2**61 - 1)
        with bitmap.batch(1) as batch:
            batch.push(True)
        self.assertEqual((bitmap[-1:], bitmap[MAX - 7 :], bitmap[MAX - 1 :]), ([True], [True], []))

    def test_no_assignment_to_a_slice(self):
        with self.bitmap.batch() as batch, self.assertRaises(TypeError):
            batch[0:2] = [True, False]


class Packed(unittest.TestCase):
    def packed(self, digits):
        """Returns the bits of some digits, eight in a byte."""
        return int("0" + digits[::-1], 2).to_bytes(-(-len(digits) // 8), "little")

    def test_ranges_of_each_width(self):
        for width in 1, 8, 32, 64:
            digits = digits_of(5 * 8 * width + 3, width)
            bitmap = bitmap_of(digits, width)
            numbers = random.Random(width)
            for _ in range(100):
                start, stop = numbers.randrange(len(digits) + 9), numbers.randrange(len(digits) + 9)
                part = digits[start:stop]
                for bits in bitmap, bitmap.at(1):
                    self.assertEqual(bits.packed(start, stop), self.packed(part))
                    self.assertEqual(list(bits.bools(start, stop)), [digit == "1" for digit in part])
            self.assertEqual((bitmap.packed(), bitmap.packed(MAX), bitmap.packed(9, 8)), (self.packed(digits), b"", b""))

    def test_no_encoding_is_made(self):
        digits = digits_of(8 * 100)
        bitmap = bitmap_of(digits)
        with failing("encode"), failing("encode_at"):
            for bits in bitmap, bitmap.at(1):
                self.assertEqual((bits.packed(33, 45), bits.packed()), (self.packed(digits[33:45]), self.packed(digits)))

    def test_bytes_of_each_width(self):
        for width in 1, 8, 32, 64:
            digits = digits_of(5 * 8 * width + 3, width)
            bitmap = bitmap_of(digits, width)
            numbers = random.Random(width)
            for _ in range(100):
                start, stop = sorted(numbers.randrange(len(digits) + 1) for _ in range(2))
                wanted = self.packed(digits[start:stop])
                for bits in bitmap, bitmap.at(1):
                    self.assertEqual(bits.read_bytes(start, stop), wanted)
                    out = bytearray(b"\xaa" * len(wanted))
                    self.assertIsNone(bits.read_bytes_into(out, start, stop))
                    self.assertEqual(out, wanted)

    def test_buffers(self):
        bitmap = bitmap_of("1011" * 16)
        for out in array.array("B", bytes(8)), array.array("Q", [0]), memoryview(bytearray(16))[8:], (ctypes.c_uint8 * 8)():
            bitmap.read_bytes_into(out, 0, 64)
            self.assertEqual(bytes(out), b"\xdd" * 8)
        bitmap.read_bytes_into(b"", 5, 5)
        for out in b"12345678", memoryview(bytearray(16))[::2]:
            self.assertRaises((TypeError, BufferError), bitmap.read_bytes_into, out, 0, 64)

    def test_no_bytes_of_other_ranges(self):
        bitmap = with_versions()
        version, length = bitmap.at(3), bitmap.length
        for start, stop in (16, length + 1), (length + 1, length + 1), (17, 16), (16, MAX), (-1, 16), (16, MAX + 1):
            self.assertRaises(OutOfBoundsError, bitmap.read_bytes, start, stop)
        self.assertRaises(OutOfBoundsError, version.read_bytes, 0, version.length + 1)
        for start, stop in (15, length), (0, 0):
            self.assertRaises(PrunedError, bitmap.read_bytes, start, stop)
        out = bytearray(b"\xaa")
        for error, ends in (WrongSizeError, (16, 16)), (WrongSizeError, (0, MAX)), (OutOfBoundsError, (length, length + 8)), (PrunedError, (10, 17)):
            self.assertRaises(error, bitmap.read_bytes_into, out, *ends)
        with bitmap.batch() as batch:
            self.assertRaises(InBatchError, version.read_bytes, 0, 1)
            self.assertRaises(InBatchError, version.read_bytes_into, out, 0, 1)
        self.assertRaises(NotInBatchError, batch.read_bytes, 16, 17)
        self.assertRaises(NotInBatchError, batch.read_bytes_into, out, 16, 17)
        bitmap.clear()
        self.assertRaises(NoSuchCommitError, version.read_bytes, 0, 1)
        bitmap.close()
        self.assertRaises(ClosedError, bitmap.read_bytes, 16, 17)
        self.assertRaises(ClosedError, bitmap.read_bytes_into, out, 16, 17)
        self.assertEqual(out, b"\xaa")

    def test_bytes_at_the_greatest_positions(self):
        bitmap = Bitmap(8, 2**58 - 1)
        with bitmap.batch(1) as batch:
            batch.push_bits([0, 0, 1] * 21)
        self.assertEqual(bitmap.length, MAX)
        self.assertEqual((bitmap.read_bytes(MAX - 3, MAX), bitmap.at(1).read_bytes(MAX, MAX)), (b"\x04", b""))
        self.assertRaises(PrunedError, bitmap.read_bytes, 0, MAX)

    def test_the_views_of_bools(self):
        view = bitmap_of("101").bools()
        self.assertEqual((view.format, view.tolist(), bytes(view), view[0] is True), ("?", [True, False, True], b"\1\0\1", True))
        self.assertEqual(Bitmap().bools().tolist(), [])

    def test_the_pending_bitmap(self):
        bitmap = bitmap_of("1" * 100)
        with bitmap.batch() as batch:
            batch[1] = False
            batch.push_byte(0)
            for bits in batch, bitmap:
                self.assertEqual((bits.read_bytes(1, 9), bits.read_bytes(97, 108)), (b"\xfe", b"\x07\0"))
                self.assertEqual((bits.packed(0, 8), bits.packed(96), bits.bools(99).tolist()), (b"\xfd", b"\x0f\0", [True] + [False] * 8))
        self.assertRaises(WrongModeError, batch.packed)

    def test_errors(self):
        bitmap = with_versions()
        version = bitmap.at(3)
        for call in bitmap.packed, bitmap.bools:
            self.assertRaises(PrunedError, call)
            self.assertRaises(PrunedError, call, 15)
            for ends in (-1, 3), (0, -1), (0, MAX + 1):
                self.assertRaises(ValueError, call, *ends)
        self.assertEqual((bitmap.packed(16), version.packed(), version.bools(2).tolist()), (b"\x02", b"\x0d", [True, True]))
        with bitmap.batch():
            self.assertRaises(WrongModeError, version.packed)
        bitmap.clear()
        self.assertRaises(NoSuchCommitError, version.packed)
        bitmap.close()
        for call in bitmap.packed, bitmap.bools, lambda: bitmap[:]:
            self.assertRaises(ClosedError, call)


class Positions(unittest.TestCase):
    def setUp(self):
        self.bitmap = bitmap_of(digits_of(10000, 3), width=8)
        self.ones = list(self.bitmap.ones())

    def test_arrays(self):
        for ends in (), (17,), (17, 9000), (0, 0), (9, 8), (MAX, MAX):
            for bits in self.bitmap, self.bitmap.at(1):
                found = bits.ones_array(*ends)
                self.assertEqual((found.typecode, found.itemsize, found.tolist()), ("Q", 8, list(bits.ones(*ends))))

    def test_an_array_is_of_one_time(self):
        """A thread that sets a bit waits until both calls are done."""
        count_ones, threads = CALLS["count_ones"], []

        def edit():
            with self.bitmap.batch(2) as batch:
                batch.push_bytes(b"\xff")

        def count_and_edit(*arguments):
            threads.append(threading.Thread(target=edit))
            threads[0].start()
            threads[0].join(0.05)
            return count_ones(*arguments)

        with mock.patch.dict(CALLS, count_ones=count_and_edit):
            self.assertEqual(self.bitmap.ones_array().tolist(), self.ones)
        threads[0].join()
        self.assertEqual(self.bitmap.count_ones(), len(self.ones) + 8)

    def test_buffers(self):
        for make in (lambda size: array.array("Q", bytes(8 * size)), lambda size: memoryview(bytearray(8 * size)).cast("L"), lambda size: (ctypes.c_uint64 * size)()):
            buffer, found, start = make(1000), [], 0
            while True:
                count = self.bitmap.ones_into(buffer, start)
                found += list(buffer)[:count]
                if count < 1000:
                    break
                start = found[-1] + 1
            self.assertEqual(found, self.ones)

    def test_a_buffer_that_is_not_filled_keeps_its_rest(self):
        buffer = array.array("Q", [7] * 4)
        self.assertEqual((self.bitmap.at(1).ones_into(buffer, 0, self.ones[2]), buffer.tolist()), (2, [*self.ones[:2], 7, 7]))
        self.assertEqual(self.bitmap.ones_into(array.array("Q")), 0)

    def test_no_other_buffers(self):
        for buffer in bytearray(16), array.array("q", [0]), array.array("d", [0]), array.array("I", [0, 0]), b"12345678", memoryview(b"12345678").cast("Q"):
            self.assertRaises(TypeError, self.bitmap.ones_into, buffer)
        spread = memoryview(array.array("Q", [0] * 4))[::2]
        self.assertRaises((TypeError, BufferError), self.bitmap.ones_into, spread)

    def test_errors(self):
        version = self.bitmap.at(1)
        for ends in (-1, 3), (0, MAX + 1):
            self.assertRaises(ValueError, self.bitmap.ones_array, *ends)
            self.assertRaises(ValueError, self.bitmap.ones_into, array.array("Q", [0]), *ends)
        with self.bitmap.batch() as batch:
            self.assertRaises(WrongModeError, version.ones_array)
            self.assertRaises(WrongModeError, version.ones_into, array.array("Q", [0]))
        self.assertRaises(WrongModeError, batch.ones_array)
        self.bitmap.clear()
        self.assertRaises(NoSuchCommitError, version.ones_array)
        self.bitmap.close()
        self.assertRaises(ClosedError, self.bitmap.ones_array)
        self.assertRaises(ClosedError, self.bitmap.ones_into, array.array("Q"))
