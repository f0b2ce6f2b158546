"""Reads of the current bitmap and of past states."""

import unittest

from mortarpink import Bitmap, NoSuchCommitError, OutOfBoundsError, PrunedError, WrongModeError
from support import MAX, bitmap_of, with_versions


class Empty(unittest.TestCase):
    def test_empty_bitmap(self):
        bitmap = Bitmap()
        self.assertEqual((bitmap.width, bitmap.length, len(bitmap), bitmap.pruned_chunks), (8, 0, 0, 0))
        self.assertFalse(bitmap)
        self.assertEqual(list(bitmap.ones()), [])
        self.assertEqual(bitmap.count_ones(), 0)
        for search in bitmap.next_one, bitmap.next_zero, bitmap.prev_one, bitmap.prev_zero, bitmap.select_one:
            self.assertIsNone(search(0))
            self.assertIsNone(search(MAX))

    def test_no_position_of_an_empty_bitmap(self):
        bitmap = Bitmap()
        for position in 0, -1, 1, MAX, MAX + 1, -MAX - 2:
            with self.assertRaises(OutOfBoundsError):
                bitmap[position]

    def test_empty_past_version(self):
        version = bitmap_of("", commit=0).at(0)
        self.assertEqual((version.length, version.pruned_chunks), (0, 0))
        self.assertEqual((list(version.ones()), version.count_ones(), version.next_zero(0)), ([], 0, None))


class Bits(unittest.TestCase):
    """Of 1011001011 at width 1: the chunks are 4d and 03."""

    def setUp(self):
        self.bitmap = bitmap_of("1011001011")

    def test_bits(self):
        self.assertEqual([self.bitmap[position] for position in range(10)], [bool(int(bit)) for bit in "1011001011"])
        self.assertIs(self.bitmap[0], True)
        self.assertIs(self.bitmap.get(1), False)

    def test_negative_positions_count_from_the_end(self):
        self.assertEqual([self.bitmap[position] for position in (-1, -3, -4, -10)], [True, False, True, True])

    def test_positions_out_of_bounds(self):
        for position in 10, -11, MAX, MAX + 1:
            with self.assertRaises(OutOfBoundsError):
                self.bitmap[position]

    def test_get_takes_no_negative_position(self):
        with self.assertRaises(OutOfBoundsError):
            self.bitmap.get(-1)

    def test_positions_are_integers(self):
        class Last:
            def __index__(self):
                return -1

        self.assertEqual((self.bitmap[True], self.bitmap[Last()]), (False, True))
        for position in 1.0, "1", None, (0, 1):
            with self.assertRaises(TypeError):
                self.bitmap[position]

    def test_length(self):
        self.assertEqual((len(self.bitmap), self.bitmap.length), (10, 10))
        self.assertTrue(self.bitmap)

    def test_chunks(self):
        self.assertEqual([self.bitmap.chunk(position) for position in (0, 7, 8, 9)], [b"\x4d", b"\x4d", b"\x03", b"\x03"])
        for position in 10, 15, -1:
            with self.assertRaises(OutOfBoundsError):
                self.bitmap.chunk(position)

    def test_no_iteration_over_positions(self):
        with self.assertRaises(TypeError):
            iter(self.bitmap)
        with self.assertRaises(TypeError):
            reversed(self.bitmap)
        with self.assertRaises(TypeError):
            True in self.bitmap

    def test_ones(self):
        self.assertEqual(list(self.bitmap.ones()), [0, 2, 3, 6, 8, 9])
        self.assertEqual(list(self.bitmap.ones(2, 8)), [2, 3, 6])
        self.assertEqual(list(self.bitmap.ones(start=9)), [9])
        self.assertEqual(list(self.bitmap.ones(stop=0)), [])
        self.assertEqual(list(self.bitmap.ones(8, 2)), [])
        self.assertEqual(list(self.bitmap.ones(MAX, MAX)), [])

    def test_searches(self):
        bitmap = self.bitmap
        self.assertEqual([bitmap.next_one(at) for at in (0, 1, 4, 9, 10)], [0, 2, 6, 9, None])
        self.assertEqual([bitmap.next_zero(at) for at in (0, 2, 5, 6, 8, MAX)], [1, 4, 5, 7, None, None])
        self.assertEqual([bitmap.prev_one(at) for at in (0, 1, 3, 8, MAX)], [None, 0, 2, 6, 9])
        self.assertEqual([bitmap.prev_zero(at) for at in (0, 1, 2, 7, MAX)], [None, None, 1, 5, 7])
        self.assertEqual([bitmap.select_one(k) for k in (0, 1, 5, 6, MAX)], [0, 2, 9, None, None])

    def test_counts(self):
        counts = [self.bitmap.count_ones(*ends) for ends in ((), (2,), (2, 4), (4, 6), (9, MAX), (4, 2))]
        self.assertEqual(counts, [6, 5, 2, 0, 1, 0])

    def test_numbers_that_the_library_would_cut(self):
        bitmap = self.bitmap
        for call in bitmap.next_one, bitmap.next_zero, bitmap.prev_one, bitmap.prev_zero, bitmap.select_one:
            for value in -1, MAX + 1, MAX + 3:
                with self.assertRaises(ValueError):
                    call(value)
        for ends in (-1, 1), (0, MAX + 1), (0, -1):
            with self.assertRaises(ValueError):
                bitmap.ones(*ends)
            with self.assertRaises(ValueError):
                bitmap.count_ones(*ends)


class Pruned(unittest.TestCase):
    """Of two pruned chunks of width 1 and then 0110: positions 16 to 19."""

    def setUp(self):
        self.bitmap = bitmap_of("0110", pruned_chunks=2)

    def test_lengths(self):
        self.assertEqual((len(self.bitmap), self.bitmap.pruned_chunks), (20, 2))

    def test_pruned_positions(self):
        for call in self.bitmap.get, self.bitmap.chunk, self.bitmap.__getitem__:
            for position in 0, 15:
                with self.assertRaises(PrunedError):
                    call(position)
        with self.assertRaises(PrunedError):
            self.bitmap[-5]

    def test_retained_positions(self):
        self.assertEqual([self.bitmap[position] for position in (16, 17, 18, 19, -1, -4)], [False, True, True, False, False, False])
        self.assertEqual(self.bitmap.chunk(16), b"\x06")

    def test_searches_skip_what_is_pruned(self):
        bitmap = self.bitmap
        self.assertEqual(list(bitmap.ones()), [17, 18])
        self.assertEqual((bitmap.next_one(0), bitmap.next_zero(0), bitmap.next_zero(17)), (17, 16, 19))
        self.assertEqual((bitmap.prev_one(MAX), bitmap.prev_zero(19), bitmap.prev_zero(16)), (18, 16, None))
        self.assertEqual((bitmap.select_one(0), bitmap.select_one(2), bitmap.count_ones()), (17, None, 2))


class Widths(unittest.TestCase):
    def test_bits_of_each_width(self):
        for width in 1, 8, 32, 64:
            with self.subTest(width=width):
                bits = 8 * width
                bitmap = bitmap_of("1" + "0" * (bits - 1) + "01", width=width, pruned_chunks=3)
                self.assertEqual((bitmap.width, len(bitmap), bitmap.pruned_chunks), (width, 4 * bits + 2, 3))
                self.assertEqual(list(bitmap.ones()), [3 * bits, 4 * bits + 1])
                self.assertEqual(bitmap.chunk(3 * bits), b"\x01" + bytes(width - 1))
                self.assertEqual(bitmap.at(1).chunk(4 * bits), b"\x02" + bytes(width - 1))


class Pages(unittest.TestCase):
    def test_ones_in_several_pages(self):
        for count in 4095, 4096, 4097, 8192, 10000:
            with self.subTest(count=count):
                bitmap = bitmap_of("1" * count, width=8)
                self.assertEqual(list(bitmap.ones()), list(range(count)))
                self.assertEqual(list(bitmap.at(1).ones(1, count - 1)), list(range(1, count - 1)))

    def test_a_page_is_read_from_the_bitmap_of_its_time(self):
        bitmap = bitmap_of("1" * 4097)
        ones = bitmap.ones()
        self.assertEqual(next(ones), 0)
        with bitmap.batch(2) as batch:
            batch[1] = batch[4096] = False
        self.assertEqual(list(ones), list(range(1, 4096)))


class Versions(unittest.TestCase):
    def setUp(self):
        self.bitmap = with_versions()

    def test_lengths(self):
        versions = [self.bitmap.at(number) for number in (3, 5, 9)]
        self.assertEqual([version.number for version in versions], [3, 5, 9])
        self.assertEqual([len(version) for version in versions], [4, 10, 18])
        self.assertEqual([version.pruned_chunks for version in versions], [0, 0, 2])
        self.assertEqual([version.width for version in versions], [1, 1, 1])

    def test_bits(self):
        first, second, third = (self.bitmap.at(number) for number in (3, 5, 9))
        self.assertEqual([first[at] for at in range(4)], [True, False, True, True])
        self.assertEqual((first[-1], second[-1], second.get(9), third[-1], third[16]), (True, True, True, True, False))
        self.assertEqual([version.chunk(len(version) - 1) for version in (first, second, third)], [b"\x0d", b"\x03", b"\x02"])

    def test_errors(self):
        for version, position, error in (3, 4, OutOfBoundsError), (3, -5, OutOfBoundsError), (9, 15, PrunedError):
            with self.assertRaises(error):
                self.bitmap.at(version)[position]
            with self.assertRaises(error):
                self.bitmap.at(version).chunk(position)

    def test_ones(self):
        self.assertEqual(list(self.bitmap.at(3).ones()), [0, 2, 3])
        self.assertEqual(list(self.bitmap.at(5).ones(3)), [3, 6, 8, 9])
        self.assertEqual(list(self.bitmap.at(9).ones()), [17])

    def test_searches(self):
        second, third = self.bitmap.at(5), self.bitmap.at(9)
        self.assertEqual((second.next_one(4), second.next_zero(2), second.prev_one(6), second.prev_zero(7)), (6, 4, 3, 5))
        self.assertEqual((second.select_one(5), second.count_ones(), second.count_ones(3, 7)), (9, 6, 2))
        self.assertEqual((third.next_one(0), third.next_zero(0), third.prev_one(17), third.prev_zero(MAX)), (17, 16, None, 16))
        self.assertEqual((third.select_one(0), third.select_one(1), third.count_ones()), (17, None, 1))

    def test_checkout(self):
        version = self.bitmap.checkout(5)
        self.assertEqual((version.width, version.length, list(version.ones())), (1, 10, [0, 2, 3, 6, 8, 9]))
        self.assertEqual((list(version.commits()), version.latest), ([], None))
        with version.batch(commit=1) as batch:
            batch[0] = False
        self.assertEqual((list(version.ones()), list(self.bitmap.at(5).ones())), ([2, 3, 6, 8, 9], [0, 2, 3, 6, 8, 9]))
        with self.assertRaises(NoSuchCommitError):
            self.bitmap.checkout(4)
        with self.bitmap.batch(), self.assertRaises(WrongModeError):
            self.bitmap.checkout(5)

    def test_index(self):
        before = [list(self.bitmap.at(number).ones()) for number in self.bitmap.commits()]
        self.bitmap.set_indexed()
        self.assertEqual([list(self.bitmap.at(number).ones()) for number in self.bitmap.commits()], before)
        self.bitmap.rewind_to(5)
        with self.bitmap.batch(commit=6) as batch:
            batch.pop()
        self.assertEqual([list(self.bitmap.at(number).ones()) for number in self.bitmap.commits()], [*before[:2], [0, 2, 3, 6, 8]])
        with self.bitmap.batch(), self.assertRaises(WrongModeError):
            self.bitmap.set_indexed()
        self.bitmap.set_indexed(False)
        self.assertEqual(list(self.bitmap.at(3).ones()), before[0])

    def test_representation(self):
        self.assertEqual(repr(self.bitmap.at(5)), "<mortarpink.Version 5>")
        self.assertEqual(repr(self.bitmap), "<mortarpink.Bitmap, 18 bits, 2 pruned chunks>")
