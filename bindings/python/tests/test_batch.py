"""Batches of edits."""

import array
import contextlib
import copy
import ctypes
import gc
import pickle
import unittest

from mortarpink import (
    Bitmap,
    ClosedError,
    NoMemoryError,
    NonMonotonicCommitError,
    NoRetainedBitError,
    OutOfBoundsError,
    PrunedError,
    ReservedCommitNumberError,
    TooLongError,
    WrongModeError,
    WrongSizeError,
)
from support import MAX, bitmap_of, failing


class Stop(Exception):
    """What a block raises."""


class Edits(unittest.TestCase):
    def setUp(self):
        self.bitmap = Bitmap(1)
        self.batch = self.bitmap.batch()

    def committed(self):
        """Commits the batch, and returns the set positions and the length."""
        self.batch.commit(1)
        return list(self.bitmap.ones()), len(self.bitmap)

    def test_push_takes_truth_values(self):
        for bit in True, 0, 2, "", "0", None:
            self.batch.push(bit)
        self.assertEqual(self.committed(), ([0, 2, 4], 6))

    def test_push_byte(self):
        for byte in 0, 255, 0x12:
            self.batch.push_byte(byte)
        self.assertEqual(self.committed(), ([8, 9, 10, 11, 12, 13, 14, 15, 17, 20], 24))

    def test_push_byte_takes_bytes_alone(self):
        for byte in -1, 256, MAX + 2:
            with self.assertRaises(ValueError):
                self.batch.push_byte(byte)
        for byte in "1", b"1", 1.0, None:
            with self.assertRaises(TypeError):
                self.batch.push_byte(byte)
        self.assertEqual(len(self.batch), 0)

    def test_push_bytes_takes_buffers(self):
        for data in b"\x01", bytearray(b"\x02"), memoryview(b"\x04"), b"":
            self.batch.push_bytes(data)
        self.assertEqual(self.committed(), ([0, 9, 18], 24))

    def test_push_bytes_between_chunks(self):
        self.batch.push(False)
        self.batch.push_bytes(b"\xc0\x01")
        self.assertEqual(self.committed(), ([7, 8, 9], 17))

    def test_push_bytes_takes_buffers_that_are_not_contiguous(self):
        self.batch.push_bytes(memoryview(b"\x01\xff\x02\xff\x04")[::2])
        self.batch.push_bytes(memoryview(b"\x01\x02")[::-1])
        self.assertEqual(self.committed(), ([0, 9, 18, 25, 32], 40))

    def test_push_bytes_takes_buffers_of_single_bytes(self):
        buffers = array.array("B", [1]), array.array("b", [-128]), memoryview(b"\x02").cast("c"), (ctypes.c_uint8 * 1)(4)
        for data in buffers:
            self.batch.push_bytes(data)
        self.assertEqual(self.committed(), ([0, 15, 17, 26], 32))

    def test_no_buffers_of_other_items(self):
        for data in array.array("Q", [1, 2]), memoryview(b"12").cast("H"), memoryview(b"\0\1").cast("?"), (ctypes.c_uint32 * 2)():
            for call in self.batch.push_bytes, self.batch.push_chunk, Bitmap.from_bytes, Bitmap.decode:
                with self.assertRaisesRegex(TypeError, "^the items of the buffer are not single bytes: their format is '.+'$"):
                    call(data)
        self.assertEqual(len(self.batch), 0)

    def test_push_bytes_takes_no_text_and_no_number(self):
        for data in "a", 5, None, [1, 2]:
            with self.assertRaises(TypeError):
                self.batch.push_bytes(data)
        self.assertEqual(len(self.batch), 0)

    def test_a_class_of_bytes_cannot_give_a_wrong_length(self):
        class Long(bytes):
            def __len__(self):
                return 1 << 40

        self.batch.push_bytes(Long(b"\x03"))
        self.assertEqual(self.committed(), ([0, 1], 8))

    def test_large_buffer(self):
        size = 1 << 20
        self.batch.push_bytes(b"\x80" * size)
        self.assertEqual((len(self.batch), self.batch[-1], self.batch[-2]), (8 * size, True, False))
        self.batch.commit(1)
        self.assertEqual(self.bitmap.count_ones(), size)

    def test_push_chunk(self):
        for width in 1, 8, 32, 64:
            with self.subTest(width=width):
                bitmap = Bitmap(width)
                with bitmap.batch(1) as batch:
                    batch.push(True)
                    batch.push_chunk(b"\x03" + bytes(width - 1))
                    for size in 0, width - 1, width + 1:
                        with self.assertRaises(WrongSizeError):
                            batch.push_chunk(bytes(size))
                self.assertEqual((list(bitmap.ones()), len(bitmap)), ([0, 1, 2], 8 * width + 1))

    def test_pop(self):
        self.batch.push_byte(0b10000000)
        self.assertEqual([self.batch.pop() for _ in range(3)], [True, False, False])
        self.assertEqual(self.committed(), ([], 5))

    def test_pop_of_nothing(self):
        with self.assertRaises(NoRetainedBitError):
            self.batch.pop()

    def test_set(self):
        self.batch.push_bytes(b"\x00\xff")
        self.batch.set(3, True)
        self.batch.set(8, False)
        self.batch[-1] = []
        self.batch[-16] = 5
        self.assertEqual(self.committed(), ([0, 3, 9, 10, 11, 12, 13, 14], 16))

    def test_set_out_of_bounds(self):
        self.batch.push_byte(0)
        for position in 8, -9, MAX, MAX + 1:
            with self.assertRaises(OutOfBoundsError):
                self.batch[position] = True
        with self.assertRaises(OutOfBoundsError):
            self.batch.set(-1, True)
        self.assertEqual(self.committed(), ([], 8))

    def test_prune(self):
        self.batch.push_bytes(b"\xff\x01\x01")
        self.batch.prune(15)
        self.assertEqual((self.batch.pruned_chunks, len(self.batch)), (1, 24))
        for call in self.batch.get, self.batch.chunk, lambda at: self.batch.set(at, True):
            with self.assertRaises(PrunedError):
                call(7)
        self.batch.prune(0)
        self.assertEqual(self.committed(), ([8, 16], 24))

    def test_prune_at_the_length(self):
        self.batch.push_bytes(b"\xff\x01")
        for position in 17, -1, MAX, MAX + 1:
            with self.assertRaises(OutOfBoundsError):
                self.batch.prune(position)
        self.batch.prune(16)
        self.assertEqual((self.batch.pruned_chunks, len(self.batch)), (2, 16))
        with self.assertRaises(NoRetainedBitError):
            self.batch.pop()

    def test_reads_are_of_the_pending_bitmap(self):
        self.batch.push_byte(5)
        self.assertEqual((len(self.batch), self.batch.length, self.batch.width, bool(self.batch)), (8, 8, 1, True))
        self.assertEqual((self.batch[0], self.batch[1], self.batch.get(2), self.batch.chunk(7)), (True, False, True, b"\x05"))
        self.assertEqual((len(self.bitmap), self.bitmap[2], self.bitmap.chunk(0)), (8, True, b"\x05"))
        self.batch.abort()
        self.assertEqual(len(self.bitmap), 0)

    def test_searches_and_counts_are_of_the_pending_bitmap(self):
        self.batch.push_bits([0, 1, 1, 0, 0, 1, 0, 0, 1])
        for bits in self.batch, self.bitmap:
            self.assertEqual((list(bits.ones()), list(bits.ones(2, 8)), bits.ones_array(6).tolist()), ([1, 2, 5, 8], [2, 5], [8]))
            self.assertEqual((bits.next_one(3), bits.next_zero(1), bits.prev_one(5), bits.prev_zero(3)), (5, 3, 2, 0))
            self.assertEqual((bits.count_ones(), bits.count_ones(2, 6), bits.select_one(3), bits.select_one(4)), (4, 2, 8, None))
            buffer = array.array("Q", [0, 0])
            self.assertEqual((bits.ones_into(buffer, 2), buffer.tolist()), (2, [2, 5]))
        self.batch.prune(8)
        self.assertEqual((list(self.batch.ones()), self.batch.next_zero(0), self.batch.count_ones()), ([8], None, 1))


class Ends(unittest.TestCase):
    """The length of a bitmap is at most 2^64 - 1."""

    def test_longest_bitmap_of_each_width(self):
        for width in 1, 8, 32, 64:
            with self.subTest(width=width):
                bits = 8 * width
                bitmap = Bitmap(width, 2**64 // bits - 1)
                self.assertEqual(bitmap.length, 2**64 - bits)
                self.assertRaises(OverflowError, len, bitmap)
                self.assertTrue(bitmap)
                with bitmap.batch(MAX - 1) as batch:
                    for _ in range(bits - 1):
                        batch.push(True)
                    self.assertRaises(TooLongError, batch.push, True)
                self.assertEqual((bitmap.length, bitmap[-1], bitmap[MAX - 1], bitmap.latest), (MAX, True, True, MAX - 1))
                self.assertEqual((bitmap.prev_one(MAX), bitmap.count_ones()), (MAX - 1, bits - 1))
                self.assertEqual(list(bitmap.ones(MAX - 2)), [MAX - 2, MAX - 1])
                self.assertRaises(OutOfBoundsError, bitmap.get, MAX)

    def test_bytes_up_to_the_end(self):
        bitmap = Bitmap(8, 2**58 - 1)
        with bitmap.batch(0) as batch:
            with self.assertRaises(TooLongError) as caught:
                batch.push_bytes(b"\x01" * 9)
            self.assertEqual((caught.exception.appended, batch.length), (7, 2**64 - 8))
            self.assertRaises(TooLongError, batch.push_byte, 1)
            self.assertRaises(TooLongError, batch.push_chunk, bytes(8))
        self.assertEqual((bitmap.length, bitmap.count_ones()), (2**64 - 8, 7))


class Blocks(unittest.TestCase):
    def setUp(self):
        self.bitmap = bitmap_of("11")

    def unchanged(self):
        """Asserts that no batch is open, and that commit 1 is the current bitmap."""
        self.assertEqual((list(self.bitmap.ones()), len(self.bitmap), self.bitmap.latest), ([0, 1], 2, 1))

    def test_a_block_commits(self):
        with self.bitmap.batch(commit=7) as batch:
            batch.push(True)
            self.assertEqual(repr(batch), "<mortarpink.Batch, open>")
        self.assertEqual(repr(batch), "<mortarpink.Batch, ended>")
        self.assertEqual((len(self.bitmap), self.bitmap.latest), (3, 7))

    def test_a_block_without_a_number_aborts(self):
        with self.bitmap.batch() as batch:
            batch.push(True)
        self.unchanged()

    def test_an_exception_aborts(self):
        with self.assertRaises(Stop):
            with self.bitmap.batch(commit=7) as batch:
                batch.push(True)
                raise Stop
        self.unchanged()

    def test_a_block_may_end_the_batch(self):
        with self.bitmap.batch(commit=7) as batch:
            batch.push(True)
            batch.commit(5)
        self.assertEqual(self.bitmap.latest, 5)
        with self.bitmap.batch(commit=7) as batch:
            batch.abort()
        self.assertEqual(self.bitmap.latest, 5)

    def test_a_commit_that_fails_aborts(self):
        for number, error in (1, NonMonotonicCommitError), (MAX, ReservedCommitNumberError):
            with self.assertRaises(error):
                with self.bitmap.batch(commit=number) as batch:
                    batch.push(True)
            self.unchanged()

    def test_a_commit_number_is_checked_at_once(self):
        for number in -1, MAX + 1:
            with self.assertRaises(ValueError):
                self.bitmap.batch(commit=number)
        with self.assertRaises(TypeError):
            self.bitmap.batch(commit="7")
        self.unchanged()

    def test_an_open_batch_goes_on_after_a_commit_that_fails(self):
        batch = self.bitmap.batch()
        batch.push(False)
        for number, error in (0, NonMonotonicCommitError), (MAX, ReservedCommitNumberError), (-1, ValueError):
            with self.assertRaises(error):
                batch.commit(number)
        with failing("commit"), self.assertRaises(NoMemoryError):
            batch.commit(2)
        batch.commit(2)
        self.assertEqual((len(self.bitmap), self.bitmap.latest), (3, 2))

    def test_nested_batches(self):
        with self.bitmap.batch(commit=2) as batch:
            with self.assertRaises(WrongModeError):
                with self.bitmap.batch(commit=3):
                    self.fail("a second batch")
            batch.push(True)
        self.assertEqual((len(self.bitmap), list(self.bitmap.commits())), (3, [1, 2]))

    def test_no_call_after_the_end(self):
        ended = self.bitmap.batch()
        ended.abort()
        calls = (
            lambda: ended.push(True), lambda: ended.push_byte(1), lambda: ended.push_bytes(b"1"), lambda: ended.push_chunk(b"1"),
            ended.pop, lambda: ended.set(0, True), lambda: ended.prune(0), lambda: ended.commit(9), ended.abort,
            lambda: len(ended), lambda: ended.pruned_chunks, lambda: ended[0], lambda: ended[-1], lambda: ended.chunk(0),
            lambda: ended[:], ended.packed, ended.bools, lambda: ended.read_bytes(0, 1), lambda: ended.read_bytes_into(bytearray(1), 0, 1),
        )
        with self.bitmap.batch(2) as batch:
            for call in calls:
                with self.assertRaisesRegex(WrongModeError, "^the batch has ended: Bitmap.batch begins another one$"):
                    call()
            self.assertEqual(len(batch), 2)

    def test_a_block_without_a_variable(self):
        batch = self.bitmap.batch(commit=2)
        with batch:
            batch.push(True)
        self.assertEqual((len(self.bitmap), self.bitmap.latest, repr(batch)), (3, 2, "<mortarpink.Batch, ended>"))

    def test_a_stack_of_blocks(self):
        with contextlib.ExitStack() as stack:
            batch = stack.enter_context(self.bitmap.batch(commit=2))
            batch.push(True)
        self.assertEqual((len(self.bitmap), self.bitmap.latest), (3, 2))

    def test_no_other_call_in_a_batch(self):
        bitmap, version = self.bitmap, self.bitmap.at(1)
        calls = (
            bitmap.batch, lambda: bytes(bitmap), bitmap.save, lambda: bitmap.delta(1, 2), lambda: bitmap.apply_delta(b""), lambda: bitmap.checkout(1),
            lambda: bitmap.at(1), bitmap.commits, lambda: bitmap.commit_exists(1), lambda: bitmap.latest,
            lambda: bitmap.earliest, lambda: bitmap.entries, lambda: bitmap.changed_chunks(1, 1),
            lambda: bitmap.rewind_to(1), lambda: bitmap.drop_before(1), bitmap.clear,
            lambda: version.length, lambda: version.pruned_chunks, lambda: version[0], lambda: version.chunk(0), version.ones,
            version.packed, version.bools, lambda: version[:], lambda: version.read_bytes(0, 1), version.ones_array, lambda: version.ones_into(array.array("Q")),
            lambda: version.next_one(0), lambda: version.next_zero(0), lambda: version.prev_one(0),
            lambda: version.prev_zero(0), version.count_ones, lambda: version.select_one(0), lambda: bytes(version),
        )
        with bitmap.batch():
            for call in calls:
                with self.assertRaisesRegex(WrongModeError, "^the bitmap is in a batch: Batch.commit, Batch.abort, Bitmap.abort or "):
                    call()
        self.unchanged()

    def test_a_batch_begins_between_pages(self):
        bitmap = bitmap_of("1" * 5000)
        ones, past = bitmap.ones(), bitmap.at(1).ones()
        with bitmap.batch() as batch:
            batch.set(4999, False)
            self.assertEqual(list(ones), list(range(4999)))
            self.assertRaises(WrongModeError, list, past)

    def test_a_batch_ends_between_pages(self):
        bitmap = bitmap_of("1" * 5000)
        with bitmap.batch(commit=2) as batch:
            ones = batch.ones()
        self.assertRaises(WrongModeError, list, ones)

    def test_close_in_a_batch(self):
        with self.bitmap.batch() as batch:
            batch.push(True)
            self.bitmap.close()
            self.assertRaises(ClosedError, batch.push, True)
        with self.assertRaises(ClosedError):
            with bitmap_of("1") as bitmap, bitmap.batch(commit=2):
                bitmap.close()

    def test_a_batch_without_references_is_aborted(self):
        self.bitmap.batch().push(True)
        self.unchanged()
        batch = self.bitmap.batch()
        batch.push(True)
        batch.cycle = batch
        del batch
        gc.collect()
        with self.bitmap.batch(2) as batch:
            self.assertEqual(len(batch), 2)

    def test_a_batch_cannot_be_copied(self):
        with self.bitmap.batch(2) as batch:
            for make in copy.copy, copy.deepcopy, pickle.dumps:
                with self.assertRaisesRegex(TypeError, "^a Batch cannot be copied or pickled: "):
                    make(batch)
            batch.push(True)
        self.assertEqual(len(self.bitmap), 3)

    def test_a_batch_that_ended_aborts_no_other(self):
        ended = self.bitmap.batch()
        ended.abort()
        batch = self.bitmap.batch()
        del ended
        gc.collect()
        batch.push(True)
        batch.commit(2)
        self.assertEqual(len(self.bitmap), 3)
