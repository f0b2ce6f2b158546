"""When bitmaps are freed, copies, and threads."""

import array
import copy
import gc
import pickle
import threading
import unittest
import weakref
from unittest import mock

from mortarpink import Bitmap, ClosedError, NonMonotonicCommitError, NoSuchCommitError, WrongModeError
from mortarpink._library import CALLS
from support import bitmap_of, run_script, with_versions


def counting():
    """Returns a context in which the calls that free a bitmap are counted."""
    return mock.patch.dict(CALLS, free=mock.Mock(side_effect=CALLS["free"]))


class Closing(unittest.TestCase):
    def test_no_call_after_close(self):
        bitmap = bitmap_of("1")
        version = bitmap.at(1)
        bitmap.close()
        calls = (
            lambda: bitmap.length, lambda: len(bitmap), lambda: bool(bitmap), lambda: bitmap.pruned_chunks, lambda: bitmap[0],
            lambda: bitmap[-1], lambda: bitmap.get(0), lambda: bitmap.chunk(0), bitmap.ones, lambda: bitmap.next_one(0),
            lambda: bitmap.next_zero(0), lambda: bitmap.prev_one(1), lambda: bitmap.prev_zero(1), bitmap.count_ones,
            lambda: bitmap.select_one(0), lambda: bytes(bitmap), bitmap.copy, bitmap.batch, lambda: bitmap.at(1), bitmap.commits,
            lambda: bitmap.commit_exists(1), lambda: bitmap.latest, lambda: bitmap.earliest, lambda: bitmap.entries,
            lambda: bitmap.changed_chunks(1, 1), lambda: bitmap.rewind_to(1), lambda: bitmap.drop_before(1), bitmap.clear,
            bitmap.abort, lambda: bitmap[:], lambda: bitmap.read_bytes(0, 1), bitmap.packed, bitmap.bools, bitmap.ones_array, lambda: bitmap.ones_into(array.array("Q")),
            lambda: version.length, lambda: version[0], version.ones, lambda: bytes(version),
        )
        for call in calls:
            self.assertRaises(ClosedError, call)
        self.assertEqual((bitmap.width, repr(bitmap)), (1, "<mortarpink.Bitmap, closed>"))

    def test_no_call_of_a_batch_after_close(self):
        bitmap = Bitmap()
        batch = bitmap.batch()
        bitmap.close()
        calls = (lambda: batch.push(1), lambda: batch.push_byte(1), lambda: batch.push_bytes(b""), lambda: batch.push_chunk(bytes(8)),
                 batch.pop, lambda: batch.set(0, 1), lambda: batch.prune(0), lambda: batch.commit(1), batch.abort, lambda: len(batch))
        for call in calls:
            self.assertRaises(ClosedError, call)

    def test_a_block_closes(self):
        with bitmap_of("1") as bitmap:
            self.assertEqual(len(bitmap), 1)
        self.assertRaises(ClosedError, len, bitmap)
        with self.assertRaises(KeyError), Bitmap() as bitmap:
            raise KeyError
        self.assertRaises(ClosedError, len, bitmap)

    def test_close_while_an_iterator_is_open(self):
        bitmap = bitmap_of("1" * 5000)
        ones = bitmap.ones()
        bitmap.close()
        self.assertRaises(ClosedError, list, ones)

    def test_close_in_a_page_of_an_iterator(self):
        for make in Bitmap.ones, lambda bitmap: bitmap.at(3).ones(), Bitmap.commits, lambda bitmap: bitmap.changed_chunks(3, 9):
            bitmap = with_versions()
            numbers = make(bitmap)
            bitmap.close()
            self.assertRaises(ClosedError, next, numbers)

    def test_an_iterator_that_ended_before_close(self):
        bitmap = bitmap_of("11")
        ones = bitmap.ones()
        self.assertEqual(list(ones), [0, 1])
        bitmap.close()
        self.assertEqual(list(ones), [])


class Freeing(unittest.TestCase):
    def test_close_frees_once(self):
        with counting() as calls:
            bitmap = Bitmap()
            bitmap.close()
            bitmap.close()
            del bitmap
            gc.collect()
            self.assertEqual(calls["free"].call_count, 1)

    def test_the_last_reference_frees_once(self):
        with counting() as calls:
            bitmap = bitmap_of("1")
            version, ones = bitmap.at(1), bitmap.ones()
            del bitmap
            self.assertEqual((len(version), list(ones), calls["free"].call_count), (1, [0], 0))
            del version, ones
            gc.collect()
            self.assertEqual(calls["free"].call_count, 1)

    def test_a_batch_keeps_the_bitmap(self):
        with counting() as calls:
            batch = Bitmap().batch()
            batch.push(True)
            self.assertEqual((len(batch), calls["free"].call_count), (1, 0))
            del batch
            gc.collect()
            self.assertEqual(calls["free"].call_count, 1)

    def test_a_cycle_is_freed(self):
        with counting() as calls:
            bitmap = Bitmap()
            bitmap.cycle = bitmap
            gone = weakref.ref(bitmap)
            del bitmap
            gc.collect()
            self.assertIsNone(gone())
            self.assertEqual(calls["free"].call_count, 1)

    def test_a_bitmap_that_is_not_made_is_freed(self):
        with counting() as calls:
            self.assertRaises(OverflowError, Bitmap, 8, 1 << 60)
            self.assertRaises(ValueError, Bitmap.from_bytes, b"")
            gc.collect()
            self.assertEqual(calls["free"].call_count, 2)

    def test_exit_with_an_open_batch(self):
        printed = run_script("bitmap = Bitmap()", "batch = bitmap.batch()", "batch.push(1)", "print(len(bitmap))")
        self.assertEqual(printed, ("1\n", ""))

    def test_exit_frees_no_bitmap_that_a_thread_may_use(self):
        self.assertEqual(run_script("_library.CALLS['free'] = print", "bitmap = Bitmap()"), ("", ""))


class Copies(unittest.TestCase):
    def test_a_copy_has_the_commits(self):
        bitmap = with_versions()
        for make in Bitmap.copy, copy.copy, copy.deepcopy:
            other = make(bitmap)
            self.assertEqual((bytes(other), list(other.commits()), list(other.at(3).ones())), (bytes(bitmap), [3, 5, 9], [0, 2, 3]))
            self.assertRaises(NonMonotonicCommitError, other.batch().commit, 9)

    def test_a_copy_is_apart(self):
        bitmap = bitmap_of("1")
        other = bitmap.copy()
        with other.batch(2) as batch:
            batch.push(True)
        self.assertEqual((len(bitmap), bitmap.latest, len(other), other.latest), (1, 1, 2, 2))
        bitmap.close()
        self.assertEqual(list(other.ones()), [0, 1])

    def test_a_copy_is_not_in_a_batch(self):
        bitmap = bitmap_of("1")
        with bitmap.batch() as batch:
            batch.push(True)
            other = bitmap.copy()
            self.assertEqual((len(bitmap), len(other), list(other.ones())), (2, 1, [0]))
            batch.push(True)
            self.assertEqual(len(batch), 3)

    def test_a_copy_of_a_version_is_of_the_same_bitmap(self):
        bitmap = with_versions()
        version = copy.copy(bitmap.at(3))
        self.assertEqual((version.number, list(version.ones())), (3, [0, 2, 3]))
        bitmap.clear()
        self.assertRaises(NoSuchCommitError, version.count_ones)

    def test_a_deep_copy_of_a_version_is_of_a_copy_of_the_bitmap(self):
        bitmap = with_versions()
        version = bitmap.at(3)
        with bitmap.batch():
            version = copy.deepcopy(version)
        bitmap.close()
        self.assertEqual((version.number, version.width, list(version.ones())), (3, 1, [0, 2, 3]))

    def test_what_is_copied_together_stays_together(self):
        bitmap = with_versions()
        other, version = copy.deepcopy([bitmap, bitmap.at(3)])
        other.clear()
        self.assertRaises(NoSuchCommitError, version.count_ones)
        self.assertEqual(list(bitmap.at(3).ones()), [0, 2, 3])

    def test_a_version_cannot_be_pickled(self):
        with self.assertRaisesRegex(TypeError, r"^a Version cannot be pickled: pickle the bitmap, or bitmap\.checkout"):
            pickle.dumps(bitmap_of("1").at(1))


class Threads(unittest.TestCase):
    def in_threads(self, *calls):
        """Runs calls in threads, and fails if one raises."""
        errors = []

        def guarded(call):
            try:
                call()
            except BaseException as error:
                errors.append(error)

        threads = [threading.Thread(target=guarded, args=[call]) for call in calls]
        for thread in threads:
            thread.start()
        for thread in threads:
            thread.join()
        self.assertEqual(errors, [])

    def test_threads_that_read(self):
        bitmap = bitmap_of("10" * 5000, width=8)

        def read():
            for _ in range(50):
                self.assertEqual(bitmap.count_ones(), 5000)
                self.assertEqual(bitmap.at(1).select_one(4999), 9998)
                self.assertEqual(len(bytes(bitmap)), 16 + 157 * 8)

        self.in_threads(*[read] * 4)

    def test_threads_that_push_in_one_batch(self):
        with Bitmap() as bitmap:
            with bitmap.batch(1) as batch:
                self.in_threads(*[lambda: [batch.push(True) for _ in range(2000)]] * 4)
            self.assertEqual((len(bitmap), bitmap.count_ones()), (8000, 8000))

    def test_threads_with_batches_and_a_lock(self):
        bitmap, lock = Bitmap(), threading.Lock()

        def append():
            for _ in range(100):
                with lock, bitmap.batch((bitmap.latest or 0) + 1) as batch:
                    batch.push_bytes(b"\x01" * 100)

        self.in_threads(*[append] * 4)
        self.assertEqual((bitmap.latest, bitmap.count_ones()), (400, 40000))

    def test_threads_with_batches_and_no_lock(self):
        bitmap = Bitmap()

        def append():
            for _ in range(500):
                try:
                    with bitmap.batch() as batch:
                        batch.push(True)
                        self.assertEqual(len(batch), 1)
                except WrongModeError:
                    pass

        self.in_threads(*[append] * 4)
        self.assertEqual(len(bitmap), 0)

    def test_close_while_threads_call(self):
        bitmap = bitmap_of("1" * 4096)
        started = threading.Barrier(4)

        def read():
            started.wait()
            with self.assertRaises(ClosedError):
                while True:
                    self.assertEqual(bitmap.count_ones(), 4096)

        def close():
            started.wait()
            bitmap.close()

        self.in_threads(read, read, read, close)

    def test_close_waits_for_a_call(self):
        started, inside = threading.Event(), []

        def count_ones(*_arguments):
            inside.append(1)
            started.set()
            threading.Event().wait(0.05)
            inside.pop()
            return 0

        def close():
            started.wait()
            bitmap.close()

        free = mock.Mock(side_effect=lambda handle: self.assertEqual(inside, []))
        with mock.patch.dict(CALLS, count_ones=count_ones, free=free):
            bitmap = Bitmap()
            self.in_threads(bitmap.count_ones, close)
        self.assertEqual(free.call_count, 1)

    def test_a_call_of_a_batch_that_ends_meanwhile(self):
        bitmap, errors = Bitmap(), []
        batch = bitmap.batch()

        def push():
            try:
                batch.push(True)
            except WrongModeError as error:
                errors.append(str(error))

        thread = threading.Thread(target=push)
        with bitmap._session.lock:
            thread.start()
            thread.join(0.05)
            batch.commit(1)
            other = bitmap.batch()
        thread.join()
        self.assertEqual((len(other), len(errors)), (0, 1))

    def test_edits_of_one_bitmap_do_not_overlap_with_another_call(self):
        """A thread reads, and three threads edit."""
        inside, most = [], []

        def call(*_arguments):
            inside.append(1)
            most.append(len(inside))
            threading.Event().wait(0.001)
            inside.pop()
            return 0

        bitmap = Bitmap()
        with bitmap.batch() as batch, mock.patch.dict(CALLS, push=call, get=call):
            edits = [lambda: [batch.push(True) for _ in range(10)]] * 3
            self.in_threads(lambda: [bitmap.get(0) for _ in range(10)], *edits)
        self.assertEqual((max(most), len(most)), (1, 40))

    def test_reads_of_one_bitmap_overlap(self):
        bitmap, both = bitmap_of("1"), threading.Barrier(2)

        def count_ones(*_arguments):
            both.wait(60)
            return 0

        with mock.patch.dict(CALLS, count_ones=count_ones, count_ones_at=count_ones):
            self.in_threads(bitmap.count_ones, bitmap.at(1).count_ones)

    def test_an_edit_waits_for_readers(self):
        bitmap, started, end, order = bitmap_of("1"), threading.Event(), threading.Event(), []

        def count_ones(*_arguments):
            started.set()
            end.wait(60)
            order.append("read")
            return 0

        def commit():
            started.wait()
            bitmap.batch().commit(2)
            order.append("commit")

        with mock.patch.dict(CALLS, count_ones=count_ones):
            committing = threading.Thread(target=commit)
            committing.start()
            reading = threading.Thread(target=bitmap.count_ones)
            reading.start()
            committing.join(0.05)
            end.set()
            reading.join()
            committing.join()
        self.assertEqual((order, bitmap.latest), (["read", "commit"], 2))

    def test_readers_and_writers(self):
        bitmap = Bitmap()

        def read():
            for _ in range(200):
                self.assertEqual(bitmap.count_ones() % 8, 0)

        def edit():
            for _ in range(50):
                with lock, bitmap.batch((bitmap.latest or 0) + 1) as batch:
                    batch.push_byte(255)

        def read_or_fail():
            try:
                read()
            except WrongModeError:
                read_or_fail()

        lock = threading.Lock()
        self.in_threads(edit, edit, read_or_fail, read_or_fail)
        self.assertEqual(bitmap.count_ones(), 800)
