"""Exceptions that arrive in the middle of a call, as KeyboardInterrupt does, and `Bitmap.abort`."""

import gc
import random
import signal
import threading
import time
import unittest
from unittest import mock

from mortarpink import Bitmap, ClosedError, NonMonotonicCommitError, WrongModeError
from mortarpink._library import CALLS
from support import bitmap_of


class Interrupt(BaseException):
    """What a handler of a signal raises in these tests."""


def interrupted(name):
    """Returns a context in which a function of the library does its work, and an exception arrives as it returns."""
    call = CALLS[name]

    def run(*arguments):
        call(*arguments)
        raise Interrupt

    return mock.patch.dict(CALLS, {name: run})


class Arriving(unittest.TestCase):
    """After the exception no batch is open, and the next one works."""

    def setUp(self):
        self.bitmap = bitmap_of("1")

    def usable(self, length=1):
        """Asserts that the bitmap has a length outside of a batch, and takes another commit."""
        self.assertEqual((self.bitmap.count_ones(), self.bitmap.length), (length, length))
        number = self.bitmap.latest + 1
        with self.bitmap.batch(number) as batch:
            batch.push(True)
        self.assertEqual((self.bitmap.latest, self.bitmap.count_ones()), (number, length + 1))

    def test_as_a_batch_begins(self):
        with interrupted("begin"):
            try:
                self.bitmap.batch()
            except Interrupt as error:
                kept = error
        self.usable()
        self.assertIsNotNone(kept.__traceback__)

    def test_as_a_second_batch_is_refused(self):
        batch = self.bitmap.batch()
        with interrupted("begin"), self.assertRaises(WrongModeError):
            self.bitmap.batch()
        batch.push(True)
        batch.commit(2)
        self.usable(2)

    def test_as_a_batch_is_committed(self):
        with interrupted("commit"), self.assertRaises(Interrupt):
            with self.bitmap.batch(commit=2) as batch:
                batch.push(True)
        self.usable(2)

    def test_as_a_commit_fails(self):
        with interrupted("commit"):
            batch = self.bitmap.batch()
            self.assertRaises(Interrupt, batch.commit, 0)
        self.assertRaises(WrongModeError, batch.push, True)
        self.usable()

    def test_as_a_batch_is_aborted(self):
        with interrupted("abort"), self.assertRaises(Interrupt):
            with self.bitmap.batch() as batch:
                batch.push(True)
        self.usable()
        with interrupted("abort"), self.assertRaises(Interrupt):
            self.bitmap.batch().abort()
        self.usable(2)

    def test_in_an_edit(self):
        for number in 2, None:
            with interrupted("push"), self.assertRaises(Interrupt):
                with self.bitmap.batch(number) as batch:
                    batch.push(True)
            self.usable(2 if number is None else 1)

    def test_a_later_batch_is_not_that_of_an_interrupted_one(self):
        with interrupted("commit"):
            ended = self.bitmap.batch()
            self.assertRaises(Interrupt, ended.commit, 2)
        batch = self.bitmap.batch()
        self.assertRaises(WrongModeError, ended.push, True)
        self.assertRaises(WrongModeError, ended.abort)
        del ended
        gc.collect()
        batch.push(True)
        batch.commit(3)
        self.assertEqual(self.bitmap.length, 2)

    def test_before_the_end_of_a_block_is_run(self):
        """The block begins, and its end is not run, as if the exception came first. The variable of the block stays."""
        manager = self.bitmap.batch(commit=2)
        batch = manager.__enter__()
        batch.push(True)
        del manager
        gc.collect()
        self.assertRaises(WrongModeError, batch.push, True)
        self.usable()

    def test_as_a_bitmap_is_closed(self):
        free = mock.Mock(side_effect=CALLS["free"])
        with mock.patch.dict(CALLS, free=free), interrupted("free"):
            self.assertRaises(Interrupt, self.bitmap.close)
        self.bitmap.close()
        self.assertRaises(ClosedError, self.bitmap.count_ones)


class Signals(unittest.TestCase):
    """Real signals, whose handler raises an exception between any two steps of the main thread."""

    TRIALS = 1500

    def setUp(self):
        def raise_interrupt(_signal, _frame):
            raise Interrupt

        previous = signal.signal(signal.SIGALRM, raise_interrupt)
        self.addCleanup(signal.signal, signal.SIGALRM, previous)
        self.bitmap = bitmap_of("")

    def commit_bit(self):
        """Commits a batch of one bit, which is set, and keeps the object of the block."""
        with self.bitmap.batch(commit=self.bitmap.latest + 1) as self.batch:
            self.batch.push(True)

    def interrupted_work(self, seconds):
        """Lets a signal interrupt batches, with and without a block, after some time."""
        try:
            signal.setitimer(signal.ITIMER_REAL, seconds)
            while True:
                self.commit_bit()
                self.bitmap.batch().push(True)
        except Interrupt:
            pass

    def test_the_bitmap_is_usable_after_each_signal(self):
        numbers = random.Random(7)
        for _ in range(self.TRIALS):
            self.interrupted_work(numbers.uniform(20e-6, 120e-6))
            latest = self.bitmap.latest
            self.assertEqual((self.bitmap.count_ones(), self.bitmap.length), (latest - 1, latest - 1))
            with self.bitmap.batch() as batch:
                batch.push(False)
        self.assertGreater(self.bitmap.latest, 1)

    def test_the_bitmap_is_usable_while_the_exception_is_handled(self):
        numbers = random.Random(8)
        for _ in range(self.TRIALS):
            try:
                signal.setitimer(signal.ITIMER_REAL, numbers.uniform(20e-6, 120e-6))
                while True:
                    self.commit_bit()
            except Interrupt as error:
                self.assertEqual(self.bitmap.count_ones(), self.bitmap.latest - 1)
                self.assertIsNotNone(error.__traceback__)

    def test_other_threads_go_on(self):
        """The lock is free after each signal."""
        done = threading.Event()

        def read():
            while not done.is_set():
                self.bitmap.copy().close()
                time.sleep(0)

        thread = threading.Thread(target=read, daemon=True)
        self.addCleanup(done.set)
        thread.start()
        numbers = random.Random(9)
        for _ in range(self.TRIALS // 10):
            self.interrupted_work(numbers.uniform(20e-6, 2e-3))
        done.set()
        thread.join(60)
        self.assertFalse(thread.is_alive())


class Aborting(unittest.TestCase):
    def setUp(self):
        self.bitmap = bitmap_of("1")

    def test_no_batch(self):
        self.bitmap.abort()
        self.assertEqual(self.bitmap.count_ones(), 1)

    def test_a_batch_of_another_object(self):
        batch = self.bitmap.batch()
        batch.push(True)
        self.bitmap.abort()
        self.assertEqual((self.bitmap.count_ones(), repr(batch)), (1, "<mortarpink.Batch, ended>"))
        for call in lambda: batch.push(True), lambda: batch.commit(2), batch.abort:
            self.assertRaises(WrongModeError, call)
        with self.bitmap.batch(2) as other:
            del batch
            gc.collect()
            other.push(True)
        self.assertEqual(self.bitmap.count_ones(), 2)

    def test_in_the_block_of_the_batch(self):
        with self.bitmap.batch(commit=2) as batch:
            batch.push(True)
            self.bitmap.abort()
            self.assertRaises(WrongModeError, batch.push, True)
        self.assertEqual((self.bitmap.count_ones(), self.bitmap.latest), (1, 1))

    def test_a_batch_of_another_thread(self):
        batch = self.bitmap.batch()
        thread = threading.Thread(target=self.bitmap.abort)
        thread.start()
        thread.join()
        self.assertRaises(WrongModeError, batch.push, True)
        with self.assertRaises(NonMonotonicCommitError), self.bitmap.batch(commit=1):
            pass

    def test_a_closed_bitmap(self):
        self.bitmap.close()
        self.assertRaises(ClosedError, self.bitmap.abort)
