"""Logs of bitmaps: what a program appends to a file, and what it makes of the file again."""

import copy
import pickle
import threading
import unittest
from unittest import mock

from mortarpink import (
    Bitmap,
    ClosedError,
    CutOffError,
    DamagedError,
    HasLogError,
    NoLogError,
    NoMemoryError,
    NonMonotonicCommitError,
    NoSuchCommitError,
    NoSuchWidthError,
    NotAcceptedError,
    NotAtBaseError,
    WrongHeaderError,
    WrongModeError,
)
from mortarpink._library import CALLS
from support import ENDS, WORKED, bitmap_of, digest, failing, states, with_versions, worked_steps

def worked():
    """Returns the bytes of the worked log, and the states of the bitmap at the end of each frame."""
    bitmap = Bitmap(1)
    bitmap.begin_log()
    found = [states(bitmap)]
    for step in worked_steps():
        step(bitmap)
        found.append(states(bitmap))
    return bitmap.take_log(), found


def frame(log, body):
    """Returns a frame with a body, as it follows a log."""
    chain = log[-8:]
    length = len(body).to_bytes(8, "big")
    return length + digest(len(log).to_bytes(8, "big") + length) + body + digest(chain + body)


class Appended(unittest.TestCase):
    def test_the_worked_log(self):
        data, _ = worked()
        self.assertEqual(data, bytes.fromhex("".join(WORKED)))

    def test_the_sizes_of_entries(self):
        for width in 1, 8, 32, 64:
            bitmap = Bitmap(width)
            bitmap.begin_log()
            self.assertEqual(len(bitmap.take_log()), 32 + 24 + 34)
            sizes = []
            for step in worked_steps():
                before = bitmap.log_position
                step(bitmap)
                sizes.append(len(bitmap.take_log()))
                self.assertEqual(bitmap.log_position, before + sizes[-1])
            chunks = 2 if width == 1 else 1
            self.assertEqual(sizes, [24 + 25 + 8 + width, 24 + 25 + chunks * (8 + width), 24 + 9, 24 + 9, 24 + 1])

    def test_a_log_begins_with_the_history(self):
        bitmap = with_versions()
        history = bitmap.save()
        bitmap.begin_log()
        self.assertEqual((bitmap.log_bytes(), bitmap.log_position), (history, len(history)))
        self.assertEqual(bitmap.log_digest, int.from_bytes(history[-8:], "big"))

    def test_bytes_stay_until_they_are_forgotten_or_taken(self):
        bitmap = Bitmap(1)
        bitmap.begin_log()
        data = bitmap.log_bytes()
        self.assertEqual((len(data), bitmap.log_bytes()), (90, data))
        bitmap.forget_log()
        self.assertEqual((bitmap.log_bytes(), bitmap.log_position, bitmap.take_log()), (b"", 90, b""))
        digest_before = bitmap.log_digest
        bitmap.clear()
        self.assertEqual((len(bitmap.take_log()), bitmap.log_bytes(), bitmap.log_position), (25, b"", 115))
        self.assertNotEqual(bitmap.log_digest, digest_before)

    def test_what_appends_nothing(self):
        bitmap = bitmap_of("101", commit=4)
        bitmap.begin_log()
        bitmap.forget_log()
        with bitmap.batch() as batch:
            batch.push(True)
        bitmap.set_indexed()
        for error, call in (
            (NonMonotonicCommitError, lambda: bitmap.batch().commit(4)),
            (NoSuchCommitError, lambda: bitmap.rewind_to(3)),
            (NotAtBaseError, lambda: bitmap.apply_delta(with_versions().delta(5, 9))),
        ):
            self.assertRaises(error, call)
            bitmap.abort()
        for name, call in (
            ("commit", lambda: bitmap.batch().commit(5)), ("rewind", lambda: bitmap.rewind_to(4)),
            ("drop_before", lambda: bitmap.drop_before(1)), ("clear", bitmap.clear), ("apply_delta", lambda: bitmap.apply_delta(b"")),
        ):
            with failing(name):
                self.assertRaises(NoMemoryError, call)
            bitmap.abort()
        self.assertEqual((bitmap.log_bytes(), list(bitmap.commits())), (b"", [4]))

    def test_a_delta_appends_its_commit(self):
        writer = with_versions()
        replica = writer.copy()
        replica.rewind_to(3)
        replica.begin_log()
        data = replica.take_log()
        replica.apply_delta(writer.delta(3, 9))
        found, good = Bitmap.recover(data + replica.log_bytes(), 1)
        self.assertEqual((states(found), good), (states(replica), replica.log_position))

    def test_in_a_batch(self):
        bitmap = Bitmap(1)
        with bitmap.batch() as batch:
            self.assertRaises(WrongModeError, bitmap.begin_log)
            self.assertFalse(bitmap.keeps_log)
        bitmap.begin_log()
        with bitmap.batch(commit=1) as batch:
            batch.push(True)
            self.assertEqual((bitmap.keeps_log, len(bitmap.log_bytes()), bitmap.log_position), (True, 90, 90))
            self.assertEqual(bitmap.take_log()[-8:], bitmap.log_digest.to_bytes(8, "big"))
        self.assertEqual(len(bitmap.log_bytes()), 58)
        with bitmap.batch():
            bitmap.end_log()
        self.assertFalse(bitmap.keeps_log)


class Kept(unittest.TestCase):
    def test_beginning_and_ending(self):
        bitmap = Bitmap()
        self.assertFalse(bitmap.keeps_log)
        for call in (bitmap.end_log, bitmap.log_bytes, bitmap.forget_log, bitmap.take_log, lambda: bitmap.log_position,
                     lambda: bitmap.log_digest):
            self.assertRaises(NoLogError, call)
        bitmap.begin_log()
        self.assertTrue(bitmap.keeps_log)
        self.assertRaises(HasLogError, bitmap.begin_log)
        bitmap.clear()
        bitmap.end_log()
        self.assertFalse(bitmap.keeps_log)
        bitmap.begin_log()
        self.assertEqual(bitmap.log_position, 90)

    def test_a_log_that_has_grown_is_made_short(self):
        bitmap = Bitmap()
        bitmap.begin_log()
        for number in range(1, 101):
            with bitmap.batch(number) as batch:
                batch.push(True)
        bitmap.drop_before(99)
        old = bitmap.take_log()
        bitmap.end_log()
        bitmap.begin_log()
        file = bitmap.take_log()
        self.assertLess(10 * len(file), len(old))
        for data in old, file:
            found, good = Bitmap.recover(data)
            self.assertEqual((good, states(found)), (len(data), states(bitmap)))
        with bitmap.batch(101) as batch:
            batch.push(False)
        found, _ = Bitmap.recover(file + bitmap.take_log())
        self.assertEqual((list(found.commits()), states(found)), ([99, 100, 101], states(bitmap)))

    def test_a_log_that_cannot_begin(self):
        bitmap = Bitmap()
        with failing("log_begin"):
            self.assertRaises(NoMemoryError, bitmap.begin_log)
        self.assertFalse(bitmap.keeps_log)

    def test_copies_keep_no_log(self):
        bitmap = bitmap_of("1")
        bitmap.begin_log()
        for other in (bitmap.copy(), copy.copy(bitmap), copy.deepcopy(bitmap), bitmap.checkout(1), pickle.loads(pickle.dumps(bitmap))):
            self.assertFalse(other.keeps_log)
            other.clear()
        self.assertTrue(bitmap.keeps_log)

    def test_after_close(self):
        bitmap = Bitmap()
        bitmap.begin_log()
        bitmap.close()
        for call in (bitmap.begin_log, bitmap.end_log, bitmap.log_bytes, bitmap.forget_log, bitmap.take_log, lambda: bitmap.keeps_log,
                     lambda: bitmap.log_position, lambda: bitmap.log_digest):
            self.assertRaises(ClosedError, call)

    def test_taking_that_is_interrupted_before_bytes_are_removed(self):
        bitmap = Bitmap()
        bitmap.begin_log()
        data = bitmap.log_bytes()
        with mock.patch.dict(CALLS, log_forget=mock.Mock(side_effect=KeyboardInterrupt)), self.assertRaises(KeyboardInterrupt):
            bitmap.take_log()
        self.assertEqual(bitmap.take_log(), data)

    def test_a_write_that_fails_loses_nothing(self):
        bitmap, file = Bitmap(1), bytearray()

        def write(is_possible):
            data = bitmap.log_bytes()
            if not is_possible:
                raise OSError
            file.extend(data)
            bitmap.forget_log()

        bitmap.begin_log()
        for index, step in enumerate(worked_steps()):
            step(bitmap)
            if index % 2 == 0:
                self.assertRaises(OSError, write, False)
            else:
                write(True)
        write(True)
        self.assertEqual(file, bytes.fromhex("".join(WORKED)))


class Recovered(unittest.TestCase):
    def test_each_cut(self):
        data, found = worked()
        for end in range(len(data) + 1):
            if end < ENDS[0]:
                self.assertRaises(CutOffError, Bitmap.recover, data[:end], 1)
                continue
            index = max(index for index, place in enumerate(ENDS) if place <= end)
            bitmap, good = Bitmap.recover(memoryview(data)[:end], 1)
            self.assertEqual((states(bitmap), good), (found[index], ENDS[index]))
            self.assertEqual((bitmap.keeps_log, bitmap.log_position, bitmap.log_bytes()), (True, good, b""))
            self.assertEqual(bitmap.log_digest, int.from_bytes(data[good - 8:good], "big"))

    def test_a_recovered_bitmap_goes_on(self):
        data, found = worked()
        for index, end in enumerate(ENDS):
            bitmap, good = Bitmap.recover(data[:end] + bytes(5), 1)
            self.assertEqual(good, end)
            for step in worked_steps()[index:]:
                step(bitmap)
            self.assertEqual((bitmap.log_bytes(), states(bitmap)), (data[end:], found[-1]))
        with self.assertRaises(NonMonotonicCommitError):
            bitmap.batch().commit(1)

    def test_each_flipped_bit(self):
        data, _ = worked()
        for place in range(len(data)):
            for bit in range(8):
                changed = bytearray(data)
                changed[place] ^= 1 << bit
                if place < 32:
                    self.assertRaises(WrongHeaderError, Bitmap.recover, changed, 1)
                    continue
                with self.assertRaises(DamagedError) as caught:
                    Bitmap.recover(changed, 1)
                self.assertEqual(caught.exception.position, max(start for start in (32, *ENDS) if start <= place))
        self.assertEqual(str(caught.exception), "a digest is not that of the bytes before it: after 281 good bytes")
        self.assertIsNone(pickle.loads(pickle.dumps(DamagedError())).position)
        self.assertEqual(pickle.loads(pickle.dumps(caught.exception)).position, 281)

    def test_an_entry_that_cannot_follow(self):
        data, _ = worked()
        first = data[:90]
        self.assertEqual(first + frame(first, data[106:140]), data[:148])
        for body in b"\2" + (1).to_bytes(8, "big"), b"\6", b"\5\0":
            with self.assertRaises(NotAcceptedError) as caught:
                Bitmap.recover(first + frame(first, body) + b"rest", 1)
            self.assertEqual(caught.exception.position, 90)
        with self.assertRaises(NotAcceptedError) as caught:
            Bitmap.recover(data[:32] + frame(data[:32], b"\5"), 1)
        self.assertEqual(caught.exception.position, 32)

    def test_what_is_no_log(self):
        data, _ = worked()
        self.assertRaises(NoSuchWidthError, Bitmap.recover, data, 2)
        self.assertRaises(WrongHeaderError, Bitmap.recover, data, 8)
        self.assertRaises(CutOffError, Bitmap.recover, b"")
        self.assertRaises(WrongHeaderError, Bitmap.recover, bytes(90))
        self.assertRaises(TypeError, Bitmap.recover, "log")
        with failing("recover"):
            self.assertRaises(NoMemoryError, Bitmap.recover, data, 1)

    def test_a_history_is_a_log(self):
        bitmap = with_versions()
        found, good = Bitmap.recover(bitmap.save(), 1)
        self.assertEqual((states(found), good), (states(bitmap), len(bitmap.save())))


class Threads(unittest.TestCase):
    def test_no_entry_is_lost(self):
        """Two threads commit, and one takes the bytes meanwhile."""
        bitmap, lock, file, done = Bitmap(), threading.Lock(), [], threading.Event()

        def commit():
            for _ in range(100):
                with lock, bitmap.batch((bitmap.latest or 0) + 1) as batch:
                    batch.push(True)

        def take():
            while not done.is_set():
                file.append(bitmap.take_log())

        bitmap.begin_log()
        writers, taker = [threading.Thread(target=commit) for _ in range(2)], threading.Thread(target=take)
        for thread in taker, *writers:
            thread.start()
        for thread in writers:
            thread.join()
        done.set()
        taker.join()
        data = b"".join(file) + bitmap.take_log()
        found, good = Bitmap.recover(data)
        self.assertEqual((good, found.latest, states(found)), (len(data), 200, states(bitmap)))

    def test_reads_of_a_log_overlap(self):
        bitmap, both = Bitmap(), threading.Barrier(2)

        def log_position(*_arguments):
            both.wait(60)
            return 0

        with mock.patch.dict(CALLS, log_position=log_position):
            threads = [threading.Thread(target=lambda: bitmap.keeps_log) for _ in range(2)]
            for thread in threads:
                thread.start()
            for thread in threads:
                thread.join(60)
        self.assertFalse(any(thread.is_alive() for thread in threads))


if __name__ == "__main__":
    unittest.main()
