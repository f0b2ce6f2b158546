"""The exceptions, and their details. Tests of the calls are with the calls."""

import pickle
import sys
import unittest
from unittest import mock

import mortarpink
from mortarpink import (
    Bitmap,
    Error,
    NoMemoryError,
    NonMonotonicCommitError,
    NoSuchCommitError,
    NoSuchWidthError,
    NotInBatchError,
    OutOfBoundsError,
    PrunedChunksOverflowError,
    ReservedCommitNumberError,
    StoreError,
    WrongModeError,
)
from mortarpink._errors import BY_STATUS
from mortarpink._library import CALLS
from support import MAX, bitmap_of, failing, run_script

# The status of each exception, its base in Python and its text.
EXPECTED = {
    "InBatchError": (1, WrongModeError, "the bitmap is in a batch: Batch.commit, Batch.abort, Bitmap.abort or the end of its with block ends it"),
    "OutOfBoundsError": (2, IndexError, "the position is out of bounds"),
    "PrunedError": (3, IndexError, "the position is pruned"),
    "TooLongError": (4, OverflowError, "the bitmap would be too long"),
    "NoRetainedBitError": (5, IndexError, "there is no retained bit"),
    "ReservedCommitNumberError": (6, ValueError, "the commit number is reserved"),
    "NonMonotonicCommitError": (7, ValueError, "the commit number is not above the last one: 4 after 9"),
    "PrunedChunksOverflowError": (8, OverflowError, "there would be too many pruned bits"),
    "EndOfBufferError": (9, ValueError, "the bytes end before the encoding does"),
    "InvalidLengthError": (10, ValueError, "the encoded number of retained bits is out of range: 9 retained bits"),
    "InvalidError": (11, ValueError, "the bytes are not an encoding"),
    "NoSuchCommitError": (12, LookupError, "there is no such commit"),
    "NoMemoryError": (13, MemoryError, "out of memory"),
    "ClosedError": (15, ValueError, "the bitmap is closed"),
    "NoSuchWidthError": (17, ValueError, "the width is not 1, 8, 32 or 64"),
    "WrongSizeError": (18, ValueError, "the buffer has the wrong size"),
    "WrongHeaderError": (19, ValueError, "the bytes do not begin as a history, a log or a delta of this width does"),
    "CutOffError": (20, ValueError, "the bytes end before the history, the delta or the first bitmap of the log does"),
    "DamagedError": (21, ValueError, "a digest is not that of the bytes before it"),
    "NotAcceptedError": (22, ValueError, "a part of the bytes is no bitmap, or no commit or other entry that can follow"),
    "OutOfRangeError": (23, ValueError, "a number of retained bits or of commits is out of range"),
    "NotAtBaseError": (24, ValueError, "the delta does not start at the current bitmap"),
    "HasLogError": (25, RuntimeError, "the bitmap keeps a log"),
    "NoLogError": (26, RuntimeError, "the bitmap keeps no log"),
    "NotInBatchError": (27, WrongModeError, "the batch has ended: Bitmap.batch begins another one"),
    "NotVerifiedError": (28, ValueError, "the proof does not verify against the root, or it is of another chunk"),
}

# The same of the exceptions of stores, which have no status.
OF_STORES = {
    "LockedError": (Error, "another store has the file open"),
    "NotEmptyError": (ValueError, "the file has bytes, so no store is created in it"),
    "MissingEndError": (ValueError, "the end of the log is missing: 90 bytes are good, and 204 were acknowledged"),
    "OtherLogError": (ValueError, "the receipts beside the file are those of another log"),
    "NotAnEndError": (ValueError, "no entry ends at the position at which the log is to be cut off"),
    "ReadOnlyError": (Error, "the store is read-only until it is opened again"),
}

DETAILS = {"NonMonotonicCommitError": (9, 4), "InvalidLengthError": (9,), "MissingEndError": (90, 204), "OtherLogError": (90,)}


class Exceptions(unittest.TestCase):
    def test_each_status(self):
        self.assertEqual({error.__name__: status for status, error in BY_STATUS.items()}, {name: row[0] for name, row in EXPECTED.items()})

    def test_bases_and_texts(self):
        for name, (_, base, text) in EXPECTED.items():
            error = getattr(mortarpink, name)(*DETAILS.get(name, ()))
            self.assertIsInstance(error, Error)
            self.assertIsInstance(error, base)
            self.assertEqual((str(error), error.appended), (text, 0))

    def test_errors_of_stores(self):
        for name, (base, text) in OF_STORES.items():
            error = getattr(mortarpink, name)(*DETAILS.get(name, ()))
            self.assertIsInstance(error, StoreError)
            self.assertIsInstance(error, base)
            self.assertEqual((str(error), str(pickle.loads(pickle.dumps(error)))), (text, text))

    def test_exported_names(self):
        classes = {"Error", "WrongModeError", "DecodeError", "StoreError", "Bitmap", "Version", "Batch", "Store", "ShownChunk", "ShownRange"}
        functions = {"verify_bit", "verify_chunk", "verify_range"}
        self.assertEqual(set(mortarpink.__all__), {*EXPECTED, *OF_STORES, *classes, *functions})
        for name in mortarpink.__all__:
            self.assertTrue(hasattr(mortarpink, name))

    def test_exceptions_can_be_pickled(self):
        error = pickle.loads(pickle.dumps(NonMonotonicCommitError(9, 4)))
        self.assertEqual((error.previous, error.attempted), (9, 4))
        error = NoMemoryError()
        error.appended = 5
        self.assertEqual(pickle.loads(pickle.dumps(error)).appended, 5)

    def test_a_class_of_ones_own(self):
        class Mine(Error):
            pass

        self.assertEqual((str(Mine("text")), str(Mine())), ("text", ""))


class Details(unittest.TestCase):
    def test_commit_number(self):
        bitmap = bitmap_of("1", commit=9)
        for number in 0, 4, 9:
            with self.assertRaises(NonMonotonicCommitError) as caught, bitmap.batch(number):
                pass
            self.assertEqual((caught.exception.previous, caught.exception.attempted), (9, number))
            self.assertEqual(str(caught.exception), f"the commit number is not above the last one: {number} after 9")
        with self.assertRaises(ReservedCommitNumberError), bitmap.batch(MAX):
            pass

    def test_bytes_appended(self):
        def push_bytes(_handle, _data, _size, count):
            count.value = 2
            return 13

        with Bitmap().batch() as batch:
            with mock.patch.dict(CALLS, push_bytes=push_bytes), self.assertRaises(NoMemoryError) as caught:
                batch.push_bytes(b"abc")
            self.assertEqual(caught.exception.appended, 2)
            batch.abort()
            with self.assertRaises(NotInBatchError) as caught:
                batch.push_bytes(b"abc")
            self.assertEqual(caught.exception.appended, 0)


class Making(unittest.TestCase):
    def test_widths(self):
        for width in 0, 2, 4, 63, 65, 128, -1, 2**32 + 1, MAX + 2:
            self.assertRaises(NoSuchWidthError, Bitmap, width)
        for width in "8", 8.0, None:
            self.assertRaises(TypeError, Bitmap, width)
        self.assertEqual(Bitmap(True).width, 1)

    def test_pruned_chunks(self):
        for width in 1, 8, 32, 64:
            most = MAX // (8 * width)
            self.assertEqual(Bitmap(width, most).pruned_chunks, most)
            for chunks in most + 1, MAX:
                self.assertRaises(PrunedChunksOverflowError, Bitmap, width, chunks)
        for chunks in -1, MAX + 1:
            self.assertRaises(ValueError, Bitmap, 8, chunks)

    def test_out_of_memory(self):
        for name in "new", "start":
            with failing(name), self.assertRaises(NoMemoryError):
                Bitmap()
        bitmap = bitmap_of("1")
        with failing("clone"), self.assertRaises(NoMemoryError):
            bitmap.copy()
        for name in "push", "push_byte", "push_chunk", "set", "prune":
            with failing(name), bitmap.batch() as batch:
                calls = {"push_byte": lambda: batch.push_byte(1), "push_chunk": lambda: batch.push_chunk(b"1")}
                calls.update(push=lambda: batch.push(1), set=lambda: batch.set(0, 1), prune=lambda: batch.prune(0))
                self.assertRaises(NoMemoryError, calls[name])


    @unittest.skipUnless(sys.platform == "linux", "only Linux limits the memory of a process so")
    def test_memory_that_runs_out(self):
        printed = run_script(
            "import resource",
            "bitmap, data, total = Bitmap(64), bytes(1 << 20), 0",
            "used = int(open('/proc/self/statm').read().split()[0]) * resource.getpagesize()",
            "resource.setrlimit(resource.RLIMIT_AS, (used + (1 << 25), -1))",
            "try:",
            "    with bitmap.batch(1) as batch:",
            "        while True:",
            "            batch.push_bytes(data)",
            "            total += len(data)",
            "except NoMemoryError as error:",
            "    print(len(data) <= total < 1 << 25, 0 <= error.appended < len(data), error)",
            "print(len(bitmap), bitmap.latest)",
        )
        self.assertEqual(printed, ("True True out of memory\n0 None\n", ""))


class Mode(unittest.TestCase):
    def test_errors_are_those_of_python_too(self):
        bitmap = bitmap_of("1")
        with self.assertRaises(IndexError):
            bitmap[1]
        with self.assertRaises(LookupError):
            bitmap.at(2)
        with self.assertRaises(RuntimeError), bitmap.batch():
            bitmap.clear()
        self.assertFalse(issubclass(NoSuchCommitError, OutOfBoundsError))
