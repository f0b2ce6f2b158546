"""Commits, rewinding and dropping."""

import unittest

from mortarpink import Bitmap, NoMemoryError, NonMonotonicCommitError, NoSuchCommitError
from support import MAX, bitmap_of, failing, with_versions


class Commits(unittest.TestCase):
    def test_no_commits(self):
        bitmap = Bitmap()
        self.assertEqual((list(bitmap.commits()), bitmap.latest, bitmap.earliest, bitmap.entries), ([], None, None, 0))
        self.assertFalse(bitmap.commit_exists(0))
        self.assertEqual(bitmap.drop_before(MAX), 0)
        for number in 0, MAX:
            for call in bitmap.at, bitmap.rewind_to:
                self.assertRaises(NoSuchCommitError, call, number)

    def test_commits(self):
        bitmap = with_versions()
        self.assertEqual((list(bitmap.commits()), bitmap.latest, bitmap.earliest), ([3, 5, 9], 9, 3))
        self.assertEqual([bitmap.commit_exists(number) for number in (0, 3, 4, 5, 9, MAX)], [False, True, False, True, True, False])

    def test_ends_of_the_numbers(self):
        bitmap = bitmap_of("1", commit=0)
        with bitmap.batch(MAX - 1) as batch:
            batch.push(True)
        self.assertEqual(list(bitmap.commits()), [0, MAX - 1])
        self.assertEqual((len(bitmap.at(0)), len(bitmap.at(MAX - 1))), (1, 2))

    def test_numbers_that_the_library_would_cut(self):
        bitmap = bitmap_of("1")
        for number in -1, MAX + 1, MAX + 2:
            for call in bitmap.at, bitmap.commit_exists, bitmap.rewind_to, bitmap.drop_before:
                self.assertRaises(ValueError, call, number)
            self.assertRaises(ValueError, bitmap.changed_chunks, 1, number)
            self.assertRaises(ValueError, bitmap.changed_chunks, number, 1)
        for number in "1", 1.0, None:
            self.assertRaises(TypeError, bitmap.at, number)

    def test_commits_in_several_pages(self):
        bitmap = Bitmap(1)
        for number in range(4100):
            bitmap.batch().commit(2 * number)
        self.assertEqual(list(bitmap.commits()), list(range(0, 8200, 2)))

    def test_entries_of_a_commit(self):
        bitmap = bitmap_of("1" * 24)
        bitmap.clear()
        self.assertEqual(bitmap.entries, 0)
        with bitmap.batch(2) as batch:
            batch[0] = batch[17] = False
        self.assertEqual(bitmap.entries, 2)


class Rewinding(unittest.TestCase):
    def test_rewinding(self):
        bitmap = with_versions()
        bitmap.rewind_to(5)
        self.assertEqual((len(bitmap), bitmap.pruned_chunks, list(bitmap.ones())), (10, 0, [0, 2, 3, 6, 8, 9]))
        self.assertEqual(list(bitmap.commits()), [3, 5])

    def test_rewinding_to_the_latest_commit_drops_no_commit(self):
        bitmap = with_versions()
        bitmap.rewind_to(9)
        self.assertEqual((len(bitmap), list(bitmap.commits())), (18, [3, 5, 9]))

    def test_rewinding_to_no_commit(self):
        bitmap = with_versions()
        for number in 0, 4, 10, MAX:
            self.assertRaises(NoSuchCommitError, bitmap.rewind_to, number)
        with failing("rewind"), self.assertRaises(NoMemoryError):
            bitmap.rewind_to(3)
        self.assertEqual((len(bitmap), list(bitmap.commits())), (18, [3, 5, 9]))

    def test_numbers_after_rewinding(self):
        bitmap = with_versions()
        bitmap.rewind_to(3)
        with self.assertRaises(NonMonotonicCommitError) as caught, bitmap.batch(3):
            pass
        self.assertEqual((caught.exception.previous, caught.exception.attempted), (3, 3))
        with bitmap.batch(4) as batch:
            batch.push(True)
        self.assertEqual((list(bitmap.ones()), list(bitmap.commits())), ([0, 2, 3, 4], [3, 4]))

    def test_versions_of_commits_after_it(self):
        bitmap = with_versions()
        version = bitmap.at(5)
        bitmap.rewind_to(3)
        for call in (lambda: version.length, version.ones, version.count_ones, lambda: version[0], lambda: version[-1],
                     lambda: version.next_zero(0), lambda: version.chunk(0), lambda: bytes(version)):
            self.assertRaises(NoSuchCommitError, call)
        with bitmap.batch(5) as batch:
            batch.pop()
        self.assertEqual(list(version.ones()), [0, 2])


class Dropping(unittest.TestCase):
    def test_drop_before(self):
        bitmap = with_versions()
        version = bitmap.at(3)
        self.assertEqual([bitmap.drop_before(number) for number in (0, 3, 4, 4)], [0, 0, 1, 0])
        self.assertEqual((list(bitmap.commits()), len(bitmap), len(bitmap.at(5))), ([5, 9], 18, 10))
        self.assertRaises(NoSuchCommitError, version.count_ones)
        self.assertEqual((bitmap.drop_before(MAX), bitmap.latest, len(bitmap)), (2, None, 18))

    def test_clear(self):
        bitmap = with_versions()
        bitmap.clear()
        self.assertEqual((list(bitmap.commits()), bitmap.entries, len(bitmap), list(bitmap.ones())), ([], 0, 18, [17]))

    def test_numbers_after_dropping(self):
        for drop in Bitmap.clear, lambda bitmap: bitmap.drop_before(MAX):
            bitmap = with_versions()
            drop(bitmap)
            with self.assertRaises(NonMonotonicCommitError) as caught, bitmap.batch(8):
                pass
            self.assertEqual((caught.exception.previous, caught.exception.attempted), (9, 8))


class ChangedChunks(unittest.TestCase):
    """At width 1. Commit 1 has the chunks 00, 00, 00. Commit 2 changes chunk 1, and commit 4 changes chunk 2 and appends one."""

    def setUp(self):
        self.bitmap = Bitmap(1)
        for number, data, position in (1, bytes(3), 0), (2, b"", 8), (4, b"\x01", 16):
            with self.bitmap.batch(number) as batch:
                batch.push_bytes(data)
                batch[position] = number > 1

    def changed(self, older, newer):
        return list(self.bitmap.changed_chunks(older, newer))

    def test_changed_chunks(self):
        self.assertEqual([self.changed(1, 1), self.changed(1, 2), self.changed(2, 4), self.changed(1, 4)], [[], [1], [2, 3], [1, 2, 3]])

    def test_a_chunk_that_changes_to_what_it_was(self):
        with self.bitmap.batch(5) as batch:
            batch[8] = False
        self.assertEqual((self.changed(4, 5), self.changed(1, 5)), ([1], [2, 3]))

    def test_commits_that_are_not_kept(self):
        for commits in (2, 1), (1, 3), (0, 1), (4, 5), (MAX, MAX):
            self.assertRaises(NoSuchCommitError, self.bitmap.changed_chunks, *commits)

    def test_the_older_commit_comes_first(self):
        with self.assertRaises(NoSuchCommitError) as caught:
            self.bitmap.changed_chunks(2, 1)
        self.assertEqual(str(caught.exception), "there is no such commit: the older number comes first, and 2 is above 1")

    def test_changed_chunks_in_several_pages(self):
        bitmap = Bitmap(1)
        for number, byte in (1, b"\x00"), (2, b"\x01"):
            with bitmap.batch(number) as batch:
                batch.push_bytes(byte * 5000)
        self.assertEqual(list(bitmap.changed_chunks(1, 2)), list(range(5000, 10000)))
