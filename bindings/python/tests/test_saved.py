"""Histories and deltas: what of a bitmap outlives the process, and what replicas get."""

import pickle
import random
import unittest

from mortarpink import (
    Bitmap,
    CutOffError,
    DamagedError,
    DecodeError,
    InvalidError,
    NoMemoryError,
    NoSuchCommitError,
    NoSuchWidthError,
    NotAtBaseError,
    OutOfRangeError,
    WrongHeaderError,
    WrongModeError,
)
from support import MAX, bitmap_of, failing, states, with_versions


def random_bitmap(chooser, width):
    """Returns a bitmap with random versions. Some grow, some shrink, some are pruned, and some are dropped or rewound to."""
    bitmap, number = Bitmap(width, chooser.randrange(3)), chooser.randrange(5)
    for _ in range(12):
        number += chooser.randrange(1, 4)
        with bitmap.batch(number) as batch:
            batch.push_bits([chooser.random() < 0.5 for _ in range(chooser.randrange(100))])
            if chooser.random() < 0.3:
                batch.truncate(chooser.randrange(8 * width * bitmap.pruned_chunks, bitmap.length + 1))
            if chooser.random() < 0.2:
                batch.prune(chooser.randrange(bitmap.length + 1))
        if chooser.random() < 0.1:
            bitmap.drop_before(number)
        elif chooser.random() < 0.2:
            number = chooser.choice(list(bitmap.commits()))
            bitmap.rewind_to(number)
    return bitmap


class Saved(unittest.TestCase):
    def test_a_history_is_loaded(self):
        for width in 1, 8, 32, 64:
            for seed in range(8):
                bitmap = random_bitmap(random.Random(seed), width)
                data = bitmap.save()
                loaded = Bitmap.load(data, width)
                self.assertEqual(states(loaded), states(bitmap))
                self.assertEqual(loaded.save(), data)
                other, used = Bitmap.decode_history(data + b"rest", width)
                self.assertEqual((states(other), used), (states(bitmap), len(data)))

    def test_the_last_number_is_kept(self):
        bitmap = bitmap_of("1", commit=9)
        bitmap.clear()
        loaded = Bitmap.load(bitmap.save(), 1)
        with self.assertRaises(ValueError), loaded.batch(commit=9):
            pass
        with loaded.batch(commit=10):
            pass
        self.assertEqual(list(loaded.commits()), [10])

    def test_no_prefix_is_a_history(self):
        data = with_versions().save()
        for end in range(len(data)):
            with self.assertRaises(CutOffError):
                Bitmap.load(data[:end], 1)
        with self.assertRaises(InvalidError):
            Bitmap.load(data + b"\0", 1)

    def test_a_changed_byte_is_found(self):
        data = with_versions().save()
        kinds = set()
        for place in range(len(data)):
            for bit in range(8):
                changed = bytearray(data)
                changed[place] ^= 1 << bit
                with self.assertRaises(DecodeError) as caught:
                    Bitmap.load(changed, 1)
                kinds.add(type(caught.exception))
        self.assertEqual(kinds, {WrongHeaderError, DamagedError})

    def test_widths_and_ranges(self):
        bitmap = with_versions()
        data = bitmap.save()
        with self.assertRaises(WrongHeaderError):
            Bitmap.load(data, 8)
        with self.assertRaises(NoSuchWidthError):
            Bitmap.load(data, 2)
        bits = [version.length - 8 * version.pruned_chunks for version in map(bitmap.at, bitmap.commits())]
        self.assertEqual(states(Bitmap.load(data, 1, min(bits), max(bits), 2, 2)), states(bitmap))
        for ranges in (min(bits) + 1, MAX), (0, max(bits) - 1), (0, MAX, 3, MAX), (0, MAX, 0, 1):
            with self.assertRaises(OutOfRangeError):
                Bitmap.load(data, 1, *ranges)

    def test_a_bitmap_in_a_batch(self):
        bitmap = with_versions()
        with bitmap.batch():
            for call in bitmap.save, lambda: bitmap.delta(3, 5), lambda: bitmap.apply_delta(b""), lambda: pickle.dumps(bitmap):
                self.assertRaises(WrongModeError, call)

    def test_pickles(self):
        bitmap = with_versions()
        bitmap.set_indexed()
        for protocol in range(pickle.HIGHEST_PROTOCOL + 1):
            loaded = pickle.loads(pickle.dumps(bitmap, protocol))
            self.assertEqual((states(loaded), loaded.width), (states(bitmap), 1))

    def test_memory_runs_out(self):
        bitmap = with_versions()
        data = bitmap.save()
        for name, call in (("save", bitmap.save), ("load", lambda: Bitmap.load(data, 1)), ("delta", lambda: bitmap.delta(3, 5))):
            with failing(name):
                self.assertRaises(NoMemoryError, call)


class Deltas(unittest.TestCase):
    def test_each_delta_brings_a_replica_to_the_newer_version(self):
        for width in 1, 8, 32, 64:
            bitmap = random_bitmap(random.Random(width), width)
            numbers = list(bitmap.commits())
            for older in numbers:
                for newer in (number for number in numbers if number > older):
                    delta = bitmap.delta(older, newer)
                    replica = Bitmap.load(bitmap.save(), width)
                    replica.rewind_to(older)
                    replica.apply_delta(delta)
                    self.assertEqual((replica.latest, bytes(replica)), (newer, bytes(bitmap.at(newer))))
                    self.assertEqual(states(replica)[1].items() - states(bitmap)[1].items(), set())
                    before = replica.save()
                    with self.assertRaises(NotAtBaseError):
                        replica.apply_delta(delta)
                    self.assertEqual(replica.save(), before)

    def test_deltas_of_which_commits(self):
        bitmap = with_versions()
        for older, newer in (5, 5), (5, 3), (3, 4), (4, 9), (3, 10):
            with self.assertRaises(NoSuchCommitError):
                bitmap.delta(older, newer)
        with self.assertRaisesRegex(NoSuchCommitError, "5 is not below 3$"):
            bitmap.delta(5, 3)

    def test_a_number_that_is_used_again_is_not_noticed(self):
        """The replica is at a commit that the writer has dropped. The delta does not look at the chunk in which the two differ."""
        writer = bitmap_of("0" * 24)
        with writer.batch(2) as batch:
            batch[0] = True
        replica = Bitmap.load(writer.save(), 1)
        writer.rewind_to(1)
        with writer.batch(2) as batch:
            batch[8] = True
        with writer.batch(3) as batch:
            batch[16] = True
        replica.apply_delta(writer.delta(2, 3))
        self.assertEqual((list(replica.ones()), list(writer.ones())), ([0, 16], [8, 16]))

    def test_damaged_deltas_change_nothing(self):
        bitmap = with_versions()
        delta = bitmap.delta(5, 9)
        bitmap.rewind_to(5)
        before = bitmap.save()
        for place in range(len(delta)):
            changed = bytearray(delta)
            changed[place] ^= 1
            self.assertRaises(DecodeError, bitmap.apply_delta, changed)
            self.assertRaises(CutOffError if place < 88 else DamagedError, bitmap.apply_delta, delta[:place])
        self.assertRaises(DamagedError, bitmap.apply_delta, delta + b"\0")
        self.assertEqual(bitmap.save(), before)
        bitmap.apply_delta(delta)
        self.assertEqual(list(bitmap.commits()), [3, 5, 9])


if __name__ == "__main__":
    unittest.main()
