"""Tests of the callers in `docs/GUIDE.md`, which are in the folder `guide`. `tools/check_docs.py` fails if one of them and the guide differ."""

import tempfile
import threading
import unittest
from hashlib import sha256
from pathlib import Path

from guide.all_or_none import set_all
from guide.any_bits import next_around
from guide.appended import append_version
from guide.deltas import message_for, receive
from guide.encodings import from_bytes, to_bytes
from guide.files import load, save
from guide.histories import load_versions, save_versions
from guide.last_versions import commit_set
from guide.log import append
from guide.logged import append_entries, open_log
from guide.proofs import was_active
from guide.reads import read_versions
from guide.replicas import apply_update
from guide.restarts import restored, saved
from guide.slots import new_slots, take_slot
from guide.stores import close_day, keep_days, open_orders
from guide.threads import add_flag
from guide.updates import update_between
from guide.values import received, versions_from
from guide.versions import bit_then
from mortarpink import (
    Bitmap,
    DamagedError,
    DecodeError,
    EndOfBufferError,
    Error,
    InvalidError,
    InvalidLengthError,
    LockedError,
    NoMemoryError,
    NonMonotonicCommitError,
    OutOfBoundsError,
    OutOfRangeError,
)
from support import bitmap_of, failing, states, with_versions


class Tasks(unittest.TestCase):
    def test_slots(self):
        slots = new_slots(2)
        self.assertEqual([take_slot(slots, number) for number in (1, 2, 3)], [0, 1, None])
        self.assertEqual((len(slots), list(slots.commits())), (2, [0, 1, 2]))
        with slots.batch(commit=4) as batch:
            batch[0] = False
        self.assertEqual((take_slot(slots, 5), slots.latest), (0, 5))
        self.assertIsNone(take_slot(new_slots(0), 1))

    def test_log(self):
        log = Bitmap(1)
        for number in range(1, 1101):
            append(log, number % 3 == 0, number)
        self.assertEqual((len(log), log.pruned_chunks, log[1099], log[1097], len(list(log.commits()))), (1100, 9, False, True, 11))

    def test_an_appended_version(self):
        versions = bitmap_of("101")
        append_version(versions, 2, True)
        self.assertRaises(NonMonotonicCommitError, append_version, versions, 2, True)
        self.assertEqual((versions[:], list(versions.commits())), ([True, False, True, True], [1, 2]))

    def test_three_reads(self):
        read_versions()

    def test_versions(self):
        versions = bitmap_of("1111111111")
        with versions.batch(commit=2) as batch:
            batch[9] = False
            batch.prune(8)
        self.assertEqual([bit_then(versions, *place) for place in ((1, 9), (2, 9), (2, 0), (1, 10), (3, 9))], [True, False, None, None, None])

    def test_last_versions(self):
        versions = bitmap_of("0" * 300)
        for number in range(2, 252):
            commit_set(versions, [number], number)
        self.assertEqual(list(versions.commits()), list(range(152, 252)))
        self.assertEqual([bit_then(versions, *place) for place in ((152, 152), (152, 153), (151, 151))], [True, False, None])
        commit_set(versions, [], 300, most=1)
        self.assertEqual(list(versions.commits()), [300])

    def test_readable(self):
        bitmap = bitmap_of("0100")
        bitmap.batch().commit(2)
        self.assertEqual([next_around(bits, 2) for bits in (bitmap, bitmap.at(1))], [1, 1])

    def test_a_proof(self):
        chunk, numbers = bytes([0b101, *bytes(7)]), b"".join(number.to_bytes(8, "big") for number in (8, 64, 0))
        root = sha256(b"\x02" + numbers + sha256(b"\x00" + chunk).digest()).digest()
        proof = numbers + bytes(16) + chunk
        self.assertEqual([was_active(root, proof, validator) for validator in (0, 1, 2, 64)], [True, False, True, None])
        self.assertIsNone(was_active(root, proof[1:], 0))

    def test_memory(self):
        flags = bitmap_of("0000")
        with failing("set"):
            self.assertFalse(set_all(flags, [1, 2], 2))
        self.assertEqual((flags.count_ones(), flags.latest), (0, 1))
        self.assertRaises(OutOfBoundsError, set_all, flags, [1, 4], 2)
        self.assertEqual(flags.count_ones(), 0)
        self.assertTrue(set_all(flags, [1, 2], 2))
        self.assertEqual(list(flags.ones()), [1, 2])

    def test_threads(self):
        flags, lock = Bitmap(), threading.Lock()
        threads = [threading.Thread(target=add_flag, args=(flags, lock)) for _ in range(20)]
        for thread in threads:
            thread.start()
        for thread in threads:
            thread.join()
        self.assertEqual((len(flags), flags.latest), (20, 20))


class Replicas(unittest.TestCase):
    """Versions 1 and 2 grow, version 3 is cut off, and version 4 grows and prunes."""

    def versions(self, width):
        bitmap = Bitmap(width)
        with bitmap.batch(commit=1) as batch:
            batch.push_bytes(b"\xa5" * (3 * width + 1))
        with bitmap.batch(commit=2) as batch:
            batch[8 * width + 1] = True
            batch.push_bytes(b"\x3c" * (2 * width))
        with bitmap.batch(commit=3) as batch:
            while batch.length > 16 * width - 3:
                batch.pop()
        with bitmap.batch(commit=4) as batch:
            batch.push_bytes(b"\xf1" * (3 * width))
            batch.prune(16 * width + 1)
        return bitmap

    def test_replica(self):
        for width in 1, 8, 32, 64:
            versions = self.versions(width)
            for older, newer in (1, 2), (2, 3), (3, 4), (1, 3), (1, 4), (2, 4):
                replica = restored(older, bytes(versions.at(older)), width)
                apply_update(replica, update_between(versions, older, newer))
                self.assertEqual((bytes(replica), replica.latest), (bytes(versions.at(newer)), newer))

    def refuse(self, replica, update, reason):
        """Asserts that a replica raises ValueError for a reason, and is unchanged."""
        before = bytes(replica), list(replica.commits())
        with self.assertRaises(ValueError) as caught:
            apply_update(replica, update)
        self.assertEqual(str(caught.exception), reason)
        self.assertEqual((bytes(replica), list(replica.commits())), before)

    def test_an_update_for_another_replica(self):
        versions = self.versions(1)
        update = update_between(versions, 2, 3)
        first = restored(1, bytes(versions.at(1)), 1)
        self.refuse(first, update, "the update is for version 2, and the replica is at 1")
        self.refuse(versions, update, "the update is for version 2, and the replica is at 4")
        self.refuse(Bitmap(1), update, "the update is for version 2, and the replica is at None")
        self.refuse(restored(2, bytes(16)), update, "the update has chunks of 1 bytes, and the replica of 8")
        self.refuse(first, update_between(versions, 1, 1), "the update makes version 1, which is not later than 1")

    def test_a_replica_that_fails_is_unchanged(self):
        versions = self.versions(1)
        replica = restored(1, bytes(versions.at(1)), 1)
        for call in "extend_to", "set_chunk", "prune", "commit":
            with failing(call):
                self.assertRaises(NoMemoryError, apply_update, replica, update_between(versions, 1, 2))
            self.assertEqual((bytes(replica), replica.latest), (bytes(versions.at(1)), 1))

    def test_deltas(self):
        writer = with_versions()
        replicas = [Bitmap(1), *(writer.checkout(number) for number in writer.commits()), Bitmap.load(writer.save(), 1)]
        replicas[-1].rewind_to(3)
        for replica in replicas:
            message = message_for(writer, replica.latest)
            self.assertEqual(message[0], "history" if replica.latest is None else "delta")
            replica = receive(replica, message)
            self.assertEqual((replica.latest, bytes(replica)), (9, bytes(writer)))
            self.assertIsNone(message_for(writer, replica.latest))
            self.assertRaises(Error, receive, replica, ("delta", writer.delta(3, 9)))
            self.assertEqual(bytes(replica), bytes(writer))

    def test_saved_versions(self):
        versions = self.versions(8)
        for number, data in saved(versions).items():
            bitmap = restored(number, data)
            self.assertEqual((list(bitmap.ones()), list(bitmap.commits())), (list(versions.at(number).ones()), [number]))
            self.assertRaises(InvalidError, restored, number, data + b"\0")
            retained = len(bitmap) - 64 * bitmap.pruned_chunks
            self.assertEqual(len(restored(number, data, most=retained)), len(bitmap))
            self.assertRaises(InvalidLengthError, restored, number, data, most=retained - 1)

    def test_encodings(self):
        versions = self.versions(8)
        for bits in versions, versions.at(1), versions.at(3):
            data = to_bytes(bits)
            self.assertEqual(list(from_bytes(data).ones()), list(bits.ones()))
            self.assertRaises(InvalidError, from_bytes, data + b"\0")
            self.assertRaises(EndOfBufferError, from_bytes, data[:15])
        self.assertRaises(InvalidLengthError, from_bytes, bytes(bitmap_of("0" * 4097, 8)))

    def test_one_value(self):
        versions = self.versions(8)
        for first in range(1, 6):
            expected, data = versions.copy(), versions_from(versions, first)
            expected.drop_before(first)
            self.assertEqual(states(received(data)), states(expected))
            self.assertRaises(DecodeError, received, data[:-1])
            self.assertRaises(InvalidError, received, data + b"\0")
        self.assertRaises(OutOfRangeError, received, bitmap_of("0" * 4097, 8).save())

    def states_in(self, path, width):
        """Returns what the file of a log has: the states of its bitmap."""
        versions, file = open_log(path, width)
        file.close()
        return states(versions)

    def test_a_log_in_a_file(self):
        with tempfile.TemporaryDirectory() as folder:
            path = Path(folder, "versions.log")
            for width in 1, 64:
                versions, file = open_log(path, width)
                with file:
                    for number in range(1, 5):
                        append_version(versions, number, number % 2)
                        append_entries(versions, file)
                        self.assertEqual(self.states_in(path, width), states(versions))
                    # A crash cuts off the entry of commit 4, and another write leaves bytes that are no entry.
                    file.truncate(path.stat().st_size - 1)
                versions.rewind_to(3)
                opened, file = open_log(path, width)
                with file:
                    self.assertEqual(states(opened), states(versions))
                    file.write(b"\xa5" * 3)
                    append_version(opened, 9, True)
                    append_entries(opened, file)
                    self.assertEqual(self.states_in(path, width), states(opened))
                # A byte of the first frame is changed. The file stays as it is.
                data = bytearray(path.read_bytes())
                data[40] ^= 1
                path.write_bytes(data)
                with self.assertRaises(DamagedError) as caught:
                    open_log(path, width)
                self.assertEqual((caught.exception.position, path.read_bytes()), (32, data))
                path.unlink()

    def test_a_log_that_begins_again(self):
        with tempfile.TemporaryDirectory() as folder:
            path, copy = Path(folder, "versions.log"), Path(folder, "versions.cut")
            for width in 1, 64:
                versions, file = open_log(path, width)
                file.close()
                begun = versions.log_bytes()
                for left in 1, 31, 32, len(begun) - 1:
                    path.write_bytes(begun[:left])
                    versions, file = open_log(path, width)
                    with file:
                        self.assertEqual(copy.read_bytes(), begun[:left])
                        append_version(versions, 1, True)
                        append_entries(versions, file)
                    self.assertEqual(self.states_in(path, width), states(versions))

                    # A copy is not replaced by another one.
                    path.write_bytes(begun[:1])
                    self.assertRaises(FileExistsError, open_log, path, width)
                    self.assertEqual((path.read_bytes(), copy.read_bytes()), (begun[:1], begun[:left]))
                    copy.unlink()
                path.unlink()

    def test_a_store(self):
        with tempfile.TemporaryDirectory() as folder:
            path = Path(folder, "orders.log")
            with open_orders(path) as orders:
                for day in range(1, 5):
                    close_day(orders, day, lambda batch: batch.push(True))
                self.assertRaises(OutOfBoundsError, close_day, orders, 5, lambda batch: batch.set(9, False))
                self.assertRaises(LockedError, open_orders, path)
                keep_days(orders, 3)
                before = states(orders)
            with open_orders(path) as orders:
                self.assertEqual((states(orders), orders.cut_bytes), (before, 0))
                self.assertEqual(list(orders.commits()), [2, 3, 4])
                keep_days(orders, 5)
                self.assertEqual(list(orders.commits()), [2, 3, 4])

    def test_files(self):
        with tempfile.TemporaryDirectory() as folder:
            for width in 1, 64:
                versions, path = self.versions(width), Path(folder, "bitmap")
                for bits in versions, versions.at(1), Bitmap(width):
                    save(bits, path)
                    self.assertEqual((bytes(load(path)), load(path).width), (bytes(bits), width))

    def test_a_file_of_all_versions(self):
        with tempfile.TemporaryDirectory() as folder:
            path = Path(folder, "versions")
            for width in 1, 64:
                versions = self.versions(width)
                save_versions(versions, path)
                self.assertEqual(load_versions(path, width).save(), versions.save())
            self.assertEqual(list(Path(folder).iterdir()), [path])
            path.write_bytes(path.read_bytes()[:-1])
            self.assertRaises(DecodeError, load_versions, path, 64)

    def test_a_damaged_file(self):
        with tempfile.TemporaryDirectory() as folder:
            path = Path(folder, "bitmap")
            save(self.versions(1), path)
            content = path.read_bytes()
            other = bytes([content[20] ^ 1])
            for damaged in b"", bytes(40), content[:-1], content + b"0", content[1:], content[:20] + other + content[21:]:
                path.write_bytes(damaged)
                with self.assertRaises(ValueError) as caught:
                    load(path)
                self.assertEqual(str(caught.exception), f"{path} is damaged")
