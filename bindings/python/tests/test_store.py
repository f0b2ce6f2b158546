"""Stores: bitmaps in files of the operating system."""

import copy
import errno
import gc
import os
import pickle
import random
import signal
import stat
import subprocess
import sys
import tempfile
import threading
import time
import unittest
from pathlib import Path
from unittest import mock

from mortarpink import (
    Bitmap,
    ClosedError,
    CutOffError,
    DamagedError,
    LockedError,
    MissingEndError,
    NonMonotonicCommitError,
    NoSuchCommitError,
    NoSuchWidthError,
    NotAcceptedError,
    NotAnEndError,
    NotEmptyError,
    OtherLogError,
    ReadOnlyError,
    ReservedCommitNumberError,
    Store,
    WrongHeaderError,
    WrongModeError,
)
from support import ENDS, MAX, WORKED, digest, failing, run_script, states, with_versions, worked_steps

# The first receipt of the worked log: the magic, the version, the number, the kind, the place, and the check.
RECEIPT = "4d50425245435054 0000000000000001 0000000000000001 0000000000000002 000000000000005a 210e45243dcc6fc5 7c84ef6c26890a5f"


class Interrupt(BaseException):
    """What a handler of a signal raises in these tests."""


def commit(store, *numbers):
    """Commits a set bit more, under each of some numbers."""
    for number in numbers:
        with store.batch(commit=number) as batch:
            batch.push(True)


class InFolder(unittest.TestCase):
    """Tests with a folder that is removed with its files."""

    def setUp(self):
        folder = tempfile.TemporaryDirectory()
        self.addCleanup(folder.cleanup)
        self.folder = Path(folder.name)
        self.path = self.folder / "orders.log"
        self.receipts = self.folder / "orders.log.receipts"
        self.new = self.folder / "orders.log.new"

    def names(self):
        return sorted(path.name for path in self.folder.iterdir())

    def commits(self, **options):
        """Returns the numbers of the commits that are found when the store is opened."""
        with Store(self.path, create=False, **options) as store:
            return list(store.commits())


class Files(InFolder):
    def test_a_store_outlives_its_object(self):
        with Store(self.path) as store:
            commit(store, 1, 2, 3, 4)
            store.rewind_to(3)
            self.assertEqual(store.drop_before(2), 1)
        self.assertEqual(self.names(), ["orders.log", "orders.log.receipts"])
        with Store(self.path) as store:
            self.assertEqual((list(store.commits()), store.length, store.at(2).length, store.cut_bytes), ([2, 3], 3, 2, 0))
            self.assertEqual(store.position, self.path.stat().st_size)
            store.clear()
        with Store(self.path) as store:
            self.assertEqual((list(store.commits()), store.length), ([], 3))
            self.assertRaises(NonMonotonicCommitError, commit, store, 3)

    def test_the_file_is_a_log(self):
        with Store(self.path, 1) as store:
            self.assertEqual(self.path.read_bytes(), bytes.fromhex("".join(WORKED[:2])))
            for step, end in zip(worked_steps(), ENDS[1:]):
                step(store)
                self.assertEqual((store.position, self.path.stat().st_size), (end, end))
        data = self.path.read_bytes()
        self.assertEqual(data, bytes.fromhex("".join(WORKED)))
        bitmap, good = Bitmap.recover(data, 1)
        self.assertEqual((states(bitmap), good), ((bytes(bitmap), {}), 306))

    def test_receipts(self):
        Store(self.path, 1).close()
        data = self.receipts.read_bytes()
        first = bytes.fromhex(RECEIPT)
        self.assertEqual(data[512:], first.ljust(512, b"\0"))
        # The second one says that the new log is in its place.
        second = first[:16] + bytes([0, 0, 0, 0, 0, 0, 0, 2, 0, 0, 0, 0, 0, 0, 0, 1]) + first[32:48]
        self.assertEqual(data[:512], (second + digest(second)).ljust(512, b"\0"))

    def test_a_log_without_receipts(self):
        with Store(self.path) as store:
            commit(store, 1, 2)
        self.receipts.unlink()
        data = self.path.read_bytes()
        self.path.write_bytes(data[:-1])
        with Store(self.path) as store:
            self.assertEqual((list(store.commits()), store.cut_bytes), ([1], 64))
        self.assertEqual(self.names(), ["orders.log", "orders.log.receipts"])
        # The store of the Rattle crates has this byte after the last entry of its log.
        self.receipts.unlink()
        self.path.write_bytes(data + b"\xa5")
        with Store(self.path) as store:
            self.assertEqual((list(store.commits()), store.cut_bytes), ([1, 2], 1))

    def test_a_log_that_a_bitmap_has_kept(self):
        bitmap = Bitmap()
        bitmap.begin_log()
        commit(bitmap, 1, 2)
        self.path.write_bytes(bitmap.take_log())
        with Store(self.path) as store:
            self.assertEqual(states(store), states(bitmap))

    def test_a_history_begins_a_store(self):
        bitmap = with_versions()
        self.path.write_bytes(bitmap.save())
        with Store(self.path, 1) as store:
            self.assertEqual(states(store), states(bitmap))
            commit(store, 10)
        with Store(self.path, 1, create=False) as store:
            self.assertEqual((list(store.commits()), bytes(store.at(9))), ([3, 5, 9, 10], bytes(bitmap)))

    def test_what_is_opened_and_created(self):
        with self.assertRaises(FileNotFoundError) as caught:
            Store(self.path, create=False)
        self.assertEqual((caught.exception.filename, self.names()), (str(self.path), []))
        self.assertRaises(FileNotFoundError, Store.open_cut, self.path, 90)
        self.assertRaises(FileNotFoundError, Store, self.folder / "none/orders.log")
        self.assertRaises(NoSuchWidthError, Store, self.path, 2)
        self.assertEqual(self.names(), [])
        self.path.touch()
        with Store(os.fsencode(self.path), create=True) as store:
            commit(store, 4)
        self.assertRaises(NotEmptyError, Store, str(self.path), create=True)
        self.assertRaises(WrongHeaderError, Store, self.path, 1)
        os.truncate(self.path, 100)
        with self.assertRaises(MissingEndError) as caught:
            Store(self.path)
        self.assertEqual((caught.exception.position, caught.exception.acknowledged), (90, 155))
        self.assertEqual(str(caught.exception), "the end of the log is missing: 90 bytes are good, and 155 were acknowledged")
        os.truncate(self.path, 20)
        self.assertRaises(CutOffError, Store, self.path)
        os.truncate(self.path, 0)
        self.assertRaises(MissingEndError, Store, self.path)
        with Store(self.path, create=True) as store:
            self.assertEqual(list(store.commits()), [])

    def test_other_files_stay(self):
        self.path.write_text("a list of what is to be bought, which is longer than a header")
        self.new.write_text("a newer list")
        self.assertRaises(WrongHeaderError, Store, self.path)
        self.assertRaises(NotEmptyError, Store, self.path, create=True)
        self.assertEqual(self.new.read_text(), "a newer list")

    def test_links_permissions_and_relative_paths(self):
        link = self.folder / "link.log"
        with Store(self.path) as store:
            commit(store, 1, 2)
        self.path.chmod(0o640)
        link.symlink_to(self.path)
        before = os.getcwd()
        self.addCleanup(os.chdir, before)
        os.chdir(self.folder)
        with Store("link.log") as store:
            os.chdir(before)
            self.assertRaises(LockedError, Store, self.path)
            store.compact()
        self.assertTrue(link.is_symlink())
        self.assertEqual(stat.S_IMODE(self.path.stat().st_mode), 0o640)
        self.assertEqual(self.names(), ["link.log", "orders.log", "orders.log.receipts"])

    def test_a_damaged_log_is_cut_back_by_an_explicit_call(self):
        with Store(self.path) as store:
            commit(store, 1, 2, 3)
        data = bytearray(self.path.read_bytes())
        data[160] ^= 1
        self.path.write_bytes(data)
        with self.assertRaises(DamagedError) as caught:
            Store(self.path)
        position = caught.exception.position
        self.assertEqual((position, self.path.read_bytes()), (155, bytes(data)))
        for wrong in position - 1, position + 1, len(data) + 1, -1, MAX:
            self.assertRaises((NotAnEndError, DamagedError), Store.open_cut, self.path, wrong)
        self.assertEqual(self.path.read_bytes(), bytes(data))
        with Store.open_cut(self.path, position) as store:
            self.assertEqual((list(store.commits()), store.cut_bytes), ([1], len(data) - 155))
            commit(store, 2)
        self.assertEqual(self.commits(), [1, 2])

    def test_another_log(self):
        with Store(self.path) as store:
            commit(store, 1)
        with Store(self.folder / "other.log") as store:
            commit(store, 5, 6)
        self.path.write_bytes((self.folder / "other.log").read_bytes())
        with self.assertRaises(OtherLogError) as caught:
            Store(self.path)
        self.assertEqual(caught.exception.position, self.path.stat().st_size)
        Store.open_cut(self.path, caught.exception.position).close()
        self.assertEqual(self.commits(), [5, 6])


class Changes(InFolder):
    def test_errors_change_nothing(self):
        with Store(self.path) as store:
            commit(store, 4)
            before = self.path.read_bytes(), states(store)
            self.assertRaises(NoSuchCommitError, store.rewind_to, 1)
            self.assertRaises(ReservedCommitNumberError, commit, store, MAX)
            batch = store.batch()
            batch.push(True)
            with self.assertRaises(NonMonotonicCommitError) as caught:
                batch.commit(4)
            self.assertEqual((caught.exception.previous, caught.exception.attempted), (4, 4))
            batch.abort()
            self.assertRaises(CutOffError, store.apply_delta, b"")
            with store.batch():
                for call in store.clear, store.compact, lambda: store.rewind_to(4):
                    self.assertRaises(WrongModeError, call)
            self.assertEqual((self.path.read_bytes(), states(store), store.is_read_only), (*before, False))

    def test_a_batch_that_is_aborted_leaves_nothing(self):
        with Store(self.path) as store:
            commit(store, 1)
            position = store.position
            with store.batch() as batch:
                batch.push(True)
            with self.assertRaises(KeyError), store.batch(commit=2) as batch:
                batch.push(True)
                raise KeyError
            self.assertEqual((store.length, store.position), (1, position))
            commit(store, 2)
        self.assertEqual(self.commits(), [1, 2])

    def test_a_replica(self):
        writer = Bitmap()
        commit(writer, 1, 2)
        with Store(self.path) as store:
            commit(store, 1)
            store.apply_delta(writer.delta(1, 2))
        with Store(self.path, indexed=True) as store:
            self.assertEqual(states(store), states(writer))

    def test_copies_are_bitmaps(self):
        with Store(self.path) as store:
            commit(store, 1)
            for other in store.copy(), Bitmap.load(store.save()):
                commit(other, 2)
                self.assertEqual((type(other), other.keeps_log), (Bitmap, False))
            version = copy.deepcopy(store.at(1))
            for call in pickle.dumps, copy.copy, copy.deepcopy:
                self.assertRaises(TypeError, call, store)
            self.assertEqual(repr(store), "<mortarpink.Store, 1 bits, 0 pruned chunks>")
        self.assertEqual(list(version.ones()), [0])
        self.assertEqual(self.commits(), [1])

    def test_a_store_has_no_calls_of_a_log(self):
        with Store(self.path) as store:
            for name in "begin_log", "end_log", "take_log", "log_bytes", "forget_log", "load", "recover":
                self.assertFalse(hasattr(store, name))

    def test_after_close(self):
        store = Store(self.path)
        version = (commit(store, 1), store.at(1))[1]
        store.close()
        store.close()
        for call in (store.batch, store.clear, store.sync, store.compact, store.commits, lambda: store.position, lambda: version.length,
                     lambda: store.rewind_to(1), lambda: store.drop_before(1), lambda: store.apply_delta(b""), store.copy):
            self.assertRaises(ClosedError, call)
        self.assertEqual(repr(store), "<mortarpink.Store, closed>")

    def test_threads(self):
        lock, seen = threading.Lock(), []

        def write():
            for _ in range(20):
                with lock, store.batch((store.latest or 0) + 1) as batch:
                    batch.push(True)

        def read():
            while len(seen) < 200:
                try:
                    seen.append((store.latest or 0) * 65 + 90 <= self.path.stat().st_size)
                except WrongModeError:
                    pass

        with Store(self.path) as store:
            threads = [threading.Thread(target=target) for target in (write, write, read)]
            for thread in threads:
                thread.start()
            for thread in threads:
                thread.join()
            self.assertEqual((store.latest, all(seen)), (40, True))
        self.assertEqual(self.commits(), list(range(1, 41)))


class Compaction(InFolder):
    def test_compaction_leaves_what_is_kept(self):
        with Store(self.path) as store:
            commit(store, *range(1, 51))
            store.drop_before(49)
            long = store.position
            self.new.write_text("what an earlier compaction has left")
            before = states(store)
            store.compact()
            self.assertEqual((states(store), self.path.read_bytes()), (before, store.save()))
            self.assertLess(store.position, long // 10)
            commit(store, 60)
        self.new.write_text("what a crash has left")
        with Store(self.path) as store:
            self.assertEqual((list(store.commits()), store.at(49).length), ([49, 50, 60], 49))
        self.assertEqual(self.names(), ["orders.log", "orders.log.receipts"])

    def test_automatic_compaction_bounds_the_file(self):
        for compacts in True, False:
            path, longest = self.folder / str(compacts), 0
            with Store(path, compact_automatically=compacts, buffered=True, indexed=True) as store:
                for number in range(1, 201):
                    commit(store, number)
                    store.drop_before(max(number - 3, 0))
                    longest = max(longest, path.stat().st_size)
                self.assertEqual(longest < 6000, compacts)
            with Store(path) as store:
                self.assertEqual(list(store.commits()), [197, 198, 199, 200])

    def test_a_compaction_that_fails_leaves_the_store(self):
        with Store(self.path) as store:
            commit(store, 1, 2)
            self.new.mkdir()
            self.assertRaises(OSError, store.compact)
            self.assertFalse(store.is_read_only)
            commit(store, 3)
            self.new.rmdir()
            store.compact()
        self.assertEqual(self.commits(), [1, 2, 3])

    def test_a_log_that_cannot_begin_anew(self):
        with Store(self.path) as store:
            commit(store, 1)
            with failing("log_begin"):
                self.assertRaises(MemoryError, store.compact)
            self.assertTrue(store.is_read_only)
            self.assertEqual(list(store.commits()), [1])
        self.assertEqual(self.commits(), [1])


class Durability(InFolder):
    def test_a_buffered_store_is_synced_by_its_calls(self):
        with Store(self.path, buffered=True) as store:
            before = self.receipts.read_bytes()
            commit(store, 1, 2, 3)
            self.assertEqual((self.receipts.read_bytes(), self.path.stat().st_size), (before, store.position))
            store.sync()
            synced = self.receipts.read_bytes()
            self.assertNotEqual(synced, before)
            store.sync()
            self.assertEqual(self.receipts.read_bytes(), synced)
            commit(store, 4)
        self.assertNotEqual(self.receipts.read_bytes(), synced)

    def test_a_store_without_references_is_synced_and_unlocked(self):
        store = Store(self.path, buffered=True)
        before = self.receipts.read_bytes()
        commit(store, 1)
        version = store.at(1)
        del store
        gc.collect()
        self.assertRaises(LockedError, Store, self.path)
        self.assertEqual(list(version.ones()), [0])
        del version
        gc.collect()
        self.assertNotEqual(self.receipts.read_bytes(), before)
        self.assertEqual(self.commits(), [1])

    def test_a_store_is_synced_when_the_interpreter_exits(self):
        printed = run_script(
            "from mortarpink import Store",
            f"store = Store({str(self.path)!r}, buffered=True)",
            "with store.batch(commit=1) as batch:",
            "    batch.push(True)",
        )
        self.assertEqual(printed, ("", ""))
        # The third receipt, of the commit, is over the first one.
        self.assertEqual(self.receipts.read_bytes()[512 + 23], 3)

    def test_the_order_of_calls(self):
        calls = []

        def noting(name):
            function = getattr(os, name)

            def call(place, *arguments):
                path = place if name == "rename" else os.readlink(f"/proc/self/fd/{place}")
                calls.append((name, os.path.basename(path)))
                return function(place, *arguments)

            return mock.patch.object(os, name, call)

        def written(name):
            return [("pwrite", name), ("fdatasync", name)]

        log, receipts, new = (path.name for path in (self.path, self.receipts, self.new))
        with Store(self.path) as store, noting("pwrite"), noting("fdatasync"), noting("fsync"), noting("rename"):
            commit(store, 1)
            self.assertEqual(calls, written(log) + written(receipts))
            calls.clear()
            store.compact()
            renamed = [("rename", new), ("fsync", self.folder.name)]
            self.assertEqual(calls, written(new) + written(receipts) + renamed + written(receipts))

    def test_calls_that_fail(self):
        for name, number in ("pwrite", errno.ENOSPC), ("fdatasync", errno.EIO):
            for index, change in enumerate((
                lambda store: commit(store, 9), lambda store: store.rewind_to(1), lambda store: store.drop_before(2), Store.clear,
                lambda store: store.apply_delta(delta),
            )):
                with self.subTest(name=name, index=index):
                    self.path = self.folder / f"{name}{index}"
                    store = Store(self.path, indexed=True)
                    commit(store, 1, 2)
                    other = store.copy()
                    commit(other, 5)
                    delta = other.delta(2, 5)
                    self.check_failure(store, change, mock.patch.object(os, name, side_effect=OSError(number, "no")), number)

    def check_failure(self, store, change, failing_call, number):
        before, version = states(store), store.at(1)
        with failing_call, self.assertRaises(OSError) as caught:
            change(store)
        self.assertEqual(caught.exception.errno, number)
        self.assertEqual((states(store), version.length, store.is_read_only), (before, 1, True))
        for call in store.clear, store.sync, store.compact, lambda: commit(store, 7), lambda: store.rewind_to(1):
            self.assertRaises(ReadOnlyError, call)
        self.assertEqual(states(store), before)
        store.close()
        with Store(self.path) as store:
            commit(store, 20)
        self.assertEqual(self.commits()[-1], 20)

    def test_a_bitmap_that_cannot_be_read_again_is_closed(self):
        store = Store(self.path)
        commit(store, 1)
        no = OSError(errno.EIO, "no")
        with mock.patch.object(os, "fdatasync", side_effect=no), mock.patch.object(os, "pread", side_effect=no):
            self.assertRaises(OSError, store.clear)
        self.assertRaises(ClosedError, len, store)
        self.assertIn(self.commits(), ([], [1]))

    def test_an_interrupt_makes_the_change_or_not(self):
        for name in "pwrite", "fdatasync":
            for count in 1, 2:
                path = self.folder / f"{name}{count}"
                with Store(path) as store:
                    effects, function = iter([None] * (count - 1) + [Interrupt]), getattr(os, name)

                    def call(*arguments):
                        effect = next(effects, None)
                        if effect is not None:
                            raise effect
                        return function(*arguments)

                    with mock.patch.object(os, name, call), self.assertRaises(Interrupt):
                        commit(store, 1)
                    self.assertEqual((store.latest, store.is_read_only), (1, False))
                    commit(store, 2)
                    data = path.read_bytes()
                with Store(path) as store:
                    self.assertEqual((list(store.commits()), len(data)), ([1, 2], store.position))

    def test_an_interrupted_change_is_written_at_the_end(self):
        with Store(self.path) as store:
            with mock.patch.object(os, "pwrite", side_effect=Interrupt), self.assertRaises(Interrupt):
                commit(store, 1)
            self.assertEqual(self.path.stat().st_size, 90)
        self.assertEqual(self.commits(), [1])


class Damage(InFolder):
    """A store with a few changes, all of which are acknowledged: the bytes of its files, and where each entry ends."""

    def setUp(self):
        super().setUp()
        with Store(self.path, 1) as store:
            for step in worked_steps():
                step(store)
        self.log, self.acknowledged = self.path.read_bytes(), self.receipts.read_bytes()
        # Nothing crashes here, and many stores are opened.
        for name in "fdatasync", "fsync":
            patch = mock.patch.object(os, name)
            self.addCleanup(patch.stop)
            patch.start()

    def opened(self, log, receipts):
        """Opens a log with its receipts, or alone. Returns the position and the number of bytes that were cut off.

        After an error the files are as they were.
        """
        self.path.write_bytes(log)
        self.receipts.write_bytes(receipts)
        try:
            with Store(self.path, 1, create=False) as store:
                return store.position, store.cut_bytes
        except Exception:
            self.assertEqual((self.path.read_bytes(), self.receipts.read_bytes()), (log, receipts))
            raise

    def test_each_prefix(self):
        """Without receipts, each prefix with the first bitmap is opened with the entries that are whole in it. With them, each is too short."""
        for end in range(len(self.log)):
            prefix = self.log[:end]
            if end < ENDS[0]:
                self.assertRaises(CutOffError, self.opened, prefix, b"")
                self.assertRaises(CutOffError, self.opened, prefix, self.acknowledged)
                continue
            good = max(place for place in ENDS if place <= end)
            self.assertEqual(self.opened(prefix, b""), (good, end - good))
            with self.assertRaises(MissingEndError) as caught:
                self.opened(prefix, self.acknowledged)
            self.assertEqual((caught.exception.position, caught.exception.acknowledged), (good, 306))

    def test_each_flipped_bit_of_a_log(self):
        for place in range(len(self.log)):
            changed = bytearray(self.log)
            changed[place] ^= 1 << place % 8
            for receipts in b"", self.acknowledged:
                if place < 32:
                    self.assertRaises(WrongHeaderError, self.opened, bytes(changed), receipts)
                    continue
                with self.assertRaises(DamagedError) as caught:
                    self.opened(bytes(changed), receipts)
                self.assertEqual(caught.exception.position, max(start for start in (32, *ENDS) if start <= place))

    def test_each_flipped_bit_of_the_receipts_leaves_the_log(self):
        for place in (*range(56), *range(512, 568), 100, 600, 1023):
            changed = bytearray(self.acknowledged)
            changed[place] ^= 1 << place % 8
            self.assertEqual(self.opened(self.log, bytes(changed)), (306, 0))

    def test_damaged_receipts_cut_off_no_damaged_entry(self):
        damaged = self.log[:-1] + bytes([self.log[-1] ^ 1])
        for change in (lambda data: data[:8] + b"?" + data[9:], lambda data: data[:520] + b"?" + data[521:],
                       lambda data: bytes(512) + data[512:], lambda data: data[:512]):
            with self.assertRaises(DamagedError) as caught:
                self.opened(damaged, change(self.acknowledged))
            self.assertEqual(caught.exception.position, 281)

    def test_bytes_after_what_is_acknowledged(self):
        for rest in b"\1", bytes(5000), b"\xff" * 16, b"\7" * 700, self.log:
            self.assertEqual(self.opened(self.log + rest, self.acknowledged), (306, len(rest)))
        length = (1).to_bytes(8, "big")
        entry = length + digest((306).to_bytes(8, "big") + length) + b"\t" + digest(self.log[-8:] + b"\t")
        with self.assertRaises(NotAcceptedError) as caught:
            self.opened(self.log + entry, self.acknowledged)
        self.assertEqual(caught.exception.position, 306)


class Processes(InFolder):
    def start(self, *lines):
        """Starts another process. It has the path of the store."""
        script = "\n".join(["import sys", "from mortarpink import *", f"path = {str(self.path)!r}", *lines])
        process = subprocess.Popen([sys.executable, "-c", script], stdin=subprocess.PIPE, stdout=subprocess.PIPE, text=True)
        self.addCleanup(process.stdin.close)
        self.addCleanup(process.stdout.close)
        self.addCleanup(process.wait)
        self.addCleanup(process.kill)
        return process

    def second(self):
        """Starts a process that opens the store and keeps it open. Returns it with what it says."""
        process = self.start("try:", "    store = Store(path)", "    print('opened', flush=True)",
                             "except LockedError:", "    print('locked', flush=True)", "sys.stdin.read()")
        return process, process.stdout.readline().strip()

    def test_a_second_process_gets_no_lock(self):
        with Store(self.path):
            process, said = self.second()
            self.assertEqual(said, "locked")
            process.kill()
            process.wait()
        process, said = self.second()
        self.assertEqual(said, "opened")
        self.assertRaises(LockedError, Store, self.path)
        process.kill()
        process.wait()
        Store(self.path).close()

    def test_the_child_of_a_fork_writes_nothing(self):
        printed = run_script(
            "import os",
            "from mortarpink import LockedError, ReadOnlyError, Store",
            f"store = Store({str(self.path)!r}, buffered=True)",
            "with store.batch(commit=1) as batch:",
            "    batch.push(True)",
            "process = os.fork()",
            "if process == 0:",
            "    print(store.latest, store.is_read_only)",
            "    try:",
            "        store.clear()",
            "    except ReadOnlyError:",
            "        print('refused')",
            "    store.close()",
            "else:",
            "    os.waitpid(process, 0)",
            "    try:",
            f"        Store({str(self.path)!r})",
            "    except LockedError:",
            "        print(store.latest, store.is_read_only)",
            "    store.clear()",
        )
        self.assertEqual(printed, ("1 True\nrefused\n1 False\n", ""))
        self.assertEqual(self.commits(), [])

    # The process that is killed. It prints the number of each commit that was acknowledged.
    WRITER = (
        "with Store(path, compact_automatically=True) as store:",
        "    while True:",
        "        number = (store.latest or 0) + 1",
        "        with store.batch(commit=number) as batch:",
        "            batch.push_bytes(bytes([number % 256]) * (number % 7 * 40 + 1))",
        "        if number % 5 == 0:",
        "            store.drop_before(number - 3)",
        "        print(number, flush=True)",
    )

    def test_a_kill_loses_nothing_that_was_acknowledged(self):
        chooser, end, kills, last = random.Random(5), time.monotonic() + 4, 0, 0
        while time.monotonic() < end or kills < 3:
            process = self.start(*self.WRITER)
            said = process.stdout.readline()
            time.sleep(chooser.uniform(0, 0.15))
            process.send_signal(signal.SIGKILL)
            said += process.stdout.read()
            process.wait()
            with Store(self.path) as store:
                self.assertIn(store.latest - int(said.split()[-1]), (0, 1))
                last = store.latest
                self.assertEqual(store.length, 8 * sum(number % 7 * 40 + 1 for number in range(1, last + 1)))
                # A kill between a commit and the drop after it leaves more commits than usual, but each drop that was acknowledged is made.
                drops = [number - 3 for number in map(int, said.split()) if number % 5 == 0]
                self.assertGreaterEqual(store.earliest, max(drops, default=1))
            kills += 1
        self.assertGreater(last, kills)


if __name__ == "__main__":
    unittest.main()
