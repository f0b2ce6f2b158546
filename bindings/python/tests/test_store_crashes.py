"""Stores on a disk in memory: crashes at each moment of a run, and calls that fail, each in turn."""

import errno
import unittest

import disk
from mortarpink import DamagedError, LockedError, ReadOnlyError, Store
from support import states

LOG = disk.LOG

# The ways in which a call fails: without an effect, with half of it, with all of it, or losing what was to be synced.
EFFECTS = ("none", "half", "whole", "lost")
FAULTS = [(number, effect) for number in (errno.ENOSPC, errno.EIO) for effect in EFFECTS]


def commit(number, chunks):
    """Returns a change: a commit that appends chunks, and sets or clears a bit."""

    def change(store):
        with store.batch(commit=number) as batch:
            for chunk in range(chunks):
                batch.push_chunk(bytes([chunk * number % 256]) * 8)
            batch.push(True)
            batch[0] = number % 2 == 0

    return change


# Entries of one block and of several; a compaction of a log that has grown, and of one that has not.
STEPS = [
    commit(1, 1),
    commit(2, 40),
    commit(3, 0),
    lambda store: store.rewind_to(2),
    Store.compact,
    commit(4, 75),
    lambda store: store.drop_before(2),
    Store.compact,
    lambda store: store.clear(),
    commit(10, 20),
    Store.sync,
]


def acknowledges(step, is_buffered):
    return not is_buffered or step in (Store.sync, Store.compact)


def opened(on_disk, **options):
    with disk.on(on_disk):
        return Store("orders.log", **options)


def found_on(on_disk):
    """Returns the states of the store on a disk. Opens it, and closes it."""
    with opened(on_disk, create=False) as store:
        return states(store)


def all_states():
    """Returns the states before each step, and after the last one."""
    with opened(disk.Disk(), create=True) as store:
        found = [states(store)]
        for step in STEPS:
            step(store)
            found.append(states(store))
    return found


STATES = all_states()


def reopened(on_disk):
    """Opens a store, and takes a commit, which is there when it is opened once more. Returns the states that were found."""
    with opened(on_disk, create=False) as store:
        found, number = states(store), (store.latest or 99) + 1
        commit(number, 1)(store)
        after = states(store)
    with opened(on_disk, create=False) as store:
        assert (states(store), store.cut_bytes) == (after, 0)
    return found


def run(on_disk, is_buffered):
    """Runs the steps. Returns the disk at each moment, with how many steps were acknowledged then, and how many were begun."""
    moments, done = [], [0, 0]
    store = opened(on_disk, create=True, buffered=is_buffered)
    on_disk.at_moment = lambda: moments.append((*done, on_disk.copied()))
    for index, step in enumerate(STEPS):
        done[1] = index + 1
        step(store)
        if acknowledges(step, is_buffered):
            done[0] = index + 1
        on_disk.at_moment()
    return moments


def calls_of_run(is_buffered):
    """Returns the number of calls that the steps make, once the store is created."""
    on_disk = disk.Disk()
    store = opened(on_disk, create=True, buffered=is_buffered)
    first = on_disk.calls
    for step in STEPS:
        step(store)
    return on_disk.calls - first


class Crashes(unittest.TestCase):
    def check_crashes(self, is_buffered, most):
        """Any crash leaves some first steps that were begun, among them all that were acknowledged. So does one that cuts off the opening."""
        crashes = 0
        for moment, (acknowledged, begun, on_disk) in enumerate(run(disk.Disk(), is_buffered)):
            allowed = STATES[acknowledged : begun + 1]
            for crashed in on_disk.after_crash(most, moment):
                self.assertIn(found_on(crashed.copied()), allowed)
                second = []
                crashed.at_moment = lambda: second.append(crashed.copied())
                found_on(crashed)
                for again in second[moment % 3 :: 3]:
                    self.assertIn(reopened(again.after_crash(2, moment)[-1]), allowed)
                crashes += 1
        self.assertGreater(crashes, 100)

    def test_a_crash_loses_nothing_that_is_acknowledged(self):
        self.check_crashes(False, 6)

    def test_a_crash_of_a_buffered_store_leaves_its_first_changes(self):
        self.check_crashes(True, 6)

    def test_a_store_is_created_whole_or_not(self):
        on_disk, moments, kinds = disk.Disk(), [], set()
        on_disk.at_moment = lambda: moments.append(on_disk.copied())
        opened(on_disk, create=True).close()
        for moment in moments:
            for crashed in moment.after_crash(20):
                kinds.add(crashed.bytes_of(LOG) is None)
                with opened(crashed) as store:
                    self.assertEqual(states(store), STATES[0])
        self.assertEqual(kinds, {True, False})

    def test_an_entry_without_some_of_its_blocks_is_cut_off(self):
        """Without receipts it is damage."""
        on_disk, kinds = disk.Disk(), set()
        store = opened(on_disk, create=True, buffered=True)
        commit(1, 1)(store)
        store.sync()
        good = store.position
        commit(2, 100)(store)
        for crashed in on_disk.after_crash(40):
            data = crashed.bytes_of(LOG)
            try:
                with opened(disk.Disk({LOG: data}), create=False) as alone:
                    kinds.add("torn" if alone.cut_bytes else "whole")
            except DamagedError as error:
                self.assertEqual(error.position, good)
                kinds.add("damaged")
            with opened(crashed, create=False) as store:
                self.assertIn(list(store.commits()), ([1], [1, 2]))
                self.assertEqual(store.cut_bytes, len(data) - store.position)
        self.assertEqual(kinds, {"torn", "whole", "damaged"})


class Faults(unittest.TestCase):
    def run_with_fault(self, on_disk, is_buffered, call, fault):
        """Runs the steps with one call that fails. Returns how many steps were acknowledged, and how many were begun."""
        store, acknowledged = opened(on_disk, create=True, buffered=is_buffered), 0
        on_disk.failing, on_disk.fault = on_disk.calls + call, fault
        for index, step in enumerate(STEPS):
            try:
                step(store)
                if acknowledges(step, is_buffered):
                    acknowledged = index + 1
            except OSError as error:
                self.assertEqual((error.errno, states(store)), (fault[0], STATES[index]))
                if store.is_read_only:
                    self.check_read_only(store)
                    return acknowledged, index + 1
                self.assertIs(step, Store.compact)
        store.close()
        return len(STEPS), len(STEPS)

    def check_read_only(self, store):
        before = states(store)
        for step in commit(99, 0), Store.clear, Store.compact, Store.sync, lambda store: store.drop_before(1):
            self.assertRaises(ReadOnlyError, step, store)
        self.assertEqual(states(store), before)
        store.close()

    def check_faults(self, is_buffered, effects):
        """Each call fails once. Then the store is opened again, with a crash before it and without. A crash after it loses nothing."""
        for call in range(calls_of_run(is_buffered)):
            for number, effect in effects:
                on_disk = disk.Disk()
                acknowledged, begun = self.run_with_fault(on_disk, is_buffered, call, (number, effect))
                allowed = STATES[acknowledged : begun + 1]
                for crashed in on_disk.after_crash(3, call):
                    self.assertIn(reopened(crashed), allowed)
                found = found_on(on_disk)
                self.assertIn(found, allowed)
                for crashed in on_disk.after_crash(2, call):
                    self.assertEqual(reopened(crashed), found)

    def test_a_call_that_fails_loses_nothing_that_is_acknowledged(self):
        self.check_faults(False, FAULTS[4:])

    def test_a_call_of_a_buffered_store_that_fails_leaves_its_first_changes(self):
        self.check_faults(True, FAULTS[:4])

    def check_further_commits(self, on_disk, allowed, seed):
        """Opens a store again, and takes two commits with entries of several blocks. A crash at any moment loses nothing acknowledged."""
        moments, found = [], []
        on_disk.at_moment = lambda: moments.append((len(found), on_disk.copied()))
        with opened(on_disk, create=False) as store:
            found.append(states(store))
            self.assertIn(found[0], allowed)
            for number, chunks in (100, 70), (101, 80):
                commit(number, chunks)(store)
                found.append(states(store))
        for count, moment in moments:
            expected = found[count - 1 : count + 1] if count else allowed
            for crashed in moment.after_crash(2, seed + count):
                self.assertIn(found_on(crashed), expected)

    def test_a_store_goes_on_after_a_sync_that_lost_blocks(self):
        """What was to be synced is in memory alone, and is on the disk once the store is opened."""
        for is_buffered in False, True:
            calls = calls_of_run(is_buffered)
            self.assertGreater(calls, 20)
            for call in range(calls):
                on_disk = disk.Disk()
                acknowledged, begun = self.run_with_fault(on_disk, is_buffered, call, (errno.EIO, "lost"))
                self.check_further_commits(on_disk, STATES[acknowledged : begun + 1], call)

    def test_opening_that_fails_changes_nothing(self):
        for moment, (acknowledged, begun, on_disk) in enumerate(run(disk.Disk(), True)):
            allowed = STATES[acknowledged : begun + 1]
            crashed, call = on_disk.after_crash(2, moment)[-1], 0
            while True:
                opening = crashed.copied()
                opening.failing, opening.fault = call, FAULTS[(moment + call) % len(FAULTS)]
                try:
                    opened(opening, create=False).close()
                    break
                except OSError:
                    self.assertIn(reopened(opening.after_crash(1, call)[-1]), allowed)
                call += 1

    def test_creating_that_fails_leaves_no_half_store(self):
        for fault in FAULTS:
            call = 0
            while True:
                on_disk = disk.Disk()
                on_disk.failing, on_disk.fault = call, fault
                try:
                    opened(on_disk, create=True).close()
                    break
                except OSError:
                    for other in (*on_disk.after_crash(4), on_disk.copied()):
                        with opened(other) as store:
                            self.assertEqual(states(store), STATES[0])
                call += 1
            self.assertGreater(call, 5)


class Disks(unittest.TestCase):
    def test_what_a_crash_leaves(self):
        """The disk in memory loses what is not synced, in blocks."""
        on_disk = disk.Disk({LOG: b"a" * 1024})
        on_disk.files[LOG].data[:] = b"b" * 1100
        found = {crashed.bytes_of(LOG) for crashed in on_disk.after_crash(300)}
        self.assertLessEqual({b"a" * 1024, b"b" * 1100, b"a" * 512 + b"b" * 512, b"b" * 512 + b"a" * 512 + bytes(76)}, found)
        on_disk.files[LOG].sync()
        self.assertEqual({crashed.bytes_of(LOG) for crashed in on_disk.after_crash(30)}, {b"b" * 1100})
        file = on_disk.files[LOG]
        file.write(600, b"c")
        file.lose()
        file.write(0, b"c")
        file.sync()
        self.assertEqual((file.data, file.synced), (b"c" + b"b" * 599 + b"c" + b"b" * 499, b"c" + b"b" * 1099))

    def test_a_store_is_locked(self):
        on_disk = disk.Disk()
        with opened(on_disk):
            self.assertRaises(LockedError, opened, on_disk)
        opened(on_disk, create=False).close()


if __name__ == "__main__":
    unittest.main()
