"""Tests of the replicas over each engine, whose addresses are in the environment: REPLICAS_REDIS and REPLICAS_POSTGRES."""

from __future__ import annotations

import os
import random
import signal
import subprocess
import sys
import tempfile
import time
import unittest
from pathlib import Path
from unittest import mock

from mortarpink import Batch, Bitmap, ClosedError, Error, NoSuchCommitError

from follow import stream_of
from replicas import Entry, MissingEntriesError, Replica, SequenceTakenError, Writer

HERE = Path(__file__).resolve().parent
WIDTH = 8
COMMITS = 1000
KILLS = 12
SEED = 20261128


def edits(chooser: random.Random, bitmap: Bitmap):
    """Returns random edits of a bitmap: a few bits are set, some are appended, and at times some are removed or pruned."""
    length, pruned = bitmap.length, bitmap.pruned_chunks * 8 * WIDTH
    places = [chooser.randrange(pruned, length) for _ in range(chooser.randrange(5))] if length > pruned else []
    bits = [chooser.random() < 0.5 for _ in range(chooser.randrange(40))]
    pops = chooser.randrange(3) if chooser.random() < 0.2 else 0
    prune = chooser.randrange(pruned, length + 1) if chooser.random() < 0.02 else None

    def edit(batch: Batch) -> None:
        for place in places:
            batch[place] = chooser.random() < 0.5
        for bit in bits:
            batch.push(bit)
        for _ in range(min(pops, len(bits))):
            batch.pop()
        if prune is not None:
            batch.prune(prune)

    return edit


class LosesReply:
    """A stream whose next entry is appended, but its reply does not arrive."""

    def __init__(self, stream) -> None:
        self._stream = stream

    def __getattr__(self, name: str):
        return getattr(self._stream, name)

    def append(self, entry: Entry) -> None:
        self._stream.append(entry)
        raise ConnectionError("the reply was lost")


class Replicas:
    """The tests over one engine, named `engine`."""

    engine = ""

    def setUp(self) -> None:
        self.chooser = random.Random(SEED)
        self.name = f"test_{self._testMethodName}"
        self.address = os.environ[f"REPLICAS_{self.engine.upper()}"]
        self.empty()
        self.stream = self.connect()
        self.writer = Writer(self.stream, WIDTH)

    def connect(self):
        return stream_of(self.engine, self.address, self.name)

    def commit(self, number: int) -> None:
        self.writer.commit(number, edits(self.chooser, self.writer.bitmap))

    def follower(self) -> Replica:
        replica = Replica(WIDTH)
        replica.catch_up(self.stream)
        return replica

    def assert_equal(self, replica: Replica) -> None:
        """The replica has the writer's bitmap, with the same commits and the same bits at each of them: equal histories have equal bytes."""
        self.assertEqual(replica.bitmap.save(), self.writer.bitmap.save())

    def test_two_replicas_follow_a_thousand_commits(self) -> None:
        first, second = Replica(WIDTH), Replica(WIDTH)
        kept = {}
        for number in range(1, COMMITS + 1):
            self.commit(number)
            first.catch_up(self.stream)
            if number % 97 == 0:
                second.catch_up(self.stream)
                kept[number] = bytes(self.writer.bitmap)
        second.catch_up(self.connect())
        for replica in (first, second):
            self.assert_equal(replica)
            for number, encoding in kept.items():
                self.assertEqual(bytes(replica.bitmap.at(number)), encoding)

    def test_a_replica_that_is_killed_goes_on(self) -> None:
        with tempfile.TemporaryDirectory() as folder:
            path = Path(folder) / "replica"
            number = 0
            for _ in range(KILLS):
                follower = subprocess.Popen([sys.executable, HERE / "follow.py", self.engine, self.address, self.name, path, str(WIDTH)])
                ends = time.monotonic() + self.chooser.uniform(0.2, 0.8)
                while time.monotonic() < ends:
                    number += 1
                    self.commit(number)
                follower.send_signal(signal.SIGKILL)
                self.assertEqual(follower.wait(), -signal.SIGKILL)
            replica = Replica.open(path, WIDTH)
            self.assertGreater(replica.sequence, 0)
            replica.catch_up(self.stream)
            self.assert_equal(replica)

    def test_entries_that_come_again_or_early_change_nothing(self) -> None:
        replica = self.follower()
        for number in range(1, 21):
            self.commit(number)
        entries = self.stream.read(replica.sequence, 100)
        calls = [entry for entry in entries for _ in range(3)]
        self.chooser.shuffle(calls)
        early = 0
        while replica.sequence < entries[-1].sequence:
            for entry in calls:
                before, sequence = replica.bitmap.save(), replica.sequence
                try:
                    applied = replica.receive(entry)
                except MissingEntriesError:
                    applied, early = False, early + 1
                self.assertEqual(applied, entry.sequence == sequence + 1)
                if not applied:
                    self.assertEqual(replica.bitmap.save(), before)
        self.assertGreater(early, 0)
        self.assert_equal(replica)

    def test_a_delta_that_does_not_fit_changes_nothing(self) -> None:
        for number in range(1, 6):
            self.commit(number)
        entries = self.stream.read(1, 100)
        replica = self.follower()
        before = replica.bitmap.save()
        for entry in entries:
            with self.assertRaises(Error):
                replica.bitmap.apply_delta(entry.body)
            for place in range(len(entry.body)):
                damaged = bytearray(entry.body)
                damaged[place] ^= 1 << self.chooser.randrange(8)
                with self.assertRaises(Error):
                    replica.bitmap.apply_delta(bytes(damaged))
        self.assertEqual(replica.bitmap.save(), before)

    def test_replicas_follow_rewinds(self) -> None:
        replica = self.follower()
        number = 0
        for _ in range(100):
            number += 1
            self.commit(number)
            if self.chooser.random() < 0.2:
                number = self.chooser.choice(list(self.writer.bitmap.commits()))
                self.writer.rewind_to(number)
            if self.chooser.random() < 0.3:
                replica.catch_up(self.stream)
        replica.catch_up(self.stream)
        self.assert_equal(replica)

    def test_a_replica_without_the_commit_of_a_rewind_begins_anew(self) -> None:
        for number in range(1, 11):
            self.commit(number)
        replica = self.follower()
        replica.bitmap.drop_before(8)
        self.writer.rewind_to(5)
        entry = self.stream.read(replica.sequence, 1)[0]
        with self.assertRaises(NoSuchCommitError):
            replica.receive(entry)
        replica.catch_up(self.stream)
        self.assert_equal(replica)

    def test_a_replica_begins_anew_after_entries_are_dropped(self) -> None:
        replica = self.follower()
        for number in range(1, 11):
            self.commit(number)
        self.writer.drop_before(8)
        for number in range(11, 14):
            self.commit(number)
        replica.catch_up(self.stream)
        self.assert_equal(replica)
        self.assertEqual(list(replica.bitmap.commits()), list(range(8, 14)))
        self.assert_equal(self.follower())

    def test_of_two_writers_one_goes_on(self) -> None:
        other = Writer(self.connect(), WIDTH)
        self.commit(1)
        with self.assertRaises(SequenceTakenError):
            other.commit(2, lambda batch: batch.push(True))
        with self.assertRaises(ClosedError):
            other.commit(2, lambda batch: batch.push(True))
        self.assert_equal(self.follower())

    def test_a_writer_that_lost_a_reply_is_made_again(self) -> None:
        self.commit(1)
        with mock.patch.object(self.writer, "_stream", LosesReply(self.stream)):
            with self.assertRaises(ConnectionError):
                self.commit(2)
        self.writer = Writer(self.connect(), WIDTH)
        self.assertEqual(list(self.writer.bitmap.commits()), [0, 1, 2])
        self.commit(3)
        self.assert_equal(self.follower())

    def test_an_edit_that_fails_appends_nothing(self) -> None:
        self.commit(1)
        before = self.writer.bitmap.save()
        for edit, error in ((lambda batch: batch.set(2**40, True), IndexError), (lambda batch: batch.push(1 / 0), ZeroDivisionError)):
            with self.assertRaises(error):
                self.writer.commit(2, edit)
        self.assertEqual(self.writer.bitmap.save(), before)
        self.commit(2)
        self.assert_equal(self.follower())


class RedisReplicas(Replicas, unittest.TestCase):
    engine = "redis"

    def empty(self) -> None:
        from redis import Redis

        Redis.from_url(self.address).delete(self.name, f"{self.name}:history")

    def test_the_example_of_the_readme(self) -> None:
        from redis import Redis

        example = (HERE / "README.md").read_text().split("```python\n")[1].split("```")[0]
        Redis.from_url(self.address).delete("active_accounts", "active_accounts:history")
        with mock.patch("redis.Redis", lambda: Redis.from_url(self.address)):
            exec(example, {})


class PostgresReplicas(Replicas, unittest.TestCase):
    engine = "postgres"

    def empty(self) -> None:
        import psycopg2

        with psycopg2.connect(self.address) as database, database.cursor() as cursor:
            cursor.execute("drop table if exists entries, histories")


if __name__ == "__main__":
    unittest.main()
