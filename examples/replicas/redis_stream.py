"""Entries in a stream of Redis.

The ID of an entry is its sequence. Redis refuses an ID that is not above that of the last entry, so of two writers that append
entries of one sequence, one gets an error. XRANGE returns entries in the order of their IDs.
"""

from __future__ import annotations

from typing import Optional

from redis import Redis
from redis.exceptions import ResponseError

from replicas import Entry, Kind, SequenceTakenError


class RedisStream:
    """A stream under one key of Redis. The history is a hash under a key beside it."""

    def __init__(self, redis: Redis, name: str) -> None:
        self._redis = redis
        self._stream = name
        self._history = f"{name}:history"

    def append(self, entry: Entry) -> None:
        try:
            self._redis.xadd(self._stream, {"kind": entry.kind.value, "body": entry.body}, id=f"{entry.sequence}-0")
        except ResponseError as error:
            if "equal or smaller" in str(error):
                raise SequenceTakenError(entry.sequence) from None
            raise

    def read(self, after: int, most: int) -> list[Entry]:
        found = self._redis.xrange(self._stream, min=f"{after + 1}-0", count=most)
        return [Entry(int(number.split(b"-")[0]), Kind(fields[b"kind"].decode()), fields[b"body"]) for number, fields in found]

    def keep_history(self, entry: Entry) -> None:
        self._redis.hset(self._history, mapping={"sequence": entry.sequence, "body": entry.body})

    def history(self) -> Optional[Entry]:
        fields = self._redis.hgetall(self._history)
        return Entry(int(fields[b"sequence"]), Kind.HISTORY, fields[b"body"]) if fields else None

    def drop_through(self, sequence: int) -> None:
        self._redis.xtrim(self._stream, minid=f"{sequence + 1}-0", approximate=False)
