"""Follows a stream until it is ended, and keeps what it has in a file.

usage: follow.py redis|postgres ADDRESS NAME FILE WIDTH

ADDRESS is the URL of the Redis server, or the connection string of the PostgreSQL database. NAME is the key of the stream in Redis. The
program may be killed at any time: started again, it goes on with what is in the file.
"""

from __future__ import annotations

import sys
import time
from pathlib import Path

from replicas import Replica, Stream

# The pause between two readings of the stream, in seconds.
PAUSE = 0.01


def stream_of(engine: str, address: str, name: str) -> Stream:
    """Connects to an engine. Its client is imported here, so that a program needs only the one that it uses."""
    if engine == "redis":
        from redis import Redis
        from redis_stream import RedisStream

        return RedisStream(Redis.from_url(address), name)
    import psycopg2
    from postgres_stream import PostgresStream

    return PostgresStream(psycopg2.connect(address))


def main(engine: str, address: str, name: str, file: str, width: str) -> None:
    stream, path = stream_of(engine, address, name), Path(file)
    replica = Replica.open(path, int(width))
    while True:
        if replica.catch_up(stream):
            replica.save(path)
        time.sleep(PAUSE)


if __name__ == "__main__":
    if len(sys.argv) != 6:
        sys.exit(__doc__)
    main(*sys.argv[1:])
