"""Entries in a table of PostgreSQL.

The sequence is the primary key, so of two writers that insert entries of one sequence, one gets an error. A writer inserts an
entry per transaction, and begins the next one after it has ended. So readers see no entry before those below it.
"""

from __future__ import annotations

from typing import Optional

from psycopg2.errors import UniqueViolation
from psycopg2.extensions import connection

from replicas import Entry, Kind, SequenceTakenError

TABLES = """
create table if not exists entries (sequence bigint primary key, kind text not null, body bytea not null);
create table if not exists histories (only_one boolean primary key default true check (only_one), sequence bigint not null, body bytea not null);
"""
KEEP = """
insert into histories (sequence, body) values (%s, %s)
on conflict (only_one) do update set sequence = excluded.sequence, body = excluded.body
"""


class PostgresStream:
    """A stream in the tables `entries` and `histories` of a database. A connection is used by one thread at a time."""

    def __init__(self, database: connection) -> None:
        self._database = database
        self._run(TABLES)

    def _run(self, statement: str, *values: object) -> list[tuple]:
        with self._database, self._database.cursor() as cursor:
            cursor.execute(statement, values)
            return cursor.fetchall() if cursor.description else []

    def append(self, entry: Entry) -> None:
        try:
            self._run("insert into entries values (%s, %s, %s)", entry.sequence, entry.kind.value, entry.body)
        except UniqueViolation:
            raise SequenceTakenError(entry.sequence) from None

    def read(self, after: int, most: int) -> list[Entry]:
        found = self._run("select sequence, kind, body from entries where sequence > %s order by sequence limit %s", after, most)
        return [Entry(sequence, Kind(kind), bytes(body)) for sequence, kind, body in found]

    def keep_history(self, entry: Entry) -> None:
        self._run(KEEP, entry.sequence, entry.body)

    def history(self) -> Optional[Entry]:
        found = self._run("select sequence, body from histories")
        return Entry(found[0][0], Kind.HISTORY, bytes(found[0][1])) if found else None

    def drop_through(self, sequence: int) -> None:
        self._run("delete from entries where sequence <= %s", sequence)
