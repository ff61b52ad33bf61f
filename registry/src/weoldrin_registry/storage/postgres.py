"""Logs in a database of PostgreSQL."""

from __future__ import annotations

import select
import threading
from collections.abc import Callable, Iterator
from contextlib import contextmanager
from typing import Any

import psycopg

from . import PACKAGE, DiskFull, Locked, LogRow, NewRecord, Overtaken, Place, State, StorageError, Unreachable

# Those who make the tables wait for each other by this number.
_MAKING = 0x57656F6C
_TABLES = """
CREATE TABLE IF NOT EXISTS logs (
    id BIGINT GENERATED ALWAYS AS IDENTITY PRIMARY KEY, log_id TEXT NOT NULL UNIQUE, kind TEXT NOT NULL,
    name TEXT COLLATE "C" NOT NULL, head TEXT, head_time BIGINT NOT NULL, count BIGINT NOT NULL, founder TEXT NOT NULL,
    UNIQUE (kind, name)
);
CREATE INDEX IF NOT EXISTS founders ON logs (founder);
CREATE TABLE IF NOT EXISTS leaves (
    leaf BIGINT PRIMARY KEY, log BIGINT NOT NULL REFERENCES logs, record_id TEXT NOT NULL, UNIQUE (log, record_id)
);
CREATE TABLE IF NOT EXISTS records (
    log BIGINT NOT NULL REFERENCES logs, place BIGINT NOT NULL, leaf BIGINT NOT NULL UNIQUE REFERENCES leaves,
    envelope BYTEA NOT NULL, PRIMARY KEY (log, place)
);
CREATE TABLE IF NOT EXISTS states (log BIGINT PRIMARY KEY REFERENCES logs, count BIGINT NOT NULL, text TEXT NOT NULL);
CREATE TABLE IF NOT EXISTS checkpoints (length BIGINT PRIMARY KEY, text TEXT NOT NULL, renewed TEXT NOT NULL);
-- The one row is locked by whoever gives a leaf its index, or makes a checkpoint, until that is kept.
CREATE TABLE IF NOT EXISTS registry (is_one BOOLEAN PRIMARY KEY CHECK (is_one), length BIGINT NOT NULL);
INSERT INTO registry VALUES (TRUE, 0) ON CONFLICT DO NOTHING;
"""
_LOG = "SELECT log_id, kind, name, head, head_time, count FROM logs"


def _told(error: psycopg.Error, is_lost: bool) -> StorageError:
    """What an error of PostgreSQL is for others, and of a connection that is lost."""
    text = " ".join(str(error).split())
    waited = (psycopg.errors.LockNotAvailable, psycopg.errors.DeadlockDetected, psycopg.errors.TooManyConnections)
    if isinstance(error, waited):
        return Locked(text)
    # A server that has no room for its own log ends, and may have kept the transaction.
    if is_lost:
        return Unreachable(text)
    return DiskFull(text) if isinstance(error, psycopg.errors.DiskFull) else StorageError(text)


def _is_open(connection: Any) -> bool:
    """Whether a connection can be used. On one that nobody asks, a server speaks where it ends it."""
    if not connection.closed:
        waiting = select.poll()
        waiting.register(connection.fileno(), select.POLLIN)
        if waiting.poll(0):
            connection.close()
    return not connection.closed


class PostgresStorage:
    """A `Storage` in a database."""

    def __init__(self, address: str, lock_seconds: float) -> None:
        self._address, self._lock_seconds = address, lock_seconds
        self._threads, self._open, self._guard = threading.local(), list[Any](), threading.Lock()
        with self._writing() as connection:
            connection.execute("SELECT pg_advisory_xact_lock(%s)", (_MAKING,))
            connection.execute(_TABLES)

    def close(self) -> None:
        with self._guard:
            for it in self._open:
                it.close()
            self._open.clear()

    # What stands

    def log(self, log_id: str) -> LogRow | None:
        row = self._row(f"{_LOG} WHERE log_id = %s", log_id)
        return LogRow(*row) if row else None

    def logs(self, log_ids: list[str]) -> dict[str, LogRow]:
        rows = {row[0]: LogRow(*row) for row in self._rows(f"{_LOG} WHERE log_id = ANY(%s)", log_ids)}
        return {it: rows[it] for it in log_ids if it in rows}

    def names(self, prefix: str, after: str, most: int) -> list[LogRow]:
        words = "WHERE kind = %s AND name > %s AND name >= %s AND name < %s ORDER BY name LIMIT %s"
        # Names are of ASCII: those that begin so stand before this one.
        rows = self._rows(f"{_LOG} {words}", PACKAGE, after, prefix, prefix + "\U0010ffff", most)
        return [LogRow(*row) for row in rows]

    def founded(self, key_id: str) -> int:
        row = self._row("SELECT count(*) FROM logs WHERE founder = %s", key_id)
        return int(row[0])

    def records(self, log_id: str, start: int, most: int, most_bytes: int) -> list[bytes]:
        query = (
            "SELECT envelope FROM (SELECT place, envelope, sum(length(envelope)) OVER (ORDER BY place) AS size FROM "
            "(SELECT place, envelope FROM records JOIN logs ON logs.id = log WHERE log_id = %s AND place >= %s "
            "ORDER BY place LIMIT %s) AS chosen) AS sized WHERE size <= %s OR place = %s ORDER BY place"
        )
        return [bytes(it) for (it,) in self._rows(query, log_id, start, most, most_bytes, start)]

    def place(self, log_id: str, record_id: str) -> Place | None:
        query = (
            "SELECT records.place, records.leaf FROM logs JOIN leaves ON leaves.log = logs.id "
            "JOIN records ON records.leaf = leaves.leaf WHERE log_id = %s AND record_id = %s"
        )
        row = self._row(query, log_id, record_id)
        return Place(*row) if row else None

    def state(self, log_id: str) -> State | None:
        row = self._row("SELECT states.count, text FROM states JOIN logs ON logs.id = log WHERE log_id = %s", log_id)
        return State(*row) if row else None

    def length(self) -> int:
        return int(self._row("SELECT length FROM registry")[0])

    def leaves(self, start: int, most: int) -> list[tuple[str, str]]:
        query = (
            "SELECT log_id, record_id FROM leaves JOIN logs ON logs.id = log WHERE leaf >= %s ORDER BY leaf LIMIT %s"
        )
        return self._rows(query, start, most)

    def checkpoint(self, length: int) -> str | None:
        row = self._row("SELECT text FROM checkpoints WHERE length = %s", length)
        return str(row[0]) if row else None

    def renewed(self, length: int) -> str | None:
        row = self._row("SELECT renewed FROM checkpoints WHERE length = %s", length)
        return str(row[0]) if row else None

    def newest(self) -> str | None:
        row = self._row("SELECT renewed FROM checkpoints ORDER BY length DESC LIMIT 1")
        return str(row[0]) if row else None

    # What is written

    def append(self, new: NewRecord, judge: Callable[[], None]) -> int:
        with self._writing() as connection:
            # A log that begins stands with no records until the end of the transaction, and nobody sees it.
            query = (
                "INSERT INTO logs (log_id, kind, name, head_time, count, founder) VALUES (%s, %s, %s, 0, 0, %s) "
                "ON CONFLICT DO NOTHING"
            )
            if new.head is None:
                connection.execute(query, (new.log_id, new.kind, new.name, new.founder))
            query = "SELECT id, head, count FROM logs WHERE log_id = %s FOR UPDATE"
            row = connection.execute(query, (new.log_id,)).fetchone()
            if row is None or row[1:] != (new.head, new.place):
                raise Overtaken
            judge()
            log = row[0]
            query = "UPDATE logs SET head = %s, head_time = %s, count = %s WHERE id = %s"
            connection.execute(query, (new.record_id, new.time, new.place + 1, log))
            # From here on nobody else gives an index: leaves are kept in their order.
            row = connection.execute("UPDATE registry SET length = length + 1 RETURNING length - 1").fetchone()
            assert row
            leaf = int(row[0])
            connection.execute("INSERT INTO leaves VALUES (%s, %s, %s)", (leaf, log, new.record_id))
            connection.execute("INSERT INTO records VALUES (%s, %s, %s, %s)", (log, new.place, leaf, new.envelope))
        return leaf

    def save_state(self, log_id: str, state: State) -> None:
        query = (
            "INSERT INTO states SELECT id, %s, %s FROM logs WHERE log_id = %s "
            "ON CONFLICT (log) DO UPDATE SET count = excluded.count, text = excluded.text "
            "WHERE excluded.count > states.count"
        )
        with self._writing() as connection:
            connection.execute(query, (*state, log_id))

    def add_checkpoint(self, text: str, length: int, before: str | None) -> None:
        query = (
            "INSERT INTO checkpoints VALUES (%s, %s, %s) ON CONFLICT (length) DO UPDATE SET renewed = excluded.renewed"
        )
        with self._writing() as connection:
            connection.execute("SELECT length FROM registry FOR UPDATE")
            row = connection.execute("SELECT renewed FROM checkpoints ORDER BY length DESC LIMIT 1").fetchone()
            if (row[0] if row else None) != before:
                raise Overtaken
            connection.execute(query, (length, text, text))

    # Connections

    def _rows(self, query: str, *values: object) -> list[Any]:
        with self._connected() as connection:
            return list(connection.execute(query, values).fetchall())

    def _row(self, query: str, *values: object) -> Any:
        with self._connected() as connection:
            return connection.execute(query, values).fetchone()

    @contextmanager
    def _writing(self) -> Iterator[Any]:
        """One transaction: all of it is kept, or nothing."""
        with self._connected() as connection, connection.transaction():
            yield connection

    @contextmanager
    def _connected(self) -> Iterator[Any]:
        """This thread's connection. One that is broken is made anew the next time."""
        connection = getattr(self._threads, "connection", None)
        try:
            if connection is None or not _is_open(connection):
                connection = None
                connection = self._threads.connection = self._connection()
            yield connection
        except psycopg.Error as error:
            raise _told(error, connection is None or connection.closed) from error

    def _connection(self) -> Any:
        made = psycopg.connect(self._address, autocommit=True, connect_timeout=10)
        with self._guard:
            self._open = [it for it in self._open if not it.closed] + [made]
        made.execute(f"SET lock_timeout = {int(self._lock_seconds * 1000)}")
        made.execute("SET synchronous_commit = on")
        return made
