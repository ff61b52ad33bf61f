"""Logs in a file of SQLite."""

from __future__ import annotations

import pathlib
import sqlite3
import threading
import time
from collections.abc import Callable, Iterator
from contextlib import contextmanager

from . import PACKAGE, DiskFull, Locked, LogRow, NewRecord, Overtaken, Place, State, StorageError

# The version of these tables.
_VERSION = 1
_TABLES = f"""
CREATE TABLE IF NOT EXISTS logs (
    id INTEGER PRIMARY KEY, log_id TEXT NOT NULL UNIQUE, kind TEXT NOT NULL, name TEXT NOT NULL, head TEXT NOT NULL,
    head_time INTEGER NOT NULL, count INTEGER NOT NULL, founder TEXT NOT NULL, UNIQUE (kind, name)
);
CREATE INDEX IF NOT EXISTS founders ON logs (founder);
CREATE TABLE IF NOT EXISTS leaves (
    leaf INTEGER PRIMARY KEY, log INTEGER NOT NULL REFERENCES logs, record_id TEXT NOT NULL, UNIQUE (log, record_id)
);
CREATE TABLE IF NOT EXISTS records (
    id INTEGER PRIMARY KEY, log INTEGER NOT NULL REFERENCES logs, place INTEGER NOT NULL,
    leaf INTEGER NOT NULL UNIQUE REFERENCES leaves, envelope BLOB NOT NULL, UNIQUE (log, place)
);
CREATE TABLE IF NOT EXISTS states (
    log INTEGER PRIMARY KEY REFERENCES logs, count INTEGER NOT NULL, text TEXT NOT NULL
);
CREATE TABLE IF NOT EXISTS checkpoints (length INTEGER PRIMARY KEY, text TEXT NOT NULL, renewed TEXT NOT NULL);
PRAGMA user_version = {_VERSION};
"""
_LOG = "SELECT log_id, kind, name, head, head_time, count FROM logs"


def _told(error: sqlite3.Error) -> StorageError:
    """What an error of SQLite is for others."""
    text = str(error)
    if "full" in text or "disk I/O error" in text or "readonly" in text:
        return DiskFull(text)
    return Locked(text) if "locked" in text or "busy" in text else StorageError(text)


class SqliteStorage:
    """A `Storage` in a file."""

    def __init__(self, path: pathlib.Path, lock_seconds: float) -> None:
        self._path, self._lock_seconds = path, lock_seconds
        self._threads, self._files, self._guard = threading.local(), list[sqlite3.Connection](), threading.Lock()
        # Writers of this process wait here, where nobody has to look again and again whether the lock is free.
        self._writer = threading.Lock()
        with self._reading() as file:
            (version,) = file.execute("PRAGMA user_version").fetchone()
            if version > _VERSION:
                raise StorageError(f"{path} was written by a later version of this program")
            file.executescript(_TABLES)

    def close(self) -> None:
        with self._guard:
            for it in self._files:
                it.close()
            self._files.clear()

    # What stands

    def log(self, log_id: str) -> LogRow | None:
        with self._reading() as file:
            row = file.execute(f"{_LOG} WHERE log_id = ?", (log_id,)).fetchone()
        return LogRow(*row) if row else None

    def logs(self, log_ids: list[str]) -> dict[str, LogRow]:
        with self._reading() as file, _snapshot(file):
            rows = [file.execute(f"{_LOG} WHERE log_id = ?", (it,)).fetchone() for it in log_ids]
        return {row[0]: LogRow(*row) for row in rows if row}

    def names(self, prefix: str, after: str, most: int) -> list[LogRow]:
        words = "WHERE kind = ? AND name > ? AND name >= ? AND name < ? ORDER BY name LIMIT ?"
        # Names are of ASCII: those that begin so stand before this one.
        values = (PACKAGE, after, prefix, prefix + "\U0010ffff", most)
        with self._reading() as file:
            return [LogRow(*row) for row in file.execute(f"{_LOG} {words}", values)]

    def founded(self, key_id: str) -> int:
        with self._reading() as file:
            (count,) = file.execute("SELECT count(*) FROM logs WHERE founder = ?", (key_id,)).fetchone()
        return int(count)

    def records(self, log_id: str, start: int, most: int, most_bytes: int) -> list[bytes]:
        query = (
            "SELECT envelope FROM records JOIN logs ON logs.id = log WHERE log_id = ? AND place >= ? "
            "ORDER BY place LIMIT ?"
        )
        found: list[bytes] = []
        size = 0
        with self._reading() as file:
            for (envelope,) in file.execute(query, (log_id, start, most)):
                size += len(envelope)
                if found and size > most_bytes:
                    break
                found.append(envelope)
        return found

    def place(self, log_id: str, record_id: str) -> Place | None:
        query = (
            "SELECT records.place, records.leaf FROM logs JOIN leaves ON leaves.log = logs.id "
            "JOIN records ON records.leaf = leaves.leaf WHERE log_id = ? AND record_id = ?"
        )
        with self._reading() as file:
            row = file.execute(query, (log_id, record_id)).fetchone()
        return Place(*row) if row else None

    def state(self, log_id: str) -> State | None:
        query = "SELECT states.count, text FROM states JOIN logs ON logs.id = log WHERE log_id = ?"
        with self._reading() as file:
            row = file.execute(query, (log_id,)).fetchone()
        return State(*row) if row else None

    def length(self) -> int:
        with self._reading() as file:
            return _length(file)

    def leaves(self, start: int, most: int) -> list[tuple[str, str]]:
        query = "SELECT log_id, record_id FROM leaves JOIN logs ON logs.id = log WHERE leaf >= ? ORDER BY leaf LIMIT ?"
        with self._reading() as file:
            return file.execute(query, (start, most)).fetchall()

    def checkpoint(self, length: int) -> str | None:
        with self._reading() as file:
            row = file.execute("SELECT text FROM checkpoints WHERE length = ?", (length,)).fetchone()
        return str(row[0]) if row else None

    def renewed(self, length: int) -> str | None:
        with self._reading() as file:
            row = file.execute("SELECT renewed FROM checkpoints WHERE length = ?", (length,)).fetchone()
        return str(row[0]) if row else None

    def newest(self) -> str | None:
        with self._reading() as file:
            return _newest(file)

    # What is written

    def append(self, new: NewRecord, judge: Callable[[], None]) -> int:
        with self._writing() as file:
            row = file.execute("SELECT id, head, count FROM logs WHERE log_id = ?", (new.log_id,)).fetchone()
            log, head, count = row or (None, None, 0)
            if (head, count) != (new.head, new.place):
                raise Overtaken
            judge()
            ends = (new.record_id, new.time, new.place + 1)
            if log is None:
                query = "INSERT INTO logs (head, head_time, count, log_id, kind, name, founder) VALUES (?,?,?,?,?,?,?)"
                log = file.execute(query, (*ends, new.log_id, new.kind, new.name, new.founder)).lastrowid
            else:
                file.execute("UPDATE logs SET head = ?, head_time = ?, count = ? WHERE id = ?", (*ends, log))
            leaf = _length(file)
            file.execute("INSERT INTO leaves VALUES (?, ?, ?)", (leaf, log, new.record_id))
            query = "INSERT INTO records (log, place, leaf, envelope) VALUES (?, ?, ?, ?)"
            file.execute(query, (log, new.place, leaf, new.envelope))
        return leaf

    def save_state(self, log_id: str, state: State) -> None:
        query = (
            "INSERT INTO states SELECT id, ?, ? FROM logs WHERE log_id = ? "
            "ON CONFLICT DO UPDATE SET count = excluded.count, text = excluded.text WHERE excluded.count > states.count"
        )
        with self._writing() as file:
            file.execute(query, (*state, log_id))

    def add_checkpoint(self, text: str, length: int, before: str | None) -> None:
        query = "INSERT INTO checkpoints VALUES (?, ?, ?) ON CONFLICT DO UPDATE SET renewed = excluded.renewed"
        with self._writing() as file:
            if _newest(file) != before:
                raise Overtaken
            file.execute(query, (length, text, text))

    # Connections

    @contextmanager
    def _reading(self) -> Iterator[sqlite3.Connection]:
        """This thread's connection."""
        try:
            yield self._file()
        except sqlite3.Error as error:
            raise _told(error) from error

    @contextmanager
    def _writing(self) -> Iterator[sqlite3.Connection]:
        """One transaction, before which no other writer comes: all of it is kept, or nothing."""
        if not self._writer.acquire(timeout=self._lock_seconds):
            raise Locked("another writer of this registry has the lock")
        try:
            with self._reading() as file:
                file.execute("BEGIN IMMEDIATE")
                try:
                    yield file
                    file.execute("COMMIT")
                except BaseException:
                    # Some errors have ended the transaction already.
                    if file.in_transaction:
                        file.execute("ROLLBACK")
                    raise
        finally:
            self._writer.release()

    def _file(self) -> sqlite3.Connection:
        found: sqlite3.Connection | None = getattr(self._threads, "file", None)
        if found is None:
            found = sqlite3.connect(
                self._path, timeout=self._lock_seconds, isolation_level=None, check_same_thread=False
            )
            with self._guard:
                self._files.append(found)
            self._journal(found)
            found.execute("PRAGMA synchronous = FULL")
            found.execute("PRAGMA foreign_keys = ON")
            self._threads.file = found
        return found

    def _journal(self, file: sqlite3.Connection) -> None:
        """Turns the journal to WAL. Where others do so at once, SQLite says that the file is locked without waiting."""
        end = time.monotonic() + self._lock_seconds
        while True:
            try:
                file.execute("PRAGMA journal_mode = WAL")
                return
            except sqlite3.OperationalError as error:
                if not isinstance(_told(error), Locked) or time.monotonic() >= end:
                    raise
                time.sleep(0.01)


@contextmanager
def _snapshot(file: sqlite3.Connection) -> Iterator[None]:
    """What is read within stands at one moment."""
    file.execute("BEGIN")
    try:
        yield
    finally:
        file.execute("ROLLBACK")


def _length(file: sqlite3.Connection) -> int:
    (last,) = file.execute("SELECT max(leaf) FROM leaves").fetchone()
    return 0 if last is None else int(last) + 1


def _newest(file: sqlite3.Connection) -> str | None:
    row = file.execute("SELECT renewed FROM checkpoints ORDER BY length DESC LIMIT 1").fetchone()
    return str(row[0]) if row else None
