"""The logs of a small registry, in a SQLite file: each log's records, and its state after them."""

import pathlib
import sqlite3
import threading
from collections.abc import Iterator
from contextlib import contextmanager
from typing import NamedTuple

from weoldrin import Log, LogKind, OperatorLog, PackageLog, Release, record_id, verify

_TABLES = """
CREATE TABLE IF NOT EXISTS logs (
    kind TEXT NOT NULL, name TEXT NOT NULL, length INTEGER NOT NULL, state TEXT NOT NULL,
    PRIMARY KEY (kind, name)
);
CREATE TABLE IF NOT EXISTS records (
    kind TEXT NOT NULL, name TEXT NOT NULL, place INTEGER NOT NULL, id TEXT NOT NULL, envelope BLOB NOT NULL,
    PRIMARY KEY (kind, name, place), FOREIGN KEY (kind, name) REFERENCES logs
);
"""

_LOGS: dict[LogKind, type[PackageLog] | type[OperatorLog]] = {
    LogKind.PACKAGE: PackageLog,
    LogKind.OPERATOR: OperatorLog,
}


class Published(NamedTuple):
    """A record that was taken."""

    place: int
    id: str


class Store:
    """The logs in a file, for many threads and processes at once."""

    def __init__(self, path: pathlib.Path) -> None:
        self._path, self._threads = path, threading.local()
        self._file().executescript(_TABLES)

    def publish(self, kind: LogKind, name: str, envelope: bytes) -> Published:
        """Appends the record of an envelope to a log, which it begins where there is none. Raises why it is refused.

        The signature is verified while nobody waits. If another record came meanwhile, the log refuses this one.
        """
        with self._resumed(kind, name) as (log, _):
            question = log.ask(envelope)
        belongs = verify(*question)
        with self._writing() as file, self._resumed(kind, name) as (log, length):
            log.append_answered(envelope, question, belongs)
            new = Published(length, record_id(kind, envelope))
            file.execute(
                "INSERT INTO logs VALUES (?, ?, ?, ?) "
                "ON CONFLICT DO UPDATE SET length = excluded.length, state = excluded.state",
                (kind.name, name, length + 1, log.to_json()),
            )
            file.execute("INSERT INTO records VALUES (?, ?, ?, ?, ?)", (kind.name, name, *new, envelope))
        return new

    def names(self, kind: LogKind) -> list[str]:
        """The names of all logs of a kind."""
        rows = self._file().execute("SELECT name FROM logs WHERE kind = ? ORDER BY name", (kind.name,))
        return [it for (it,) in rows]

    def records(self, kind: LogKind, name: str, start: int, limit: int) -> list[bytes]:
        """The envelopes of a log from a place on."""
        rows = self._file().execute(
            "SELECT envelope FROM records WHERE kind = ? AND name = ? AND place >= ? ORDER BY place LIMIT ?",
            (kind.name, name, start, limit),
        )
        return [it for (it,) in rows]

    def head(self, kind: LogKind, name: str) -> str | None:
        """The id of a log's last record."""
        with self._resumed(kind, name) as (log, _):
            return log.head()

    def latest(self, name: str, requirement: str) -> Release | None:
        """The greatest release of a package that is not yanked and meets a requirement."""
        with self._resumed(LogKind.PACKAGE, name) as (log, _):
            assert isinstance(log, PackageLog)
            return log.latest(requirement)

    @contextmanager
    def _resumed(self, kind: LogKind, name: str) -> Iterator[tuple[Log, int]]:
        """A log that goes on from its stored state, and how many records it has."""
        query = "SELECT state, length FROM logs WHERE kind = ? AND name = ?"
        state, length = self._file().execute(query, (kind.name, name)).fetchone() or ("{}", 0)
        with _LOGS[kind].from_json(state) as log:
            yield log, length

    @contextmanager
    def _writing(self) -> Iterator[sqlite3.Connection]:
        """One transaction, before which no other writer comes: all of it is kept, or nothing."""
        file = self._file()
        file.execute("BEGIN IMMEDIATE")
        try:
            yield file
        except BaseException:
            file.execute("ROLLBACK")
            raise
        file.execute("COMMIT")

    def _file(self) -> sqlite3.Connection:
        """This thread's connection."""
        if not hasattr(self._threads, "file"):
            file = sqlite3.connect(self._path, timeout=30, isolation_level=None)
            file.execute("PRAGMA journal_mode = WAL")
            file.execute("PRAGMA synchronous = FULL")
            file.execute("PRAGMA foreign_keys = ON")
            self._threads.file = file
        connection: sqlite3.Connection = self._threads.file
        return connection
