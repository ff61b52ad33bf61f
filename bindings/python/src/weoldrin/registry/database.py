"""What a monitor saw, in SQLite: one transaction a step, so that a kill anywhere loses nothing and repeats nothing."""

import contextlib
import fcntl
import json
import os
import sqlite3
import urllib.parse
from collections.abc import Iterable, Iterator
from typing import NamedTuple

from ..errors import BadArgument
from .answers import Leaf
from .told import NoAnswer, Told, Unusable, Unwritten
from .trust import Trust

_APPLICATION = 0x574D4F4E
_SCHEMA = f"""
BEGIN IMMEDIATE;
PRAGMA application_id = {_APPLICATION};
CREATE TABLE kept (name TEXT PRIMARY KEY, text TEXT NOT NULL);
CREATE TABLE checkpoints (length INTEGER PRIMARY KEY, text TEXT NOT NULL);
CREATE TABLE leaves (place INTEGER PRIMARY KEY, log TEXT NOT NULL, record TEXT NOT NULL);
CREATE INDEX leaves_by_log ON leaves (log, place);
CREATE INDEX leaves_by_record ON leaves (record);
CREATE TABLE logs (id TEXT PRIMARY KEY, head TEXT NOT NULL, leaves INTEGER NOT NULL, count INTEGER NOT NULL,
                   state TEXT NOT NULL);
CREATE INDEX logs_behind ON logs (id) WHERE count < leaves;
CREATE TABLE told (number INTEGER PRIMARY KEY, subject TEXT NOT NULL UNIQUE, text TEXT NOT NULL,
                   is_printed INTEGER NOT NULL, is_sent INTEGER NOT NULL);
COMMIT;
"""
_BEHIND = "SELECT id, count, state FROM logs WHERE count < leaves AND id > ? ORDER BY id LIMIT ?"


class Behind(NamedTuple):
    """A log of which fewer records were replayed than the registry's log has leaves."""

    log_id: str
    records: int
    """How many were replayed."""
    state: str
    wanted: list[str]
    """The ids of the records that come next."""


class Database:
    """The file of a monitor, held by one process alone."""

    def __init__(self, path: str) -> None:
        self.path = path
        self._lock = _lock(path)
        try:
            self._file = sqlite3.connect(path, isolation_level=None, timeout=30)
            self._file.execute("PRAGMA synchronous = FULL")
            if self._one("PRAGMA application_id") == 0 and self._one("SELECT count(*) FROM sqlite_master") == 0:
                self._file.executescript(_SCHEMA)
            if self._one("PRAGMA application_id") != _APPLICATION:
                raise Unusable(f"{path}: it is no file of a monitor")
        except sqlite3.Error as error:
            os.close(self._lock)
            raise _failed(path, error) from None

    def close(self) -> None:
        """Closes the file."""
        self._file.close()
        os.close(self._lock)

    @contextlib.contextmanager
    def step(self) -> Iterator[None]:
        """A transaction: all that is done within it, or nothing."""
        try:
            self._file.execute("BEGIN IMMEDIATE")
            try:
                yield
                self._file.execute("COMMIT")
            except BaseException:
                if self._file.in_transaction:
                    self._file.execute("ROLLBACK")
                raise
        except sqlite3.Error as error:
            raise _failed(self.path, error) from None

    def _one(self, question: str, *words: object) -> object:
        row = self._file.execute(question, words).fetchone()
        return None if row is None else row[0]

    def _number(self, question: str, *words: object) -> int:
        found = self._one(question, *words)
        return found if isinstance(found, int) else 0

    def kept(self, name: str) -> str | None:
        """A text that is kept by a name."""
        found = self._one("SELECT text FROM kept WHERE name = ?", name)
        return None if found is None else str(found)

    def keep(self, name: str, text: str) -> None:
        """Keeps a text by a name."""
        self._file.execute("INSERT OR REPLACE INTO kept VALUES (?, ?)", (name, text))

    # What is trusted, and the checkpoints

    def trust(self) -> Trust:
        """What was seen of the registry last."""
        text = self.kept("trust")
        try:
            return Trust() if text is None else Trust.from_json(text)
        except (ValueError, RecursionError, BadArgument):
            raise Unusable(f"{self.path}: what is trusted in it is spoiled") from None

    def save(self, trust: Trust) -> None:
        """Keeps what was seen, and its checkpoint, of which the first of a length stays."""
        self.keep("trust", trust.to_json())
        it = trust.checkpoint
        if it is not None:
            row = it.contents.log_length, it.to_json()
            self._file.execute("INSERT OR IGNORE INTO checkpoints VALUES (?, ?)", row)

    def checkpoints(self) -> list[str]:
        """The texts of the checkpoints that were seen."""
        return [str(text) for (text,) in self._file.execute("SELECT text FROM checkpoints ORDER BY length")]

    # Leaves and logs

    def read(self) -> int:
        """How many leaves were read."""
        return self._number("SELECT count(*) FROM leaves")

    def counted(self) -> int:
        """How many of them count: those that were found to be the signed ones, of which each log has its own."""
        return self._number("SELECT coalesce(sum(leaves), 0) FROM logs")

    def leaves(self, start: int, most: int) -> list[Leaf]:
        """Leaves that were read, from a place on."""
        question = "SELECT log, record FROM leaves WHERE place >= ? ORDER BY place LIMIT ?"
        rows = self._file.execute(question, (start, most))
        return [Leaf(str(log), str(record)) for log, record in rows]

    def add_leaves(self, start: int, leaves: Iterable[Leaf]) -> None:
        """Adds leaves, which begin at a place. They count when they were found to be the signed ones."""
        rows = [(place, *it) for place, it in enumerate(leaves, start)]
        self._file.executemany("INSERT INTO leaves VALUES (?, ?, ?)", rows)

    def drop_leaves(self) -> int:
        """Drops the leaves that do not count, and gives the place of the first of them."""
        counted = self.counted()
        self._file.execute("DELETE FROM leaves WHERE place >= ?", (counted,))
        return counted

    def count_leaves(self) -> list[tuple[str, str, str]]:
        """Has all leaves count, and gives the records of the new ones that are leaves of several logs: each with the
        log that has it first, and with the other one."""
        start = self.counted()
        # Beside max(place), SQLite takes the other columns of its row.
        self._file.execute(
            "INSERT INTO logs (id, head, leaves, count, state) SELECT log, record, number, 0, '' FROM "
            "(SELECT log, record, count(*) AS number, max(place) FROM leaves WHERE place >= ? GROUP BY log) WHERE true "
            "ON CONFLICT (id) DO UPDATE SET head = excluded.head, leaves = leaves + excluded.leaves",
            (start,),
        )
        rows = self._file.execute(
            "SELECT a.record, b.log, a.log FROM leaves a JOIN leaves b ON a.record = b.record AND a.log <> b.log "
            "WHERE a.place >= ? AND b.place < a.place ORDER BY a.place",
            (start,),
        )
        return [(str(record), str(first), str(log)) for record, first, log in rows]

    def logs_of(self, record_id: str) -> list[str]:
        """The ids of the logs that have leaves of a record."""
        rows = self._file.execute("SELECT DISTINCT log FROM leaves WHERE record = ? ORDER BY place", (record_id,))
        return [str(log) for (log,) in rows]

    def records_of(self, log_id: str) -> list[str]:
        """The ids of the records of a log, by its leaves."""
        rows = self._file.execute("SELECT record FROM leaves WHERE log = ? ORDER BY place", (log_id,))
        return [str(record) for (record,) in rows]

    def behind(self, after: str, count: int) -> list[Behind]:
        """Some logs that are behind, in the order of their ids."""
        found = []
        for log_id, have, state in self._file.execute(_BEHIND, (after, count)).fetchall():
            found.append(Behind(log_id, have, state, self.records_of(log_id)[have:]))
        return found

    def replayed(self, log_id: str, count: int, state: str) -> None:
        """Keeps how far a log was replayed."""
        self._file.execute("UPDATE logs SET count = ?, state = ? WHERE id = ?", (count, state, log_id))

    def newest_logs(self, count: int) -> list[str]:
        """The ids of some logs, those of the newest leaves first."""
        rows = self._file.execute("SELECT log FROM leaves GROUP BY log ORDER BY max(place) DESC LIMIT ?", (count,))
        return [str(log) for (log,) in rows]

    def counts(self) -> tuple[int, int]:
        """How many logs there are, and how many records were replayed."""
        return self._number("SELECT count(*) FROM logs"), self._number("SELECT coalesce(sum(count), 0) FROM logs")

    # What is told

    def tell(self, it: Told, at: int) -> bool:
        """Keeps that something is told, once; whether it is new."""
        subject = f"{it.name} {it.subject or it.sentence}"
        number = self._number("SELECT coalesce(max(number), 0) FROM told") + 1
        members = {
            "number": number,
            "told": it.word,
            "name": it.name,
            "sentence": it.sentence,
            "time": at,
            "evidence": [json.loads(checkpoint.to_json()) for checkpoint in it.evidence],
        }
        row = number, subject, json.dumps(members)
        return self._file.execute("INSERT OR IGNORE INTO told VALUES (?, ?, ?, 0, 0)", row).rowcount == 1

    def untold(self, way: str) -> list[tuple[int, str]]:
        """What was not yet `printed` or not yet `sent`: numbers and texts."""
        rows = self._file.execute(f"SELECT number, text FROM told WHERE NOT is_{way} ORDER BY number")
        return [(int(number), str(text)) for number, text in rows]

    def is_told(self, way: str, number: int) -> None:
        """Keeps that it was printed or sent."""
        self._file.execute(f"UPDATE told SET is_{way} = 1 WHERE number = ?", (number,))


def _lock(path: str) -> int:
    """The file beside a monitor's that is locked by one process at a time."""
    try:
        file = os.open(f"{path}.lock", os.O_RDWR | os.O_CREAT | os.O_NOFOLLOW | os.O_CLOEXEC, 0o666)
    except OSError as error:
        raise Unusable(f"{path}: {error.strerror}") from None
    try:
        fcntl.flock(file, fcntl.LOCK_EX | fcntl.LOCK_NB)
    except OSError:
        os.close(file)
        raise NoAnswer(f"{path}: busy: another monitor has it") from None
    return file


def _failed(path: str, error: sqlite3.Error) -> Exception:
    """What an error of SQLite is: that the file is none, or that it can't be read or written."""
    if isinstance(error, sqlite3.DatabaseError) and not isinstance(error, sqlite3.OperationalError):
        return Unusable(f"{path}: it is no file of a monitor: {error}")
    return Unwritten(f"{path}: {error}")


def sight_in(path: str) -> tuple[list[str], str | None, str | None]:
    """What a monitor's file says to those who compare: the texts of the checkpoints that it saw, the text of what it
    trusts, and the registry's URL. It may be in use."""
    try:
        with contextlib.closing(sqlite3.connect(f"file:{_quoted(path)}?mode=ro", uri=True, timeout=30)) as file:
            texts = [str(text) for (text,) in file.execute("SELECT text FROM checkpoints ORDER BY length")]
            kept = dict(file.execute("SELECT name, text FROM kept WHERE name IN ('trust', 'url')"))
    except sqlite3.Error as error:
        raise _failed(path, error) from None
    return texts, kept.get("trust"), kept.get("url")


def leaves_in(path: str, most: int) -> Iterator[Leaf]:
    """The first leaves that a monitor's file has, which may be in use."""
    try:
        with contextlib.closing(sqlite3.connect(f"file:{_quoted(path)}?mode=ro", uri=True, timeout=30)) as file:
            for log, record in file.execute("SELECT log, record FROM leaves ORDER BY place LIMIT ?", (most,)):
                yield Leaf(str(log), str(record))
    except sqlite3.Error as error:
        raise _failed(path, error) from None


def _quoted(path: str) -> str:
    return urllib.parse.quote(os.path.abspath(path))
