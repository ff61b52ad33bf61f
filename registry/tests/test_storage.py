"""Logs in memory and in a file: states that are saved and gone on from, and other writers."""

import pathlib
import sqlite3
import tempfile
import threading
import time
import unittest
from typing import Any
from unittest import mock

from weoldrin import Error, LogKind, PackageLog, record_id, records, verify
from weoldrin_registry.handles import Damaged, Handles
from weoldrin_registry.problems import Problem
from weoldrin_registry.publishing import LogName, Publisher, log_name
from weoldrin_registry.settings import Settings
from weoldrin_registry.storage import DiskFull, Locked, NewRecord, Overtaken, State, Storage, StorageError
from weoldrin_registry.storage.sqlite import SqliteStorage

from .served import START, Key, next_record, package_record, release

ALICE = Key.generate()
LATER = START / 10**9 + 10**6


class InFile(unittest.TestCase):
    """A file of SQLite."""

    def setUp(self) -> None:
        self._folder = tempfile.TemporaryDirectory()
        self.addCleanup(self._folder.cleanup)
        self.path = pathlib.Path(self._folder.name) / "logs.sqlite"
        self.storage = self._opened()

    def _opened(self) -> Storage:
        storage = SqliteStorage(self.path, 0.3)
        self.addCleanup(storage.close)
        return storage

    def _publisher(self, storage: Storage | None = None, **settings: Any) -> Publisher:
        its_settings = Settings(**settings)
        its_storage = storage or self.storage
        self.handles = Handles(its_storage, its_settings.handle_bytes, its_settings.state_records)
        return Publisher(its_storage, self.handles, its_settings, "")

    def _published(self, publisher: Publisher, log: LogName, written: PackageLog, count: int) -> None:
        """Publishes so many records, on a log that is written here."""
        for _ in range(count):
            entry = release(f"{len(written)}.0.0") if len(written) else records.init(ALICE.public_key)
            envelope = next_record(written, ALICE, entry)
            written.append(envelope)
            new = publisher.publish(log, envelope, LATER)
            self.assertEqual((new.record_id, new.place), (written.head(), len(written) - 1))
            self.handles.save(log.kind, log.log_id)

    def _stands(self, log: LogName, written: PackageLog) -> None:
        """The stored log is this one."""
        found = self.storage.records(log.log_id, 0, 10**6, 10**9)
        self.assertEqual([record_id("package", it) for it in found], [it.id for it in written.records()])
        row = self.storage.log(log.log_id)
        assert row
        self.assertEqual((row.head, row.length), (written.head(), len(written)))


class States(InFile):
    """Saved states."""

    def test_they_are_saved_and_gone_on_from(self) -> None:
        log, written, publisher = log_name(LogKind.PACKAGE, "a:b"), PackageLog(), self._publisher()
        saved = []
        for _ in range(200):
            self._published(publisher, log, written, 1)
            state = self.storage.state(log.log_id)
            saved.append(state.length if state else 0)
        self.assertEqual(sorted(set(saved)), [0, 64, 128, 192])
        # Another process goes on from it, and reads what is behind it alone.
        other = self._publisher()
        with mock.patch.object(self.storage, "records", wraps=self.storage.records) as read:
            self._published(other, log, written, 1)
        self.assertEqual([it.args[1] for it in read.call_args_list], [192])
        self._stands(log, written)

    def test_a_greater_log_is_saved_more_seldom(self) -> None:
        log, written, publisher = log_name(LogKind.PACKAGE, "a:b"), PackageLog(), self._publisher(state_records=2)
        with mock.patch.object(self.storage, "save_state", wraps=self.storage.save_state) as saved:
            self._published(publisher, log, written, 130)
        lengths = [it.args[1].length for it in saved.call_args_list]
        self.assertEqual(lengths[:5], [2, 4, 6, 8, 10])
        self.assertLess(len(lengths), 45)
        self.assertGreaterEqual(lengths[-1] - lengths[-2], 7)

    def test_an_older_state_does_not_follow_a_later_one(self) -> None:
        log, written = log_name(LogKind.PACKAGE, "a:b"), PackageLog()
        self._published(self._publisher(), log, written, 2)
        self.storage.save_state(log.log_id, State(2, "later"))
        self.storage.save_state(log.log_id, State(1, "older"))
        self.assertEqual(self.storage.state(log.log_id), State(2, "later"))

    def test_a_state_that_comes_in_between(self) -> None:
        log, written = log_name(LogKind.PACKAGE, "a:b"), PackageLog()
        others = self._publisher(self._opened(), state_records=1)
        its_handles = self.handles
        self._published(others, log, written, 3)
        publisher, storage = self._publisher(), self.storage
        row_of = storage.log

        def overtaken(log_id: str) -> Any:
            row = row_of(log_id)
            setattr(storage, "log", row_of)
            envelope = next_record(written, ALICE, release("8.0.0"))
            written.append(envelope)
            others.publish(log, envelope, LATER)
            its_handles.save(log.kind, log_id)
            return row

        setattr(storage, "log", overtaken)
        envelope = package_record(written.head(), ALICE, release("9.0.0"))
        with self.assertRaises(Problem) as raised:
            publisher.publish(log, envelope, LATER)
        self.assertEqual((raised.exception.name, raised.exception.members["head"]), ("NotNext", written.head()))
        self._published(publisher, log, written, 1)
        self._stands(log, written)

    def test_memory_is_bounded(self) -> None:
        publisher = self._publisher(handle_bytes=5 * 64 * 1024 + 60_000)
        logs = [log_name(LogKind.PACKAGE, f"a:log-x{it}") for it in range(12)]
        written = [PackageLog() for _ in logs]
        for _ in range(3):
            for log, its_written in zip(logs, written, strict=True):
                self._published(publisher, log, its_written, 1)
                count, size = self.handles.size()
                self.assertLessEqual(count, 5)
                self.assertLessEqual(size, 5 * 64 * 1024 + 60_000)
                kept = self.handles._kept.values()
                self.assertEqual(size, sum(it.bytes for it in kept))
                self.assertGreater(size, count * 64 * 1024)
        for log, its_written in zip(logs, written, strict=True):
            self._stands(log, its_written)

    def test_what_is_damaged(self) -> None:
        log, written = log_name(LogKind.PACKAGE, "a:b"), PackageLog()
        self._published(self._publisher(), log, written, 5)
        for change in (
            "UPDATE logs SET head = 'sha256:00'",
            "UPDATE logs SET count = 6",
            "DELETE FROM records WHERE place = 4",
            "UPDATE records SET envelope = (SELECT envelope FROM records WHERE place = 0) WHERE place = 2",
            "INSERT INTO states SELECT id, 5, '{}' FROM logs",
            "INSERT INTO states SELECT id, 5, 'x' FROM logs",
        ):
            with sqlite3.connect(self.path) as file:
                file.execute(change)
                file.commit()
                envelope = next_record(written, ALICE, release("9.0.0"))
                self.assertRaises(Damaged, self._publisher().publish, log, envelope, LATER)
                file.executescript("DELETE FROM states;")
                self._restored(written)
        self._published(self._publisher(), log, written, 1)
        self._stands(log, written)

    def _restored(self, written: PackageLog) -> None:
        """Writes the rows of the one log anew."""
        with sqlite3.connect(self.path) as file:
            file.execute("DELETE FROM records")
            file.execute("UPDATE logs SET head = ?, count = ?", (written.head(), len(written)))
            rows = [(it, it, one.envelope) for it, one in enumerate(written.records())]
            query = "INSERT INTO records (log, place, leaf, envelope) SELECT id, ?, ?, ? FROM logs"
            file.executemany(query, rows)


class Writers(InFile):
    """Several writers."""

    def test_two_of_one_file(self) -> None:
        log, written = log_name(LogKind.PACKAGE, "a:b"), PackageLog()
        publishers = [self._publisher(), self._publisher(self._opened())]
        for number in range(10):
            self._published(publishers[number % 2], log, written, 1)
        self._stands(log, written)
        third = written.record(3)
        assert third
        stale = package_record(third.id, ALICE, release("77.0.0"))
        for it in publishers:
            with self.assertRaises(Problem) as raised:
                it.publish(log, stale, LATER)
            self.assertEqual((raised.exception.name, raised.exception.members["head"]), ("NotNext", written.head()))

    def test_one_that_comes_in_between(self) -> None:
        log, written = log_name(LogKind.PACKAGE, "a:b"), PackageLog()
        first, second = self._publisher(), self._publisher(self._opened())
        self._published(first, log, written, 2)
        mine, other = (next_record(written, ALICE, release(f"{it}.0.0")) for it in (5, 6))
        asked: list[object] = []

        def overtaken(*question: Any) -> bool:
            if not asked:
                asked.append(question)
                written.append(other)
                second.publish(log, other, LATER)
            return verify(*question)

        with mock.patch("weoldrin_registry.publishing.verify", overtaken):
            with self.assertRaises(Problem) as raised:
                first.publish(log, mine, LATER)
        self.assertEqual((raised.exception.name, raised.exception.members["head"]), ("NotNext", written.head()))
        self._published(first, log, written, 1)
        self._stands(log, written)

    def test_many_threads_on_one_log(self) -> None:
        log, written = log_name(LogKind.PACKAGE, "a:b"), PackageLog()
        publishers = [self._publisher(), self._publisher(self._opened())]
        self._published(publishers[0], log, written, 1)
        taken: list[str] = []

        def publish(number: int) -> None:
            for it in range(6):
                head = written.head()
                while True:
                    envelope = package_record(head, ALICE, release(f"{number}.{it}.0"))
                    try:
                        taken.append(publishers[number % 2].publish(log, envelope, LATER).record_id)
                        break
                    except Problem as error:
                        if error.name == "Busy":
                            continue
                        assert error.name == "NotNext", error
                        head = str(error.members["head"])
                    except Locked:
                        continue

        threads = [threading.Thread(target=publish, args=(it,)) for it in range(6)]
        for it in threads:
            it.start()
        for it in threads:
            it.join()
        found = [record_id("package", it) for it in self.storage.records(log.log_id, 1, 10**6, 10**9)]
        self.assertEqual(len(found), 36)
        self.assertEqual(sorted(found), sorted(taken))
        with PackageLog() as audited:
            for envelope in self.storage.records(log.log_id, 0, 10**6, 10**9):
                audited.append(envelope)

    def test_a_write_that_fails(self) -> None:
        log, written, publisher = log_name(LogKind.PACKAGE, "a:b"), PackageLog(), self._publisher()
        self._published(publisher, log, written, 2)
        envelope = next_record(written, ALICE, release("7.0.0"))
        append = self.storage.append

        def failing(new: NewRecord, judge: Any) -> int:
            judge()
            raise DiskFull("full")

        with mock.patch.object(self.storage, "append", failing):
            self.assertRaises(DiskFull, publisher.publish, log, envelope, LATER)
        self.assertEqual(self.storage.append, append)
        # The log in memory does not have what the stored one has not.
        self._stands(log, written)
        written.append(envelope)
        publisher.publish(log, envelope, LATER)
        self._stands(log, written)

    def test_one_that_waits_for_a_write_that_fails(self) -> None:
        log, written, publisher = log_name(LogKind.PACKAGE, "a:b"), PackageLog(), self._publisher()
        self._published(publisher, log, written, 2)
        envelope, taken = next_record(written, ALICE, release("7.0.0")), list[object]()
        append = self.storage.append
        waiting = threading.Thread(target=lambda: taken.append(publisher.publish(log, envelope, LATER)))

        def failing(new: NewRecord, judge: Any) -> int:
            judge()
            setattr(self.storage, "append", append)
            waiting.start()
            time.sleep(0.3)
            raise DiskFull("full")

        setattr(self.storage, "append", failing)
        self.assertRaises(DiskFull, publisher.publish, log, envelope, LATER)
        waiting.join()
        self.assertEqual(len(taken), 1)
        written.append(envelope)
        self._stands(log, written)

    def test_it_waits_for_the_disk(self) -> None:
        with SqliteStorage(self.path, 0.3)._reading() as file:
            self.assertEqual(file.execute("PRAGMA synchronous").fetchone(), (2,))
            self.assertEqual(file.execute("PRAGMA journal_mode").fetchone(), ("wal",))

    def test_append_is_exact(self) -> None:
        def judged() -> None:
            raise Error("no: it is not taken")

        new = NewRecord("sha256:1", "package", "a:b", None, 0, "sha256:2", 1, "k", b"e")
        self.assertRaises(Error, self.storage.append, new, judged)
        self.assertIsNone(self.storage.log("sha256:1"))
        self.assertEqual(self.storage.length(), 0)
        self.assertEqual(self.storage.append(new, lambda: None), 0)
        second = new._replace(head="sha256:2", place=1, record_id="sha256:3")
        for wrong in (
            new, second._replace(head="sha256:3"), second._replace(head=None), second._replace(place=0),
            second._replace(place=2), second._replace(log_id="sha256:9"),
        ):
            self.assertRaises(Overtaken, self.storage.append, wrong, lambda: self.fail("it is judged"))
        # What fails after a part was written leaves nothing.
        row = self.storage.log("sha256:1")
        self.assertRaises(StorageError, self.storage.append, second._replace(record_id="sha256:2"), lambda: None)
        self.assertEqual((self.storage.log("sha256:1"), self.storage.length()), (row, 1))
        self.assertEqual(self.storage.append(second, lambda: None), 1)
        self.assertEqual(self.storage.leaves(0, 9), [("sha256:1", "sha256:2"), ("sha256:1", "sha256:3")])

    def test_checkpoints_are_added_in_order(self) -> None:
        self.storage.add_checkpoint("one", 1, None)
        self.assertRaises(Overtaken, self.storage.add_checkpoint, "two", 2, None)
        self.storage.add_checkpoint("one anew", 1, "one")
        self.assertEqual((self.storage.checkpoint(1), self.storage.newest()), ("one", "one anew"))
        self.storage.add_checkpoint("two", 2, "one anew")
        self.assertEqual((self.storage.checkpoint(2), self.storage.newest()), ("two", "two"))
        self.assertEqual([self.storage.renewed(it) for it in range(4)], [None, "one anew", "two", None])

    def test_a_lock_that_is_held(self) -> None:
        new = NewRecord("sha256:1", "package", "a:b", None, 0, "sha256:2", 1, "k", b"e")
        with sqlite3.connect(self.path, isolation_level=None) as file:
            file.execute("BEGIN IMMEDIATE")
            self.assertRaises(Locked, self.storage.append, new, lambda: self.fail("it is judged"))
            file.execute("ROLLBACK")
        self.assertEqual(self.storage.append(new, lambda: None), 0)
        held, passed = threading.Event(), threading.Event()

        def hold() -> None:
            held.set()
            passed.wait()

        second = new._replace(head="sha256:2", place=1, record_id="sha256:3")
        thread = threading.Thread(target=self.storage.append, args=(second, hold))
        thread.start()
        held.wait()
        self.assertRaises(Locked, self.storage.append, new, lambda: None)
        self.assertEqual(self.storage.length(), 1)
        passed.set()
        thread.join()
        self.assertEqual(self.storage.length(), 2)

    def test_what_is_no_file_of_this(self) -> None:
        self.assertRaises(StorageError, SqliteStorage, self.path.parent, 0.1)
        other = self.path.with_name("other")
        other.write_bytes(b"x" * 5000)
        self.assertRaises(StorageError, SqliteStorage, other, 0.1)
        with sqlite3.connect(self.path) as file:
            file.execute("PRAGMA user_version = 2")
        self.assertRaisesRegex(StorageError, "a later version", SqliteStorage, self.path, 0.1)


if __name__ == "__main__":
    unittest.main()
