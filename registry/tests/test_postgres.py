"""The tests of storage, and of kills, over PostgreSQL, where it is installed."""

import random
import signal
import threading
import time
import unittest

from weoldrin_registry.storage import Locked, NewRecord, Storage, Unreachable

from .database import Server, check_installed
from .test_kills import Killed
from .test_processes import Processes
from .test_storage import States, Writers

# The server of all tests of this file.
_SERVERS: list[Server] = []


def setUpModule() -> None:
    """Starts the server."""
    check_installed()
    _SERVERS.append(Server())
    unittest.addModuleCleanup(_SERVERS[0].stop)
    _SERVERS[0].begin()


class OnPostgres(unittest.TestCase):
    """Has the tests of storage be of a database."""

    def setUp(self) -> None:
        self.database = _SERVERS[0].database()
        super().setUp()

    def _opened(self) -> Storage:
        from weoldrin_registry.storage.postgres import PostgresStorage

        storage = PostgresStorage(self.database, 0.3)
        self.addCleanup(storage.close)
        return storage


class StatesOnPostgres(OnPostgres, States):
    """Saved states."""

    test_what_is_damaged = None  # type: ignore[assignment]


class WritersOnPostgres(OnPostgres, Writers):
    """Several writers."""

    test_it_waits_for_the_disk = test_what_is_no_file_of_this = None  # type: ignore[assignment]

    def test_a_lock_that_is_held(self) -> None:
        first = NewRecord("sha256:1", "package", "a:b", None, 0, "sha256:2", 1, "k", b"e")
        other = NewRecord("sha256:9", "package", "a:c", None, 0, "sha256:8", 1, "k", b"e")
        held, passed = threading.Event(), threading.Event()

        def hold() -> None:
            held.set()
            passed.wait()

        thread = threading.Thread(target=self.storage.append, args=(first, hold))
        thread.start()
        held.wait()
        # The same log waits, and another one does not.
        self.assertRaises(Locked, self.storage.append, first, lambda: self.fail("it is judged"))
        self.assertEqual(self.storage.append(other, lambda: None), 0)
        self.assertIsNone(self.storage.log("sha256:1"))
        passed.set()
        thread.join()
        self.assertEqual(self.storage.leaves(0, 9), [("sha256:9", "sha256:8"), ("sha256:1", "sha256:2")])

    def test_what_is_read(self) -> None:
        for number, name in enumerate(("acme:math", "acme:text", "acme:text-x", "b:c")):
            prev = None
            for place in range(number + 1):
                its_id = f"sha256:{number}{place}"
                new = NewRecord(f"sha256:l{number}", "package", name, prev, place, its_id, 5, "k", bytes(10 + place))
                self.storage.append(new, lambda: None)
                prev = its_id
        names = [it.name for it in self.storage.names("acme:text", "", 9)]
        self.assertEqual(names, ["acme:text", "acme:text-x"])
        self.assertEqual([it.name for it in self.storage.names("", "acme:text", 1)], ["acme:text-x"])
        self.assertEqual(self.storage.founded("k"), 4)
        sizes = [[len(it) for it in self.storage.records("sha256:l3", start, most, size)]
                 for start, most, size in ((0, 9, 99), (1, 2, 99), (0, 9, 21), (0, 9, 20), (1, 9, 1), (4, 9, 9))]
        self.assertEqual(sizes, [[10, 11, 12, 13], [11, 12], [10, 11], [10], [11], []])
        found = self.storage.logs(["sha256:l2", "sha256:none", "sha256:l0"])
        self.assertEqual(list(found), ["sha256:l2", "sha256:l0"])
        self.assertEqual(self.storage.place("sha256:l3", "sha256:32"), (2, 8))
        self.assertIsNone(self.storage.place("sha256:l2", "sha256:32"))

    def test_a_connection_that_breaks(self) -> None:
        import psycopg

        new = NewRecord("sha256:1", "package", "a:b", None, 0, "sha256:2", 1, "k", b"e")

        def broken() -> None:
            with psycopg.connect(self.database, autocommit=True) as other:
                those = "FROM pg_stat_activity WHERE pid <> pg_backend_pid() AND datname = current_database()"
                while other.execute(f"SELECT pg_terminate_backend(pid) {those}").fetchall():
                    time.sleep(0.01)

        self.assertRaises(Unreachable, self.storage.append, new, broken)
        self.assertIsNone(self.storage.log("sha256:1"))
        # One that was ended while nothing was asked is made anew before.
        broken()
        self.assertIsNone(self.storage.log("sha256:1"))
        self.assertEqual(self.storage.append(new, lambda: None), 0)


class ProcessesOnPostgres(OnPostgres, Processes):
    """Registries of one database."""

    test_a_full_disk = test_a_lock_that_is_held = None  # type: ignore[assignment]


class KilledOnPostgres(OnPostgres, Killed):
    """Two registries of one database, one of which is killed, and at times both."""

    SERVERS = 2

    def _check(self) -> None:
        super()._check()
        check_indexes(self.database)


class PostgresKilled(Killed):
    """PostgreSQL itself is killed under two registries, and started again."""

    KILLS, SERVERS, MAY_FAIL = max(3, Killed.KILLS // 6), 2, True

    def setUp(self) -> None:
        super().setUp()
        self.server = Server()
        self.addCleanup(self.server.stop)
        self.server.begin()
        self.database = self.server.database()

    def _kill(self, chosen: random.Random) -> None:
        self.server.end(chosen.choice((signal.SIGKILL, signal.SIGQUIT)))
        self.server.start()
        self.killed += 1

    def _check(self) -> None:
        super()._check()
        check_indexes(self.database)


def check_indexes(database: str) -> None:
    """Raises where the leaves' indexes have gaps, or are not as many as are counted."""
    import psycopg

    query = "SELECT min(leaf), max(leaf) + 1, count(*), (SELECT length FROM registry) FROM leaves"
    with psycopg.connect(database) as connection:
        first, end, count, length = connection.execute(query).fetchall()[0]
    assert (first, end, count) == (0, length, length), (first, end, count, length)


# They are tested where they stand.
del States, Writers, Processes, Killed

if __name__ == "__main__":
    unittest.main()
