"""Kills of `fetch` and of the monitor, at each point between their writes and at random ones, and full disks: files are
never broken, and nothing is told twice or lost."""

import contextlib
import functools
import json
import os
import pathlib
import random
import resource
import shutil
import signal
import sqlite3
import subprocess
import sys
import time
import unittest
import warnings
from collections.abc import Callable
from typing import Any
from unittest import mock

from weoldrin import audit, records
from weoldrin.registry import command
from weoldrin.registry.database import Database
from weoldrin.registry.trust import Trust, read_trust

from . import lies
from .registries import ONE, TWO, honest
from .test_registry_monitor import MonitorTest

# The command, as the console script of the wheel runs it.
COMMAND = [sys.executable, "-c", "import sys; from weoldrin._program import main; sys.exit(main())"]
# What a step of the monitor keeps, but for times.
KEPT = {
    "checkpoints": "SELECT length FROM checkpoints ORDER BY length",
    "leaves": "SELECT * FROM leaves ORDER BY place",
    "logs": "SELECT id, head, leaves, count, state FROM logs ORDER BY id",
    "told": "SELECT number, subject, is_printed, is_sent FROM told ORDER BY number",
}


def in_child(work: Callable[[], int]) -> int:
    """The status of a child that does some work, or the number of the signal that killed it, below 0."""
    with warnings.catch_warnings():
        warnings.simplefilter("ignore", DeprecationWarning)
        child = os.fork()
    if child == 0:
        try:
            os._exit(work())
        except BaseException:
            os._exit(99)
    return os.waitstatus_to_exitcode(os.waitpid(child, 0)[1])


def running(group: int) -> list[str]:
    """The processes of a group that run."""
    found = []
    for path in pathlib.Path("/proc").glob("[0-9]*/stat"):
        with contextlib.suppress(OSError):
            state, _, its_group = path.read_text(encoding="utf-8", errors="replace").rpartition(")")[2].split()[:3]
            if int(its_group) == group and state not in "ZX":
                found.append(path.parent.name)
    return found


class Killer:
    """Kills this process at the call of a number."""

    def __init__(self, number: int) -> None:
        self._left = number

    def __call__(self) -> None:
        self._left -= 1
        if self._left == 0:
            os.kill(os.getpid(), signal.SIGKILL)

    def before(self, call: Callable[..., Any]) -> Callable[..., Any]:
        """The call, before which this is counted."""

        def counted(*words: Any, **more: Any) -> object:
            self()
            return call(*words, **more)

        return counted


class Fetches(MonitorTest):
    """`fetch`, which goes on from files that are there."""

    def setUp(self) -> None:
        super().setUp()
        self.assertEqual(self.fetch("--out", self.out)[0], 0)
        self.registry.release(ONE, "2.0.0")
        self.registry.sign()
        self.before = self.files()

    def _again(self) -> None:
        for path in self.folder.iterdir():
            path.unlink()
        for name, data in self.before.items():
            (self.folder / name).write_bytes(data)

    def _check(self) -> None:
        """What is trusted can be read, the log is lawful, and all is fetched the next time."""
        self.assertIn(read_trust(self.trust).logs[ONE].count, (4, 5))
        self.assertIn(audit(self.out, "package").records, (4, 5))
        self.assertEqual(self.fetch("--out", self.out)[0], 0)
        self.assertEqual((read_trust(self.trust).logs[ONE].count, audit(self.out, "package").records), (5, 5))

    def test_each_point(self) -> None:
        """Killed before each call that writes."""
        names = ["write", "fsync", "replace", "ftruncate", "unlink", "open", "close", "fchmod"]

        def killed(number: int) -> int:
            killer = Killer(number)
            for it in names:
                # This process ends with it.
                setattr(os, it, killer.before(getattr(os, it)))
            return self.fetch("--out", self.out)[0]

        number = 1
        while in_child(lambda: killed(number)) == -signal.SIGKILL:
            self._check()
            self._again()
            number += 1
        self.assertGreater(number, 15)

    def test_full(self) -> None:
        """A disk that is full leaves all as it was."""
        for size in (0, 100, 1_000, 2_500):
            with self.subTest(size):
                self._again()

                def full(size: int = size) -> int:
                    resource.setrlimit(resource.RLIMIT_FSIZE, (size, size))
                    return self.fetch("--out", self.out)[0]

                self.assertEqual(in_child(full), 3)
                files = self.files()
                self.assertEqual(files["trust.json"], self.before["trust.json"])
                self.assertIn(len(files["one.hex"].splitlines()), (4, 5))
                self.assertFalse([it for it in files if it.endswith(".new")])
                self._check()

    def test_random(self) -> None:
        """Killed from outside, at random times."""
        chance = random.Random(7)
        words = [*COMMAND, "fetch", self.served.url, "a:one", "--trust", self.trust, "--out", self.out]
        start = time.monotonic()
        self.assertEqual(subprocess.run(words, stdout=subprocess.DEVNULL, check=False).returncode, 0)
        whole = time.monotonic() - start
        for _ in range(5):
            self._again()
            process = subprocess.Popen(words, stdout=subprocess.DEVNULL)
            time.sleep(chance.uniform(whole / 2, whole))
            process.kill()
            process.wait()
            self._check()


class Monitors(MonitorTest):
    """The monitor, which finds two lies in a step."""

    def setUp(self) -> None:
        super().setUp()
        self.begin()
        lies.unlawful(self.registry)
        lies.held_back_of(self.registry, TWO)
        self.base = self.folder / "base.sqlite"
        shutil.copy(self.database, self.base)
        self.hook = "--webhook", f"{self.served.url}/hook"
        self.wanted_lines = self.monitor(*self.hook)[1]
        self.wanted = self._kept()
        self.assertEqual([it["name"] for it in self.wanted_lines[:-1]], ["unlawful record", "missing record"])

    def _kept(self) -> dict[str, list[tuple[Any, ...]]]:
        with contextlib.closing(sqlite3.connect(self.database)) as file:
            self.assertEqual(file.execute("PRAGMA integrity_check").fetchall(), [("ok",)])
            return {name: file.execute(question).fetchall() for name, question in KEPT.items()}

    def _again(self) -> None:
        for it in self.folder.glob("seen.sqlite*"):
            it.unlink()
        shutil.copy(self.base, self.database)
        self.served.hooked.clear()

    def _check(self, printed: list[str]) -> None:
        """The next step has all that a step has that nobody killed. What was printed before the kill, and sent, is not
        again, but for what the kill came behind at once."""
        hooked = [it["number"] for it in self.served.hooked]
        status, lines, said = self.monitor(*self.hook)
        self.assertEqual(status, 1, said)
        self.assertEqual(self._kept(), self.wanted)
        numbers = [it["number"] for it in map(json.loads, printed) if "number" in it]
        after = [it["number"] for it in lines[:-1]]
        self.assertEqual((sorted({*numbers, *after})), [1, 2])
        self.assertLessEqual(len(numbers + after), 3)
        all_hooked = [it["number"] for it in self.served.hooked]
        self.assertEqual(sorted(set(all_hooked)), [1, 2])
        self.assertLessEqual(len(all_hooked), 3, hooked)

    def test_each_point(self) -> None:
        """Killed before each third call of SQLite."""
        printed = self.folder / "printed"

        def killed(number: int) -> int:
            killer = Killer(number)

            class Counted(sqlite3.Connection):
                """A file whose calls are counted."""

                execute = killer.before(sqlite3.Connection.execute)
                executemany = killer.before(sqlite3.Connection.executemany)

            connect: Any = sqlite3.connect
            counted = functools.partial(connect, factory=Counted)
            with mock.patch.object(sqlite3, "connect", counted):
                words = ["--database", self.database, "--once", "--json", "--workers", "1", *self.hook]
                with open(printed, "w", encoding="utf-8", buffering=1) as out, contextlib.redirect_stdout(out):
                    return command.main(["monitor", self.served.url, *words])

        number = 1
        while True:
            self._again()
            if in_child(lambda: killed(number)) != -signal.SIGKILL:
                break
            self._check(printed.read_text(encoding="utf-8").splitlines())
            number += 3
        self.assertGreater(number, 40)

    def test_random(self) -> None:
        """Killed from outside, at random times."""
        chance = random.Random(7)
        words = [*COMMAND, "monitor", self.served.url, "--database", self.database, "--once", "--json", *self.hook]
        start = time.monotonic()
        subprocess.run(words, stdout=subprocess.DEVNULL, check=False)
        whole = time.monotonic() - start
        for _ in range(5):
            self._again()
            process = subprocess.Popen(words, stdout=subprocess.PIPE, text=True)
            time.sleep(chance.uniform(whole / 2, whole))
            process.kill()
            printed = process.communicate()[0]
            self._check(printed.splitlines())

    def test_processes(self) -> None:
        """Those that replay end with the one that was killed."""
        chance = random.Random(7)
        self.served.registry = honest()
        for place in range(130):
            self.registry.begin(records.sha256_text(str(place).encode()))
        self.registry.sign()
        words = [*COMMAND, "monitor", self.served.url, "--database", self.database, "--once", "--workers", "2"]
        for _ in range(2):
            pathlib.Path(self.database).unlink()
            self.served.asked.clear()
            nowhere = subprocess.DEVNULL
            process = subprocess.Popen(words, stdout=nowhere, stderr=nowhere, start_new_session=True)
            while "/v1/fetch/logs" not in self.served.asked and process.poll() is None:
                time.sleep(0.001)
            time.sleep(chance.uniform(0, 0.05))
            process.kill()
            process.wait()
            end = time.monotonic() + 30
            while running(process.pid):
                self.assertLess(time.monotonic(), end)
                time.sleep(0.05)
            status, lines, said = self.monitor()
            self.assertEqual((status, lines[0]["logs"], lines[0]["records"]), (0, 133, 142), said)

    def test_full(self) -> None:
        """A disk that is full at any length of the file."""
        whole = os.path.getsize(self.database)
        for size in (0, 512, 4_096, whole // 2, whole - 4_096):
            with self.subTest(size):
                self._again()

                def full(size: int = size) -> int:
                    resource.setrlimit(resource.RLIMIT_FSIZE, (size, size))
                    return self.monitor(*self.hook)[0]

                self.assertIn(in_child(full), (3, 1) if size > whole // 2 else (3,))
                self._check([])

    def test_full_at_first(self) -> None:
        """The same of a file that is begun."""
        for size in (0, 1_000, 5_000, 30_000):
            pathlib.Path(self.database).unlink()

            def full(size: int = size) -> int:
                resource.setrlimit(resource.RLIMIT_FSIZE, (size, size))
                return self.monitor()[0]

            self.assertEqual(in_child(full), 3)
            self.assertEqual([it.get("name") for it in self.monitor()[1]], ["unlawful record", "missing record", None])

    def test_two(self) -> None:
        """Two monitors do not have one file at once."""
        with contextlib.closing(Database(self.database)) as held:
            self.assertIsInstance(held.trust(), Trust)
            self.assertEqual(self.monitor()[0], 3)
        self.assertEqual(self.monitor()[0], 1)


if __name__ == "__main__":
    unittest.main()
