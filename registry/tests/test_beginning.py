"""A registry that is begun by one command: its key, and the operator log by it."""

import pathlib
import sqlite3
import subprocess
import sys
import tempfile
import threading
import unittest
from http import HTTPStatus
from typing import Any
from unittest import mock

from weoldrin import LogKind, PackageLog, p256, records
from weoldrin_registry import beginning
from weoldrin_registry.beginning import begin, begin_new
from weoldrin_registry.problems import Problem
from weoldrin_registry.publishing import log_name
from weoldrin_registry.registry import Registry
from weoldrin_registry.settings import BadSettings, Settings
from weoldrin_registry.signing import new_key, signer_in
from weoldrin_registry.storage.opening import opened
from weoldrin_registry.storage.sqlite import SqliteStorage

from .served import Client, Key, Process, checkpoint_of, next_record


class Beginning(unittest.TestCase):
    """What is begun, and what is not."""

    def setUp(self) -> None:
        folder = tempfile.TemporaryDirectory(prefix="weoldrin-")
        self.addCleanup(folder.cleanup)
        self.folder = pathlib.Path(folder.name)
        self.key, self.said = self.folder / "registry.pem", list[str]()
        patch = mock.patch.object(beginning, "tell", self.said.append)
        patch.start()
        self.addCleanup(patch.stop)

    def _settings(self, **more: Any) -> Settings:
        kept: dict[str, Any] = {"database": str(self.folder / "logs.sqlite"), "key": str(self.key)}
        return Settings(**{**kept, **more})

    def _head(self) -> str | None:
        """The head of the operator log."""
        storage = opened(self._settings())
        try:
            row = storage.log(log_name(LogKind.OPERATOR).log_id)
            return row.head if row else None
        finally:
            storage.close()

    def _publish(self) -> None:
        """Publishes a record of a package."""
        key, registry = Key.generate(), Registry(self._settings(key=""))
        with PackageLog() as log:
            registry.publish(log_name(LogKind.PACKAGE, "a:b"), next_record(log, key, records.init(key.public_key)))
        registry.stop()

    def test_new(self) -> None:
        """Both are made, which is said, and once."""
        begin_new(self._settings())
        head, key_id = self._head(), signer_in(self.key).key_id
        self.assertEqual(self.key.stat().st_mode & 0o777, 0o600)
        self.assertEqual(self.said[0], f"made the key {key_id} in {self.key}: keep a copy of it")
        self.assertEqual(self.said[1:], [f"began the operator log by the key in {self.key}: {head}"])
        pem = self.key.read_bytes()
        begin_new(self._settings())
        self.assertEqual((self._head(), self.key.read_bytes(), len(self.said)), (head, pem, 2))

    def test_key_alone(self) -> None:
        """A run that was killed behind the making of the key is gone on from."""
        new_key(self.key)
        pem = self.key.read_bytes()
        begin_new(self._settings())
        self.assertEqual((self.key.read_bytes(), len(self.said), bool(self._head())), (pem, 1, True))

    def test_other_key(self) -> None:
        """By another key nothing is begun where there are records, and none is made there that could not sign."""
        begin_new(self._settings())
        head, other = self._head(), self.folder / "other.pem"
        self.assertRaisesRegex(BadSettings, "1 records that are there", begin_new, self._settings(key=str(other)))
        self.assertFalse(other.exists())
        new_key(other)
        begin_new(self._settings(key=str(other)))
        self.assertEqual((self._head(), len(self.said)), (head, 2))

    def test_records(self) -> None:
        """Among records of packages no operator log is begun unasked."""
        self._publish()
        self.assertRaises(BadSettings, begin_new, self._settings())
        new_key(self.key)
        begin_new(self._settings())
        self.assertIsNone(self._head())
        self.assertIn("`weoldrin-registry begin` begins the operator log", self.said[0])
        begin(self._settings())
        self.assertIsNotNone(self._head())

    def test_operator_key_id(self) -> None:
        """Where another key is named to begin the log, the server's key is made, and nothing is begun."""
        settings = self._settings(operator_key_id=records.sha256_text(b"drawer"))
        begin_new(settings)
        self.assertEqual((self.key.exists(), self._head(), len(self.said)), (True, None, 2))
        self.assertIn("no log is begun: the settings name the key", self.said[1])
        self._publish()
        self.key.unlink()
        begin_new(settings)
        self.assertEqual((self.key.exists(), self._head()), (True, None))

    def test_no_key(self) -> None:
        """Without a key's file, in a folder that is missing, and with a file that has no key."""
        self.assertRaises(BadSettings, begin_new, self._settings(key=""))
        self.assertRaises(BadSettings, begin_new, self._settings(key=f"{self.folder}/no/key.pem"))
        self.key.symlink_to(self.folder / "none")
        self.assertRaises(BadSettings, begin_new, self._settings())
        self.assertTrue(self.key.is_symlink())
        self.key.unlink()
        self.key.write_bytes(b"")
        self.assertRaises(BadSettings, begin_new, self._settings())
        self.assertEqual((self.key.read_bytes(), self._head()), (b"", None))

    def test_at_once(self) -> None:
        """Of several at once one makes the key, and one begins the log."""
        count, failed = 6, list[BaseException]()
        barrier = threading.Barrier(count)

        def run() -> None:
            barrier.wait()
            try:
                begin_new(self._settings())
            except BaseException as error:
                failed.append(error)

        threads = [threading.Thread(target=run) for _ in range(count)]
        for it in threads:
            it.start()
        for it in threads:
            it.join()
        self.assertEqual(failed, [])
        self.assertEqual([sum(it.startswith(word) for it in self.said) for word in ("made", "began")], [1, 1])
        registry = Registry(self._settings())
        self.addCleanup(registry.stop)
        self.assertTrue(registry.checkpoints.may_sign())

    def test_others_turn_the_journal(self) -> None:
        """It is tried again, and what still stays locked is told."""
        locked = sqlite3.OperationalError("database is locked")
        with tempfile.TemporaryDirectory() as folder:
            storage = SqliteStorage(pathlib.Path(folder, "new.db"), 0.05)
            self.addCleanup(storage.close)
            file = mock.Mock()
            file.execute.side_effect = [locked, None]
            storage._journal(file)
            self.assertEqual(file.execute.call_count, 2)
            file.execute.side_effect = locked
            self.assertRaises(sqlite3.OperationalError, storage._journal, file)

    def test_overtaken(self) -> None:
        """A key or a log that comes between the look and the making stays as it is."""
        new_key(self.key)
        begin(self._settings())
        head, pem = self._head(), self.key.read_bytes()
        with mock.patch.object(beginning, "_standing", return_value=(0, False)):
            begin_new(self._settings())
            self.assertEqual(self.said, ["another process began the operator log meanwhile"])
            with mock.patch.object(pathlib.Path, "exists", return_value=False):
                begin_new(self._settings())
        self.assertEqual((self._head(), self.key.read_bytes()), (head, pem))
        self.assertRaises(Problem, begin, self._settings())

    def test_refused(self) -> None:
        """A record that is refused otherwise is a failure."""
        new_key(self.key)
        with mock.patch.object(beginning, "begin", side_effect=Problem(HTTPStatus.FORBIDDEN, "NotOperator", "no")):
            self.assertRaises(Problem, begin_new, self._settings())


class Command(unittest.TestCase):
    """The command."""

    def setUp(self) -> None:
        folder = tempfile.TemporaryDirectory(prefix="weoldrin-")
        self.addCleanup(folder.cleanup)
        self.folder = pathlib.Path(folder.name)

    def _client(self, *words: str) -> Client:
        self.process = Process(self.folder, *words, settings="checkpoint_seconds = 0.1\n")
        self.addCleanup(self.process.kill)
        client = self.process.client()
        self.addCleanup(client.close)
        return client

    def test_serve(self) -> None:
        """One command starts all, and the same one goes on; what was made is said on standard error."""
        key = self.folder / "new.pem"
        client = self._client("--key", str(key), "--new")
        checkpoint = checkpoint_of(client, 1)
        self.assertEqual(checkpoint["keyId"], records.key_id(p256.SigningKey.from_pem(key.read_bytes()).public_key))
        said = self.process.lines.read_text(encoding="utf-8")
        self.assertRegex(said, r"Z made the key sha256:\w+ in .*\n.*Z began the operator log .*\n")
        self.process.stop()
        self.assertEqual(len(self._client("--key", str(key), "--new").get("/v1/leaves").body.splitlines()), 1)

    def test_not_asked(self) -> None:
        """Without `--new` a key that is not there is no key, and nothing is begun."""
        words = [sys.executable, "-m", "weoldrin_registry.command", "serve", str(self.folder / "logs.sqlite")]
        for more in (["--key", str(self.folder / "new.pem")], ["--new"]):
            command = [*words, "--port", "0", *more]
            done = subprocess.run(command, capture_output=True, text=True, check=False, timeout=240)
            self.assertEqual((done.returncode, done.stdout, "--new" in done.stderr), (2, "", True), done.stderr)
        self.assertEqual(list(self.folder.glob("*.pem")), [])


if __name__ == "__main__":
    unittest.main()
