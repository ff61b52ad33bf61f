"""No checkpoint and no proof is served that the library refuses, whatever the trees say."""

import contextlib
import pathlib
import sqlite3
import tempfile
import time
import unittest
from typing import Any
from unittest import mock

from weoldrin import Checkpoint, LogHead, LogKind, OutOfMemory, RegistryTrees, SignedCheckpoint, log_id, records
from weoldrin_registry import checkpoints
from weoldrin_registry.checkpoints import Checkpoints
from weoldrin_registry.handles import Damaged, Handles
from weoldrin_registry.publishing import Publisher, log_name
from weoldrin_registry.settings import Settings
from weoldrin_registry.signing import Signer
from weoldrin_registry.storage import DiskFull, StorageError
from weoldrin_registry.storage.sqlite import SqliteStorage
from weoldrin_registry.trees import Kept

from .served import Key, operator_record, package_record

OTHER = records.sha256_text(b"other")
ALICE = Key.generate()


class Unverified(unittest.TestCase):
    """Checkpoints in this process."""

    def setUp(self) -> None:
        self._folder = tempfile.TemporaryDirectory()
        self.addCleanup(self._folder.cleanup)
        self.settings, self.key = Settings(checkpoint_seconds=0.001), Key.generate()
        self.path = pathlib.Path(self._folder.name) / "logs.sqlite"
        self.storage = SqliteStorage(self.path, 1)
        self.addCleanup(self.storage.close)
        self.handles = Handles(self.storage, 10**9, 64)
        self.publisher = Publisher(self.storage, self.handles, self.settings, records.key_id(self.key.public_key))
        self.made = Checkpoints(self.storage, self.handles, self.settings, Signer(self.key))
        first = operator_record(None, self.key, records.init(self.key.public_key))
        self.publisher.publish(log_name(LogKind.OPERATOR), first, time.time())
        for it in range(4):
            self._publish(it)
            self._make()

    def _publish(self, number: int) -> None:
        first = package_record(None, ALICE, records.init(ALICE.public_key))
        self.publisher.publish(log_name(LogKind.PACKAGE, f"a:log-x{number}"), first, time.time())

    def _make(self) -> Kept:
        time.sleep(0.002)
        newest = self.made.make()
        assert newest
        return newest

    def _patched(self, name: str, value: Any) -> Any:
        return mock.patch.object(RegistryTrees, name, lambda *_: value)

    def test_proofs(self) -> None:
        newest = self.made.current()
        assert newest
        proof = RegistryTrees.head
        with self._patched("inclusion", ""):
            self.assertRaises(Damaged, self.made.inclusion, newest, 1)
        with self._patched("consistency", ""):
            self.assertRaises(Damaged, self.made.consistency, newest, 2)
        its_id, none = log_id("package", "a:log-x0"), log_id("package", "a:none")
        head, its_proof = self.made.head(newest, its_id)
        for wrong in ((OTHER, its_proof), (None, its_proof), (head, self.made.head(newest, none).proof)):
            with self._patched("head", LogHead(*wrong)):
                self.assertRaises(Damaged, self.made.head, newest, its_id)
        with self._patched("head", LogHead(OTHER, self.made.head(newest, none).proof)):
            self.assertRaises(Damaged, self.made.head, newest, none)
        self.assertIs(RegistryTrees.head, proof)
        self.assertEqual(self.made.head(newest, its_id).record_id, head)
        # Trees of another length are not asked.
        for length in (4, 5):
            under, found = self.made.kept(length), self.made._ring.of(length)
            assert under and found
            self.made.inclusion(under, 1)
            found.trees.push(its_id, OTHER)
            with self.assertRaisesRegex(StorageError, "do not stand as the checkpoint says"):
                self.made.inclusion(under, 1)

    def test_checkpoints(self) -> None:
        before = self.made.current()
        self._publish(5)
        time.sleep(0.002)
        # A tree whose log does not go on from the newest checkpoint.
        with mock.patch.object(checkpoints, "_PAUSE", 0):
            with self._patched("checkpoint", Checkpoint(OTHER, 6, OTHER, int(time.time()))):
                self.assertRaises(Damaged, self.made.make)
            with mock.patch.object(Signer, "sign", lambda *_: "", create=True):
                self.made._signer = Signer(Key.generate())
                self.assertEqual(self.made.make(), before)
            signer = Signer(self.key)
            signer.sign = Key.generate().sign
            self.made._signer = signer
            self.assertRaises(Damaged, self.made.make)
            self.assertEqual(self.made.current(), before)
            self.made._signer = Signer(self.key)
            newest = self._make()
        self.assertEqual(newest.length, 6)

    def _kept(self) -> list[int]:
        """The lengths that are proved under."""
        with self.made.held():
            return [it for it in range(20) if self.made.kept(it) is not None]

    def test_the_one_before(self) -> None:
        self.assertEqual(self._kept(), [4, 5])
        with self.made.held():
            under = self.made.kept(4)
            assert under
            self.assertEqual(under.length, 4)
            self.made.inclusion(under, 3)
            self.assertEqual([self.made.consistency(under, it) is not None for it in range(6)],
                             [True, False, True, True, True, False])
            there, none = (log_id("package", f"a:log-x{it}") for it in (2, 3))
            self.assertIsNotNone(self.made.head(under, there).record_id)
            self.assertIsNone(self.made.head(under, none).record_id)
            with self._patched("inclusion", ""):
                self.assertRaises(Damaged, self.made.inclusion, under, 1)
            with self._patched("consistency", ""):
                self.assertRaises(Damaged, self.made.consistency, under, 2)
            with self._patched("head", LogHead(OTHER, self.made.head(under, there).proof)):
                self.assertRaises(Damaged, self.made.head, under, there)
        self._publish(5)
        self._make()
        self.assertEqual(self._kept(), [5, 6])
        # One that begins has the newest alone.
        self.made = Checkpoints(self.storage, self.handles, self.settings, Signer(self.key))
        self.assertEqual(self._kept(), [6])

    def test_how_many(self) -> None:
        for count in (1, 3):
            settings = Settings(checkpoint_seconds=0.001, kept_checkpoints=count)
            self.made = Checkpoints(self.storage, self.handles, settings, Signer(self.key))
            self.made.current()
            length = self.storage.length()
            for it in range(length, length + 4):
                self._publish(it)
                self._make()
            self.assertEqual(self._kept(), list(range(length + 5 - count, length + 5)))

    def test_one_that_fails_on_the_way(self) -> None:
        before = self.made.current()
        self._publish(5)
        time.sleep(0.002)
        with mock.patch.object(RegistryTrees, "push_all", side_effect=OutOfMemory):
            self.assertRaises(OutOfMemory, self.made.make)
        self.assertFalse(self.made._ring)
        # What stood before is made anew, and that one alone.
        self.assertEqual((self.made.current(), self._kept()), (before, [5]))
        self.made._paused_until = time.monotonic()
        self._make()
        self.assertEqual(self._kept(), [5, 6])

    def test_a_key_that_may_not_any_more(self) -> None:
        other, log = Key.generate(), log_name(LogKind.OPERATOR)
        grant = records.grant("operator", other.public_key, "commit")
        revoke = records.revoke("operator", records.key_id(other.public_key), "commit")

        def publish(entry: bytes) -> None:
            row = self.storage.log(log.log_id)
            assert row
            self.publisher.publish(log, operator_record(row.head, self.key, entry), time.time())

        publish(grant)
        self.made._signer = Signer(other)
        self.assertEqual(self._make().length, 6)
        self.made._signer = Signer(self.key)
        self._publish(6)
        self.assertEqual(self._make().length, 7)
        self.assertEqual(self._kept(), [6, 7])
        publish(revoke)
        self.assertEqual(self._kept(), [7])
        self.assertEqual(self._make().length, 8)
        self.assertEqual(self._kept(), [7, 8])

    def test_one_that_another_process_renews(self) -> None:
        others = Checkpoints(
            self.storage, self.handles, Settings(checkpoint_seconds=0.001, renew_seconds=0.001), Signer(self.key)
        )
        others.current()
        before, real = self.made.current(), time.time
        assert before
        for moved in (100, 200):
            time.sleep(0.002)
            with mock.patch("time.time", lambda: real() + moved):
                renewed = others.make()
            # The first time this one sees it.
            if moved == 100:
                self.assertEqual(self.made.current(), renewed)
                self.assertEqual(self._kept(), [4, 5])
        self._publish(5)
        time.sleep(0.002)
        others.make()
        with self.made.held() as newest:
            assert newest and renewed
            self.assertEqual((newest.length, renewed.length), (6, 5))
            self.assertNotEqual(renewed, before)
            self.assertEqual(self.made.kept(5), renewed)
        # What is kept is looked at anew: its signature, and its roots.
        was, key_id = before.signed.contents, records.key_id(self.key.public_key)
        for key, root, is_damaged in ((Key.generate(), was.log_root, False), (self.key, OTHER, True)):
            contents = Checkpoint(root, was.log_length, was.map_root, was.timestamp)
            text = SignedCheckpoint(contents, key_id, key.sign(contents.message())).to_json()
            with contextlib.closing(sqlite3.connect(self.path, isolation_level=None)) as file:
                file.execute("UPDATE checkpoints SET renewed = ? WHERE length = 5", (text,))
            with self.made.held():
                if is_damaged:
                    self.assertRaisesRegex(Damaged, "not those of the checkpoint of length 5", self.made.kept, 5)
                else:
                    self.assertIsNone(self.made.kept(5))

    def test_another_past(self) -> None:
        """Checkpoints of other leaves than those of one that is kept are not taken beside it."""
        before = self.made.current()
        assert before
        self._publish(5)
        with contextlib.closing(sqlite3.connect(self.path, isolation_level=None)) as file:
            file.execute("UPDATE leaves SET record_id = ? WHERE leaf = 4", (OTHER,))
        with RegistryTrees() as trees:
            trees.push_all(self.storage.leaves(0, 6))
            contents = trees.checkpoint(before.signed.contents.timestamp)
        made = SignedCheckpoint(contents, records.key_id(self.key.public_key), self.key.sign(contents.message()))
        self.storage.add_checkpoint(made.to_json(), 6, before.text)
        self.assertRaisesRegex(Damaged, "of length 6 does not go on from that of 5", self.made.current)
        self.assertFalse(self.made._ring)

    def test_one_that_can_not_be_kept(self) -> None:
        before = self.made.current()
        assert before
        self._publish(5)
        time.sleep(0.002)
        with mock.patch.object(self.storage, "add_checkpoint", side_effect=DiskFull("full")):
            self.assertRaises(DiskFull, self.made.make)
        # The one before stands, with its proofs, and after a while another is tried.
        with self.made.held() as newest:
            self.assertEqual(newest, before)
            self.assertEqual(self.made.inclusion(before, 4).log_id, log_id("package", "a:log-x3"))
            self.assertIsNone(self.made.head(before, log_id("package", "a:log-x5")).record_id)
        self.assertEqual(self._make(), before)
        self.made._paused_until = time.monotonic()
        self.assertEqual(self._make().length, 6)

    def test_how_often(self) -> None:
        slower = Checkpoints(self.storage, self.handles, Settings(checkpoint_seconds=0.4), Signer(self.key))
        slower.current()
        began, before = time.monotonic(), 5
        for it in range(5, 12):
            self._publish(it)
            made = slower.make()
            assert made
            if made.length != before:
                self.assertGreaterEqual(time.monotonic() - began, 0.4)
                began, before = time.monotonic(), made.length
            time.sleep(0.1)
        self.assertGreater(before, 5)

    def test_another_process(self) -> None:
        others = Checkpoints(self.storage, self.handles, self.settings, Signer(self.key))
        for it in range(5, 11):
            self._publish(it)
            # Each waits from when it saw the other's.
            self.assertEqual(self.made.current(), others.current())
            time.sleep(0.002)
            made = (self.made, others)[it % 2].make()
            assert made
            self.assertEqual(made.length, it + 1)
            self.assertEqual(self.made.current(), others.current())
            # The one before the newest stands in both, whichever made it.
            self.assertEqual(self._kept(), [it, it + 1])

    def test_another_process_in_between(self) -> None:
        others = Checkpoints(self.storage, self.handles, self.settings, Signer(self.key))
        others.current()
        add = self.storage.add_checkpoint
        for it in (5, 7):
            self._publish(it)
            time.sleep(0.002)

            def overtaken(*words: Any) -> None:
                setattr(self.storage, "add_checkpoint", add)
                if number == 7:
                    self._publish(8)
                others.make()
                add(*words)

            number = it
            setattr(self.storage, "add_checkpoint", overtaken)
            self.made.make()
            with self.made.held() as newest:
                assert newest
                self.assertEqual(newest.length, {5: 6, 7: 8}[it])
                self.made.inclusion(newest, newest.length - 1)
            self.assertEqual(self.made.current(), others.current())

    def test_another_process_with_fewer_leaves(self) -> None:
        others = Checkpoints(self.storage, self.handles, self.settings, Signer(self.key))
        others.current()
        self._publish(5)
        self._publish(6)
        time.sleep(0.002)
        add = self.storage.add_checkpoint

        def overtaken(*words: Any) -> None:
            setattr(self.storage, "add_checkpoint", add)
            others._make(6)
            add(*words)

        setattr(self.storage, "add_checkpoint", overtaken)
        made = self.made.make()
        assert made
        self.assertEqual((made.length, self.made.current()), (7, others.current()))
        self.assertIsNotNone(self.storage.checkpoint(6))
        with self.made.held() as newest:
            assert newest
            self.assertIsNotNone(self.made.consistency(newest, 6))


if __name__ == "__main__":
    unittest.main()
