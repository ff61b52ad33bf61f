"""The audit of what is new in a file: what it keeps, and what it says of a file that is not the old one any more."""

import fcntl
import json
import multiprocessing
import os
import pathlib
import signal
import subprocess
import sys
import tempfile
import threading
import time
import unittest
import unittest.mock

from weoldrin import (
    BadLine,
    Empty,
    Fault,
    LogKind,
    Missing,
    NewRecords,
    PackageLog,
    Rewritten,
    RolledBack,
    SignatureCheck,
    SpoiledState,
    Unfinished,
    Unreadable,
    Unsaved,
    audit,
    audit_new,
    p256,
    records,
)

from . import published


class Files(unittest.TestCase):
    """A file in a folder of its own, with a log of six records that is written to it."""

    alice: p256.SigningKey
    lines: list[str]

    @classmethod
    def setUpClass(cls) -> None:
        cls.alice = p256.SigningKey.generate()
        cls.lines = [f"{it.hex()}\n" for it in published.envelopes(6, cls.alice, p256.SigningKey.generate())]

    def setUp(self) -> None:
        folder = tempfile.TemporaryDirectory()
        self.addCleanup(folder.cleanup)
        self.folder = pathlib.Path(folder.name)
        self.path = self.folder / "log.hex"
        self.state = self.folder / "log.hex.state"

    def _audited(self, *lines: str, allow_empty: bool = False) -> NewRecords:
        """What is found where the file has these lines."""
        self.path.write_text("".join(lines), encoding="ascii", newline="")
        found = audit_new(self.path, LogKind.PACKAGE, allow_empty=allow_empty)
        self.assertLessEqual({it.name for it in self.folder.iterdir()}, {"log.hex", "log.hex.state"})
        return found

    def _is_fault(self, found: NewRecords, fault: Fault) -> None:
        self.assertEqual((found.records, found.fault, found.accepted), (0, fault, False))
        self.assertEqual(str(found), f"{self.path}: {fault}")


class Rollbacks(Files):
    """A file that is no longer what was read."""

    def test_rolled_back(self) -> None:
        self.assertEqual(self._audited(*self.lines).records, 6)
        kept = self.state.read_bytes()
        for left in range(6):
            self._is_fault(self._audited(*self.lines[:left]), RolledBack(6, left))
        # In the middle of a line, also of the last one.
        self._is_fault(self._audited(*self.lines[:3], self.lines[3][:9]), RolledBack(6, 3))
        self._is_fault(self._audited(*self.lines[:5], self.lines[5][:-1]), RolledBack(6, 5))
        self.assertEqual(self.state.read_bytes(), kept)
        found = self._audited(*self.lines)
        self.assertEqual((found.records, found.length, found.accepted), (0, 6, True))

    def test_rewritten(self) -> None:
        self._audited(*self.lines[:4])
        kept, other = self.state.read_bytes(), self.lines[1].upper()
        others = published.envelopes(6, self.alice, p256.SigningKey.generate())
        for lines in (
            [self.lines[0], other, *self.lines[2:4]],
            [self.lines[0], other],
            [f"{it.hex()}\n" for it in others],
            ["garbage\n"],
            ["g"] * len("".join(self.lines)),
            ["\n"],
            ["# a comment\n", *self.lines],
            [*self.lines[1:]],
            [self.lines[0].replace("\n", "\r\n"), *self.lines[1:]],
        ):
            self._is_fault(self._audited(*lines), Rewritten(4))
        self.assertEqual(self.state.read_bytes(), kept)
        self.assertEqual(self._audited(*self.lines).records, 2)

    def test_emptied(self) -> None:
        self._is_fault(self._audited(), Empty())
        self._is_fault(self._audited("# a comment\n", "\n"), Empty())
        self.assertTrue(self._audited(allow_empty=True).accepted)
        self._audited(*self.lines[:1])
        self._is_fault(self._audited(), RolledBack(1, 0))
        self._is_fault(self._audited(allow_empty=True), RolledBack(1, 0))

    def test_removed(self) -> None:
        self._is_fault(audit_new(self.path, LogKind.PACKAGE), Missing())
        self._audited(*self.lines)
        self.path.unlink()
        self._is_fault(audit_new(self.path, LogKind.PACKAGE), Missing())
        self.assertEqual(audit_new(self.folder / "none/log.hex", LogKind.PACKAGE).fault, Missing())

    def test_of_other_kinds_of_files(self) -> None:
        self.path.mkdir()
        found = audit_new(self.path, LogKind.PACKAGE)
        self.assertIsInstance(found.fault, Unreadable)
        self.path.rmdir()
        # No writer is waited for.
        os.mkfifo(self.path)
        self._is_fault(audit_new(self.path, LogKind.PACKAGE), Unreadable("it is no regular file"))
        self.assertIsInstance(audit_new("a\0b", LogKind.PACKAGE).fault, Unreadable)


class Lines(Files):
    """Lines that stand for records, and those that do not."""

    def test_unfinished(self) -> None:
        """The records before an unfinished line are taken, and it is taken when it is finished."""
        for length, new in ((2, 2), (3, 1), (3, 0), (6, 3)):
            found = self._audited(*self.lines[:length], self.lines[0][:7])
            self.assertEqual((found.records, found.length, found.fault), (new, length, Unfinished(length + 1)))
        found = self._audited("".join(self.lines)[:-1])
        self.assertEqual(found.fault, RolledBack(6, 5))
        self.assertTrue(self._audited(*self.lines).accepted)

    def test_comments_and_blank_ends(self) -> None:
        first, second, third = self.lines[:3]
        self.assertEqual(self._audited("# one\n", first, "# two\n", "\r\n").records, 1)
        self.assertEqual(self._audited("# one\n", first, "# three\n").records, 0)
        self.assertEqual(self._audited("# one\n", first, "#\n", second.replace("\n", "\r\n"), "\n", "#\n").records, 1)
        self.assertEqual(self._audited("# one\n", first, "#\n", second.replace("\n", "\r\n"), third).length, 3)
        self._is_fault(self._audited("# 1\n", first, "#\n", second.replace("\n", "\r\n"), third), Rewritten(3))

    def test_returns(self) -> None:
        """A carriage return ends no line, and is dropped before a line feed alone."""
        self._is_fault(self._audited(self.lines[0][:-1], "\r", self.lines[1]), BadLine(0, 1))
        self._is_fault(self._audited(self.lines[0][:-1], "\r\r\n"), BadLine(0, 1))
        self.assertTrue(self._audited(self.lines[0][:-1], "\r\n").accepted)

    def test_bad_lines(self) -> None:
        self._audited("# a comment\n", *self.lines[:2])
        fault = BadLine(3, 6)
        self._is_fault(self._audited("# a comment\n", *self.lines[:2], "#\n", self.lines[2], "0g\n"), fault)
        self.assertEqual((fault.line, fault.number, str(fault)), (3, 6, "bad line 3"))

    def test_refused(self) -> None:
        self._audited(*self.lines[:2])
        found = self._audited(*self.lines[:3], self.lines[1])
        assert found.error is not None
        self.assertEqual((found.records, found.length, found.error.place), (1, 3, 3))
        self.assertIn(": refused 3 RecordHashDoesNotMatch: ", str(found))
        self.assertTrue(self._audited(*self.lines[:2]).accepted)


class States(Files):
    """What is kept."""

    def test_spoiled(self) -> None:
        self._audited(*self.lines)
        good = json.loads(self.state.read_text(encoding="ascii"))
        spoiled: list[object] = ["", [], {}, 7, None, [100, 6, "{}"], {**good, "more": 1}, {**good, "records": True}]
        spoiled += [{**good, "records": 5}, {**good, "records": -1}, {**good, "kind": "OPERATOR"}]
        spoiled += [{**good, "state": it} for it in ("{", "[]", '"\ud800"', 7, '{"algorithm":"sha256"}')]
        texts = [json.dumps(it) for it in spoiled] + ["", "{", "[" * 100_000, "9" * 100_000, '{"kind":"\u00e9"}']
        for text in texts:
            self.state.write_text(text, encoding="utf-8")
            found = audit_new(self.path, LogKind.PACKAGE)
            self.assertEqual((found.records, type(found.fault)), (0, SpoiledState), text[:60])
            self.assertEqual(self.state.read_text(encoding="utf-8"), text)
        self.state.unlink()
        self.assertEqual(audit_new(self.path, LogKind.PACKAGE).records, 6)
        self.state.unlink()
        self.state.mkdir()
        self.assertIsInstance(audit_new(self.path, LogKind.PACKAGE).fault, SpoiledState)

    def test_before_1970(self) -> None:
        """A state can't say such a time; the file is audited from its first record, and kept in mind all the same."""
        with PackageLog() as log:
            first = published.record(log, self.alice, [records.init(self.alice.public_key)], -5)
            log.append(first)
            second = published.record(log, self.alice, [records.release("1.0.0", records.sha256_text(b""))], 5)
        for lines, new in (([first], 1), ([first], 0), ([first, second], 1), ([first, second], 0)):
            found = self._audited(*(f"{it.hex()}\n" for it in lines))
            self.assertEqual((found.records, found.length, found.accepted), (new, len(lines), True))
        self._is_fault(self._audited(f"{first.hex()}\n"), RolledBack(2, 1))
        self._is_fault(self._audited(f"{second.hex()}\n"), Rewritten(2))
        kept = json.loads(self.state.read_text(encoding="ascii"))
        self.state.write_text(json.dumps({**kept, "kind": "OPERATOR"}), encoding="ascii")
        self.path.write_text(f"{first.hex()}\n{second.hex()}\n", encoding="ascii")
        self.assertIsInstance(audit_new(self.path, LogKind.OPERATOR).fault, SpoiledState)

    def test_unsaved(self) -> None:
        """A folder in the place of the file beside is in the way of root too."""
        self.path.write_text("".join(self.lines), encoding="ascii")
        (self.folder / "log.hex.state.new").mkdir()
        self._is_fault(audit_new(self.path, LogKind.PACKAGE), Unsaved("Is a directory"))

    def test_full_disk(self) -> None:
        """Where the state can't be written, the old one stays and nothing is left."""
        program = f"""
import resource
from weoldrin import Kind, audit_new
resource.setrlimit(resource.RLIMIT_FSIZE, (100, 100))
print(audit_new({str(self.path)!r}, Kind.PACKAGE))
"""
        self._audited(*self.lines[:2])
        kept = self.state.read_bytes()
        self.path.write_text("".join(self.lines), encoding="ascii")
        done = subprocess.run([sys.executable, "-c", program], capture_output=True, text=True, check=False)
        self.assertEqual((done.stdout, done.stderr), (f"{self.path}: unsaved: File too large\n", ""))
        self.assertEqual(self.state.read_bytes(), kept)
        self.assertEqual({it.name for it in self.folder.iterdir()}, {"log.hex", "log.hex.state"})

    def test_kills(self) -> None:
        """An audit that is killed leaves one file beside at most, and the next one takes that away."""
        self._audited(*self.lines[:2])
        kept, beside = self.state.read_bytes(), self.folder / "log.hex.state.new"
        self.path.write_text("".join(self.lines), encoding="ascii")
        for _ in range(3):
            audits = multiprocessing.get_context("spawn").Process(target=_audit_and_stay, args=(str(self.path),))
            audits.start()
            while not beside.exists():
                time.sleep(0.01)
            assert audits.pid is not None
            os.kill(audits.pid, signal.SIGKILL)
            audits.join()
            self.assertEqual({it.name for it in self.folder.iterdir()}, {self.path.name, self.state.name, beside.name})
            self.assertEqual(self.state.read_bytes(), kept)
        beside.write_bytes(b"what is longer than a state is" * 10_000)
        self.assertEqual(self._audited(*self.lines).records, 4)
        self.assertEqual(json.loads(self.state.read_text(encoding="ascii"))["records"], 6)

    def test_links(self) -> None:
        """A link in the place of the file beside is not followed."""
        self._audited(*self.lines[:2])
        other = self.folder / "other"
        other.write_text("mine", encoding="ascii")
        (self.folder / "log.hex.state.new").symlink_to(other)
        self.assertIsInstance(audit_new(self.path, LogKind.PACKAGE).fault, Unsaved)
        self.assertEqual(other.read_text(encoding="ascii"), "mine")

    def test_hard_links(self) -> None:
        """What else has the name of the file beside, as another's file, is not written to."""
        other, beside = self.folder / "other", self.folder / "log.hex.state.new"
        other.write_text("mine", encoding="ascii")
        beside.hardlink_to(other)
        self.path.write_text("".join(self.lines), encoding="ascii")
        self._is_fault(audit_new(self.path, LogKind.PACKAGE), Unsaved("log.hex.state.new has several hard links"))
        self.assertEqual(other.read_text(encoding="ascii"), "mine")
        self.assertTrue(beside.samefile(other))
        beside.unlink()
        os.mkfifo(beside)
        self._is_fault(audit_new(self.path, LogKind.PACKAGE), Unsaved("log.hex.state.new is no regular file"))
        beside.unlink()
        self.assertTrue(audit_new(self.path, LogKind.PACKAGE).accepted)

    def test_state_of_another_kind_of_file(self) -> None:
        """No writer of a state is waited for."""
        self.path.write_text("".join(self.lines), encoding="ascii")
        os.mkfifo(self.state)
        program = f"from weoldrin import audit_new\nprint(audit_new({str(self.path)!r}, 'package').fault)"
        done = subprocess.run(
            [sys.executable, "-c", program], capture_output=True, text=True, check=False, timeout=20
        )
        self.assertEqual(done.stdout, "spoiled state: it is no regular file\n", done.stderr)

    def test_paths_of_bytes(self) -> None:
        """A path may be bytes, as the system has it."""
        self.path.write_text("".join(self.lines), encoding="ascii")
        for found in (audit(os.fsencode(self.path), "package"), audit_new(os.fsencode(self.path), "package")):
            self.assertRegex(str(found), f"^{self.path}: ok 6 ")
        self.assertEqual({it.name for it in self.folder.iterdir()}, {"log.hex", "log.hex.state"})

    def test_at_once(self) -> None:
        """Of many audits of one file each record is new to one."""
        self.path.write_text("".join(self.lines), encoding="ascii")
        found: list[NewRecords] = []
        threads = [
            threading.Thread(target=lambda: found.append(audit_new(self.path, LogKind.PACKAGE))) for _ in range(8)
        ]
        for thread in threads:
            thread.start()
        for thread in threads:
            thread.join()
        self.assertEqual(sorted(it.records for it in found), [0] * 7 + [6])
        self.assertTrue(all(it.accepted for it in found))
        self.assertEqual({it.name for it in self.folder.iterdir()}, {"log.hex", "log.hex.state"})

    def test_taken_while_waiting(self) -> None:
        """Whoever waited for a file beside that is gone meanwhile holds none of that name, and takes another."""
        real, beside = fcntl.flock, self.folder / "log.hex.state.new"
        waited: list[int] = []

        def flock(file: int, operation: int) -> None:
            if not waited:
                beside.unlink()
            waited.append(file)
            real(file, operation)

        with unittest.mock.patch.object(fcntl, "flock", flock):
            self.assertEqual(self._audited(*self.lines).records, 6)
        self.assertEqual(json.loads(self.state.read_text(encoding="ascii"))["records"], 6)

    def test_flushed(self) -> None:
        """The state is flushed before it takes the place of the old one, and the folder after that."""
        calls: list[str] = []
        real = os.fsync, os.replace

        def fsync(file: int) -> None:
            calls.append(f"fsync {os.readlink(f'/proc/self/fd/{file}').removeprefix(os.path.realpath(self.folder))}")
            real[0](file)

        def replace(old: str, new: str) -> None:
            calls.append("replace")
            real[1](old, new)

        with unittest.mock.patch.multiple(os, fsync=fsync, replace=replace):
            self._audited(*self.lines)
        self.assertEqual(calls, ["fsync /log.hex.state.new", "replace", "fsync "])


def _audit_and_stay(path: str) -> None:
    """Audits a file, and never has an answer to the first question."""

    def verify(_: SignatureCheck) -> bool:
        time.sleep(600)
        return False

    audit_new(path, LogKind.PACKAGE, verify)


if __name__ == "__main__":
    unittest.main()
