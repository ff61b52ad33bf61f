"""What logs answer, and what each wrong use is refused for."""

import copy
import ctypes
import gc
import pathlib
import pickle
import unittest
from collections.abc import Callable

from weoldrin import (
    BadArgument,
    Comparison,
    Last,
    Link,
    LogKind,
    NoEnvelope,
    NotOpen,
    OperatorLog,
    PackageLog,
    Refused,
    Relation,
    SignatureCheck,
    library_version,
    log_of,
    p256,
    record_id,
    records,
)
from weoldrin._library import CALLS, Asked
from weoldrin._library import Log as RawLog

from . import published
from .rows import blocks, row_of

# The rows that say which permissions there are.
ROWS = pathlib.Path(__file__).resolve().parents[3] / "conformance/values/permissions.rows"


class Packages(unittest.TestCase):
    """A log of a package, with keys of P-256."""

    def setUp(self) -> None:
        self.alice, self.bob = p256.SigningKey.generate(), p256.SigningKey.generate()
        self.bob_id = records.key_id(self.bob.public_key)
        self.envelopes = published.envelopes(4, self.alice, self.bob)
        self.log = PackageLog()
        self.addCleanup(self.log.close)
        for envelope in self.envelopes:
            self.log.append(envelope)

    def test_last(self) -> None:
        with PackageLog() as log:
            self.assertIsNone(log.last())
            log.append(self.envelopes[0])
            self.assertEqual(log.last(), Last(published.START, 1, 1))
        self.assertEqual(self.log.last(), Last(published.START, 1, 4))
        with PackageLog.from_json(self.log.to_json()) as resumed:
            self.assertEqual(resumed.last(), Last(published.START, 1, None))
        with self.assertRaises(NotOpen):
            resumed.last()

    def test_counts_of_resumed_logs(self) -> None:
        """A log whose length was kept beside its state goes on counting, as far as 64 bits can say."""
        with PackageLog() as shorter:
            for envelope in self.envelopes[:3]:
                shorter.append(envelope)
            saved = shorter.to_json()
        with PackageLog.from_json(saved, 3) as resumed:
            self.assertEqual(resumed.last(), Last(published.START, 1, 3))
            with self.assertRaises(Refused):
                resumed.append(self.envelopes[0])
            self.assertEqual(resumed.last(), Last(published.START, 1, 3))
            resumed.append(self.envelopes[3])
            self.assertEqual(resumed.last(), Last(published.START, 1, 4))
            with self.assertRaisesRegex(BadArgument, "Resumed"):
                len(resumed)
        with PackageLog.from_json(saved, 2**64 - 1) as resumed:
            self.assertEqual(resumed.last(), Last(published.START, 1, 2**64 - 1))
            resumed.append(self.envelopes[3])
            self.assertEqual(resumed.last(), Last(published.START, 1, None))
        for length in (-1, 2**64):
            with self.assertRaisesRegex(BadArgument, "OutOfRange"):
                PackageLog.from_json(saved, length)
        with self.assertRaisesRegex(BadArgument, "NotJson"):
            PackageLog.from_json("{", 3)

    def test_times(self) -> None:
        for timestamp in (-(2**63) * 10**9, -1, 0, 1, 1_000_000_001, 2**63 * 10**9 - 1):
            with PackageLog() as log:
                log.append(published.record(log, self.alice, [records.init(self.alice.public_key)], timestamp))
                self.assertEqual(log.last(), Last(timestamp, 1, 1))

    def test_records(self) -> None:
        self.assertEqual(len(self.log), 4)
        self.assertTrue(PackageLog())
        self.assertEqual([it.envelope for it in self.log.records()], self.envelopes)
        self.assertEqual(
            [it.id for it in self.log.records()], [record_id(LogKind.PACKAGE, it) for it in self.envelopes]
        )
        self.assertEqual(self.log.head(), record_id(LogKind.PACKAGE, self.envelopes[-1]))
        self.assertNotEqual(self.log.head(), record_id(LogKind.OPERATOR, self.envelopes[-1]))
        for place in (4, 2**64 - 1, 2**64, 2**64 + 1):
            self.assertIsNone(self.log.record(place))
        self.assertIsNone(PackageLog().head())
        with self.assertRaises(IndexError):
            self.log.record(-1)
        with self.assertRaises(NoEnvelope):
            record_id(LogKind.PACKAGE, b"\x0b")

    def test_envelopes_are_written_anew(self) -> None:
        envelope = published.release(self.log, self.bob, "1.9.0")
        # A signature of no text, which a later one overrides, and a field of number 15, which no envelope has.
        strange = b"\x1a\x00" + envelope + b"\x78\x01"
        self.log.append(strange)
        self.assertEqual(self.log.record(4), (envelope, record_id(LogKind.PACKAGE, strange)))
        self.assertEqual(self.log.head(), record_id(LogKind.PACKAGE, envelope))

    def test_releases(self) -> None:
        self.assertEqual([it.version for it in self.log.releases()], ["1.1.0", "1.2.0", "1.3.0"])
        found = self.log.latest("<1.3")
        assert found is not None
        self.assertEqual(found, self.log.release("1.2.0"))
        self.assertEqual((found.by, found.timestamp, found.yanked), (self.bob_id, published.START, False))
        self.assertEqual(found.content, records.sha256_text(b"1.2.0"))
        self.assertEqual(found.record_id, record_id(LogKind.PACKAGE, self.envelopes[2]))
        self.assertIsNone(self.log.latest(">=2"))
        self.assertIsNone(self.log.release("9.0.0"))
        yank = published.record(self.log, self.alice, [records.yank("1.3.0")], published.START + 1)
        self.log.append(yank)
        yanked = self.log.release("1.3.0")
        assert yanked is not None
        self.assertEqual((yanked.content, yanked.yanked_timestamp), (None, published.START + 1))
        self.assertEqual(yanked.yanked_by, records.key_id(self.alice.public_key))
        self.assertEqual(self.log.latest("*"), found)

    def test_keys(self) -> None:
        alice_id = records.key_id(self.alice.public_key)
        self.assertEqual(self.log.public_key(self.bob_id), self.bob.public_key)
        self.assertEqual(self.log.permissions(self.bob_id), ["release"])
        self.assertEqual(self.log.permissions(alice_id), ["release", "yank"])
        self.assertTrue(self.log.holds(self.bob_id, "release"))
        self.assertFalse(self.log.holds(self.bob_id, "yank"))
        self.assertIsNone(self.log.permissions("nobody"))
        self.assertIsNone(self.log.public_key("nobody"))
        self.assertEqual(self.log.chain(self.bob_id, "release"), [Link(0, 0), Link(0, 1)])
        self.assertIsNone(self.log.chain(self.bob_id, "yank"))

    def test_saved_state(self) -> None:
        resumed = PackageLog.from_json(self.log.to_json())
        self.assertEqual(resumed.to_json(), self.log.to_json())
        self.assertEqual(resumed.head(), self.log.head())
        for call in (resumed.__len__, lambda: resumed.record(0), lambda: resumed.chain(self.bob_id, "release")):
            self.assertRaises(BadArgument, call)
        for left, right in ((resumed, self.log), (self.log, resumed), (resumed, resumed)):
            self.assertRaises(BadArgument, left.compare, right)
        again = published.release(resumed, self.bob, "1.9.0")
        resumed.append(again)
        self.log.append(again)
        self.assertEqual(resumed.head(), self.log.head())
        for text, name in (("[]", "WrongType"), ("{", "NotJson"), ('{"algorithm":"sha256"}', "Incoherent")):
            with self.assertRaises(BadArgument) as caught:
                PackageLog.from_json(text)
            self.assertEqual(caught.exception.name, name)

    def test_comparison(self) -> None:
        other = PackageLog()
        self.assertEqual(self.log.compare(self.log), Comparison(Relation.SAME, 0, 0))
        self.assertEqual(self.log.compare(other), Comparison(Relation.RIGHT_IS_PREFIX, 0, 0))
        for envelope in self.envelopes[:2]:
            other.append(envelope)
        self.assertEqual(other.compare(self.log), Comparison(Relation.LEFT_IS_PREFIX, 2, 2))
        other.append(published.release(other, self.bob, "2.0.0"))
        self.assertEqual(other.compare(self.log), Comparison(Relation.FORK, 2, 2))
        self.assertRaises(BadArgument, self.log.compare, published.operator_log(self.alice))

    def test_errors(self) -> None:
        with self.assertRaises(NoEnvelope) as none:
            self.log.append(b"\x0b")
        self.assertEqual(none.exception.name, "ProtobufEnvelope.Group")
        self.assertIn("ProtobufEnvelope.Group: ", str(none.exception))
        with self.assertRaises(Refused) as refused:
            self.log.append(self.envelopes[1], lambda _: self.fail("nothing is to be verified"))
        self.assertEqual(refused.exception.name, "RecordHashDoesNotMatch")
        envelope = published.release(self.log, self.bob, "2.0.0")
        with self.assertRaises(Refused) as wrong:
            self.log.append(envelope, lambda _: False)
        self.assertEqual(wrong.exception.name, "SignatureError")
        self.assertEqual(len(self.log), 4)

    def test_long_texts(self) -> None:
        nobody = "n" * 3_000_000
        entries = [records.release("9.0.0", records.sha256_text(b""))]
        envelope = records.envelope(records.contents(self.log.head(), published.START, entries), nobody, "toy:")
        calls: list[Callable[[], object]]
        calls = [lambda: self.log.append(envelope), lambda: self.log.ask(envelope)]
        for call in calls:
            with self.assertRaises(Refused) as caught:
                call()
            self.assertEqual(caught.exception.name, "UnauthorizedAction")
            self.assertIn(nobody, caught.exception.sentence)
        version = "1.0.0-" + "a" * 100_000
        self.log.append(published.release(self.log, self.bob, version))
        self.assertEqual([it.version for it in self.log.releases()][-1], version)


class Operators(unittest.TestCase):
    """A log of operators."""

    def test_namespaces(self) -> None:
        alice = p256.SigningKey.generate()
        with published.operator_log(alice) as log:
            own, other = log.namespace_state("own"), log.namespace_state("other")
            assert own is not None and other is not None
            self.assertEqual((own.imported_from, other.imported_from), (None, "registry.example.com"))
            self.assertIsNone(log.namespace_state("none"))
            self.assertRaises(BadArgument, log.holds, "x", "release")
            again = OperatorLog.from_json(log.to_json())
            self.assertEqual(again.namespace_state("other"), other)
            self.assertRaises(BadArgument, PackageLog.from_json, '{"head":{}}')


@unittest.skipUnless(ROWS.is_file(), "there are no rows here")
class Permissions(unittest.TestCase):
    """What there is, by the rows that list it."""

    def test_all(self) -> None:
        """Who begins a log holds all, and can grant all to another."""
        rows = dict(row_of(it.head.text) for it in blocks(ROWS))
        alice, bob = p256.SigningKey.generate(), p256.SigningKey.generate()
        for kind in ("package", "operator"):
            wanted = rows[f"permissions {kind}-permission"].split()[1:]
            with log_of(kind) as log:
                grant = records.grant(kind, bob.public_key, wanted)
                log.append(published.record(log, alice, [records.init(alice.public_key), grant]))
                for key in (alice, bob):
                    self.assertEqual(log.permissions(records.key_id(key.public_key)), wanted)


class WrongUse(unittest.TestCase):
    """Closed logs, texts that are of no form, and lengths that the raw calls see."""

    def test_closed(self) -> None:
        log = PackageLog()
        log.close()
        log.close()
        calls: list[Callable[[], object]]
        calls = [log.head, log.__len__, log.to_json, lambda: log.ask(b""), lambda: log.latest("*")]
        calls += [lambda: log.record(0), lambda: log.append(b"")]
        calls += [lambda: log.compare(PackageLog()), lambda: PackageLog().compare(log), lambda: log.holds("x", "yank")]
        calls += [lambda: log.append_answered(b"", SignatureCheck("toy:", b"", "toy:"), True), lambda: log.compare(log)]
        for call in calls:
            self.assertRaises(NotOpen, call)

    def test_copies(self) -> None:
        log = PackageLog()
        copies: list[Callable[[object], object]] = [copy.copy, copy.deepcopy, pickle.dumps]
        for copied in copies:
            self.assertRaises(TypeError, copied, log)

    def test_answers_that_are_none(self) -> None:
        log = PackageLog()
        for answer in (1, 0, -1, "no", None, object()):
            self.assertRaises(TypeError, log.append_answered, b"", SignatureCheck("toy:", b"", "toy:"), answer)

    def test_texts(self) -> None:
        log = PackageLog()
        for requirement in ("one", ">=x", "\0", "1 2"):
            self.assertRaises(BadArgument, log.latest, requirement)
        self.assertRaises(BadArgument, log.release, "1.0")
        self.assertRaises(UnicodeEncodeError, log.latest, "\ud800")
        self.assertRaises(BadArgument, log.append_answered, b"", SignatureCheck("no colon", b"", "toy:"), True)
        self.assertRaises(TypeError, log.ask, "text")
        self.assertRaises(BadArgument, log.holds, "x", "commit")

    def test_raw(self) -> None:
        log, text, used = RawLog(), ctypes.create_string_buffer(64), ctypes.c_size_t(9)
        self.assertEqual(CALLS["head"](log, text, 64, used), 1)
        self.assertEqual(CALLS["open"](log, 2), 7)
        self.assertEqual(CALLS["open"](log, 0), 0)
        self.assertEqual(CALLS["open"](log, 1), 0)
        self.assertEqual(CALLS["open"](log, 0), 0)
        self.assertEqual(CALLS["permissions"](log, b"\xff", 1, text, 64, used), 7)
        self.assertEqual(CALLS["key"](log, b"\xff", 1, text, 64, used), 7)
        self.assertEqual(CALLS["permissions"](log, b"", 0, text, 64, used), 6)
        asked = Asked(2**64 - 1, 2**64 - 1, 2**64 - 1)
        self.assertEqual(CALLS["append"](log, b"", 0, b"toy:", 4, asked, True, text, 64, used), 7)
        CALLS["close"](log)
        CALLS["close"](log)

    def test_forgotten_logs_are_closed(self) -> None:
        for _ in range(1000):
            PackageLog()
        gc.collect()
        self.assertRegex(library_version(), r"^\d+\.\d+\.\d+$")


if __name__ == "__main__":
    unittest.main()
