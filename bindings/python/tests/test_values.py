"""What is taken for bytes, texts, kinds and permissions, and what is said of anything else."""

import unittest
import unittest.mock
from collections.abc import Callable
from typing import Any

from weoldrin import (
    BadArgument,
    LogKind,
    NotOpen,
    OperatorLog,
    PackageLog,
    SignatureCheck,
    audit,
    audit_many,
    audit_new,
    kind_of,
    log_of,
    p256,
    record_id,
    records,
    verify,
    verify_consistency,
    verify_inclusion,
)
from weoldrin._library import BAD_ARGUMENT, CALLS

from . import published


class Lying(bytes):
    """Bytes that say another number of themselves than they are."""

    said = 1 << 40

    def __len__(self) -> int:
        return self.said

    def __bytes__(self) -> bytes:
        return b"others"


class Short(Lying):
    """Bytes that say that they are none."""

    said = 0


class LyingText(str):
    """A text that says other bytes of itself than it is."""

    def encode(self, encoding: str = "utf-8", errors: str = "strict") -> bytes:
        return Lying(b"x")

    def __len__(self) -> int:
        return 1 << 40


class Bytes(unittest.TestCase):
    """A log, and its envelopes in other forms than bytes."""

    def setUp(self) -> None:
        self.alice, self.bob = p256.SigningKey.generate(), p256.SigningKey.generate()
        self.envelopes = published.envelopes(5, self.alice, self.bob)

    def test_forms(self) -> None:
        forms: list[Callable[[bytes], bytes | bytearray | memoryview]]
        # The last one has each other byte of a longer piece.
        forms = [bytearray, memoryview, Lying, Short, lambda it: memoryview(b"".join(bytes([b, 0]) for b in it))[::2]]
        for form in forms:
            log = PackageLog()
            for envelope in self.envelopes[:4]:
                log.append(envelope)
            last = form(self.envelopes[4])
            self.assertEqual(record_id(LogKind.PACKAGE, last), record_id(LogKind.PACKAGE, self.envelopes[4]))
            question = log.ask(last)
            self.assertTrue(p256.verify(question))
            told = SignatureCheck(question.key, Lying(question.message), question.signature)
            self.assertTrue(p256.verify(told) and p256.verify_by_cryptography(told))
            log.append_answered(last, told, True)
            self.assertEqual([it.envelope for it in log.records()], self.envelopes)
        log = PackageLog()
        log.append(Lying(self.envelopes[0]))
        log.append(Short(self.envelopes[1]), p256.verify)
        self.assertEqual(len(log), 2)

    def test_texts(self) -> None:
        log = PackageLog()
        for envelope in self.envelopes:
            log.append(envelope)
        self.assertEqual(log.latest(LyingText("<1.2")), log.latest("<1.2"))
        self.assertEqual(log.release(LyingText("1.2.0")), log.release("1.2.0"))
        bob = records.key_id(self.bob.public_key)
        self.assertTrue(log.holds(LyingText(bob), LyingText("release")))
        self.assertEqual(log.chain(LyingText(bob), LyingText("release")), log.chain(bob, "release"))
        self.assertEqual(PackageLog.from_json(LyingText(log.to_json())).head(), log.head())
        question = log.ask(published.release(log, self.bob, "2.0.0"))
        told = SignatureCheck(LyingText(question.key), question.message, LyingText(question.signature))
        self.assertTrue(p256.verify(told) and verify(*told))

    def test_others(self) -> None:
        log = PackageLog()
        calls: list[Callable[[Any], object]] = [
            log.append,
            log.ask,
            lambda it: record_id(LogKind.PACKAGE, it),
            lambda it: log.append_answered(b"", SignatureCheck("toy:", it, "toy:"), True),
        ]
        for call in calls:
            for wrong in others("text", None, [1, 2], 7):
                self.assertRaisesRegex(TypeError, "bytes are wanted, not", call, wrong)
        readers: list[Callable[[Any], object]] = [
            log.latest,
            log.public_key,
            PackageLog.from_json,
            lambda it: log.holds("x", it),
        ]
        for call in readers:
            for wrong in others(b"*", None, 7):
                self.assertRaisesRegex(TypeError, "a text is wanted, not", call, wrong)


class Sentences(unittest.TestCase):
    """What is said of an argument that is not of its form."""

    def test_bad_arguments(self) -> None:
        log, resumed = PackageLog(), PackageLog.from_json("{}")
        wanted: list[tuple[str, Callable[[], object]]] = [
            ("BadRequirement: the text is no requirement", lambda: log.latest("bogus")),
            ("BadVersion: the text is no version", lambda: log.release("1.0")),
            ("UnknownPermission: logs of this kind have no such permission", lambda: log.holds("x", "commit")),
            ("Resumed: the log was resumed", lambda: len(resumed)),
            ("Resumed: the log was resumed", lambda: resumed.record(0)),
            ("Resumed: the log was resumed", lambda: resumed.chain("x", "release")),
            ("UnknownPermission: logs of this kind have no such permission", lambda: resumed.chain("x", "commit")),
            ("UnknownPermission: logs of this kind have no such permission", lambda: log.chain("x", "commit")),
            ("Resumed: the log was resumed", lambda: resumed.compare(log)),
            ("Resumed: the log was resumed", lambda: log.compare(resumed)),
            ("WrongKind: ", lambda: log.compare(OperatorLog())),  # type: ignore[arg-type]
            ("BadQuestion: ", lambda: log.append_answered(b"", SignatureCheck("no colon", b"", "toy:"), True)),
            ("BadText: ", lambda: verify("ecdsa-p256:!", b"", "ecdsa-p256:")),
            ("NotJson", lambda: PackageLog.from_json("{")),
            ("TimeBeforeEpoch: ", _save_before_1970),
        ]
        for text, call in wanted:
            with self.assertRaisesRegex(BadArgument, f"^{text}") as caught:
                call()
            self.assertTrue(caught.exception.name)
        self.assertEqual(str(BadArgument()), "BadArgument: an argument is not of its form, or the log has no such call")
        log.close()
        self.assertRaisesRegex(NotOpen, "^NotOpen: the log was closed$", log.head)

    def test_numbers(self) -> None:
        """What is no whole number is told as that, and not as a wrong type of an argument of C."""
        log, zeros = PackageLog(), f"sha256:{64 * '0'}"
        calls: list[Callable[[Any], object]] = [
            log.record,
            lambda it: verify_inclusion(zeros, zeros, it, 1, zeros, ""),
            lambda it: verify_consistency(it, zeros, 1, zeros, ""),
        ]
        for call in calls:
            for wrong in others(1.5, 1.0, None):
                self.assertRaisesRegex(TypeError, "cannot be interpreted as an integer", call, wrong)
        for wrong in others(None, "log", log.to_json()):
            self.assertRaisesRegex(TypeError, "a log is wanted, not ", log.compare, wrong)

    def test_texts_of_the_library(self) -> None:
        """What the library says of a bad argument is what is told."""
        said = b"BadRequirement: said by the library \x1b"

        def call(*arguments: Any) -> int:
            text, used = arguments[3], arguments[5]
            text[: len(said)], used.value = said, len(said)
            return BAD_ARGUMENT

        with unittest.mock.patch.dict(CALLS, {"latest": call}), self.assertRaises(BadArgument) as caught:
            PackageLog().latest("bogus")
        error = caught.exception
        self.assertEqual((error.name, error.sentence), ("BadRequirement", "said by the library \x1b"))
        self.assertEqual(str(error), "BadRequirement: said by the library \\u{1b}")

    def test_kinds(self) -> None:
        self.assertEqual([kind_of("package"), kind_of("operator")], [LogKind.PACKAGE, LogKind.OPERATOR])
        self.assertEqual([type(log_of("package")), type(log_of(LogKind.OPERATOR))], [PackageLog, OperatorLog])
        calls: list[Callable[[Any], object]] = [
            kind_of,
            lambda it: log_of(it),
            lambda it: record_id(it, b""),
            lambda it: audit("none", it),
            lambda it: audit_many([], it),
            lambda it: audit_new("none", it),
            lambda it: records.message(it, b""),
            lambda it: records.grant(it, "toy:", []),
        ]
        for call in calls:
            for wrong in others("", "packages", "PACKAGE", b"package", 0, 1, True, None, PackageLog):
                self.assertRaisesRegex(ValueError, 'Kind.PACKAGE or Kind.OPERATOR, or "package"', call, wrong)

    def test_permissions(self) -> None:
        one, two = records.grant(LogKind.PACKAGE, "toy:", ["release"]), records.revoke("package", "x", "release yank")
        self.assertEqual(one, records.grant("package", "toy:", "release"))
        self.assertEqual(two, records.revoke(LogKind.PACKAGE, "x", iter(("release", "yank"))))
        for wrong in others("commit", ["commit"], "releaseyank", ["release yank"], ["release", None]):
            with self.assertRaisesRegex(ValueError, "the permissions .* are release, yank, and not "):
                records.grant(LogKind.PACKAGE, "toy:", wrong)
        with self.assertRaisesRegex(ValueError, "the permissions .* are commit, .*, and not 'yank'"):
            records.revoke(LogKind.OPERATOR, "x", "commit yank")


def others(*values: Any) -> tuple[Any, ...]:
    """Values of other types than a call takes."""
    return values


def _save_before_1970() -> str:
    """The state of a log whose record is of such a time."""
    alice, log = p256.SigningKey.generate(), PackageLog()
    log.append(published.record(log, alice, [records.init(alice.public_key)], -1))
    return log.to_json()


if __name__ == "__main__":
    unittest.main()
