"""What the library verifies by itself: signatures by their texts, and those of the records that it appends."""

import base64
import pathlib
import subprocess
import sys
import unittest

from weoldrin import (
    BadArgument,
    LogKind,
    NoEnvelope,
    NotOpen,
    PackageLog,
    Refused,
    SignatureCheck,
    UnknownAlgorithm,
    audit,
    p256,
    records,
    verify,
)

from . import published, toy

# The example of RFC 6979, A.2.5, with SHA-256 and the message `sample`.
KEY = "ecdsa-p256:A2D+1LolWp0xyWHrdMY1bWjASbiSO2H6bOZpYi5g8p+2"
LONG_KEY = "ecdsa-p256:BGD+1LolWp0xyWHrdMY1bWjASbiSO2H6bOZpYi5g8p+2eQP+EAi4vJmkGunpVii8ZPLxsgwtfp9Rd6PClNRGIpk="
DIGITS = "MEYCIQDv1IsqrLao/RFA3ZzUXoHWnSyHe1aq+ZHDTQ6oTq83FgIhAPfLHJQtZXxB1DbHobbin2Xz6QDbua/0Bk3Eqy+EOs2o"
SIGNATURE = f"ecdsa-p256:{DIGITS}"
LOG = pathlib.Path(__file__).resolve().parents[3] / "examples/p256/package.hex"

# What can't be read as a key, nor as a signature of a key that can.
UNREADABLE = [
    "",
    "ecdsa-p256",
    ":" + DIGITS,
    "ecdsa-p256:!",
    "ecdsa-p256:AAA",
    "ecdsa-p256: " + DIGITS,
    "ecdsa-p256:" + DIGITS + "\n",
    "ecdsa-p256:" + DIGITS + "=",
    "ecdsa-p256:" + DIGITS + "====",
    "ecdsa-p256:" + DIGITS + "\0",
    "ecdsa-p256:AB==",
    "ecdsa-p256:" + DIGITS[:-4] + "\u0661\u0662\u0663\u0664",
    "ecdsa-p256:\uff21\uff21\uff21\uff21",
    "ecdsa-p256:\U0001f511",
    "ecdsa-p256:\ud800",
    "\udfff:AAAA",
]
# What can be read and is no key, nor a signature.
OTHERS = [
    "ecdsa-p256:",
    "ecdsa-p256:AA==",
    "ecdsa-p256:" + "A" * (1 << 20),
    # A point in its hybrid form, off the curve, and with bytes behind it.
    LONG_KEY.replace(":BG", ":B2"),
    LONG_KEY.replace("Ipk=", "Ipo="),
    LONG_KEY.replace("Ipk=", "IpkA"),
    KEY + "AAAA",
    # A signature with bytes behind its DER, without its last one, with a length in two bytes, and with a zero before a
    # number; and one of the numbers 0 and 0.
    SIGNATURE + "AA==",
    SIGNATURE + "A" * 800,
    SIGNATURE[:-4],
    "ecdsa-p256:MIFGAiEA79SLKqy2qP0RQN2c1F6B1p0sh3tWqvmRw00OqE6vNxYCIQD3yxyULWV8QdQ2x6G24p9l8+kA27mv9AZNxKsvhDrNqA==",
    "ecdsa-p256:MEcCIgAA79SLKqy2qP0RQN2c1F6B1p0sh3tWqvmRw00OqE6vNxYCIQD3yxyULWV8QdQ2x6G24p9l8+kA27mv9AZNxKsvhDrNqA==",
    "ecdsa-p256:MAYCAQACAQA=",
]
OTHER_ALGORITHMS = ["toy:YWxpY2U=", "ecdsa-p384:AAAA", "ECDSA-P256:AAAA", " ecdsa-p256:AAAA", "ecdsa-p256\0:AAAA"]


class Texts(unittest.TestCase):
    """Signatures by their texts."""

    def _belongs(self, key: str, signature: str, message: bytes = b"sample") -> bool:
        """What the verifiers that take any text say, which is one answer."""
        question = SignatureCheck(key, message, signature)
        answer = p256.verify(question)
        self.assertEqual(p256.verify_by_cryptography(question), answer, question)
        return answer

    def test_right(self) -> None:
        for key in (KEY, LONG_KEY):
            self.assertTrue(verify(key, b"sample", SIGNATURE))
            self.assertTrue(self._belongs(key, SIGNATURE))

    def test_wrong(self) -> None:
        for message in (b"", b"simple", b"sample\0", b"s" * (1 << 20)):
            self.assertFalse(verify(KEY, message, SIGNATURE))
            self.assertFalse(self._belongs(KEY, SIGNATURE, message))
        for text in [*OTHERS, KEY]:
            self.assertFalse(verify(KEY, b"sample", text), text)
            self.assertFalse(self._belongs(KEY, text), text)
        for text in [*OTHERS, SIGNATURE, p256.SigningKey.generate().public_key]:
            self.assertFalse(verify(text, b"sample", SIGNATURE), text)
            self.assertFalse(self._belongs(text, SIGNATURE), text)

    def test_unreadable(self) -> None:
        for text in UNREADABLE:
            self.assertRaises(BadArgument, verify, KEY, b"sample", text)
            self.assertRaises(BadArgument, verify, text, b"sample", SIGNATURE)
            self.assertFalse(self._belongs(KEY, text), text)
            self.assertFalse(self._belongs(text, SIGNATURE), text)

    def test_other_algorithms(self) -> None:
        for text in OTHER_ALGORITHMS:
            # The signature of such a key is not read.
            for signature in (SIGNATURE, "", "\ud800"):
                with self.assertRaises(UnknownAlgorithm) as caught:
                    verify(text, b"sample", signature)
                self.assertEqual(caught.exception.name, "UnknownAlgorithm")
                self.assertFalse(self._belongs(text, signature), text)
            self.assertFalse(verify(KEY, b"sample", text), text)
            self.assertFalse(self._belongs(KEY, text), text)

    def test_other_types(self) -> None:
        self.assertRaisesRegex(TypeError, "bytes are wanted, not str", verify, KEY, "sample", SIGNATURE)
        self.assertRaisesRegex(TypeError, "bytes are wanted, not NoneType", verify, KEY, None, SIGNATURE)
        self.assertRaisesRegex(TypeError, "a text is wanted, not bytes", verify, KEY.encode(), b"sample", SIGNATURE)


class Appending(unittest.TestCase):
    """Records whose signatures the library verifies."""

    def setUp(self) -> None:
        self.alice, self.bob = p256.SigningKey.generate(), p256.SigningKey.generate()

    def _stays(self, log: PackageLog, envelope: bytes, error: type[Exception], name: str) -> None:
        """Appending raises an error of this name, and leaves the log as it was."""
        before = log.head(), log.to_json()
        with self.assertRaises(error) as caught:
            log.append(envelope)
        self.assertEqual(str(caught.exception).partition(": ")[0], name)
        self.assertEqual((log.head(), log.to_json()), before)

    def test_statuses(self) -> None:
        first, second = published.envelopes(2, self.alice, self.bob)
        for log in (PackageLog(), PackageLog.from_json("{}")):
            self._stays(log, b"\x0b", NoEnvelope, "ProtobufEnvelope.Group")
            self._stays(log, second, Refused, "PreviousHashOnFirstRecord")
            log.append(first)
            self._stays(log, first, Refused, "NoPreviousHashAfterInit")
            self._stays(log, _forged(second), Refused, "SignatureError")
            self._stays(log, _with_bytes_behind(second), Refused, "SignatureError")
            # A question that was asked before is of no matter.
            log.ask(second)
            log.append(second)
            log.close()
            self.assertRaises(NotOpen, log.append, second)

    def test_other_algorithms(self) -> None:
        """What is unlawful is refused whatever the algorithm; the sentence says what to do with the rest."""
        log, first = PackageLog(), toy.envelope("carol")
        self._stays(log, first, UnknownAlgorithm, "UnknownAlgorithm")
        with self.assertRaisesRegex(UnknownAlgorithm, r"append_answered.*append\(envelope, verify\)"):
            log.append(first)
        log.append(first, toy.verify)
        self._stays(log, first, Refused, "NoPreviousHashAfterInit")
        # A key of P-256 goes on in the same log.
        contents = records.contents(
            log.head(), published.START, [records.grant(LogKind.PACKAGE, self.bob.public_key, ["release"])]
        )
        grant = records.signed(LogKind.PACKAGE, contents, toy.key_of("carol"), lambda it: toy.sign("carol", it))
        self._stays(log, grant, UnknownAlgorithm, "UnknownAlgorithm")
        question = log.ask(grant)
        log.append_answered(grant, question, toy.verify(question))
        log.append(published.release(log, self.bob, "1.0.0"))
        self.assertEqual(len(log), 3)

    def test_operators(self) -> None:
        with published.operator_log(self.alice) as log:
            self.assertEqual(len(log), 1)

    @unittest.skipUnless(LOG.is_file(), "there are no examples here")
    def test_audit(self) -> None:
        verdict = audit(LOG, LogKind.PACKAGE)
        self.assertTrue(verdict.accepted and verdict.records > 2, verdict)
        self.assertEqual(audit(LOG, LogKind.PACKAGE, p256.verify_by_cryptography), verdict)
        other = audit(LOG.parents[1] / "package_releases.hex", LogKind.PACKAGE)
        assert other.error is not None
        self.assertEqual((other.records, other.error.place, other.error.name), (0, 0, "UnknownAlgorithm"))

    @unittest.skipUnless(LOG.is_file(), "there are no examples here")
    def test_no_other_package(self) -> None:
        """Verifying imports no other package; signing says which one is missing."""
        program = f"""
import sys
sys.modules["cryptography"] = None
from weoldrin import Kind, Question, audit, p256, verify
assert verify({KEY!r}, b"sample", {SIGNATURE!r})
assert p256.verify(Question({KEY!r}, b"sample", {SIGNATURE!r}))
assert audit({str(LOG)!r}, Kind.PACKAGE).accepted
try:
    p256.SigningKey
except ModuleNotFoundError as error:
    print(error.name)
"""
        done = subprocess.run([sys.executable, "-c", program], capture_output=True, text=True, check=False)
        self.assertEqual((done.returncode, done.stderr), (0, ""))
        self.assertTrue(done.stdout.startswith("cryptography"))


def _signature_of(envelope: bytes) -> str:
    """The text of an envelope's signature, which is its last field."""
    return envelope[envelope.rindex(b"ecdsa-p256:") :].decode()


def _forged(envelope: bytes) -> bytes:
    """An envelope with another digit near the end of its signature."""
    forged = bytearray(envelope)
    forged[-8] = ord("B") if forged[-8] == ord("A") else ord("A")
    return bytes(forged)


def _with_bytes_behind(envelope: bytes) -> bytes:
    """An envelope whose signature has a byte behind its DER."""
    text = _signature_of(envelope)
    longer = p256.text_of(base64.b64decode(text.partition(":")[2]) + b"\0").encode()
    start = len(envelope) - len(text) - 1
    # A field of fewer than 128 bytes has its length in the byte before it.
    assert envelope[start] == len(text) and len(longer) < 128
    return envelope[:start] + bytes([len(longer)]) + longer


if __name__ == "__main__":
    unittest.main()
