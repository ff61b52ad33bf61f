"""A log of 50 records by keys of P-256, each of which is forged in every way and refused, and then taken."""

import base64
import functools
import unittest
from collections.abc import Callable

from weoldrin import PackageLog, Refused, SignatureCheck, p256, records

from . import published


class Forgeries(unittest.TestCase):
    """Each forgery is refused, and leaves the log as it was."""

    def setUp(self) -> None:
        self.alice, self.bob, self.mallory = (p256.SigningKey.generate() for _ in range(3))
        self.log = PackageLog()
        self.addCleanup(self.log.close)

    def _refused(self, name: str, append: Callable[[], None]) -> None:
        before = self.log.head(), len(self.log), self.log.to_json()
        with self.assertRaises(Refused) as caught:
            append()
        self.assertEqual(caught.exception.name, name)
        self.assertEqual((self.log.head(), len(self.log), self.log.to_json()), before)

    def _forged(self, envelope: bytes) -> None:
        """It is refused for its signature, by the library's verifier and by another one."""
        for verify in (None, p256.verify, p256.verify_by_cryptography):
            self._refused("SignatureError", functools.partial(self.log.append, envelope, verify))

    def _misanswered(self, name: str, envelope: bytes, question: SignatureCheck) -> None:
        """It is refused where this question was answered by yes."""
        self._refused(name, lambda: self.log.append_answered(envelope, question, True))

    def _contents(self, place: int, mark: str = "") -> bytes:
        if place == 0:
            grant = records.grant(self.log.KIND, self.bob.public_key, ["release"])
            entries = [records.init(self.alice.public_key), grant]
        else:
            entries = [records.release(f"1.{place}.0", records.sha256_text(mark.encode()))]
        return records.contents(self.log.head(), published.START + len(mark), entries)

    def test_log_of_50(self) -> None:
        for place in range(50):
            signer = self.bob if place else self.alice
            contents, other = self._contents(place), self._contents(place, "other")
            message, key_id = records.message(self.log.KIND, contents), records.key_id(signer.public_key)
            signature = signer.sign(message)
            envelope = records.envelope(contents, key_id, signature)
            with self.subTest(place=place):
                # By another key, with another message, with another signature.
                self._forged(records.envelope(contents, key_id, self.mallory.sign(message)))
                self._forged(records.envelope(other, key_id, signature))
                self._forged(records.envelope(contents, key_id, _changed(signature)))
                # By the answer to another question: of another record, and of one that was not asked.
                signed = signer.sign(records.message(self.log.KIND, other))
                asked = self.log.ask(records.envelope(other, key_id, signed))
                self._misanswered("SignatureError", envelope, asked)
                self._misanswered(
                    "SignatureError", envelope, SignatureCheck(self.mallory.public_key, message, signature)
                )
                question = self.log.ask(envelope)
                self.assertEqual(question, (signer.public_key, message, signature))
                if place % 2:
                    self.log.append(envelope)
                else:
                    self.log.append_answered(envelope, question, p256.verify(question))
                # By an answer that was used.
                used = "RecordHashDoesNotMatch" if place else "NoPreviousHashAfterInit"
                self._misanswered(used, envelope, question)
        self.assertEqual(len(self.log), 50)


def _changed(signature: str) -> str:
    """A signature with another last byte."""
    algorithm, _, digits = signature.partition(":")
    data = bytearray(base64.b64decode(digits))
    data[-1] ^= 1
    return f"{algorithm}:{base64.b64encode(data).decode()}"


class Texts(unittest.TestCase):
    """What is read as a key and as a signature, by the library and before `cryptography` is asked."""

    def setUp(self) -> None:
        self.key = p256.SigningKey.generate()
        self.message = b"what is signed"
        self.signature = self.key.sign(self.message)

    def _verified(self, key: str, signature: str) -> bool:
        question = SignatureCheck(key, self.message, signature)
        answer = p256.verify(question)
        self.assertEqual(p256.verify_by_cryptography(question), answer)
        return answer

    def test_keys(self) -> None:
        point = base64.b64decode(self.key.public_key.partition(":")[2])
        self.assertEqual((len(point), point[0] in (2, 3)), (33, True))
        self.assertTrue(self._verified(self.key.public_key, self.signature))
        again = p256.SigningKey.from_pem(self.key.to_pem())
        self.assertEqual(again.public_key, self.key.public_key)
        uncompressed = _uncompressed(point)
        self.assertTrue(self._verified(p256.text_of(uncompressed), self.signature))
        hybrid = bytes([6 + uncompressed[-1] % 2]) + uncompressed[1:]
        for wrong in [b"", b"\0", point[:-1], point + b"\0", hybrid, b"\x02" + b"\xff" * 32, uncompressed[:-1]]:
            self.assertFalse(self._verified(p256.text_of(wrong), self.signature), wrong)

    def test_signatures(self) -> None:
        for wrong in ["", "ecdsa-p256", "ecdsa-p256:", "toy:" + self.signature.partition(":")[2], self.signature[:-4]]:
            self.assertFalse(self._verified(self.key.public_key, wrong), wrong)
        trailing = base64.b64decode(self.signature.partition(":")[2]) + b"\0"
        self.assertFalse(self._verified(self.key.public_key, p256.text_of(trailing)))
        self.assertFalse(self._verified("toy:YWxpY2U=", self.signature))


def _uncompressed(point: bytes) -> bytes:
    """A point in its other form: the second coordinate is a root of x^3 - 3x + b."""
    prime = 2**256 - 2**224 + 2**192 + 2**96 - 1
    b = 0x5AC635D8AA3A93E7B3EBBD55769886BC651D06B0CC53B0F63BCE3C3E27D2604B
    x = int.from_bytes(point[1:], "big")
    y = pow(x**3 - 3 * x + b, (prime + 1) // 4, prime)
    if y % 2 != point[0] % 2:
        y = prime - y
    return b"\x04" + point[1:] + y.to_bytes(32, "big")


if __name__ == "__main__":
    unittest.main()
