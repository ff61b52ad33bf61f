"""Texts of keys and of signatures, changed digit by digit: both verifiers answer alike, and neither raises."""

import base64
import os
import random
import tracemalloc
import unittest

import weoldrin
from weoldrin import BadArgument, SignatureCheck, UnknownAlgorithm, p256

from .rows import blocks, row_of
from .test_p256_rows import ROWS, question_of

# What strangers write in the place of a digit, before it or behind it.
PIECES = list("=AZaz09+/-_:.,;!#%\\\"' \t\n\r\v\f\0\x1f\x7f\x85\xa0\xe9\u0661\u2028\ufeff\uff21\ud800\udfff\U0001f511")
PIECES += ["==", "====", "\r\n", "ecdsa-p256:", "toy:"]


def changed(text: str, some: random.Random) -> str:
    """A text with something put in, taken away, doubled, or changed in case."""
    at, to = sorted((some.randint(0, len(text)), some.randint(0, len(text))))
    match some.randrange(7):
        case 0:
            return text[:at] + some.choice(PIECES) + text[at:]
        case 1:
            return text[:at] + some.choice(PIECES) + text[at + 1 :]
        case 2:
            return text[:at] + text[at + 1 :]
        case 3:
            return text[:at] + text[at:to].swapcase() + text[to:]
        case 4:
            return text[:to] + text[at:]
        case 5:
            return text + some.choice(PIECES)
        case _:
            return text[:at] + text[to:]


def answers(question: SignatureCheck) -> tuple[bool, bool]:
    """What both verifiers say."""
    return p256.verify(question), p256.verify_by_cryptography(question)


class Texts(unittest.TestCase):
    """A key and its signature, and the rows of the suite."""

    def setUp(self) -> None:
        seed = int(os.environ.get("WARG_P256_SEED") or random.SystemRandom().randrange(2**32))
        self.some = random.Random(seed)
        self.seed = f"seed {seed}"
        key = p256.SigningKey.generate()
        self.right = SignatureCheck(key.public_key, b"what is signed", key.sign(b"what is signed"))

    def _alike(self, question: SignatureCheck) -> bool:
        by_library, by_cryptography = answers(question)
        self.assertEqual(by_library, by_cryptography, f"{question} {self.seed}")
        return by_library

    def test_changed(self) -> None:
        self.assertTrue(self._alike(self.right))
        taken = 0
        for _ in range(4000):
            key, message, signature = self.right
            for _ in range(self.some.choice((1, 1, 1, 2, 3))):
                if self.some.random() < 0.5:
                    key = changed(key, self.some)
                else:
                    signature = changed(signature, self.some)
            taken += self._alike(SignatureCheck(key, message, signature)) and (key, signature) != self.right[::2]
        self.assertEqual(taken, 0)

    @unittest.skipUnless(ROWS.is_file(), "there are no rows here")
    def test_rows(self) -> None:
        """Each row's texts, with something changed in one of them: it is refused, and by both."""
        for block in blocks(ROWS):
            question = question_of(row_of(block.head.text).question)
            key, signature = question.key, question.signature
            for change in ("=", " ", "\n", "\u0661", "\ud800", "\0"):
                at = self.some.randint(0, len(key))
                self.assertFalse(self._alike(question._replace(key=key[:at] + change + key[at:])))
                at = self.some.randint(0, len(signature))
                self.assertFalse(self._alike(question._replace(signature=signature[:at] + change + signature[at:])))

    def test_all_in_one_place(self) -> None:
        """Each character of the first planes, behind the texts and in their midst."""
        key, message, signature = self.right
        for number in [*range(0x300), *range(0x2000, 0x2070), *range(0xFF00, 0xFF60), 0xD800, 0xFEFF, 0x1F511]:
            for at in (len(key), 11, 20):
                self._alike(SignatureCheck(key[:at] + chr(number) + key[at:], message, signature))
            self._alike(SignatureCheck(key, message, signature + chr(number)))
            self._alike(SignatureCheck(key, message, signature[:-1] + chr(number)))

    def test_other_bits(self) -> None:
        """There is one text of some bytes: bits behind the last byte are none."""
        digits = "ABCDEFGHIJKLMNOPQRSTUVWXYZabcdefghijklmnopqrstuvwxyz0123456789+/"
        point = base64.b64decode(self.right.key.partition(":")[2])
        for length in (1, 2, 64, 65):
            data = (point * 2)[:length]
            text = p256.text_of(data)
            body = text.rstrip("=")
            for digit in digits:
                other = body[:-1] + digit + text[len(body) :]
                self._alike(self.right._replace(key=other))
                try:
                    weoldrin.verify(other, b"", self.right.signature)
                    is_read = True
                except BadArgument:
                    is_read = False
                decoded = base64.b64decode(other.partition(":")[2])
                self.assertEqual(is_read, p256.text_of(decoded) == other, other)

    def test_memory(self) -> None:
        """Long texts that are refused leave nothing behind, and all other texts not more than a bounded piece."""
        key, message, signature = self.right
        answers(self.right)
        tracemalloc.start()
        try:
            before = tracemalloc.get_traced_memory()[0]
            for place in range(400):
                long = f"ecdsa-p256:{place:0100000}"
                self.assertEqual(answers(SignatureCheck(long, message, signature)), (False, False))
                self.assertEqual(answers(SignatureCheck(key, message, long)), (False, False))
            grown = tracemalloc.get_traced_memory()[0] - before
            for _ in range(3000):
                answers(SignatureCheck(p256.text_of(self.some.randbytes(65)), message, signature))
            after = tracemalloc.get_traced_memory()[0] - before
        finally:
            tracemalloc.stop()
        self.assertLess(grown, 200_000)
        self.assertLess(after, 1_000_000)

    def test_other_algorithms(self) -> None:
        self.assertRaises(UnknownAlgorithm, weoldrin.verify, "toy:" + "A" * 5_000_000, b"", "")
        self.assertEqual(answers(SignatureCheck("toy:" + "A" * 5_000_000, b"", "")), (False, False))


if __name__ == "__main__":
    unittest.main()
