"""Each row of conformance/values/p256.rows, by the library and by `cryptography`."""

import pathlib
import unittest

import weoldrin
from weoldrin import SignatureCheck, Verify, p256

from .rows import blocks, row_of

ROWS = pathlib.Path(__file__).resolve().parents[3] / "conformance/values/p256.rows"


def question_of(row: str) -> SignatureCheck:
    """What a row's bytes ask."""
    topic, *words = row.split(" ")
    if topic != "p256-verify" or len(words) != 3:
        raise ValueError(f"a strange row: {row}")
    key, message, signature = (b"" if it == "-" else bytes.fromhex(it) for it in words)
    return SignatureCheck(p256.text_of(key), message, p256.text_of(signature))


@unittest.skipUnless(ROWS.is_file(), "there are no rows here")
class Rows(unittest.TestCase):
    """The file."""

    def _play(self, verify: Verify) -> None:
        wrong, wanted = [], []
        for block in blocks(ROWS):
            row = row_of(block.head.text)
            wanted.append(row.wanted)
            if ("= yes" if verify(question_of(row.question)) else "= no") != row.wanted:
                wrong.append(f"line {block.head.number}: {block.head.text}")
        self.assertEqual(wrong, [])
        self.assertGreater(wanted.count("= yes"), 600)
        self.assertGreater(wanted.count("= no"), 1600)

    def test_library(self) -> None:
        """No text of a row is none that can be read."""
        self._play(lambda question: weoldrin.verify(*question))

    def test_questions(self) -> None:
        self._play(p256.verify)

    def test_cryptography(self) -> None:
        self._play(p256.verify_by_cryptography)


if __name__ == "__main__":
    unittest.main()
