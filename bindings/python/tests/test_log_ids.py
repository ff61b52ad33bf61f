"""The ids of logs by their names, and the leaves of a registry's log, by the bytes that docs/FORMATS.md gives."""

import hashlib
import unittest
from typing import Any

from weoldrin import BadArgument, LogKind, leaf, log_id

from .test_values import LyingText, others
from .trees import Leaf, id_of

# The id of the log of `example:math` stands in docs/TRUST.md.
MATH = "sha256:af6410747c0a7692c8dc4cf6f83cbb8da9041875f1ad9a5a2fca0eef51379ec1"
# What `printf WARG-OPERATOR-LOG-ID-V0 | sha256sum` prints.
OPERATORS = "sha256:0db9178aabc877b42f03a038bf453ee53f08e3c8c55fab916043428078596bfb"
NO_HASHES = ["", "sha256", "sha256:", "sha256:00", f"sha512:{64 * '0'}", f"sha256:{64 * 'g'}", 64 * "0", "é", "\ud800"]


def id_by_definition(name: str) -> str:
    """The id of the log of a package."""
    # A text has its length before it, as LEB128.
    length = bytes([len(name)]) if len(name) < 128 else bytes([len(name) % 128 + 128, len(name) // 128])
    data = b"WARG-PACKAGE-LOG-ID-V0:WARG-PACKAGE-ID-V0" + length + name.encode()
    return f"sha256:{hashlib.sha256(data).hexdigest()}"


class Ids(unittest.TestCase):
    """Ids of logs."""

    def _is_bad(self, kind: LogKind, name: str) -> None:
        with self.assertRaises(BadArgument) as raised:
            log_id(kind, name)
        self.assertEqual(raised.exception.name, "BadName", name)
        self.assertTrue(raised.exception.sentence)

    def test_packages(self) -> None:
        self.assertEqual(log_id(LogKind.PACKAGE, "example:math"), MATH)
        self.assertEqual(log_id("package", LyingText("example:math")), MATH)
        names = ["example:math", "a:b", "example-two:math-lib2", *(f"{'a' * count}:b" for count in (125, 126, 9000))]
        for name in names:
            self.assertEqual(log_id(LogKind.PACKAGE, name), id_by_definition(name))

    def test_operators(self) -> None:
        self.assertEqual(log_id(LogKind.OPERATOR), OPERATORS)
        self.assertEqual(log_id("operator", ""), OPERATORS)

    def test_names_of_none(self) -> None:
        for name in (
            *("", ":", "a:", ":b", "math", "Example:math", "example:Math", "a:b:c", "a::b", "a-:b", "-a:b", "a--b:c"),
            *("1a:b", "a:1b", "a_b:c", "a:b ", " a:b", "a:b\0", "\0", "a:é", "\U0001f511", "a:\ud800", "\udfff"),
            "a" * (1 << 20),
        ):
            self._is_bad(LogKind.PACKAGE, name)
        for name in ("example:math", "a", " ", "\0", "\ud800", "a" * (1 << 20)):
            self._is_bad(LogKind.OPERATOR, name)

    def test_others(self) -> None:
        for kind in others("", "packages", "PACKAGE", 0, 1, True, None):
            self.assertRaisesRegex(ValueError, "Kind.PACKAGE or Kind.OPERATOR", log_id, kind, "example:math")
        for name in others(b"example:math", None, 7):
            self.assertRaisesRegex(TypeError, "a text is wanted, not", log_id, "package", name)


class Leaves(unittest.TestCase):
    """Leaves of a registry's log."""

    def test_bytes(self) -> None:
        log, record = id_of("log 2"), id_of("record 5")
        wanted = b"WARG-LOG-LEAF-V0" + bytes([71]) + log.encode() + bytes([71]) + record.encode()
        self.assertEqual(leaf(log, record), wanted)
        self.assertEqual(hashlib.sha256(b"\0" + wanted).digest(), Leaf(log, record).of_log())
        self.assertEqual(leaf(_upper(log), _upper(record)), wanted)
        self.assertEqual(leaf(LyingText(log), LyingText(record)), wanted)
        self.assertNotEqual(leaf(record, log), wanted)

    def test_no_ids(self) -> None:
        some = id_of("log 2")
        for wrong in NO_HASHES:
            for words in ((wrong, some), (some, wrong)):
                with self.assertRaises(BadArgument) as raised:
                    leaf(*words)
                self.assertEqual(raised.exception.name, "BadText")

    def test_others(self) -> None:
        wrong: Any
        for wrong in others(b"sha256:", None, 7):
            self.assertRaisesRegex(TypeError, "a text is wanted, not", leaf, wrong, MATH)
            self.assertRaisesRegex(TypeError, "a text is wanted, not", leaf, MATH, wrong)


def _upper(text: str) -> str:
    """The text of a hash in upper case, in which it is read too."""
    return text[:7] + text[7:].upper()


if __name__ == "__main__":
    unittest.main()
