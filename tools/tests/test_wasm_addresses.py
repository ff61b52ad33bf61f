"""Tests of how a module with long addresses is written as one with short ones."""

import pathlib
import sys
import unittest

sys.path.insert(0, str(pathlib.Path(__file__).resolve().parents[1]))

from wasm_addresses import MOST, NoModule, Reader, number_of, signed_of, with_short_addresses

HEAD = b"\0asm\1\0\0\0"
MEMORY = b"\5\3\1\4\1"
# A type: of a number of 64 bits one of 64 bits.
TYPE = b"\1\6\1\x60\1\x7e\1\x7e"
LENGTHENED = b"\x80\x80\x80\x80\x80\x80\x80\x80\x80\0"


def section(kind: int, content: bytes) -> bytes:
    """A section."""
    return bytes([kind]) + number_of(len(content)) + content


def module(code: bytes, groups: bytes = b"\0", memory: bytes = MEMORY, rest: bytes = b"") -> bytes:
    """A module with one function of this code, and of these local variables."""
    body = groups + code + b"\x0b"
    return HEAD + TYPE + b"\3\2\1\0" + memory + section(10, b"\1" + number_of(len(body)) + body) + rest


class Numbers(unittest.TestCase):
    """LEB128."""

    def test_numbers(self) -> None:
        for number in (0, 1, 127, 128, 16383, 16384, 2**32 - 1, 2**64 - 1):
            self.assertEqual(Reader(number_of(number)).number(), number)
        self.assertEqual(number_of(128), b"\x80\1")
        self.assertEqual(Reader(LENGTHENED).number(), 0)

    def test_signed(self) -> None:
        for number in (0, 63, 64, -1, -64, -65, 8191, 8192, -(2**31), 2**31 - 1, -(2**63), 2**63 - 1):
            self.assertEqual(Reader(signed_of(number)).signed(), number)
        self.assertEqual([signed_of(it) for it in (63, 64, -64, -65)], [b"\x3f", b"\xc0\0", b"\x40", b"\xbf\x7f"])


class Written(unittest.TestCase):
    """What is written."""

    def code(self, code: bytes, groups: bytes = b"\0") -> bytes:
        """The local variables and the code of the function of `code`."""
        found = with_short_addresses(module(code, groups))
        at = found.index(b"\3\2\1\0\5") + 4
        memory = section(5, b"\1\1\1" + number_of(MOST))
        self.assertEqual(found[at : at + len(memory)], memory)
        body = Reader(found[at + len(memory) + 1 :]).part()
        self.assertEqual(body.number(), 1)
        return body.part().data

    def test_loads(self) -> None:
        self.assertEqual(self.code(b"\x20\0\x29\3\x10"), b"\0\x20\0\xa7\x29\3\x10\x0b")
        # An offset is written as short as it can be.
        self.assertEqual(self.code(b"\x20\0\x29\3" + LENGTHENED), b"\0\x20\0\xa7\x29\3\0\x0b")
        self.assertEqual(self.code(b"\x20\0\xfd\0\4\0\xfd\x1d\1"), b"\0\x20\0\xa7\xfd\0\4\0\xfd\x1d\1\x0b")

    def test_stores(self) -> None:
        stored = self.code(b"\x20\0\x20\0\x37\3\x10\x20\0")
        self.assertEqual(stored, b"\1\1\x7e\x20\0\x20\0\x21\1\xa7\x20\1\x37\3\x10\x20\0\x0b")
        # Behind two variables that the function has, and each type has one.
        twice = self.code(b"\x20\0\x41\0\x3a\0\0\x20\0\x41\0\x36\2\0\x20\0", b"\1\2\x7f")
        self.assertEqual(twice.count(b"\x21\3\xa7\x20\3"), 2)
        self.assertTrue(twice.startswith(b"\2\2\x7f\1\x7f\x20"))

    def test_what_stays(self) -> None:
        code = b"\x02\x7e\x42\xff\0\x0c\0\x0b\x44" + bytes(8) + b"\x1a\x41\1\x0e\1\0\0\x20\0\x7c\x20\0\xfc\6\x1a"
        self.assertEqual(self.code(code), b"\0" + code + b"\x0b")
        kept = section(7, b"\1\1f\0\0")
        whole = with_short_addresses(module(b"\x20\0", rest=kept))
        self.assertTrue(whole.endswith(kept))

    def test_data(self) -> None:
        rest = section(11, b"\1\0\x42\x80\x80\xc0\0\x0b\2ab")
        found = with_short_addresses(module(b"\x20\0", rest=rest))
        self.assertTrue(found.endswith(section(11, b"\1\0\x41\x80\x80\xc0\0\x0b\2ab")))


class Refused(unittest.TestCase):
    """What is not known is no module."""

    def test_modules(self) -> None:
        faults = {
            b"": "no module",
            HEAD[:-1] + b"\1": "no module",
            HEAD + b"\5\3\1\0\1": "not one memory",
            HEAD + b"\5\4\1\5\1\2": "not one memory",
            HEAD + section(1, b"\1\x5f"): "none of a function",
            HEAD + section(10, b"\1\2\0\x0b"): "other functions",
            HEAD + section(8, b"\0"): "a section 8",
            HEAD + section(11, b"\1\0\x41\0\x0b\0"): "no constant",
            HEAD + section(11, b"\1\1\0"): "no constant",
            HEAD + section(11, b"\1\0\x42\x7f\x0b\0"): "none of memory",
        }
        for data, pattern in faults.items():
            with self.subTest(pattern), self.assertRaisesRegex(NoModule, pattern):
                with_short_addresses(data)

    def test_instructions(self) -> None:
        for code in (b"\x06", b"\xc5", b"\xfc\x08\0\0", b"\xfc\x0c\0\0", b"\xfd\x80\2", b"\xfe\0"):
            with self.subTest(code), self.assertRaisesRegex(NoModule, "an instruction is"):
                with_short_addresses(module(code))
        with self.assertRaisesRegex(NoModule, "the offset 4294967296"):
            with_short_addresses(module(b"\x20\0\x29\3\x80\x80\x80\x80\x10"))


if __name__ == "__main__":
    unittest.main()
