"""What strangers wrote, as it is printed."""

import sys
import unicodedata
import unittest

from weoldrin import Error, printable


class Printable(unittest.TestCase):
    """Each number of a character."""

    def test_all(self) -> None:
        """Control characters, separators, marks of direction and of the byte order, and what is no character, are
        written by their numbers, a backslash twice, and all else as it is."""
        marks = {0x61C, 0x200E, 0x200F, *range(0x202A, 0x202F), *range(0x2066, 0x206A), 0xFEFF}
        escaped = set()
        for number in range(sys.maxunicode + 1):
            shown = printable(chr(number))
            if shown != chr(number):
                escaped.add(number)
                self.assertEqual(shown, "\\\\" if number == 0x5C else f"\\u{{{number:x}}}")
        wanted = {0x5C, 0x2028, 0x2029, *marks, *range(0xFDD0, 0xFDF0), *range(0xD800, 0xE000)}
        every = range(sys.maxunicode + 1)
        wanted |= {it for it in every if unicodedata.category(chr(it)) == "Cc" or it % 0x10000 > 0xFFFD}
        self.assertEqual(escaped, wanted)

    def test_texts(self) -> None:
        self.assertEqual(printable("a\x1b[2J\nb\u202ec\\u{a}\x9b"), "a\\u{1b}[2J\\u{a}b\\u{202e}c\\\\u{a}\\u{9b}")
        self.assertEqual(printable("Größe 東京 🔑 e\u0301"), "Größe 東京 🔑 e\u0301")

    def test_errors(self) -> None:
        error = Error("Name: of \x1b\n")
        self.assertEqual((error.name, error.sentence, str(error)), ("Name", "of \x1b\n", "Name: of \\u{1b}\\u{a}"))


if __name__ == "__main__":
    unittest.main()
