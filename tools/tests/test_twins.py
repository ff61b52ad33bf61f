"""Tests of tools/twins, on small folders of crates."""

import pathlib
import runpy
import subprocess
import sys
import tempfile
import unittest
from collections.abc import Callable

TOOLS = pathlib.Path(__file__).resolve().parents[1]
sys.path.insert(0, str(TOOLS))

TWIN_LINES: Callable[[str, str], int] = runpy.run_path(str(TOOLS / "twins"))["twin_lines"]

OPERATOR = """\
//! The state of an operator log.
use crate::namespace_map::NamespaceMap;
use records::operator::OPERATOR_RECORD_VERSION;

pub fn new() -> Log<NamespaceMap> {
    Log::new()
}

pub fn namespaces() {}
"""
PACKAGE = """\
//! The state of a package log.
use crate::release_map::ReleaseMap;
use records::package::PACKAGE_RECORD_VERSION;
pub fn new() -> Log<ReleaseMap> {
    Log::new()
}
pub fn releases() {}
"""


class TwinLines(unittest.TestCase):
    """What is counted of two texts."""

    def test_names_and_blank_lines_are_passed_over(self) -> None:
        self.assertEqual(TWIN_LINES(OPERATOR, PACKAGE), 5)

    def test_runs_of_two_are_no_twins(self) -> None:
        self.assertEqual(TWIN_LINES("a\nb\nx\nc\nd\n", "a\nb\ny\nc\nd\n"), 0)
        self.assertEqual(TWIN_LINES("a\nb\nc\nx\nd\n", "a\nb\nc\ny\nd\n"), 3)

    def test_order_counts(self) -> None:
        self.assertEqual(TWIN_LINES("a\nb\nc\nd\ne\nf\n", "d\ne\nf\na\nb\nc\n"), 3)

    def test_depth_of_a_line_does_not_count(self) -> None:
        self.assertEqual(TWIN_LINES("    a\n    b\n    c\n", "a\nb\nc\n"), 3)


class Command(unittest.TestCase):
    """Runs of the command on a folder of its own."""

    def setUp(self) -> None:
        folder = tempfile.TemporaryDirectory()
        self.addCleanup(folder.cleanup)
        self.root = pathlib.Path(folder.name)
        self.lay("operator_log/src/state.rt", OPERATOR)
        self.lay("package_log/src/state.rt", PACKAGE)
        self.lay("laws/specs/OperatorLaws.antt", "a\nb\nc\n")
        self.lay("laws/specs/PackageLaws.antt", "a\nb\nc\n")
        self.lay("laws/proofs/NamespaceMap/get/Answers.antt", "a\nb\nc\n")
        self.lay("laws/proofs/ReleaseMap/get/Answers.antt", "a\nb\nc\nd\n")
        # No pairs: one alone, one that no crate has, and one that is not of Rattle.
        self.lay("operator_log/src/alone.rt", "a\nb\nc\n")
        self.lay("operator_log/out/made.rt", "a\nb\nc\n")
        self.lay("package_log/out/made.rt", "a\nb\nc\n")
        self.lay("operator_log/src/note.md", "a\nb\nc\n")
        self.lay("package_log/src/note.md", "a\nb\nc\n")

    def lay(self, name: str, text: str) -> None:
        """Lays a file under the folder's crates."""
        path = self.root / "crates" / name
        path.parent.mkdir(parents=True, exist_ok=True)
        path.write_text(text, encoding="utf-8")

    def run_twins(self, *words: str) -> subprocess.CompletedProcess[str]:
        """What the command prints and how it ends."""
        command = [sys.executable, str(TOOLS / "twins"), *words, str(self.root)]
        return subprocess.run(command, capture_output=True, text=True, check=False)

    def test_prints_each_pair_and_the_totals(self) -> None:
        done = self.run_twins()
        self.assertEqual(done.returncode, 0)
        self.assertEqual(
            done.stdout.splitlines(),
            [
                "    5 of     7 operator_log/src/state.rt",
                "    3 of     3 laws/proofs/NamespaceMap/get/Answers.antt",
                "    3 of     3 laws/specs/OperatorLaws.antt",
                "    5 of     7 code, in 1 files",
                "    3 of     3 definitions, in 1 files",
                "    3 of     3 proofs, in 1 files",
                "   11 of    13 twin lines, in 3 files",
            ],
        )

    def test_fails_above_the_most(self) -> None:
        self.assertEqual(self.run_twins("--most", "11").returncode, 0)
        done = self.run_twins("--most", "10")
        self.assertEqual(done.returncode, 1)
        self.assertEqual(done.stderr, "tools/twins: 11 twin lines, more than 10\n")


if __name__ == "__main__":
    unittest.main()
