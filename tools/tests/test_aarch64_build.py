"""Tests of tools/aarch64_build.py, and of the heap of the library for 64-bit ARM, which this machine's compiler takes
too."""

import pathlib
import shutil
import subprocess
import sys
import tempfile
import unittest

TOOLS = pathlib.Path(__file__).resolve().parents[1]
sys.path.insert(0, str(TOOLS))

from aarch64_build import CALLS, SOURCE, heap, stand_in
from common import PRODUCTS, ROOT
from over_ci import kit
from packages import elf

# The text that a wrong body has in place of another, which a trial has to see.
WRONG = {
    "nothing is asked for as nothing": ("malloc(bytes ? bytes : alignment)", "malloc(bytes)"),
    "nothing is kept as nothing": ("realloc(at, bytes ? bytes : alignment)", "realloc(at, bytes)"),
    "what is moved has the length of before": ("realloc(at, bytes ? bytes", "realloc(at, kept ? kept"),
    "a refusal is memory": ("at != 0, at", "1, at"),
    "a refusal leads to nothing": ("at ? at : &nothing", "at"),
    "nothing is given back": ("    free(at);", "    (void)at;"),
}


class Heap(unittest.TestCase):
    """The heap, beside calls of the C library that tell what they are asked."""

    def trial(self, old: str = "", new: str = "") -> int:
        """The status of the trial, where this text stands in place of that one."""
        flags = ["-std=c11", "-Wall", "-Wno-unused", "-fno-builtin", "-O1"]
        flags.append(",".join(["-Wl", *(f"--wrap={it}" for it in ("malloc", "realloc", "free"))]))
        with tempfile.TemporaryDirectory() as name:
            source, made = pathlib.Path(name) / "heap.c", pathlib.Path(name) / "trial"
            text = SOURCE.read_text(encoding="utf-8")
            self.assertTrue(not old or text.count(old) == 1, old)
            source.write_text(text.replace(old, new) if old else text, encoding="utf-8")
            parts = [str(source), str(ROOT / "aarch64/tests/heap_trial.c")]
            subprocess.run(["cc", *flags, *parts, "-o", str(made)], check=True)
            return subprocess.run([made], check=False).returncode

    @unittest.skipUnless(shutil.which("cc"), "there is no compiler of C")
    def test_heap(self) -> None:
        """It asks as it has to, and each wrong body is seen."""
        self.assertEqual(self.trial(), 0)
        for name, (old, new) in WRONG.items():
            with self.subTest(name):
                self.assertNotEqual(self.trial(old, new), 0)


class Built(unittest.TestCase):
    """What is made of it."""

    def test_parts(self) -> None:
        """The manifest lists each source, and nothing else."""
        wanted = {str(SOURCE.relative_to(ROOT)), "tools/aarch64_build.py"}
        self.assertEqual(set(PRODUCTS["libwarg.aarch64"].parts), wanted)
        self.assertEqual([it.name for it in SOURCE.parent.glob("*.c")], [SOURCE.name])

    @unittest.skipUnless(shutil.which("rt"), "there is no toolchain")
    def test_made(self) -> None:
        """Two runs make the same bytes, for that machine."""
        seen = []
        for _ in range(2):
            with tempfile.TemporaryDirectory() as name:
                folder, toolchain = pathlib.Path(name), kit() / "toolchain"
                made = stand_in(toolchain, folder)
                self.assertEqual(elf.needs(made), ("aarch64", "libc.so.6", (), (2, 0)))
                data = made.read_bytes()
                for it in CALLS:
                    self.assertIn(f"\0{it}\0".encode(), data)
                seen.append((data, heap(toolchain, folder).read_bytes()))
        self.assertEqual(seen[0], seen[1])

    def test_released(self) -> None:
        """The library of dist/ is for that machine, and for each glibc that it ever had."""
        library = PRODUCTS["libwarg.aarch64"].released()["libwarg.so"]
        needs = elf.needs(library)
        self.assertEqual((needs.machine, needs.libraries, needs.glibc), ("aarch64", ("libc.so.6",), (2, 17)))


if __name__ == "__main__":
    unittest.main()
