"""Tests of how the module of the proved code is kept, and written for WebAssembly."""

import pathlib
import shutil
import subprocess
import sys
import tempfile
import unittest

sys.path.insert(0, str(pathlib.Path(__file__).resolve().parents[1]))

from common import PRODUCTS, ROOT
from wasm_addresses import NoModule
from wasm_build import LAYOUT, SHUFFLE, TARGET, exported, keeping, retargeted

HEAD = 'target datalayout = "e-m:e-i64:64"\ntarget triple = "x86_64-unknown-linux-gnu"\n'
CODE = f"""define <16 x i8> @f(<16 x i8> %a) #0 {{
  %b = call <16 x i8> @{SHUFFLE}(<16 x i8> %a, <16 x i8> %a)
  ret <16 x i8> %b
}}
declare <16 x i8> @{SHUFFLE}(<16 x i8>, <16 x i8>) #1
"""
ATTRIBUTES = 'attributes #0 = { nounwind "target-cpu"="x86-64" "target-features"="+x87" "probe-stack"="inline-asm" }'


class Retargeted(unittest.TestCase):
    """The text of a module."""

    def test_target(self) -> None:
        text = retargeted(HEAD + CODE + ATTRIBUTES)
        self.assertIn(f'target datalayout = "{LAYOUT}"\ntarget triple = "{TARGET}"\n', text)
        self.assertNotIn("x86", text.replace("x86-64, `pshufb`", "").replace("instruction of x86-64", ""))
        self.assertIn("attributes #0 = { nounwind }", text)

    def test_shuffle(self) -> None:
        text = retargeted(HEAD + CODE)
        self.assertIn("%b = call <16 x i8> @shuffle_bytes(<16 x i8> %a, <16 x i8> %a)", text)
        self.assertIn("define internal <16 x i8> @shuffle_bytes(", text)
        self.assertEqual(text.count("declare"), 1)
        self.assertNotIn("shuffle_bytes", retargeted(HEAD))

    def test_other_instructions(self) -> None:
        other = "declare <4 x i32> @llvm.x86.sha256rnds2(<4 x i32>, <4 x i32>, <4 x i32>)\n"
        with self.assertRaisesRegex(NoModule, "instructions of x86-64: llvm.x86.sha256rnds2"):
            retargeted(HEAD + CODE + other)

    def test_assembler(self) -> None:
        lines = ['  call void asm sideeffect "nop", ""()', '  %a = call i64 asm "rdtsc", "=r"()', 'module asm "nop"']
        for text in [*lines, 'module asm ""']:
            with self.assertRaisesRegex(NoModule, "assembler"):
                retargeted(f"{HEAD}{text}\n")
        barrier = '  call void asm sideeffect "", "~{memory}"()\n'
        self.assertIn(barrier, retargeted(HEAD + barrier))

    def test_no_module(self) -> None:
        for text in ("", CODE, HEAD.splitlines()[0], HEAD + HEAD):
            with self.assertRaisesRegex(NoModule, "lines of its target"):
                retargeted(text)


class Keeping(unittest.TestCase):
    """A toolchain whose clang keeps what it compiles."""

    def test_keeps(self) -> None:
        with tempfile.TemporaryDirectory() as name:
            folder = pathlib.Path(name)
            for it in ("toolchain/bin", "toolchain/lib", "made"):
                (folder / it).mkdir(parents=True)
            clang = folder / "toolchain/bin/clang"
            clang.write_text('#!/bin/sh\necho "compiled $*"\nexit 3\n', encoding="utf-8")
            clang.chmod(0o755)
            (folder / "toolchain/bin/ld.lld").symlink_to("clang")
            (folder / "the module.bc").write_text("a module", encoding="utf-8")
            kept = folder / "kept here.bc"
            made = keeping(folder / "toolchain", folder / "made", kept)
            self.assertEqual(sorted(it.name for it in (made / "bin").iterdir()), ["clang", "ld.lld"])
            words = [str(made / "bin/clang"), "-O3", str(folder / "the module.bc"), "-o", "x"]
            done = subprocess.run(words, capture_output=True, text=True, check=False)
            self.assertEqual(done.returncode, 3)
            self.assertEqual(done.stdout, f"compiled -O3 {folder}/the module.bc -o x\n")
            self.assertEqual(kept.read_text(encoding="utf-8"), "a module")
            kept.unlink()
            shutil.rmtree(folder / "made")
            made = keeping(folder / "toolchain", folder / "made", kept, "-one", "-two")
            done = subprocess.run([str(made / "bin/clang"), "-O3"], capture_output=True, text=True, check=False)
            self.assertEqual(done.stdout, "compiled -O3 -one -two\n")
            subprocess.run([str(made / "bin/clang"), "--version"], capture_output=True, check=False)
            self.assertFalse(kept.exists())


class Sources(unittest.TestCase):
    """What the library is made of."""

    def test_parts(self) -> None:
        """The manifest lists each source, and nothing else."""
        sources = {str(it.relative_to(ROOT)) for it in (ROOT / "wasm").iterdir() if it.suffix in (".c", ".h", ".ll")}
        tools = {"tools/wasm_addresses.py", "tools/wasm_build.py"}
        self.assertEqual(set(PRODUCTS["libwarg.wasm"].parts), sources | tools)

    def test_exports(self) -> None:
        names = exported(ROOT / "include/warg.h")
        self.assertIn("warg_append_signed", names)
        self.assertEqual(len(names), len(set(names)))
        self.assertGreater(len(names), 25)


if __name__ == "__main__":
    unittest.main()
