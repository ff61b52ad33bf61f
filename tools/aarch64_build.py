"""The library for Linux on 64-bit ARM: what the toolchain's folder lacks for that machine beside its compiler.

That is the three calls of the heap, aarch64/heap.c, and something to link with in place of the machine's C library:
`stand_in` is a library of its name that has the calls of it that the proved code needs, and nothing behind them. The
machine's own takes its place where a program begins.
"""

import pathlib
import subprocess

from common import ROOT

TARGET = "aarch64-unknown-linux-gnu"
SOURCE = ROOT / "aarch64/heap.c"
# Where the machine that builds has a compiler of GCC for this target, clang finds that, and calls parts of it for what
# is atomic. Without them the bytes are the same everywhere.
COMPILED = ["-mno-outline-atomics"]
# The calls of the C library that may be needed, and their version: the first one that the machine had.
CALLS = ("free", "malloc", "memcmp", "memcpy", "memmove", "memset", "realloc")
VERSION = "GLIBC_2.17"


def compile_c(clang: pathlib.Path, source: pathlib.Path, to: pathlib.Path) -> None:
    """Compiles a source of C that calls nothing that it does not say."""
    words = [f"--target={TARGET}", "-std=c11", "-O2", "-fPIC", "-ffreestanding", "-Wall", "-Wextra", "-Werror"]
    subprocess.run([str(clang), *words, "-c", str(source), "-o", str(to)], check=True)


def heap(toolchain: pathlib.Path, to: pathlib.Path) -> pathlib.Path:
    """The archive of the heap, in a folder."""
    compile_c(toolchain / "bin/clang", SOURCE, to / "heap.o")
    made = to / "heap.a"
    subprocess.run([str(toolchain / "bin/llvm-ar"), "rcsD", str(made), str(to / "heap.o")], check=True)
    return made


def stand_in(toolchain: pathlib.Path, to: pathlib.Path) -> pathlib.Path:
    """The library that stands in for the machine's C library, in a folder."""
    source, names, made = to / "libc.c", to / "libc.map", to / "libc.so.6"
    source.write_text("".join(f"void {it}(void) {{}}\n" for it in CALLS), encoding="utf-8")
    names.write_text(f"{VERSION} {{ global: {' '.join(f'{it};' for it in CALLS)} local: *; }};\n", encoding="utf-8")
    # The compiler knows these names as those of other calls.
    words = [f"--target={TARGET}", "-fno-builtin", "-w", "-fPIC", "-c", str(source), "-o", str(to / "libc.o")]
    subprocess.run([str(toolchain / "bin/clang"), *words], check=True)
    words = ["-m", "aarch64linux", "-shared", "-soname", made.name, "--version-script", str(names)]
    subprocess.run([str(toolchain / "bin/ld.lld"), *words, str(to / "libc.o"), "-o", str(made)], check=True)
    return made
