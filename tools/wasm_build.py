"""The library as WebAssembly: of the module of LLVM that the toolchain makes of the proved crate.

The toolchain proves a crate, makes one module of it, and has its clang compile that. `keeping` is a folder with the
same files whose clang keeps what it is given. The module is one for x86-64; `retargeted` writes its text for
WebAssembly with a memory of 64-bit addresses, where each size and each offset is the same. What is linked of it is
written for a memory of 32-bit addresses then (wasm_addresses.py).
"""

import pathlib
import re
import shutil
import subprocess
import tempfile
from collections.abc import Callable

from common import ROOT
from wasm_addresses import NoModule, with_short_addresses

SOURCES = ROOT / "wasm"
TARGET = "wasm64-unknown-unknown"
LAYOUT = "e-m:e-p:64:64-p10:8:8-p20:8:8-i64:64-i128:128-n32:64-S128-ni:1:10:20"
FEATURES = ["-mbulk-memory", "-msign-ext", "-mnontrapping-fptoint", "-msimd128"]
# Loops are not made ones over vectors: with that, clang compiled the proofs of consistency of the log wrongly, which
# the rows of `conformance/` showed.
COMPILED = [f"--target={TARGET}", *FEATURES, "-O3", "-fno-vectorize", "-fno-slp-vectorize"]
# How much of memory the stack has, which lies before everything else: what goes beyond it is no memory, and a trap.
STACK = 1 << 20
# What the host calls beside what the header declares.
HOST = ["host_alloc", "host_free", "host_limit", "host_used"]
# The one intrinsic of x86-64 that the module may name.
SHUFFLE = "llvm.x86.ssse3.pshuf.b.128"
# Attributes of functions that say how x86-64 is compiled.
ATTRIBUTES = re.compile(r' ?"(?:target-cpu|target-features|tune-cpu|probe-stack|stack-probe-size)"="[^"]*"')

CLANG = """#!/bin/sh
# Keeps the module that the toolchain hands to its clang, and calls that.
for word in "$@"; do
    case $word in *.bc) cp -- "$word" {module} ;; esac
done
exec {clang} "$@"{more}
"""


def keeping(toolchain: pathlib.Path, folder: pathlib.Path, module: pathlib.Path, *more: str) -> pathlib.Path:
    """A toolchain's folder as that one, made in a folder, whose clang copies the module that it compiles to a file, and
    is passed more words."""
    made = folder / "toolchain"
    (made / "bin").mkdir(parents=True)
    (made / "lib").symlink_to(toolchain / "lib")
    for it in (toolchain / "bin").iterdir():
        if it.name != "clang":
            (made / "bin" / it.name).symlink_to(it)
    clang = made / "bin/clang"
    words = {"module": f"'{module}'", "clang": f"'{toolchain}/bin/clang'", "more": "".join(f" {it}" for it in more)}
    clang.write_text(CLANG.format(**words), encoding="utf-8")
    clang.chmod(0o755)
    return made


def retargeted(text: str) -> str:
    """The text of the module as one for WebAssembly. Raises `NoModule` where it names what is x86-64's alone."""
    found = re.findall(r"^target (?:datalayout|triple) = .*$", text, re.M)
    if len(found) != 2:
        raise NoModule(f"the module has {len(found)} lines of its target, and not 2")
    text = re.sub(r"^target datalayout = .*$", f'target datalayout = "{LAYOUT}"', text, count=1, flags=re.M)
    text = re.sub(r"^target triple = .*$", f'target triple = "{TARGET}"', text, count=1, flags=re.M)
    text = ATTRIBUTES.sub("", text)
    declared = rf"^declare <16 x i8> @{re.escape(SHUFFLE)}\(.*$"
    shuffle = (SOURCES / "shuffle.ll").read_text(encoding="utf-8")
    if re.search(declared, text, re.M):
        text = re.sub(declared, lambda _: shuffle, text, count=1, flags=re.M)
        text = text.replace(f"@{SHUFFLE}(", "@shuffle_bytes(")
    if others := sorted(set(re.findall(r"@(llvm\.x86\.[\w.]+)", text))):
        raise NoModule(f"the module names instructions of x86-64: {', '.join(others)}")
    # A text of nothing is a barrier for the compiler alone.
    called = r'\basm (?:sideeffect |alignstack |inteldialect )*"[^"]'
    if re.search(called, text) or re.search("^module asm ", text, re.M):
        raise NoModule("the module has text of an assembler")
    return text


def exported(header: pathlib.Path) -> list[str]:
    """The names of the functions that the header declares."""
    return sorted(set(re.findall(r"^(?:uint32_t|void) (warg_\w+)\(", header.read_text(encoding="utf-8"), re.M)))


class Compiler:
    """The toolchain's clang and linker, which is the same file by another name."""

    def __init__(self, toolchain: pathlib.Path, shortened: Callable[[bytes], bytes] = with_short_addresses) -> None:
        self.clang, self.shortened = toolchain / "bin/clang", shortened

    def run(self, *words: str | pathlib.Path, name: str = "clang") -> None:
        """Runs it under a name."""
        subprocess.run([name, *map(str, words)], executable=self.clang, check=True)

    def text(self, module: pathlib.Path, to: pathlib.Path) -> None:
        """Writes the text of a module."""
        words = ["--target=x86_64-unknown-linux-gnu", "-S", "-emit-llvm", "-O0", "-Xclang", "-disable-llvm-passes"]
        self.run(*words, "-x", "ir", module, "-o", to)

    def of_text(self, source: pathlib.Path, to: pathlib.Path) -> None:
        """Compiles the text of a module."""
        self.run(*COMPILED, "-c", "-x", "ir", source, "-o", to)

    def of_c(self, source: pathlib.Path, to: pathlib.Path, *flags: str) -> None:
        """Compiles a source of C, which calls nothing that it does not say."""
        words = ["-std=c11", "-ffreestanding", "-Wall", "-Wextra", "-Werror", *flags]
        self.run(*COMPILED, *words, "-c", source, "-o", to)

    def link(self, to: pathlib.Path, parts: list[pathlib.Path], exports: list[str], *words: str) -> None:
        """Links objects to a module with these exports, whose memory has addresses of 32 bits. It has no imports: what
        is not there is an error."""
        flags = ["-mwasm64", "--no-entry", "--gc-sections", "--stack-first", "-z", f"stack-size={STACK}"]
        flags += ["--strip-all", *(f"--export={it}" for it in exports)]
        self.run(*flags, *words, "-o", to, *parts, name="wasm-ld")
        to.write_bytes(self.shortened(to.read_bytes()))


def objects(compiler: Compiler, module: pathlib.Path, to: pathlib.Path) -> list[pathlib.Path]:
    """The objects of the library in a folder: the proved code, and what stands in for the C library beside it."""
    made = [to / f"{it}.o" for it in ("proved", "heap", "wide")]
    with tempfile.TemporaryDirectory() as name:
        text = pathlib.Path(name) / "module.ll"
        compiler.text(module, text)
        text.write_text(retargeted(text.read_text(encoding="utf-8")), encoding="utf-8")
        compiler.of_text(text, made[0])
    for it in made[1:]:
        compiler.of_c(SOURCES / f"{it.stem}.c", it)
    return made


def make(toolchain: pathlib.Path, module: pathlib.Path, to: pathlib.Path) -> pathlib.Path:
    """Makes libwarg.wasm of a module in a folder, which holds its objects too, and gives its path."""
    shutil.rmtree(to, ignore_errors=True)
    to.mkdir(parents=True)
    compiler = Compiler(toolchain)
    made = to / "libwarg.wasm"
    compiler.link(made, objects(compiler, module, to), exported(ROOT / "include/warg.h") + HOST)
    return made
