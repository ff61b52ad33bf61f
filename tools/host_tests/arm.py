"""The tests of the library for 64-bit ARM, whose programs qemu runs."""

import os
import pathlib
import shlex
import shutil
import zipfile

from aarch64_build import TARGET
from common import ROOT

from .debian import Packages
from .machine import CROSS, PROGRAM, QEMU, backend, compiles, has_go, succeeds
from .runs import RELEASED, Hosts, Kept, counted_of_cargo, counted_of_go, counted_of_make, counted_of_unittest

# Where Debian has the C library beside that compiler.
LIBRARIES = "/usr/aarch64-linux-gnu"
# What that machine has beside the library, by Debian's names: the C library, OpenSSL, and Python with `cryptography`.
OF_ARM = (
    "libc6 libgcc-s1 libssl3 libssl-dev zlib1g libexpat1 libffi8 libbz2-1.0 liblzma5 libuuid1 python3.11-minimal "
    "libpython3.11-minimal libpython3.11-stdlib python3-minimal python3-cryptography python3-cffi-backend"
).split()
# Debian's compiler of Rust for this machine, and Rust's own library for that one.
OF_RUST = "rustc:amd64 libstd-rust-1.63:amd64 libllvm14:amd64 libstd-rust-dev".split()
# The tests that call the library. Those of files, processes and printed texts are told by x86-64, and by Go's.
OF_CRATE = "checkpoint_texts checkpoints comparisons contradictions log_ids logs p256 p256_rows proofs signed".split()
OF_CRATE += "times registry_memory registry_reference registry_rows registry_trees".split()
OF_PACKAGE = "checkpoints comparisons contradictions log_ids logs proofs registry_rows transparency".split()


def openssl_folder(hosts: Hosts, root: pathlib.Path) -> pathlib.Path | None:
    """A folder with OpenSSL alone, where another one has it that stands for that machine's root: the other libraries
    there are not the compiler's."""
    library, folder = root / "usr/lib/aarch64-linux-gnu/libcrypto.so", hosts.folder / "aarch64-openssl"
    if not library.exists():
        return None
    if not folder.exists():
        folder.mkdir()
        (folder / "libcrypto.so").symlink_to(library)
    return folder


def openssl_flags(hosts: Hosts, root: pathlib.Path) -> list[str]:
    """The compiler's flags for OpenSSL."""
    folder = openssl_folder(hosts, root)
    headers = (f"-isystem{root}/usr/include{it}" for it in ("", "/aarch64-linux-gnu"))
    return [*headers, f"-L{folder}"] if folder else []


def test_c_on_arm(hosts: Hosts, library: pathlib.Path, kept: Kept, packages: Packages) -> None:
    """The programs and the tests of examples/c, where there is OpenSSL."""
    flags = openssl_flags(hosts, pathlib.Path(kept["QEMU_LD_PREFIX"]))
    if not compiles(*flags, "-lcrypto", text=f"#include <openssl/evp.h>\n{PROGRAM}", compiler=CROSS):
        hosts.lack("aarch64: c", "OpenSSL for 64-bit ARM is not there (libssl-dev:arm64)", packages.are_there)
        return
    folder = hosts.folder / "aarch64-c"
    words = ["make", "-s", "-k", "-O", f"-j{os.cpu_count()}", "-C", str(ROOT / "examples/c"), f"BUILD={folder}"]
    words += [f"LIBRARY={library}", f"CC={shlex.join([CROSS, *flags])}", f"RUN={QEMU}"]
    words += ["CXX=", "VALGRIND=", "SANITIZERS=", "PKG_CONFIG=", "check"]
    hosts.run("aarch64: make check", words, kept, counted_of_make)


def rustc(hosts: Hosts, packages: Packages) -> list[str]:
    """The words of a compiler of Rust for that machine: the one that is installed, or Debian's; none where there is no
    library of Rust's for it."""
    empty, folder = hosts.folder / "empty.rs", hosts.folder / "aarch64-rustc"
    empty.write_text("fn main() {}\n", encoding="utf-8")
    found = ["env", f"LD_LIBRARY_PATH={folder}/usr/lib/x86_64-linux-gnu", f"{folder}/usr/bin/rustc"]
    for words in (["rustc"], found):
        words += ["--edition", "2021", "--target", TARGET, "-C", f"linker={CROSS}"]
        if words == found and not packages.lay_out(folder, OF_RUST):
            break
        if succeeds(*words, "-o", str(hosts.folder / "empty"), str(empty)):
            return words
    return []


def test_rust_on_arm(hosts: Hosts, library: pathlib.Path, kept: Kept, packages: Packages) -> None:
    """The crate, whose keys are OpenSSL's where that is there."""
    words = rustc(hosts, packages)
    if not words:
        why = "Rust's library for 64-bit ARM is not there (libstd-rust-dev:arm64)"
        hosts.lack("aarch64: rust", why, packages.are_there)
        return
    crate, made = ROOT / "bindings/rust", hosts.folder / "aarch64-rust"
    words += ["--out-dir", str(made), "-L", str(made), "-L", f"native={library}"]
    openssl = openssl_folder(hosts, pathlib.Path(kept["QEMU_LD_PREFIX"]))
    linked = ["-l", "static=warg"]
    if openssl:
        words += ["-L", f"native={openssl}", "--cfg", 'feature="openssl"']
        linked += ["-l", "crypto"]
    kept = kept | {"CARGO_MANIFEST_DIR": str(crate), "CARGO_PKG_VERSION": "0.1.0"}
    name = ["--crate-name", "weoldrin", "--crate-type", "rlib"]
    hosts.run("aarch64: rustc", [*words, *name, *linked, str(crate / "src/lib.rs")], kept)
    for test in OF_CRATE:
        compiled = shlex.join([*words, "--test", "--extern", "weoldrin", str(crate / f"tests/{test}.rs")])
        run = shlex.join([QEMU, str(made / test)])
        hosts.run(f"aarch64: rust: {test}", ["sh", "-c", f"{compiled} && {run}"], kept, counted_of_cargo)


def wheel_of(hosts: Hosts, library: pathlib.Path) -> pathlib.Path | None:
    """The folder of what the wheel for 64-bit ARM has; none where nothing here builds it."""
    python, folder = backend(), hosts.folder / "aarch64-wheel"
    if python is None:
        return None
    named = {"WEOLDRIN_LIBRARY": str(library / "libwarg.so"), "WEOLDRIN_WHEEL": "manylinux2014_aarch64"}
    words = ["wheel", "-q", "--no-deps", "--no-build-isolation", "-w", str(folder), str(ROOT / "bindings/python")]
    hosts.run("aarch64: pip wheel", [python, "-m", "pip", *words], named | {"PIP_NO_INDEX": "1"})
    for it in folder.glob("*_aarch64.whl"):
        with zipfile.ZipFile(it) as wheel:
            wheel.extractall(folder)
    return folder if (folder / "weoldrin").is_dir() else None


def test_python_on_arm(hosts: Hosts, library: pathlib.Path, kept: Kept, packages: Packages) -> None:
    """The package of the wheel, by an interpreter for that machine."""
    root = kept["QEMU_LD_PREFIX"]
    python = f"{root}/usr/bin/python3"
    if not succeeds(QEMU, "-L", root, python, "-c", "import cryptography"):
        hosts.lack("aarch64: python", "Python for 64-bit ARM, with cryptography, is not there", packages.are_there)
        return
    package = wheel_of(hosts, library)
    if package is None:
        hosts.leave_out("aarch64: python", "no Python here has pip and hatchling (python3-hatchling)")
        return
    # Tests begin the interpreter once more, by the name that it was called by.
    named = hosts.folder / "aarch64-python"
    named.write_text(f'#!/bin/sh\nexec {QEMU} -0 "$0" {shlex.quote(python)} "$@"\n', encoding="utf-8")
    named.chmod(0o755)
    tests = ROOT / "bindings/python"
    kept = kept | {"PYTHONPATH": f"{package}:{tests}", "PYTHONDONTWRITEBYTECODE": "1"}
    words = [str(named), "-m", "unittest", "-v", *(f"tests.test_{it}" for it in OF_PACKAGE)]
    hosts.run("aarch64: unittest", words, kept, counted_of_unittest)


def test_go_on_arm(hosts: Hosts, kept: Kept) -> None:
    """The module, with the library that lies in it."""
    if not has_go():
        hosts.leave_out("aarch64: go", "Go 1.19 or later, with a C compiler, is not installed (golang-go)")
        return
    if hosts.library != RELEASED:
        hosts.leave_out("aarch64: go", "it links the library of dist/, which lies in the module")
        return
    kept = kept | {"GOPROXY": "off", "GOTOOLCHAIN": "local", "GOCACHE": str(hosts.folder / "go-cache")}
    kept |= {"GOARCH": "arm64", "CGO_ENABLED": "1", "CC": CROSS}
    words = ["go", "test", "-exec", QEMU, "-v", "-count=1", "./..."]
    words = ["sh", "-c", 'cd "$0" && exec "$@"', str(ROOT / "bindings/go"), *words]
    hosts.run("aarch64: go test", words, kept, counted_of_go)


def test(hosts: Hosts) -> None:
    """The library for 64-bit ARM, by qemu."""
    found = (hosts.library.parent / it for it in ("aarch64-linux", "aarch64"))
    library = next((it for it in found if (it / "libwarg.so").is_file()), None)
    lacking = {
        "there is no library for it": library,
        "a compiler of C for it is not installed (gcc-aarch64-linux-gnu)": compiles(compiler=CROSS),
        "qemu-aarch64 is not installed (qemu-user)": shutil.which(QEMU),
    }
    for why, is_there in lacking.items():
        if not is_there:
            hosts.leave_out("aarch64", why)
            return
    assert library
    packages, root = Packages(hosts.folder / "aarch64-packages"), hosts.folder / "aarch64-root"
    named = os.environ.get("QEMU_LD_PREFIX")
    kept = {"QEMU_LD_PREFIX": named or (str(root) if packages.lay_out(root, OF_ARM) else LIBRARIES)}
    test_go_on_arm(hosts, kept)
    test_c_on_arm(hosts, library, kept, packages)
    test_rust_on_arm(hosts, library, kept, packages)
    test_python_on_arm(hosts, library, kept, packages)
