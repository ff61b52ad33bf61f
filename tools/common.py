"""What the tools share: their help, the built programs, the examples, the logs of make_log, and runs that are
measured."""
import argparse
import hashlib
import os
import pathlib
import re
import shutil
import subprocess
import sys
import tempfile
from collections.abc import Sequence
from typing import IO, NamedTuple

ROOT = pathlib.Path(__file__).resolve().parent.parent


class Product(NamedTuple):
    """What dist/ has: its name, its files there, the crate that they are built from and what is built of it in that
    crate's out/, its manifest in dist/, the source that names its version, the folder of dist/ that its files are in,
    and what other files than the crate's it is made of."""

    name: str
    files: tuple[str, ...]
    crate: str
    built_in: str
    manifest: str
    information: str
    folder: str = "x86_64-linux"
    parts: tuple[str, ...] = ()

    def built(self) -> dict[str, pathlib.Path]:
        """By the files of dist/, where they are left in this checkout."""
        here = ROOT / "crates" / self.crate / "out" / self.built_in
        return {it: here / (it if self.built_in else self.crate) for it in self.files}

    def released(self) -> dict[str, pathlib.Path]:
        return {it: ROOT / "dist" / self.folder / it for it in self.files}

    def said(self) -> dict[str, str]:
        """What the manifest says, by the first word of each line."""
        lines = (ROOT / "dist" / self.manifest).read_text(encoding="utf-8").splitlines()
        return {word: rest for word, _, rest in (line.partition(": ") for line in lines) if rest}

    def is_program(self) -> bool:
        return not self.built_in


PRODUCTS = {
    it.name: it
    for it in [
        Product(
            "warg_audit", ("warg_audit",), "warg_audit_main", "", "MANIFEST", "crates/warg_audit/src/information.rt"
        ),
        Product(
            "weoldrin", ("weoldrin",), "weoldrin_main", "", "MANIFEST.weoldrin", "crates/tool_words/src/version.rt"
        ),
        Product(
            "libwarg",
            ("libwarg.a", "libwarg.so", "warg.pc"),
            "warg_c",
            "c",
            "MANIFEST.libwarg",
            "crates/warg_c/src/exports/version.rt",
        ),
        Product(
            "libwarg.aarch64",
            ("libwarg.a", "libwarg.so", "warg.pc"),
            "warg_c",
            "aarch64",
            "MANIFEST.aarch64",
            "crates/warg_c/src/exports/version.rt",
            "aarch64-linux",
            ("tools/aarch64_build.py", "aarch64/heap.c"),
        ),
        Product(
            "libwarg.wasm",
            ("libwarg.wasm",),
            "warg_c",
            "wasm",
            "MANIFEST.wasm",
            "crates/warg_c/src/exports/version.rt",
            "wasm",
            (
                "tools/wasm_addresses.py",
                "tools/wasm_build.py",
                "wasm/heap.c",
                "wasm/pages.h",
                "wasm/shuffle.ll",
                "wasm/wide.c",
            ),
        ),
    ]
}
# The program that the examples, the fuzzer and the benchmarks run.
BUILT = PRODUCTS["warg_audit"].built()["warg_audit"]


def argument_parser(doc: str | None) -> argparse.ArgumentParser:
    """A parser of a tool's words, whose help is the tool's docstring."""
    return argparse.ArgumentParser(description=doc, formatter_class=argparse.RawDescriptionHelpFormatter)


def dependencies(name: str, found: set[str] | None = None) -> set[str]:
    """The crate and all crates of the repository that it uses, directly or not, by crates.txt."""
    found = set() if found is None else found
    lines = (line.partition(":") for line in (ROOT / "crates.txt").read_text(encoding="utf-8").splitlines())
    below = {crate.split()[0]: words.split() for crate, colon, words in lines if colon}
    if name in below and name not in found:
        found.add(name)
        for word in below[name]:
            dependencies(word, found)
    return found


def copied(crates: set[str], to: pathlib.Path) -> None:
    """Lays a repository of these crates alone anew in a folder, without their must-fail edits."""
    shutil.rmtree(to, ignore_errors=True)
    (to / "crates").mkdir(parents=True)
    for crate in crates:
        ignored = shutil.ignore_patterns("out", "must-fail")
        shutil.copytree(ROOT / "crates" / crate, to / "crates" / crate, ignore=ignored)
    lines = (ROOT / "crates.txt").read_text(encoding="utf-8").splitlines(keepends=True)
    kept = (it for it in lines if it.partition(":")[0].partition(" ")[0] in crates)
    (to / "crates.txt").write_text("".join(kept), encoding="utf-8")
    shutil.copy(ROOT / "HANDLES", to)


def cache_folder(name: str) -> pathlib.Path:
    """A folder of this name in the user's cache, one for each checkout."""
    cache = pathlib.Path(os.environ.get("XDG_CACHE_HOME") or pathlib.Path.home() / ".cache")
    return cache / "weoldrin" / f"{name}-{hashlib.sha256(str(ROOT).encode()).hexdigest()[:16]}"


def is_older(program: pathlib.Path, name: str) -> bool:
    """Whether a source of the program, or of a crate that it uses, is newer than it."""
    made = program.stat().st_mtime
    folders = [ROOT / "crates" / crate / part for crate in dependencies(name) for part in ("src", "specs", "proofs")]
    return any(path.stat().st_mtime > made for folder in folders for path in folder.rglob("*") if path.is_file())


def built(name: str) -> pathlib.Path:
    """The program of this crate, proved and built first where it is not there yet. One that is older than its sources
    is taken as it is, with a warning."""
    program = ROOT / f"crates/{name}/out/{name}"
    if not program.exists():
        print(f"{name} is not built: it is proved and built first", file=sys.stderr)
        command = [str(ROOT / "bin/prove")] if name == "warg_audit_main" else ["rt", "run"]
        try:
            run_silently(command, ROOT / f"crates/{name}")
        except OSError as error:
            print(error, file=sys.stderr)
    if not program.exists():
        raise SystemExit(f"{name} could not be built")
    if is_older(program, name):
        print(f"{name} is older than its sources: it is not what these make", file=sys.stderr)
    return program


def run_silently(command: list[str], folder: pathlib.Path) -> None:
    """Runs a command in a folder, with what it says on standard error passed on alone."""
    subprocess.run(command, cwd=folder, stdin=subprocess.DEVNULL, stdout=subprocess.DEVNULL, check=False)


def bench_program(part: str, words: str) -> pathlib.Path:
    """The built program of a folder of tools/bench, over a copy of the crates that it uses. The words are those of its
    line in crates.txt. Its sources are named otherwise there: the toolchain stops at a `.rt` file outside a crate."""
    name = f"bench_{part}"
    folder, sources = cache_folder(name), sorted((ROOT / "tools/bench" / part).glob("*.rattle"))
    crates = dependencies("warg_protocol")
    newest = max(path.stat().st_mtime for it in crates for path in (ROOT / "crates" / it / "src").rglob("*.rt"))
    made = folder / f"crates/{name}/out/{name}"
    if not made.exists() or made.stat().st_mtime < max(newest, *(it.stat().st_mtime for it in sources)):
        copied(crates, folder)
        (folder / f"crates/{name}/src").mkdir(parents=True)
        for it in sources:
            shutil.copy(it, folder / f"crates/{name}/src" / it.with_suffix(".rt").name)
        with open(folder / "crates.txt", "a", encoding="utf-8") as lines:
            lines.write(f"{name}: {words}\n")
        run_silently(["rt", "run"], made.parent.parent)
    if not made.exists():
        raise SystemExit(f"{name} could not be built")
    return made


class Example(NamedTuple):
    """An example: its name, the program's words, its input, what is printed, and the exit status."""

    name: str
    words: list[str]
    data: bytes
    printed: bytes
    status: int


def examples() -> list[Example]:
    """The examples in the order of their names. Their exit statuses are those of the table in examples/README.md."""
    folder = ROOT / "examples"
    table = (folder / "README.md").read_text(encoding="utf-8")
    statuses = dict(re.findall(r"^\| `(\w+)` \|.*\| (\d+) \|$", table, re.M))
    names = {path.stem for path in folder.glob("*.hex")}
    if names != statuses.keys():
        alone = ", ".join(sorted(names ^ statuses.keys()))
        raise SystemExit(f"not both a file and a row of examples/README.md: {alone}")
    return [example(folder / name, int(statuses[name])) for name in sorted(names)]


def example(path: pathlib.Path, status: int) -> Example:
    """The example of this path without a suffix."""
    words = path.with_suffix(".args").read_text(encoding="utf-8").split()
    data, printed = path.with_suffix(".hex").read_bytes(), path.with_suffix(".out").read_bytes()
    return Example(path.name, words, data, printed, status)


def make_log(*words: str) -> bytes:
    """What make_log prints for these words."""
    return subprocess.run([ROOT / "tools/make_log", *words], stdout=subprocess.PIPE, check=True).stdout


def write_log(to: IO[bytes], *words: str) -> None:
    """Writes what make_log prints for these words to a file."""
    subprocess.run([ROOT / "tools/make_log", *words], stdout=to, check=True)


class Run(NamedTuple):
    """The exit status of a run, its first printed line, its processor time in seconds and its peak of memory in MiB."""

    status: int
    line: str
    seconds: float
    memory: float


def measured(command: Sequence[str | pathlib.Path], name: str) -> Run:
    """Runs the command on the file of this name. Who calls this must not hold much: a program's peak of memory is at
    least that of the process that starts it."""
    with open(name, "rb") as given, tempfile.TemporaryFile() as printed:
        process = subprocess.Popen(command, stdin=given, stdout=printed)
        _, status, used = os.wait4(process.pid, 0)
        process.returncode = os.waitstatus_to_exitcode(status)
        printed.seek(0)
        line = printed.readline().decode(errors="replace").rstrip("\n")
    # The system counts memory in KiB.
    return Run(process.returncode, line, used.ru_utime + used.ru_stime, used.ru_maxrss / 1024)
