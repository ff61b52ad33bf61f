"""The version, and the files that name it."""

import re

from common import ROOT

CHANGELOG = ROOT / "CHANGELOG.md"
LIBRARY = ROOT / "crates/warg_c/src/exports/version.rt"
# The files of the packages that name it, each with what stands around it.
NAMED = {
    "bindings/rust/Cargo.toml": r'(?m)^version = "(.*)"$',
    "bindings/rust/Cargo.lock": r'(?m)^name = "weoldrin"\nversion = "(.*)"$',
    "bindings/python/src/weoldrin/_version.py": r'(?m)^__version__ = "(.*)"$',
    "bindings/js/package.json": r'(?m)^  "version": "(.*)",$',
    "bindings/js/README.md": r"(?m)^    npm install \./weoldrin-(.*)\.tgz$",
}


def changed() -> str:
    """The newest version of the change log."""
    found = re.search(r"^## (\d+\.\d+\.\d+)", CHANGELOG.read_text(encoding="utf-8"), re.M)
    if not found:
        raise SystemExit("CHANGELOG.md names no version")
    return found[1]


def of_library() -> str:
    """The version that the library names."""
    found = re.search(r'const VERSION: &str = "(.*?)";', LIBRARY.read_text(encoding="utf-8"))
    if not found:
        raise SystemExit(f"{LIBRARY.relative_to(ROOT)} names no version")
    return found[1]


def binary_version(version: str) -> str:
    """What programs that are linked with a version ask for: the numbers that may change its calls, the first one, and
    below 1.0.0 the second too."""
    first, second, _ = version.split(".")
    return first if first != "0" else f"0.{second}"


def soname(version: str) -> str:
    """The name by which the shared library of a version is looked for."""
    return f"libwarg.so.{binary_version(version)}"


def write() -> None:
    """Writes the version of the change log into the files of the packages."""
    for name, pattern in NAMED.items():
        path = ROOT / name
        text = path.read_text(encoding="utf-8")
        found = re.search(pattern, text)
        if not found:
            raise SystemExit(f"{name} names no version")
        new = text[: found.start(1)] + changed() + text[found.end(1) :]
        if new != text:
            path.write_text(new, encoding="utf-8")


def faults() -> list[str]:
    """What is said of each file that names another version."""
    told = []
    for name, pattern in NAMED.items():
        found = re.search(pattern, (ROOT / name).read_text(encoding="utf-8"))
        if not found or found[1] != changed():
            told.append(f"{name} names another version than CHANGELOG.md")
    return told
