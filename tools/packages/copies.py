"""The files that a package carries and that have their place elsewhere in the repository: a copy of each lies in the
package's own folder, since `cargo`, `go` and `pip` pack nothing that lies outside it. git keeps equal files once."""

import pathlib
import shutil

from common import ROOT

from .targets import TARGETS

BINDINGS = ROOT / "bindings"
LICENCES = ("LICENSE", "NOTICE")


def copies() -> dict[pathlib.Path, pathlib.Path]:
    """Where each copy lies, and what it is one of. A library that dist/ does not have has no copy."""
    found = {BINDINGS / package / name: ROOT / name for package in ("go", "js", "python", "rust") for name in LICENCES}
    found[BINDINGS / "go/warg.h"] = found[BINDINGS / "rust/include/warg.h"] = ROOT / "include/warg.h"
    for target in TARGETS:
        library = target.folder() / "libwarg.a"
        if library.is_file():
            found[BINDINGS / f"go/libwarg_linux_{target.go}.a"] = library
            found[BINDINGS / f"rust/lib/{target.name}/libwarg.a"] = library
    return found


def write() -> None:
    """Makes the copies anew."""
    for to, of in copies().items():
        to.parent.mkdir(parents=True, exist_ok=True)
        shutil.copy(of, to)


def faults() -> list[str]:
    """What is said of each copy that is none any more."""
    return [
        f"{to.relative_to(ROOT)} is not the {of.relative_to(ROOT)} of this checkout: tools/release --copies makes it so"
        for to, of in copies().items()
        if not to.is_file() or to.read_bytes() != of.read_bytes()
    ]
