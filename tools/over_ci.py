"""Checks of a crate over the libraries that `rt ci` has proved and left in crates/*/out, which `rt check` and `rt lib`
would prove once more."""

import pathlib
import subprocess

from common import ROOT, dependencies


class NoLibraries(Exception):
    """`rt ci` left no library of these crates."""


def kit() -> pathlib.Path:
    """The toolchain's folder."""
    printed = subprocess.run(["rt", "doc"], stdout=subprocess.PIPE, text=True, check=True).stdout
    return pathlib.Path(printed.split()[0]).resolve().parent


def named(crate: str) -> list[str]:
    """The crates that a crate names in crates.txt."""
    lines = (line.partition(":") for line in (ROOT / "crates.txt").read_text(encoding="utf-8").splitlines())
    return next(words.split() for head, colon, words in lines if colon and head.split()[0] == crate)


def library_words(crate: str) -> list[str]:
    """The words by which the toolchain's compiler takes the crate's libraries: those of `rt ci`, and its own."""
    folder = kit()
    left = {it: ROOT / "crates" / it / "out/rlib" for it in sorted(dependencies(crate) - {crate})}
    lacking = [it for it, where in left.items() if not (where / f"{it}.rlib/format").exists()]
    if lacking:
        raise NoLibraries(f"`rt ci` left no library of {', '.join(lacking)}")
    words = ["-L", f"dependency={folder / 'rlibs'}"]
    for it in ["std", *named(crate)]:
        words += ["--extern", f"{it}={left.get(it, folder / 'rlibs') / it}.rlib"]
    for where in left.values():
        words += ["-L", f"dependency={where}"]
    words += ["--antt-project", str(folder / "rattle/logic/antt-project.json")]
    return [*words, "--logic-built", str(folder / "logic_built"), "--links", f"{crate}="]
