"""The package for npm: the files that `npm pack` would pack, with the library of dist/."""

import json
import pathlib
import shutil

from common import ROOT

SOURCES = ROOT / "bindings/js"
LIBRARY = ROOT / "dist/wasm/libwarg.wasm"
# What npm packs whatever package.json says, of what is there.
ALWAYS = ("package.json", "README.md")


def is_there() -> bool:
    """Whether dist/ has the library for it."""
    return LIBRARY.is_file()


def names() -> list[str]:
    """The files and folders of the package."""
    listed: list[str] = json.loads((SOURCES / "package.json").read_text(encoding="utf-8"))["files"]
    return [*ALWAYS, *listed]


def lay_out(tree: pathlib.Path) -> None:
    """Lays what the package has into a folder."""
    for name in names():
        path = LIBRARY if name == LIBRARY.name else SOURCES / name
        if path.is_dir():
            shutil.copytree(path, tree / name)
        else:
            shutil.copy(path, tree / name)
