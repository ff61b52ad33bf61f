"""What `make install` installs, in a folder that stands for the machine's root."""

import pathlib
import subprocess

from common import ROOT

from .targets import Target


def install(target: Target, folder: pathlib.Path, *parts: str, **places: str) -> None:
    """Installs these parts for a machine below a folder, where the words of the Makefile say."""
    words = [f"{name.upper()}={value}" for name, value in places.items()]
    command = ["make", "-s", "-C", str(ROOT), f"TARGET={target.name}", f"DESTDIR={folder}", *words, *parts]
    subprocess.run(command, check=True)


def files(folder: pathlib.Path) -> list[pathlib.Path]:
    """All that is below a folder, each folder before what it has, in the order of the bytes of the names."""
    return sorted(folder.rglob("*"), key=lambda it: [part.encode() for part in it.relative_to(folder).parts])


def mode_of(path: pathlib.Path) -> int:
    """The mode of what is packed: all may read it, and run what its owner may."""
    return 0o755 if path.is_dir() or path.stat().st_mode & 0o100 else 0o644
