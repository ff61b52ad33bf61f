"""The machines that a release is for: each has a folder of dist/ where its library is built."""

import pathlib
from typing import NamedTuple

from common import ROOT


class Target(NamedTuple):
    """A machine: its folder in dist/, and how Go, Debian and Debian's folder of libraries name it."""

    name: str
    go: str
    debian: str
    multiarch: str

    def folder(self) -> pathlib.Path:
        return ROOT / "dist" / self.name

    def is_there(self) -> bool:
        """Whether dist/ has the library for it."""
        return (self.folder() / "libwarg.so").is_file()


TARGETS = [
    Target("x86_64-linux", "amd64", "amd64", "x86_64-linux-gnu"),
    Target("aarch64-linux", "arm64", "arm64", "aarch64-linux-gnu"),
]
