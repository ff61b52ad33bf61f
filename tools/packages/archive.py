"""The files of a release: of each machine a tar file and packages for Debian, the package for npm, and the sums of all.
"""

import gzip
import hashlib
import os
import pathlib
import shutil
import tarfile
import tempfile
from typing import IO, cast

from common import PRODUCTS, ROOT

from . import debian, npm, trees, versions
from .targets import TARGETS, Target

SUMS = "SHA256SUMS"


def epoch() -> int:
    """The time that each file has: 1980, or what the environment's SOURCE_DATE_EPOCH says."""
    return int(os.environ.get("SOURCE_DATE_EPOCH", "315532800"))


def pack(tree: pathlib.Path, name: str, to: pathlib.Path) -> None:
    """Packs what is below a folder as a tar file of this name, whose bytes are those of the files alone."""
    with open(to, "wb") as file, gzip.GzipFile("", "wb", 9, file, mtime=0) as packed:
        with tarfile.open(fileobj=cast(IO[bytes], packed), mode="w", format=tarfile.USTAR_FORMAT) as tar:
            for path in [tree, *trees.files(tree)]:
                it = tar.gettarinfo(path, f"{name}/{path.relative_to(tree)}".removesuffix("/."))
                it.uid, it.gid, it.uname, it.gname, it.mtime = 0, 0, "root", "root", epoch()
                it.mode = 0o777 if path.is_symlink() else trees.mode_of(path)
                if path.is_file() and not path.is_symlink():
                    with open(path, "rb") as data:
                        tar.addfile(it, data)
                else:
                    tar.addfile(it)


def manifests(target: Target) -> list[str]:
    """The manifests of what dist/ has for a machine."""
    return [it.manifest for it in PRODUCTS.values() if it.folder == target.name]


def tar_of(target: Target, folder: pathlib.Path) -> None:
    """Writes the tar file of a machine: what `make install` installs, with the manifests of dist/."""
    name = f"weoldrin-{versions.of_library()}-{target.name}"
    with tempfile.TemporaryDirectory() as below:
        tree = pathlib.Path(below)
        trees.install(target, tree, "install", prefix="/")
        for it in manifests(target):
            shutil.copy(ROOT / "dist" / it, tree / "share/doc/weoldrin" / it)
        pack(tree, name, folder / f"{name}.tar.gz")


def npm_of(folder: pathlib.Path) -> None:
    """Writes the package for npm, by the name that `npm pack` gives it."""
    with tempfile.TemporaryDirectory() as below:
        tree = pathlib.Path(below)
        npm.lay_out(tree)
        pack(tree, "package", folder / f"weoldrin-{versions.of_library()}.tgz")


def sums_of(folder: pathlib.Path) -> str:
    """The lines of `sha256sum` of all files of a folder."""
    files = sorted(it for it in folder.iterdir() if it.name != SUMS)
    return "".join(f"{hashlib.sha256(it.read_bytes()).hexdigest()}  {it.name}\n" for it in files)


def write(folder: pathlib.Path) -> int:
    """Writes the files of a release to a folder that is not there yet, and gives the exit status."""
    if folder.exists():
        print(f"{folder} is there already: the files of a release go into a folder of their own")
        return 2
    folder.mkdir(parents=True)
    for target in TARGETS:
        if not target.is_there():
            print(f"left out: dist/ has no library for {target.name}")
            continue
        tar_of(target, folder)
        if shutil.which("dpkg-deb"):
            debian.write(target, folder, epoch())
        else:
            print("left out: dpkg-deb, which makes the packages for Debian, is not installed")
    if npm.is_there():
        npm_of(folder)
    else:
        print("left out: dist/ has no library for npm's package")
    (folder / SUMS).write_text(sums_of(folder), encoding="utf-8")
    print((folder / SUMS).read_text(encoding="utf-8"), end="")
    return 0
