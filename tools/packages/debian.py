"""Packages for Debian, made by dpkg-deb: the shared library, what programs are built with, and the programs."""

import gzip
import hashlib
import os
import pathlib
import subprocess
import tempfile
from typing import NamedTuple

from common import ROOT

from . import elf, trees, versions
from .targets import Target

MAINTAINER = "Weoldrin maintainers <maintainers@users.noreply.weoldrin.example>"
SUMMARY = "logs of a package registry, checked by a proved library"
ABOUT = """\
 Checks the logs of a package registry by the Warg protocol: who may release,
 what was released, what was yanked. What decides is proved to meet the
 protocol's definitions, and verifies signatures of ECDSA P-256.
"""


class Package(NamedTuple):
    """A package: its name, the parts of the Makefile that it has, its section, a word of it, and what it stands on."""

    name: str
    parts: tuple[str, ...]
    section: str
    word: str
    fields: dict[str, str]


def packages() -> list[Package]:
    """The packages of a version."""
    version = versions.of_library()
    # Debian names a library's package by what programs ask for, so that two versions may be installed side by side.
    library = f"libwarg{versions.binary_version(version)}"
    signing = {"Recommends": "python3:any, python3-cryptography | openssl"}
    return [
        Package(library, ("install-library",), "libs", "library", {"Multi-Arch": "same"}),
        Package(
            "libwarg-dev",
            ("install-development",),
            "libdevel",
            "development files",
            {"Multi-Arch": "same", "Depends": f"{library} (= {version}), libc6-dev"},
        ),
        Package("weoldrin", ("install-programs",), "utils", "programs", signing),
    ]


def is_shared(path: pathlib.Path) -> bool:
    """Whether a file is a program or a shared library."""
    if not path.is_file() or path.is_symlink():
        return False
    with open(path, "rb") as file:
        return file.read(4) == b"\x7fELF"


def glibc_of(tree: pathlib.Path) -> str | None:
    """What Debian's package of glibc has to be, if something in a folder needs it."""
    found = [elf.needs(it).glibc for it in trees.files(tree) if is_shared(it)]
    return f"libc6 (>= {'.'.join(map(str, max(found)))})" if found else None


def control(of: Package, target: Target, tree: pathlib.Path) -> str:
    """The text that says what a package is."""
    size = sum(it.stat().st_size for it in trees.files(tree) if it.is_file() and not it.is_symlink())
    fields = {
        "Package": of.name,
        "Source": "weoldrin",
        "Version": versions.of_library(),
        "Architecture": target.debian,
        "Maintainer": MAINTAINER,
        "Installed-Size": str(-(-size // 1024)),
        "Section": of.section,
        "Priority": "optional",
        **of.fields,
    }
    needed = [it for it in (fields.pop("Depends", None), glibc_of(tree)) if it]
    if needed:
        fields["Depends"] = ", ".join(needed)
    lines = [f"{name}: {value}" for name, value in fields.items()]
    return "\n".join([*lines, f"Description: {SUMMARY} ({of.word})", ""]) + ABOUT


def copyright_text() -> str:
    """What Debian has of a licence: in its own form, with the licence as it is behind it."""
    head = "Format: https://www.debian.org/doc/packaging-manuals/copyright-format/1.0/\nUpstream-Name: weoldrin\n"
    lines = [*_text("NOTICE"), "", *_text("LICENSE")]
    body = "\n".join(f" {it}" if it.strip() else " ." for it in lines)
    name = "Apache-2.0 WITH LLVM-exception"
    return f"{head}\nFiles: *\nCopyright: the authors of Weoldrin\nLicense: {name}\n{body}\n"


def _text(name: str) -> list[str]:
    return (ROOT / name).read_text(encoding="utf-8").splitlines()


def add_documents(of: Package, tree: pathlib.Path) -> None:
    """Adds what each package has in its folder of documents."""
    folder = tree / "usr/share/doc" / of.name
    folder.mkdir(parents=True)
    (folder / "copyright").write_text(copyright_text(), encoding="utf-8")
    (folder / "changelog.gz").write_bytes(gzip.compress((ROOT / "CHANGELOG.md").read_bytes(), 9, mtime=0))


def add_control(of: Package, target: Target, tree: pathlib.Path) -> None:
    """Adds the folder DEBIAN: what the package is, the sums of its files, and what the library's package says to the
    system and to packages that are built with it."""
    made = {"control": control(of, target, tree), "md5sums": md5_sums(tree)}
    if "install-library" in of.parts:
        version = versions.of_library()
        made["shlibs"] = f"libwarg {versions.binary_version(version)} {of.name} (>= {version})\n"
        made["triggers"] = "activate-noawait ldconfig\n"
    (tree / "DEBIAN").mkdir()
    for name, text in made.items():
        (tree / "DEBIAN" / name).write_text(text, encoding="utf-8")


def md5_sums(tree: pathlib.Path) -> str:
    """The sums by which `dpkg --verify` knows the files of a package. They are no protection."""
    files = [it for it in trees.files(tree) if it.is_file() and not it.is_symlink()]
    sums = ((hashlib.md5(it.read_bytes(), usedforsecurity=False).hexdigest(), it.relative_to(tree)) for it in files)
    return "".join(f"{digest}  {name}\n" for digest, name in sums)


def write(target: Target, folder: pathlib.Path, epoch: int) -> None:
    """Writes the packages of a machine to a folder."""
    for of in packages():
        with tempfile.TemporaryDirectory() as below:
            tree = pathlib.Path(below) / "tree"
            tree.mkdir()
            trees.install(target, tree, *of.parts, prefix="/usr", libdir=f"/usr/lib/{target.multiarch}")
            if not any(map(is_shared, trees.files(tree))) and "install-programs" in of.parts:
                print(f"left out: dist/ has no programs for {target.name}")
                continue
            add_documents(of, tree)
            add_control(of, target, tree)
            for it in [tree, *trees.files(tree)]:
                if not it.is_symlink():
                    it.chmod(trees.mode_of(it))
            to = folder / f"{of.name}_{versions.of_library()}_{target.debian}.deb"
            command = ["dpkg-deb", "--root-owner-group", "-Zxz", "--build", str(tree), str(to)]
            environment = os.environ | {"SOURCE_DATE_EPOCH": str(epoch)}
            subprocess.run(command, env=environment, check=True, stdout=subprocess.DEVNULL)
