"""Tests of tools/packages: versions, copies, and what is read off a library."""

import contextlib
import hashlib
import io
import os
import pathlib
import re
import runpy
import shutil
import struct
import subprocess
import sys
import tarfile
import tempfile
import unittest
from collections.abc import Iterator
from unittest import mock

TOOLS = pathlib.Path(__file__).resolve().parents[1]
sys.path.insert(0, str(TOOLS))

from packages import archive, copies, debian, elf, npm, permissions, trees, versions
from packages.targets import TARGETS, Target

ROOT = TOOLS.parent
RELEASE = runpy.run_path(str(TOOLS / "release"), run_name="release")


@contextlib.contextmanager
def clean() -> Iterator[pathlib.Path]:
    """A folder of its own."""
    with tempfile.TemporaryDirectory() as folder:
        yield pathlib.Path(folder)


class Versions(unittest.TestCase):
    """The version, and the files that name it."""

    def test_binary_versions(self) -> None:
        """The numbers that may change the calls: below 1.0.0 the second one too."""
        wanted = {"0.1.0": "0.1", "0.12.3": "0.12", "0.0.1": "0.0", "1.2.3": "1", "10.0.1": "10"}
        self.assertEqual({it: versions.binary_version(it) for it in wanted}, wanted)
        self.assertEqual(versions.soname("0.1.7"), "libwarg.so.0.1")

    def test_files(self) -> None:
        """All name one version, and one that names another is told, and made right."""
        rust = {"bindings/rust/Cargo.toml", "bindings/rust/Cargo.lock"}
        js = {"bindings/js/package.json", "bindings/js/README.md"}
        self.assertEqual(set(versions.NAMED), {*rust, *js, "bindings/python/src/weoldrin/_version.py"})
        self.assertEqual(versions.faults(), [])
        self.assertEqual(versions.changed(), versions.of_library())
        for name in versions.NAMED:
            with tempfile.TemporaryDirectory() as folder:
                for it in versions.NAMED:
                    text = (TOOLS.parent / it).read_text(encoding="utf-8")
                    path = pathlib.Path(folder) / it
                    path.parent.mkdir(parents=True, exist_ok=True)
                    path.write_text(text.replace(versions.changed(), "9.9.9") if it == name else text, encoding="utf-8")
                with mock.patch.object(versions, "ROOT", pathlib.Path(folder)):
                    self.assertEqual(versions.faults(), [f"{name} names another version than CHANGELOG.md"])
                    versions.write()
                    self.assertEqual(versions.faults(), [])

    def test_none(self) -> None:
        """A file that names no version is told, and none is written."""
        with clean() as root:
            for it in versions.NAMED:
                (root / it).parent.mkdir(parents=True, exist_ok=True)
                (root / it).write_text("nothing", encoding="utf-8")
            with mock.patch.object(versions, "ROOT", root):
                self.assertEqual(len(versions.faults()), len(versions.NAMED))
                self.assertRaisesRegex(SystemExit, "Cargo.toml names no version", versions.write)
                for name, call in (("CHANGELOG", versions.changed), ("LIBRARY", versions.of_library)):
                    with mock.patch.object(versions, name, root / "bindings/rust/Cargo.toml"):
                        self.assertRaisesRegex(SystemExit, "names no version", call)


class Named(unittest.TestCase):
    """The shared library by the name by which programs look for it, beside the one of dist/."""

    def test_same(self) -> None:
        """It is the same file, of each machine; none, another file, or a link, is told."""
        name, folders = versions.soname(versions.of_library()), [it.name for it in TARGETS]
        with clean() as root:
            faults = RELEASE["faults_of_packages"]
            for it in folders:
                (root / it).mkdir()
                (root / it / "libwarg.so").write_text("the library")
                (root / it / name).write_text("the library")
            with mock.patch.dict(faults.__globals__, named_library=lambda of: root / of.folder / name, ROOT=root):
                self.assertEqual(faults(), [])
                for it in folders:
                    named, told = root / it / name, [f"{it}/{name} is not libwarg.so once more"]
                    named.write_text("another file")
                    self.assertEqual(faults(), told)
                    named.unlink()
                    self.assertEqual(faults(), told)
                    named.symlink_to("libwarg.so")
                    self.assertEqual(faults(), told)
                    named.unlink()
                    named.write_text("the library")
                self.assertEqual(faults(), [])
        of = [it for it in RELEASE["PRODUCTS"].values() if "libwarg.so" in it.files]
        self.assertEqual([RELEASE["named_library"](it) for it in of], [ROOT / "dist" / it / name for it in folders])

    def test_made(self) -> None:
        """It is made anew, without those of earlier versions, and then the copies are."""
        makes, done = RELEASE["name_library"], mock.Mock()
        with clean() as root:
            (root / "libwarg.so").write_text("the library")
            (root / "libwarg.so.0.0").write_text("an older one")
            changed = {"named_library": lambda of: root / "libwarg.so.0.1", "write_copies": done.copies}
            with mock.patch.dict(makes.__globals__, changed):
                makes(None)
            found = {it.name: it.read_text() for it in root.iterdir() if not it.is_symlink()}
            self.assertEqual(found, {"libwarg.so": "the library", "libwarg.so.0.1": "the library"})
        self.assertEqual(done.mock_calls, [mock.call.copies()])

    def status(self, *words: str) -> int:
        """The status of the tool, run with these words."""
        with mock.patch.object(sys, "argv", ["release", *words]), contextlib.redirect_stdout(io.StringIO()):
            return int(RELEASE["main"]())

    def test_made_with(self) -> None:
        """What is made with the library of x86-64 is not written without it."""
        for words in (("libwarg.wasm",), ("weoldrin", "libwarg.aarch64")):
            with self.assertRaises(SystemExit), contextlib.redirect_stderr(io.StringIO()) as said:
                self.status(*words)
            self.assertIn(f"{words[-1]} is made with libwarg: name both", said.getvalue())
        with mock.patch.dict(RELEASE["main"].__globals__, release=lambda of: 7):
            self.assertEqual(self.status("libwarg", "libwarg.wasm"), 7)
            self.assertEqual(self.status(), 7)

    def test_check(self) -> None:
        """A check of the library is one of the packages too, and a check of a program alone is none."""
        changed = {"faults": lambda of: [], "faults_of_packages": lambda: ["a fault"]}
        with mock.patch.dict(RELEASE["main"].__globals__, changed):
            for words, status in ((("libwarg",), 1), ((), 1), (("weoldrin",), 0)):
                self.assertEqual(self.status("--check", *words), status)

    def test_words(self) -> None:
        """The copies alone are written by one word, and the files of a release by another."""
        done = mock.Mock()
        done.archive.return_value = 7
        with contextlib.ExitStack() as patched:
            for it in (versions, permissions, copies, archive):
                name = it.__name__.removeprefix("packages.")
                patched.enter_context(mock.patch.object(it, "write", getattr(done, name)))
            patched.enter_context(mock.patch("subprocess.run", done.run))
            self.assertEqual((self.status("--copies"), self.status("--archive", "a")), (0, 7))
        header = mock.call.run([ROOT / "tools/c_header"], check=True)
        of_copies = [mock.call.versions(), mock.call.permissions(), header, mock.call.copies()]
        self.assertEqual(done.mock_calls, [*of_copies, mock.call.archive(pathlib.Path("a"))])

    def test_told(self) -> None:
        """What is said of the versions, of the permissions and of the copies is said of the packages."""
        with mock.patch.object(versions, "faults", lambda: ["a"]), mock.patch.object(copies, "faults", lambda: ["c"]):
            with mock.patch.object(permissions, "faults", lambda: ["b"]):
                self.assertEqual(RELEASE["faults_of_packages"](), ["a", "b", "c"])


class Permissions(unittest.TestCase):
    """What keys may do, and the files that repeat it."""

    SPECS = f"{permissions.CRATE}/specs/OperatorPermissions.antt"
    CODE = f"{permissions.CRATE}/src/operator.rt"
    # What one permission more changes, by what stands behind it: the list, a number and a text, and the case.
    CASES = ("[]\n\n-- the number", "Another ∷ []\n\n-- the number")
    NUMBER = ("\n-- the permission that a number ", "number_of Another = 99\n\n-- the permission that a number ")
    TEXT = ("\n-- the permission that a text ", 'permission_text Another = codes "another"\n\n-- a text ')
    COMMENT = ("}\n\nimpl Permission", "    /// The key may do\n    /// all.\n    Another,\n}\n\nimpl Permission")

    def setUp(self) -> None:
        """The files, in a folder of their own."""
        self.files = list(dict.fromkeys(it.file for it in permissions.places()))
        sources = [f"src/{it}.rt" for it in permissions.KINDS]
        sources += [f"specs/{it.capitalize()}Permissions.antt" for it in permissions.KINDS]
        self.root = pathlib.Path(self.enterContext(tempfile.TemporaryDirectory()))
        for name in [*self.files, *(f"{permissions.CRATE}/{it}" for it in sources)]:
            (self.root / name).parent.mkdir(parents=True, exist_ok=True)
            shutil.copy(ROOT / name, self.root / name)
        self.enterContext(mock.patch.object(permissions, "ROOT", self.root))

    def change(self, name: str, *pairs: tuple[str, str]) -> None:
        """Puts texts in the place of others, each of which stands there."""
        text = (self.root / name).read_text(encoding="utf-8")
        for old, new in pairs:
            self.assertIn(old, text)
            text = text.replace(old, new, 1)
        (self.root / name).write_text(text, encoding="utf-8")

    def told(self) -> list[str]:
        """The files that faults are told of."""
        return [it.partition(" lists other permissions than ")[0] for it in permissions.faults()]

    def test_files(self) -> None:
        """All are as the definitions have it, and so are the rows of conformance/, which are written by hand."""
        self.assertEqual(self.told(), [])
        rows = (ROOT / "conformance/values/permissions.rows").read_text(encoding="utf-8").splitlines()
        for kind in permissions.KINDS:
            its, topic = permissions.all_of(kind), f"{kind}-permission"
            self.assertIn(f"permissions {topic} = {' '.join(it.text for it in its)}", rows)
            for it in its:
                self.assertIn(f"permission-number {topic} {it.text} = {it.number}", rows)

    def test_one_more(self) -> None:
        """Each file is told, and then written so that it has it."""
        self.change(self.SPECS, self.CASES, self.NUMBER, self.TEXT)
        self.change(self.CODE, self.COMMENT)
        self.assertEqual(permissions.all_of("operator")[-1], ("Another", "another", 99, "do all"))
        self.assertEqual(self.told(), self.files)
        permissions.write()
        self.assertEqual(self.told(), [])
        for it in self.files:
            self.assertRegex((self.root / it).read_text(encoding="utf-8"), "[Aa]nother")
        proof = "((refl, (refl, (refl, tt))), ((refl, (refl, tt)), ((refl, tt), (tt, tt))))"
        self.assertEqual(permissions.distinct(4), proof)

    def test_stale(self) -> None:
        """A place that says something else is told, and written anew."""
        for place in permissions.places():
            kept = (self.root / place.file).read_text(encoding="utf-8")
            self.change(place.file, (place.wanted, re.sub("(?i)(release|commit|, tt)", r"\1d", place.wanted)))
            self.assertEqual(self.told(), [place.file])
            permissions.write()
            self.assertEqual((self.root / place.file).read_text(encoding="utf-8"), kept)

    def test_long(self) -> None:
        """In Python a line has room for so many, and then each has a line of its own."""
        its = [permissions.Permission(f"It{at}", f"it{at}", at, "do it") for at in range(20)]
        wanted = next(it.wanted for it in permissions.of_packages("operator", its))
        self.assertEqual(wanted.splitlines()[1:3], ['        "it0": 0,', '        "it1": 1,'])

    def test_lacking(self) -> None:
        """A permission that lacks its number, its text or its comment is told."""
        in_specs = {"number": self.NUMBER, "text": self.TEXT, 'comment "The key may .."': None}
        for what, lacking in in_specs.items():
            for name in (self.SPECS, self.CODE):
                shutil.copy(ROOT / name, self.root / name)
            self.change(self.SPECS, *(it for it in (self.CASES, self.NUMBER, self.TEXT) if it != lacking))
            self.change(self.CODE, self.COMMENT)
            if lacking is None:
                self.change(self.CODE, ("/// The key may do\n", "/// It does\n"))
            with self.subTest(what), self.assertRaisesRegex(SystemExit, f"that have a {what} are not those that"):
                permissions.faults()

    def test_no_list(self) -> None:
        """A file without its list is told, and none is written."""
        self.change("docs/FORMATS.md", ("Package permissions: ", "Permissions: "))
        self.assertRaisesRegex(SystemExit, "FORMATS.md does not list the permissions once", permissions.write)


class Copies(unittest.TestCase):
    """The copies in the packages."""

    def test_copies(self) -> None:
        """Each is what it is one of; one that is another, or is not there, is told, and made anew."""
        self.assertEqual(copies.faults(), [])
        wanted = {f"{package}/{it}": it for package in ("go", "js", "python", "rust") for it in ("LICENSE", "NOTICE")}
        wanted |= {it: "include/warg.h" for it in ("go/warg.h", "rust/include/warg.h")}
        for target in (it for it in TARGETS if it.is_there()):
            library = f"dist/{target.name}/libwarg.a"
            wanted |= {f"go/libwarg_linux_{target.go}.a": library, f"rust/lib/{target.name}/libwarg.a": library}
        seen = {str(to.relative_to(ROOT / "bindings")): str(of.relative_to(ROOT)) for to, of in copies.copies().items()}
        self.assertEqual(seen, wanted)
        with tempfile.TemporaryDirectory() as folder:
            root = pathlib.Path(folder)
            of, other, missing = root / "of", root / "other", root / "a/missing"
            of.write_text("of")
            other.write_text("other")
            with mock.patch.object(copies, "ROOT", root):
                with mock.patch.object(copies, "copies", lambda: {other: of, missing: of}):
                    told = copies.faults()
                    copies.write()
                    self.assertEqual(copies.faults(), [])
        self.assertEqual([it.split(" is not ")[0] for it in told], ["other", "a/missing"])


class Elf(unittest.TestCase):
    """What is read off a library."""

    def test_needs(self) -> None:
        """By the programs of dist/, as readelf has them."""
        for name, soname in (("libwarg.so", versions.soname(versions.of_library())), ("weoldrin", None)):
            needs = elf.needs(TOOLS.parent / "dist/x86_64-linux" / name)
            self.assertEqual((needs.machine, needs.soname, needs.libraries), ("x86_64", soname, ("libc.so.6",)))
            self.assertEqual(needs.glibc, {"libwarg.so": (2, 14), "weoldrin": (2, 34)}[name])

    @unittest.skipUnless(shutil.which("readelf"), "readelf is not installed")
    def test_readelf(self) -> None:
        """Programs that need more libraries, and one that has a fixed address, as readelf has them."""
        for path in filter(pathlib.Path.is_file, map(pathlib.Path, (sys.executable, "/usr/bin/python3", "/bin/sh"))):
            words = ["readelf", "--wide", "--dynamic", "--version-info", str(path)]
            said = subprocess.run(words, stdout=subprocess.PIPE, text=True, check=True).stdout
            needed = [(int(first), int(second)) for first, second in re.findall(r"Name: GLIBC_(\d+)\.(\d+)", said)]
            libraries = tuple(re.findall(r"\(NEEDED\) .*\[(.*)\]", said))
            self.assertEqual(elf.needs(path)[1:], (None, libraries, max(needed)))
            file = elf._File(path.read_bytes())
            section = dict(file.dynamic())
            named = file.versions(section, file.at(section[elf._STRTAB]))
            self.assertEqual(named, re.findall(r" Name: (\S+) +Flags: ", said))

    def test_machines(self) -> None:
        data = bytearray((ROOT / "dist/x86_64-linux/libwarg.so").read_bytes())
        with clean() as root:
            for number, name in ((62, "x86_64"), (183, "aarch64"), (8, "8")):
                struct.pack_into("<H", data, 18, number)
                (root / "it").write_bytes(data)
                self.assertEqual(elf.needs(root / "it").machine, name)

    def test_names(self) -> None:
        """A version is compared by its numbers, and a name without any is passed over."""
        names = {
            (2, 17): ["GLIBC_2.2.5", "GLIBC_2.17", "GLIBC_2.4", "GLIBC_PRIVATE", "GLIBC_ABI_DT_RELR", "GCC_4.2"],
            (2, 0): ["GLIBC_PRIVATE", "GCC_12.0"],
        }
        for wanted, seen in names.items():
            with mock.patch.object(elf._File, "versions", lambda self, section, names, seen=seen: seen):
                self.assertEqual(elf.needs(ROOT / "dist/x86_64-linux/libwarg.so").glibc, wanted)

    def test_others(self) -> None:
        """A file of another form is none."""
        with tempfile.TemporaryDirectory() as folder:
            path = pathlib.Path(folder) / "it"
            for data in (b"", b"#!/bin/sh\n", b"\x7fELF\x01\x01" + struct.pack("60x")):
                path.write_bytes(data)
                self.assertRaises(ValueError, elf.needs, path)


class Targets(unittest.TestCase):
    """The machines, as others name them."""

    def test_names(self) -> None:
        seen = {it.name: (it.go, it.debian, it.multiarch) for it in TARGETS}
        wanted = {"x86_64-linux": ("amd64", "amd64", "x86_64-linux-gnu")}
        wanted["aarch64-linux"] = ("arm64", "arm64", "aarch64-linux-gnu")
        self.assertEqual(seen, wanted)


class Trees(unittest.TestCase):
    """What is packed."""

    def test_order(self) -> None:
        """A folder stands before what it has, and names are in the order of their bytes."""
        with tempfile.TemporaryDirectory() as folder:
            root = pathlib.Path(folder)
            for it in ("a/b", "a.c", "a/B", "Z", "ä"):
                (root / it).parent.mkdir(exist_ok=True)
                (root / it).touch()
            seen = [str(it.relative_to(root)) for it in trees.files(root)]
        self.assertEqual(seen, ["Z", "a", "a/B", "a/b", "a.c", "ä"])

    def test_links(self) -> None:
        """A link to a folder is one file, and nothing that lies behind it is packed."""
        with clean() as root:
            (root / "behind").mkdir()
            (root / "behind/file").touch()
            (root / "tree").mkdir()
            (root / "tree/link").symlink_to("../behind")
            (root / "tree/nowhere").symlink_to("nothing")
            self.assertEqual([it.name for it in trees.files(root / "tree")], ["link", "nowhere"])
            archive.pack(root / "tree", "it", root / "it.tar.gz")
            with tarfile.open(root / "it.tar.gz") as tar:
                seen = [(it.name, it.linkname, it.mode) for it in tar.getmembers()]
        links = [("it/link", "../behind", 0o777), ("it/nowhere", "nothing", 0o777)]
        self.assertEqual(seen, [("it", "", 0o755), *links])

    def test_bytes(self) -> None:
        """A tar file is of names, of what the files are, and of who may run them, and of nothing else."""
        seen = set()
        for name, (file, program, folder), time in (("one", (0o644, 0o755, 0o755), 1), ("b", (0o600, 0o700, 0o700), 2)):
            with clean() as root:
                (root / name / "folder").mkdir(parents=True)
                for it, mode in (("file", file), ("program", program)):
                    (root / name / it).write_text(it)
                    (root / name / it).chmod(mode)
                for path in (*(root / name).iterdir(), root / name):
                    os.utime(path, (time, time))
                (root / name / "folder").chmod(folder)
                (root / name).chmod(folder)
                archive.pack(root / name, "it", root / f"{name}.tar.gz")
                seen.add(hashlib.sha256((root / f"{name}.tar.gz").read_bytes()).hexdigest())
        self.assertEqual(len(seen), 1)

    def test_time(self) -> None:
        with mock.patch.dict("os.environ", {"SOURCE_DATE_EPOCH": "7"}):
            self.assertEqual(archive.epoch(), 7)
        with mock.patch.dict("os.environ", clear=True):
            self.assertEqual(archive.epoch(), 315532800)


class Releases(unittest.TestCase):
    """The files of a release, and what is left out."""

    def said(self, targets: list[Target], program: str | None) -> tuple[list[str], list[str]]:
        """The files that are written for these machines, and what is said, where this is `dpkg-deb`."""
        said = io.StringIO()
        with clean() as root, contextlib.redirect_stdout(said), mock.patch("shutil.which", lambda it: program):
            with mock.patch.object(archive, "TARGETS", targets), mock.patch.object(debian, "write") as packed:
                self.assertEqual(archive.write(root / "a/release"), 0)
                self.assertEqual(packed.call_count, len(targets) if program else 0)
            return sorted(it.name for it in (root / "a/release").iterdir()), said.getvalue().splitlines()

    def test_without_dpkg(self) -> None:
        target = TARGETS[0]
        for program in (None, "/usr/bin/dpkg-deb"):
            files, said = self.said([target], program)
            name = f"weoldrin-{versions.of_library()}-{target.name}.tar.gz"
            package = f"weoldrin-{versions.of_library()}.tgz"
            self.assertEqual(files, ["SHA256SUMS", name, package])
            told = ["left out: dpkg-deb, which makes the packages for Debian, is not installed"]
            self.assertEqual(said[:-2], [] if program else told)
            for line, file in zip(said[-2:], (name, package), strict=True):
                self.assertRegex(line, rf"^[0-9a-f]{{64}}  {file}$")

    def test_npm(self) -> None:
        """The package has what package.json says, with the library of dist/; where that is not there, it is said."""
        with clean() as root:
            npm.lay_out(root)
            self.assertEqual(sorted(it.name for it in root.iterdir()), sorted(npm.names()))
            self.assertEqual((root / "libwarg.wasm").read_bytes(), npm.LIBRARY.read_bytes())
            self.assertTrue((root / "src/index.js").is_file())
        with mock.patch.object(npm, "LIBRARY", ROOT / "dist/nothing"):
            told = ["left out: dist/ has no library for npm's package"]
            self.assertEqual(self.said([], None), (["SHA256SUMS"], told))

    def test_manifests(self) -> None:
        """Those of what a machine's files are."""
        wanted = [["MANIFEST", "MANIFEST.weoldrin", "MANIFEST.libwarg"], ["MANIFEST.aarch64"]]
        self.assertEqual([archive.manifests(it) for it in TARGETS], wanted)

    def test_sums(self) -> None:
        """They are in the order of the names, and none is that of the sums."""
        with clean() as root:
            for it in ("b", "a", "c", "SHA256SUMS"):
                (root / it).write_text(it)
            lines = archive.sums_of(root).splitlines()
        self.assertEqual(lines, [f"{hashlib.sha256(it.encode()).hexdigest()}  {it}" for it in "abc"])

    @unittest.skipUnless(shutil.which("dpkg-deb"), "dpkg-deb is not installed")
    def test_without_programs(self) -> None:
        """Of a machine that dist/ has a library and no programs for, there is no package of programs. All of the others
        is root's, whoever made it."""

        def install(target: Target, folder: pathlib.Path, *parts: str, **places: str) -> None:
            (folder / "usr/bin").mkdir(parents=True)
            (folder / "usr/bin/weoldrin-sign").write_text("#!/usr/bin/env python3\n")
            if os.geteuid() == 0:
                os.chown(folder / "usr/bin/weoldrin-sign", 1, 1)

        said, target = io.StringIO(), TARGETS[1]
        with clean() as root, contextlib.redirect_stdout(said), mock.patch.object(trees, "install", install):
            debian.write(target, root, 0)
            files = {it.name.partition("_")[0] for it in root.iterdir()}
            for it in root.iterdir():
                listed = subprocess.run(["dpkg-deb", "-c", it], stdout=subprocess.PIPE, text=True, check=True).stdout
                self.assertEqual({line.split()[1] for line in listed.splitlines()}, {"root/root"})
        self.assertEqual(files, {it.name for it in debian.packages()} - {"weoldrin"})
        self.assertEqual(said.getvalue(), f"left out: dist/ has no programs for {target.name}\n")


if __name__ == "__main__":
    unittest.main()
