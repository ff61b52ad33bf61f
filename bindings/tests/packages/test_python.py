"""The Python package, as pip builds and installs it."""

import ast
import pathlib
import re
import shutil
import subprocess
import sys
import tarfile
import unittest
import zipfile

from installing import HEAD, LOG, MACHINE, ROOT, VERSION, Installing, needs
from packages import elf

assert MACHINE
SOURCES = ROOT / "bindings/python/src/weoldrin"
LIBRARY, PROGRAM = "weoldrin/_native/libwarg.so", "weoldrin/_native/weoldrin"
ARCH = MACHINE.name.partition("-")[0]
# The names of the wheels for this machine: the one with the program, and the one without.
GLIBC = elf.needs(MACHINE.folder() / "weoldrin").glibc
NEW, OLD = f"manylinux_{GLIBC[0]}_{GLIBC[1]}_{ARCH}", f"manylinux2014_{ARCH}"
# What says whose version a package is, and audits a log by it.
SAYS = "import weoldrin; print(weoldrin.__version__, weoldrin.library_version(), weoldrin.audit({!r}, 'package').head)"
SAID = f"{VERSION} {VERSION} {HEAD}\n"
# Says which wheel is built on a machine that is named, and which ones there are.
HERE = """
import platform, sys
import hatch_build

sys.platform, machine, *libc = sys.argv[1:]
platform.machine, platform.libc_ver = lambda: machine, lambda: tuple(libc)
print(hatch_build.of_this_machine())
print(*hatch_build.wheels())
"""


def interpreter() -> str | None:
    """A Python that has pip and hatchling, the one that runs this first."""
    tried = [sys.executable, "/usr/bin/python3"]
    words = "import hatchling.build, pip"
    found = (it for it in tried if pathlib.Path(it).exists() and not _fails(it, "-c", words))
    return next(found, None)


def _fails(*words: str) -> bool:
    return subprocess.run(words, capture_output=True, check=False).returncode != 0


PYTHON = interpreter()
PLATFORM = re.compile(r"manylinux_(\d+)_(\d+)_\w+")


@unittest.skipIf(PYTHON is None, "no Python here has pip and hatchling")
class Wheels(Installing):
    """What is built, and installed into an environment of its own."""

    def built(self, folder: pathlib.Path, wheel: str = "") -> pathlib.Path:
        """The wheel that pip builds of a folder."""
        assert PYTHON
        to = self.folder / f"wheels-{wheel or 'own'}"
        words = ["--quiet", "--no-deps", "--no-build-isolation", "--wheel-dir", str(to), str(folder)]
        self.said(PYTHON, "-m", "pip", "wheel", *words, env={"WEOLDRIN_WHEEL": wheel})
        (made,) = to.iterdir()
        return made

    def package(self) -> pathlib.Path:
        """A copy of what the package is built of: its folder, and dist/."""
        self.copied("dist", "clone/dist")
        return self.copied("bindings/python", "clone/bindings/python")

    def environment_of(self, *words: str | pathlib.Path) -> pathlib.Path:
        """An environment where pip has installed this."""
        assert PYTHON
        to = self.folder / "environment"
        self.said(PYTHON, "-m", "venv", "--clear", "--without-pip", "--system-site-packages", to)
        self.said(PYTHON, "-m", "pip", "--python", to / "bin/python", "install", "--quiet", "--no-deps", *words)
        return to

    def test_own(self) -> None:
        """The wheel for this machine has the library and the program, and needs neither a compiler nor a network."""
        package = self.package()
        wheel = self.built(package)
        with zipfile.ZipFile(wheel) as files:
            self.assertIn(LIBRARY, files.namelist())
            assert MACHINE
            self.assertEqual(files.read(LIBRARY), (MACHINE.folder() / "libwarg.so").read_bytes())
            self.assertEqual(files.read(PROGRAM), (MACHINE.folder() / "weoldrin").read_bytes())
            metadata = files.read(f"weoldrin-{VERSION}.dist-info/METADATA").decode()
            about = files.read(f"weoldrin-{VERSION}.dist-info/WHEEL").decode().splitlines()
            licences = [it for it in files.namelist() if it.endswith(("LICENSE", "NOTICE"))]
            files_of = (it for it in (package / "src/weoldrin").rglob("*") if it.is_file())
            sources = {str(it.relative_to(package / "src")) for it in files_of}
            within = {it for it in files.namelist() if it.startswith("weoldrin/")}
        self.assertEqual(within, sources | {LIBRARY, PROGRAM})
        self.assertEqual(wheel.name, f"weoldrin-{VERSION}-py3-none-{NEW}.whl")
        self.assertLessEqual({"Root-Is-Purelib: false", f"Tag: py3-none-{NEW}"}, set(about))
        self.assertIn(f"\nVersion: {VERSION}\n", metadata)
        self.assertIn("\nRequires-Python: >=3.10\n", metadata)
        self.assertIn("\nLicense: Apache-2.0 WITH LLVM-exception\n", metadata)
        self.assertIn("\n# weoldrin for Python\n", metadata)
        extras = re.findall(r"^Requires-Dist: (\w+)>=([\d.]+); extra == .(\w+).$", metadata, re.M)
        self.assertEqual(extras, [("distributed", "2022.12", "dask"), ("cryptography", "38", "signing")])
        self.assertEqual(metadata.count("\nRequires-Dist: "), len(extras))
        self.assertEqual(len(licences), 2)
        to = self.environment_of(wheel)
        self.assertEqual(self.said(to / "bin/python", "-c", SAYS.format(str(LOG))), SAID)
        self.assertTrue(self.said(to / "bin/weoldrin", "--version").startswith(f"weoldrin {VERSION}\n"))
        said = self.said(to / "bin/weoldrin", "audit", "package", LOG)
        self.assertTrue(said.startswith(f"ok 4 {HEAD}\n"), said)
        # What asks a registry is the package's.
        self.assertTrue(self.said(to / "bin/weoldrin", "fetch", "--help").startswith("usage: weoldrin fetch "))
        # Its status is the program's own.
        self.assertEqual(self.said(to / "bin/weoldrin", "audit", "package", "/dev/null", status=1), "empty\n")

    def test_names(self) -> None:
        """A name promises no earlier glibc than what is in the wheel needs."""
        for name in ("", OLD):
            wheel = self.built(self.package(), name)
            tag = wheel.name.removesuffix(".whl").split("-")[-1]
            found = PLATFORM.fullmatch(tag)
            self.assertTrue(found or tag == OLD, tag)
            promised = (int(found[1]), int(found[2])) if found else (2, 17)
            with zipfile.ZipFile(wheel) as files:
                files.extractall(self.folder / "unpacked" / tag)
            native = [it for it in (self.folder / "unpacked" / tag / "weoldrin/_native").iterdir()]
            self.assertIn("libwarg.so", [it.name for it in native])
            self.assertLessEqual(max(elf.needs(it).glibc for it in native), promised, tag)

    def test_old(self) -> None:
        """The wheel for old systems has the library; its command says that it has no program, and where that is."""
        wheel = self.built(self.package(), OLD)
        self.assertEqual(wheel.name, f"weoldrin-{VERSION}-py3-none-{OLD}.whl")
        to = self.environment_of(wheel)
        self.assertEqual(self.said(to / "bin/python", "-c", SAYS.format(str(LOG))), SAID)
        said = self.said(to / "bin/weoldrin", "--version", status=3)
        self.assertEqual(said.count("\n"), 1)
        self.assertIn("weoldrin: this package has no program for Linux on ", said)

    def test_pure(self) -> None:
        """The wheel for all machines says what it lacks, and works with a library that is named to it."""
        wheel = self.built(self.package(), "any")
        self.assertEqual(wheel.name, f"weoldrin-{VERSION}-py3-none-any.whl")
        with zipfile.ZipFile(wheel) as files:
            self.assertEqual([it for it in files.namelist() if "_native/" in it], [])
            self.assertIn(b"Root-Is-Purelib: true\n", files.read(f"weoldrin-{VERSION}.dist-info/WHEEL"))
        to = self.environment_of(wheel)
        self.assertIn("has no program for", self.said(to / "bin/weoldrin", status=3))
        asks = "import weoldrin\ntry: weoldrin.PackageLog()\nexcept weoldrin.NoLibrary as error: print(error)"
        said = self.said(to / "bin/python", "-c", asks)
        self.assertTrue(said.startswith("NoLibrary: this package has no library for Linux on "), said)
        self.assertIn("WEOLDRIN_LIBRARY", said)
        writes = "from weoldrin import records; print(records.sha256_text(b''))"
        self.assertTrue(self.said(to / "bin/python", "-c", writes).startswith("sha256:e3b0c442"))
        assert MACHINE
        named = {"WEOLDRIN_LIBRARY": str(MACHINE.folder() / "libwarg.so")}
        self.assertEqual(self.said(to / "bin/python", "-c", SAYS.format(str(LOG)), env=named), SAID)
        said = self.said(to / "bin/python", "-c", asks, WEOLDRIN_LIBRARY="/nowhere.so")
        self.assertIn("NoLibrary: /nowhere.so can't be loaded: ", said)

    def test_unknown(self) -> None:
        """A wheel for a machine that dist/ has nothing for is left out, and so is one of no known name."""
        package = self.package()
        shutil.rmtree(self.folder / "clone/dist/aarch64-linux")
        for wheel, told in (("manylinux2014_aarch64", "there is no library"), ("win_amd64", "weoldrin has no wheel")):
            assert PYTHON
            words = ["--quiet", "--no-deps", "--no-build-isolation", str(package)]
            said = self.said(PYTHON, "-m", "pip", "wheel", *words, status=1, WEOLDRIN_WHEEL=wheel)
            self.assertIn(told, said)

    def test_arm(self) -> None:
        """The wheel for 64-bit ARM has the library for it, and no program."""
        with zipfile.ZipFile(self.built(self.package(), "manylinux2014_aarch64")) as files:
            native = {it for it in files.namelist() if "/_native/" in it}
            self.assertEqual(native, {"weoldrin/_native/libwarg.so"})
            library = files.read("weoldrin/_native/libwarg.so")
        self.assertEqual(library, (ROOT / "dist/aarch64-linux/libwarg.so").read_bytes())
        # e_machine of the ELF header: 183 is AArch64.
        self.assertEqual(library[18:20], bytes([183, 0]))

    def test_late(self) -> None:
        """A library that needs a later glibc than the name of the wheel promises is refused."""
        assert PYTHON and MACHINE
        words = ["--quiet", "--no-deps", "--no-build-isolation", str(self.package())]
        late = {"WEOLDRIN_WHEEL": OLD, "WEOLDRIN_LIBRARY": str(MACHINE.folder() / "weoldrin")}
        said = self.said(PYTHON, "-m", "pip", "wheel", *words, status=1, env=late)
        self.assertIn(f"needs a later glibc than the name {OLD} promises", said)

    def test_machines(self) -> None:
        """The wheel that is built on a machine is the first one that runs there, and none of another C library."""
        assert PYTHON
        assert MACHINE
        package, (first, second) = self.package(), GLIBC
        for it in (self.folder / "clone/dist").glob("*-linux"):
            # The wheels for another machine have names of their own.
            if it.name != MACHINE.name:
                shutil.rmtree(it)
        self.write("here.py", HERE)
        machines = {
            ("linux", ARCH, "glibc", "3.0"): NEW,
            ("linux", ARCH, "glibc", f"{first}.{second}"): NEW,
            ("linux", ARCH, "glibc", f"{first}.{second - 1}"): OLD,
            ("linux", ARCH, "glibc", "2.17"): OLD,
            ("linux", ARCH, "glibc", "2.5"): "any",
            ("linux", ARCH, "", ""): "any",
            ("linux", "mips", "glibc", "2.36"): "any",
            ("darwin", ARCH, "glibc", "2.36"): "any",
        }
        for machine, wheel in machines.items():
            said = self.said(PYTHON, self.folder / "here.py", *machine, env={"PYTHONPATH": str(package)})
            self.assertEqual(said.splitlines(), [wheel, f"{NEW} {OLD} any"], machine)
        # A program that needs no more than the library makes no wheel of its own.
        native = self.folder / "clone/dist" / MACHINE.name
        shutil.copy(native / "libwarg.so", native / "weoldrin")
        said = self.said(PYTHON, "here.py", "linux", ARCH, "glibc", "2.36", env={"PYTHONPATH": str(package)})
        self.assertEqual(said.splitlines(), [OLD, f"{OLD} any"])

    def test_twice(self) -> None:
        """The same sources make the same bytes, whenever they were written, and whoever may read them."""
        package = self.package()
        first = self.built(package).read_bytes()
        changes = "find clone -exec touch {} + && chmod -R go= clone"
        self.said("sh", "-c", f"rm -r wheels-own; sleep 2.1; {changes}")
        self.assertEqual(self.built(package).read_bytes(), first)

    def test_sources(self) -> None:
        """The archive of the sources has the library, and makes the same wheel, from where no repository is."""
        assert PYTHON
        package = self.package()
        builds = "import hatchling.build as it; print(it.build_sdist('made'))"
        self.said(PYTHON, "-c", builds, at=package)
        with tarfile.open(package / f"made/weoldrin-{VERSION}.tar.gz") as tar:
            names = tar.getnames()
            tar.extractall(self.folder / "sources")
        within = {it.removeprefix(f"weoldrin-{VERSION}/") for it in names}
        own = {"LICENSE", "NOTICE", "README.md", "hatch_build.py", "pyproject.toml", "PKG-INFO"}
        native = {str(it.relative_to(ROOT / "dist")) for it in (ROOT / "dist").glob("*-linux/*")}
        own |= {f"native/{it}" for it in native if it.endswith(("/libwarg.so", "/weoldrin"))}
        for it in ("src", "tests", "examples"):
            own |= {str(path.relative_to(package)) for path in (package / it).rglob("*") if path.is_file()}
        # A .gitignore is put in by some versions of hatchling.
        self.assertEqual(within - {".gitignore"}, own)
        wheel = self.built(package).read_bytes()
        self.said("rm", "-r", "clone", "wheels-own")
        again = self.built(self.folder / f"sources/weoldrin-{VERSION}")
        self.assertEqual(again.read_bytes(), wheel)

    def test_editable(self) -> None:
        """An editable install is the sources themselves, with the library and the program of dist/."""
        package = self.package()
        to = self.environment_of("--no-build-isolation", "--editable", package)
        self.assertEqual(list(to.rglob("_native")), [])
        where = "import weoldrin; print(weoldrin.__file__)"
        self.assertEqual(self.said(to / "bin/python", "-c", where), f"{package}/src/weoldrin/__init__.py\n")
        self.assertEqual(self.said(to / "bin/python", "-c", SAYS.format(str(LOG))), SAID)
        self.assertTrue(self.said(to / "bin/weoldrin", "--version").startswith(f"weoldrin {VERSION}\n"))

    @needs("git")
    def test_folder(self) -> None:
        """`pip install` of the folder, as the README has it."""
        to = self.environment_of("--no-build-isolation", self.package())
        self.assertEqual(self.said(to / "bin/python", "-c", SAYS.format(str(LOG))), SAID)


class Versions(unittest.TestCase):
    """What the sources are written in."""

    def test_syntax(self) -> None:
        """Python 3.10 reads them."""
        for it in sorted(SOURCES.glob("*.py")):
            ast.parse(it.read_text(encoding="utf-8"), str(it), feature_version=(3, 10))

    def test_names(self) -> None:
        """No name is imported that came later: of those that these sources might use."""
        later = re.compile(r"^(?:from|import) .*\b(?:Self|tomllib|StrEnum|assert_never|Never|TaskGroup|file_digest)\b")
        uses = re.compile(r"\b(?:datetime\.UTC|ExceptionGroup|add_note|except\*)")
        for it in sorted(SOURCES.glob("*.py")):
            for line in it.read_text(encoding="utf-8").splitlines():
                self.assertIsNone(later.search(line) or uses.search(line), f"{it.name}: {line}")


if __name__ == "__main__":
    unittest.main()
