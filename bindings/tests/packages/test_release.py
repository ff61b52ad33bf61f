"""`tools/release --archive`: the files of a release, as they are verified, unpacked and installed."""

import gzip
import hashlib
import pathlib
import re
import shutil
import sys
import tarfile
import tempfile
import unittest
from typing import ClassVar

from installing import HEAD, LOG, MACHINE, ROOT, VERSION, Installing, needs
from packages import debian, elf, npm, versions
from packages.targets import TARGETS

assert MACHINE
NAME = f"weoldrin-{VERSION}-{MACHINE.name}"
NPM = f"weoldrin-{VERSION}.tgz"
SONAME = versions.soname(VERSION)
LIBRARY = f"libwarg{versions.binary_version(VERSION)}"
PROGRAM = """
#include <warg.h>

int main(void) {
    struct warg_log log = {0};
    uint32_t status = warg_open(&log, WARG_PACKAGE);
    warg_close(&log);
    return status != WARG_OK;
}
"""


class Release(Installing):
    """A release, which is made once for all tests."""

    kept: ClassVar[tempfile.TemporaryDirectory[str]]
    printed: ClassVar[str] = ""

    def written(self) -> pathlib.Path:
        """A copy of the files of the release."""
        made = pathlib.Path(Release.kept.name) / "release"
        if not Release.printed:
            Release.printed = self.said(sys.executable, ROOT / "tools/release", "--archive", made)
        shutil.copytree(made, self.folder / "release")
        return self.folder / "release"


def setUpModule() -> None:
    Release.kept = tempfile.TemporaryDirectory(prefix="weoldrin-")


def tearDownModule() -> None:
    Release.kept.cleanup()


@needs("make")
class Archive(Release):
    """The files of a release."""

    def test_files(self) -> None:
        """What there is of each machine, and what is said of one that there is no library for."""
        folder = self.written()
        wanted = {"SHA256SUMS"}
        if npm.is_there():
            wanted.add(NPM)
        else:
            self.assertIn("left out: dist/ has no library for npm's package\n", Release.printed)
        for target in TARGETS:
            if target.is_there():
                wanted.add(f"weoldrin-{VERSION}-{target.name}.tar.gz")
            else:
                self.assertIn(f"left out: dist/ has no library for {target.name}\n", Release.printed)
        files = {it.name for it in folder.iterdir()}
        self.assertEqual({it for it in files if not it.endswith(".deb")}, wanted)

    def test_sums(self) -> None:
        """The sums are those of the files, and a file that was changed is told."""
        folder = self.written()
        self.assertEqual(self.said("sha256sum", "-c", "SHA256SUMS", at=folder).count(": OK\n"), len(self.sums(folder)))
        (folder / f"{NAME}.tar.gz").write_bytes(b"another")
        self.assertIn("FAILED", self.said("sha256sum", "-c", "SHA256SUMS", at=folder, status=1))

    @needs("ssh-keygen")
    def test_signature(self) -> None:
        """The sums are signed and verified as docs/OPERATING.md says it; another file, and another's key, are told."""
        folder = self.written()
        for it in ("key", "other"):
            self.said("ssh-keygen", "-q", "-t", "ed25519", "-N", "", "-f", it)
        self.said("ssh-keygen", "-Y", "sign", "-n", "weoldrin", "-f", "key", folder / "SHA256SUMS")
        verify = f"ssh-keygen -Y verify -n weoldrin -f allowed -I who -s {folder}/SHA256SUMS.sig < {folder}/SHA256SUMS"
        for key, status in (("key", 0), ("other", 255)):
            public = (self.folder / f"{key}.pub").read_text(encoding="utf-8")
            self.write("allowed", f'who namespaces="weoldrin" {public}')
            self.said("sh", "-c", verify, status=status)
        self.write("allowed", f"who {(self.folder / 'key.pub').read_text(encoding='utf-8')}")
        with open(folder / "SHA256SUMS", "a", encoding="utf-8") as sums:
            sums.write("\n")
        self.said("sh", "-c", verify, status=255)

    def sums(self, folder: pathlib.Path) -> dict[str, str]:
        """The digest of each file but the sums."""
        files = (it for it in folder.iterdir() if it.name != "SHA256SUMS")
        return {it.name: hashlib.sha256(it.read_bytes()).hexdigest() for it in files}

    def test_twice(self) -> None:
        """The same files make the same bytes, whoever makes them and when."""
        first, second = self.written(), self.folder / "second"
        command = f'umask 077; sleep 1.1; "{sys.executable}" "{ROOT}/tools/release" --archive "{second}"'
        self.said("sh", "-c", command, TZ="Asia/Tokyo")
        self.assertEqual(self.sums(first), self.sums(second))
        self.assertEqual((first / "SHA256SUMS").read_bytes(), (second / "SHA256SUMS").read_bytes())

    def test_no_folder(self) -> None:
        """Nothing is written into a folder that is there."""
        said = self.said(sys.executable, ROOT / "tools/release", "--archive", self.folder, status=2)
        self.assertIn("is there already", said)
        self.assertEqual([it.name for it in self.folder.iterdir()], ["home"])

    def test_members(self) -> None:
        """Whoever unpacks it, the files are root's, have the modes of a package, and lie in one folder."""
        folder = self.written()
        for file, first in ((f"{NAME}.tar.gz", NAME), (NPM, "package")):
            with tarfile.open(folder / file) as tar:
                members = tar.getmembers()
            for it in members:
                self.assertEqual(it.name.split("/")[0], first)
                self.assertEqual((it.uid, it.gid, it.uname, it.gname, it.mtime), (0, 0, "root", "root", 315532800))
                # The module is a file that may be run in dist/ too.
                is_run = it.isdir() or "/bin/" in it.name or it.name.endswith(".wasm")
                self.assertEqual(it.mode, 0o777 if it.issym() else 0o755 if is_run else 0o644, it.name)
            self.assertEqual([it.name for it in members], sorted(it.name for it in members))

    @needs("node", "npm")
    def test_npm(self) -> None:
        """npm's package has the files that `npm pack` packs, byte for byte, and npm installs it: it audits a log."""
        packed = self.files_of(self.written() / NPM)
        sources = self.copied("bindings/js", "js")
        kept = {"WEOLDRIN_LIBRARY": str(ROOT / "dist/wasm/libwarg.wasm")}
        npm_words = ["npm", "--silent", "--offline", "--no-update-notifier"]
        self.said(*npm_words, "pack", sources, env=kept)
        self.assertEqual(packed, self.files_of(self.folder / NPM))
        self.said(*npm_words, "install", "--prefix", self.folder / "installed", self.folder / "release" / NPM)
        weoldrin = self.folder / "installed/node_modules/.bin/weoldrin"
        self.assertTrue(self.said(weoldrin, "audit", "package", LOG).startswith(f"ok 4 {HEAD}\n"))

    def files_of(self, path: pathlib.Path) -> dict[str, tuple[int, str]]:
        """The mode and the digest of each file of a package for npm."""
        with tarfile.open(path) as tar:
            found = [(it, tar.extractfile(it)) for it in tar.getmembers()]
            return {it.name: (it.mode, hashlib.sha256(file.read()).hexdigest()) for it, file in found if file}

    @needs("cc", "pkg-config")
    def test_unpacked(self) -> None:
        """What is unpacked is used where it lies, and its files are those of dist/."""
        self.said("tar", "-xzf", self.written() / f"{NAME}.tar.gz")
        folder = self.folder / NAME
        said = self.said(folder / "bin/weoldrin", "audit", "package", LOG)
        self.assertTrue(said.startswith(f"ok 4 {HEAD}\n"), said)
        assert MACHINE
        lines = [it.split() for it in (folder / "share/doc/weoldrin/MANIFEST.libwarg").read_text().splitlines()]
        digests = {it[1]: it[2] for it in lines if len(it) == 3 and it[2].startswith("sha256:")}
        for name, path in (("libwarg.a", "lib/libwarg.a"), ("libwarg.so", f"lib/libwarg.so.{VERSION}")):
            seen = f"sha256:{hashlib.sha256((folder / path).read_bytes()).hexdigest()}"
            self.assertEqual(digests[f"{MACHINE.name}/{name}"], seen)
        flags = self.said("pkg-config", "--cflags", "--libs", "warg", PKG_CONFIG_LIBDIR=f"{folder}/lib/pkgconfig")
        self.said("cc", self.write("main.c", PROGRAM), *flags.split(), "-o", "main")
        self.said("./main", LD_LIBRARY_PATH=f"{folder}/lib")


@needs("make", "dpkg-deb", "dpkg", "cc", "pkg-config")
class Debian(Release):
    """The packages for Debian, which are installed below a folder of their own."""

    def setUp(self) -> None:
        super().setUp()
        self.written()
        assert MACHINE
        names = [it.name for it in debian.packages()]
        self.files = {it: self.folder / f"release/{it}_{VERSION}_{MACHINE.debian}.deb" for it in names}
        self.libraries = f"usr/lib/{MACHINE.multiarch}"

    def field(self, package: str, name: str) -> str:
        return self.said("dpkg-deb", "--field", self.files[package], name).strip()

    def test_fields(self) -> None:
        assert MACHINE
        self.assertEqual(list(self.files), [LIBRARY, "libwarg-dev", "weoldrin"])
        for it in self.files:
            self.assertEqual(self.field(it, "Version"), VERSION)
            self.assertEqual(self.field(it, "Architecture"), MACHINE.debian)
        needed = {it: elf.needs(MACHINE.folder() / it).glibc for it in ("libwarg.so", "weoldrin")}
        least = {name: f"libc6 (>= {first}.{second})" for name, (first, second) in needed.items()}
        self.assertEqual(self.field(LIBRARY, "Depends"), least["libwarg.so"])
        self.assertEqual(self.field("weoldrin", "Depends"), least["weoldrin"])
        self.assertEqual(self.field("libwarg-dev", "Depends"), f"{LIBRARY} (= {VERSION}), libc6-dev")
        self.assertEqual(self.field("weoldrin", "Recommends"), "python3:any, python3-cryptography | openssl")
        for it, same in ((LIBRARY, "same"), ("libwarg-dev", "same"), ("weoldrin", "no")):
            self.assertEqual(self.field(it, "Multi-Arch"), same)
        for it, path in self.files.items():
            self.said("dpkg-deb", "-x", path, self.folder / it)
            files = (file for file in (self.folder / it).rglob("*") if file.is_file() and not file.is_symlink())
            size = sum(file.stat().st_size for file in files)
            self.assertLess(abs(int(self.field(it, "Installed-Size")) - size / 1024), 24)
            self.assertEqual(self.field(it, "Maintainer"), debian.MAINTAINER)
            first, *lines = self.field(it, "Description").splitlines()
            self.assertRegex(first, r"checked by a proved library \([a-z ]+\)$")
            self.assertGreater(len(lines), 2)
        named = {it: [self.field(it, name) for name in ("Source", "Section", "Priority")] for it in self.files}
        sections = {LIBRARY: "libs", "libwarg-dev": "libdevel", "weoldrin": "utils"}
        self.assertEqual(named, {it: ["weoldrin", section, "optional"] for it, section in sections.items()})

    @needs("readelf")
    def test_needed(self) -> None:
        """What the files of a package need, as readelf has it, is glibc alone, of the version that it depends on."""
        for it, path in self.files.items():
            self.said("dpkg-deb", "-x", path, self.folder / it)
            shared = [file for file in (self.folder / it).rglob("*") if debian.is_shared(file)]
            said = [self.said("readelf", "--wide", "--dynamic", "--version-info", file) for file in shared]
            self.assertEqual(bool(shared), it != "libwarg-dev")
            for text in said:
                self.assertEqual(re.findall(r"\(NEEDED\) .*\[(.*)\]", text), ["libc.so.6"], it)
            versions_asked = [
                tuple(map(int, version.split("."))) for text in said for version in re.findall(r"GLIBC_([\d.]+)", text)
            ]
            least = re.findall(r"libc6 \(>= ([\d.]+)\)", self.field(it, "Depends"))
            self.assertEqual(least, [".".join(map(str, max(versions_asked)))] if shared else [])

    def test_documents(self) -> None:
        """The licence, in Debian's form, and the change log; and the form that Debian's own tools unpack."""
        form = "Format: https://www.debian.org/doc/packaging-manuals/copyright-format/1.0/\n"
        texts = [(ROOT / it).read_text(encoding="utf-8").splitlines() for it in ("NOTICE", "LICENSE")]
        for it, path in self.files.items():
            self.assertIn(b"data.tar.xz ", path.read_bytes())
            self.said("dpkg-deb", "-x", path, self.folder / "root")
            folder = self.folder / f"root/usr/share/doc/{it}"
            changes = gzip.decompress((folder / "changelog.gz").read_bytes())
            self.assertEqual(changes, (ROOT / "CHANGELOG.md").read_bytes())
            head, _, licence = (folder / "copyright").read_text(encoding="utf-8").partition("\nLicense: ")
            self.assertTrue(head.startswith(form))
            name, *lines = licence.splitlines()
            self.assertEqual(name, "Apache-2.0 WITH LLVM-exception")
            # Each line is indented, and an empty one has a full stop.
            self.assertTrue(all(line.startswith(" ") and line.strip() for line in lines))
            own = [line for text in texts for line in text if line.strip()]
            self.assertEqual([line[1:] for line in lines if line != " ."], own)

    def test_controls(self) -> None:
        """What the library's package says to the system, and to packages that are built with it."""
        said = {"shlibs": f"libwarg {versions.binary_version(VERSION)} {LIBRARY} (>= {VERSION})\n"}
        said["triggers"] = "activate-noawait ldconfig\n"
        for name, text in said.items():
            self.assertEqual(self.said("dpkg-deb", "--info", self.files[LIBRARY], name), text)
            self.said("dpkg-deb", "--info", self.files["weoldrin"], name, status=2)

    def test_members(self) -> None:
        """The files are root's, and have the modes of a package."""
        for it in self.files.values():
            listed = self.said("dpkg-deb", "--contents", it)
            for line in listed.splitlines():
                mode, owner = line.split()[:2]
                wanted = "lrwxrwxrwx" if " -> " in line else "drwxr-xr-x" if line.endswith("/") else "-rw-r--r--"
                wanted = "-rwxr-xr-x" if "/usr/bin/" in line and not line.endswith("/") else wanted
                self.assertEqual((mode, owner), (wanted, "root/root"), line)

    def test_installed(self) -> None:
        """dpkg installs them, finds their files as they are, and takes them away; a program is built and run."""
        root = self.folder / "root"
        for it in ("var/lib/dpkg/info", "var/lib/dpkg/updates", "var/log"):
            (root / it).mkdir(parents=True)
        for it in ("status", "available"):
            (root / "var/lib/dpkg" / it).touch()
        dpkg = ["dpkg", f"--root={root}", "--force-depends", "--force-not-root", "--force-bad-path"]
        self.said(*dpkg, "--install", *self.files.values())
        self.assertEqual(self.said(*dpkg, "--verify"), "")
        asked = ["dpkg-query", f"--admindir={root}/var/lib/dpkg", "-W", "-f", "${Package} ${db:Status-Abbrev}\n"]
        status = self.said(*asked)
        self.assertEqual(status.split(), [word for it in sorted(self.files) for word in (it, "ii")])
        self.use(root)
        for it in self.files:
            self.assertTrue((root / f"usr/share/doc/{it}/copyright").is_file())
        self.said(*dpkg, "--remove", *self.files)
        left = [it for it in (root / "usr").rglob("*") if not it.is_dir()]
        self.assertEqual(left, [])

    def test_unpacked(self) -> None:
        """The same without dpkg."""
        for it in self.files.values():
            self.said("dpkg-deb", "-x", it, self.folder / "root")
        self.use(self.folder / "root")

    def use(self, root: pathlib.Path) -> None:
        """Builds a program with the library of this folder, and runs the programs."""
        libraries = root / self.libraries
        flags = self.said("pkg-config", "--cflags", "--libs", "warg", PKG_CONFIG_LIBDIR=f"{libraries}/pkgconfig")
        self.said("cc", self.write("main.c", PROGRAM), *flags.split(), "-o", "main")
        self.assertIn(SONAME, elf.needs(self.folder / "main").libraries)
        self.said("./main", LD_LIBRARY_PATH=str(libraries))
        self.assertIn(f"ok 4 {HEAD}", self.said(root / "usr/bin/weoldrin", "audit", "package", LOG))


if __name__ == "__main__":
    unittest.main()
