"""`make install`, and programs in C that are built with what it installs."""

import pathlib
import re
import shutil
import unittest

from installing import HEAD, LOG, MACHINE, ROOT, VERSION, Installing, links, needs
from packages import elf, versions
from packages.targets import TARGETS

SONAME = versions.soname(VERSION)
# A program that says the versions of its header and of its library.
PROGRAM = """
#include <stdio.h>
#include <string.h>
#include <warg.h>

int main(void) {
    uint8_t text[16];
    size_t used = 0;
    struct warg_log log = {0};
    if (warg_version(text, sizeof text, &used) != WARG_OK || warg_open(&log, WARG_PACKAGE) != WARG_OK) return 1;
    warg_close(&log);
    printf("%s %d.%d.%d %.*s\\n", WARG_VERSION, WARG_VERSION_MAJOR, WARG_VERSION_MINOR, WARG_VERSION_PATCH, (int)used,
           (const char *)text);
    return used != strlen(WARG_VERSION) || memcmp(text, WARG_VERSION, used) != 0;
}
"""
SAID = f"{VERSION} {VERSION} {VERSION}\n"
CMAKE = """
cmake_minimum_required(VERSION 3.13)
project(app C)
find_package(warg @WANTED@ REQUIRED)
foreach(kind IN ITEMS warg static)
  add_executable(${kind} main.c)
  target_link_libraries(${kind} PRIVATE warg::${kind})
endforeach()
file(GENERATE OUTPUT soname.txt CONTENT $<TARGET_SONAME_FILE_NAME:warg::warg>)
# A second look finds the same, and leaves nothing behind.
find_package(warg @WANTED@ REQUIRED)
get_cmake_property(left VARIABLES)
list(FILTER left INCLUDE REGEX "^_warg")
if(left)
  message(FATAL_ERROR "left behind: ${left}")
endif()
"""
# A program that can do without it.
OPTIONAL = """
cmake_minimum_required(VERSION 3.13)
project(app C)
find_package(warg QUIET)
if(warg_FOUND OR TARGET warg::warg OR TARGET warg::static)
  message(FATAL_ERROR "found")
endif()
"""


@needs("make", "cc", "pkg-config")
class Installed(Installing):
    """A prefix of its own."""

    def flags(self, prefix: pathlib.Path, *words: str) -> list[str]:
        """What pkg-config says, cut as a shell does."""
        said = self.said("pkg-config", *words, "warg", PKG_CONFIG_LIBDIR=str(prefix / "lib/pkgconfig"))
        return [it.replace("\\", "") for it in re.findall(r"(?:[^\s\\]|\\.)+", said)]

    def built(self, name: str, *flags: str) -> pathlib.Path:
        """The program, built by these flags."""
        source = self.write("main.c", PROGRAM)
        self.said("cc", "-Wall", "-Wextra", "-Werror", source, *flags, "-o", self.folder / name)
        return self.folder / name

    def test_files(self) -> None:
        """The files, their modes and their links; and none is left when they are taken away."""
        prefix = self.installed()
        seen = {str(it.relative_to(prefix)) for it in prefix.rglob("*") if not it.is_dir()}
        libraries = {"libwarg.a", "libwarg.so", SONAME, f"libwarg.so.{VERSION}", "pkgconfig/warg.pc"}
        wanted = {"include/warg.h", *(f"lib/{it}" for it in libraries)}
        wanted |= {f"lib/cmake/warg/warg-config{it}.cmake" for it in ("", "-version")}
        wanted |= {f"share/doc/weoldrin/{it}" for it in ("LICENSE", "NOTICE", "CHANGELOG.md")}
        assert MACHINE
        programs = {it for it in ("weoldrin", "warg_audit") if (MACHINE.folder() / it).exists()}
        self.assertEqual(seen, wanted | {f"bin/{it}" for it in (*programs, "weoldrin-sign")})
        self.assertEqual((prefix / f"lib/{SONAME}").readlink(), pathlib.Path(f"libwarg.so.{VERSION}"))
        self.assertEqual((prefix / "lib/libwarg.so").readlink(), pathlib.Path(SONAME))
        for it in prefix.rglob("*"):
            mode = 0o755 if it.is_dir() or it.parent.name == "bin" else 0o644
            self.assertEqual(it.stat().st_mode & 0o777, mode, it)
        self.installed("uninstall", prefix=prefix)
        self.assertEqual([it for it in prefix.rglob("*") if not it.is_dir()], [])
        own = [prefix / "share/doc/weoldrin", prefix / "lib/cmake/warg"]
        self.assertEqual([it for it in own if it.exists()], [])

    def test_library(self) -> None:
        """What the library is called, and what it needs of the machine."""
        needs = elf.needs(self.installed() / f"lib/libwarg.so.{VERSION}")
        self.assertEqual((needs.soname, needs.libraries), (SONAME, ("libc.so.6",)))
        self.assertLessEqual(needs.glibc, (2, 17))

    def test_shared(self) -> None:
        """Also where the prefix has a space, and was moved after the installation."""
        prefix = self.installed(prefix=self.folder / "a place").rename(self.folder / "another place")
        self.assertEqual(self.flags(prefix, "--modversion"), [VERSION])
        program = self.built("shared", *self.flags(prefix, "--cflags", "--libs"))
        self.assertIn(SONAME, elf.needs(program).libraries)
        self.assertEqual(self.said(program, LD_LIBRARY_PATH=str(prefix / "lib")), SAID)
        self.said(program, status=127)

    def test_static(self) -> None:
        """A program that needs no library at run time, and one that needs not even that of C."""
        prefix = self.installed()
        (prefix / "lib/libwarg.so").unlink()
        flags = self.flags(prefix, "--static", "--cflags", "--libs")
        program = self.built("archive", *flags)
        self.assertEqual(elf.needs(program).libraries, ("libc.so.6",))
        self.assertEqual(self.said(program), SAID)
        alone = self.built("static", "-static", *flags)
        self.assertEqual(elf.needs(alone).libraries, ())
        self.assertEqual(self.said(alone), SAID)

    def test_other_places(self) -> None:
        """Each folder may be set, and a folder stand for the root while a package is made. Links of the machine where
        that is done don't matter then."""
        (self.folder / "behind/the/link").mkdir(parents=True)
        (self.folder / "link").symlink_to("behind/the/link")
        link = str(self.folder / "link")
        places = [("/usr", "/usr/lib/x-y", "/usr/include/w"), (link, f"{link}/lib", f"{self.folder}/headers")]
        for prefix, libraries, headers in places:
            root = self.folder / "root"
            words = [f"PREFIX={prefix}", f"LIBDIR={libraries}", f"INCLUDEDIR={headers}", f"DESTDIR={root}"]
            self.said("make", "-s", "-C", ROOT, "install", *words)
            found = {"PKG_CONFIG_LIBDIR": f"{root}{libraries}/pkgconfig"}
            program = self.built("other", *self.said("pkg-config", "--cflags", "--libs", "warg", env=found).split())
            self.assertEqual(self.said(program, LD_LIBRARY_PATH=f"{root}{libraries}"), SAID)
            self.said("make", "-s", "-C", ROOT, "uninstall", *words)
            self.assertEqual([it for it in root.rglob("*") if not it.is_dir()], [])

    def test_own_place(self) -> None:
        """Where no place is named, it is /usr/local."""
        self.said("make", "-s", "-C", ROOT, "install", f"DESTDIR={self.folder}/root")
        self.assertEqual([it.name for it in (self.folder / "root").iterdir()], ["usr"])
        for it in ("bin/weoldrin-sign", "include/warg.h", "lib/libwarg.so", "share/doc/weoldrin/NOTICE"):
            self.assertTrue((self.folder / "root/usr/local" / it).is_file(), it)

    def test_programs(self) -> None:
        """The programs run from where they were installed."""
        prefix = self.installed()
        said = self.said(prefix / "bin/weoldrin", "audit", "package", LOG)
        self.assertTrue(said.startswith(f"ok 4 {HEAD}\n"), said)
        self.assertTrue(self.said(prefix / "bin/weoldrin", "--version").startswith(f"weoldrin {VERSION}\n"))
        self.assertIn("weoldrin-sign new KEY.pem", self.said(prefix / "bin/weoldrin-sign", "--help"))

    def test_other_machines(self) -> None:
        """A machine that there is no library for is told, whether it is named or this one; and so are programs that are
        left out."""
        machines = sorted(it.name for it in TARGETS if it.is_there())
        told = f"dist/ has no library for mips-linux, but for: {' '.join(machines)}"
        words = ["make", "-s", "-C", str(ROOT), f"PREFIX={self.folder}/p"]
        for part in ("install", "install-library", "install-development"):
            self.assertIn(told, self.said(*words, "TARGET=mips-linux", part, status=2))
        self.write("bin/uname", "#!/bin/sh\necho mips\n").chmod(0o755)
        path = f"{self.folder}/bin:{self.environment['PATH']}"
        self.assertIn(told, self.said(*words, "install", status=2, PATH=path))
        self.assertFalse((self.folder / "p").exists())
        said = self.said(*words, "TARGET=mips-linux", "install-programs")
        left_out = [f"left out: dist/ has no {it} for mips-linux" for it in ("weoldrin", "warg_audit")]
        self.assertEqual(said.splitlines(), left_out)
        self.assertEqual([it.name for it in (self.folder / "p/bin").iterdir()], ["weoldrin-sign"])

    @unittest.skipUnless(links("-lcrypto"), "libcrypto is not installed (libssl-dev)")
    def test_readme(self) -> None:
        """The program of examples/c is built by what is installed."""
        prefix = self.installed()
        sources = [ROOT / "examples/c" / it for it in ("audit.c", "appending.c", "bytes.c")]
        self.said("cc", *sources, *self.flags(prefix, "--cflags", "--libs"), "-lcrypto", "-o", "audit")
        command = f"{self.folder}/audit package < {LOG}"
        self.assertIn(f"ok 4 {HEAD}", self.said("sh", "-c", command, LD_LIBRARY_PATH=str(prefix / "lib")))


@needs("make", "cc", "cmake")
class ByCMake(Installing):
    """`find_package`."""

    def configured(self, wanted: str, prefix: pathlib.Path, status: int = 0, text: str = CMAKE) -> str:
        """What cmake says of a program that wants a version."""
        shutil.rmtree(self.folder / "build", ignore_errors=True)
        self.write("app/CMakeLists.txt", text.replace("@WANTED@", wanted))
        self.write("app/main.c", PROGRAM)
        return self.said("cmake", "-S", "app", "-B", "build", f"-DCMAKE_PREFIX_PATH={prefix}", status=status)

    def test_targets(self) -> None:
        """Both libraries, from a prefix that was moved."""
        prefix = self.installed(prefix=self.folder / "a place").rename(self.folder / "another place")
        self.configured(VERSION.rpartition(".")[0], prefix)
        self.said("cmake", "--build", "build")
        self.assertEqual((self.folder / "build/soname.txt").read_text(), SONAME)
        self.assertEqual(self.said(self.folder / "build/warg"), SAID)
        self.assertIn(SONAME, elf.needs(self.folder / "build/warg").libraries)
        shutil.rmtree(prefix)
        self.assertEqual(self.said(self.folder / "build/static"), SAID)
        self.said(self.folder / "build/warg", status=127)

    def test_versions(self) -> None:
        """Who wants a version that may have other calls, or a later one, finds none."""
        prefix, (first, second, third) = self.installed(), map(int, VERSION.split("."))
        later = f"{first}.{second}.{third + 1}"
        # Below 1.0.0 an earlier second number has other calls.
        earlier = f"0.{second - 1}" if first == 0 < second else f"{first - 1}.9"
        wanted = {f"{first}.{second}": "TRUE,TRUE" if third == 0 else "TRUE,", VERSION: "TRUE,TRUE"}
        wanted |= {it: "FALSE," for it in (later, f"{first}.{second + 1}", f"{first + 1}.0", f"{first + 1}", earlier)}
        file = next((prefix / "lib/cmake/warg").glob("*version.cmake"))
        for version, found in wanted.items():
            script = f'set(PACKAGE_FIND_VERSION "{version}")\ninclude("{file}")\n'
            self.write("it.cmake", script + 'message("${PACKAGE_VERSION_COMPATIBLE},${PACKAGE_VERSION_EXACT}")\n')
            self.assertEqual(self.said("cmake", "-P", "it.cmake"), f"{found}\n", version)
        self.configured("", prefix)
        self.assertIn(VERSION, self.configured(later, prefix, status=1))

    def test_missing_files(self) -> None:
        """A file that is not there is told."""
        prefix = self.installed()
        for it in ("lib/libwarg.a", f"lib/libwarg.so.{VERSION}", "include/warg.h"):
            away = (prefix / it).rename(self.folder / "away")
            said = re.sub(r"\s+", "", self.configured("", prefix, status=1))
            self.assertIn(f"thereisno{prefix}/{it}", said)
            self.configured("", prefix, text=OPTIONAL)
            away.rename(prefix / it)
        self.configured("", prefix)

    def test_links(self) -> None:
        """The folder may be reached by a link to it, as /lib is where it stands for /usr/lib."""
        prefix = self.installed()
        (self.folder / "other").mkdir()
        (self.folder / "other/lib").symlink_to(prefix / "lib")
        self.configured("", self.folder / "other")

    def test_other_sizes(self) -> None:
        """No machine of 32 bits takes it."""
        prefix = self.installed()
        file = next((prefix / "lib/cmake/warg").glob("*version.cmake"))
        for size, found in ((4, "TRUE"), (8, ""), ("", "")):
            script = f'set(CMAKE_SIZEOF_VOID_P "{size}")\ninclude("{file}")\n'
            self.write("it.cmake", script + 'message("<${PACKAGE_VERSION_UNSUITABLE}> ${PACKAGE_VERSION}")\n')
            version = f"{VERSION} (for machines of 64 bits)" if found else VERSION
            self.assertEqual(self.said("cmake", "-P", "it.cmake"), f"<{found}> {version}\n")


if __name__ == "__main__":
    unittest.main()
