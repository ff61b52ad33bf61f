"""The Go module, as a program of another folder gets it."""

import pathlib
import shutil
import unittest

from installing import HEAD, LOG, MACHINE, VERSION, Installing, needs

assert MACHINE
MODULE = "weoldrin.example/weoldrin"
MAIN = """
package main

import (
    "fmt"
    "os"

    "weoldrin.example/weoldrin"
)

func main() {
    verdict, err := weoldrin.Audit("@LOG@", weoldrin.Package)
    version, failed := weoldrin.LibraryVersion()
    if err != nil || failed != nil || !verdict.Accepted() {
        fmt.Println(verdict, err, failed)
        os.Exit(1)
    }
    fmt.Println(version, verdict.Head)
}
"""
SAID = f"{VERSION} {HEAD}\n"
# What `go build` says of a failure is 1 or 2, by its version.
FAILS = range(1, 3)


@needs("go", "cc")
class Module(Installing):
    """A copy of the module's folder, from where nothing else of the repository is reached."""

    def setUp(self) -> None:
        super().setUp()
        self.module = self.copied("bindings/go", "module")
        self.environment["GOCACHE"] = str(self.folder / "cache")
        self.environment["GOTOOLCHAIN"] = "local"

    def app(self) -> pathlib.Path:
        """A new program that stands on the module, which lies in a folder."""
        app = self.folder / "app"
        app.mkdir()
        self.said("go", "mod", "init", "app.example/app", at=app)
        self.said("go", "mod", "edit", f"-replace={MODULE}={self.module}", at=app)
        self.write("app/main.go", MAIN.replace("@LOG@", str(LOG)))
        self.said("go", "get", MODULE, at=app)
        return app

    def test_get(self) -> None:
        """`go get` of a folder."""
        app = self.app()
        self.assertEqual(self.said("go", "run", ".", at=app), SAID)
        self.said("go", "vet", "./...", at=app)

    def test_vendor(self) -> None:
        """`go mod vendor`, and the module's folder is away then."""
        app = self.app()
        self.said("go", "mod", "tidy", at=app)
        self.said("go", "mod", "vendor", at=app)
        shutil.rmtree(self.module)
        assert MACHINE
        self.assertTrue((app / f"vendor/{MODULE}/libwarg_linux_{MACHINE.go}.a").is_file())
        self.assertEqual(self.said("go", "run", "-mod=vendor", ".", at=app, GOFLAGS=""), SAID)

    def test_in_the_module(self) -> None:
        """Its own tests pass there too; those of rows are skipped."""
        said = self.said("go", "test", "-count=1", "-v", "./...", at=self.module)
        self.assertIn("there are no rows here", said)

    @needs("make", "pkg-config", "readelf")
    def test_system(self) -> None:
        """The build tag warg_system links what pkg-config finds."""
        prefix = self.installed()
        for it in self.module.glob("*.a"):
            it.unlink()
        app = self.app()
        words = ["go", "build", "-tags", "warg_system", "-o", "built", "."]
        self.assertIn("warg.pc", self.said(*words, at=app, status=FAILS))
        self.said(*words, at=app, PKG_CONFIG_PATH=str(prefix / "lib/pkgconfig"))
        self.assertIn("libwarg.so.", self.said("readelf", "-d", app / "built"))
        self.assertEqual(self.said(app / "built", LD_LIBRARY_PATH=str(prefix / "lib")), SAID)

    def test_other_machines(self) -> None:
        """What is lacking is said where there is no cgo, and on a system that there is no library for."""
        app = self.app()
        others: list[dict[str, str]] = [{}, {"GOOS": "darwin"}, {"GOARCH": "386"}]
        for other in others:
            said = self.said("go", "build", ".", at=app, status=FAILS, env=other, CGO_ENABLED="0")
            self.assertIn("weoldrin_needs_cgo_and_linux", said)

    def test_files(self) -> None:
        """Which files are built: on a machine that there is no library for, the one that says so."""
        bundled, system, lacking = "link_bundled.go", "link_system.go", "unsupported.go"
        wanted = {
            ("linux", "amd64", "1", ""): {bundled},
            ("linux", "arm64", "1", ""): {bundled},
            ("linux", "amd64", "1", "warg_system"): {system},
            ("darwin", "arm64", "1", "warg_system"): {system},
            ("darwin", "amd64", "1", ""): {bundled, lacking},
            ("linux", "386", "1", ""): {bundled, lacking},
            ("linux", "amd64", "0", ""): {lacking},
            ("linux", "amd64", "0", "warg_system"): {lacking},
        }
        listed = '{{join .GoFiles " "}} {{join .CgoFiles " "}}'
        for (system_of, machine, cgo, tags), files in wanted.items():
            env = {"GOOS": system_of, "GOARCH": machine, "CGO_ENABLED": cgo}
            said = self.said("go", "list", "-tags", tags, "-f", listed, ".", at=self.module, env=env)
            self.assertEqual({bundled, system, lacking} & set(said.split()), files, env)


if __name__ == "__main__":
    unittest.main()
