"""What is built of the package, as pip installs it: the page comes with it."""

import importlib.util
import os
import pathlib
import re
import subprocess
import sys
import tarfile
import tempfile
import unittest
from unittest import mock

from weoldrin_registry import page

from .served import REPOSITORY, Client, Process

FOLDER, PACKAGE = REPOSITORY / "registry", "weoldrin_registry"
# What stands in a page or a module for another file that it loads.
LOADED = re.compile(
    r"""(?:src|href)="([\w./-]+)"|(?:from |import\(|part\("\w+", )"(\.[\w./-]+)"|URL\("([\w./-]+\.js)", import"""
)
IS_THERE = (REPOSITORY / "web/index.html").is_file() and all(map(importlib.util.find_spec, ("pip", "hatchling")))


def run(*words: str | pathlib.Path, folder: pathlib.Path = FOLDER) -> None:
    """Runs a command, which has to succeed."""
    kept = {**os.environ, "PIP_NO_INDEX": "1", "PIP_DISABLE_PIP_VERSION_CHECK": "1", "PIP_ROOT_USER_ACTION": "ignore"}
    done = subprocess.run([sys.executable, "-m", *words], cwd=folder, env=kept, capture_output=True, check=False)
    assert done.returncode == 0, done.stderr.decode(errors="replace")[-2_000:]


def install(to: pathlib.Path, of: pathlib.Path) -> None:
    """Installs a package into a folder."""
    run("pip", "install", "-q", "--no-deps", "--no-build-isolation", "--target", to, of)


class InstalledProcess(Process):
    """A registry that runs from a folder where it is installed, before any other copy."""

    installed: pathlib.Path

    def __init__(self, folder: pathlib.Path, *words: str) -> None:
        paths = [str(self.installed), *filter(None, sys.path)]
        with mock.patch.dict(os.environ, {"PYTHONPATH": ":".join(paths)}):
            super().__init__(folder, *words)


class Found(unittest.TestCase):
    """Where the page is looked for."""

    PARTS = ("web/index.html", "bindings/js/src/index.js", "dist/wasm/libwarg.wasm", "examples/p256/package.hex")

    def test_parts(self) -> None:
        """A folder that lacks a part has no page, which is said."""
        with tempfile.TemporaryDirectory(prefix="weoldrin-") as name, mock.patch.object(page, "tell") as told:
            folder = pathlib.Path(name)
            for it in self.PARTS:
                (folder / it).parent.mkdir(parents=True)
                (folder / it).touch()
            self.assertEqual((page.found(name), len(page.routes(name))), (folder, 5))
            told.assert_not_called()
            for count, it in enumerate(self.PARTS, 1):
                (folder / it).unlink()
                self.assertEqual((page.found(name), page.routes(name), told.call_count), (None, [], count))
                (folder / it).touch()

    def test_of_strangers(self) -> None:
        """An installed copy has its own page, and looks into no folder around it."""
        with tempfile.TemporaryDirectory(prefix="weoldrin-") as name:
            folder = pathlib.Path(name).resolve()
            for it in self.PARTS:
                (folder / it).parent.mkdir(parents=True)
                (folder / it).touch()
            with mock.patch.multiple(page, _HERE=folder / "lib/python/package", _SOURCES=folder / "lib"):
                self.assertIsNone(page.found(""))


@unittest.skipUnless(IS_THERE, "there is no repository here, or no pip and hatchling")
class Installed(unittest.TestCase):
    """An installed copy."""

    def setUp(self) -> None:
        folder = tempfile.TemporaryDirectory(prefix="weoldrin-")
        self.addCleanup(folder.cleanup)
        self.folder = pathlib.Path(folder.name)
        self.installed = InstalledProcess.installed = self.folder / "installed"

    def _started(self, *words: str) -> Client:
        """A client of the installed registry. Words have it look for the page by itself."""
        process = InstalledProcess(self.folder, *(words or ("--host", "127.0.0.1")))
        self.addCleanup(process.stop)
        client = process.client()
        self.addCleanup(client.close)
        self.lines = process.lines
        return client

    def _look(self, client: Client) -> None:
        """Follows the page to all that it loads, each of which has the bytes of the repository."""
        answer = client.get("/")
        self.assertEqual((answer.status, answer.headers.get("location")), (307, "/static/web/index.html"))
        left, seen = ["web/index.html"], set[str]()
        while left:
            path = left.pop()
            if path in seen:
                continue
            seen.add(path)
            answer = client.get(f"/static/{path}")
            self.assertEqual((answer.status, answer.body), (200, (REPOSITORY / path).read_bytes()), path)
            if path.endswith((".html", ".js")):
                found = ("".join(it) for it in LOADED.findall(answer.body.decode()))
                # What a page names is beside it, and what a script asks for is beside the page.
                left += [os.path.normpath(f"{self._beside(path, it)}/{it}") for it in found]
        self.assertLessEqual({"web/src/main.js", "web/style.css", "bindings/js/src/index.js"}, seen)
        self.assertLessEqual({"web/src/worker.js", "dist/wasm/libwarg.wasm", "examples/p256/package.hex"}, seen)

    @staticmethod
    def _beside(path: str, name: str) -> str:
        return "web" if name.endswith((".wasm", ".hex")) else os.path.dirname(path)

    def test_wheel(self) -> None:
        """The wheel has the page, and nothing of its tests."""
        install(self.installed, FOLDER)
        self._look(self._started())
        within = self.installed / PACKAGE / "_page"
        self.assertEqual(sorted(os.listdir(within / "web")), ["index.html", "src", "style.css"])
        self.assertNotIn("the page is not served", self.lines.read_text(encoding="utf-8"))

    def test_archive(self) -> None:
        """The archive of the sources has the page, and makes the same wheel; it is found from there too."""
        run("hatchling", "build", "-t", "sdist", "-d", self.folder)
        (archive,) = self.folder.glob("*.tar.gz")
        with tarfile.open(archive) as files:
            files.extractall(self.folder / "sources")
        (sources,) = (self.folder / "sources").iterdir()
        self.assertEqual((sources / "page/web/src/main.js").read_bytes(), (REPOSITORY / "web/src/main.js").read_bytes())
        install(self.installed, sources)
        self._look(self._started())
        with mock.patch.multiple(page, _HERE=sources / "src" / PACKAGE, _SOURCES=sources):
            self.assertEqual(page.found(""), sources / "page")

    def test_editable(self) -> None:
        """An editable install copies nothing, and leads to the repository."""
        run("hatchling", "build", "-t", "wheel:editable", "-d", self.folder)
        (wheel,) = self.folder.glob("*.whl")
        run("zipfile", "-e", str(wheel), str(self.installed))
        self.assertFalse((self.installed / PACKAGE).exists())
        (leads,) = self.installed.glob("*.pth")
        self.assertEqual(leads.read_text(encoding="utf-8").strip(), str(FOLDER / "src"))
        with mock.patch.multiple(page, _HERE=FOLDER / "src" / PACKAGE, _SOURCES=FOLDER):
            self.assertEqual(page.found(""), REPOSITORY)

    def test_none(self) -> None:
        """Where a part of the page is missing, that is said at the start, and the rest is served."""
        install(self.installed, FOLDER)
        (self.installed / PACKAGE / "_page/dist/wasm/libwarg.wasm").unlink()
        client = self._started()
        self.assertEqual(client.get("/").problem, (404, "NotFound"))
        self.assertEqual(client.get("/v1/health").status, 200)
        self.assertIn("the page is not served: this installation does not have", self.lines.read_text(encoding="utf-8"))
        self.assertEqual(self._started("--static", str(REPOSITORY)).get("/").status, 307)


if __name__ == "__main__":
    unittest.main()
