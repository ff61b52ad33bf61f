"""What of the package is made for one machine: the library, and the program `weoldrin`."""

import contextlib
import io
import os
import pathlib
import platform
import signal
import subprocess
import sys
import tempfile
import unittest
from unittest import mock

import weoldrin
from weoldrin import _native, _program

# A program that says what it was called by, and which signals it ignores.
TELLS = """#!/bin/sh
echo "$@"
grep SigIgn /proc/self/status
read line && echo "$line"
exit 7
"""


def run(code: str, given: str = "", **more: str) -> subprocess.CompletedProcess[str]:
    """Runs code of Python by the same interpreter."""
    command = [sys.executable, "-c", code]
    return subprocess.run(command, input=given, env=os.environ | more, capture_output=True, text=True, check=False)


class Library(unittest.TestCase):
    """The library."""

    def test_version(self) -> None:
        """The package and the library have one version."""
        self.assertEqual(weoldrin.__version__, weoldrin.library_version())

    def test_none(self) -> None:
        """Without a library the package is imported, records are written, and what is lacking is said."""
        code = (
            "import weoldrin\n"
            "from weoldrin import _native, records\n"
            "_native.found = lambda name: None\n"
            "print(records.sha256_text(b'')[:15], weoldrin.printable('\\x1b'))\n"
            "calls = [weoldrin.PackageLog, weoldrin.library_version, lambda: weoldrin.record_id('package', b''),\n"
            "         lambda: weoldrin.verify('', b'', ''), weoldrin.RegistryTrees]\n"
            "for call in calls:\n"
            "    try: call()\n"
            "    except weoldrin.NoLibrary as error: print(error)\n"
        )
        done = run(code, WEOLDRIN_LIBRARY="")
        first, *lines = done.stdout.splitlines()
        self.assertEqual((first, done.stderr), ("sha256:e3b0c442 \\u{1b}", ""))
        self.assertEqual(len(lines), 5)
        for it in lines:
            self.assertTrue(it.startswith("NoLibrary: this package has no library for "), it)

    def test_other(self) -> None:
        """A file that is no library is named, with what the system says of it."""
        with tempfile.TemporaryDirectory() as folder:
            path = pathlib.Path(folder) / "no\x1blibrary.so"
            path.write_bytes(b"no library")
            done = run("import weoldrin; weoldrin.PackageLog()", WEOLDRIN_LIBRARY=str(path))
        last = done.stderr.splitlines()[-1]
        self.assertTrue(last.startswith("weoldrin.errors.NoLibrary: NoLibrary: "), last)
        self.assertIn("no\\u{1b}library.so can't be loaded: ", last)

    def test_found(self) -> None:
        """The wheel's own file is the one, then that of an archive of the sources, and then that of the repository; the
        latter two only where the package is used from its sources, and on Linux."""
        with tempfile.TemporaryDirectory() as folder:
            root = pathlib.Path(folder)
            here, sources = root / "bindings/python/src/weoldrin", root / "bindings/python"
            machine = f"{platform.machine()}-linux"
            places = [here / "_native", sources / "native" / machine, root / "dist" / machine]
            for it in (*places, root / "dist/mips-linux"):
                it.mkdir(parents=True)
                (it / "it").touch()
            (sources / "hatch_build.py").touch()
            with mock.patch.multiple(_native, _HERE=here, _SOURCES=sources):
                self.assertIsNone(_native.found("other"))
                for it in places:
                    self.assertEqual(_native.found("it"), it / "it")
                    if it != places[-1]:
                        (it / "it").unlink()
                with mock.patch.object(sys, "platform", "darwin"):
                    self.assertIsNone(_native.found("it"))
                with mock.patch.object(platform, "machine", lambda: "mips"):
                    self.assertEqual(_native.found("it"), root / "dist/mips-linux/it")
                (sources / "hatch_build.py").unlink()
                self.assertIsNone(_native.found("it"))

    def test_machine(self) -> None:
        self.assertRegex(_native.machine(), r"^\w+ on \w+")


class Program(unittest.TestCase):
    """The command `weoldrin`."""

    def test_exec(self) -> None:
        """The program has the words, the input, the outputs, the status and the signals of the command."""
        with tempfile.TemporaryDirectory() as folder:
            path = pathlib.Path(folder) / "weoldrin"
            path.write_text(TELLS, encoding="utf-8")
            path.chmod(0o755)
            code = (
                "import pathlib, sys\n"
                "from weoldrin import _native, _program\n"
                f"_native.found = lambda name: pathlib.Path({str(path)!r}) if name == 'weoldrin' else None\n"
                "sys.argv = ['anything', 'a b', '--c', '']\n"
                "sys.exit(_program.main())\n"
            )
            done = run(code, "a line\n")
        words, ignored, line = done.stdout.splitlines()
        self.assertEqual((words, line, done.stderr, done.returncode), ("a b --c ", "a line", "", 7))
        bits = int(ignored.split()[1], 16)
        for it in (signal.SIGPIPE, signal.SIGXFSZ):
            self.assertFalse(bits >> (it - 1) & 1, it)

    def test_name(self) -> None:
        """It is called by its own name, however the command was."""
        code = (
            "import sys\n"
            "from weoldrin import _native, _program\n"
            "_native.found = lambda name: '/bin/sh'\n"
            "sys.argv = ['anything', '-c', 'tr \"\\\\0\" \" \" < /proc/$$/cmdline']\n"
            "_program.main()\n"
        )
        self.assertTrue(run(code).stdout.startswith("weoldrin -c tr "), run(code))

    def test_registries(self) -> None:
        """What asks a registry is this package's, also where there is no program, and only as the first word."""
        for word in ("fetch", "publish", "lock", "check", "monitor", "gossip"):
            for found in ("None", "'/bin/echo'"):
                code = (
                    "import sys\n"
                    "from weoldrin import _native, _program\n"
                    f"_native.found = lambda name: {found}\n"
                    f"sys.argv = ['anything', '{word}', '--help']\n"
                    "sys.exit(_program.main())\n"
                )
                done = run(code)
                self.assertEqual((done.returncode, done.stderr), (0, ""))
                self.assertTrue(done.stdout.startswith(f"usage: weoldrin {word} "), done.stdout)
            other = code.replace(f"'{word}', '--help'", f"'audit', '{word}'")
            self.assertEqual(run(other).stdout, f"audit {word}\n")

    def test_serve(self) -> None:
        """`serve` is the registry's package's, and where that is not installed it is said which one it is."""
        code = (
            "import sys\n"
            "from weoldrin import _native, _program\n"
            "_native.found = lambda name: '/bin/echo'\n"
            "sys.argv = ['anything', *{!r}]\n"
            "sys.exit(_program.main())\n"
        )
        with tempfile.TemporaryDirectory() as folder:
            package = pathlib.Path(folder) / "weoldrin_registry"
            package.mkdir()
            (package / "__init__.py").touch()
            said = "def main(words, name):\n    print(name, *words)\n    return 5\n"
            (package / "command.py").write_text(said, encoding="utf-8")
            paths = ":".join([folder, *sys.path])
            done = run(code.format(["serve", "a", "--new"]), PYTHONPATH=paths)
            self.assertEqual((done.returncode, done.stdout, done.stderr), (5, "weoldrin serve a --new\n", ""))
            self.assertEqual(run(code.format(["audit", "serve"]), PYTHONPATH=paths).stdout, "audit serve\n")
            # As where a package is missing that it needs.
            (package / "command.py").write_text("import weoldrin_none\n", encoding="utf-8")
            done = run(code.format(["serve"]), PYTHONPATH=paths)
        self.assertEqual((done.returncode, done.stdout, done.stderr.count("\n")), (3, "", 1))
        self.assertIn("weoldrin: serve needs the package weoldrin-registry, and what that needs: ", done.stderr)
        self.assertIn("No module named 'weoldrin_none'", done.stderr)

    def _told(self, program: pathlib.Path | None) -> str:
        """What the command says on standard error where the program can't be run; its status is 3."""
        said = io.StringIO()
        with mock.patch.object(_native, "found", lambda name: program), contextlib.redirect_stderr(said):
            with mock.patch.object(signal, "signal"):
                self.assertEqual(_program.main(), 3)
        return said.getvalue()

    def test_none(self) -> None:
        self.assertIn("weoldrin: this package has no program for ", self._told(None))

    def test_closed(self) -> None:
        """A program that can't be run is named."""
        with tempfile.TemporaryDirectory() as folder:
            path = pathlib.Path(folder) / "weoldrin"
            path.write_bytes(b"")
            path.chmod(0o644)
            self.assertEqual(self._told(path), f"weoldrin: {path} can't be run: Permission denied\n")


if __name__ == "__main__":
    unittest.main()
