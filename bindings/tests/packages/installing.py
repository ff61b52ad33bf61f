"""What the tests of packages share: clean folders, and commands that are run there without a network."""
from __future__ import annotations

import functools
import os
import pathlib
import shutil
import subprocess
import sys
import tempfile
import unittest
from collections.abc import Callable
from typing import Any, TypeVar

ROOT = pathlib.Path(__file__).resolve().parents[3]
sys.path.insert(0, str(ROOT / "tools"))

from packages import versions
from packages.targets import TARGETS

T = TypeVar("T", bound=Callable[..., Any])
VERSION = versions.of_library()
# A lawful log of four records, and the id of the last one.
LOG = ROOT / "examples/p256/package.hex"
HEAD = "sha256:8e61d029a02873b9b456d2514699183aaffa8885b04995d59c519f281c8bd848"
MACHINE = next((it for it in TARGETS if it.name == f"{os.uname().machine}-linux"), None)

if MACHINE is None or not MACHINE.is_there():
    raise unittest.SkipTest("dist/ has no library for this machine")


@functools.cache
def alone() -> list[str]:
    """What a command is run by so that it has no network, where the system lets one do that."""
    words = ["unshare", "--map-root-user", "--net"]
    try:
        done = subprocess.run([*words, "true"], capture_output=True, check=False)
    except OSError:
        return []
    return words if done.returncode == 0 else []


def links(*flags: str) -> bool:
    """Whether the compiler links a program with these flags."""
    command = ["cc", "-x", "c", "-o", os.devnull, "-", *flags]
    try:
        done = subprocess.run(command, input=b"int main(void) { return 0; }", capture_output=True, check=False)
    except OSError:
        return False
    return done.returncode == 0


class Installing(unittest.TestCase):
    """A test in a clean folder. What its commands print is told where one of them fails."""

    def setUp(self) -> None:
        folder = tempfile.TemporaryDirectory(prefix="weoldrin-")
        self.addCleanup(folder.cleanup)
        self.folder = pathlib.Path(folder.name)
        # Nothing of the user's own is read, and nothing is asked of a network.
        self.environment = {
            "PATH": os.environ["PATH"],
            "HOME": str(self.folder / "home"),
            "LC_ALL": "C.UTF-8",
            "PIP_NO_INDEX": "1",
            "PIP_DISABLE_PIP_VERSION_CHECK": "1",
            "CARGO_NET_OFFLINE": "true",
            "GOPROXY": "off",
            "GOSUMDB": "off",
            "GOFLAGS": "-mod=mod",
        }
        for name in ("RUSTUP_HOME", "CARGO_HOME", "RUSTUP_TOOLCHAIN", "PYENV_VERSION", "PYENV_ROOT"):
            if name in os.environ:
                self.environment[name] = os.environ[name]
        (self.folder / "home").mkdir()
        rustup = pathlib.Path.home() / ".rustup"
        if rustup.is_dir():
            self.environment.setdefault("RUSTUP_HOME", str(rustup))

    def said(
        self,
        *words: str | pathlib.Path,
        status: int | range = 0,
        at: pathlib.Path | None = None,
        env: dict[str, str] | None = None,
        **more: str,
    ) -> str:
        """What a command prints, on both outputs, whose status has to be this one, or one of these; with this in its
        environment."""
        done = subprocess.run(
            [*alone(), *map(str, words)],
            cwd=at or self.folder,
            env=self.environment | (env or {}) | more,
            stdin=subprocess.DEVNULL,
            stdout=subprocess.PIPE,
            stderr=subprocess.STDOUT,
            text=True,
            check=False,
        )
        wanted = status if isinstance(status, range) else [status]
        self.assertIn(done.returncode, wanted, f"{' '.join(map(str, words))}\n{done.stdout}")
        return done.stdout

    def write(self, name: str, text: str) -> pathlib.Path:
        """A file of the clean folder."""
        path = self.folder / name
        path.parent.mkdir(parents=True, exist_ok=True)
        path.write_text(text, encoding="utf-8")
        return path

    def copied(self, name: str, to: str) -> pathlib.Path:
        """A copy of a folder of the repository, as git has it, from where nothing else of the repository is reached."""
        words = ["git", "ls-files", "-z", "--cached", "--others", "--exclude-standard", "--", name]
        listed = subprocess.run(words, cwd=ROOT, stdout=subprocess.PIPE, text=True, check=True).stdout
        for it in filter(None, listed.split("\0")):
            if (ROOT / it).is_file():
                path = self.folder / to / pathlib.Path(it).relative_to(name)
                path.parent.mkdir(parents=True, exist_ok=True)
                shutil.copy(ROOT / it, path)
        return self.folder / to

    def installed(self, *parts: str, prefix: pathlib.Path | None = None) -> pathlib.Path:
        """The folder where `make install` put its files."""
        prefix = prefix or self.folder / "installed"
        self.said("make", "-s", "-C", ROOT, f"PREFIX={prefix}", *(parts or ("install",)))
        return prefix


def needs(*programs: str) -> Callable[[T], T]:
    """Skips a test where one of these programs is not installed."""
    lacking = [it for it in programs if not shutil.which(it)]
    return unittest.skipIf(bool(lacking), f"not installed: {', '.join(lacking)}")
