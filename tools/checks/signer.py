"""What checks of bin/weoldrin-sign share: what it answers in a folder, and what bin/weoldrin answers there."""
from __future__ import annotations

import importlib.util
import os
import pathlib
import shutil
import subprocess

from common import ROOT

SCRIPT = ROOT / "bin/weoldrin-sign"
MAKERS = [
    name
    for name, is_there in {
        "cryptography": importlib.util.find_spec("cryptography") is not None,
        "openssl": shutil.which("openssl") is not None,
    }.items()
    if is_there
]
START = "2023-11-14T22:13:20Z"


class Check:
    """What the script and the program answer in a folder, and how many answers are others than expected."""

    def __init__(self, program: pathlib.Path, folder: pathlib.Path) -> None:
        self.program, self.folder, self.faults = program, folder, 0

    def expect(self, what: str, is_right: bool, seen: object = "") -> None:
        print(f"ok {what}" if is_right else f"failed {what}: {seen}", flush=True)
        self.faults += not is_right

    def sign(self, *words: str, data: str = "", **kept: str) -> tuple[int, str, str]:
        command, env = [str(SCRIPT), *words], {**os.environ, **kept}
        done = subprocess.run(
            command, cwd=self.folder, env=env, input=data, text=True, capture_output=True, check=False
        )
        return done.returncode, done.stdout, done.stderr

    def run(self, *words: str, data: str = "") -> tuple[int, str]:
        command = [str(self.program), *words]
        done = subprocess.run(command, cwd=self.folder, input=data, text=True, capture_output=True, check=False)
        return done.returncode, done.stdout

    def refuses(self, what: str, *words: str, status: int = 2, data: str = "", **kept: str) -> None:
        """Expects a sentence on standard error, and that nothing is printed but, by `sign`, a line that is no
        record."""
        printed = "unsigned\n" if len(words) == 2 and words[0] == "sign" else ""
        seen = self.sign(*words, data=data, **kept)
        is_told = seen[2].startswith("weoldrin-sign: ") and seen[2].count("\n") == 1
        self.expect(what, seen[:2] == (status, printed) and is_told, seen)

    def text(self, pem: str, *words: str) -> str:
        return self.sign(*words, "key", pem)[1].strip()

    def unsigned(self, key: str, *entries: str, log: str = "none.hex", time: str = START) -> str:
        """The line of a record that the key is to sign."""
        return self.run("make", "package", log, time, *entries, "--key-text", key)[1]


def bash(check: Check, line: str, *words: str) -> subprocess.CompletedProcess[str]:
    """Runs a line of bash, for which $0 is the program and $1 the script."""
    command = ["bash", "-c", line, str(check.program), str(SCRIPT), *words]
    return subprocess.run(command, cwd=check.folder, capture_output=True, text=True, check=False)
