"""The program that is tried, the records that it appends, and what did not go as it has to."""
from __future__ import annotations

import dataclasses
import pathlib
import subprocess
from collections.abc import Callable
from typing import Any

Done = subprocess.CompletedProcess[str]

# What a run may take, in seconds, and the status of one that takes more.
BOUND = 30
TIMED_OUT = 124


@dataclasses.dataclass
class Faults:
    """How much was tried, and how much of it failed."""

    tried: int = 0
    failed: int = 0

    def expect(self, what: str, good: bool, seen: object) -> None:
        """Counts what was tried, and prints what was seen where it is not good."""
        self.tried += 1
        if not good:
            self.failed += 1
            print(f"failed {what}: {seen}", flush=True)


@dataclasses.dataclass(frozen=True)
class Tool:
    """The program, and the folder that it makes records in."""

    program: pathlib.Path

    def run(self, *words: str | pathlib.Path, given: str = "", **kept: Any) -> Done:
        """Runs the program on these words and this standard input, bounded in time."""
        command = [self.program, *words]
        try:
            return subprocess.run(
                command, input=given, text=True, capture_output=True, check=False, timeout=BOUND, **kept
            )
        except subprocess.TimeoutExpired:
            return Done(command, TIMED_OUT, "", "it did not end in time")

    def make(self, log: pathlib.Path, seconds: int, *entries: str) -> str:
        """The line of the record that comes next in a log."""
        return self.run("make", "package", log, f"{seconds}.0", *entries, "--key", "toy:alice", "--toy").stdout

    def append(self, log: str | pathlib.Path, lines: str, **kept: Any) -> Done:
        """Appends lines to a log."""
        return self.run("append", "package", log, "--toy", given=lines, **kept)

    def begun(self, log: pathlib.Path, *versions: str) -> list[str]:
        """Begins a log with a record that starts it and one for each version, and gives their lines."""
        for place, entry in enumerate(["init alice", *(f"release {it} {it}" for it in versions)]):
            line = self.make(log, 1_700_000_000 + place, entry)
            done = self.append(log, line)
            if done.returncode != 0:
                raise SystemExit(f"no log could be begun: {done}")
        return log.read_text(encoding="utf-8").splitlines(keepends=True)


@dataclasses.dataclass(frozen=True)
class Place:
    """A folder with a log of two records, and the lines of two more, each of which comes next in turn."""

    tool: Tool
    folder: pathlib.Path
    lines: list[str]

    @staticmethod
    def of(tool: Tool, folder: pathlib.Path) -> Place:
        """A new one in this folder."""
        made = folder / "made"
        made.mkdir()
        lines = tool.begun(made / "log.hex", "1.0.0", "1.1.0", "1.2.0")
        return Place(tool, folder, lines)

    def text(self, count: int) -> str:
        """The log of so many records."""
        return "".join(self.lines[:count])

    def log(self, name: str, count: int = 2) -> pathlib.Path:
        """A log of so many records, alone in a new folder."""
        log = self.folder / name / "log.hex"
        log.parent.mkdir()
        log.write_text(self.text(count), encoding="utf-8")
        return log


def beside(log: pathlib.Path) -> list[str]:
    """The names of what stands beside a log, but for its lock."""
    return sorted(it.name for it in log.parent.iterdir() if it.name not in (log.name, f".{log.name}.lock"))


# What is tried at a place.
Trial = Callable[[Place, Faults], None]
