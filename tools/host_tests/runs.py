"""How a runner is run, and how its tests are counted."""

import os
import pathlib
import re
import shlex
import subprocess
from collections.abc import Callable
from typing import NamedTuple

from common import ROOT

RELEASED = ROOT / "dist/x86_64-linux"
# What the environment of a command has besides.
Kept = dict[str, str]


class Count(NamedTuple):
    """How many tests passed, failed and were left out."""

    passed: int
    failed: int = 0
    left_out: int = 0


def counted(pattern: str, said: str) -> int:
    """The sum of the numbers that stand where the pattern has its group."""
    return sum(map(int, re.findall(pattern, said, re.M)))


def counted_of_make(said: str) -> Count:
    """By the lines of the Makefile."""
    return Count(*(len(re.findall(f"^{word} c: ", said, re.M)) for word in ("ok", "FAILED")))


def counted_of_cargo(said: str) -> Count:
    """By the last line of each file of tests."""
    return Count(*(counted(rf"^test result: .*\b(\d+) {word};", said) for word in ("passed", "failed", "ignored")))


def counted_of_node(said: str) -> Count:
    """By the last lines of TAP."""
    return Count(*(counted(rf"^# (?:{word}) (\d+)$", said) for word in ("pass", "fail|cancelled", "skipped|todo")))


def counted_of_unittest(said: str) -> Count:
    """By its last lines."""
    found = re.findall(r"^Ran (\d+) tests? in .*\n\n(.*)$", said, re.M)
    ran, verdict = found[-1] if found else ("0", "")
    failed = counted(r"(?:(?<!expected )failures|errors|unexpected successes)=(\d+)", verdict)
    skipped = counted(r"skipped=(\d+)", verdict)
    return Count(max(0, int(ran) - failed - skipped), failed, skipped)


def counted_of_go(said: str) -> Count:
    """By the lines of the tests, and not of what stands within one."""
    return Count(*(len(re.findall(rf"^--- {word}: ", said, re.M)) for word in ("PASS", "FAIL", "SKIP")))


def counted_of_edits(said: str) -> Count:
    """By the lines of those wrong edits that a test saw, and of those that none did."""
    return Count(*(len(re.findall(f"^{word}: ", said, re.M)) for word in ("seen", "NOT SEEN")))


class Hosts:
    """The tests of a run, in a folder of its own."""

    def __init__(self, library: pathlib.Path, folder: pathlib.Path, is_all: bool) -> None:
        self.library, self.folder, self.is_all = library, folder, is_all
        self.passed = self.failed = self.left_out = 0
        # The lines of what is not tested here, which are said once more at the end.
        self.lines: list[str] = []
        # By language what publishes a log, what audits one, and their environment, for the tests between languages.
        self.commands: dict[str, dict[str, object]] = {}

    def run(self, name: str, words: list[str], kept: Kept, count_of: Callable[[str], Count] | None = None) -> None:
        """Runs a command, with this in its environment besides, and passes on what it prints. Its tests are counted by
        that, or it is one itself."""
        print(f"-- {name}", flush=True)
        lines = []
        pipe, joined = subprocess.PIPE, subprocess.STDOUT
        with subprocess.Popen(words, cwd=self.folder, env=os.environ | kept, stdout=pipe, stderr=joined) as process:
            assert process.stdout
            for data in process.stdout:
                lines.append(data.decode(errors="replace"))
                print(lines[-1], end="", flush=True)
        status = process.returncode
        count = count_of("".join(lines)) if count_of else Count(int(status == 0))
        # A runner that broke off, or that found nothing to run.
        failed = count.failed or int(status != 0 or not any(count))
        self.passed, self.failed = self.passed + count.passed, self.failed + failed
        if count.left_out:
            self.leave_out(name, "what is skipped above", count.left_out)
        ended = f"FAILED {name}: status {status} of {shlex.join(words)}:" if failed else f"ok {name}:"
        print(f"{ended} {count.passed} passed, {failed} failed", flush=True)

    def leave_out(self, name: str, why: str, count: int = 1) -> None:
        """Says what is not tested here, which is a failure where all has to be."""
        self.failed += count if self.is_all else 0
        self._say(f"{'FAILED, left out' if self.is_all else 'left out'} {name}: {why}", count)

    def pass_over(self, name: str, why: str) -> None:
        """Says what is not tested here, which is no failure whatever has to be there: this machine can't have it."""
        self._say(f"left out {name}: {why}", 1)

    def lack(self, name: str, why: str, can_be_had: bool) -> None:
        """Says what is not tested here, which is a failure where all has to be that this machine can have."""
        if can_be_had:
            self.leave_out(name, why)
        else:
            self.pass_over(name, f"{why}, and can't be had here")

    def _say(self, line: str, count: int) -> None:
        self.left_out += count
        self.lines.append(line)
        print(line, flush=True)

    def told(self) -> str:
        """The last lines of a run: what is not tested, and the counts."""
        counts = f"{self.passed} passed, {self.failed} failed, {self.left_out} left out"
        return "\n".join([*(["-- left out"] if self.lines else []), *self.lines, counts])
