"""Tests of tools/test, as a user runs it, in a folder with a fake toolchain and fake checks."""

import contextlib
import itertools
import os
import pathlib
import re
import runpy
import shutil
import signal
import stat
import subprocess
import sys
import tempfile
import time
import unittest

sys.path.insert(0, str(pathlib.Path(__file__).resolve().parents[1]))

from runner import AT_ONCE, CI_ENDED, LAST, Check, jobs_of_ci

TOOLS = pathlib.Path(__file__).resolve().parents[1]
COMMAND = runpy.run_path(str(TOOLS / "test"))
CHECKS: list[Check] = COMMAND["CHECKS"]
PROGRAMS: list[pathlib.Path] = COMMAND["PROGRAMS"]
MADE = {"C_LIBRARY": "libwarg.a", "WASM_LIBRARY": "libwarg.wasm", "ARM_LIBRARY": "libwarg.a"}
LIBRARIES = [COMMAND[it] / name for it, name in MADE.items()]
BUILT = [it.relative_to(TOOLS.parent) for it in (*PROGRAMS, *LIBRARIES)]
# What the fake `rt ci` does: it builds the programs and counts what passed.
BUILDS = "".join(f"mkdir -p {it.parent} && echo > {it} && chmod +x {it}\n" for it in BUILT)
GOOD_CI = BUILDS + "echo 'rt: warg_c proved'\necho 'rt: weoldrin is kept: proved before'\necho '3 passed, 0 failed'\n"
# The most that a test waits for, in seconds.
BOUND = 60


def first_line(text: str, wanted: str) -> int:
    """The place of a line in a text."""
    return text.splitlines().index(wanted)


class TestCommand(unittest.TestCase):
    """Runs of the command in a folder of its own."""

    def setUp(self) -> None:
        folder = tempfile.TemporaryDirectory()
        self.addCleanup(folder.cleanup)
        self.root = pathlib.Path(folder.name)
        for name in ("tools", "path"):
            (self.root / name).mkdir()
        for name in ("test", "runner.py"):
            shutil.copy(TOOLS / name, self.root / "tools")
        for it in CHECKS:
            self.script(it.words, "echo said on output\necho said on error >&2\n")
        self.script("rt", GOOD_CI)

    def script(self, words: str, body: str) -> None:
        """Lays a fake of the command that these words begin with. Of a command of several checks it does what was said
        last for just these words; of another, for any."""
        name, _, rest = words.partition(" ")
        path = self.root / (name if "/" in name else f"path/{name}")
        path.parent.mkdir(exist_ok=True)
        is_shared = len([it for it in CHECKS if it.words.split()[0] == name]) > 1
        before = path.read_text(encoding="utf-8").removeprefix("#!/bin/sh\n") if is_shared and path.exists() else ""
        own = f"if test \"$*\" = '{rest}'; then\n{body}exit\nfi\n" if is_shared else body
        path.write_text(f"#!/bin/sh\n{own}{before}", encoding="utf-8")
        path.chmod(path.stat().st_mode | stat.S_IXUSR)

    def start(self) -> subprocess.Popen[str]:
        """Begins the command, with the fakes before all else on its path."""
        env = {**os.environ, "PATH": f"{self.root / 'path'}:/usr/bin:/bin"}
        return subprocess.Popen(
            [sys.executable, self.root / "tools/test"],
            cwd="/",
            env=env,
            stdin=subprocess.DEVNULL,
            stdout=subprocess.PIPE,
            stderr=subprocess.PIPE,
            text=True,
        )

    def run_command(self, passed: int, failed: list[str], more_failed: int = 0) -> str:
        """Runs the command, and expects so many that pass, and these checks that fail. Gives what it prints."""
        with self.start() as process:
            printed, said = process.communicate(timeout=BOUND)
        self.assertEqual(said, "")
        lines = printed.splitlines()
        self.assertCountEqual([it for it in lines if it.startswith("FAILED: ")], [f"FAILED: {it}" for it in failed])
        self.assertEqual(lines[-1], f"{passed} passed, {len(failed) + more_failed} failed")
        self.assertEqual(process.returncode, 1 if failed or more_failed else 0)
        return printed

    def wait_for(self, path: pathlib.Path) -> str:
        """Waits for a file that is written, and gives its text."""
        end = time.monotonic() + BOUND
        while not path.exists() or not path.read_text(encoding="utf-8"):
            self.assertLess(time.monotonic(), end, path)
            time.sleep(0.01)
        return path.read_text(encoding="utf-8")

    def wait_for_end(self, processes: list[int]) -> None:
        """Waits until these have ended: on a busy machine one that is told to may take a while."""
        end = time.monotonic() + BOUND
        while any(map(is_running, processes)):
            self.assertLess(time.monotonic(), end, processes)
            time.sleep(0.01)

    def test_all_pass(self) -> None:
        printed = self.run_command(3 + len(CHECKS), [])
        for it in CHECKS:
            said = f"== {re.escape(it.words)}\nsaid on output\nsaid on error\ntook \\d+ s, from minute \\d+\\.\\d on\n"
            self.assertEqual(len(re.findall(said, printed)), 1, it)
        self.assertTrue(
            printed.startswith("rt: warg_c proved\nrt: weoldrin is kept: proved before\n3 passed, 0 failed\n==")
        )

    def test_a_failing_check(self) -> None:
        for it in ("tools/check_names", "tools/release", "tools/c_library"):
            self.script(it, "echo this is wrong\nexit 7\n")
        failed = ["tools/check_names", "tools/release --check", "tools/c_library --over-ci"]
        printed = self.run_command(len(CHECKS), failed)
        self.assertIn("== tools/check_names\nthis is wrong\nFAILED: tools/check_names\n", printed)

    def test_a_check_that_is_killed(self) -> None:
        self.script("tools/check_names", "echo before\nkill -9 $$\n")
        printed = self.run_command(2 + len(CHECKS), ["tools/check_names"])
        self.assertIn("== tools/check_names\nbefore\nFAILED: tools/check_names\n", printed)

    def test_a_check_that_is_missing(self) -> None:
        (self.root / "tools/check_names").unlink()
        (self.root / "tools/c_library").unlink()
        self.run_command(1 + len(CHECKS), ["tools/check_names", "tools/c_library --over-ci"])

    def test_a_program_that_was_not_built(self) -> None:
        for it in BUILT:
            (self.root / it).parent.mkdir(parents=True)
            (self.root / it).touch(0o755)
        self.script("rt", "test -e crates/warg_c/out/c || echo removed\necho '3 passed, 0 failed'\n")
        failed = [it.words for it in CHECKS if it.needs_programs]
        self.assertGreater(len(failed), 5)
        printed = self.run_command(3 + len(CHECKS) - len(failed), failed)
        self.assertTrue(printed.startswith("removed\n"))
        self.assertIn("== tools/checks/tool\nnot built: warg_audit_main, weoldrin_main, ", printed)

    def test_one_program_that_was_not_built(self) -> None:
        self.script("rt", f"{BUILDS}rm crates/weoldrin_main/out/weoldrin_main\necho '3 passed, 0 failed'\n")
        failed = [it.words for it in CHECKS if it.needs_programs]
        printed = self.run_command(3 + len(CHECKS) - len(failed), failed)
        self.assertIn("== tools/checks/tool\nnot built: weoldrin_main\nFAILED: tools/checks/tool\n", printed)

    def test_ci_that_fails(self) -> None:
        ends = {
            "echo '5 passed, 2 failed'\nexit 1\n": (5, 2),
            "echo '5 passed, 0 failed'\nexit 1\n": (5, 1),
            "echo '5 passed, 2 failed'\n": (5, 2),
            "echo 'it broke'\n": (0, 1),
            "echo '5 passed, 0 failed'\necho 'and then it broke'\nexit 3\n": (0, 1),
            "kill -9 $$\n": (0, 1),
        }
        for end, (passed, failed) in ends.items():
            with self.subTest(end):
                self.script("rt", BUILDS + end)
                self.run_command(passed + len(CHECKS), [], failed)

    def test_no_toolchain(self) -> None:
        (self.root / "path/rt").unlink()
        kept = self.root / BUILT[0]
        kept.parent.mkdir(parents=True)
        kept.touch()
        with self.start() as process:
            printed, said = process.communicate(timeout=BOUND)
        self.assertEqual((process.returncode, printed), (3, ""))
        self.assertEqual(said, "tools/test: rt, the toolchain that README.md names, is not found\n")
        self.assertTrue(kept.exists())

    def test_lines_are_passed_on_as_they_come(self) -> None:
        self.script("rt", f"echo first\nuntil test -e go_on; do sleep 0.01; done\n{GOOD_CI}")
        with self.start() as process:
            assert process.stdout
            self.assertEqual(process.stdout.readline(), "first\n")
            (self.root / "go_on").touch()
            printed, _ = process.communicate(timeout=BOUND)
        self.assertEqual(printed.splitlines()[-1], f"{3 + len(CHECKS)} passed, 0 failed")

    def test_when_checks_begin(self) -> None:
        """Those that may begin beside `rt ci` do, once it says so; and it ends here when they have begun."""
        for it in CHECKS:
            self.script(it.words, f"echo '{it.words}' >> begun\n")
        at_once, after = ([it for it in CHECKS if (it.begins == AT_ONCE) == is_so] for is_so in (True, False))
        beside = [it for it in after if it.begins not in (CI_ENDED, LAST)]
        self.assertEqual({it.begins for it in beside}, {"warg_c", "weoldrin"})
        waits = "until test -e begun && test $(wc -l < begun) = {}; do sleep 0.01; done\n"
        first, second = waits.format(len(at_once)), waits.format(len(at_once) + len(beside))
        says = "echo 'rt: warg_cc proved'\necho 'rt: warg_c proved'\necho 'rt: weoldrin is kept: as it was'\n"
        self.script("rt", f"{BUILDS}{first}{says}{second}cp begun begun_beside\necho '3 passed, 0 failed'\n")
        printed = self.run_command(3 + len(CHECKS), [])
        begun = (self.root / "begun_beside").read_text(encoding="utf-8").splitlines()
        self.assertCountEqual(begun, [it.words for it in (*at_once, *beside)])
        self.assertEqual(first_line(printed, "3 passed, 0 failed"), 3)
        everything = (self.root / "begun").read_text(encoding="utf-8").splitlines()
        self.assertEqual(everything[-1], CHECKS[-1].words)
        self.assertEqual(printed.splitlines()[-3], f"== {CHECKS[-1].words}")

    def test_niceness(self) -> None:
        for it in CHECKS:
            self.script(it.words, f"test $(nice) = {min(os.nice(0) + it.niceness, 19)}\n")
        self.run_command(3 + len(CHECKS), [])

    def test_as_many_at_once_as_there_are_processors(self) -> None:
        for it in CHECKS:
            self.script(it.words, "echo 1 >> count\nsleep 0.05\necho -1 >> count\n")
        self.run_command(3 + len(CHECKS), [])
        steps = map(int, (self.root / "count").read_text(encoding="utf-8").split())
        self.assertLessEqual(max(itertools.accumulate(steps)), len(os.sched_getaffinity(0)))

    def test_signals_end_what_is_under_way(self) -> None:
        for number in (signal.SIGINT, signal.SIGTERM, signal.SIGHUP):
            with self.subTest(number):
                self.script("rt", "sleep 600 &\necho $! $$ > ci\nwait\n")
                self.script("tools/checks/python", "sleep 600 &\necho $! $$ > check\nwait\n")
                with self.start() as process:
                    started = [int(it) for name in ("ci", "check") for it in self.wait_for(self.root / name).split()]
                    process.send_signal(number)
                    printed, _ = process.communicate(timeout=BOUND)
                for name in ("ci", "check"):
                    (self.root / name).unlink()
                self.assertEqual((process.returncode, printed), (128 + number, ""))
                self.wait_for_end(started)


def is_running(process: int) -> bool:
    """Whether a process goes on, which one that ended and that nobody waited for does not."""
    with contextlib.suppress(OSError):
        return pathlib.Path(f"/proc/{process}/stat").read_text(encoding="utf-8").rpartition(")")[2].split()[0] != "Z"
    return False


class Jobs(unittest.TestCase):
    """How many jobs `rt ci` is told to run."""

    def jobs(self, available: str, *limits: str) -> dict[str, str]:
        with tempfile.TemporaryDirectory() as name:
            files = [pathlib.Path(name, str(place)) for place in range(len(limits))]
            for path, text in zip(files, limits, strict=True):
                path.write_text(text, encoding="utf-8")
            return jobs_of_ci(f"MemTotal: 1 kB\n{available}", [*files, pathlib.Path(name, "missing")], 4)

    def test_memory(self) -> None:
        self.assertEqual(self.jobs("MemAvailable:   20000000 kB\n"), {"RT_JOBS": "4"})
        self.assertEqual(self.jobs("MemAvailable:   19999999 kB\n"), {})
        self.assertEqual(self.jobs(""), {})

    def test_limits(self) -> None:
        enough = "MemAvailable:   20000000 kB\n"
        self.assertEqual(self.jobs(enough, "max 100000\n", "max\n", "-1\n", "9223372036854771712\n"), {"RT_JOBS": "4"})
        self.assertEqual(self.jobs(enough, "max 100000\n", "8000000000\n"), {})
        self.assertEqual(self.jobs(enough, "200000 100000\n"), {})


if __name__ == "__main__":
    unittest.main()
