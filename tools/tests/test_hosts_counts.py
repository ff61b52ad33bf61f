"""Tests of how tools/test_hosts counts: by what each language's runner prints, and where a runner broke off."""

import contextlib
import io
import os
import pathlib
import runpy
import shutil
import subprocess
import sys
import tempfile
import unittest
import unittest.mock
from collections.abc import Callable, Iterator
from typing import Any

TOOLS = pathlib.Path(__file__).resolve().parents[1]
sys.path.insert(0, str(TOOLS))


HOSTS = runpy.run_path(str(TOOLS / "test_hosts"))

from host_tests import arm, machine, web  # noqa: E402
from host_tests.debian import Packages  # noqa: E402

OF_CARGO = """
     Running tests/forgeries.rs (target/debug/deps/forgeries-1)

running 12 tests
test forged ... FAILED

test result: FAILED. 10 passed; 1 failed; 1 ignored; 0 measured; 0 filtered out; finished in 0.02s

   Doc-tests weoldrin

test result: ok. 3 passed; 0 failed; 0 ignored; 0 measured; 0 filtered out; finished in 0.00s
"""


class Counts(unittest.TestCase):
    """What a runner's output says."""

    def test_make(self) -> None:
        said = "ok c: keys-static builds\n8 requests refused\nok c: keys\nFAILED c: keys, by valgrind\nmake: Error 1\n"
        self.assertEqual(HOSTS["counted_of_make"](said), (2, 1, 0))
        self.assertEqual(HOSTS["counted_of_make"]("make: *** No rule\n"), (0, 0, 0))

    def test_cargo(self) -> None:
        self.assertEqual(HOSTS["counted_of_cargo"](OF_CARGO), (13, 1, 1))
        self.assertEqual(HOSTS["counted_of_cargo"]("error: could not compile\n"), (0, 0, 0))

    def test_go(self) -> None:
        said = (
            "=== RUN   TestA\n=== RUN   TestA/one\n    --- PASS: TestA/one (0.00s)\n--- PASS: TestA (0.00s)\n"
            "--- SKIP: TestB (0.00s)\n    rows.go:1: there are no rows here\n--- FAIL: TestC (0.00s)\nFAIL\n"
            "--- PASS: TestD (0.01s)\nok  \tweoldrin.example/weoldrin\t0.01s\n?   \tx\t[no test files]\n"
        )
        self.assertEqual(HOSTS["counted_of_go"](said), (2, 1, 1))
        self.assertEqual(HOSTS["counted_of_go"]("# weoldrin\nlog.go:1: syntax error\nFAIL\n"), (0, 0, 0))

    def test_node(self) -> None:
        said = "ok 1 - a\nnot ok 2 - b\n# tests 9\n# pass 4\n# fail 1\n# cancelled 1\n# skipped 2\n# todo 1\n"
        self.assertEqual(HOSTS["counted_of_node"](said), (4, 2, 3))
        self.assertEqual(HOSTS["counted_of_node"]("node: bad option: --tests\n"), (0, 0, 0))

    def test_unittest(self) -> None:
        ends = {
            "Ran 150 tests in 3.1s\n\nOK": (150, 0, 0),
            "Ran 1 test in 0.0s\n\nOK": (1, 0, 0),
            "Ran 9 tests in 0.1s\n\nOK (skipped=2)": (7, 0, 2),
            "Ran 9 tests in 0.1s\n\nOK (expected failures=1)": (9, 0, 0),
            "Ran 9 tests in 0.1s\n\nFAILED (failures=1, errors=2, skipped=3)": (3, 3, 3),
            "Ran 9 tests in 0.1s\n\nFAILED (unexpected successes=1)": (8, 1, 0),
            "Ran 0 tests in 0.0s\n\nFAILED (errors=1)": (0, 1, 0),
            "Ran 0 tests in 0.0s\n\nOK": (0, 0, 0),
            "Ran 0 tests in 0.0s\n\nNO TESTS RAN": (0, 0, 0),
            "Segmentation fault": (0, 0, 0),
        }
        for end, wanted in ends.items():
            with self.subTest(end):
                said = f"test_a (tests.A.test_a) ... failures=5\nok\n{70 * '-'}\n{end}\nprinted behind it\n"
                self.assertEqual(HOSTS["counted_of_unittest"](said), wanted)


class Node(unittest.TestCase):
    """Whether a Node is new enough."""

    def _is_enough(self, said: str) -> bool:
        """Whether one is that says this version."""
        with tempfile.TemporaryDirectory() as folder:
            node = pathlib.Path(folder) / "node"
            node.write_text(f"#!/bin/sh\necho {said}\n", encoding="utf-8")
            node.chmod(0o755)
            with unittest.mock.patch.dict(os.environ, {"PATH": f"{folder}:/bin"}):
                return bool(HOSTS["has_node"]())

    def test_versions(self) -> None:
        for said in ("v20.0.0", "v20.20.2", "v24.1.0", "v100.0.0"):
            self.assertTrue(self._is_enough(said), said)
        for said in ("v18.20.4", "v2.0.0", "v9.9.9", "20.0.0", "node", ""):
            self.assertFalse(self._is_enough(said), said)

    def test_none(self) -> None:
        with tempfile.TemporaryDirectory() as folder, unittest.mock.patch.dict(os.environ, {"PATH": folder}):
            self.assertFalse(HOSTS["has_node"]())

    def test_the_one_here(self) -> None:
        """The Node of this machine is told by its own version."""
        node = shutil.which("node")
        if not node:
            self.skipTest("there is no Node")
        code = "console.log(parseInt(process.versions.node) >= 20 ? 1 : 0)"
        is_new = subprocess.run([node, "-e", code], capture_output=True, text=True, check=True).stdout == "1\n"
        self.assertEqual(HOSTS["has_node"](), is_new)


@contextlib.contextmanager
def only(**programs: str) -> Iterator[str]:
    """A machine that has these programs alone, each the body of a script of the shell."""
    with tempfile.TemporaryDirectory() as folder:
        for name, body in programs.items():
            path = pathlib.Path(folder) / name.replace("_", "-")
            path.write_text(f"#!/bin/sh\n{body}\n", encoding="utf-8")
            path.chmod(0o755)
        with unittest.mock.patch.dict(os.environ, {"PATH": folder}):
            yield folder


def policy(candidate: str) -> str:
    """The body of an apt-cache that has this candidate."""
    return f"echo 'nodejs:'; echo '  Installed: (none)'; echo '  Candidate: {candidate}'; echo '  Version table:'"


class Lacking(unittest.TestCase):
    """What is left out where the machine lacks something, and whether that is a failure."""

    def _counted(self, test: Callable[[Any], object], is_all: bool = True) -> tuple[int, int, list[str]]:
        """What failed, what was left out, and the lines of it, where all has to be tested."""
        with tempfile.TemporaryDirectory() as folder, contextlib.redirect_stdout(io.StringIO()) as said:
            hosts = HOSTS["Hosts"](HOSTS["RELEASED"], pathlib.Path(folder), is_all)
            test(hosts)
        lines = said.getvalue().splitlines()
        self.assertEqual(hosts.told().splitlines()[1:-1], lines)
        return hosts.failed, hosts.left_out, lines

    def test_offered(self) -> None:
        for said, wanted in ((policy("1:2.3-4"), "1:2.3-4"), (policy("(none)"), None), ("exit 0", None)):
            with only(apt_cache=said):
                self.assertEqual(machine.offered("it"), wanted)
        with only():
            self.assertIsNone(machine.offered("it"))

    def test_node(self) -> None:
        """A Node that Debian has is a failure where it is missing, and one that Debian has none of is none."""
        why = "js: Node 20 or later is not installed"
        for candidate in ("20.19.2+dfsg-1", "1:100.1-2"):
            with only(apt_cache=policy(candidate)):
                self.assertEqual(self._counted(HOSTS["test_js"]), (1, 1, [f"FAILED, left out {why}"]))
                self.assertEqual(self._counted(HOSTS["test_js"], False), (0, 1, [f"left out {why}"]))
                self.assertFalse(any(machine.NEEDED[it]() for it in ("nodejs", "npm", "node-typescript")))
        for candidate in ("18.20.4+dfsg-1~deb12u1", "(none)", "2.0"):
            with only(apt_cache=policy(candidate)):
                self.assertEqual(self._counted(HOSTS["test_js"]), (0, 1, [f"left out {why}, and can't be had here"]))
                self.assertTrue(all(machine.NEEDED[it]() for it in ("nodejs", "npm", "node-typescript")))

    def test_browsers(self) -> None:
        for part in ("web", "registry"):
            with only(apt_cache=policy("156.0")):
                lines = [f"FAILED, left out {part}: {it}: it is not installed" for it in web.BROWSERS]
                self.assertEqual(self._counted(lambda it: web.browsers_there(it, part)), (2, 2, lines))
            with only(apt_cache=policy("(none)"), firefox_esr=""):
                lines = [f"left out {part}: chromium: it is not installed, and can't be had here"]
                self.assertEqual(self._counted(lambda it: web.browsers_there(it, part)), (0, 1, lines))

    def test_missing(self) -> None:
        """The packages of browsers are among those that are installed."""
        for there in ((), ("chromium",), web.BROWSERS):
            with only(**{it.replace("-", "_"): "" for it in there}):
                self.assertEqual([it for it in web.BROWSERS if machine.NEEDED[it]()], list(there))

    def test_of_arm(self) -> None:
        """What is fetched for 64-bit ARM is a failure where the mirror answers, and nothing is laid out then."""
        kept = {"QEMU_LD_PREFIX": "/nowhere"}
        for is_there in (True, False):
            packages = unittest.mock.create_autospec(Packages, instance=True)
            packages.are_there, packages.lay_out.return_value = is_there, False

            def test(hosts: Any, packages: Packages = packages) -> None:
                library = pathlib.Path("/nowhere")
                arm.test_c_on_arm(hosts, library, kept, packages)
                arm.test_rust_on_arm(hosts, library, kept, packages)
                arm.test_python_on_arm(hosts, library, kept, packages)

            with only():
                failed, left_out, lines = self._counted(test)
            self.assertEqual((failed, left_out), (3 if is_there else 0, 3))
            self.assertEqual([it.startswith("FAILED") for it in lines], [is_there] * 3)
            self.assertEqual([it.endswith("can't be had here") for it in lines], [not is_there] * 3)

    def test_summary(self) -> None:
        """A run of a part says at its end what it left out, and its status is 1 where that could be had."""
        for candidate, status in (("156.0", 1), ("(none)", 0)):
            with only(apt_cache=policy(candidate)):
                words = [sys.executable, str(TOOLS / "test_hosts"), "--all", "web"]
                done = subprocess.run(words, capture_output=True, text=True, check=False)
            self.assertEqual(done.returncode, status, done.stderr)
            lines = done.stdout.splitlines()
            self.assertEqual(lines[2], "-- left out")
            self.assertEqual(lines[3:5], lines[:2])
            self.assertEqual(lines[5:], [f"0 passed, {2 * status} failed, 2 left out"])


class Runs(unittest.TestCase):
    """What is counted of a run."""

    def _counted(self, code: str, runner: str | None = None, is_all: bool = False) -> tuple[int, int, int]:
        """The tests that pass, that fail and that are left out where a runner is this code of Python."""
        with tempfile.TemporaryDirectory() as folder, contextlib.redirect_stdout(io.StringIO()) as said:
            hosts = HOSTS["Hosts"](pathlib.Path(folder), pathlib.Path(folder), is_all)
            hosts.run("it", [sys.executable, "-c", code], {"WORD": "known"}, HOSTS[runner] if runner else None)
        lines = said.getvalue().splitlines()
        self.assertEqual(any(it.startswith("FAILED") for it in lines[1:]), hosts.failed > 0, lines)
        return hosts.passed, hosts.failed, hosts.left_out

    def test_a_command(self) -> None:
        self.assertEqual(self._counted("import os; assert os.environ['WORD'] == 'known'"), (1, 0, 0))
        self.assertEqual(self._counted("raise SystemExit(3)"), (0, 1, 0))

    def test_a_runner(self) -> None:
        make = "counted_of_make"
        self.assertEqual(self._counted("print('ok c: a\\nok c: b')", make), (2, 0, 0))
        self.assertEqual(self._counted("print('ok c: a\\nFAILED c: b'); exit(2)", make), (1, 1, 0))
        self.assertEqual(self._counted("print('FAILED c: b')", make), (0, 1, 0))
        # It broke off behind a test, was killed, and tested nothing.
        self.assertEqual(self._counted("print('ok c: a'); exit(2)", make), (1, 1, 0))
        killed = "import os; print('ok c: a', flush=True); os.kill(os.getpid(), 9)"
        self.assertEqual(self._counted(killed, make), (1, 1, 0))
        self.assertEqual(self._counted("print('nothing to be done')", make), (0, 1, 0))

    def test_left_out(self) -> None:
        code = "print('Ran 3 tests in 1s\\n\\nOK (skipped=2)')"
        self.assertEqual(self._counted(code, "counted_of_unittest"), (1, 0, 2))
        self.assertEqual(self._counted(code, "counted_of_unittest", is_all=True), (1, 2, 2))


if __name__ == "__main__":
    unittest.main()
