"""The audit of many packages, by processes, by threads and by Dask, from nothing and then of what is new."""

import importlib.util
import pathlib
import shlex
import subprocess
import sys
import tempfile
import unittest

from weoldrin import PackageLog, p256

from . import published

PROGRAM = pathlib.Path(__file__).resolve().parents[1] / "examples/registry_audit.py"


class RegistryAudit(unittest.TestCase):
    """A folder of packages."""

    def setUp(self) -> None:
        folder = tempfile.TemporaryDirectory()
        self.addCleanup(folder.cleanup)
        self.folder = pathlib.Path(folder.name)
        self.alice, self.bob = p256.SigningKey.generate(), p256.SigningKey.generate()
        self.envelopes = published.envelopes(10, self.alice, self.bob)
        for place in range(250):
            self._write(f"p{place:03}", self.envelopes[: 1 + place % 10])

    def _write(self, name: str, envelopes: list[bytes]) -> None:
        (self.folder / f"{name}.hex").write_text("".join(f"{it.hex()}\n" for it in envelopes), encoding="ascii")

    def _audited(self, *words: str) -> tuple[int, list[str]]:
        command = [sys.executable, str(PROGRAM), str(self.folder), *words]
        done = subprocess.run(command, capture_output=True, text=True, check=False, timeout=300)
        # Dask logs an error of its own where a worker's heartbeat meets a scheduler that is closing.
        self.assertNotIn(f'File "{PROGRAM}"' if "--dask" in words else "Traceback", done.stderr)
        return done.returncode, done.stdout.splitlines()

    def _forget(self) -> None:
        for path in self.folder.glob("*.state"):
            path.unlink()

    def test_processes_and_threads(self) -> None:
        for words in (["--workers", "2"], ["--threads"]):
            self._forget()
            self.assertEqual(self._audited(*words), (0, ["250 of 250 packages accepted, 1375 new records"]))
            self.assertEqual(self._audited(*words), (0, ["250 of 250 packages accepted, 0 new records"]))

    def test_a_day_later(self) -> None:
        self._audited()
        self._write("p000", self.envelopes[:4])
        self._write("new", self.envelopes[:2])
        self.assertEqual(self._audited(), (0, ["251 of 251 packages accepted, 5 new records"]))
        # What is new is judged by the saved state, and named by its place in the whole log.
        forged = bytearray(self.envelopes[4])
        forged[-8] ^= 1
        self._write("p000", [*self.envelopes[:4], bytes(forged)])
        self._write("p001", [*self.envelopes[:2], self.envelopes[3]])
        self._write("p002", self.envelopes[:3])
        with (self.folder / "p002.hex").open("a", encoding="ascii") as file:
            file.write("0g\n")
        status, lines = self._audited()
        self.assertEqual((status, lines[-1]), (1, "248 of 251 packages accepted, 0 new records"))
        self.assertIn("p000.hex: refused 4 Signature", lines[0])
        self.assertIn("p001.hex: refused 2 RecordHashDoesNotMatch", lines[1])
        self.assertIn("p002.hex: bad line 3", lines[2])
        # The states of those are as before, so that the true logs go on.
        for place in range(3):
            self._write(f"p00{place}", self.envelopes)
        self.assertEqual(self._audited()[0], 0)

    def test_faults(self) -> None:
        """What is wrong with some packages is told of each, and the others are audited."""
        self._audited()
        paths = [self.folder / f"p{place:03}.hex" for place in range(6)]
        paths[0].unlink()
        paths[1].write_bytes(b"")
        paths[2].write_bytes(b"garbage\n" * 1000)
        pathlib.Path(f"{paths[3]}.state").write_bytes(b"{")
        paths[4].write_bytes(paths[4].read_bytes() + b"0a")
        paths[5].unlink()
        paths[5].mkdir()
        self._write("p006", self.envelopes[:8])
        self._write("empty", [])
        self._write("mine\n\x1b[2J.hex: ok 1 sha256:", [])
        status, lines = self._audited()
        wanted = [
            r"empty.hex: empty",
            r"mine\\u{a}\\u{1b}\[2J.hex: ok 1 sha256:.hex: empty",
            r"p000.hex: there is no such file",
            r"p001.hex: rolled back 2 0",
            r"p002.hex: rewritten 3",
            r"p003.hex: spoiled state: .*",
            r"p004.hex: unfinished line 6",
            r"p005.hex: it can't be read: .*",
        ]
        self.assertEqual((status, lines[-1]), (1, "244 of 252 packages accepted, 1 new records"))
        self.assertEqual(len(lines), len(wanted) + 1)
        for line, pattern in zip(lines, wanted, strict=False):
            self.assertRegex(line.removeprefix(f"{self.folder}/"), f"^{pattern}$")

    def test_nothing(self) -> None:
        """A folder of no packages is no yes."""
        for path in self.folder.iterdir():
            path.unlink()
        self.assertEqual(self._audited(), (1, ["0 of 0 packages accepted, 0 new records"]))
        self.assertEqual(self._audited("--allow-empty")[0], 0)
        self._write("empty", [])
        self.assertEqual(self._audited()[0], 1)
        self.assertEqual(self._audited("--allow-empty")[0], 0)
        self.folder /= "none"
        self.assertEqual(self._audited(), (2, []))

    def test_output(self) -> None:
        """A reader that has gone is no error, and a full disk is one."""
        command = f"{shlex.quote(sys.executable)} {shlex.quote(str(PROGRAM))} {shlex.quote(str(self.folder))}"
        for output, wanted in (("| true", ""), ("> /dev/full", "standard output could not be written")):
            done = subprocess.run(f"{command} {output}", shell=True, capture_output=True, text=True, check=False)
            self.assertNotIn("Traceback", done.stderr)
            self.assertIn(wanted, done.stderr)

    def test_words(self) -> None:
        for words in (["--workers", "0"], ["--workers", "-1", "--threads"], ["--workers", "many"], ["--\x1b[2J"]):
            self.assertEqual(self._audited(*words), (2, []))
        command = " ".join(map(shlex.quote, [sys.executable, str(PROGRAM), str(self.folder), "--threads"]))
        done = subprocess.run(["bash", "-c", f"{command} 2>&-"], capture_output=True, text=True, check=False)
        self.assertEqual(done.stdout, "250 of 250 packages accepted, 1375 new records\n")
        done = subprocess.run([*shlex.split(command), "--\x1b[2J"], capture_output=True, text=True, check=False)
        self.assertNotIn("\x1b", done.stderr)

    @unittest.skipUnless(importlib.util.find_spec("distributed"), "Dask is not installed")
    def test_dask(self) -> None:
        self.assertEqual(self._audited("--dask", "local"), (0, ["250 of 250 packages accepted, 1375 new records"]))
        states = {it.name: it.read_text(encoding="utf-8") for it in self.folder.glob("*.state")}
        self.assertEqual(len(states), 250)
        self._forget()
        self._audited("--workers", "2")
        self.assertEqual({it.name: it.read_text(encoding="utf-8") for it in self.folder.glob("*.state")}, states)

    def test_state_is_whole(self) -> None:
        """A state that is read back is that of the log."""
        self._audited()
        with PackageLog() as log:
            for envelope in self.envelopes:
                log.append(envelope)
            self.assertIn(log.head() or "", (self.folder / "p009.hex.state").read_text(encoding="utf-8"))


if __name__ == "__main__":
    unittest.main()
