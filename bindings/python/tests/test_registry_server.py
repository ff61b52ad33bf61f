"""The client and the monitor, end to end, on the registry server of the repository, where an interpreter has what that
needs."""

import functools
import json
import os
import pathlib
import shutil
import subprocess
import sys
import tempfile
import time
import unittest
import urllib.request

from weoldrin import Log, OperatorLog, PackageLog, audit, p256, records

from . import published
from .registries import run

ROOT = pathlib.Path(__file__).resolve().parents[3]
SERVER, SOURCES = ROOT / "registry/src", ROOT / "bindings/python/src"


@functools.cache
def interpreter() -> str | None:
    """A Python that runs the server."""
    for it in (sys.executable, "/usr/bin/python3", shutil.which("python3")):
        words = [it or "", "-c", "import starlette, uvicorn, h11, prometheus_client, cryptography"]
        if it and SERVER.is_dir() and subprocess.run(words, capture_output=True, check=False).returncode == 0:
            return it
    return None


@unittest.skipUnless(interpreter(), "no Python here has what the registry server needs")
class Server(unittest.TestCase):
    """A registry that runs."""

    def setUp(self) -> None:
        folder = tempfile.TemporaryDirectory()
        self.addCleanup(folder.cleanup)
        self.folder = pathlib.Path(folder.name)
        self.key = p256.SigningKey.generate()
        (self.folder / "key.pem").write_bytes(self.key.to_pem())
        (self.folder / "key.pem").chmod(0o600)
        settings = "checkpoint_seconds = 0.1\nanswer_records = 3\nanswer_leaves = 5\nfetch_logs = 2\n"
        (self.folder / "settings.toml").write_text(settings, encoding="utf-8")
        self.operator, self.package = OperatorLog(), PackageLog()
        self._start()

    def _start(self) -> None:
        words = [interpreter() or "", "-m", "weoldrin_registry.command", "serve", str(self.folder / "logs.sqlite")]
        words += ["--port", "0", "--key", str(self.folder / "key.pem")]
        words += ["--settings", str(self.folder / "settings.toml")]
        kept = {**os.environ, "PYTHONPATH": f"{SERVER}:{SOURCES}"}
        with open(self.folder / "said", "ab") as said:
            process = subprocess.Popen([*words, "--static", str(ROOT)], stdout=subprocess.PIPE, stderr=said, env=kept)
        self.addCleanup(process.wait)
        self.addCleanup(process.kill)
        assert process.stdout is not None
        self.addCleanup(process.stdout.close)
        line = process.stdout.readline().decode()
        self.assertIn(":", line, (self.folder / "said").read_text(encoding="utf-8")[-2_000:])
        self.url = f"http://127.0.0.1:{line.strip().rpartition(':')[2].rstrip('/')}"

    def _post(self, path: str, log: Log, *entries: bytes) -> int:
        """Publishes a record, and gives the index of its leaf."""
        envelope = published.record(log, self.key, list(entries), time.time_ns())
        headers = {"Content-Type": "application/protobuf"}
        request = urllib.request.Request(f"{self.url}/v1/{path}/record", envelope, headers)
        with urllib.request.urlopen(request, timeout=60) as answer:
            index = json.loads(answer.read())["registryIndex"]
        log.append(envelope)
        assert isinstance(index, int)
        return index

    def _wait(self, length: int) -> None:
        """Waits for a checkpoint of so many leaves."""
        end = time.monotonic() + 30
        while time.monotonic() < end:
            with urllib.request.urlopen(f"{self.url}/v1/health", timeout=60) as answer:
                if json.loads(answer.read())["checkpointLength"] == length:
                    return
            time.sleep(0.05)
        self.fail("no checkpoint came")

    def _release(self, minor: int) -> int:
        release = records.release(f"1.{minor}.0", records.sha256_text(str(minor).encode()))
        return self._post("package/a:b", self.package, release)

    def _monitor(self) -> tuple[int, str, str]:
        words = ["--database", str(self.folder / "seen"), "--once", "--workers", "1"]
        return run("monitor", self.url, *words, "--saw", str(self.folder / "saw"))

    def _publish_by_command(self, leaf: int) -> tuple[int, str, str]:
        """Publishes a new package by a new key, and then more of it, and gives what the last run says."""
        (self.folder / "content").write_bytes(b"content")
        key, trust = str(self.folder / "bob.pem"), str(self.folder / "bob.trust")
        publish = "publish", self.url, "a:new"
        for place, version in enumerate(("1.0.0", "1.1.0")):
            words = f"release {version} {self.folder / 'content'}", "--key", key, "--trust", trust
            status, printed, said = run(*publish, *words)
            self.assertRegex(printed, f"^ok sha256:[0-9a-f]{{64}} leaf {leaf + place}\n$", said)
        self.assertEqual(run(*publish, *words)[1], printed)
        self.assertEqual(run(*publish, "yank 7.0.0", "--key", key)[:2], (1, "refused 2 YankOfUnreleased\n"))
        long = [f"release 2.{it}.0 {records.sha256_text(b'')}" for it in range(4_000)]
        status, printed, said = run(*publish, *long, "--key", key)
        self.assertEqual((status, printed, "413 TooLong" in said), (1, "", True), said)
        self._wait(leaf + 2)
        return run("fetch", self.url, "a:new", "--trust", trust)

    def test_all(self) -> None:
        self._post("operator", self.operator, records.init(self.key.public_key), records.define_namespace("a"))
        self._post("package/a:b", self.package, records.init(self.key.public_key))
        last = [self._release(minor) for minor in range(8)][-1]
        logs = [PackageLog() for _ in range(3)]
        for place, log in enumerate(logs):
            self._post(f"package/a:other{place}", log, records.init(self.key.public_key))
        self._wait(13)
        trust, out, locked = (str(self.folder / it) for it in ("trust", "log.hex", "locked"))
        fetch = "fetch", self.url, "a:b", "--trust", trust, "--out", out
        status, printed, said = run(*fetch)
        self.assertEqual(status, 0, printed + said)
        self.assertRegex(printed, f"^ok 9 {self.package.head()} under 13 .* leaf {last}\n$")
        self.assertEqual(run("fetch", self.url, "a:none", "--trust", trust)[:2], (1, "none\n"))
        wanted = self.folder / "wanted"
        wanted.write_text("a:b ^1\n", encoding="utf-8")
        self.assertEqual(run("lock", self.url, str(wanted), "--out", locked)[1][:9], "a:b 1.7.0")
        status, printed, said = self._monitor()
        self.assertEqual((status, printed.split()[-4:]), (0, ["logs", "5", "records", "13"]), printed + said)
        shutil.copy(self.folder / "seen", self.folder / "older")
        shutil.copy(self.folder / "logs.sqlite", self.folder / "backup")
        self._post("package/a:b", self.package, records.yank("1.7.0"))
        self._wait(14)
        status, printed, said = run(*fetch)
        self.assertEqual((status, said, audit(out, "package").records), (0, "", 10), printed)
        self.assertEqual(run("check", self.url, locked)[0], 1)
        self.assertEqual(self._monitor()[0], 0)
        status, printed, said = self._publish_by_command(14)
        self.assertEqual(status, 0, printed + said)
        for other in ("older", "saw"):
            self.assertEqual(run("gossip", str(self.folder / "seen"), str(self.folder / other))[0], 0)

    def test_rolled_back(self) -> None:
        """A registry that is begun anew by the same key, as from a backup, is told."""
        self._post("operator", self.operator, records.init(self.key.public_key))
        self._post("package/a:b", self.package, records.init(self.key.public_key))
        self._wait(2)
        fetch = "fetch", self.url, "a:b", "--trust", str(self.folder / "trust")
        self.assertEqual((run(*fetch)[0], self._monitor()[0]), (0, 0))
        for it in self.folder.glob("logs.sqlite*"):
            it.unlink()
        self._start()
        self.operator = OperatorLog()
        self._post("operator", self.operator, records.init(self.key.public_key))
        self._wait(1)
        for status, printed, said in (run("fetch", self.url, *fetch[2:]), self._monitor()):
            self.assertEqual((status, "rolled back registry" in printed), (1, True), printed + said)


if __name__ == "__main__":
    unittest.main()
