"""The registry of the examples: published to by two processes at once, killed between writes, started again, forged,
and audited."""

import http.client
import json
import pathlib
import signal
import sqlite3
import subprocess
import sys
import tempfile
import threading
import time
import unittest
import urllib.parse

from weoldrin import LogKind, OperatorLog, PackageLog, p256, record_id, records

from . import published, toy

REGISTRY = pathlib.Path(__file__).resolve().parents[1] / "examples/registry"


class Server:
    """A running registry."""

    def __init__(self, file: pathlib.Path) -> None:
        self._process = subprocess.Popen(
            [sys.executable, str(REGISTRY / "server.py"), str(file)], stdout=subprocess.PIPE, text=True
        )
        assert self._process.stdout is not None
        self.url = self._process.stdout.readline().strip()

    def kill(self) -> None:
        """Ends it at once, in the midst of what it does."""
        self._process.send_signal(signal.SIGKILL)
        self._process.wait()
        assert self._process.stdout is not None
        self._process.stdout.close()


def client(*words: str) -> subprocess.Popen[str]:
    """A process of the client."""
    command = [sys.executable, str(REGISTRY / "client.py"), *words]
    return subprocess.Popen(command, stdout=subprocess.PIPE, stderr=subprocess.PIPE, text=True)


def asked(
    url: str, method: str, path: str, body: bytes | None = None, headers: dict[str, str] | None = None
) -> tuple[int, str]:
    """The status and the text of a reply."""
    connection = http.client.HTTPConnection(urllib.parse.urlsplit(url).netloc, timeout=60)
    try:
        connection.request(method, path, body, headers or {})
        response = connection.getresponse()
        return response.status, response.read().decode()
    finally:
        connection.close()


class RegistryTest(unittest.TestCase):
    """One registry's file."""

    def setUp(self) -> None:
        folder = tempfile.TemporaryDirectory()
        self.addCleanup(folder.cleanup)
        self.folder = pathlib.Path(folder.name)
        self._start()
        self.addCleanup(lambda: self.server.kill())

    def _start(self) -> None:
        self.server = Server(self.folder / "registry.sqlite")

    def _publisher(self, package: str, versions: list[str], key: str = "key.pem") -> "subprocess.Popen[str]":
        return client("publish", self.server.url, package, str(self.folder / key), *versions)

    def _done(self, process: "subprocess.Popen[str]") -> list[int]:
        printed, faults = process.communicate(timeout=120)
        self.assertEqual((process.returncode, faults), (0, ""))
        return [int(it) for it in printed.split()]

    def _audited(self, package: str, count: int) -> None:
        """What the registry serves is lawful, record for record, and what it keeps besides fits it."""
        served, faults = client("fetch", self.server.url, package).communicate(timeout=120)
        self.assertEqual(faults, "")
        path = self.folder / "served.hex"
        path.write_text(served, encoding="ascii")
        words = [sys.executable, "-m", "weoldrin", "audit", "package", str(path)]
        verdict = subprocess.run(words, capture_output=True, text=True, check=False)
        head = asked(self.server.url, "GET", f"/package/{package}/head")[1].strip()
        self.assertEqual((verdict.returncode, verdict.stdout), (0, f"{path}: ok {count} {head}\n"))
        self._is_coherent(package, served)

    def _is_coherent(self, package: str, served: str) -> None:
        """The stored state is that of the stored records."""
        file = sqlite3.connect(self.folder / "registry.sqlite")
        length, state = file.execute("SELECT length, state FROM logs WHERE name = ?", (package,)).fetchone()
        places = file.execute("SELECT place FROM records WHERE name = ? ORDER BY place", (package,)).fetchall()
        file.close()
        self.assertEqual([it for (it,) in places], list(range(length)))
        with PackageLog() as log:
            for line in served.split():
                log.append(bytes.fromhex(line))
            self.assertEqual((len(log), json.loads(log.to_json())), (length, json.loads(state)))

    def test_two_publishers(self) -> None:
        """Two processes publish packages of their own, and one package together, by one key."""
        (self.folder / "key.pem").write_bytes(p256.SigningKey.generate().to_pem())
        for left, right in (("a:left", "a:right"), ("a:both", "a:both")):
            first = self._publisher(left, [f"1.{it}.0" for it in range(20)])
            second = self._publisher(right, [f"2.{it}.0" for it in range(20)])
            places = self._done(first) + self._done(second)
            if left == right:
                self.assertEqual(sorted(places), list(range(41)))
        for package, count in (("a:left", 21), ("a:right", 21), ("a:both", 41)):
            self._audited(package, count)
        self.assertEqual(asked(self.server.url, "GET", "/package")[1].split(), ["a:both", "a:left", "a:right"])
        self.assertEqual(json.loads(asked(self.server.url, "GET", "/package/a:both/latest")[1])["version"], "2.19.0")

    def test_killed(self) -> None:
        """What was acknowledged is kept, nothing is kept half, and the registry goes on where it was."""
        known = 0
        for turn in range(4):
            publisher = self._publisher("a:b", [f"{turn}.{it}.0" for it in range(10_000)])
            assert publisher.stdout is not None
            seen = 0
            killer = threading.Timer(0.4 + 0.13 * turn, self.server.kill)
            for line in publisher.stdout:
                if seen == 0:
                    killer.start()
                seen = int(line) + 1
            publisher.communicate(timeout=60)
            killer.join()
            self.assertNotEqual(publisher.returncode, 0)
            self._start()
            start = max(0, seen - 1)
            kept = start + len(asked(self.server.url, "GET", f"/package/a:b/records?from={start}")[1].split())
            self.assertIn(kept, (seen, seen + 1))
            self.assertGreater(kept, known)
            known = kept
            self._audited("a:b", known)

    def test_operators(self) -> None:
        url, alice = self.server.url, p256.SigningKey.generate()
        with OperatorLog() as log:
            entries = [records.init(alice.public_key), records.define_namespace("acme")]
            envelope = published.record(log, alice, entries)
        self.assertEqual(asked(url, "POST", "/operator/registry", envelope)[0], 201)
        self.assertEqual(asked(url, "GET", "/operator/registry/records?from=0"), (200, f"{envelope.hex()}\n"))
        self.assertEqual(asked(url, "GET", "/operator/registry/records?from=1"), (200, ""))
        self.assertEqual(
            asked(url, "GET", "/operator/registry/head"), (200, f"{record_id(LogKind.OPERATOR, envelope)}\n")
        )
        self.assertEqual((asked(url, "GET", "/operator")[1], asked(url, "GET", "/package")[1]), ("registry\n", ""))
        self.assertEqual(asked(url, "POST", "/package/acme:tool", envelope)[0], 400)

    def test_client(self) -> None:
        """A package of no records is no yes, and what a registry refuses is told in one sentence."""
        url = self.server.url
        fetched = client("fetch", url, "a:none")
        self.assertEqual(fetched.communicate(timeout=60), ("", "client.py: the registry has no records of a:none\n"))
        self.assertEqual(fetched.returncode, 1)
        for words, status, said in (
            (["publish", url, "A", str(self.folder / "key.pem"), "1.0.0"], 1, "404 NotFound: there is no such thing"),
            (["fetch", "http://127.0.0.1:1", "a:b"], 3, "Connection refused"),
        ):
            asking = client(*words)
            self.assertEqual(asking.communicate(timeout=60), ("", f"client.py: {said}\n"))
            self.assertEqual(asking.returncode, status)

    def test_errors(self) -> None:
        url, path = self.server.url, "/package/a:b"
        alice, bob, mallory = (p256.SigningKey.generate() for _ in range(3))
        for envelope in published.envelopes(3, alice, bob):
            self.assertEqual(asked(url, "POST", path, envelope)[0], 201)
        head = asked(url, "GET", f"{path}/head")[1]
        contents = records.contents(head.strip(), time.time_ns(), [records.release("9.0.0", records.sha256_text(b""))])
        bob_id, message = records.key_id(bob.public_key), records.message(LogKind.PACKAGE, contents)
        forged = records.envelope(contents, bob_id, mallory.sign(message))
        stranger = records.signed(LogKind.PACKAGE, contents, mallory.public_key, mallory.sign)
        for body, status, name in (
            (forged, 422, "SignatureError"),
            (stranger, 422, "UnauthorizedAction"),
            (b"\x0b", 400, "ProtobufEnvelope.Group"),
            (b"", 400, "Contents.MissingTime"),
        ):
            seen, text = asked(url, "POST", path, body)
            self.assertEqual((seen, json.loads(text)["error"]), (status, name))
        seen, text = asked(url, "POST", "/package/a:toy", toy.envelope("carol"))
        self.assertEqual((seen, json.loads(text)["error"]), (422, "UnknownAlgorithm"))
        self.assertEqual(asked(url, "GET", "/package/a:toy/head")[0], 404)
        for length in (str((1 << 20) + 1), 5000 * "9", "", "-1"):
            self.assertEqual(asked(url, "POST", path, None, {"Content-Length": length})[0], 413, length[:9])
        wrong = ["/", "//[", "/package/a:b/none", "/other", "/package/A", "/package/a:none/head", "/operator/a/latest"]
        for it in wrong:
            self.assertEqual(asked(url, "GET", it)[0], 404, it)
        self.assertEqual(asked(url, "GET", f"{path}/latest?requirement=one")[0], 400)
        self.assertEqual(asked(url, "GET", f"{path}/latest?requirement=%3E9")[0], 404)
        self.assertEqual(asked(url, "GET", f"{path}/head"), (200, head))
        self._audited("a:b", 3)


if __name__ == "__main__":
    unittest.main()
