"""A registry that is served by a process of its own, and a client that sees that each answer is as is said."""

import http.client
import json
import pathlib
import signal
import subprocess
import sys
import tempfile
import time
import unittest
from collections.abc import Mapping
from typing import Any, NamedTuple

from weoldrin import Log, LogKind, p256, records

from .contract import Contract

Key = p256.SigningKey
CONTRACT = Contract()
REPOSITORY = pathlib.Path(__file__).resolve().parents[2]
START = 1_700_000_000_000_000_000
PROTOBUF = {"Content-Type": "application/protobuf"}
JSON = {"Content-Type": "application/json"}


class Answer(NamedTuple):
    """What is answered."""

    status: int
    headers: Mapping[str, str]
    body: bytes

    @property
    def json(self) -> Any:
        """The body's value."""
        return json.loads(self.body)

    @property
    def problem(self) -> tuple[int, str]:
        """The status and the name of an error."""
        return self.status, self.json["name"]

    @property
    def envelopes(self) -> list[bytes]:
        """The envelopes of a body of hex."""
        return [bytes.fromhex(it) for it in self.body.decode().split()]


class Client:
    """A connection to a registry, which is made anew where it was ended; for each request, where it is not kept."""

    def __init__(self, port: int, seconds: float = 60, is_kept: bool = True) -> None:
        self._connection = http.client.HTTPConnection("127.0.0.1", port, timeout=seconds)
        self._is_kept = is_kept

    def close(self) -> None:
        """Ends it."""
        self._connection.close()

    def asked(
        self, method: str, target: str, body: bytes | None = None, headers: Mapping[str, str] | None = None
    ) -> Answer:
        """The answer to a request."""
        if not self._is_kept:
            self._connection.close()
        try:
            self._connection.request(method, target, body, dict(headers or {}))
            response = self._connection.getresponse()
            found = {name.lower(): value for name, value in response.getheaders()}
            answer = Answer(response.status, found, response.read())
        except BaseException:
            self._connection.close()
            raise
        CONTRACT.check(method, target, *answer)
        return answer

    def get(self, target: str, **headers: str) -> Answer:
        """The answer to a request that looks something up."""
        return self.asked("GET", target, None, {name.replace("_", "-"): value for name, value in headers.items()})

    def post(self, target: str, envelope: bytes) -> Answer:
        """The answer to a record."""
        return self.asked("POST", target, envelope, PROTOBUF)

    def ask_json(self, target: str, value: object) -> Answer:
        """The answer to a value of JSON."""
        CONTRACT.check_request("POST", target, value)
        return self.asked("POST", target, json.dumps(value).encode(), JSON)


class Process:
    """A registry that runs."""

    PROGRAM: tuple[str, ...] = ("-m", "weoldrin_registry.command")

    def __init__(
        self, folder: pathlib.Path, *words: str, settings: str = "", files: int = 0, database: str = ""
    ) -> None:
        self.folder = folder
        (folder / "settings.toml").write_text(settings, encoding="utf-8")
        command = [sys.executable, *self.PROGRAM, "serve"]
        command.append(database or str(folder / "logs.sqlite"))
        command += ["--port", "0"]
        command += ["--settings", str(folder / "settings.toml"), *(words or ("--static", str(REPOSITORY)))]
        if (folder / "key.pem").exists():
            command += ["--key", str(folder / "key.pem")]
        if files:
            command = ["prlimit", f"--fsize={files}", *command]
        self.lines = folder / "lines.txt"
        with open(self.lines, "ab") as lines:
            self._process = subprocess.Popen(command, stdout=subprocess.PIPE, stderr=lines)
        assert self._process.stdout
        said = self._process.stdout.readline().decode()
        if not said:
            self._end(signal.SIGKILL)
            raise RuntimeError(f"it did not begin: {self.lines.read_text(encoding='utf-8')[-2000:]}")
        self.port = int(said.rpartition(":")[2])

    @property
    def pid(self) -> int:
        """The process's number."""
        return self._process.pid

    def client(self, seconds: float = 60, is_kept: bool = True) -> Client:
        """A connection to it."""
        return Client(self.port, seconds, is_kept)

    def kill(self) -> None:
        """Kills it."""
        self._end(signal.SIGKILL)

    def stop(self) -> int:
        """Has it end, and gives its status."""
        return self._end(signal.SIGTERM)

    def _end(self, number: int) -> int:
        self._process.send_signal(number)
        status = self._process.wait(120)
        assert self._process.stdout
        self._process.stdout.close()
        return status


def new_key(folder: pathlib.Path) -> Key:
    """The registry's key, in its folder."""
    key = Key.generate()
    (folder / "key.pem").write_bytes(key.to_pem())
    return key


def package_record(prev: str | None, key: Key, *entries: bytes, seconds: int = 0, version: int = 1) -> bytes:
    """The envelope of a package's record."""
    contents = records.contents(prev, START + seconds * 10**9, entries, version)
    return records.signed(LogKind.PACKAGE, contents, key.public_key, key.sign)


def operator_record(prev: str | None, key: Key, *entries: bytes, seconds: int = 0) -> bytes:
    """The envelope of an operator's record."""
    contents = records.contents(prev, START + seconds * 10**9, entries)
    return records.signed(LogKind.OPERATOR, contents, key.public_key, key.sign)


def release(version: str) -> bytes:
    """The entry of a release."""
    return records.release(version, records.sha256_text(version.encode()))


def next_record(log: Log, key: Key, *entries: bytes, seconds: int = 0) -> bytes:
    """The envelope of the record that comes next in a log."""
    contents = records.contents(log.head(), START + seconds * 10**9, entries)
    return records.signed(log.KIND, contents, key.public_key, key.sign)


def begin(client: Client, key: Key) -> str:
    """Begins the operator log, and gives its head."""
    answer = client.post("/v1/operator/record", operator_record(None, key, records.init(key.public_key)))
    assert answer.status == 201, answer
    return str(answer.json["recordId"])


def checkpoint_of(client: Client, length: int, seconds: float = 30) -> Any:
    """The newest checkpoint, once it has so many leaves."""
    until = time.monotonic() + seconds
    while True:
        answer = client.get("/v1/checkpoint")
        if answer.status == 200 and answer.json["contents"]["logLength"] >= length:
            return answer.json
        assert time.monotonic() < until, answer
        time.sleep(0.05)


class Served(unittest.TestCase):
    """Tests of a registry that is served for all of them, with a key that signs checkpoints."""

    SETTINGS = "checkpoint_seconds = 0.1\n"
    WORDS: tuple[str, ...] = ()
    folder: pathlib.Path
    key: Key
    process: Process
    client: Client

    @classmethod
    def setUpClass(cls) -> None:
        folder = tempfile.TemporaryDirectory()
        cls.addClassCleanup(folder.cleanup)
        cls.folder = pathlib.Path(folder.name)
        cls.key = new_key(cls.folder)
        cls.process = Process(cls.folder, *cls.WORDS, settings=cls.SETTINGS)
        cls.addClassCleanup(cls.process.stop)
        cls.client = cls.process.client()
        cls.addClassCleanup(cls.client.close)

    def refused(self, answer: Answer, status: int, name: str) -> Any:
        """An answer is an error of a status and a name."""
        self.assertEqual((answer.status, json.loads(answer.body or b"{}").get("name")), (status, name), answer)
        return answer.json

    def published(self, answer: Answer) -> Any:
        """An answer is that of a record that stands."""
        self.assertEqual(answer.status, 201, answer)
        return answer.json
