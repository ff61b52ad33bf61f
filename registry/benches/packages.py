"""What a registry of very many packages takes: its file, its start, its memory, and a publish of one more.

    python3 benches/packages.py [--packages 150000] [--folder FOLDER]

with the packages installed. A new file in FOLDER, whose disk counts, is filled with packages of one record each by the
server's own publisher, without HTTP and without waiting for the disk, and a checkpoint over them is signed. Each key
begins as many logs as the settings allow. Then a process of its own serves that file. It is said how long it took until
it answered, and what memory it has then and behind 50 new packages and 50 second records, which are published by HTTP.
So is the same of a registry of one package.
"""

import argparse
import http.client
import os
import pathlib
import statistics
import subprocess
import sys
import tempfile
import time

from weoldrin import LogKind, p256, record_id, records
from weoldrin_registry.publishing import log_name
from weoldrin_registry.registry import Registry
from weoldrin_registry.settings import Settings
from weoldrin_registry.signing import new_key
from weoldrin_registry.storage.sqlite import SqliteStorage

START, MORE = 1_700_000_000, 50
TYPE = {"Content-Type": "application/protobuf"}


def record(key: p256.SigningKey, prev: str | None, number: int) -> bytes:
    """The envelope of a record that begins a log, or of the release behind it."""
    entry = records.init(key.public_key)
    if prev is not None:
        entry = records.release("1.0.0", records.sha256_text(str(number).encode()))
    contents = records.contents(prev, (START + number) * 10**9, [entry])
    return records.signed(LogKind.PACKAGE, contents, key.public_key, key.sign)


def fill(folder: pathlib.Path, packages: int) -> list[tuple[str, p256.SigningKey, str]]:
    """Makes the file, and gives the names of its last packages, with their keys and heads."""
    new_key(folder / "key.pem")
    settings = Settings(database=str(folder / "logs.sqlite"), key=str(folder / "key.pem"))
    registry = Registry(settings)
    assert isinstance(registry.storage, SqliteStorage)
    registry.storage._file().execute("PRAGMA synchronous = OFF")
    key, last = p256.SigningKey.from_pem((folder / "key.pem").read_bytes()), []
    contents = records.contents(None, START * 10**9, [records.init(key.public_key)])
    operator = records.signed(LogKind.OPERATOR, contents, key.public_key, key.sign)
    registry.publisher.publish(log_name(LogKind.OPERATOR), operator, time.time())
    began = time.perf_counter()
    for number in range(packages):
        if number % settings.logs_per_key == 0:
            key = p256.SigningKey.generate()
        name, envelope = f"bench:p{number}", record(key, None, number)
        registry.publisher.publish(log_name(LogKind.PACKAGE, name), envelope, time.time())
        if number >= packages - MORE:
            last.append((name, key, record_id("package", envelope)))
    filled = time.perf_counter()
    made = registry.checkpoints.make()
    assert made and made.length == packages + 1
    ended = time.perf_counter()
    print(f"{packages} packages: filled in {filled - began:.0f} s, a checkpoint made in {ended - filled:.1f} s")
    registry.stop()
    return last


class Served:
    """A registry that serves a file."""

    def __init__(self, folder: pathlib.Path) -> None:
        command = [sys.executable, "-m", "weoldrin_registry.command", "serve", str(folder / "logs.sqlite")]
        began = time.perf_counter()
        with open(folder / "lines.txt", "wb") as lines:
            words = [*command, "--key", str(folder / "key.pem"), "--port", "0"]
            self._process = subprocess.Popen(words, stdout=subprocess.PIPE, stderr=lines)
        assert self._process.stdout
        self.port = int(self._process.stdout.readline().decode().rpartition(":")[2])
        self.seconds = time.perf_counter() - began
        self._connection = http.client.HTTPConnection("127.0.0.1", self.port, timeout=600)

    def stop(self) -> None:
        """Ends it."""
        self._connection.close()
        self._process.terminate()
        self._process.wait()

    def memory(self) -> int:
        """How many bytes it has in memory."""
        pages = pathlib.Path(f"/proc/{self._process.pid}/statm").read_text(encoding="ascii").split()[1]
        return int(pages) * os.sysconf("SC_PAGE_SIZE")

    def processor(self) -> float:
        """How many seconds of a processor it has taken."""
        words = pathlib.Path(f"/proc/{self._process.pid}/stat").read_text(encoding="ascii").rpartition(")")[2].split()
        return (int(words[11]) + int(words[12])) / os.sysconf("SC_CLK_TCK")

    def publish(self, name: str, envelope: bytes) -> float:
        """Publishes a record, and gives how long that took."""
        began = time.perf_counter()
        self._connection.request("POST", f"/v1/package/{name}/record", envelope, TYPE)
        response = self._connection.getresponse()
        body = response.read()
        assert response.status == 201, body
        return time.perf_counter() - began


def told(times: list[float]) -> str:
    """How long most took, and the longest."""
    return f"median {statistics.median(times) * 1000:.1f} ms, longest {max(times) * 1000:.0f} ms"


def measure(folder: pathlib.Path, packages: int) -> None:
    """Fills a file, serves it, and says what that takes."""
    last = fill(folder, packages)
    size = sum(it.stat().st_size for it in folder.glob("logs.sqlite*"))
    served = Served(folder)
    try:
        before = served.memory()
        key, new = p256.SigningKey.generate(), []
        for number in range(MORE):
            new.append(served.publish(f"bench:new-p{number}", record(key, None, number)))
        second = [served.publish(name, record(its_key, head, packages)) for name, its_key, head in last]
        print(f"  {size / 2**20:.1f} MiB on the disk; it answers after {served.seconds:.2f} s")
        print(f"  {before / 2**20:.0f} MiB in memory, then {served.memory() / 2**20:.0f} MiB")
        print(f"  a new package: {told(new)}")
        print(f"  a second record: {told(second)}", flush=True)
    finally:
        served.stop()


def main() -> None:
    """Runs the words of the command line."""
    parser = argparse.ArgumentParser(description=__doc__, formatter_class=argparse.RawDescriptionHelpFormatter)
    parser.add_argument("--packages", type=int, default=150_000)
    parser.add_argument("--folder", type=pathlib.Path)
    words = parser.parse_args()
    for packages in (1, words.packages):
        with tempfile.TemporaryDirectory(dir=words.folder) as name:
            print(f"load {os.getloadavg()[0]:.1f} on {os.cpu_count()} processors", flush=True)
            measure(pathlib.Path(name), packages)


if __name__ == "__main__":
    main()
