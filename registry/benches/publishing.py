"""How many records a second a registry takes, and how long each takes.

    python3 benches/publishing.py [--seconds 8] [--releases 20000] [--folder FOLDER] [--postgres]

with the packages installed. A registry is served by a process of its own, from a new file in FOLDER, whose disk counts.
Publishers are processes with keys and packages of their own, which send what they have signed before. The last lines
compare the first 200 releases of a package with the 200 behind so many, and are left out where that is 0.

With --postgres another registry is measured beside it, in turns, whose logs are in a server of PostgreSQL. That one is
begun in a folder of its own in FOLDER, as the tests begin theirs. Its user has to reach FOLDER.
"""

import argparse
import contextlib
import http.client
import multiprocessing
import os
import pathlib
import statistics
import subprocess
import sys
import tempfile
import time

from weoldrin import LogKind, p256, record_id, records
from weoldrin_registry.handles import Handles
from weoldrin_registry.publishing import Publisher, log_name
from weoldrin_registry.settings import Settings
from weoldrin_registry.storage.sqlite import SqliteStorage

sys.path.insert(0, str(pathlib.Path(__file__).resolve().parents[2]))

from registry.tests import database

START = 1_700_000_000
COMPARED = 200
# So many records a second are signed before, of all publishers. Those who have sent all of theirs end earlier.
SIGNED = 300


def chain(key: p256.SigningKey, prev: str | None, first: int, count: int) -> list[bytes]:
    """The envelopes of so many releases, the one behind the other; the log's first record begins it."""
    made = []
    for number in range(first, first + count):
        entry = records.release(f"{number}.0.0", records.sha256_text(str(number).encode()))
        if prev is None:
            entry = records.init(key.public_key)
        contents = records.contents(prev, (START + number) * 10**9, [entry])
        made.append(records.signed(LogKind.PACKAGE, contents, key.public_key, key.sign))
        prev = record_id("package", made[-1])
    return made


def send(port: int, name: str, envelopes: list[bytes], seconds: float) -> list[float]:
    """Publishes records, for so long at most, and gives how long each took."""
    connection = http.client.HTTPConnection("127.0.0.1", port, timeout=60)
    headers, times, until = {"Content-Type": "application/protobuf"}, [], time.monotonic() + seconds
    for it in envelopes:
        began = time.perf_counter()
        connection.request("POST", f"/v1/package/{name}/record", it, headers)
        response = connection.getresponse()
        body = response.read()
        assert response.status == 201, body
        times.append(time.perf_counter() - began)
        if time.monotonic() > until:
            break
    connection.close()
    return times


class Registry:
    """A registry that is served, of a file in a folder, or of the database of an address."""

    def __init__(self, folder: pathlib.Path, address: str = "") -> None:
        words = [sys.executable, "-m", "weoldrin_registry.command"]
        key, file = str(folder / "key.pem"), address or str(folder / "logs.sqlite")
        subprocess.run([*words, "new-key", key], check=True)
        subprocess.run([*words, "begin", file, "--key", key], check=True, stdout=subprocess.DEVNULL)
        with open(folder / "lines.txt", "wb") as lines:
            command = [*words, "serve", file, "--key", key, "--port", "0"]
            self.process = subprocess.Popen(command, stdout=subprocess.PIPE, stderr=lines)
        assert self.process.stdout
        self.port = int(self.process.stdout.readline().decode().rpartition(":")[2])

    def stop(self) -> None:
        """Ends it."""
        self.process.terminate()
        self.process.wait()


def told(times: list[float]) -> str:
    """How long most took, and 99 of 100."""
    cuts = statistics.quantiles(times, n=100)
    return f"median {cuts[49] * 1000:.1f} ms, 99th percentile {cuts[98] * 1000:.1f} ms"


def measure(registries: dict[str, Registry], publishers: int, seconds: float) -> None:
    """Has so many publish at once, to one registry after the other."""
    count = 2 + int(SIGNED * seconds / publishers)
    made = [chain(p256.SigningKey.generate(), None, 0, count) for _ in range(publishers)]
    for name, it in registries.items():
        words = [(it.port, f"bench:with-p{publishers}-x{at}", mine, seconds) for at, mine in enumerate(made)]
        with multiprocessing.Pool(publishers) as pool:
            found = pool.starmap(send, words, 1)
        times = [it for one in found for it in one]
        rate = sum(len(one) / sum(one) for one in found)
        print(f"{name}, {publishers} publishers: {rate:.0f} records a second, {told(times)}", flush=True)


def publish(folder: pathlib.Path, seconds: float, server: database.Server | None) -> None:
    """Measures a registry of SQLite, and one of PostgreSQL beside it."""
    with contextlib.ExitStack() as held:
        registries = {"SQLite": Registry(folder)}
        held.callback(registries["SQLite"].stop)
        if server is not None:
            held.callback(server.stop)
            server.begin()
            (folder / "second").mkdir()
            registries["PostgreSQL"] = Registry(folder / "second", server.database())
            held.callback(registries["PostgreSQL"].stop)
        for publishers in (1, 4, 16):
            measure(registries, publishers, seconds)


def fill(folder: pathlib.Path, name: str, envelopes: list[bytes]) -> None:
    """Publishes records without waiting for the disk."""
    storage, settings = SqliteStorage(folder / "logs.sqlite", 5), Settings()
    storage._file().execute("PRAGMA synchronous = OFF")
    handles, log = Handles(storage, 2**30, settings.state_records), log_name(LogKind.PACKAGE, name)
    publisher = Publisher(storage, handles, settings, "")
    for it in envelopes:
        publisher.publish(log, it, time.time())
        handles.save(log.kind, log.log_id)
    storage.close()


def compare(folder: pathlib.Path, releases: int) -> None:
    """Compares the first releases of a package with those behind many."""
    key, other = p256.SigningKey.generate(), p256.SigningKey.generate()
    made = chain(key, None, 0, releases + COMPARED + 1)
    fill(folder, "bench:great", made[:releases])
    few = chain(other, None, 0, COMPARED + 1)
    registry = Registry(folder)
    try:
        # The first record of each, which resumes the log.
        for name, it in (("bench:great", made[releases]), ("bench:small", few[0])):
            resumed = send(registry.port, name, [it], 0)[0]
            print(f"the first record of {name} after the start: {resumed * 1000:.1f} ms")
        found: dict[str, list[float]] = {"bench:small": [], "bench:great": []}
        # In turns, so that both meet the same machine.
        for at in range(1, COMPARED + 1):
            for name, envelopes in (("bench:small", few[at:]), ("bench:great", made[releases + at :])):
                found[name] += send(registry.port, name, envelopes[:1], 0)
        for name, times in found.items():
            print(f"{name}: mean {statistics.mean(times) * 1000:.2f} ms, {told(times)}")
        ratio = statistics.mean(found["bench:great"]) / statistics.mean(found["bench:small"])
        medians = statistics.median(found["bench:great"]) / statistics.median(found["bench:small"])
        print(f"release {releases} against the first: {ratio:.2f} times by the mean, {medians:.2f} by the median")
    finally:
        registry.stop()


def main() -> None:
    """Runs the words of the command line."""
    parser = argparse.ArgumentParser(description=__doc__, formatter_class=argparse.RawDescriptionHelpFormatter)
    parser.add_argument("--seconds", type=float, default=8)
    parser.add_argument("--releases", type=int, default=20_000)
    parser.add_argument("--folder", type=pathlib.Path)
    parser.add_argument("--postgres", action="store_true")
    words = parser.parse_args()
    print(f"load {os.getloadavg()[0]:.1f} on {os.cpu_count()} processors", flush=True)
    if words.postgres:
        database.check_installed()
    with tempfile.TemporaryDirectory(dir=words.folder) as name:
        server = database.Server(folder=words.folder) if words.postgres else None
        publish(pathlib.Path(name), words.seconds, server)
    if words.releases:
        with tempfile.TemporaryDirectory(dir=words.folder) as name:
            compare(pathlib.Path(name), words.releases)
    print(f"load {os.getloadavg()[0]:.1f}", flush=True)


if __name__ == "__main__":
    main()
