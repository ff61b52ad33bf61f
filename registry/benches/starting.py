"""How long a registry of many leaves takes to start, and what memory its trees take.

    python3 benches/starting.py [--leaves 100000] [--logs 20000] [--folder FOLDER]

with the packages installed. The leaves are written into a new file in FOLDER, of logs in turn, which have no records,
and a checkpoint over them is signed. Then a process of its own starts over that file, and says how long that took, how
much more memory it has then, and how long a checkpoint over 1,000 more leaves took. So does one over a single leaf.
"""

import argparse
import hashlib
import pathlib
import subprocess
import sys
import tempfile
import time

from weoldrin import LogKind, p256, records
from weoldrin_registry.publishing import log_name
from weoldrin_registry.registry import Registry
from weoldrin_registry.settings import Settings
from weoldrin_registry.signing import new_key
from weoldrin_registry.storage.sqlite import SqliteStorage

MORE = 1000


def settings_in(folder: pathlib.Path) -> Settings:
    """Those of the registry of a folder."""
    file, key = folder / "logs.sqlite", folder / "key.pem"
    return Settings(database=str(file), key=str(key), checkpoint_seconds=0.001, renew_seconds=3600)


def id_of(name: str) -> str:
    """The text of the digest of a name."""
    return f"sha256:{hashlib.sha256(name.encode()).hexdigest()}"


def add(folder: pathlib.Path, leaves: range, logs: int) -> None:
    """Writes leaves of logs in turn."""
    storage = SqliteStorage(folder / "logs.sqlite", 5)
    file = storage._file()
    file.execute("BEGIN")
    for it in range(logs):
        row = (it + 2, id_of(f"log {it}"), "package", f"bench:x{it}", id_of("head"), 0, 1, "")
        file.execute("INSERT OR IGNORE INTO logs VALUES (?, ?, ?, ?, ?, ?, ?, ?)", row)
    for it in leaves:
        file.execute("INSERT INTO leaves VALUES (?, ?, ?)", (it, it % logs + 2, id_of(f"record {it}")))
    file.execute("COMMIT")
    storage.close()


def fill(folder: pathlib.Path, leaves: int, logs: int) -> None:
    """Makes the file, with a checkpoint."""
    new_key(folder / "key.pem")
    key = p256.SigningKey.from_pem((folder / "key.pem").read_bytes())
    contents = records.contents(None, time.time_ns(), [records.init(key.public_key)])
    registry = Registry(settings_in(folder))
    registry.publish(
        log_name(LogKind.OPERATOR), records.signed(LogKind.OPERATOR, contents, key.public_key, key.sign)
    )
    if leaves > 1:
        add(folder, range(1, leaves), logs)
    time.sleep(0.01)
    made = registry.checkpoints.make()
    assert made and made.length == leaves
    registry.stop()


def memory() -> int:
    """How many bytes this process has in memory."""
    return int(pathlib.Path("/proc/self/statm").read_text(encoding="ascii").split()[1]) * 4096


def start(folder: pathlib.Path, logs: int) -> None:
    """Starts over the file, and says what that took."""
    registry = Registry(settings_in(folder))
    before, began = memory(), time.perf_counter()
    newest = registry.checkpoints.current()
    seconds, more = time.perf_counter() - began, memory() - before
    assert newest
    add(folder, range(newest.length, newest.length + MORE), logs)
    time.sleep(0.01)
    began = time.perf_counter()
    made = registry.checkpoints.make()
    assert made and made.length == newest.length + MORE
    added = time.perf_counter() - began
    print(f"{newest.length} leaves: {seconds:.3f} s, {more / 2**20:.1f} MiB; {MORE} more: {added:.3f} s", flush=True)
    registry.stop()


def main() -> None:
    """Runs the words of the command line."""
    parser = argparse.ArgumentParser(description=__doc__, formatter_class=argparse.RawDescriptionHelpFormatter)
    parser.add_argument("--leaves", type=int, default=100_000)
    parser.add_argument("--logs", type=int, default=20_000)
    parser.add_argument("--folder", type=pathlib.Path)
    parser.add_argument("--start", type=pathlib.Path, help=argparse.SUPPRESS)
    words = parser.parse_args()
    if words.start:
        start(words.start, words.logs)
        return
    for leaves in (1, words.leaves):
        with tempfile.TemporaryDirectory(dir=words.folder) as name:
            fill(pathlib.Path(name), leaves, words.logs)
            subprocess.run([sys.executable, __file__, "--logs", str(words.logs), "--start", name], check=True)


if __name__ == "__main__":
    main()
