"""How long a client takes to fetch a package of many releases, and to verify it down to a signed checkpoint.

    python3 benches/fetching.py [--releases 1000] [--times 5] [--folder FOLDER]

with the packages installed. A registry is served by a process of its own, from a new file in FOLDER. The client is what
`weoldrin fetch` runs, in this process, so that the start of an interpreter is not counted. It fetches from nothing;
again, by what it trusted and the log that it wrote; again, by what it trusted alone; and by both when a release more is
there. The times are medians, of the clock and of this process on a processor.
"""

import argparse
import contextlib
import io
import os
import pathlib
import statistics
import sys
import tempfile
import time
from collections.abc import Callable

from weoldrin import p256
from weoldrin.registry import Registry as Asked
from weoldrin.registry import command

sys.path.insert(0, str(pathlib.Path(__file__).resolve().parents[2]))

from registry.benches.publishing import Registry, chain, fill, send

NAME = "bench:great"


class Client:
    """Who fetches, and keeps in a folder what it trusts and the log."""

    def __init__(self, folder: pathlib.Path, port: int) -> None:
        self.url = f"http://127.0.0.1:{port}"
        self.trust, self.log = folder / "trust.json", folder / "log.hex"

    def fetch(self, *words: str) -> tuple[float, float]:
        """Fetches, and gives the seconds of the clock and of a processor."""
        began, worked, said = time.perf_counter(), time.process_time(), io.StringIO()
        with contextlib.redirect_stdout(said), contextlib.redirect_stderr(said):
            status = command.main(["fetch", self.url, NAME, "--trust", str(self.trust), *words])
        found = time.perf_counter() - began, time.process_time() - worked
        assert status == 0, said.getvalue()
        return found

    def forget(self) -> None:
        """Forgets what it trusts, and the log."""
        for it in (self.trust, self.log):
            it.unlink(missing_ok=True)

    def wait(self, length: int) -> None:
        """Waits for a checkpoint over so many leaves."""
        while Asked(self.url).checkpoint().contents.log_length < length:
            time.sleep(0.1)


def tell(what: str, times: int, fetch: Callable[[], tuple[float, float]]) -> None:
    """Fetches so often, and says how long that took."""
    clock, processor = (statistics.median(it) * 1000 for it in zip(*(fetch() for _ in range(times)), strict=True))
    print(f"  {what}: {clock:.0f} ms, {processor:.0f} ms of a processor", flush=True)


def measure(folder: pathlib.Path, releases: int, times: int) -> None:
    """Fills a file, serves it, and has it fetched."""
    # The log's first record begins it.
    made = chain(p256.SigningKey.generate(), None, 0, releases + 1 + times)
    fill(folder, NAME, made[: releases + 1])
    registry = Registry(folder)
    client = Client(folder, registry.port)
    out = "--out", str(client.log)
    length = releases + 2

    def fetch_first() -> tuple[float, float]:
        client.forget()
        return client.fetch(*out)

    def fetch_more() -> tuple[float, float]:
        nonlocal length
        send(registry.port, NAME, [made[length - 1]], 0)
        length += 1
        client.wait(length)
        return client.fetch(*out)

    try:
        client.wait(length)
        tell("from nothing", times, fetch_first)
        print(f"  {client.log.stat().st_size / 2**10:.0f} KiB of a log, {client.trust.stat().st_size} bytes trusted")
        tell("again, by what was trusted and the log", times, lambda: client.fetch(*out))
        tell("again, by what was trusted alone", times, client.fetch)
        tell("a release more", times, fetch_more)
    finally:
        registry.stop()


def main() -> None:
    """Runs the words of the command line."""
    parser = argparse.ArgumentParser(description=__doc__, formatter_class=argparse.RawDescriptionHelpFormatter)
    parser.add_argument("--releases", type=int, default=1000)
    parser.add_argument("--times", type=int, default=5)
    parser.add_argument("--folder", type=pathlib.Path)
    words = parser.parse_args()
    for releases in (1, words.releases):
        with tempfile.TemporaryDirectory(dir=words.folder) as name:
            print(f"{releases} releases, load {os.getloadavg()[0]:.1f} on {os.cpu_count()} processors", flush=True)
            measure(pathlib.Path(name), releases, words.times)


if __name__ == "__main__":
    main()
