"""How long a monitor takes to follow a registry of very many packages from nothing.

    python3 benches/monitoring.py [COUNT] [--workers 4] [--folder FOLDER] [WAY..]

with the packages installed, and Dask (python3-distributed) for the way `dask`. A new file in FOLDER is filled with
COUNT packages of one record each, as benches/packages.py does, and is served by a process of its own. Then a monitor
makes its first step, from a new file in FOLDER, in a process of its own for each way: `one` replays the logs in that
process, `processes` by so many workers, and `dask` by as many of a cluster on this machine. It is said how long the
step took, how long the monitor, its workers and the server had a processor, and the most memory that the monitor and
one of its workers had.
"""

import argparse
import contextlib
import os
import pathlib
import resource
import subprocess
import sys
import tempfile
import time
from collections.abc import Iterator
from concurrent.futures import Executor

from weoldrin.registry import Follower
from weoldrin.registry import Registry as Asked
from weoldrin.registry.database import Database
from weoldrin.registry.monitor import Monitor
from weoldrin.registry.replaying import Replayer

sys.path.insert(0, str(pathlib.Path(__file__).resolve().parents[2]))

from registry.benches.packages import Served, fill

WAYS = ("one", "processes", "dask")


@contextlib.contextmanager
def executor_of(way: str, workers: int) -> Iterator[Executor | None]:
    """Who replays the logs, where it is not the monitor's own."""
    if way != "dask":
        yield None
        return
    from distributed import Client, LocalCluster

    words = {"n_workers": workers, "threads_per_worker": 1, "dashboard_address": None}
    with LocalCluster(**words) as cluster, Client(cluster) as client:  # type: ignore[no-untyped-call]
        yield client.get_executor(pure=False)


def used(who: int) -> tuple[float, float]:
    """The seconds of a processor, and the MiB of memory at most."""
    it = resource.getrusage(who)
    return it.ru_utime + it.ru_stime, it.ru_maxrss / 2**10


def step(url: str, file: pathlib.Path, way: str, workers: int) -> None:
    """Makes the first step, and says what that took."""
    with executor_of(way, workers) as executor:
        workers = 1 if way == "one" else workers
        replayer, asked = Replayer(url, 600, workers, executor), Asked(url, 600)
        began = time.perf_counter()
        with contextlib.closing(Database(str(file))) as seen, contextlib.closing(replayer):
            with contextlib.closing(Monitor(seen, lambda: Follower(asked, seen.trust()), replayer, 10**9)) as monitor:
                told = monitor.step()
                seconds = time.perf_counter() - began
            logs, records = seen.counts()
            assert not told and logs == records, (told, logs, records)
    (own, memory), (others, most) = used(resource.RUSAGE_SELF), used(resource.RUSAGE_CHILDREN)
    size = file.stat().st_size / 2**20
    print(f"  {way}, {workers} workers: {logs} logs in {seconds:.1f} s, a file of {size:.1f} MiB")
    print(f"    the monitor: {own:.1f} s of a processor, {memory:.0f} MiB")
    if workers > 1:
        print(f"    its workers: {others:.1f} s of a processor, {most:.0f} MiB each at most")


def measure(folder: pathlib.Path, packages: int, workers: int, ways: list[str]) -> None:
    """Fills a file, serves it, and has it followed in each way."""
    fill(folder, packages)
    served = Served(folder)
    try:
        print(f"  the server answers after {served.seconds:.1f} s, with {served.memory() / 2**20:.0f} MiB", flush=True)
        for way in ways:
            load, before = os.getloadavg()[0], served.processor()
            words = [f"http://127.0.0.1:{served.port}", str(folder / f"{way}.sqlite"), "--workers", str(workers)]
            subprocess.run([sys.executable, __file__, str(packages), way, "--step", *words], check=True)
            print(f"    the server: {served.processor() - before:.1f} s of a processor; load {load:.1f}", flush=True)
    finally:
        served.stop()


def main() -> None:
    """Runs the words of the command line."""
    parser = argparse.ArgumentParser(description=__doc__, formatter_class=argparse.RawDescriptionHelpFormatter)
    parser.add_argument("count", type=int, nargs="?", default=150_000)
    parser.add_argument("ways", nargs="*", choices=[*WAYS, []], default=[])
    parser.add_argument("--workers", type=int, default=4)
    parser.add_argument("--folder", type=pathlib.Path)
    parser.add_argument("--step", nargs=2, help=argparse.SUPPRESS)
    words = parser.parse_args()
    if words.step:
        step(words.step[0], pathlib.Path(words.step[1]), words.ways[0], words.workers)
        return
    with tempfile.TemporaryDirectory(dir=words.folder) as name:
        print(f"load {os.getloadavg()[0]:.1f} on {os.cpu_count()} processors", flush=True)
        measure(pathlib.Path(name), words.count, words.workers, words.ways or list(WAYS))


if __name__ == "__main__":
    main()
