"""Audits all packages of a registry, side by side, and reads only what is new since the last time.

    python3 registry_audit.py FOLDER                     by the processors of this machine, a process each
    python3 registry_audit.py FOLDER --threads           by threads
    python3 registry_audit.py FOLDER --dask SCHEDULER    by a Dask cluster, whose workers have package and folder
    python3 registry_audit.py FOLDER --dask local        by two workers on this machine

FOLDER has a file NAME.hex for each package: its envelopes, a line each in hex. Beside it NAME.hex.state keeps the log's
state, and how much of the file was read, with its digest: a package that was rolled back, written anew, or removed is
told by that word, and does not keep the others from being audited. A line is printed for each package that is not
accepted, and at the end how many are.

Status: 0 all are accepted, 1 one is not or there is none, 2 wrong words, 3 what was found could not be written.
"""

import argparse
import contextlib
import os
import pathlib
import sys
import time
from collections.abc import Iterator
from concurrent.futures import Executor, ThreadPoolExecutor
from typing import NoReturn

from weoldrin import LogKind, NewRecords, audit_new, print_lines, printable, processes

# So many files are one task, so that handing out takes less time than auditing.
FILES = 100


def audit_files(paths: list[str], allow_empty: bool) -> list[NewRecords]:
    """Audits some packages."""
    return [audit_new(it, LogKind.PACKAGE, allow_empty=allow_empty) for it in paths]


@contextlib.contextmanager
def dask_executor(scheduler: str) -> Iterator[Executor]:
    """The workers of a Dask cluster; `local` starts two on this machine."""
    from distributed import Client, LocalCluster

    if scheduler == "local":
        two = {"n_workers": 2, "threads_per_worker": 1, "dashboard_address": None}
        with LocalCluster(**two) as cluster, Client(cluster) as client:  # type: ignore[no-untyped-call]
            yield client.get_executor()
    else:
        with Client(scheduler) as client:  # type: ignore[no-untyped-call]
            yield client.get_executor()


def executor_of(words: argparse.Namespace) -> contextlib.AbstractContextManager[Executor]:
    """What audits the files, by the words of the command."""
    if words.dask is not None:
        return dask_executor(words.dask)
    return ThreadPoolExecutor(words.workers) if words.threads else processes(words.workers)


def folder_of(word: str) -> pathlib.Path:
    """A folder, by the word that names it."""
    folder = pathlib.Path(word).absolute()
    if not folder.is_dir():
        raise argparse.ArgumentTypeError(f"{word!r} is no folder")
    return folder


def packages_in(folder: pathlib.Path) -> list[str]:
    """The files of the packages: those that are there, and those whose state alone is left."""
    states = (str(it).removesuffix(".state") for it in folder.glob("*.hex.state"))
    return sorted({*map(str, folder.glob("*.hex")), *states})


def number_of(word: str) -> int:
    """How many workers a word says: one or more."""
    if not word.isdecimal() or len(word) > 4 or int(word) == 0:
        raise argparse.ArgumentTypeError(f"{word!r} is no number of workers")
    return int(word)


class Words(argparse.ArgumentParser):
    """Of words that can't be used a sentence is printed, whatever stands in them."""

    def error(self, message: str) -> NoReturn:
        super().error(printable(message))


def parsed() -> argparse.Namespace:
    """The words of the command."""
    parser = Words(description=__doc__, formatter_class=argparse.RawDescriptionHelpFormatter)
    parser.add_argument("folder", type=folder_of)
    parser.add_argument("--workers", type=number_of, default=os.cpu_count())
    parser.add_argument("--threads", action="store_true")
    parser.add_argument("--dask", metavar="SCHEDULER")
    parser.add_argument("--allow-empty", action="store_true", help="take packages of no records, and a folder of none")
    return parser.parse_args()


def main() -> int:
    """Runs the command."""
    words = parsed()
    paths, allowed = packages_in(words.folder), words.allow_empty
    tasks = [paths[at : at + FILES] for at in range(0, len(paths), FILES)]
    with executor_of(words) as executor:
        start = time.perf_counter()
        parts = executor.map(audit_files, tasks, [allowed] * len(tasks))
        audited = [it for part in parts for it in part]
        seconds = time.perf_counter() - start
    refused = [it for it in audited if not it.accepted]
    new = sum(it.records for it in audited)
    last = f"{len(audited) - len(refused)} of {len(audited)} packages accepted, {new} new records"
    try:
        print_lines([*map(str, refused), last])
    except OSError as error:
        print(f"registry_audit.py: standard output could not be written: {error.strerror}", file=sys.stderr)
        return 3
    if sys.stderr is not None:
        print(f"{seconds:.2f} s", file=sys.stderr)
    return 1 if refused or not (audited or allowed) else 0


if __name__ == "__main__":
    sys.exit(main())
