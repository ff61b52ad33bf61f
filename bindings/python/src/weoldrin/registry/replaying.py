"""Replays many logs of a registry, in batches: each process asks for its own."""

import multiprocessing
import os
import threading
import time
from collections.abc import Iterator, Sequence
from concurrent.futures import Executor, ProcessPoolExecutor
from typing import NamedTuple

from ..errors import BadArgument
from ..logs import Log, class_of, log_id, log_of, record_id
from ..values import LogKind
from .answers import Problem, Registry
from .database import Behind
from .growing import REFUSED
from .told import BadAnswer, Told

# So many logs are asked for at once.
BATCH = 100


class Replayed(NamedTuple):
    """How far a log was replayed."""

    log_id: str
    records: int
    state: str
    fault: Told | None
    other: str | None
    """The id of the record that was served in place of the next one, if another was."""


def kind_of_log(name: str) -> LogKind:
    """The kind of the log of an id."""
    return LogKind.OPERATOR if name == log_id("operator") else LogKind.PACKAGE


class _Replay:
    """A log that is replayed."""

    def __init__(self, it: Behind) -> None:
        kind = kind_of_log(it.log_id)
        self._it, self._taken = it, 0
        self._log: Log = class_of(kind).from_json(it.state) if it.state else log_of(kind)
        self._fault: Told | None = None
        self._other: str | None = None

    @property
    def count(self) -> int:
        """How many records were replayed."""
        return self._it.records + self._taken

    @property
    def is_done(self) -> bool:
        """Whether nothing more is asked for."""
        return self._fault is not None or self._taken == len(self._it.wanted)

    def append(self, envelope: bytes) -> None:
        """Appends the record that comes next, if it is the one that the leaf names."""
        place, name, wanted = self.count, self._it.log_id, self._it.wanted[self._taken]
        try:
            served = record_id(self._log.KIND, envelope)
            if served != wanted:
                self._other = served
                why = f"record {place} of {name} is served as {served}, and its leaf names {wanted}"
                self._fault = Told("replaced record", why, subject=f"{name} {place}")
                return
            self._log.append(envelope)
        except REFUSED as error:
            why = f"record {place} of {name}: {error.name}: {error.sentence}"
            self._fault = Told("unlawful record", why, subject=f"{name} {place}")
            return
        self._taken += 1

    def result(self) -> Replayed:
        """What became of it."""
        it, name, fault = self._it, self._it.log_id, self._fault
        if not self.is_done:
            why = f"record {self.count} of {name} is not served, and its leaf names {it.wanted[self._taken]}"
            fault = Told("missing record", why, subject=f"{name} {self.count}")
        try:
            state = self._log.to_json() if self._taken else it.state
        except BadArgument:
            why = f"a time of {name} lies before 1970, which no registry takes"
            unsaid = Told("unlawful record", why, subject=f"{name} time")
            return Replayed(name, it.records, it.state, unsaid, None)
        return Replayed(name, self.count, state, fault, self._other)


def replay(registry: Registry, batch: list[Behind]) -> list[Replayed]:
    """Asks for the records of some logs that come next, and replays them."""
    replays = {it.log_id: _Replay(it) for it in batch}
    more = True
    while more:
        counts = {name: it.count for name, it in replays.items() if not it.is_done}
        if not counts:
            break
        try:
            fetched = registry.fetch(counts)
        except Problem as problem:
            if problem.name != "TooMany" or len(batch) == 1:
                raise
            half = len(batch) // 2
            return replay(registry, batch[:half]) + replay(registry, batch[half:])
        for name, envelopes in fetched.envelopes.items():
            for envelope in envelopes:
                if not replays[name].is_done:
                    replays[name].append(envelope)
        more = fetched.more
        if more and not any(fetched.envelopes.values()):
            raise BadAnswer("the answer is empty, and says that more follows")
    return [it.result() for it in replays.values()]


def _end_with(parent: int) -> None:
    """Ends this process when the one of that number, which started it, has gone: killed, that one could not say so."""

    def watch() -> None:
        while os.getppid() == parent:
            time.sleep(0.5)
        os._exit(1)

    threading.Thread(target=watch, daemon=True).start()


def _replay_at(url: str, seconds: float, batch: list[Behind]) -> "list[Replayed] | Exception":
    """The same in a process of its own. What is raised is given."""
    try:
        return replay(Registry(url, seconds), batch)
    except Exception as error:
        return error


class Replayer:
    """Replays batches of logs: by an executor, whose workers have the package, or by processes where there are
    several."""

    def __init__(self, url: str, seconds: float, workers: int, executor: Executor | None = None) -> None:
        self._url, self._seconds, self.workers, self._executor = url, seconds, workers, executor
        self._pool: ProcessPoolExecutor | None = None

    def close(self) -> None:
        """Ends the processes. An executor that was given is left to whoever made it."""
        if self._pool is not None:
            self._pool.shutdown(cancel_futures=True)

    def replay(self, batches: Sequence[list[Behind]]) -> Iterator[list[Replayed]]:
        """What became of each batch, in their order."""
        if self._executor is None and (len(batches) < 2 or self.workers < 2):
            for it in batches:
                yield replay(Registry(self._url, self._seconds), it)
            return
        count = len(batches)
        executor = self._processes() if self._executor is None else self._executor
        for found in executor.map(_replay_at, [self._url] * count, [self._seconds] * count, batches):
            if isinstance(found, Exception):
                raise found
            yield found

    def _processes(self) -> ProcessPoolExecutor:
        if self._pool is None:
            # What is spawned has none of this process's files, its lock among them.
            spawn = multiprocessing.get_context("spawn")
            self._pool = ProcessPoolExecutor(self.workers, spawn, _end_with, (os.getpid(),))
        return self._pool
