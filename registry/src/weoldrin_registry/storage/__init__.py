"""Where logs are kept: what each engine does, and what it fails of."""

from __future__ import annotations

from collections.abc import Callable
from typing import NamedTuple, Protocol

# The names of the kinds of logs, as they are stored.
PACKAGE, OPERATOR = "package", "operator"


class LogRow(NamedTuple):
    """A log, as it stands. A log has one record at least."""

    log_id: str
    kind: str
    name: str
    head: str
    head_time: int
    """The time of the last record, in nanoseconds since 1970."""
    length: int
    """How many records it has."""


class NewRecord(NamedTuple):
    """A record that is to be the next one of its log."""

    log_id: str
    kind: str
    name: str
    head: str | None
    """The head that it goes on from."""
    place: int
    """Its place: how many records the log has before it."""
    record_id: str
    time: int
    founder: str
    """The id of the key that signed it, which counts where it begins its log."""
    envelope: bytes


class Place(NamedTuple):
    """Where a record stands: in its log, and its leaf in the registry's log."""

    place: int
    leaf: int


class State(NamedTuple):
    """The saved state of a log after so many records."""

    length: int
    text: str


class Overtaken(Exception):
    """Another writer was first."""


class StorageError(Exception):
    """The storage failed. Nothing is known of a record that was to be kept."""


class DiskFull(StorageError):
    """There is no room, or it can't be written."""


class Locked(StorageError):
    """Another writer has the lock, and kept it for too long."""


class Unreachable(StorageError):
    """The database does not answer, or went away meanwhile."""


class Storage(Protocol):
    """The logs, the leaves of the registry's log, and the checkpoints, for many threads and processes at once.

    What `append` and `add_checkpoint` have returned from is on the disk. Each call raises a `StorageError` where the
    storage fails, and has then done nothing, or all.
    """

    def close(self) -> None:
        """Gives up the connections. No call may follow."""

    def log(self, log_id: str) -> LogRow | None:
        """A log; none where it has no records."""

    def logs(self, log_ids: list[str]) -> dict[str, LogRow]:
        """Those logs of these ids that have records."""

    def names(self, prefix: str, after: str, most: int) -> list[LogRow]:
        """The packages whose names begin so and stand behind `after`, by the bytes of their names."""

    def founded(self, key_id: str) -> int:
        """How many logs a key has begun."""

    def records(self, log_id: str, start: int, most: int, most_bytes: int) -> list[bytes]:
        """The envelopes of a log from a place on: at most so many, of so many bytes together, but one at least where
        there is one."""

    def place(self, log_id: str, record_id: str) -> Place | None:
        """Where a record stands in a log; none if it does not."""

    def append(self, new: NewRecord, judge: Callable[[], None]) -> int:
        """Appends a record and its leaf, in one transaction, and gives the leaf's index.

        Raises `Overtaken` where the log does not end as the record says. Else `judge` is asked; where it raises,
        nothing is kept.
        """

    def state(self, log_id: str) -> State | None:
        """The saved state of a log; none where none was saved."""

    def save_state(self, log_id: str, state: State) -> None:
        """Keeps a state, unless a later one is kept."""

    def length(self) -> int:
        """How many leaves the registry's log has."""

    def leaves(self, start: int, most: int) -> list[tuple[str, str]]:
        """The leaves from an index on, each a log's id and a record's."""

    def checkpoint(self, length: int) -> str | None:
        """The first checkpoint of a length."""

    def renewed(self, length: int) -> str | None:
        """The checkpoint of a length, as it was signed the last time."""

    def newest(self) -> str | None:
        """The newest checkpoint: of the greatest length, as it was signed the last time."""

    def add_checkpoint(self, text: str, length: int, before: str | None) -> None:
        """Keeps a checkpoint that is the newest from then on. Where there is one of this length, it is kept beside the
        first one. Raises `Overtaken` where `before` is not the newest."""
