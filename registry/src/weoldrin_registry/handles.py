"""Logs in memory: the library's handles, kept by use, and resumed from saved states."""

from __future__ import annotations

import threading
from collections import OrderedDict
from collections.abc import Iterator
from contextlib import contextmanager

from weoldrin import Error, Log, LogKind
from weoldrin.logs import class_of

from .storage import LogRow, State, Storage, StorageError

# What a byte of a state's text, or of an envelope, may take in memory; and what each log takes beside.
_MEMORY_A_BYTE, _MEMORY_A_LOG = 4, 64 * 1024
# How many envelopes are read at once to be replayed, and of how many bytes.
_MANY, _MANY_BYTES = 1000, 4 * 1024 * 1024


class Damaged(StorageError):
    """What is stored is not what was written: the library refuses a record or a state that it took before."""


class Handle:
    """A log in memory, as it stood after its last record that this process knows. Its users hold `lock`."""

    def __init__(self, log: Log, log_id: str, state: State) -> None:
        self.lock = threading.Lock()
        self.log, self.log_id, self.count, self.saved = log, log_id, state.length, state.length
        self.head = log.head()
        self.bytes = _MEMORY_A_LOG + _MEMORY_A_BYTE * len(state.text)
        self.counted = 0
        """The part of its bytes that is in the sum over all."""
        self.is_spoiled = False
        """Whether it may not stand for the log any more. It is then used for nothing."""

    def appended(self, envelope: bytes) -> None:
        """Notes that the log has taken a record."""
        self.head = self.log.head()
        self.count += 1
        self.bytes += _MEMORY_A_BYTE * len(envelope)


class Handles:
    """The handles of those logs that were used last."""

    def __init__(self, storage: Storage, most_bytes: int, state_records: int) -> None:
        self._storage, self._most_bytes, self._state_records = storage, most_bytes, state_records
        self._guard, self._kept, self._size = threading.Lock(), OrderedDict[str, Handle](), 0

    @contextmanager
    def used(self, kind: LogKind, log_id: str) -> Iterator[Handle]:
        """The handle of a log, for the caller alone. It is of no records where the log has none."""
        while True:
            handle = self._found(kind, log_id)
            with handle.lock:
                if handle.is_spoiled:
                    continue
                yield handle
            self._count(handle)
            return

    def spoil(self, handle: Handle) -> None:
        """Has a handle used no more. Its user calls this."""
        handle.is_spoiled = True
        with self._guard:
            if self._kept.get(handle.log_id) is handle:
                del self._kept[handle.log_id]
                self._size -= handle.counted

    def go_on(self, handle: Handle, row: LogRow | None) -> None:
        """Replays the records that another process has appended, up to the row of the log. Its user calls this."""
        try:
            self._replay(handle, row.length if row else 0)
            if handle.head != (row.head if row else None):
                raise Damaged(f"the records of {handle.log_id} do not lead to its head")
        except BaseException:
            self.spoil(handle)
            raise

    def save(self, kind: LogKind, log_id: str) -> None:
        """Saves a log's state, where so many records have come since the last time that it is due.

        A greater log is saved more seldom, so that a record costs as much of a state in any log.
        """
        with self.used(kind, log_id) as handle:
            if not self._is_due(handle):
                return
            state = State(handle.count, handle.log.to_json())
            handle.saved, handle.bytes = state.length, _MEMORY_A_LOG + _MEMORY_A_BYTE * len(state.text)
        self._storage.save_state(log_id, state)

    def is_due(self, log_id: str) -> bool:
        """Whether a log's state is to be saved anew."""
        with self._guard:
            handle = self._kept.get(log_id)
        return handle is not None and self._is_due(handle)

    def size(self) -> tuple[int, int]:
        """How many handles there are, and how many bytes they may take."""
        with self._guard:
            return len(self._kept), self._size

    def _is_due(self, handle: Handle) -> bool:
        return handle.count - handle.saved >= max(self._state_records, handle.count // 16)

    def _found(self, kind: LogKind, log_id: str) -> Handle:
        with self._guard:
            handle = self._kept.get(log_id)
            if handle is not None:
                self._kept.move_to_end(log_id)
                return handle
        handle = self._resumed(kind, log_id)
        with self._guard:
            # Another thread may have been as quick.
            return self._kept.setdefault(log_id, handle)

    def _resumed(self, kind: LogKind, log_id: str) -> Handle:
        """A handle that goes on from the saved state, with the records behind it."""
        # In this order: a state that is read later may be of records that the row does not have yet.
        state = self._storage.state(log_id) or State(0, "{}")
        row = self._storage.log(log_id)
        try:
            handle = Handle(class_of(kind).from_json(state.text, state.length), log_id, state)
        except Error as error:
            raise Damaged(f"the saved state of {log_id} is none: {error}") from error
        self.go_on(handle, row)
        return handle

    def _replay(self, handle: Handle, count: int) -> None:
        while handle.count < count:
            most = min(_MANY, count - handle.count)
            envelopes = self._storage.records(handle.log_id, handle.count, most, _MANY_BYTES)
            if not envelopes:
                raise Damaged(f"{handle.log_id} has fewer records than it should")
            for it in envelopes:
                try:
                    handle.log.append(it)
                except Error as error:
                    raise Damaged(f"record {handle.count} of {handle.log_id} is refused: {error}") from error
                handle.appended(it)

    def _count(self, handle: Handle) -> None:
        """Counts what a handle has grown by, and lets go of those that were used the longest time ago, but for the last
        one, while all have too many bytes."""
        with self._guard:
            if self._kept.get(handle.log_id) is not handle:
                return
            self._size += handle.bytes - handle.counted
            handle.counted = handle.bytes
            while self._size > self._most_bytes and len(self._kept) > 1:
                self._size -= self._kept.popitem(last=False)[1].counted
