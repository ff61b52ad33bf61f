"""The trees of a registry, for who keeps one: the log of all leaves, and the map of the last records of logs. What
makes their roots and proofs is the library; see include/warg.h."""

from __future__ import annotations

import ctypes
import functools
import operator
import re
import weakref
from collections.abc import Iterable
from typing import Any, NamedTuple, NoReturn

from . import _library
from ._library import CALLS, GREATEST, NO_ID, Buffer, Bytes, bytes_of, checked, texts
from ._own_thread import OwnThread
from .checkpoints import Checkpoint
from .errors import BadArgument

_ID = re.compile("sha256:([0-9a-fA-F]{64})")


class LogHead(NamedTuple):
    """The last record of a log under the root of a map, and the proof of it."""

    record_id: str | None
    """None where the log has no leaf."""
    proof: str
    """As `verify_presence` takes it, or `verify_absence` where there is no record."""


def saved_leaves(leaves: Iterable[tuple[str, str]]) -> bytes:
    """The bytes of leaves, each a log's id and a record's, as `RegistryTrees.to_bytes` gives those of its own. Raises
    `BadArgument` where a text is none of an id."""
    digits = []
    for log_id, record_id in leaves:
        for text in (log_id, record_id):
            found = _ID.fullmatch(text)
            if found is None:
                raise BadArgument(NO_ID)
            digits.append(found[1])
    return bytes.fromhex("".join(digits))


class _Handle:
    """The library's registry. All that touches it is done by one thread."""

    def __init__(self) -> None:
        self._registry, self._buffer = _library.Registry(), Buffer()

    def open(self) -> None:
        """Begins a registry of no leaves."""
        checked("registry_open", CALLS["registry_open"](self._registry))

    def resume(self, saved: bytes) -> None:
        """Begins a registry of leaves that were saved, in place of the one that is open."""
        checked("registry_resume", CALLS["registry_resume"](self._registry, saved, len(saved)))

    def save(self) -> bytes:
        """The leaves."""
        saved = Buffer().filled("registry_save", (self._registry,), room=64 * self.length())
        assert saved is not None
        return saved

    def close(self) -> None:
        """Gives its memory back."""
        CALLS["registry_close"](self._registry)

    def length(self) -> int:
        """How many leaves there are."""
        length = ctypes.c_uint64(0)
        checked("registry_length", CALLS["registry_length"](self._registry, length))
        return length.value

    def push(self, leaves: Iterable[list[bytes | int]]) -> int:
        """Pushes leaves, and gives the place of the last of them."""
        call, place = CALLS["registry_push"], ctypes.c_uint64(0)
        for it in leaves:
            checked("registry_push", call(self._registry, *it, place))
        return place.value

    def push_all(self, leaves: Iterable[list[bytes | int]]) -> int:
        """Pushes leaves, and gives how many there are then."""
        self.push(leaves)
        return self.length()

    def said(self, name: str, *before: Any, after: tuple[Any, ...] = ()) -> str | None:
        """The text that a call of this name writes; none where it says that there is none."""
        text = self._buffer.filled(name, (self._registry, *before), after)
        return None if text is None else text.decode()

    def roots(self) -> tuple[str, str]:
        """The roots of the log and of the map."""
        lengths = _library.Roots()
        text = self.said("registry_roots", after=(lengths,))
        assert text is not None
        return text[: lengths.log_root_len], text[lengths.log_root_len :]

    def checkpoint(self, timestamp: int) -> Checkpoint:
        """What a checkpoint says at a time."""
        log_root, map_root = self.roots()
        return Checkpoint(log_root, self.length(), map_root, timestamp)

    def head(self, *log_id: bytes | int) -> LogHead:
        """The last record of a log."""
        lengths = _library.LogHead()
        text = self.said("registry_head", *log_id, after=(lengths,))
        assert text is not None
        return LogHead(text[: lengths.record_id_len] or None, text[lengths.record_id_len :])


class RegistryTrees:
    """The log of a registry's leaves and the map from logs to their last records, of no leaves at first.

    Roots are texts of hashes, ids are texts of ids, proofs are texts of base64. Each proof is one that
    `verify_inclusion`, `verify_consistency`, `verify_presence` or `verify_absence` takes under the roots and the length
    of the moment. Whether a record may come next is for its log to say.

    It may be used by many threads, and by handlers of signals. The library's registry stays on a thread of its own,
    which makes all calls one after another: so many leaves are pushed best by one `push_all`. Each call raises an
    `Error` where it was refused, and the trees are then as they were. What ends a call from outside, as a
    `KeyboardInterrupt` does, ends the waiting for it: the call itself is made all the same.

    Trees that are not closed are closed when they are forgotten. A process that `fork` made gets `Forked` from those
    that were made before.
    """

    __slots__ = ("_finalizer", "_handle", "_own", "__weakref__")

    def __init__(self) -> None:
        self._handle, self._own = _Handle(), OwnThread("weoldrin registry")
        self._finalizer = weakref.finalize(self, self._own.end, self._handle.close)
        # When the interpreter ends they serve until the last: nothing is lost with them.
        self._finalizer.atexit = False
        self._own.made(self._handle.open)

    @classmethod
    def from_bytes(cls, saved: Bytes) -> RegistryTrees:
        """Trees of the leaves that `to_bytes` gave, or of the first of them, made anew: this costs less than to push
        them, since the map is made of the last record of each log alone.

        Raises `BadArgument`, by the name `BadLength`, where the bytes are no multiple of 64.
        """
        leaves, trees = bytes_of(saved), cls()
        trees._own.made(functools.partial(trees._handle.resume, leaves))
        return trees

    def close(self) -> None:
        """Gives the memory of the trees back. Closing twice is harmless; any other call then raises `NotOpen`.

        In another process than the one that made them it does nothing.
        """
        self._finalizer()
        self._own.join()

    def __enter__(self) -> RegistryTrees:
        return self

    def __exit__(self, *_: object) -> None:
        self.close()

    def __reduce__(self) -> NoReturn:
        raise TypeError("trees are not copied: save their leaves by to_bytes")

    # Leaves

    def push(self, log_id: str, record_id: str) -> int:
        """Appends the leaf of a log's record, which is the last one of its log from then on, and gives the leaf's
        place, from 0. Raises `BadArgument` where a text is none of an id."""
        return self._own.made(functools.partial(self._handle.push, [texts(log_id, record_id)]))

    def push_all(self, leaves: Iterable[tuple[str, str]]) -> int:
        """Appends leaves, each a log's id and a record's, with none of another thread between them, and gives how many
        there are then. Where one is refused, those before it stay."""
        passed = [texts(log_id, record_id) for log_id, record_id in leaves]
        return self._own.made(functools.partial(self._handle.push_all, passed))

    def to_bytes(self) -> bytes:
        """The leaves, as `from_bytes` takes them: 64 bytes for each, in the order in which they were pushed, the 32 of
        its log's id and the 32 of its record's. So who keeps them may as well append the `saved_leaves` of each
        push."""
        return self._own.made(self._handle.save)

    def __len__(self) -> int:
        """How many leaves there are."""
        return self._own.made(self._handle.length)

    def __bool__(self) -> bool:
        """Trees are true, also those of no leaves."""
        return True

    # Roots

    def log_root(self) -> str:
        """The root of the log."""
        return self._own.made(self._handle.roots)[0]

    def map_root(self) -> str:
        """The root of the map."""
        return self._own.made(self._handle.roots)[1]

    def checkpoint(self, timestamp: int) -> Checkpoint:
        """What a registry signs of its trees: their roots and the length, and a time in whole seconds since 1970."""
        return self._own.made(functools.partial(self._handle.checkpoint, timestamp))

    # Proofs

    def inclusion(self, place: int) -> str:
        """The proof that the leaf at a place is in the log. Raises `IndexError` where there is none."""
        proof = self._proof("registry_inclusion", place)
        if proof is None:
            raise IndexError(f"there is no leaf at place {place}")
        return proof

    def consistency(self, first_length: int) -> str:
        """The proof that the log begins with its first leaves. Raises `IndexError` where there are not that many."""
        proof = self._proof("registry_consistency", first_length)
        if proof is None:
            raise IndexError(f"the log has no beginning of {first_length} leaves")
        return proof

    def head(self, log_id: str) -> LogHead:
        """The last record of a log, none where it has none, and the proof of that. Raises `BadArgument` where the text
        is none of an id."""
        return self._own.made(functools.partial(self._handle.head, *texts(log_id)))

    def _proof(self, name: str, number: int) -> str | None:
        """What a call gives of a number; none also where no call takes the number."""
        number = operator.index(number)
        if not 0 <= number <= GREATEST:
            number = GREATEST
        return self._own.made(functools.partial(self._handle.said, name, number))
