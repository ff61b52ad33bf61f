"""Logs of packages and of operators. What decides is the library; see include/warg.h."""

import ctypes
import operator
import os
import threading
from collections.abc import Callable, Iterator
from typing import Any, ClassVar, NoReturn, TypeVar

from . import _library
from ._library import CALLS, Buffer, Bytes, bytes_of, checked, text_bytes, texts
from .checkpoints import Checkpoint, words_of
from .errors import BadArgument, Busy, Forked
from .values import (
    Comparison,
    Last,
    Link,
    LogKind,
    Namespace,
    Record,
    Relation,
    Release,
    SignatureCheck,
    Verify,
    kind_of,
)

T = TypeVar("T")
# A log of one kind: the class that a call is made of.
L = TypeVar("L", bound="Log")

_NANOS = 1_000_000_000
# An error's text has so many bytes beside what it quotes of an envelope, and fewer.
_SENTENCE = 1024


def _release(text: bytes, lengths: _library.Release) -> Release:
    ends = [lengths.version_len, lengths.record_id_len, lengths.key_id_len, lengths.state_len]
    parts, at = [], 0
    for length in ends:
        parts.append(text[at : at + length].decode())
        at += length
    version, record_id, by, state = parts
    timestamp = lengths.seconds * _NANOS + lengths.nanos
    if lengths.is_yanked:
        yanked_timestamp = lengths.yanked_seconds * _NANOS + lengths.yanked_nanos
        return Release(version, record_id, by, timestamp, None, state, yanked_timestamp)
    return Release(version, record_id, by, timestamp, state, None, None)


class Log:
    """A log of either kind; make a `PackageLog` or an `OperatorLog`. It may be used by many threads: its calls wait for
    each other.

    Each call raises an `Error` where it was refused, and the log is then as it was. A log that is not closed is closed
    when it is forgotten. A handler of a signal that uses a log whose call it interrupted gets `Busy`, and a process
    that `fork` made gets `Forked` from each log that was made before.
    """

    KIND: ClassVar[LogKind]

    __slots__ = ("_buffer", "_is_called", "_lock", "_log", "_process", "__weakref__")

    def __init__(self) -> None:
        opens = CALLS["open"]
        self._log, self._buffer, self._process = _library.Log(), Buffer(), os.getpid()
        # A thread passes its own lock again, so that a handler of a signal that interrupts a call is told and not kept.
        self._lock, self._is_called = threading.RLock(), False
        checked("open", opens(self._log, self.KIND.value))

    def close(self) -> None:
        """Gives the log's memory back. Closing twice is harmless; any other call then raises `NotOpen`.

        In another process than the one that made the log it does nothing.
        """
        if os.getpid() == self._process:
            self._alone(CALLS["close"], self._log)

    def __enter__(self: L) -> L:
        return self

    def __exit__(self, *_: object) -> None:
        self.close()

    def __del__(self) -> None:
        # Where there is no library, nothing was made.
        if hasattr(self, "_is_called"):
            self.close()

    def __reduce__(self) -> NoReturn:
        raise TypeError("a log is not copied: save its state by to_json")

    # Appending

    def ask(self, envelope: Bytes) -> SignatureCheck:
        """What has to be verified before the envelope's record can be appended. Changes nothing.

        The record is lawful exactly if the signature belongs. Raises `Refused` where no signature could help.
        """
        envelope, asked = bytes_of(envelope), _library.Asked()
        text = self._said("ask", envelope, len(envelope), after=(asked,), room=len(envelope) + _SENTENCE)
        assert text is not None
        end = asked.key_len + asked.message_len
        return SignatureCheck(text[: asked.key_len].decode(), text[asked.key_len : end], text[end:].decode())

    def append_answered(self, envelope: Bytes, question: SignatureCheck, belongs: bool) -> None:
        """Appends the envelope's record by the answer to its question. The answer to any other question is refused.

        An answer is True or False and nothing else: whatever a verifier returns in their place, such as a number or a
        coroutine, is a `TypeError`, and says nothing of the signature.
        """
        if not isinstance(belongs, bool):
            raise TypeError(f"whether a signature belongs is True or False, not {belongs!r}")
        parts = text_bytes(question.key), bytes_of(question.message), text_bytes(question.signature)
        asked, text = _library.Asked(*map(len, parts)), b"".join(parts)
        envelope = bytes_of(envelope)
        room = len(envelope) + _SENTENCE
        self._said("append", envelope, len(envelope), text, len(text), asked, belongs, room=room)

    def append(self, envelope: Bytes, verify: Verify | None = None) -> None:
        """Appends the envelope's record if its signature belongs. The library verifies it, or `verify` where there is
        one.

        The library verifies ECDSA P-256. Where all of a record is lawful but its signature, and that is by a key of
        another algorithm, `UnknownAlgorithm` is raised: hand in a `verify` then.

        The log may be used by other threads while `verify` runs. If the record is no longer the next one then, it is
        refused.
        """
        envelope = bytes_of(envelope)
        if verify is None:
            self._said("append_signed", envelope, len(envelope), room=len(envelope) + _SENTENCE)
            return
        question = self.ask(envelope)
        self.append_answered(envelope, question, verify(question))

    # Records

    def head(self) -> str | None:
        """The id of the last record; none before any."""
        return self._text("head")

    def last(self) -> Last | None:
        """The time and the version of the last record, and how many there are; none before any."""
        head = _library.Head()
        if not self._done("head_of", head):
            return None
        return Last(head.seconds * _NANOS + head.nanos, head.version, head.count if head.is_counted else None)

    def __len__(self) -> int:
        """How many records there are. A resumed log does not know, and raises `BadArgument`."""
        length = ctypes.c_size_t(0)
        self._done("length", length)
        return length.value

    def __bool__(self) -> bool:
        """A log is true, also one of no records."""
        return True

    def record(self, place: int) -> Record | None:
        """The record at a place, from 0; none if the log has none there."""
        place = operator.index(place)
        if place > _library.GREATEST:
            return None
        kept = _library.Kept()
        text = self._said("record", _place(place), after=(kept,))
        return None if text is None else Record(text[: kept.envelope_len], text[kept.envelope_len :].decode())

    def records(self) -> Iterator[Record]:
        """The records in order."""
        return _by_place(self.record)

    # Keys

    def holds(self, key_id: str, permission: str) -> bool:
        """Whether a key id holds a permission. Raises `BadArgument` where logs of this kind have none of that name."""
        key_id_text, permission_text = text_bytes(key_id), text_bytes(permission)
        return self._done("holds", key_id_text, len(key_id_text), permission_text, len(permission_text))

    def permissions(self, key_id: str) -> list[str] | None:
        """The permissions that a key id holds; none if no record spoke of the key id."""
        text = self._text("permissions", key_id)
        return None if text is None else text.split()

    def public_key(self, key_id: str) -> str | None:
        """The text of a key; none if the log does not know it."""
        return self._text("key", key_id)

    def chain(self, key_id: str, permission: str) -> list[Link] | None:
        """The entries by which a key id came to hold a permission, from the first one of the log on; none if it does
        not hold it."""
        key_id_text, permission_text = text_bytes(key_id), text_bytes(permission)
        words = key_id_text, len(key_id_text), permission_text, len(permission_text)
        used, room = ctypes.c_size_t(0), 16
        while True:
            links = (_library.Link * room)()
            status = self._alone(CALLS["chain"], self._log, *words, links, room, used)
            if status != _library.TOO_SMALL:
                break
            room = used.value
        if status == _library.BAD_ARGUMENT:
            # Where logs of this kind have no such permission, this says so.
            self.holds(key_id, permission)
        if not checked("chain", status):
            return None
        return [Link(it.record_index, it.entry_index) for it in links[: used.value]]

    # Two logs, and saved states

    def compare(self: L, other: L) -> Comparison:
        """Compares the records of this log, the left one, with those of another. A resumed log has none to compare."""
        if other is self:
            len(self)
            return Comparison(Relation.SAME, 0, 0)
        if not isinstance(other, Log):
            raise TypeError(f"a log is wanted, not {type(other).__name__}")
        if other.KIND is not self.KIND:
            raise BadArgument("WrongKind: one log is of a package, and one of operators")
        found = _library.Comparison()
        first, second = sorted((self, other), key=id)
        checked("compare", first._alone(lambda: second._alone(CALLS["compare"], self._log, other._log, found)))
        return Comparison(Relation(found.case), found.left, found.right)

    def to_json(self) -> str:
        """The state as a text of JSON: all that further records are judged by and that is looked up, but no records.

        Raises `BadArgument` with the name `TimeBeforeEpoch` where a time of the state lies before 1970, which its text
        can't say.
        """
        text = self._text("save")
        if text is None:
            raise BadArgument("TimeBeforeEpoch: a time of the state lies before 1970")
        return text

    @classmethod
    def from_json(cls: type[L], saved: str, length: int | None = None) -> L:
        """A log that goes on from a saved state. It has no records: `len`, `record`, `chain` and `compare` raise
        `BadArgument`. Where the number of its records was kept beside the state, hand it in as `length`: `last` goes on
        counting from it.

        Raises `BadArgument`, with the fault's name, where the text is no saved state of this kind, or no log has that
        length.
        """
        log, text = cls(), text_bytes(saved)
        if length is None:
            log._said("resume", cls.KIND.value, text, len(text))
        else:
            log._said("resume_counted", cls.KIND.value, text, len(text), _library.number(length))
        return log

    # Calls of the library: one at a time

    def _alone(self, call: Callable[..., T], *arguments: Any) -> T:
        """Makes a call while no other one is made of this log."""
        if os.getpid() != self._process:
            raise Forked
        with self._lock:
            if self._is_called:
                raise Busy
            self._is_called = True
            try:
                return call(*arguments)
            finally:
                self._is_called = False

    def _said(self, name: str, *before: Any, after: tuple[Any, ...] = (), room: int = 0) -> bytes | None:
        return self._alone(self._buffer.filled, name, (self._log, *before), after, room)

    def _text(self, name: str, *words: str) -> str | None:
        texts = [text_bytes(it) for it in words]
        said = self._said(name, *(part for it in texts for part in (it, len(it))))
        return None if said is None else said.decode()

    def _done(self, name: str, *arguments: Any) -> bool:
        return checked(name, self._alone(CALLS[name], self._log, *arguments))


class PackageLog(Log):
    """The log of a package."""

    KIND = LogKind.PACKAGE

    __slots__ = ()

    def latest(self, requirement: str) -> Release | None:
        """The release that is not yanked, meets the requirement (as ">=1.2, <2") and has the greatest version."""
        return self._found("latest", requirement)

    def release(self, version: str) -> Release | None:
        """The release of a version, yanked or not."""
        return self._found("release", version)

    def releases(self) -> Iterator[Release]:
        """The releases in their order; those of a resumed log come first, by the bytes of their versions."""
        return _by_place(self._release_at)

    def _release_at(self, place: int) -> Release | None:
        found = _library.Release()
        text = self._said("releases", place, after=(found,))
        return None if text is None else _release(text, found)

    def _found(self, name: str, word: str) -> Release | None:
        found, text = _library.Release(), text_bytes(word)
        said = self._said(name, text, len(text), after=(found,))
        return None if said is None else _release(said, found)


class OperatorLog(Log):
    """The log of a registry's operators."""

    KIND = LogKind.OPERATOR

    __slots__ = ()

    def namespace_state(self, name: str) -> Namespace | None:
        """What a namespace is; none if the log has none of that name."""
        is_imported, text = ctypes.c_uint32(0), text_bytes(name)
        said = self._said("namespace", text, len(text), after=(is_imported,))
        if said is None:
            return None
        return Namespace(said.decode() if is_imported.value else None)

    def verify_checkpoint(self, checkpoint: Checkpoint, key_id: str, signature: str) -> bool:
        """Whether a checkpoint is signed by a key that the log lets sign: one that holds "commit".

        Raises `BadArgument` where a root is not the text of one, where a number is not from 0 to 2**64 - 1, and where
        the key may sign and the signature's text can't be read. Raises `UnknownAlgorithm` where the key may sign and
        its algorithm is not `ecdsa-p256`: verify the signature of `checkpoint.message()` by other means then.
        """
        words = [*words_of(checkpoint), *texts(key_id, signature)]
        status = self._alone(CALLS["verify_checkpoint"], self._log, *words)
        return False if status == _library.REFUSED else checked("verify_checkpoint", status)


def class_of(kind: LogKind | str) -> type[PackageLog] | type[OperatorLog]:
    """The class of the logs of a kind."""
    return PackageLog if kind_of(kind) is LogKind.PACKAGE else OperatorLog


def log_of(kind: LogKind | str) -> PackageLog | OperatorLog:
    """A log of no records, of a kind."""
    return class_of(kind)()


def log_id(kind: LogKind | str, name: str = "") -> str:
    """The id of a log, which is made of its kind and its name: a package's log has the package's, as "example:math",
    and the log of operators has none. Raises `BadArgument`, by the name `BadName`, for any other name."""
    text = Buffer().filled("log_id", (kind_of(kind).value, *texts(name)))
    assert text is not None
    return text.decode()


def record_id(kind: LogKind | str, envelope: Bytes) -> str:
    """The id of an envelope's record. The record need not be lawful. Raises `NoEnvelope`."""
    envelope = bytes_of(envelope)
    text = Buffer().filled("id", (kind_of(kind).value, envelope, len(envelope)))
    assert text is not None
    return text.decode()


def library_version() -> str:
    """The library's version."""
    text = Buffer().filled("version", ())
    assert text is not None
    return text.decode()


def _place(place: int) -> int:
    if place < 0:
        raise IndexError("places are counted from 0")
    return place


def _by_place(at: Callable[[int], T | None]) -> Iterator[T]:
    place = 0
    while (found := at(place)) is not None:
        yield found
        place += 1
