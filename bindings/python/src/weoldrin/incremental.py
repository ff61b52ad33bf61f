"""Audits what is new in a log's file since the last time, by the log's saved state, and finds that what was read before
is no longer what it was."""

import contextlib
import hashlib
import json
import os
from collections.abc import Iterable
from typing import NamedTuple

from ._files import RecordLine, held_beside, lines_of, open_regular, record_lines, replace
from .auditing import RunError, append_all, envelope_of, fault_of, with_hint
from .errors import BadArgument
from .faults import Empty, Fault, Rewritten, RolledBack, SpoiledState, Unfinished, Unsaved
from .logs import Log, class_of
from .printing import printable
from .values import LogKind, Verify, kind_of

# So many digits of a digest are kept of each line, to tell a rollback from a rewriting.
_MARK = 16


class NewRecords(NamedTuple):
    """What became of the new lines of a log's file."""

    path: str
    records: int
    """How many new records were taken."""
    length: int
    """How many records of the log were taken in all, the new ones among them."""
    head: str | None
    """The id of the last of them."""
    error: RunError | None
    """The first record that is refused, by its place in the whole log."""
    fault: Fault | None
    """What else is wrong with the file, or with its state."""

    @property
    def refusal(self) -> RunError | None:
        """The same as `error`, under the name of 0.1.0."""
        return self.error

    @property
    def accepted(self) -> bool:
        """Whether the file goes on from what was read, and each record of it is lawful."""
        return self.error is None and self.fault is None

    def __str__(self) -> str:
        """A line, as it is printed, whatever stands in the path and in the record that is refused."""
        told = self.fault or self.error or f"ok {self.length} {self.head or 'none'}"
        return f"{printable(self.path)}: {told}"


class _Read(NamedTuple):
    """What was read of a file: the state of its log, and what of the file it stands for."""

    kind: str
    bytes: int
    """Up to the end of the last line that stands for a record."""
    records: int
    sha256: str
    """The digest of those bytes."""
    marks: str
    """The first digits of the digest of the file up to the end of each line."""
    state: str | None
    """The log's state; none where a time in it lies before 1970, which it can't say."""


class _Digest:
    """The SHA-256 of a file up to a place, and a mark of it behind each further line."""

    def __init__(self, text: bytes) -> None:
        self._digest = hashlib.sha256(text)

    def sha256(self) -> str:
        """The digits of the digest."""
        return self._digest.hexdigest()

    def marks(self, lines: Iterable[bytes]) -> str:
        """Goes on by lines, and gives a mark of each."""
        found = []
        for line in lines:
            self._digest.update(line)
            found.append(self.sha256()[:_MARK])
        return "".join(found)


def _read_at(path: str, kind: LogKind) -> _Read:
    """What was kept in a file; nothing where there is no such file."""
    try:
        with open(path, encoding="ascii", opener=open_regular) as file:
            read = _Read(**json.load(file))
    except FileNotFoundError:
        return _Read(kind.name, 0, 0, _Digest(b"").sha256(), "", "{}")
    except OSError as error:
        raise SpoiledState(error.strerror or str(error)) from None
    except (ValueError, TypeError, RecursionError):
        raise SpoiledState("it is none that was kept here") from None
    if [type(it) for it in read[:-1]] != [str, int, int, str, str] or not isinstance(read.state, str | None):
        raise SpoiledState("it is none that was kept here")
    if read.kind != kind.name:
        raise SpoiledState(f"it is not that of a log of {kind.name.lower()} records")
    return read


def _text_of(path: str) -> bytes:
    """What a regular file holds."""
    try:
        with open(path, "rb", opener=open_regular) as file:
            return file.read()
    except (OSError, ValueError) as error:
        raise fault_of(error) from None


def _check_begins(text: bytes, read: _Read) -> None:
    """Raises `RolledBack` or `Rewritten` where a file does not begin with what was read of it."""
    if len(text) >= read.bytes and _Digest(text[: read.bytes]).sha256() == read.sha256:
        return
    whole = lines_of(text[: text.rfind(b"\n") + 1])
    if len(text) < read.bytes and read.marks.startswith(_Digest(b"").marks(whole)):
        raise RolledBack(read.records, sum(1 for _ in record_lines(whole)))
    raise Rewritten(read.records)


def _resumed(kind: LogKind, read: _Read, old: list[RecordLine], verify: Verify | None) -> Log:
    """The log of what was read. One whose state could not be kept is audited from its first record."""
    if (old[-1].end if old else 0, len(old)) != (read.bytes, read.records):
        raise SpoiledState("it is not that of this file")
    if read.state is not None:
        try:
            return class_of(kind).from_json(read.state)
        except ValueError as error:
            raise SpoiledState(str(error)) from None
    log = class_of(kind)()
    if append_all(log, (envelope_of(*it) for it in enumerate(old)), verify)[1] is not None:
        raise SpoiledState("it is not that of this file")
    return log


def _state_of(log: Log) -> str | None:
    """The state of a log, where its times can be said."""
    try:
        return log.to_json()
    except BadArgument:
        return None


def _held(path: str, held: contextlib.ExitStack) -> int:
    """The file beside that of the state of a log, which is held until the end."""
    try:
        return held.enter_context(held_beside(f"{path}.state"))
    except (FileNotFoundError, ValueError) as error:
        raise fault_of(error) from None
    except OSError as error:
        raise Unsaved(error.strerror) from None


def _audited(path: str, kind: LogKind, verify: Verify | None, allows_empty: bool, beside: int) -> NewRecords:
    """Audits the new lines of a file, whose state is written by way of a file that is held beside it."""
    read, text = _read_at(f"{path}.state", kind), _text_of(path)
    _check_begins(text, read)
    lines = lines_of(text[: text.rfind(b"\n") + 1])
    found = list(record_lines(lines))
    old, new = found[: read.records], found[read.records :]
    with _resumed(kind, read, old, verify) as log:
        envelopes = [envelope_of(place, line) for place, line in enumerate(new, read.records)]
        taken, run_error = append_all(log, envelopes, verify)
        length, head = read.records + taken, log.head()
        if run_error is not None:
            moved = run_error._replace(place=read.records + run_error.place)
            return NewRecords(path, taken, length, head, with_hint(moved, kind, envelopes[taken]), None)
        fault: Fault | None = None if length or allows_empty else Empty()
        if not text.endswith(b"\n") and text:
            fault = Unfinished(len(lines) + 1)
        if new:
            digest = _Digest(text[: read.bytes])
            marks = digest.marks(lines[old[-1].number if old else 0 : new[-1].number])
            kept = _Read(kind.name, new[-1].end, length, digest.sha256(), read.marks + marks, _state_of(log))
            try:
                replace(f"{path}.state", beside, json.dumps(kept._asdict()).encode())
            except OSError as error:
                fault = Unsaved(error.strerror or str(error))
    return NewRecords(path, taken, length, head, None, fault)


def audit_new(
    path: str | bytes | os.PathLike[str],
    kind: LogKind | str,
    verify: Verify | None = None,
    *,
    allow_empty: bool = False,
) -> NewRecords:
    """Audits the lines of a log's file that came since it was audited last, and keeps in PATH.state how much of the
    file was read, its digest, and the log's state behind it. Signatures are verified as by `audit`.

    A file that no longer begins with what was read is the fault `RolledBack`, where it is shorter and holds nothing
    else, or `Rewritten`. What is kept changes only if all new lines were taken. It is as trustworthy as the folder
    that it lies in, and one audit of a file waits for another. An unfinished last line is the fault `Unfinished`, and
    is left for the next time; what came before it is kept. A log of no records is the fault `Empty`, unless that is
    allowed.

    Whatever is wrong with the file or its state is in what is given. Raised are `ValueError` where the kind is none,
    and what `verify` raises.
    """
    named, kind = os.fsdecode(path), kind_of(kind)
    try:
        with contextlib.ExitStack() as held:
            found = _audited(named, kind, verify, allow_empty, _held(named, held))
        return found
    except Fault as fault:
        return NewRecords(named, 0, 0, None, None, fault)
    except MemoryError as error:
        return NewRecords(named, 0, 0, None, None, fault_of(error))
