"""Audits logs that lie in files: an envelope a line, in hex, as the tool reads them."""

import binascii
import codecs
import functools
import os
from collections.abc import Iterable, Iterator
from concurrent.futures import Executor, ProcessPoolExecutor, ThreadPoolExecutor
from typing import NamedTuple

from ._files import RecordLine, record_lines
from .errors import NoEnvelope, Refused, UnknownAlgorithm
from .faults import BadLine, Empty, Fault, Missing, Unreadable
from .logs import Log, log_of
from .printing import printable
from .values import LogKind, Verify, kind_of


class RunError(NamedTuple):
    """The first record of a log that is refused: its place, from 0, and why."""

    place: int
    name: str
    sentence: str

    def __str__(self) -> str:
        return printable(f"refused {self.place} {self.name}: {self.sentence}")


class Verdict(NamedTuple):
    """What an audit found in a file."""

    path: str
    records: int
    """How many records were taken."""
    head: str | None
    """The id of the last of them."""
    error: RunError | None
    fault: Fault | None
    """What is wrong with the file itself."""

    @property
    def refusal(self) -> RunError | None:
        """The same as `error`, under the name of 0.1.0."""
        return self.error

    @property
    def accepted(self) -> bool:
        """Whether the whole log was read and each record of it is lawful."""
        return self.error is None and self.fault is None

    def __str__(self) -> str:
        """A line, as it is printed, whatever stands in the path and in the record that is refused."""
        told = self.fault or self.error or f"ok {self.records} {self.head or 'none'}"
        return f"{printable(self.path)}: {told}"


# The name of 0.1.0 for it.
Refusal = RunError


def envelope_of(place: int, line: RecordLine) -> bytes:
    """The envelope that a line says in hex, whose place among those of records is told where it says none."""
    try:
        return binascii.unhexlify(line.digits)
    except ValueError:
        is_marked = line.number == 1 and line.digits.startswith(codecs.BOM_UTF8)
        raise BadLine(place, line.number, "the file begins with a byte order mark" if is_marked else "") from None


def envelopes_of(lines: Iterable[bytes]) -> Iterator[bytes]:
    """The envelopes that lines of hex say, as the tool reads a log. Each ends with a line feed, which the last may
    lack, and a carriage return before that is dropped. Lines that begin with `#` are passed over, and so is the last
    of the others if it is blank. Raises `BadLine`."""
    return (envelope_of(place, line) for place, line in enumerate(record_lines(lines)))


def append_all(log: Log, envelopes: Iterable[bytes], verify: Verify | None = None) -> tuple[int, RunError | None]:
    """Appends envelopes until one is refused: how many were taken, and the error, whose place is counted from the
    first of them.

    Without `verify` the library verifies, and a record whose key is of another algorithm than it knows is refused as
    `UnknownAlgorithm`.
    """
    taken = 0
    for envelope in envelopes:
        try:
            log.append(envelope, verify)
        except (NoEnvelope, Refused, UnknownAlgorithm) as error:
            return taken, RunError(taken, error.name, error.sentence)
        taken += 1
    return taken, None


def with_hint(run_error: RunError, kind: LogKind, envelope: bytes) -> RunError:
    """The error of a record of a file. Where that is likely no fault of a publisher's, its sentence ends with what it
    is."""
    hint = ""
    if not envelope:
        hint = "the line is blank: only the last line of a file may be"
    elif run_error.place == 0:
        other, name = {
            LogKind.PACKAGE: (LogKind.OPERATOR, "an operator log"),
            LogKind.OPERATOR: (LogKind.PACKAGE, "a package's log"),
        }[kind]
        with log_of(other) as log:
            if append_all(log, [envelope])[1] is None:
                hint = f"it is a record of {name}: is the kind right?"
    return run_error._replace(sentence=f"{run_error.sentence}; {hint}") if hint else run_error


def fault_of(error: OSError | ValueError | MemoryError) -> Fault:
    """What the error of a read says of its file."""
    if isinstance(error, FileNotFoundError):
        return Missing()
    if isinstance(error, MemoryError):
        return Unreadable("there is no memory for it")
    return Unreadable((isinstance(error, OSError) and error.strerror) or str(error))


def audit(
    path: str | bytes | os.PathLike[str],
    kind: LogKind | str,
    verify: Verify | None = None,
    *,
    allow_empty: bool = False,
) -> Verdict:
    """Audits the log in a file, by the library's verifier or by another one. A log of no records is the fault `Empty`,
    unless that is allowed.

    What is wrong with the file is in the verdict. Raised are `ValueError` where the kind is none, and what `verify`
    raises.
    """
    named, kind = os.fsdecode(path), kind_of(kind)
    try:
        # The digits of all lines are tested before any record is judged, as `warg_audit` does.
        with open(named, "rb") as lines:
            envelopes = list(envelopes_of(lines))
    except Fault as fault:
        return Verdict(named, 0, None, None, fault)
    except (OSError, ValueError, MemoryError) as error:
        return Verdict(named, 0, None, None, fault_of(error))
    if not envelopes and not allow_empty:
        return Verdict(named, 0, None, None, Empty())
    try:
        with log_of(kind) as log:
            taken, run_error = append_all(log, envelopes, verify)
            if run_error is not None:
                run_error = with_hint(run_error, kind, envelopes[taken])
            return Verdict(named, taken, log.head(), run_error, None)
    except MemoryError as error:
        return Verdict(named, 0, None, None, fault_of(error))


def audit_many(
    paths: Iterable[str | bytes | os.PathLike[str]],
    kind: LogKind | str,
    verify: Verify | None = None,
    workers: int | None = None,
    executor: Executor | None = None,
    *,
    allow_empty: bool = False,
) -> list[Verdict]:
    """Audits the logs in many files side by side, and gives their verdicts in the order of the files. What is wrong
    with one of them is in its own verdict.

    By threads, so many as `workers`, or by an executor of your own. The library lets go of the interpreter's lock while
    it judges and verifies. A `verify` that keeps it, as `p256.verify_by_cryptography` does, gains little from threads:
    hand in `processes(workers)`, or the executor of a cluster. `verify` is then a function that stands in a module.
    """
    files = list(paths)
    job = functools.partial(audit, kind=kind_of(kind), verify=verify, allow_empty=allow_empty)
    if executor is not None:
        return list(executor.map(job, files, chunksize=max(1, min(64, len(files) // 64))))
    with ThreadPoolExecutor(workers) as threads:
        return list(threads.map(job, files))


def processes(workers: int | None = None) -> ProcessPoolExecutor:
    """Processes for `audit_many`, each with an interpreter of its own; as many as there are processors where no number
    is given."""
    return ProcessPoolExecutor(workers)
