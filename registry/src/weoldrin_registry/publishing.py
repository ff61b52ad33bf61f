"""Publishes records: what is refused, and what is kept."""

from __future__ import annotations

from http import HTTPStatus
from typing import NamedTuple

from weoldrin import (
    BadArgument,
    LogKind,
    NoEnvelope,
    OutOfMemory,
    Refused,
    SignatureCheck,
    UnknownAlgorithm,
    log_id,
    record_id,
    verify,
)

from . import envelopes
from .advice import advice_on
from .handles import Handle, Handles
from .problems import Problem, bad_request, not_found, unavailable
from .settings import Settings
from .storage import OPERATOR, PACKAGE, LogRow, NewRecord, Overtaken, Storage

_LONGEST_NAME = 128
_SECOND = 1_000_000_000
# Offences of a record that goes on from another record than the log's last one.
_LINKS = {"RecordHashDoesNotMatch", "NoPreviousHashAfterInit", "PreviousHashOnFirstRecord"}
# How often a record is judged anew, where another process has appended one.
_TRIALS = 8


class LogName(NamedTuple):
    """Which log is meant."""

    kind: LogKind
    name: str
    log_id: str


class Published(NamedTuple):
    """A record that stands."""

    record_id: str
    log_id: str
    place: int
    leaf: int

    def members(self) -> dict[str, object]:
        """Its members of JSON."""
        return {
            "recordId": self.record_id,
            "logId": self.log_id,
            "place": self.place,
            "registryIndex": self.leaf,
        }


def log_name(kind: LogKind, name: str = "") -> LogName:
    """The log of a package, or that of the operators. Raises a `Problem` where the name is no package's."""
    if len(name) > _LONGEST_NAME:
        raise bad_request("BadName", f"a package's name has at most {_LONGEST_NAME} characters")
    try:
        return LogName(kind, name, log_id(kind, name))
    except BadArgument as error:
        raise bad_request("BadName", error.sentence) from None


def refusal(name: str, sentence: str, kind: LogKind) -> Problem:
    """What a record is refused for."""
    return Problem(HTTPStatus.UNPROCESSABLE_ENTITY, name, sentence, advice=advice_on(name, kind))


class Publisher:
    """Appends records to logs."""

    def __init__(self, storage: Storage, handles: Handles, settings: Settings, operator_key_id: str) -> None:
        self._storage, self._handles, self._settings = storage, handles, settings
        self._operator_key_id = operator_key_id

    def publish(self, log: LogName, envelope: bytes, now: float) -> Published:
        """Appends the record of an envelope, which is on the disk then. Raises a `Problem` where it is refused."""
        try:
            for _ in range(_TRIALS):
                try:
                    return self._tried(log, envelope, now)
                except Overtaken:
                    # Whether the record still is the next one, the log says.
                    continue
            raise unavailable("Busy", "other writers were first each time")
        except (NoEnvelope, Refused, UnknownAlgorithm) as error:
            if error.name in _LINKS:
                raise self._not_next(log, envelope) from None
            raise refusal(error.name, error.sentence, log.kind) from None
        except OutOfMemory:
            raise unavailable("OutOfMemory", "there is no memory for this record now") from None

    def _tried(self, log: LogName, envelope: bytes, now: float) -> Published:
        question, row = self._asked(log, envelope)
        facts = envelopes.facts(envelope)
        self._check_policy(log, facts, row is None, now)
        # No lock is held: a signature takes its time.
        belongs = verify(*question)
        with self._handles.used(log.kind, log.log_id) as handle:
            # By an answer that says no, the library says what is wrong.
            if not belongs:
                handle.log.append_answered(envelope, question, False)
                raise AssertionError("the library took a record whose signature does not belong")
            return self._appended(log, handle, question, envelope, facts)

    def _asked(self, log: LogName, envelope: bytes) -> tuple[SignatureCheck, LogRow | None]:
        """What has to be verified before the record can be appended, and the log as it then stands."""
        with self._handles.used(log.kind, log.log_id) as handle:
            row = self._storage.log(log.log_id)
            if (handle.count, handle.head) != ((row.length, row.head) if row else (0, None)):
                self._handles.go_on(handle, row)
            return handle.log.ask(envelope), row

    def _appended(
        self, log: LogName, handle: Handle, question: SignatureCheck, envelope: bytes, facts: envelopes.Facts
    ) -> Published:
        """Appends the record to the log in memory and to the stored one: to both, or the handle is used no more."""
        new_id = record_id(log.kind, envelope)
        kind = OPERATOR if log.kind is LogKind.OPERATOR else PACKAGE
        place = handle.count
        new = NewRecord(
            log.log_id, kind, log.name, handle.head, place, new_id, facts.time, facts.key_id, envelope
        )
        is_taken = False

        def judge() -> None:
            nonlocal is_taken
            handle.log.append_answered(envelope, question, True)
            is_taken = True

        try:
            leaf = self._storage.append(new, judge)
        except BaseException:
            if is_taken:
                self._handles.spoil(handle)
            raise
        handle.appended(envelope)
        return Published(new_id, log.log_id, place, leaf)

    def _check_policy(self, log: LogName, facts: envelopes.Facts, is_first: bool, now: float) -> None:
        """What the registry asks of a record beside the protocol."""
        if facts.time < 0:
            raise refusal("TimeBeforeEpoch", "the record's time lies before 1970", log.kind)
        if facts.time > (int(now) + self._settings.ahead_seconds) * _SECOND:
            sentence = f"the record's time is more than {self._settings.ahead_seconds} s ahead of the registry's clock"
            raise refusal("TimeAhead", sentence, log.kind)
        if not is_first:
            return
        if facts.version != 1:
            raise refusal("OldVersion", "a log begins with a record of version 1", log.kind)
        if log.kind is LogKind.OPERATOR:
            if facts.key_id != self._operator_key_id:
                raise Problem(HTTPStatus.FORBIDDEN, "NotOperator", "this key may not begin the operator log")
        elif self._storage.founded(facts.key_id) >= self._settings.logs_per_key:
            sentence = f"a key begins at most {self._settings.logs_per_key} logs, and this one has"
            raise Problem(HTTPStatus.TOO_MANY_REQUESTS, "TooManyLogs", sentence)

    def _not_next(self, log: LogName, envelope: bytes) -> Problem:
        """That the record does not go on from the log's head, and what does stand."""
        row = self._storage.log(log.log_id)
        members: dict[str, object] = {"head": None, "headTime": None, "count": 0}
        if row is not None:
            members = {"head": row.head, "headTime": envelopes.time_text(row.head_time), "count": row.length}
        sent = record_id(log.kind, envelope)
        standing = self._storage.place(log.log_id, sent)
        if standing is not None:
            members["published"] = Published(sent, log.log_id, *standing).members()
        return Problem(HTTPStatus.CONFLICT, "NotNext", "the record does not go on from the log's head", **members)


def no_log() -> Problem:
    """That a log has no records."""
    return not_found("NoLog", "there is no such log")
