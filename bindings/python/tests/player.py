"""Plays the scripts of conformance/ that speak of whole logs, through the package."""

import contextlib
import hashlib
import json
import re
from collections import Counter
from collections.abc import Iterator
from typing import Any

from weoldrin import (
    BadArgument,
    Error,
    Log,
    LogKind,
    NoEnvelope,
    OperatorLog,
    PackageLog,
    Refused,
    Relation,
    Release,
    log_of,
    record_id,
    records,
)

from . import toy
from .rows import Block, Line, json_written, quoted, row_of, text_of
from .sentences import Sentences, words_of

PEOPLE = ["alice", "bob", "carol", "mallory"]
_IDS = {name: records.key_id(toy.key_of(name)) for name in PEOPLE}
_OWNERS = {id_: name for name, id_ in _IDS.items()}
_NANOS = 1_000_000_000


class LeftOut(Exception):
    """A question that the library's calls do not answer, and why."""


def id_of(name: str) -> str:
    """The id of a person's key; another name is an id itself."""
    return _IDS.get(name, name)


def owner(key_id: str) -> str:
    """Whose key an id names."""
    return _OWNERS.get(key_id, key_id)


def _time(timestamp: int) -> str:
    seconds, nanos = divmod(timestamp, _NANOS)
    return f"{seconds}.{nanos}"


def _entry(kind: LogKind, text: str) -> bytes:
    verb, subject, rest = (*text.split(" ", 2), "", "")[:3]
    match verb:
        case "init":
            return records.init(toy.key_of(subject))
        case "grant":
            return records.grant(kind, toy.key_of(subject), rest.split())
        case "revoke":
            return records.revoke(kind, id_of(subject), rest.split())
        case "release":
            return records.release(subject, records.sha256_text(text_of(rest.strip()).encode()))
        case "yank":
            return records.yank(subject)
        case "define":
            return records.define_namespace(text_of(subject))
        case "import":
            return records.import_namespace(text_of(subject), text_of(rest))
    raise ValueError(f"a strange entry: {text}")


def envelope_of(kind: LogKind, text: str, prev: str | None) -> bytes:
    """The envelope that a line says, in a log whose last record has the id `prev`."""
    if ":" not in text:
        return bytes.fromhex(text)
    head, _, entries = text.partition(":")
    signer, time, *turns = head.split()
    version = 0
    for turn in turns:
        if turn == "unlinked":
            prev = None
        elif turn == "mislinked":
            prev = f"sha256:{hashlib.sha256(b'another record').hexdigest()}"
        else:
            version = 1 if turn == "next" else int(turn.removeprefix("v"))
    seconds, _, nanos = time.partition(".")
    parts = [_entry(kind, it.strip()) for it in entries.split(",") if it.strip()]
    contents = records.contents(prev, int(seconds) * _NANOS + int(nanos), parts, version)
    return records.signed(kind, contents, toy.key_of(signer), lambda message: toy.sign(signer, message))


def append(log: Log, envelope: bytes) -> Error | None:
    """Appends an envelope, or says why it was refused."""
    try:
        log.append(envelope, toy.verify)
    except (NoEnvelope, Refused) as error:
        return error
    return None


def answers(error: Error, wanted: str, sentences: Sentences, kind: LogKind) -> bool:
    """Whether an error is the cause that a row wants: its name, and the whole sentence."""
    case, *fields = words_of(wanted)
    if case == "Parse":
        (name,) = fields
        # The sentence says which part of the envelope is wrong.
        told = sentences.case_of_envelope(name)
        is_told = error.sentence != "" if told is None else sentences.is_told("envelope", told, [], error.sentence)
        return isinstance(error, NoEnvelope) and error.name == name and is_told
    is_told = sentences.is_told(kind.name.lower(), case, [id_of(it) for it in fields], error.sentence)
    return isinstance(error, Refused) and error.name == case and is_told


class Player:
    """A script on the way: a log that keeps its records, the state, which may have been saved and read back, and what
    was put aside."""

    def __init__(self, kind: LogKind, sentences: Sentences) -> None:
        self.kind, self.sentences = kind, sentences
        self.failures: list[str] = []
        self.rows = 0
        self.left_out: Counter[str] = Counter()
        self.aside: tuple[Log | None, Log] | None = None
        self.error: tuple[Line, Error] | None = None
        self._begin()

    def _begin(self) -> None:
        self.kept: Log | None = log_of(self.kind)
        self.state: Log = log_of(self.kind)
        self.base: str | None = None
        self.strings: list[bytes] = []

    def play(self, script: Block) -> None:
        """Plays all lines."""
        for line in script.lines:
            self._play(line)
        self._unnamed()
        self._check_again()

    def _fail(self, line: Line, seen: object) -> None:
        self.failures.append(f"line {line.number}: {line.text}: seen {seen}")

    def _play(self, line: Line) -> None:
        text = line.text
        if text.startswith("! "):
            self.rows += 1
            run_error, self.error = self.error, None
            if run_error is None or not answers(run_error[1], text[2:], self.sentences, self.kind):
                self._fail(line, run_error)
            return
        self._unnamed()
        if text.startswith("? "):
            self._ask(line)
        elif text == "resume":
            self.state = self._copy()
        elif text == "aside":
            self._check_again()
            self.aside = (self.kept, self.state)
            self._begin()
        elif text.startswith("state "):
            self._begin()
            self.kept, self.base = None, text.removeprefix("state ")
            self.state = type(self.state).from_json(self.base)
        elif text == "again":
            self._append(line, self.strings[-1])
        else:
            self._append(line, envelope_of(self.kind, text, self.state.head()))

    def _copy(self) -> Log:
        return type(self.state).from_json(self.state.to_json())

    def _append(self, line: Line, envelope: bytes) -> None:
        """Appends to each log that there is: to a saved copy, to the one with records, and to the state."""
        logs = [it for it in (self.kept,) if it is not None]
        with contextlib.suppress(BadArgument):
            logs.append(self._copy())
        error = append(self.state, envelope)
        for log in logs:
            head, other = log.head(), append(log, envelope)
            if str(other) != str(error) or (error is not None and log.head() != head):
                self._fail(line, f"answered otherwise by another log: {other!r}, {error!r}")
            if error is None and log.head() != self.state.head():
                self._fail(line, "another head")
        if error is None:
            self.strings.append(envelope)
            if self.state.head() != record_id(self.kind, envelope):
                self._fail(line, "the head is not the record's id")
        else:
            self.error = (line, error)

    def _unnamed(self) -> None:
        if self.error is not None:
            line, error = self.error
            self.error = None
            self._fail(line, error)

    def _check_again(self) -> None:
        """The strings that were taken give an equal state from the beginning."""
        again = log_of(self.kind) if self.base is None else type(self.state).from_json(self.base)
        with contextlib.suppress(BadArgument):
            for envelope in self.strings:
                again.append(envelope, toy.verify)
            if json.loads(again.to_json()) != json.loads(self.state.to_json()):
                self.failures.append("the strings give another state")

    def _ask(self, line: Line) -> None:
        question, wanted = row_of(line.text.removeprefix("? "))
        try:
            seen = f"= {self._answer(question)}"
        except LeftOut as why:
            self.left_out[str(why)] += 1
            return
        except BadArgument as error:
            if error.name == "TimeBeforeEpoch" and question == "head time":
                self.left_out["a head's time before 1970: only the saved state says the time, and not such a one"] += 1
                return
            seen = f"! {error.name}"
        self.rows += 1
        look_up = question.partition(" ")[0]
        if look_up in ("keys", "namespaces", "permissions") and _unordered(seen) == _unordered(wanted):
            # The names come from the saved state, which has them by their bytes, and permissions in the order of their
            # kind.
            return
        if seen != wanted:
            self._fail(line, seen)

    def _answer(self, question: str) -> str:
        look_up, subject, rest = (*question.split(" ", 2), "", "")[:3]
        match look_up:
            case "effect":
                raise LeftOut("what one entry gives or takes: no call says it")
            case "records":
                return str(len(self._kept()))
            case "chain":
                links = self._kept().chain(id_of(subject), rest)
                return "none" if links is None else " ".join(f"{it.record}.{it.entry}" for it in links)
            case "comparison" | "heads":
                return self._compared(look_up)
            case "equal":
                assert self.aside is not None
                return str(json.loads(self.state.to_json()) == json.loads(self.aside[1].to_json())).lower()
        return state_answer(self.state, look_up, subject)

    def _kept(self) -> Log:
        assert self.kept is not None
        return self.kept

    def _compared(self, look_up: str) -> str:
        assert self.aside is not None and self.aside[0] is not None
        found = self._kept().compare(self.aside[0])
        if look_up == "heads":
            if self._kept().head() != self.aside[0].head():
                return "different"
            return "collision" if found.relation is Relation.COLLISION else "same"
        name = found.relation.name.lower().replace("_", "-")
        places = [found.left, found.right][: {Relation.SAME: 0, Relation.COLLISION: 2}.get(found.relation, 1)]
        return " ".join([name, *map(str, places)])


def _unordered(answer: str) -> list[str]:
    """The names of a list and what is said of each, in any order."""
    return sorted(re.sub(" defined| imported from ", "=", answer).split())


def state_answer(log: Log, look_up: str, subject: str) -> str:
    """What a log answers of its state."""
    match look_up:
        case "head" if subject == "digest":
            return log.head() or "none"
        case "head":
            return _head(json.loads(log.to_json()).get("head"), subject)
        case "head-json":
            head = json.loads(log.to_json()).get("head")
            return "none" if head is None else json_written(head)
        case "key":
            return log.public_key(id_of(subject)) or "none"
        case "permissions":
            held = log.permissions(id_of(subject))
            return "none" if held is None else " ".join(["only", *held])
        case "keys":
            names = json.loads(log.to_json()).get("keys", {})
            return " ".join(["only", *("+".join([owner(it), *(log.permissions(it) or [])]) for it in names)])
        case "saved" if subject:
            return json_written(json.loads(log.to_json())["permissions"][id_of(subject)])
        case "saved":
            return json_written(json.loads(log.to_json()))
    if isinstance(log, PackageLog):
        return _package_answer(log, look_up, subject)
    return _operator_answer(log, look_up, subject)


def _head(head: dict[str, Any] | None, subject: str) -> str:
    if head is None:
        return "none"
    return str(head.get("version", 0)) if subject == "version" else str(head["timestamp"])


def _deed(key_id: str, timestamp: int) -> str:
    return f"by {owner(key_id)} at {_time(timestamp)}"


def _release(release: Release | None, look_up: str) -> str:
    if release is None:
        return "none"
    if look_up == "record":
        return release.record_id
    if look_up == "content":
        return release.content or "none"
    told = _deed(release.by, release.timestamp)
    if release.yanked_by is None or release.yanked_timestamp is None:
        return told
    return f"{told}, yanked {_deed(release.yanked_by, release.yanked_timestamp)}"


def _package_answer(log: PackageLog, look_up: str, subject: str) -> str:
    match look_up:
        case "releases":
            return " ".join(["only", *(it.version for it in log.releases())])
        case "latest":
            found = log.latest(subject)
            return "none" if found is None else found.version
        case "release" | "record" | "content":
            return _release(log.release(subject), look_up)
    raise ValueError(f"a strange question: {look_up}")


def _operator_answer(log: Log, look_up: str, subject: str) -> str:
    assert isinstance(log, OperatorLog)
    match look_up:
        case "signs":
            return str(log.holds(id_of(subject), "commit")).lower()
        case "namespace":
            return _namespace(log, text_of(subject))
        case "namespaces":
            names = json.loads(log.to_json()).get("namespaces", {})
            return " ".join(["only", *(f"{quoted(it)} {_namespace(log, it)}" for it in names)])
    raise ValueError(f"a strange question: {look_up}")


def _namespace(log: OperatorLog, name: str) -> str:
    state = log.namespace_state(name)
    if state is None:
        return "none"
    return "defined" if state.imported_from is None else f"imported from {state.imported_from}"


def run_envelopes(kind: LogKind, lines: list[str]) -> Iterator[bytes]:
    """The envelopes of a run: a record names the one before it, whether that is lawful or not."""
    last, before = None, b""
    for line in lines:
        before = before if line == "again" else envelope_of(kind, line, last)
        if ":" in line:
            last = record_id(kind, before)
        yield before
