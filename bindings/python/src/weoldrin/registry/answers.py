"""What a registry answers, request by request, in the forms of docs/HTTP.md. Nothing of it is believed here but its
form."""

import base64
import binascii
import json
import re
from collections.abc import Iterator
from typing import NamedTuple, TypeVar, cast

from ..checkpoints import SignedCheckpoint
from ..errors import BadArgument
from . import asking
from .asking import Answer
from .told import BadAnswer, NoAnswer, Told
from .trust import is_hash

T = TypeVar("T")
# Bounds on answers, in bytes: of one with a checkpoint and proofs, and of one with envelopes or leaves.
_SMALL, _LARGE = 262_144, 64 * 2**20
# So many bytes of envelopes are taken of one log.
_LONGEST_LOG = 256 * 2**20
# The type of an error (RFC 9457).
_DOCUMENT = "application/problem+json"
_LEAF = re.compile(r"(sha256:[0-9a-f]{64}) (sha256:[0-9a-f]{64})")


class Problem(Exception):
    """A registry refuses what was asked. `name` is the error's, and `value` all that was said of it."""

    def __init__(self, status: int, name: str, detail: str, value: object = None) -> None:
        super().__init__(f"{status} {name}: {detail}")
        self.status, self.name, self.value = status, name, value


class Head(NamedTuple):
    """What the map of a checkpoint says of a log."""

    checkpoint: SignedCheckpoint
    record_id: str | None
    """The id of its last record; none where it has no records."""
    proof: str
    consistency: str | None
    """That the checkpoint's log goes on from the one that was named, where one was."""


class Leaf(NamedTuple):
    """A leaf of the registry's log."""

    log_id: str
    record_id: str


class Published(NamedTuple):
    """Where a record is said to stand: in its log, and its leaf in the registry's log."""

    place: int
    leaf: int


class Fetched(NamedTuple):
    """Envelopes of many logs."""

    envelopes: dict[str, list[bytes]]
    more: bool


def member(value: object, name: str, kind: type[T]) -> T:
    """A member of an object, of that type."""
    if not isinstance(value, dict) or type(value.get(name)) is not kind:
        raise BadAnswer(f"the answer has no {name} as it has to be")
    return cast(T, value[name])


def _hash(value: object, name: str) -> str:
    found = member(value, name, str)
    if not is_hash(found):
        raise BadAnswer(f"the answer's {name} is no hash")
    return str(found)


def checkpoint_in(value: object) -> SignedCheckpoint:
    """The signed checkpoint that an object is."""
    try:
        it = SignedCheckpoint.from_json(json.dumps(value))
    except BadArgument as error:
        raise BadAnswer(f"its checkpoint is none: {error}") from None
    if not all(map(is_hash, (it.contents.log_root, it.contents.map_root, it.key_id))):
        raise BadAnswer("a hash of its checkpoint is none")
    if it.contents.log_length >= 2**63 or it.contents.timestamp >= 2**63:
        raise BadAnswer("a number of its checkpoint is too great")
    return it


class Registry:
    """A registry that is asked."""

    def __init__(self, url: str, seconds: float = 60) -> None:
        self._address, self._seconds = asking.address_of(url), seconds

    def checkpoint(self) -> SignedCheckpoint:
        """The newest signed checkpoint."""
        return checkpoint_in(self._json("/v1/checkpoint", _SMALL))

    def head(self, log_id: str, since: int | None = None, length: int | None = None) -> Head:
        """What the map of the newest checkpoint says of a log, of the checkpoint of that length if one is named, and
        that its log goes on from its first `since` leaves."""
        value = self._json(_path("proof/map", log=log_id, length=length, **{"from": since}), _SMALL)
        if not isinstance(value, dict) or "recordId" not in value:
            raise BadAnswer("the answer has no recordId")
        record_id = None if value["recordId"] is None else _hash(value, "recordId")
        checkpoint = checkpoint_in(value.get("checkpoint"))
        if member(value, "logId", str) != log_id:
            raise Told("wrong name", f"the answer is of another log than {log_id}, which was asked for")
        consistency = None if since is None else member(value, "consistency", str)
        return Head(checkpoint, record_id, member(value, "proof", str), consistency)

    def consistency(self, since: int, to: int | None = None) -> tuple[SignedCheckpoint, str]:
        """That the log of the newest checkpoint goes on from its first `since` leaves."""
        value = self._json(_path("proof/consistency", to=to, **{"from": since}), _SMALL)
        return checkpoint_in(member(value, "checkpoint", dict)), member(value, "proof", str)

    def inclusion(self, place: int, length: int) -> tuple[SignedCheckpoint, str]:
        """That a leaf stands at a place of the log of the newest checkpoint."""
        value = self._json(_path("proof/inclusion", leaf=place, length=length), _SMALL)
        return checkpoint_in(member(value, "checkpoint", dict)), member(value, "proof", str)

    def leaf(self, log_id: str, record_id: str) -> int | None:
        """Where the leaf of a log's record is said to stand in the registry's log; none where it is said to have no
        such record."""
        try:
            value = self._json(_path("leaf", log=log_id, record=record_id), _SMALL)
        except Problem as problem:
            if problem.name in ("NoLog", "NoRecord"):
                return None
            raise
        return member(value, "registryIndex", int)

    def leaves(self, since: int) -> tuple[list[Leaf], bool]:
        """Leaves from a place on, and whether more follow."""
        answer = self._asked(_path("leaves", **{"from": since}), _LARGE)
        found = [_LEAF.fullmatch(it) for it in _lines_of(answer.body)]
        leaves = [Leaf(it[1], it[2]) for it in found if it]
        if len(leaves) < len(found):
            raise BadAnswer("a line of the answer is no leaf")
        return leaves, _has_more(answer, len(leaves))

    def records(self, log_id: str, since: int) -> Iterator[bytes]:
        """Envelopes of a log from a place on. Of a log that has none, nothing."""
        left, more = _LONGEST_LOG, True
        while more:
            try:
                answer = self._asked(f"/v1/logs/{log_id}/records?from={since}", _LARGE)
            except Problem as problem:
                if problem.name == "NoLog":
                    return
                raise
            envelopes = [_of_hex(it) for it in _lines_of(answer.body)]
            yield from envelopes
            since, left = since + len(envelopes), left - len(answer.body) // 2
            if left < 0:
                raise BadAnswer("the log is too long")
            more = _has_more(answer, len(envelopes))

    def publish(self, name: str, log_id: str, record_id: str, envelope: bytes) -> Published:
        """Sends the envelope of a package's record, and gives where it is said to stand. The same may be sent again: it
        stands once. Raises a `Problem` where it does not stand, and `NoAnswer` where that is not known."""
        headers = {"Content-Type": "application/protobuf"}
        path = f"/v1/package/{name}/record"
        answer = asking.ask(self._address, path, envelope, headers, longest=_SMALL, seconds=self._seconds)
        if answer.status == 201:
            return _published(asking.json_of(answer.body), log_id, record_id)
        error = _problem_of(answer)
        if isinstance(error, Problem) and error.name == "NotNext":
            assert isinstance(error.value, dict)
            if "published" in error.value:
                return _published(error.value["published"], log_id, record_id)
        raise error

    def fetch(self, counts: dict[str, int]) -> Fetched:
        """Envelopes of many logs, from so many records on of each."""
        body = json.dumps({"logs": counts}).encode()
        value = self._json("/v1/fetch/logs", _LARGE, body)
        found = {}
        for log_id, log in member(value, "logs", dict).items():
            if log_id in counts:
                found[log_id] = [_of_base64(it) for it in member(log, "envelopes", list)]
        return Fetched(found, member(value, "more", bool))

    def _json(self, path: str, longest: int, body: bytes | None = None) -> object:
        return asking.json_of(self._asked(path, longest, body).body)

    def _asked(self, path: str, longest: int, body: bytes | None = None) -> Answer:
        headers = {"Accept": "*/*"} if body is None else {"Content-Type": "application/json"}
        answer = asking.ask(self._address, path, body, headers, longest=longest, seconds=self._seconds)
        if answer.status == 200:
            return answer
        raise _problem_of(answer)


def _problem_of(answer: Answer) -> Exception:
    """What an answer of another status says. One that may be had later is none."""
    if 300 <= answer.status < 400:
        return BadAnswer(f"the answer leads elsewhere, with status {answer.status}, which is not followed")
    later = NoAnswer(f"the registry can't answer now, with status {answer.status}")
    is_often = answer.status == 429
    if answer.status == 408 or answer.status >= 500 or (is_often and answer.headers.get_content_type() != _DOCUMENT):
        return later
    value = asking.json_of(answer.body)
    problem = Problem(answer.status, member(value, "name", str), member(value, "detail", str), value)
    return later if is_often and problem.name != "TooManyLogs" else problem


def _published(value: object, log_id: str, record_id: str) -> Published:
    """Where a record stands by an object. Raises `BadAnswer` where it is of another one."""
    if (member(value, "logId", str), member(value, "recordId", str)) != (log_id, record_id):
        raise BadAnswer("the answer is of another record than was sent")
    found = Published(member(value, "place", int), member(value, "registryIndex", int))
    if not all(0 <= it < 2**63 for it in found):
        raise BadAnswer("a place of the answer is none")
    return found


def _path(name: str, **words: str | int | None) -> str:
    given = "&".join(f"{name}={value}" for name, value in words.items() if value is not None)
    return f"/v1/{name}?{given}"


def _lines_of(body: bytes) -> list[str]:
    """The lines of a text, each of which ends with a line feed."""
    try:
        *lines, last = body.decode("ascii").split("\n")
    except ValueError:
        raise BadAnswer("the answer is no ASCII") from None
    if last:
        raise BadAnswer("the last line of the answer has no end")
    return lines


def _has_more(answer: Answer, count: int) -> bool:
    """Whether more follows, which the header says. An answer of nothing has nothing behind it."""
    more = 'rel="next"' in answer.headers.get("Link", "")
    if more and not count:
        raise BadAnswer("the answer is empty, and says that more follows")
    return more


def _of_hex(line: str) -> bytes:
    try:
        return binascii.unhexlify(line)
    except ValueError:
        raise BadAnswer("a line of the answer is no envelope in hex") from None


def _of_base64(value: object) -> bytes:
    if not isinstance(value, str):
        raise BadAnswer("an envelope of the answer is no text")
    try:
        return base64.b64decode(value, validate=True)
    except ValueError:
        raise BadAnswer("an envelope of the answer is no base64") from None
