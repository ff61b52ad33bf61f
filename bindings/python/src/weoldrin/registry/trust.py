"""What is trusted of a registry, and the file of JSON that keeps it: by whose key its operator log begins, the newest
signed checkpoint that was seen, and of each log its head, the number of its records, and where its leaf stands."""

from __future__ import annotations

import contextlib
import dataclasses
import json
import re
from dataclasses import dataclass, field

from .._files import held_beside, open_regular, replace
from ..checkpoints import SignedCheckpoint
from ..errors import BadArgument
from ..logs import OperatorLog
from .told import Unusable, Unwritten

_HASH = re.compile(r"sha256:[0-9a-f]{64}")
# A longer file is none that was written here.
_LONGEST = 256 * 2**20


def is_hash(value: object) -> bool:
    """Whether a value is the text of an id or of a root."""
    return isinstance(value, str) and bool(_HASH.fullmatch(value))


@dataclass(frozen=True)
class Seen:
    """What was seen of a log."""

    head: str
    """The id of its last record."""
    count: int
    """How many records it has."""
    place: int | None = None
    """Where the leaf of its last record stands in the registry's log, where that was looked for."""


@dataclass
class Trust:
    """What is trusted of a registry."""

    key: str | None = None
    """The id of the key that begins the operator log."""
    operator: Seen | None = None
    state: str | None = None
    """The state of the operator log, at that head."""
    checkpoint: SignedCheckpoint | None = None
    logs: dict[str, Seen] = field(default_factory=dict)
    """By the ids of logs."""

    def to_json(self) -> str:
        """The text of it."""
        logs = {name: dataclasses.asdict(it) for name, it in sorted(self.logs.items())}
        members = {
            "operator": {
                "key": self.key,
                "seen": self.operator and dataclasses.asdict(self.operator),
                "state": None if self.state is None else json.loads(self.state),
            },
            "checkpoint": self.checkpoint and json.loads(self.checkpoint.to_json()),
            "logs": logs,
        }
        return json.dumps(members, indent=1) + "\n"

    @classmethod
    def from_json(cls, text: str) -> Trust:
        """What a text says. Raises `ValueError` of one that `to_json` does not give."""
        value = json.loads(text)
        if not _has_members(value, {"operator", "checkpoint", "logs"}) or not isinstance(value["logs"], dict):
            raise ValueError("it has other members")
        operator = value["operator"]
        if not _has_members(operator, {"key", "seen", "state"}):
            raise ValueError("it has other members of its operator log")
        if not (operator["key"] is None or is_hash(operator["key"])) or not all(map(is_hash, value["logs"])):
            raise ValueError("an id is none")
        seen = operator["seen"] and _seen_of(operator["seen"])
        state = None if operator["state"] is None else json.dumps(operator["state"])
        if state is not None:
            _check_state(state, seen)
        checkpoint = value["checkpoint"] and _checkpoint_of(value["checkpoint"])
        return cls(operator["key"], seen, state, checkpoint, {it: _seen_of(at) for it, at in value["logs"].items()})


def _has_members(value: object, names: set[str]) -> bool:
    return isinstance(value, dict) and set(value) == names


def _seen_of(value: object) -> Seen:
    if not isinstance(value, dict) or set(value) != {"head", "count", "place"} or not is_hash(value["head"]):
        raise ValueError("it has other members of a log")
    numbers = [value["count"]] if value["place"] is None else [value["count"], value["place"]]
    if any(type(it) is not int or not 0 <= it < 2**63 for it in numbers) or value["count"] == 0:
        raise ValueError("a number is none")
    return Seen(**value)


def _checkpoint_of(value: object) -> SignedCheckpoint:
    it = SignedCheckpoint.from_json(json.dumps(value))
    if not is_hash(it.contents.log_root) or not is_hash(it.contents.map_root) or not is_hash(it.key_id):
        raise ValueError("a hash is none")
    return it


def _check_state(state: str, seen: Seen | None) -> None:
    with OperatorLog.from_json(state) as log:
        if seen is None or log.head() != seen.head:
            raise ValueError("the state is that of another head")


def read_text(path: str, what: str) -> str | None:
    """The text of a regular file; none where there is no such file. Raises `Unusable` of what is none, and `Unwritten`
    where it can't be read."""
    try:
        with open(path, encoding="utf-8", opener=open_regular) as file:
            text = file.read(_LONGEST + 1)
    except FileNotFoundError:
        return None
    except OSError as error:
        raise Unwritten(f"{path}: {error.strerror}") from None
    except ValueError:
        raise Unusable(f"{path}: it is no {what}") from None
    if len(text) > _LONGEST:
        raise Unusable(f"{path}: it is too long")
    return text


def read_trust(path: str) -> Trust:
    """What a file says is trusted; nothing yet where there is no such file. Raises `Unusable` where it says anything
    else."""
    text = read_text(path, "file of what is trusted")
    if text is None:
        return Trust()
    try:
        return Trust.from_json(text)
    except (ValueError, RecursionError, BadArgument) as error:
        raise Unusable(
            f"{path}: it is no file of what is trusted ({error}); nothing was asked. Have it from a copy, or remove it "
            "where it is no loss that all before is forgotten"
        ) from None


def hold(path: str, held: contextlib.ExitStack) -> int:
    """The file beside a file, which is held until the end: whoever would write the same file waits."""
    try:
        return held.enter_context(held_beside(path))
    except FileNotFoundError:
        raise Unusable(f"{path}: its folder is missing") from None
    except OSError as error:
        raise Unwritten(f"{path}: {error.strerror}") from None


def write(path: str, beside: int, text: str) -> None:
    """Puts a text in the place of what the file holds, all or nothing, by the file that is held beside it."""
    try:
        replace(path, beside, text.encode())
    except OSError as error:
        raise Unwritten(f"{path}: it could not be written, and is as it was: {error.strerror}") from None
