"""What a registry signs of its log and its map, and its JSON, whose members docs/FORMATS.md names.

Texts are read from JSON as they stand there: the calls that take them say which is not of its form.
"""

from __future__ import annotations

import json
from dataclasses import dataclass
from typing import Any, NoReturn

from ._library import GREATEST, Buffer, number, texts
from .errors import BadArgument


@dataclass(frozen=True)
class Checkpoint:
    """What a registry signs of its log and its map."""

    log_root: str
    """The text of the root of the registry's log."""
    log_length: int
    """How many leaves that log has."""
    map_root: str
    """The text of the root of the registry's map."""
    timestamp: int
    """The time in whole seconds since 1970."""

    def message(self) -> bytes:
        """The message that a key of the registry signs.

        Raises `BadArgument` where a root is not the text of one, or a number is not from 0 to 2**64 - 1.
        """
        message = Buffer().filled("checkpoint_message", tuple(words_of(self)))
        assert message is not None
        return message

    def to_json(self) -> str:
        """The text of its JSON."""
        return _text_of(_members_of(self))

    @classmethod
    def from_json(cls, text: str) -> Checkpoint:
        """The checkpoint of a text of JSON. Raises `BadArgument`, by the name `NotJson`, `Missing` or `WrongType`."""
        return _checkpoint(_value_of(text))


@dataclass(frozen=True)
class SignedCheckpoint:
    """A checkpoint with the texts by which it is signed. Whether they belong to it, `OperatorLog.verify_checkpoint`
    says."""

    contents: Checkpoint
    key_id: str
    signature: str

    def to_json(self) -> str:
        """The text of its JSON."""
        contents = _members_of(self.contents)
        return _text_of({"contents": contents, "keyId": self.key_id, "signature": self.signature})

    @classmethod
    def from_json(cls, text: str) -> SignedCheckpoint:
        """The signed checkpoint of a text of JSON. Raises `BadArgument`, by the name `NotJson`, `Missing` or
        `WrongType`."""
        value = _value_of(text)
        contents = _checkpoint(_member(value, "contents"))
        return cls(contents, _text(value, "keyId"), _text(value, "signature"))


def words_of(it: Checkpoint) -> list[bytes | int]:
    """What calls of the library get for a checkpoint. Raises `BadArgument` where a number is out of their range."""
    return [number(it.log_length), *texts(it.log_root, it.map_root), number(it.timestamp)]


def _members_of(it: Checkpoint) -> dict[str, str | int]:
    return {"logRoot": it.log_root, "logLength": it.log_length, "mapRoot": it.map_root, "timestamp": it.timestamp}


def _text_of(members: dict[str, Any]) -> str:
    return json.dumps(members, separators=(",", ":"))


def _checkpoint(value: object) -> Checkpoint:
    log_root, log_length = _text(value, "logRoot"), _number(value, "logLength")
    return Checkpoint(log_root, log_length, _text(value, "mapRoot"), _number(value, "timestamp"))


def _value_of(text: str) -> object:
    """The value of a text of JSON. A number with a sign, a point or an exponent is none that is whole."""

    def refuse(constant: str) -> NoReturn:
        raise ValueError(f"{constant} is no number of JSON")

    def whole(digits: str) -> int | float:
        return int(digits) if digits.isdigit() else float(digits)

    try:
        return json.loads(text, parse_int=whole, parse_constant=refuse)
    except (ValueError, RecursionError):
        raise BadArgument("NotJson: the text is no JSON") from None


def _member(value: object, name: str) -> object:
    if not isinstance(value, dict):
        raise BadArgument(f"WrongType: what has {name} is no object")
    if name not in value:
        raise BadArgument(f"Missing: there is no {name}")
    return value[name]


def _text(value: object, name: str) -> str:
    found = _member(value, name)
    if not isinstance(found, str):
        raise BadArgument(f"WrongType: {name} is no text")
    return found


def _number(value: object, name: str) -> int:
    found = _member(value, name)
    if type(found) is not int or found > GREATEST:
        raise BadArgument(f"WrongType: {name} is no whole number from 0 to {GREATEST}")
    return found
