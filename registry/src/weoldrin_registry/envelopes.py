"""What a registry looks up in an envelope that the library has read: who signed it, and its record's time and version.

docs/FORMATS.md says how. The library judges the bytes; here they are well-formed already.
"""

from __future__ import annotations

import base64
import json
from collections.abc import Iterator
from typing import NamedTuple

from weoldrin import records

_NANOS = 1_000_000_000


class Facts(NamedTuple):
    """What an envelope says."""

    key_id: str
    time: int
    """The record's time in nanoseconds since 1970."""
    version: int


def _varint(data: bytes, at: int) -> tuple[int, int]:
    """A number, and where it ends."""
    value = shift = 0
    while True:
        byte = data[at]
        at += 1
        value |= (byte & 127) << shift
        shift += 7
        if byte < 128:
            return value % 2**64, at


def _fields(data: bytes) -> Iterator[tuple[int, int | bytes]]:
    """The fields of a message: their numbers, and a number or bytes."""
    at = 0
    while at < len(data):
        key, at = _varint(data, at)
        number, kind = key >> 3, key & 7
        if kind == 0:
            value, at = _varint(data, at)
            yield number, value
            continue
        size, at = _varint(data, at) if kind == 2 else ({1: 8, 5: 4}[kind], at)
        yield number, data[at : at + size]
        at += size


def _signed(value: int, bits: int) -> int:
    """The low bits of a number as two's complement."""
    value %= 1 << bits
    return value - (1 << bits) if value >> bits - 1 else value


def _last(data: bytes, number: int) -> int | bytes | None:
    """The last field of a number."""
    found: int | bytes | None = None
    for it, value in _fields(data):
        if it == number:
            found = value
    return found


def _joined(data: bytes, number: int) -> bytes:
    """The payloads of a message's fields of a number, one after another."""
    return b"".join(value for it, value in _fields(data) if it == number and isinstance(value, bytes))


def _number(data: bytes, number: int) -> int:
    found = _last(data, number)
    return found if isinstance(found, int) else 0


def _bytes(data: bytes, number: int) -> bytes:
    found = _last(data, number)
    return found if isinstance(found, bytes) else b""


def facts(envelope: bytes) -> Facts:
    """What an envelope says that the library has read."""
    contents = _bytes(envelope, 1)
    time = _joined(contents, 3)
    nanoseconds = _signed(_number(time, 1), 64) * _NANOS + _signed(_number(time, 2), 32)
    return Facts(_bytes(envelope, 2).decode(), nanoseconds, _number(contents, 2) % 2**32)


def time_text(nanoseconds: int) -> str:
    """The text of a time, as it stands in JSON."""
    return "{}.{}".format(*divmod(nanoseconds, _NANOS))


def from_json(body: bytes) -> bytes:
    """The envelope of a body of JSON. Raises `ValueError`, with a sentence."""
    try:
        value = json.loads(body.decode())
    except (ValueError, RecursionError):
        raise ValueError("the body is no JSON") from None
    parts = [value.get(it) if isinstance(value, dict) else None for it in ("contentBytes", "keyId", "signature")]
    contents, key_id, signature = parts
    if not isinstance(contents, str) or not isinstance(key_id, str) or not isinstance(signature, str):
        raise ValueError("the body has no texts contentBytes, keyId and signature")
    try:
        return records.envelope(base64.b64decode(contents, validate=True), key_id, signature)
    except ValueError:
        raise ValueError("contentBytes is no base64, or a text has half a surrogate pair") from None
