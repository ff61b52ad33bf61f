"""Writes records and the envelopes that carry them, in the bytes that docs/FORMATS.md gives.

Nothing is judged here: a log does that when the envelope is appended.
"""

import hashlib
from collections.abc import Callable, Iterable

from .values import LogKind, kind_of

_PREFIX = {
    LogKind.PACKAGE: b"WARG-PACKAGE-RECORD-SIGNATURE-V0:",
    LogKind.OPERATOR: b"WARG-OPERATOR-RECORD-SIGNATURE-V0:",
}
# Those of crates/warg_permissions: `tools/release --copies` writes them.
_PERMISSIONS = {
    LogKind.PACKAGE: {"release": 1, "yank": 2},
    LogKind.OPERATOR: {"commit": 1, "defineNamespace": 2, "importNamespace": 3},
}
_NANOS = 1_000_000_000


def sha256_text(data: bytes) -> str:
    """The text of a SHA-256 digest, as it stands in records."""
    return f"sha256:{hashlib.sha256(data).hexdigest()}"


def key_id(public_key: str) -> str:
    """The id of a key: the fingerprint of its text."""
    return sha256_text(public_key.encode())


def _varint(number: int) -> bytes:
    low = bytearray()
    while number >= 128:
        low.append(number % 128 + 128)
        number //= 128
    low.append(number)
    return bytes(low)


def _number(field: int, value: int) -> bytes:
    return _varint(field * 8) + _varint(value % 2**64) if value else b""


def _bytes(field: int, value: bytes) -> bytes:
    return _varint(field * 8 + 2) + _varint(len(value)) + value


def _text(field: int, value: str) -> bytes:
    return _bytes(field, value.encode()) if value else b""


def _permissions(kind: LogKind | str, names: str | Iterable[str]) -> bytes:
    known = _PERMISSIONS[kind_of(kind)]
    words = names.split() if isinstance(names, str) else list(names)
    for word in words:
        if word not in known:
            raise ValueError(f"the permissions of a log of this kind are {', '.join(known)}, and not {word!r}")
    numbers = b"".join(_varint(known[it]) for it in words)
    return _bytes(2, numbers) if numbers else b""


def init(public_key: str) -> bytes:
    """The entry that begins a log, by the key that signs it."""
    return _bytes(1, _text(1, public_key) + _text(2, "sha256"))


def grant(kind: LogKind | str, public_key: str, permissions: str | Iterable[str]) -> bytes:
    """The entry that gives permissions to a key: their names, or a text of them with spaces between.

    Raises `ValueError` where logs of this kind have no such permission, and says which they have.
    """
    return _bytes(2, _text(1, public_key) + _permissions(kind, permissions))


def revoke(kind: LogKind | str, key_id: str, permissions: str | Iterable[str]) -> bytes:
    """The entry that takes permissions from a key id, which are named as for `grant`."""
    return _bytes(3, _text(1, key_id) + _permissions(kind, permissions))


def release(version: str, content: str) -> bytes:
    """The entry of a package log that releases a version; `content` is the digest of its bytes, as of `sha256_text`."""
    return _bytes(4, _text(1, version) + _text(2, content))


def yank(version: str) -> bytes:
    """The entry of a package log that yanks a version."""
    return _bytes(5, _text(1, version))


def define_namespace(name: str) -> bytes:
    """The entry of an operator log that defines a namespace."""
    return _bytes(4, _text(1, name))


def import_namespace(name: str, registry: str) -> bytes:
    """The entry of an operator log that imports a namespace from another registry."""
    return _bytes(5, _text(1, name) + _text(2, registry))


def contents(prev: str | None, timestamp: int, entries: Iterable[bytes], version: int = 1) -> bytes:
    """A record's bytes: the id of the record before it, its time in nanoseconds since 1970, its entries, and the
    version of the protocol."""
    seconds, nanos = divmod(timestamp, _NANOS)
    link = b"" if prev is None else _bytes(1, prev.encode())
    time = _bytes(3, _number(1, seconds) + _number(2, nanos))
    return link + _number(2, version) + time + b"".join(_bytes(4, entry) for entry in entries)


def message(kind: LogKind | str, contents: bytes) -> bytes:
    """What a record's signature signs."""
    return _PREFIX[kind_of(kind)] + contents


def envelope(contents: bytes, key_id: str, signature: str) -> bytes:
    """The envelope of a record that was signed."""
    return _bytes(1, contents) + _text(2, key_id) + _text(3, signature)


def signed(kind: LogKind | str, contents: bytes, public_key: str, sign: Callable[[bytes], str]) -> bytes:
    """The envelope of a record, signed by a key: `sign` gives the text of a signature of a message."""
    return envelope(contents, key_id(public_key), sign(message(kind, contents)))
