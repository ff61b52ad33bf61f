"""The toy signature scheme, which serves tests alone: a key is the bytes of a name, a signature the digest of these and
the message."""

import base64
import hashlib

from weoldrin import LogKind, SignatureCheck, records


def _text(data: bytes) -> str:
    return f"toy:{base64.b64encode(data).decode()}"


def key_of(name: str) -> str:
    """The text of the public key of a name."""
    return _text(name.encode())


def sign(name: str, message: bytes) -> str:
    """The text of a name's signature of a message."""
    return _text(hashlib.sha256(name.encode() + message).digest())


def envelope(name: str) -> bytes:
    """The envelope of a record that begins a log of a package by the key of a name."""
    key = key_of(name)
    contents = records.contents(None, 1_700_000_000_000_000_000, [records.init(key)])
    return records.signed(LogKind.PACKAGE, contents, key, lambda message: sign(name, message))


def verify(question: SignatureCheck) -> bool:
    """Whether the signature belongs to the message under the key."""
    algorithm, _, digits = question.key.partition(":")
    key = base64.b64decode(digits)
    return algorithm == "toy" and question.signature == _text(hashlib.sha256(key + question.message).digest())
