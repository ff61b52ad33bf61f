"""ECDSA over the curve P-256 with SHA-256 (FIPS 186-5). The library verifies; the package `cryptography` signs.

A key's text is `ecdsa-p256:` and the base64 of a point of SEC 1, compressed (33 bytes) or not (65 bytes); it is written
compressed. A signature's text is `ecdsa-p256:` and the base64 of the DER of an `ECDSA-Sig-Value` (RFC 3279).
"""

import base64
from typing import TYPE_CHECKING

from . import signatures
from ._library import bytes_of
from .errors import BadArgument, UnknownAlgorithm
from .values import SignatureCheck

ALGORITHM = "ecdsa-p256"

# A longer text is that of no key and of no signature.
_LONGEST = 1024

__all__ = ["ALGORITHM", "SigningKey", "text_of", "verify", "verify_by_cryptography"]

if TYPE_CHECKING:
    from ._cryptography import SigningKey
else:

    def __getattr__(name: str) -> object:
        """`SigningKey`, which needs the package `cryptography`, as verifying does not."""
        if name != "SigningKey":
            raise AttributeError(f"module {__name__!r} has no attribute {name!r}")
        from . import _cryptography

        return _cryptography.SigningKey


def verify(question: SignatureCheck) -> bool:
    """Whether the signature belongs to the message under the key, by the library.

    Texts that can't be read, and those of other algorithms, belong to nothing.
    """
    try:
        return signatures.verify(*question)
    except (BadArgument, UnknownAlgorithm):
        return False


def verify_by_cryptography(question: SignatureCheck) -> bool:
    """The same by the package `cryptography`.

    What is read as a key and as a signature is what the library reads, and `cryptography` is asked of nothing else.
    """
    from ._cryptography import belongs

    point, signature = _bytes_of(question.key), _bytes_of(question.signature)
    if point is None or signature is None or not _is_point(point) or not _is_der(signature):
        return False
    return belongs(point, bytes_of(question.message), signature)


def text_of(data: bytes) -> str:
    """The text of a key or of a signature."""
    return f"{ALGORITHM}:{base64.b64encode(data).decode()}"


def _bytes_of(text: str) -> bytes | None:
    """The bytes of the text of a key or of a signature; none where it is no such text."""
    if len(text) > _LONGEST:
        return None
    try:
        data = base64.b64decode(text.partition(":")[2], validate=True)
    except ValueError:
        return None
    # There is one text of them, without more padding or other bits behind the last byte.
    return data if text_of(data) == text else None


def _is_point(data: bytes) -> bool:
    """Whether the bytes have the form of a point of SEC 1, compressed or not."""
    return (len(data), data[:1]) in {(33, b"\x02"), (33, b"\x03"), (65, b"\x04")}


def _is_integer(data: bytes) -> bool:
    """Whether the bytes are the contents of an INTEGER of at most 256 bits that is not negative, as few as serve."""
    if not 1 <= len(data) <= 33 or data[0] >= 128 or (len(data) == 33 and data[0]):
        return False
    return len(data) == 1 or data[0] > 0 or data[1] >= 128


def _is_der(data: bytes) -> bool:
    """Whether the bytes are the DER (X.690) of a SEQUENCE of two such INTEGERs, with nothing behind it."""
    if not 8 <= len(data) <= 72 or data[:3] != bytes([0x30, len(data) - 2, 0x02]) or data[3] > len(data) - 6:
        return False
    first, rest = data[4 : 4 + data[3]], data[4 + data[3] :]
    return rest[:2] == bytes([0x02, len(rest) - 2]) and _is_integer(first) and _is_integer(rest[2:])
