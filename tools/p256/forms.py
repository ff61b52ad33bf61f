"""How keys and signatures of ECDSA P-256 are written, by the standards alone: a key is a point of SEC 1, 2.3.3 and
2.3.4, and no hybrid one; a signature is the DER (X.690) of an ECDSA-Sig-Value, SEQUENCE { r INTEGER, s INTEGER } (RFC
3279, 2.2.3).

The reader here says nothing of the numbers of a signature but that they are written so: that they are between 0 and
the order, and that they belong to a message, is arithmetic, and other programs say it."""

import functools

from p256.curve import PRIME, Point, is_on_curve, lifted

INTEGER, SEQUENCE = 0x02, 0x30


@functools.lru_cache(maxsize=4096)
def point_of(key: bytes) -> Point | None:
    """The point that a key writes, compressed or not; none where it writes none that is a key."""
    if len(key) == 33 and key[0] in (2, 3):
        x = int.from_bytes(key[1:], "big")
        return lifted(x, key[0] == 3) if x < PRIME else None
    if len(key) == 65 and key[0] == 4:
        point = Point(int.from_bytes(key[1:33], "big"), int.from_bytes(key[33:], "big"))
        return point if point.x < PRIME and point.y < PRIME and is_on_curve(point) else None
    return None


def compressed(point: Point) -> bytes:
    """The point's 33 bytes."""
    return bytes([2 + point.y % 2]) + point.x.to_bytes(32, "big")


def uncompressed(point: Point) -> bytes:
    """The point's 65 bytes."""
    return b"\x04" + point.x.to_bytes(32, "big") + point.y.to_bytes(32, "big")


def _cut(data: bytes, tag: int) -> tuple[bytes, bytes] | None:
    """The contents of the element that the bytes begin with, and the bytes behind it; none where it has another tag, or
    another length than the shortest definite one (X.690, 8.1.3 and 10.1)."""
    if len(data) < 2 or data[0] != tag:
        return None
    length, start = data[1], 2
    if length > 127:
        start += length - 128
        length = int.from_bytes(data[2:start], "big")
        if start > len(data) or start == 2 or data[2] == 0 or length < 128:
            return None
    end = start + length
    return (data[start:end], data[end:]) if end <= len(data) else None


def _number(contents: bytes) -> int | None:
    """The number of an INTEGER, in two's complement; none where a byte is missing, or where the first one could be left
    out (X.690, 8.3.2)."""
    if not contents or (len(contents) > 1 and contents[0] == (255 if contents[1] > 127 else 0)):
        return None
    return int.from_bytes(contents, "big", signed=True)


def numbers_of(signature: bytes) -> tuple[int, int] | None:
    """The numbers r and s that a signature writes; none where it is no such DER, to the last byte."""
    whole = _cut(signature, SEQUENCE)
    first = _cut(whole[0], INTEGER) if whole and not whole[1] else None
    second = _cut(first[1], INTEGER) if first else None
    if not first or not second or second[1]:
        return None
    r, s = _number(first[0]), _number(second[0])
    return None if r is None or s is None else (r, s)


def element(tag: int, contents: bytes) -> bytes:
    """DER of a tag and of these contents."""
    length = len(contents)
    if length < 128:
        return bytes([tag, length]) + contents
    digits = length.to_bytes((length.bit_length() + 7) // 8, "big")
    return bytes([tag, 128 + len(digits)]) + digits + contents


def contents_of(number: int) -> bytes:
    """The contents of an INTEGER: as few bytes as hold the number and its sign."""
    bits = number.bit_length() if number >= 0 else (number + 1).bit_length()
    return number.to_bytes(bits // 8 + 1, "big", signed=True)


def integer(number: int) -> bytes:
    """DER of a number, of any sign and size."""
    return element(INTEGER, contents_of(number))


def signature_of(r: int, s: int) -> bytes:
    """DER of two numbers, of any sign and size."""
    return element(SEQUENCE, integer(r) + integer(s))


def public_key_info(point: bytes) -> bytes:
    """DER of the SubjectPublicKeyInfo of a point of P-256, whatever its bytes are (RFC 5480)."""
    curve = bytes.fromhex("301306072a8648ce3d020106082a8648ce3d030107")
    return element(SEQUENCE, curve + element(0x03, b"\0" + point))
