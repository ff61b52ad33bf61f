"""Signatures by numbers of one's own choice, which other programs do not let one choose."""
import hashlib
import random
from typing import NamedTuple

from p256.curve import BASE, ORDER, Point, add, multiple, negated
from p256.forms import compressed, signature_of, uncompressed
from p256.programs import Case


class Group(NamedTuple):
    """Cases of one topic."""

    title: str
    cases: list[Case]


def hash_of(message: bytes) -> int:
    """The number that is signed of a message."""
    return int.from_bytes(hashlib.sha256(message).digest(), "big")


def inverse(number: int) -> int:
    """Its inverse modulo the order."""
    return pow(number, -1, ORDER)


def point_of_secret(secret: int) -> Point:
    """The public key of a private one."""
    point = multiple(secret, BASE)
    assert point is not None
    return point


class Signer:
    """A private key, its public key, and both forms of that."""

    def __init__(self, secret: int) -> None:
        self.secret, self.point = secret % ORDER, point_of_secret(secret)
        self.compressed, self.uncompressed = compressed(self.point), uncompressed(self.point)

    def numbers(self, message: bytes, nonce: int) -> tuple[int, int]:
        """The numbers of a signature of the message with this nonce."""
        r = point_of_secret(nonce).x % ORDER
        return r, (hash_of(message) + r * self.secret) * inverse(nonce) % ORDER

    def sign(self, message: bytes, nonce: int) -> bytes:
        """A signature of the message with this nonce."""
        return signature_of(*self.numbers(message, nonce))


def some_signer(some: random.Random) -> Signer:
    """A signer with any key."""
    return Signer(some.randrange(1, ORDER))


def key_for(message: bytes, summed: Point, r: int, s: int) -> Point:
    """The key q under which the sum u1 * g + u2 * q of a signature is this point: (s * summed - e * g) / r."""
    numerator = add(multiple(s, summed), negated(multiple(hash_of(message), BASE)))
    point = multiple(inverse(r), numerator)
    assert point is not None
    return point


def case_for(message: bytes, summed: Point, r: int, s: int) -> Case:
    """The case of that key. The signature is one of the message if x of the point, modulo the order, is r."""
    return Case(compressed(key_for(message, summed, r, s)), message, signature_of(r, s))
