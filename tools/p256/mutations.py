"""Random cases: signatures that are right, and changes of the key, the message or the signature. One seed makes the
same cases."""
import random
from collections.abc import Callable

from p256.curve import ORDER, PRIME
from p256.forms import INTEGER, SEQUENCE, contents_of, element, integer, numbers_of, signature_of
from p256.programs import Case
from p256.signers import hash_of, inverse, point_of_secret, some_signer


def changed_bytes(some: random.Random, data: bytes) -> bytes:
    """The bytes with a bit or a byte changed, put in or left out, or cut."""
    if not data:
        return some.randbytes(1)
    changed, place = bytearray(data), some.randrange(len(data))
    match some.randrange(8):
        case 0 | 1 | 2:
            changed[place] ^= 1 << some.randrange(8)
        case 3:
            changed[place] = some.randrange(256)
        case 4:
            changed.insert(place, some.choice([0, 1, 2, 0x30, 0x7F, 0x80, 0x81, 0xFF, some.randrange(256)]))
        case 5:
            del changed[place]
        case 6:
            del changed[place:]
        case _:
            changed += some.choice([b"\0", b"\xff", bytes(8), some.randbytes(3)])
    return bytes(changed)


def changed_number(some: random.Random, number: int) -> int:
    """Another number: often one that is the same modulo the order, or opposite, or at an end."""
    ends = [0, 1, ORDER, ORDER - 1, ORDER + 1, PRIME, 2**255, 2**256 - 1, 2**256, -1]
    near = [
        number + ORDER,
        number - ORDER,
        ORDER - number,
        -number,
        number + 1,
        number - 1,
        number ^ 1 << some.randrange(256),
        number >> 8,
        number << 8,
    ]
    return some.choice([*ends, *near, *near, number + PRIME, some.randrange(ORDER)])


def changed_numbers(some: random.Random, signature: bytes) -> bytes:
    """A signature of other numbers, or of the same ones, by chance."""
    numbers = numbers_of(signature)
    assert numbers is not None
    r, s = numbers
    match some.randrange(6):
        case 0:
            return signature_of(changed_number(some, r), s)
        case 1:
            return signature_of(r, changed_number(some, s))
        case 2:
            return signature_of(changed_number(some, r), changed_number(some, s))
        case 3:
            return signature_of(s, r)
        case _:
            return signature_of(r, ORDER - s)


def changed_form(some: random.Random, signature: bytes) -> bytes:
    """The same numbers, written otherwise: with zeros before them, with long lengths, with bytes elsewhere."""
    numbers = numbers_of(signature)
    assert numbers is not None
    first, second = map(contents_of, numbers)
    r, s = integer(numbers[0]), integer(numbers[1])
    extra = some.choice([b"\0", b"\x05\0", integer(0), some.randbytes(2)])
    return some.choice(
        [
            element(SEQUENCE, element(INTEGER, b"\0" + first) + s),
            element(SEQUENCE, r + element(INTEGER, b"\0" + second)),
            element(SEQUENCE, element(INTEGER, first[1:]) + s),
            element(SEQUENCE, r + element(INTEGER, second[1:])),
            bytes([SEQUENCE, 0x81]) + signature[1:],
            bytes([SEQUENCE, 0x80]) + signature[2:] + b"\0\0",
            element(SEQUENCE, bytes([INTEGER, 0x81]) + r[1:] + s),
            element(SEQUENCE, r + bytes([INTEGER, 0x81]) + s[1:]),
            element(SEQUENCE, r + s + extra),
            element(SEQUENCE, r + extra + s),
            signature + extra,
            extra + signature,
            r + s,
            element(some.randrange(256), r + s),
            element(SEQUENCE, element(some.randrange(256), first) + s),
        ]
    )


class Cases:
    """Makes random cases, by a few keys and nonces."""

    def __init__(self, some: random.Random) -> None:
        self.some = some
        self.signers = [some_signer(some) for _ in range(16)]
        nonces = [some.randrange(1, ORDER) for _ in range(32)]
        # The inverse of each nonce, and the number r.
        self.nonces = [(inverse(it), point_of_secret(it).x % ORDER) for it in nonces]
        self.changes: list[Callable[[Case], Case]] = [
            lambda it: it._replace(signature=changed_bytes(some, it.signature)),
            lambda it: it._replace(signature=changed_numbers(some, it.signature)),
            lambda it: it._replace(signature=changed_form(some, it.signature)),
            lambda it: it._replace(key=changed_bytes(some, it.key)),
            lambda it: it._replace(key=self._other_key(it.key)),
            lambda it: it._replace(message=changed_bytes(some, it.message)),
        ]

    def _other_key(self, key: bytes) -> bytes:
        """Another signer's key, the other form's first byte, the opposite point, or other numbers."""
        some, other = self.some, self.some.choice(self.signers)
        x, y = other.point
        numbers = [x, y, PRIME - y, PRIME, 0, 2**256 - 1, some.randrange(2**256)]
        return some.choice(
            [
                other.compressed,
                other.uncompressed,
                bytes([some.randrange(256)]) + key[1:],
                bytes([key[0] ^ 1]) + key[1:],
                bytes([6 + y % 2]) + key[1:],
                bytes([some.choice([2, 3])]) + some.choice(numbers).to_bytes(32, "big"),
                b"\x04" + some.choice(numbers).to_bytes(32, "big") + some.choice(numbers).to_bytes(32, "big"),
            ]
        )

    def right(self) -> Case:
        """A signature that is right."""
        some, signer = self.some, self.some.choice(self.signers)
        message = some.randbytes(some.choice([0, 1, 2, 3, 5, 8, 31, 32, 33, 55, 56, 63, 64, 65, 119, 120, 128, 200]))
        inverted, r = some.choice(self.nonces)
        s = (hash_of(message) + r * signer.secret) * inverted % ORDER
        return Case(some.choice([signer.compressed, signer.uncompressed]), message, signature_of(r, s))

    def any(self) -> Case:
        """One that is right, or one that was changed."""
        case = self.right()
        return case if self.some.randrange(4) == 0 else self.some.choice(self.changes)(case)
