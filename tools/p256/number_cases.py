"""Cases of keys, nonces and numbers of signatures at their ends, and where the sum of the two multiples goes another
way."""
import random
from collections.abc import Iterable, Iterator
from itertools import count, product

from p256.curve import ORDER, PRIME, Point, lifted
from p256.forms import signature_of
from p256.programs import Case
from p256.signers import Group, Signer, case_for, hash_of, inverse, point_of_secret, some_signer

# Numbers with few bits, with few zeros, and about the half and the end of the order.
SPECIAL = [
    *range(1, 17),
    *(2**it for it in (8, 31, 32, 63, 64, 127, 128, 191, 192, 224, 254, 255)),
    *(2**it - 1 for it in (32, 64, 128, 192, 255)),
    (ORDER - 1) // 2,
    (ORDER + 1) // 2,
    inverse(3),
    ORDER - 2**128,
    *(ORDER - it for it in range(8, 0, -1)),
]


def special_keys(some: random.Random) -> Group:
    """Keys that are small multiples of the base point, or of its opposite."""
    cases = []
    for secret in SPECIAL:
        signer, message = Signer(secret), some.randbytes(3)
        cases += [Case(signer.compressed, message, signer.sign(message, some.randrange(1, ORDER)))]
    return Group(
        "Private keys with few bits, and at the end of the order: keys that are near the base point, or its opposite",
        cases,
    )


def special_nonces(some: random.Random) -> Group:
    """Nonces with few bits."""
    signer = some_signer(some)
    messages = [(it, some.randbytes(2)) for it in SPECIAL]
    cases = [Case(signer.compressed, message, signer.sign(message, nonce)) for nonce, message in messages]
    return Group("Nonces of this kind: the sum of the two multiples is near the base point, or its opposite", cases)


def case_of_multiples(message: bytes, nonce: int, s: int) -> Case:
    """A signature with this nonce and this s, by the key that it belongs to."""
    r = point_of_secret(nonce).x % ORDER
    signer = Signer((s * nonce - hash_of(message)) * inverse(r))
    return Case(signer.compressed, message, signature_of(r, s))


def special_multiples(some: random.Random) -> Iterator[Group]:
    """Multiples u1 = e / s and u2 = r / s with few bits."""
    first, second, numbers = [], [], []
    for u in SPECIAL:
        message, nonce = some.randbytes(2), some.randrange(1, ORDER)
        first.append(case_of_multiples(message, nonce, hash_of(message) * inverse(u) % ORDER))
        second.append(case_of_multiples(message, nonce, point_of_secret(nonce).x * inverse(u) % ORDER))
        numbers.append(case_of_multiples(message, nonce, u))
    yield Group("The multiple u1 = e / s of the base point is such a number", first)
    yield Group("The multiple u2 = r / s of the key is such a number", second)
    yield Group("The number s is such a number", numbers)


def meeting(some: random.Random) -> Iterator[Group]:
    """u1 * g and u2 * q are equal, opposite, or as good as opposite: e = r * secret, e = -r * secret."""
    equal, opposite, near = [], [], []
    for place in range(12):
        message, nonce = some.randbytes(2), some.randrange(1, ORDER)
        e, r = hash_of(message), point_of_secret(nonce).x % ORDER
        signer = Signer(e * inverse(r))
        key = signer.uncompressed if place % 2 else signer.compressed
        equal.append(Case(key, message, signature_of(r, 2 * e * inverse(nonce) % ORDER)))
        signer = Signer(-e * inverse(r))
        key = signer.uncompressed if place % 2 else signer.compressed
        # Any s gives infinity, and so does any r with its own key.
        opposite.append(Case(key, message, signature_of(r, nonce)))
        nonce = [1, ORDER - 1, 2, ORDER - 2, 3, ORDER - 3][place % 6]
        near.append(case_of_multiples(message, nonce, some.randrange(1, ORDER)))
    yield Group("The multiples u1 * g and u2 * q are the same point, which is doubled", equal)
    yield Group(
        "The multiples u1 * g and u2 * q are opposite: their sum is the point at infinity, which has no x", opposite
    )
    yield Group("The sum of the multiples is the base point, its opposite, their double or three times them", near)


def points_from(x: int, step: int) -> Iterator[Point]:
    """The points whose x is the next one from here on, in turn with even and with odd y."""
    for it in count(x, step):
        point = lifted(it % PRIME, it % 2 == 1)
        if point is not None:
            yield point


def some_points(x: int, step: int, number: int) -> Iterable[Point]:
    return (point for point, _ in zip(points_from(x, step), range(number), strict=False))


def special_x(some: random.Random) -> Iterator[Group]:
    """The x of the sum is at an end of what it can be, by keys that are made for it."""

    def cases(points: Iterable[Point], less: int) -> list[Case]:
        messages = [(it, some.randbytes(2), some.choice([1, 2, ORDER - 1, some.randrange(1, ORDER)])) for it in points]
        return [case_for(message, it, it.x - less, s) for it, message, s in messages]

    yield Group(
        "The sum's x, and with it r, is small, or a little below the order",
        [
            *cases(some_points(1, 1, 10), 0),
            *cases(some_points(ORDER - 1, -1, 8), 0),
            *cases(some_points(2**128, 1, 2), 0),
        ],
    )
    yield Group(
        "The sum's x is r + n, at least the order",
        [
            *cases(some_points(ORDER + 1, 1, 8), ORDER),
            *cases(some_points(PRIME - 1, -1, 12), ORDER),
            *cases(some_points(ORDER + 2**100, 2**90 + 1, 8), ORDER),
        ],
    )
    # r + n is not below the prime, so that r itself is the only x.
    yield Group("The sum's x is r, where r + n is the prime or more", cases(some_points(PRIME - ORDER, 1, 6), 0))
    yield Group(
        "The sum's x is r + n modulo the prime, or modulo 2^256, which is no x of r",
        [*cases(some_points(0, 1, 8), ORDER - PRIME), *cases(some_points(0, 1, 4), ORDER - 2**256)],
    )


def same_r(some: random.Random) -> Group:
    """Both r and r + n are the x of a point: one signature, and two keys of either kind."""
    numbers = [r for r in range(1, 200) if lifted(r, False) and lifted(r + ORDER, False)][:6]
    cases = []
    for r in numbers:
        message, s = some.randbytes(2), some.randrange(1, ORDER)
        points = [lifted(x, is_odd) for x, is_odd in product((r, r + ORDER), (False, True))]
        cases += [case_for(message, it, r, s) for it in points if it]
    return Group("One signature by four keys each: the sum's x is r or r + n, its y even or odd", cases)


def out_of_range(some: random.Random) -> Iterator[Group]:
    """Numbers that are none of a signature, and those beside them."""
    ends = {
        "0, of which there is no inverse": 0,
        "1": 1,
        "n - 1": ORDER - 1,
        "n": ORDER,
        "n + 1": ORDER + 1,
        "p - 1": PRIME - 1,
        "p": PRIME,
        "p + 1": PRIME + 1,
        "2^255": 2**255,
        "2^256 - 1": 2**256 - 1,
        "2^256": 2**256,
        "2^256 + 1": 2**256 + 1,
        "-1": -1,
        "-n": -ORDER,
        "2^512": 2**512,
        "of 130 bytes": 2**1039 - 1,
    }
    for name, number in ends.items():
        cases = []
        for _ in range(2):
            signer, message = some_signer(some), some.randbytes(2)
            r, s = signer.numbers(message, some.randrange(1, ORDER))
            pairs = [(number, s), (r, number), (number, number)]
            cases += [Case(signer.compressed, message, signature_of(*it)) for it in pairs]
        yield Group(f"r, s, or both are {name}", cases)
    ends_of_both = [0, 1, ORDER - 1, ORDER]
    signer, message = some_signer(some), b"both"
    yield Group(
        "r and s are two of 0, 1, n - 1, n",
        [Case(signer.uncompressed, message, signature_of(*it)) for it in product(ends_of_both, ends_of_both)],
    )


def other_numbers(some: random.Random) -> Iterator[Group]:
    """Numbers that are the same modulo the order, or opposite."""
    pairs = [(some_signer(some), some.randbytes(3), some.randrange(1, ORDER)) for _ in range(20)]
    high, other = [], []
    for place, (signer, message, nonce) in enumerate(pairs):
        r, s = signer.numbers(message, nonce)
        high += [Case(signer.compressed, message, signature_of(r, it)) for it in sorted([s, ORDER - s])]
        if place < 6:
            changed = [(r + ORDER, s), (r, s + ORDER), (r + ORDER, s + ORDER), (ORDER - r, s)]
            changed += [(-r, s), (r, -s), (-r, -s)]
            changed += [(r, s + 2 * ORDER), (r, s - ORDER), (r - ORDER, s), (r + PRIME, s)]
            changed += [(s, r), (r, r), (s, s), (r, inverse(s))]
            other += [Case(signer.compressed, message, signature_of(*it)) for it in changed]
    yield Group("Both values of s, below and above half the order, are a signature", high)
    yield Group("r + n, s + n, both, n - r, and other numbers of this kind are none", other)
    # r below p - n, so that r + n is below 2^256 and fits 33 bytes.
    points = list(some_points(2**64, 1, 4))
    small = [case_for(b"small", it, it.x, 5) for it in points]
    yield Group(
        "r and r + n, s and s + n, where each of them fits 32 bytes",
        [
            changed
            for it, point in zip(small, points, strict=True)
            for changed in (
                it,
                it._replace(signature=signature_of(point.x + ORDER, 5)),
                it._replace(signature=signature_of(point.x, 5 + ORDER)),
            )
        ],
    )


def groups(some: random.Random) -> Iterator[Group]:
    """All groups of this file."""
    yield special_keys(some)
    yield special_nonces(some)
    yield from special_multiples(some)
    yield from meeting(some)
    yield from special_x(some)
    yield same_r(some)
    yield from out_of_range(some)
    yield from other_numbers(some)
