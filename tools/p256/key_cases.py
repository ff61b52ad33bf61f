"""Cases of how a key is written, of other keys, messages and hashes, and of bits that are changed."""
import hashlib
import random
from collections.abc import Callable, Iterator

from p256.curve import ORDER, PRIME, B, lifted, multiple
from p256.forms import compressed, public_key_info, signature_of, uncompressed
from p256.programs import Case
from p256.signers import Group, Signer, inverse, point_of_secret, some_signer

# Other hashes than the one of SHA-256.
HASHES: dict[str, Callable[[bytes], bytes]] = {
    "cut at its first byte": lambda it: hashlib.sha256(it).digest()[1:],
    "cut at its last byte": lambda it: hashlib.sha256(it).digest()[:-1],
    "SHA-1": lambda it: hashlib.sha1(it).digest(),
    "SHA-224": lambda it: hashlib.sha224(it).digest(),
    "the first half of SHA-512": lambda it: hashlib.sha512(it).digest()[:32],
    "its second half": lambda it: hashlib.sha512(it).digest()[32:],
    "32 bytes of SHA-384": lambda it: hashlib.sha384(it).digest()[:32],
    "SHA3-256": lambda it: hashlib.sha3_256(it).digest(),
    "SHA-256 twice": lambda it: hashlib.sha256(hashlib.sha256(it).digest()).digest(),
    "the other way round": lambda it: hashlib.sha256(it).digest()[::-1],
    "with each bit changed": lambda it: bytes(255 - byte for byte in hashlib.sha256(it).digest()),
    "none, but the message itself": lambda it: it,
    "of the message's hex digits": lambda it: hashlib.sha256(it.hex().encode()).digest(),
}


def changed_bit(data: bytes, place: int) -> bytes:
    """The bytes with another bit at the place."""
    changed = bytearray(data)
    changed[place // 8] ^= 1 << place % 8
    return bytes(changed)


def cut_and_joined(short: bytes, long: bytes) -> list[bytes]:
    """Texts that are no key, made of the compressed and the uncompressed one."""
    too_short_or_long = [
        *(short[:-1], short[1:], short + b"\0", short + b"\x01", b"\0" + short, short[:17]),
        *(long[:-1], long[1:], long + b"\0", b"\0" + long),
    ]
    of_the_other_form = [long[:33], bytes([short[0]]) + long[1:], b"\x04" + short[1:]]
    tag_last_or_alone = [short[1:] + short[:1], long[1:] + b"\x04", b"", b"\0", short[:1]]
    twice_or_empty = [short + short, long + long, bytes(33), bytes(65), b"\x02" + bytes(31), b"\x04" + bytes(63)]
    other_texts = [
        *(public_key_info(long), short.hex().encode(), short[:1] + short[:0:-1]),
        *(b"\x04" + long[33:] + long[1:33], public_key_info(short)),
    ]
    return [*too_short_or_long, *of_the_other_form, *tag_last_or_alone, *twice_or_empty, *other_texts]


def forms(some: random.Random) -> Iterator[Group]:
    """A signature that is right, under a key that is written otherwise."""
    tags: list[Case] = []
    sizes: list[Case] = []
    for place in range(2):
        signer, message = Signer(some.randrange(1, ORDER)), some.randbytes(3)
        signature = signer.sign(message, some.randrange(1, ORDER))
        short, long = signer.compressed, signer.uncompressed
        tags += [
            Case(bytes([tag]) + it[1:], message, signature)
            for it in (short, long)
            for tag in (*range(9), 0x0A, 0x80, 0x82, 0x84, 0xFF)
        ]
        sizes += [Case(it, message, signature) for it in cut_and_joined(short, long)[place:]]
    yield Group("Each first byte before the rest of either form; 06 or 07 begins a hybrid point, which no key is", tags)
    yield Group(
        "Bytes too many, too few, or in another order; the point at infinity, a byte 0; other texts of the key", sizes
    )


def truncations(some: random.Random) -> Group:
    """Each beginning of a key, in both forms."""
    signer, message = some_signer(some), some.randbytes(2)
    signature = signer.sign(message, some.randrange(1, ORDER))
    keys = [signer.compressed[:it] for it in range(33)] + [signer.uncompressed[:it] for it in range(33, 65, 3)]
    return Group("A key, cut behind each byte", [Case(it, message, signature) for it in keys])


def coordinates(some: random.Random) -> Iterator[Group]:
    """Numbers that are no point's, or too great."""
    signer, message = some_signer(some), some.randbytes(2)
    signature = signer.sign(message, some.randrange(1, ORDER))
    x, y = signer.point

    def case(tag: int, *numbers: int) -> Case:
        return Case(bytes([tag]) + b"".join(it.to_bytes(32, "big") for it in numbers), message, signature)

    off = [(x, y ^ 1), (x ^ 1, y), (y, x), (x, 0), (0, y), (0, 0), (1, 1), (x, x)]
    off += [(PRIME - x, y), (x, (y + 1) % PRIME), (x, 2**256 - 1 - y)]
    yield Group("Off the curve", [case(4, *it) for it in off])
    yield Group("The opposite point, in both forms", [case(4, x, PRIME - y), case(2 + (y + 1) % 2, x)])
    great = [PRIME, PRIME + 1, PRIME + x % 2**200, 2**256 - 1, 2**256 - 2, PRIME + 5, PRIME + 6, PRIME + 2**200]
    yield Group("x is the prime or more", [case(tag, it) for it in great for tag in (2, 3)])
    yield Group(
        "x or y is the prime or more, uncompressed",
        [it for number in great for it in (case(4, number, y), case(4, x, number))],
    )
    root = pow(B, (PRIME + 1) // 4, PRIME)
    zero = [case(4, 0, root), case(4, 0, PRIME - root), case(2, 0), case(3, 0)]
    zero += [case(4, PRIME, root), case(2, PRIME), case(3, PRIME)]
    yield Group("x is 0, which is a point's, and the prime in its place: the signature is another's", zero)
    without = [it for it in range(1, 40) if lifted(it, False) is None][:10] + [
        PRIME - 1 - it for it in range(20) if lifted(PRIME - 1 - it, False) is None
    ][:6]
    yield Group("There is no point with this x", [case(tag, it) for it in without for tag in (2, 3)])


def other_keys(some: random.Random) -> Iterator[Group]:
    """Another key, and another message."""
    signers = [some_signer(some) for _ in range(10)]
    keys: list[Case] = []
    messages: list[Case] = []
    for place, signer in enumerate(signers):
        message = some.randbytes(4)
        case = Case(signer.compressed, message, signer.sign(message, some.randrange(1, ORDER)))
        other = signers[place - 1]
        double, half = multiple(2, signer.point), multiple(inverse(2), signer.point)
        assert double and half
        given = [other.compressed, other.uncompressed, compressed(double), uncompressed(half)]
        keys += [case._replace(key=it) for it in given]
        given = [b"", b"\0" + message, message + b"\0", message[:-1], message[1:], message[::-1], message * 2]
        messages += [case._replace(message=it) for it in given[place % 2 :: 2] if it != message]
    yield Group("Another key: of another signer, the double and the half of the signer's", keys)
    yield Group("Another message", messages)


def other_hashes(some: random.Random) -> Group:
    """Another hash."""
    cases = []
    for digest in HASHES.values():
        signer, message, nonce = some_signer(some), some.randbytes(4), some.randrange(1, ORDER)
        r = point_of_secret(nonce).x % ORDER
        s = (int.from_bytes(digest(message), "big") + r * signer.secret) * inverse(nonce) % ORDER
        cases.append(Case(signer.compressed, message, signature_of(r, s)))
    return Group(f"Another hash of the message is signed: {', '.join(HASHES)}", cases)


def bits(some: random.Random) -> Iterator[Group]:
    """A changed bit."""
    signer, message = some_signer(some), some.randbytes(2)
    case = Case(signer.compressed, message, signer.sign(message, some.randrange(1, ORDER)))
    yield Group(
        "Each bit of a signature is changed",
        [case._replace(signature=changed_bit(case.signature, it)) for it in range(8 * len(case.signature))],
    )
    for key in (signer.compressed, signer.uncompressed):
        places = [8 * it + some.randrange(8) for it in range(len(key))]
        yield Group(
            f"A bit of each byte of a key of {len(key)} bytes is changed",
            [case._replace(key=changed_bit(key, it)) for it in places],
        )
    long = some.randbytes(16)
    case = Case(signer.compressed, long, signer.sign(long, some.randrange(1, ORDER)))
    places = [8 * it + some.randrange(8) for it in range(len(long))]
    yield Group(
        "A bit of each byte of a message is changed",
        [case, *(case._replace(message=changed_bit(long, it)) for it in places)],
    )


def groups(some: random.Random) -> Iterator[Group]:
    """All groups of this file."""
    yield from forms(some)
    yield truncations(some)
    yield from coordinates(some)
    yield from other_keys(some)
    yield other_hashes(some)
    yield from bits(some)
