"""Cases of signatures that are right: by each program, of messages of many lengths; and random changes of some."""
import random
from collections.abc import Iterator, Sequence

from p256.curve import ORDER
from p256.forms import signature_of
from p256.mutations import Cases
from p256.programs import Case, Program, Task
from p256.signers import Group, Signer, some_signer

# RFC 6979, A.2.5: the private key, and the numbers r and s of two messages.
SECRET = 0xC9AFA9D845BA75166B5C215767B1D6934E50C3DB36E89B127B8A622B120F6721
EXAMPLES = {
    b"sample": (
        0xEFD48B2AACB6A8FD1140DD9CD45E81D69D2C877B56AAF991C34D0EA84EAF3716,
        0xF7CB1C942D657C41D436C7A1B6E29F65F3E900DBB9AFF4064DC4AB2F843ACDA8,
    ),
    b"test": (
        0xF1ABB023518351CD71D881567B1EA663ED3EFCF6C5132B354F28D3B0B7D38367,
        0x019F4113742A2B14BD25926B49C649155F267E60D3814B4C0CC84250E46F0083,
    ),
}
LENGTHS = [
    *range(4),
    31,
    32,
    33,
    *range(53, 58),
    *range(62, 67),
    111,
    112,
    *range(118, 122),
    127,
    128,
    129,
    183,
    184,
    *range(191, 194),
    247,
    248,
    255,
    256,
    257,
    511,
    512,
    513,
    1000,
    1023,
    1024,
    1025,
    2048,
    4096,
]


def published() -> Group:
    """The example of a standard."""
    signer = Signer(SECRET)
    keys, signatures = [signer.compressed, signer.uncompressed], {
        it: signature_of(*pair) for it, pair in EXAMPLES.items()
    }
    cases = [Case(key, message, it) for key in keys for message in EXAMPLES for it in signatures.values()]
    return Group("The example of RFC 6979, A.2.5, with SHA-256: each message with either signature", cases)


def by_program(some: random.Random, program: Program) -> Group:
    """Signatures that a program makes."""
    signers = [some_signer(some) for _ in range(48)]
    messages = [some.randbytes(some.randrange(24)) for _ in signers]
    signatures = program.sign([Task(it.secret, message) for it, message in zip(signers, messages, strict=True)])
    keys = [it.uncompressed if place % 3 == 2 else it.compressed for place, it in enumerate(signers)]
    cases = [Case(*it) for it in zip(keys, messages, signatures, strict=True)]
    return Group(f"Keys and messages by chance, signed by {program.name}", cases)


def by_length(some: random.Random) -> Iterator[Group]:
    """Messages about the ends of the blocks of SHA-256, and long ones."""
    signer = some_signer(some)
    messages = [some.randbytes(it) for it in LENGTHS]
    cases = [Case(signer.compressed, it, signer.sign(it, some.randrange(1, ORDER))) for it in messages]
    yield Group(
        f"Messages of {len(LENGTHS)} lengths to {LENGTHS[-1]} bytes, also about the ends of the blocks of SHA-256",
        cases,
    )
    short = [it for it in cases if len(it.message) in (55, 56, 63, 64, 65, 119, 120, 128)]
    yield Group(
        "Some of these with another last byte, with a zero more, and with the padding of SHA-256 begun",
        [
            it._replace(message=message)
            for it in short
            for message in (it.message[:-1] + bytes([it.message[-1] ^ 1]), it.message + b"\0", it.message + b"\x80")
        ],
    )


def by_chance(some: random.Random, count: int) -> Group:
    """Random changes."""
    cases = Cases(some)
    return Group(
        "Random changes of keys, messages and signatures, and some that are right", [cases.any() for _ in range(count)]
    )


def groups(some: random.Random, makers: Sequence[Program]) -> Iterator[Group]:
    """All groups of this file."""
    yield published()
    for program in makers:
        yield by_program(some, program)
    yield from by_length(some)
    yield by_chance(some, 100)
