"""Cases of how a signature is written: what is DER of two numbers, and what is nearly so."""
import base64
import random
from collections.abc import Iterator

from p256.curve import ORDER
from p256.forms import INTEGER, SEQUENCE, contents_of, element, integer, numbers_of, signature_of
from p256.number_cases import some_points
from p256.programs import Case
from p256.signers import Group, case_for, some_signer


def signed_cases(some: random.Random) -> list[Case]:
    """Signatures whose numbers both begin with a high bit, neither, one of them, and both are short."""
    wanted = [(33, 33), (32, 32), (33, 32), (32, 33)]
    found: dict[tuple[int, int], Case] = {}
    signer = some_signer(some)
    while len(found) < len(wanted):
        message = some.randbytes(2)
        r, s = signer.numbers(message, some.randrange(1, ORDER))
        case = Case(signer.compressed, message, signature_of(r, s))
        found.setdefault((len(contents_of(r)), len(contents_of(s))), case)
        found = {it: found[it] for it in wanted if it in found}
    (point,) = some_points(2**20, 1, 1)
    return [*found.values(), case_for(b"ok", point, point.x, 300)]


def raw(tag: int, length: bytes, contents: bytes) -> bytes:
    """A tag, the bytes of a length, whatever it is, and contents."""
    return bytes([tag]) + length + contents


def lengths(tag: int, contents: bytes) -> Iterator[tuple[str, bytes]]:
    """The contents behind every wrong length."""
    n = len(contents)
    yield "one less", raw(tag, bytes([n - 1]), contents)
    yield "one more", raw(tag, bytes([n + 1]), contents)
    yield "0", raw(tag, b"\0", contents)
    yield "127", raw(tag, b"\x7f", contents)
    yield "in two bytes", raw(tag, bytes([0x81, n]), contents)
    yield "in three bytes", raw(tag, bytes([0x82, 0, n]), contents)
    yield "in five bytes", raw(tag, bytes([0x84, 0, 0, 0, n]), contents)
    yield "in nine bytes", raw(tag, bytes([0x88, *bytes(7), n]), contents)
    yield "256 more, in three bytes", raw(tag, bytes([0x82, 1, n]), contents)
    yield "2^32 more, in six bytes", raw(tag, bytes([0x85, 1, 0, 0, 0, n]), contents)
    yield "2^64 - 1", raw(tag, b"\x88" + b"\xff" * 8, contents)
    yield "indefinite", raw(tag, b"\x80", contents)
    yield "indefinite, with an end", raw(tag, b"\x80", contents + b"\0\0")
    yield "reserved", raw(tag, b"\xff", contents)
    yield "left out", raw(tag, b"", contents)


def numbers(number: int) -> Iterator[tuple[str, bytes]]:
    """An INTEGER of the number in ways that are not the shortest, and of other numbers that one might take for it."""
    contents = contents_of(number)
    yield "a zero more", element(INTEGER, b"\0" + contents)
    yield "two zeros more", element(INTEGER, b"\0\0" + contents)
    yield "40 zeros more", element(INTEGER, bytes(40) + contents)
    yield "a byte ff before it", element(INTEGER, b"\xff" + contents)
    yield "a byte 01 before it", element(INTEGER, b"\x01" + contents)
    yield "a zero behind it", element(INTEGER, contents + b"\0")
    yield "its last byte left out", element(INTEGER, contents[:-1])
    yield "its first byte left out", element(INTEGER, contents[1:])
    yield "no byte", element(INTEGER, b"")
    yield "its two's complement", integer(-number)
    yield "its bytes the other way round", element(INTEGER, contents[::-1])
    for tag in (0x00, 0x01, 0x03, 0x04, 0x05, 0x0A, 0x0C, 0x22, 0x42, 0x82, 0xA2, SEQUENCE, 0xFF):
        yield f"the tag {tag:02x}", element(tag, contents)


def as_parts(case: Case) -> tuple[int, int]:
    numbers_ = numbers_of(case.signature)
    assert numbers_ is not None
    return numbers_


def inner(cases: list[Case]) -> Iterator[Group]:
    """Each number by itself is written otherwise; the length of both is that of what is written."""
    found: dict[str, list[Case]] = {}
    for case in cases:
        r, s = as_parts(case)
        for name, data in [
            *numbers(r),
            *((f"the length is {it}", data) for it, data in lengths(INTEGER, contents_of(r))),
        ]:
            found.setdefault(f"r: {name}", []).append(case._replace(signature=element(SEQUENCE, data + integer(s))))
        for name, data in [
            *numbers(s),
            *((f"the length is {it}", data) for it, data in lengths(INTEGER, contents_of(s))),
        ]:
            found.setdefault(f"s: {name}", []).append(case._replace(signature=element(SEQUENCE, integer(r) + data)))
    for title, those in found.items():
        yield Group(title, those)


def outer(cases: list[Case]) -> Iterator[Group]:
    """The sequence is written otherwise."""
    found: dict[str, list[Case]] = {}
    for case in cases:
        contents = case.signature[2:]
        shapes = [(f"The length of the sequence is {it}", data) for it, data in lengths(SEQUENCE, contents)]
        for tag in (0x00, 0x02, 0x10, 0x24, 0x31, 0x60, 0x70, 0xA0, 0xB0, 0xF0, 0xFF):
            shapes.append((f"The sequence has the tag {tag:02x}", element(tag, contents)))
        for title, data in shapes:
            found.setdefault(title, []).append(case._replace(signature=data))
    for title, those in found.items():
        yield Group(title, those)


def more(case: Case) -> Iterator[tuple[str, bytes]]:
    """Bytes and elements too many, too few, or elsewhere."""
    r, s = map(integer, as_parts(case))
    null, zero = b"\x05\0", integer(0)
    for extra in (b"\0", b"\0\0", b"\x01", b"\xff", null, zero, r, case.signature):
        yield "Bytes behind the signature", case.signature + extra
        yield "Bytes behind the two numbers, within the sequence", element(SEQUENCE, r + s + extra)
        yield "Bytes between the two numbers", element(SEQUENCE, r + extra + s)
        yield "Bytes before the two numbers", element(SEQUENCE, extra + r + s)
        yield "Bytes before the signature", extra + case.signature
    yield "The numbers in the other order", element(SEQUENCE, s + r)
    for few in (b"", r, s, zero, null, r + null, null + s, element(INTEGER, b"") * 2):
        yield "Fewer than two numbers", element(SEQUENCE, few)
    yield "A sequence in a sequence", element(SEQUENCE, case.signature)
    yield "A sequence in a sequence", element(SEQUENCE, element(SEQUENCE, r) + element(SEQUENCE, s))
    yield "Two numbers without a sequence", r + s
    yield "A bit string or an octet string of the signature", element(0x03, b"\0" + case.signature)
    yield "A bit string or an octet string of the signature", element(0x04, case.signature)


def others(cases: list[Case]) -> Iterator[Group]:
    """Those, the numbers without DER, and texts of the signature."""
    found: dict[str, list[Case]] = {}
    for case in cases:
        r, s = as_parts(case)
        plain = r.to_bytes(32, "big") + s.to_bytes(32, "big")
        shapes = [*more(case), ("The 64 bytes of both numbers, as IEEE P1363 has them", plain)]
        for text in (case.signature.hex(), base64.b64encode(case.signature).decode()):
            shapes.append(("The signature's text in place of its bytes", text.encode()))
        for title, data in shapes:
            found.setdefault(title, []).append(case._replace(signature=data))
    for title, those in found.items():
        yield Group(title, those)


def truncations(cases: list[Case]) -> Iterator[Group]:
    """Each beginning of a signature, and each end."""
    for case in (cases[0], cases[-1]):
        starts = [case._replace(signature=case.signature[:it]) for it in range(len(case.signature))]
        yield Group(f"A signature of {len(case.signature)} bytes, cut behind each byte; the first is empty", starts)
    case = cases[1]
    yield Group(
        "A signature without its first bytes", [case._replace(signature=case.signature[it:]) for it in range(1, 12)]
    )
    short = [
        bytes.fromhex(it)
        for it in (
            "00",
            "30",
            "3000",
            "3080",
            "30800000",
            "30020200",
            "300402000200",
            "3006020100020100",
            "3006020101020101",
        )
    ]
    yield Group("Hardly a byte", [case._replace(signature=it) for it in short])


def groups(some: random.Random) -> Iterator[Group]:
    """All groups of this file."""
    cases = signed_cases(some)
    yield Group("The signatures that are written otherwise below", cases)
    yield from outer(cases[:2])
    yield from inner([cases[0], cases[1]])
    yield from others(cases[2:3])
    yield from truncations(cases)
