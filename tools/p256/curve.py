"""The curve P-256 in whole numbers (SEC 2, 2.4.2; FIPS 186-5): plain affine arithmetic, to make cases with and for
nothing else. It is slow, and its time tells its numbers."""
from typing import NamedTuple

PRIME = 2**256 - 2**224 + 2**192 + 2**96 - 1
ORDER = 0xFFFFFFFF00000000FFFFFFFFFFFFFFFFBCE6FAADA7179E84F3B9CAC2FC632551
B = 0x5AC635D8AA3A93E7B3EBBD55769886BC651D06B0CC53B0F63BCE3C3E27D2604B


class Point(NamedTuple):
    """A point of the curve. The one at infinity is None."""

    x: int
    y: int


BASE = Point(
    0x6B17D1F2E12C4247F8BCE6E563A440F277037D812DEB33A0F4A13945D898C296,
    0x4FE342E2FE1A7F9B8EE7EB4A7C0F9E162BCE33576B315ECECBB6406837BF51F5,
)


def right_side(x: int) -> int:
    """x^3 - 3x + b."""
    return (x * x * x - 3 * x + B) % PRIME


def is_on_curve(point: Point) -> bool:
    """Whether the numbers, which are below the prime, are a point of the curve."""
    return point.y * point.y % PRIME == right_side(point.x)


def lifted(x: int, is_odd: bool) -> Point | None:
    """The point with this x whose y is odd, or even; none where there is no such point."""
    root = pow(right_side(x), (PRIME + 1) // 4, PRIME)
    if root * root % PRIME != right_side(x):
        return None
    return Point(x, root if root % 2 == is_odd else PRIME - root)


def negated(point: Point | None) -> Point | None:
    """The opposite point."""
    return point and Point(point.x, -point.y % PRIME)


def add(left: Point | None, right: Point | None) -> Point | None:
    """The sum of two points."""
    if left is None or right is None:
        return left or right
    if left.x != right.x:
        slope = (right.y - left.y) * pow(right.x - left.x, -1, PRIME)
    elif (left.y + right.y) % PRIME == 0:
        return None
    else:
        slope = (3 * left.x * left.x - 3) * pow(2 * left.y, -1, PRIME)
    x = (slope * slope - left.x - right.x) % PRIME
    return Point(x, (slope * (left.x - x) - left.y) % PRIME)


def multiple(count: int, point: Point | None) -> Point | None:
    """The point so many times, modulo the order."""
    found, count = None, count % ORDER
    while count:
        if count % 2:
            found = add(found, point)
        point, count = add(point, point), count // 2
    return found
