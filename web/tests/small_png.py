"""Makes a PNG of a browser smaller: of at most 256 colors, which is enough for a page."""
import struct
import zlib


def chunks_of(data: bytes) -> list[tuple[bytes, bytes]]:
    """The parts of a PNG, each with its name."""
    found, at = [], 8
    while at < len(data):
        size = int.from_bytes(data[at : at + 4], "big")
        found.append((data[at + 4 : at + 8], data[at + 8 : at + 8 + size]))
        at += 12 + size
    return found


def near(left: int, above: int, corner: int) -> int:
    """Of three numbers the one that is nearest to left + above - corner, as PNG has it."""
    whole = left + above - corner
    apart = [abs(whole - it) for it in (left, above, corner)]
    return (left, above, corner)[apart.index(min(apart))]


def rows_of(data: bytes, stride: int, step: int) -> list[bytes]:
    """The rows of a picture's bytes, without their filters."""
    found, before = [], bytes(stride)
    for at in range(0, len(data), stride + 1):
        kind, row = data[at], bytearray(data[at + 1 : at + 1 + stride])
        if kind:
            for place in range(stride):
                left, corner = (row[place - step], before[place - step]) if place >= step else (0, 0)
                above = before[place]
                added = (0, left, above, (left + above) // 2, near(left, above, corner))[kind]
                row[place] = (row[place] + added) & 255
        before = bytes(row)
        found.append(before)
    return found


def colors_of(rows: list[bytes], step: int) -> tuple[list[list[bytes]], dict[bytes, int]]:
    """The pixels of rows, each of as many bits as leave 256 colors, and the numbers of these."""
    pixels = [[row[at : at + 3] for at in range(0, len(row), step)] for row in rows]
    known = {it for row in pixels for it in row}
    for bits in range(9):
        to = {it: bytes(min(255, ((part + (1 << bits >> 1)) >> bits) << bits) for part in it) for it in known}
        if len(set(to.values())) <= 256:
            numbers = {it: place for place, it in enumerate(sorted(set(to.values())))}
            return [[to[it] for it in row] for row in pixels], numbers
    raise AssertionError


def smaller(data: bytes) -> bytes:
    """The same picture, with a palette."""
    parts = chunks_of(data)
    width, height, depth, kind, *_ = struct.unpack(">IIBBBBB", parts[0][1])
    step = {2: 3, 6: 4}[kind]
    assert depth == 8
    whole = zlib.decompress(b"".join(it for name, it in parts if name == b"IDAT"))
    pixels, numbers = colors_of(rows_of(whole, width * step, step), step)
    packed = b"".join(b"\0" + bytes(numbers[it] for it in row) for row in pixels)
    written = [
        (b"IHDR", struct.pack(">IIBBBBB", width, height, 8, 3, 0, 0, 0)),
        (b"PLTE", b"".join(numbers)),
        (b"IDAT", zlib.compress(packed, 9)),
        (b"IEND", b""),
    ]
    sealed = (name + it + zlib.crc32(name + it).to_bytes(4, "big") for name, it in written)
    return data[:8] + b"".join((len(it) - 8).to_bytes(4, "big") + it for it in sealed)
