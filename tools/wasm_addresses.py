"""Modules of WebAssembly whose memory has addresses of 64 bits, written as ones whose memory has addresses of 32 bits,
which every engine has, and which engines look at faster.

In the code addresses stay numbers of 64 bits, so that no size of the proved code changes; each access takes the lower
half of its own. No memory has `MOST` pages or more, so an address below 0, as where the stack ends, is none of memory
all the same: it traps. The upper half of any other address of the proved code is 0, since there is no such memory.
"""

from collections.abc import Iterator

# So many pages of 64 KiB memory has at most: 4 GiB without the last 64 MiB.
MOST = 65536 - 1024

# Sections that are read, and those that stay as they are: texts of tools, tables, globals, exports, elements, and how
# many pieces of data there are.
TYPES, FUNCTIONS, MEMORIES, CODE, DATA = 1, 3, 5, 10, 11
KEPT = {0, 4, 6, 7, 9, 12}
I32, I64, F32, F64, V128 = 0x7F, 0x7E, 0x7D, 0x7C, 0x7B
SET, TEE, GET = b"\x21", b"\x22", b"\x20"
WRAP, SIGNED, UNSIGNED = b"\xa7", b"\xac", b"\xad"
END = b"\x0b"

# What follows instructions of one byte: a type of a block, or so many numbers; nothing where they are not named.
BLOCKS = {0x02, 0x03, 0x04}
NUMBERS = {0x0C: 1, 0x0D: 1, 0x10: 1, 0x11: 2, 0x41: 1, 0x42: 1, **{it: 1 for it in range(0x20, 0x25)}}
BARE = {0x00, 0x01, 0x05, 0x0B, 0x0F, 0x1A, 0x1B, *range(0x45, 0xC5)}
FIXED = {0x43: 4, 0x44: 8}
BRANCHES, SIZE, GROW, MORE, VECTORS = 0x0E, 0x3F, 0x40, 0xFC, 0xFD
LOADS = set(range(0x28, 0x36))
STORES = {0x36: I32, 0x37: I64, 0x38: F32, 0x39: F64, 0x3A: I32, 0x3B: I32, 0x3C: I64, 0x3D: I64, 0x3E: I64}
# Of those behind 0xfc: conversions, and copying and filling memory.
CONVERSIONS, COPY, FILL = set(range(8)), 10, 11
# Of those behind 0xfd.
VECTOR_LOADS = {*range(11), 92, 93}
VECTOR_STORE, VECTOR_LANES = 11, set(range(84, 92))
VECTOR_BYTES = {12: 16, 13: 16, **{it: 1 for it in range(21, 35)}}
VECTOR_BARE = {14, 15, 16, 17, 18, 19, 20, *range(35, 84), *range(94, 256)}


class NoModule(Exception):
    """The bytes are none of a module that can be written so, and why."""


class Reader:
    """Bytes, and how far they are read."""

    def __init__(self, data: bytes) -> None:
        self.data, self.at = data, 0

    def __bool__(self) -> bool:
        return self.at < len(self.data)

    def byte(self) -> int:
        """The next byte."""
        self.at += 1
        return self.data[self.at - 1]

    def bytes(self, count: int) -> bytes:
        """So many bytes."""
        self.at += count
        return self.data[self.at - count : self.at]

    def number(self) -> int:
        """A number without a sign, in LEB128."""
        number = places = 0
        while True:
            byte = self.byte()
            number |= (byte & 0x7F) << places
            places += 7
            if byte < 0x80:
                return number

    def signed(self) -> int:
        """A number with a sign, in LEB128."""
        start = self.at
        number = self.number()
        places = 7 * (self.at - start)
        return number - (1 << places) if number >> places - 1 else number

    def part(self) -> "Reader":
        """What stands behind its length."""
        return Reader(self.bytes(self.number()))


def number_of(number: int) -> bytes:
    """The bytes of a number without a sign."""
    out = bytearray()
    while number > 0x7F:
        out.append(number & 0x7F | 0x80)
        number >>= 7
    return bytes([*out, number])


def signed_of(number: int) -> bytes:
    """The bytes of a number with a sign."""
    out = bytearray()
    while not -0x40 <= number < 0x40:
        out.append(number & 0x7F | 0x80)
        number >>= 7
    return bytes([*out, number & 0x7F])


class Body:
    """A function, of which so many parameters are known, as it is written anew."""

    def __init__(self, body: Reader, parameters: int) -> None:
        self.body, self.out = body, bytearray()
        self.groups = [(body.number(), body.byte()) for _ in range(body.number())]
        self.count = parameters + sum(count for count, _ in self.groups)
        self.added: list[tuple[int, int]] = []

    def written(self) -> bytes:
        """The function with its length."""
        while self.body:
            self.instruction()
        groups = [*self.groups, *((1, kind) for kind, _ in self.added)]
        head = number_of(len(groups)) + b"".join(number_of(count) + bytes([kind]) for count, kind in groups)
        return number_of(len(head) + len(self.out)) + head + bytes(self.out)

    def local(self, kind: int, which: int = 0) -> bytes:
        """A local variable of a type, for what stands above an address."""
        if (kind, which) not in self.added:
            self.added.append((kind, which))
        return number_of(self.count + self.added.index((kind, which)))

    def below(self, kind: int) -> bytes:
        """Wraps the address below a value of a type."""
        local = self.local(kind)
        return SET + local + WRAP + GET + local

    def access(self, instruction: bytes, lane: int = 0) -> None:
        """An access, with its alignment and its offset, which are written as short as they can be."""
        alignment, offset = self.body.number(), self.body.number()
        if offset >= 1 << 32:
            raise NoModule(f"an access has the offset {offset}")
        self.out += instruction + number_of(alignment) + number_of(offset) + self.body.bytes(lane)

    def instruction(self) -> None:
        """Writes the next instruction."""
        start, code = self.body.at, self.body.byte()
        if code in LOADS:
            self.out += WRAP
            self.access(bytes([code]))
        elif code in STORES:
            self.out += self.below(STORES[code])
            self.access(bytes([code]))
        elif code == SIZE:
            self.body.number()
            self.out += bytes([SIZE, 0]) + UNSIGNED
        elif code == GROW:
            self.body.number()
            self.grow()
        elif code == MORE:
            self.more(start)
        elif code == VECTORS:
            self.vector(start)
        else:
            self.others(code)
            self.keep(start)

    def keep(self, start: int) -> None:
        """Writes what was read from there on as it is."""
        self.out += self.body.data[start : self.body.at]

    def others(self, code: int) -> None:
        """Reads what follows an instruction that takes no address."""
        if code in BLOCKS:
            self.body.signed()
        elif code in FIXED:
            self.body.bytes(FIXED[code])
        elif code == BRANCHES:
            for _ in range(self.body.number() + 1):
                self.body.number()
        elif code in NUMBERS:
            for _ in range(NUMBERS[code]):
                self.body.number()
        elif code not in BARE:
            raise NoModule(f"an instruction is {code:#x}")

    def grow(self) -> None:
        """Growth by a number of pages of 64 bits: as many as no memory has are refused, as others are by the engine."""
        pages = self.local(I64)
        self.out += TEE + pages + b"\x42" + signed_of(MOST) + b"\x56"  # i64.gt_u
        self.out += b"\x04\x7e\x42" + signed_of(-1) + b"\x05"  # if (result i64) i64.const -1 else
        self.out += GET + pages + WRAP + bytes([GROW, 0]) + SIGNED + END

    def more(self, start: int) -> None:
        """An instruction behind 0xfc."""
        code = self.body.number()
        if code in (COPY, FILL):
            self.body.bytes(2 if code == COPY else 1)
            length, middle = self.local(I32), self.local(I32, 1)
            self.out += WRAP + SET + length + (WRAP if code == COPY else b"") + SET + middle
            self.out += WRAP + GET + middle + GET + length
        elif code not in CONVERSIONS:
            raise NoModule(f"an instruction is 0xfc {code}")
        self.keep(start)

    def vector(self, start: int) -> None:
        """An instruction behind 0xfd."""
        code = self.body.number()
        instruction = self.body.data[start : self.body.at]
        if code in VECTOR_LOADS:
            self.out += WRAP
            self.access(instruction)
        elif code == VECTOR_STORE:
            self.out += self.below(V128)
            self.access(instruction)
        elif code in VECTOR_LANES:
            self.out += self.below(V128)
            self.access(instruction, 1)
        elif code in VECTOR_BYTES or code in VECTOR_BARE:
            self.body.bytes(VECTOR_BYTES.get(code, 0))
            self.keep(start)
        else:
            raise NoModule(f"an instruction is 0xfd {code}")


def sections(module: Reader) -> Iterator[tuple[int, Reader]]:
    """The sections of a module, with what each is."""
    if module.bytes(8) != b"\0asm\1\0\0\0":
        raise NoModule("it is no module")
    while module:
        yield module.byte(), module.part()


def parameters_of(types: Reader) -> list[int]:
    """How many parameters the functions of each type have."""
    counts = []
    for _ in range(types.number()):
        if types.byte() != 0x60:
            raise NoModule("a type is none of a function")
        counts.append(types.number())
        types.bytes(counts[-1])
        types.bytes(types.number())
    return counts


def memory_of(memories: Reader) -> bytes:
    """The one memory, with the pages that it begins with."""
    if memories.number() != 1 or memories.byte() != 0x04:
        raise NoModule("it has not one memory of 64 bits that may grow as it likes")
    return b"\x01\x01" + number_of(memories.number()) + number_of(MOST)


def data_of(data: Reader) -> bytes:
    """What is written into memory first, where the address of each piece is a constant."""
    count = data.number()
    out = bytearray(number_of(count))
    for _ in range(count):
        if data.bytes(2) != b"\0\x42":
            raise NoModule("the address of a piece of data is no constant")
        address, end, piece = data.signed(), data.bytes(1), data.part().data
        if end != END or not 0 <= address < 1 << 31:
            raise NoModule("the address of a piece of data is none of memory")
        out += b"\0\x41" + signed_of(address) + END + number_of(len(piece)) + piece
    return bytes(out)


def code_of(code: Reader, parameters: list[int]) -> bytes:
    """All functions."""
    if code.number() != len(parameters):
        raise NoModule("it has other functions than it says")
    return number_of(len(parameters)) + b"".join(Body(code.part(), count).written() for count in parameters)


def with_short_addresses(module: bytes) -> bytes:
    """The module as one with addresses of 32 bits. Raises `NoModule` where it has what is not known here."""
    out = bytearray(module[:8])
    counts: list[int] = []
    parameters: list[int] = []
    for kind, content in sections(Reader(module)):
        data = content.data
        if kind == TYPES:
            counts = parameters_of(content)
        elif kind == FUNCTIONS:
            parameters = [counts[content.number()] for _ in range(content.number())]
        elif kind == MEMORIES:
            data = memory_of(content)
        elif kind == CODE:
            data = code_of(content, parameters)
        elif kind == DATA:
            data = data_of(content)
        elif kind not in KEPT:
            raise NoModule(f"it has a section {kind}")
        out += bytes([kind]) + number_of(len(data)) + data
    return bytes(out)
