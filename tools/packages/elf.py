"""What a library or a program of ELF needs of the machine that it runs on, by its dynamic section."""

import pathlib
import re
import struct
from typing import NamedTuple

# The machines by their numbers in the header, as `uname -m` names them.
MACHINES = {62: "x86_64", 183: "aarch64"}
_LOAD, _DYNAMIC = 1, 2
_NEEDED, _STRTAB, _SONAME, _VERNEED, _VERNEEDNUM = 1, 5, 14, 0x6FFFFFFE, 0x6FFFFFFF


class Needs(NamedTuple):
    """The machine of a file; the name that it is looked for by, if it has one; the libraries that it asks for; and the
    version of glibc that it needs at least."""

    machine: str
    soname: str | None
    libraries: tuple[str, ...]
    glibc: tuple[int, int]


class _File:
    """A file of ELF, of 64 bits and with the lowest byte first."""

    def __init__(self, data: bytes) -> None:
        if data[:6] != b"\x7fELF\x02\x01":
            raise ValueError("it is no file of ELF of 64 bits")
        self.data = data
        (self.machine,) = struct.unpack_from("<H", data, 18)
        (start,), (size, count) = struct.unpack_from("<Q", data, 32), struct.unpack_from("<HH", data, 54)
        heads = (struct.unpack_from("<IIQQQQ", data, start + size * it) for it in range(count))
        # The kind, the place in the file, the address and the length of each segment.
        self.segments = [(kind, offset, address, length) for kind, _, offset, address, _, length in heads]

    def at(self, address: int) -> int:
        """The place in the file of an address."""
        for kind, offset, start, length in self.segments:
            if kind == _LOAD and start <= address < start + length:
                return int(offset + address - start)
        raise ValueError(f"no part of the file has the address {address}")

    def dynamic(self) -> list[tuple[int, int]]:
        """The dynamic section."""
        for kind, offset, _, length in self.segments:
            if kind == _DYNAMIC:
                return [(tag, value) for tag, value in struct.iter_unpack("<QQ", self.data[offset : offset + length])]
        return []

    def text(self, place: int) -> str:
        """The text that begins at a place of the file."""
        return self.data[place : self.data.index(b"\0", place)].decode()

    def versions(self, section: dict[int, int], names: int) -> list[str]:
        """The versions of other libraries' calls that it needs."""
        found = []
        at = self.at(section[_VERNEED]) if _VERNEED in section else 0
        for _ in range(section.get(_VERNEEDNUM, 0)):
            _, count, _, first, following = struct.unpack_from("<HHIII", self.data, at)
            below = at + first
            for _ in range(count):
                _, _, _, name, step = struct.unpack_from("<IHHII", self.data, below)
                found.append(self.text(names + name))
                below += step
            at += following
        return found


def needs(path: pathlib.Path) -> Needs:
    """What a file needs. An error where it is none of ELF."""
    file = _File(path.read_bytes())
    pairs = file.dynamic()
    section = dict(pairs)
    names = file.at(section[_STRTAB]) if section else 0
    # Names such as GLIBC_PRIVATE have no numbers.
    numbers = (re.match(r"GLIBC_(\d+)\.(\d+)", it) for it in file.versions(section, names))
    glibc = max(((int(it[1]), int(it[2])) for it in numbers if it), default=(2, 0))
    soname = file.text(names + section[_SONAME]) if _SONAME in section else None
    libraries = tuple(file.text(names + value) for tag, value in pairs if tag == _NEEDED)
    return Needs(MACHINES.get(file.machine, str(file.machine)), soname, libraries, glibc)
