"""Names and bytes that the hash maps of the programs take for one another, and how they are told apart.

A map hashes what it is asked for by a quick hash without a secret, so anybody finds any number of names of one hash
(`names`, `thirty_two_bytes`). Behind it stands SipHash-1-3 with no key, of which some bits can be made the same by
trying (`crowding_names`).
"""
import functools
import itertools
import pathlib
import subprocess
import sys
from collections.abc import Callable

TOOLS = pathlib.Path(__file__).resolve().parents[1]
LETTERS = "abcdefghijklmnopqrstuvwxyz"
MASK = 2**64 - 1

# The quick hash: what it starts from, and what it multiplies by.
START = 0x243F6A8885A308D3
FACTOR = 0x9E3779B97F4A7C15

# Texts of 32 letters that begin so have one quick hash, whatever their last eight letters.
PREFIX = "aaaaaaaacygosaaavksamkgc"


def word(number: int, length: int) -> str:
    """A word of letters for a number, another one for each that the length has room for."""
    signs = []
    for _ in range(length):
        number, sign = divmod(number, 26)
        signs.append(LETTERS[sign])
        if not number:
            break
    return "".join(signs).ljust(length, "a")


def names(count: int) -> list[str]:
    """So many texts of 32 letters that have one quick hash."""
    return [PREFIX + word(place, 8) for place in range(count)]


def thirty_two_bytes(place: int) -> bytes:
    """32 bytes for a number. Whatever was hashed before them, all that are made so have one quick hash: a factor of
    each product is 0."""
    return place.to_bytes(8, "little") + FACTOR.to_bytes(8, "little") + bytes(8) + FACTOR.to_bytes(8, "little")


def folded(left: int, right: int) -> int:
    """The product of two numbers of 64 bits, its halves joined."""
    product = left * right
    return (product & MASK) ^ (product >> 64)


def quick_hash(given: bytes, state: int = START) -> int:
    """The quick hash after more than 8 bytes."""
    state = (state + len(given)) & MASK
    blocks = [given[at : at + 16] for at in range(0, len(given) - 16, 16)] + [given[-16:]]
    for block in blocks:
        state = folded(int.from_bytes(block[:8], "little") ^ state, int.from_bytes(block[8:], "little") ^ FACTOR)
    return state


def turned(number: int, by: int) -> int:
    """A number of 64 bits with its bits turned."""
    return ((number << by) | (number >> (64 - by))) & MASK


def sip_round(a: int, b: int, c: int, d: int) -> tuple[int, int, int, int]:
    """A round of SipHash."""
    a, c = (a + b) & MASK, (c + d) & MASK
    b, d = turned(b, 13) ^ a, turned(d, 16) ^ c
    a, c = (turned(a, 32) + d) & MASK, (c + b) & MASK
    d, b = turned(d, 21) ^ a, turned(b, 17) ^ c
    return a, b, turned(c, 32), d


def sip_hash(given: bytes) -> int:
    """SipHash-1-3 of the bytes, with no key."""
    state = (0x736F6D6570736575, 0x646F72616E646F6D, 0x6C7967656E657261, 0x7465646279746573)
    whole = len(given) - len(given) % 8
    last = int.from_bytes(given[whole:], "little") | (len(given) % 256) << 56
    for piece in [*(int.from_bytes(given[at : at + 8], "little") for at in range(0, whole, 8)), last]:
        a, b, c, d = sip_round(*state[:3], state[3] ^ piece)
        state = (a ^ piece, b, c, d)
    a, b, c, d = state
    a, b, c, d = sip_round(*sip_round(*sip_round(a, b, c ^ 0xFF, d)))
    return a ^ b ^ c ^ d


def ends_in_zeros(name: str) -> bool:
    """Whether the SipHash of a text, which is hashed with a byte of ones behind it, ends with six bits 0."""
    return sip_hash(name.encode() + b"\xff") % 64 == 0


def crowding_here(count: int, is_found: Callable[[str], bool]) -> list[str]:
    """So many of the names of one quick hash of which that holds."""
    every = (PREFIX + word(place, 8) for place in itertools.count())
    return list(itertools.islice(filter(is_found, every), count))


def quick_crowding(count: int) -> list[str]:
    """The same by this interpreter's own hash of bytes."""
    return crowding_here(count, lambda name: hash(name.encode() + b"\xff") % 64 == 0)


@functools.cache
def crowding_names(count: int) -> tuple[str, ...]:
    """So many names of one quick hash that lie in a 64th of the buckets by SipHash too: 64 are tried for each. An
    interpreter that was started without a seed hashes bytes just so, and finds them much sooner."""
    if sys.hash_info.algorithm != "siphash13":
        return tuple(crowding_here(count, ends_in_zeros))
    called = "from search.one_hash import quick_crowding; print('\\n'.join(quick_crowding(int(sys.argv[2]))))"
    command = [sys.executable, "-c", "import sys; sys.path.insert(0, sys.argv[1]); " + called, str(TOOLS), str(count)]
    said = subprocess.run(command, env={"PYTHONHASHSEED": "0"}, capture_output=True, text=True, check=True)
    return tuple(said.stdout.split())
