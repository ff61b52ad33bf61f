"""The parts of the rows of comparisons, written from docs/FORMATS.md and RFC 9162, section 2.1, alone: trees, leaves,
checkpoints that no key signed, and lines. The trees are computed here, with Python's hashlib."""

import base64
import json
from typing import Any, NamedTuple

from log_parts import hash_text, sha256, varint

Row = dict[str, Any]


# ---- trees


def root_of(entries: list[bytes]) -> bytes:
    """The root of the tree over these entries (RFC 9162, 2.1.1)."""
    if not entries:
        return sha256(b"")
    if len(entries) == 1:
        return sha256(b"\0" + entries[0])
    half = half_of(len(entries))
    return sha256(b"\1" + root_of(entries[:half]) + root_of(entries[half:]))


def half_of(count: int) -> int:
    """The greatest power of two below the count."""
    half = 1
    while 2 * half < count:
        half *= 2
    return half


def inclusion(place: int, entries: list[bytes]) -> list[bytes]:
    """The path of the entry at the place (2.1.3.1)."""
    if len(entries) == 1:
        return []
    half = half_of(len(entries))
    if place < half:
        return [*inclusion(place, entries[:half]), root_of(entries[half:])]
    return [*inclusion(place - half, entries[half:]), root_of(entries[:half])]


def consistency(first: int, entries: list[bytes]) -> list[bytes]:
    """The proof that the tree goes on from that over its first entries (2.1.4.1), of which there is one at least."""
    return sub_proof(first, entries, True)


def sub_proof(first: int, entries: list[bytes], is_known: bool) -> list[bytes]:
    if first == len(entries):
        return [] if is_known else [root_of(entries)]
    half = half_of(len(entries))
    if first <= half:
        return [*sub_proof(first, entries[:half], is_known), root_of(entries[half:])]
    return [*sub_proof(first - half, entries[half:], False), root_of(entries[:half])]


def proof_text(hashes: list[bytes]) -> str:
    return base64.b64encode(b"".join(hashes)).decode()


# ---- leaves and checkpoints


class Leaf(NamedTuple):
    """A leaf, by the ids of its log and of its record."""

    log_id: str
    record_id: str

    def entry(self) -> bytes:
        ids = [varint(len(it)) + it.encode() for it in self]
        return b"WARG-LOG-LEAF-V0" + b"".join(ids)


LOGS = [hash_text(f"log {place}".encode()) for place in range(3)]
LEAVES = [Leaf(LOGS[place % 3], hash_text(f"record {place}".encode())) for place in range(7)]
TURNED = LEAVES[:4] + [LEAVES[5], LEAVES[4], LEAVES[6]]
ROOT_OF_MAP = hash_text(b"the map")
GREATEST = 2**64 - 1


class View(NamedTuple):
    """A checkpoint as a registry signs it."""

    length: int
    log_root: str
    map_root: str = ROOT_OF_MAP
    time: int = 1_700_000_000

    def members(self) -> Row:
        return {"logRoot": self.log_root, "logLength": self.length, "mapRoot": self.map_root, "timestamp": self.time}

    def text(self, key: str = "key", signature: str = "none:") -> str:
        return json.dumps({"contents": self.members(), "keyId": hash_text(key.encode()), "signature": signature})


def entries_of(leaves: list[Leaf]) -> list[bytes]:
    return [leaf.entry() for leaf in leaves]


def view_of(leaves: list[Leaf]) -> View:
    return View(len(leaves), "sha256:" + root_of(entries_of(leaves)).hex())


def goes_on(first: int, leaves: list[Leaf]) -> str:
    return proof_text(consistency(first, entries_of(leaves)))


def stands(place: int, leaves: list[Leaf]) -> str:
    return proof_text(inclusion(place, entries_of(leaves)))


# ---- rows


def row(title: str, words: list[str], status: int, prints: list[str], says: str | None = None, **more: Any) -> Row:
    found = {"row": title, "words": words, "status": status, **more, "prints": prints}
    return {**found, "says": [says]} if says else found


class Line(NamedTuple):
    """A line with its status and the members that its object has."""

    text: str
    status: int
    members: Row

    def json(self) -> str:
        verdict = {"command": "compare", "verdict": self.text.rstrip(" 0123456789")}
        return json.dumps({**verdict, **self.members, "status": self.status}, separators=(",", ":"))


def line_of(verdict: str, status: int, *lengths: int) -> Line:
    names = ["old", "new"] if len(lengths) == 2 else ["length"]
    return Line(" ".join([verdict, *map(str, lengths)]), status, dict(zip(names, lengths)))


def in_json(found: Row, line: Line) -> Row:
    return {**found, "row": found["row"] + ", in JSON", "words": [*found["words"], "--json"], "prints": [line.json()]}
