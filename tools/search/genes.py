"""What inputs are made of, and how one input becomes another."""
import dataclasses
import json
import random
from collections.abc import Sequence
from typing import Any, NamedTuple

LOGS = ("package log", "operator log")
STATES = ("package state", "operator state")

SHARED_ENTRIES = ("empty", "grant", "revoke", "unknown", "pieces")
SHARED_MEMBERS = ("permissions", "keys", "unknown", "space")

# What an input of each format may have many of.
WHAT: dict[str, tuple[str, ...]] = {
    "package log": (*SHARED_ENTRIES, "release", "yank"),
    "operator log": (*SHARED_ENTRIES, "define", "import"),
    "package state": (*SHARED_MEMBERS, "releases"),
    "operator state": (*SHARED_MEMBERS, "namespaces"),
    "checkpoint": ("unknown", "space"),
    "leaves": ("leaf", "comment"),
    "claims": ("claim", "comment"),
    "proof": ("path", "space"),
}

# How the names of what there are many of differ: another one each time, the same, of one hash of the maps' first
# hasher, of a part of the second buckets too, and in falling order.
NAMES = ("fresh", "same", "one hash", "crowding", "falling")

# What stands as a value where JSON is read, beside what is right there.
VALUES = ("right", "lists", "objects", "nested", "numbers", "long number", "texts", "escapes", "null", "wrong")

# How a log ends: as its other entries do, or by an entry that is refused.
ENDINGS = ("lawful", "lawful", "refused")

LENGTHS = (1, 4, 8, 32, 100, 1000, 100_000)
COUNTS = (0, 1, 2, 4, 16, 100, 1000)
RECORDS = (1, 2, 10, 100, 10**9)


@dataclasses.dataclass(frozen=True)
class Part:
    """What an input has many of: what it is, its names and their length in bytes, how many of what it holds (as the
    permissions of a grant), and, in JSON, its values."""

    what: str
    name: str
    length: int
    count: int
    value: str


@dataclasses.dataclass(frozen=True)
class Genes:
    """An input: its format, its parts, how many entries a record has, and how a log ends."""

    format: str
    parts: tuple[Part, ...]
    a_record: int
    ending: str = "lawful"


class Inputs(NamedTuple):
    """A call by its name, and what each of its inputs is made of."""

    call: str
    genes: tuple[Genes, ...]

    def text(self) -> str:
        """The inputs as one line, from which they are made again."""
        return json.dumps([self.call, *(dataclasses.asdict(it) for it in self.genes)], separators=(",", ":"))


def inputs_of(text: str) -> Inputs:
    """The inputs that a line says."""
    call, *inputs = json.loads(text)
    return Inputs(call, tuple(genes_of(it) for it in inputs))


def genes_of(said: dict[str, Any]) -> Genes:
    parts = tuple(Part(**it) for it in said["parts"])
    return Genes(said["format"], parts, said["a_record"], said.get("ending", "lawful"))


def any_part(draw: random.Random, form: str) -> Part:
    """A part of an input of this format."""
    return Part(
        draw.choice(WHAT[form]),
        draw.choice(NAMES),
        draw.choice(LENGTHS),
        draw.choice(COUNTS),
        draw.choice(VALUES),
    )


def any_genes(draw: random.Random, form: str) -> Genes:
    """An input of this format, of one part or two."""
    parts = tuple(any_part(draw, form) for _ in range(draw.choice((1, 1, 2))))
    return Genes(form, parts, draw.choice(RECORDS), draw.choice(ENDINGS))


def varied_part(draw: random.Random, form: str, part: Part) -> Part:
    """The part with one of its genes drawn anew."""
    gene = draw.choice(("what", "name", "length", "count", "value"))
    drawn = any_part(draw, form)
    return dataclasses.replace(part, **{gene: getattr(drawn, gene)})


def varied_parts(draw: random.Random, form: str, parts: Sequence[Part]) -> tuple[Part, ...]:
    """The parts with one more, one less, or one varied."""
    kept = list(parts)
    turn = draw.random()
    if turn < 0.1 and len(kept) < 4:
        kept.insert(draw.randrange(len(kept) + 1), any_part(draw, form))
    elif turn < 0.2 and len(kept) > 1:
        kept.pop(draw.randrange(len(kept)))
    else:
        place = draw.randrange(len(kept))
        kept[place] = varied_part(draw, form, kept[place])
    return tuple(kept)


def varied(draw: random.Random, genes: Genes) -> Genes:
    """The input with one gene drawn anew."""
    turn = draw.random()
    if turn < 0.15:
        return dataclasses.replace(genes, a_record=draw.choice(RECORDS))
    if turn < 0.25:
        return dataclasses.replace(genes, ending=draw.choice(ENDINGS))
    return dataclasses.replace(genes, parts=varied_parts(draw, genes.format, genes.parts))
