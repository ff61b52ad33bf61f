"""What definitions rest on: all that they name, and what that names in turn."""
from collections.abc import Iterable

from . import models, specs
from .names import Parts
from .shared import crates_below
from .specs import Place


class Closure:
    """All that the roots name, and what that names in turn, callees first."""

    def __init__(self, roots: Iterable[Place]):
        self.seen: set[Place] = set()
        self.kit: set[Place] = set()
        self.order: list[Place] = []
        self.words: dict[Place, dict[str, Place]] = {}
        self.parts: dict[Place, set[Place]] = {}
        for place in roots:
            self.visit(place)

    def visit(self, place: Place) -> None:
        if place in self.seen:
            return
        self.seen.add(place)
        if place.kind == "kit":
            self.kit.add(place)
            return
        self.words[place] = words_in(place)
        self.parts[place] = set(self.words[place].values())
        for part in sorted(self.parts[place]):
            self.visit(part)
        self.order.append(place)


def words_in(place: Place) -> dict[str, Place]:
    """The words of a definition that stand for others, each with its place."""
    if place.kind == "rust":
        return models.rust_parts(place)
    parts = Parts(specs.definition(place))
    if parts.unknown:
        raise SystemExit(f"{place.module}: {place.name} names what is not known: {' '.join(parts.unknown)}")
    return parts.found


def file_of(place: Place) -> str:
    return place.module if place.kind == "rust" else specs.file_of(place.module)


def line_of(place: Place) -> int:
    return models.item_of(place).line if place.kind == "rust" else specs.definition(place).line


def group_of(place: Place) -> tuple[str, str]:
    """What is kept together: a file of definitions, or a type of the code, since a file of code may stand below and
    above one of definitions."""
    return (file_of(place), place.name if place.kind == "rust" else "")


def in_files(closure: Closure) -> list[tuple[str, list[Place]]]:
    """The definitions by crate and file, callees first: a file stands below those that its definitions name."""
    groups: dict[tuple[str, str], list[Place]] = {}
    for place in closure.order:
        groups.setdefault(group_of(place), []).append(place)
    done: list[tuple[str, str]] = []
    entered: set[tuple[str, str]] = set()

    def visit(group: tuple[str, str]) -> None:
        if group in entered:
            return
        entered.add(group)
        for place in groups[group]:
            for part in sorted(closure.parts[place] - closure.kit):
                visit(group_of(part))
        done.append(group)

    for group in sorted(groups):
        visit(group)
    order = crates_below()
    done.sort(key=lambda group: order.index(group[0].split("/")[1]))
    return [(group[0], sorted(groups[group], key=line_of)) for group in done]


def check_order(files: list[tuple[str, list[Place]]], closure: Closure) -> None:
    """Fails where a definition names what stands below it."""
    printed = set(closure.kit)
    for file, places in files:
        for place in places:
            below = closure.parts[place] - printed - {place}
            below = {part for part in below if not is_mutual(place, part)}
            if below:
                missing = ", ".join(sorted(it.name for it in below))
                raise SystemExit(f"{file}: {place.name} names what is not above it: {missing}")
            printed.add(place)


def is_mutual(place: Place, other: Place) -> bool:
    """Whether the two stand in one block of mutual definitions."""
    if place.kind != "definition" or other.kind != "definition" or place.module != other.module:
        return False
    sections = specs.definition(place).sections
    if not sections or sections != specs.definition(other).sections:
        return False
    header: str = sections[-1][1][0]
    return header.strip().endswith("mutual")


def source(place: Place) -> str:
    """A short name of where a definition is."""
    if place.kind == "kit":
        return place.module
    crate, _, *rest = file_of(place).removeprefix("crates/").split("/")
    path = "/".join(rest)
    if place.kind != "rust":
        return f"{crate}/{path.removesuffix('.antt')}"
    return f"{place.name} ({crate}/{path})" if place.name in ("Permission", "ValidationError") else place.name
