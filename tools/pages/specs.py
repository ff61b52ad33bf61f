"""The definitions of the .antt files in crates/*/specs: what a file has, what its names stand for, what a text names.

A name is known by its place: `warg_log.specs.Rules` and `View`. A constructor is known by its type. What is of the
toolchain's own library is known by its path alone.
"""
import functools
import re
from collections.abc import Iterable, Iterator
from typing import Any, NamedTuple

from . import items
from .items import Item
from .shared import ROOT

MODIFIERS = ("abbrev", "pub", "unfoldable", "pattern", "data", "record", "axiom")


class Place(NamedTuple):
    """Where a name leads: a definition (its module and name), an item of a .rt file (`rust`, its file and name), a
    module (with no name), or a name of the toolchain's library (`kit`, its module and name)."""

    kind: str
    module: str
    name: str = ""


# What each name means in a place.
Scope = dict[str, Place]


class Definition(NamedTuple):
    """A definition: its kind and name, its comment, its lines, the lines of the sections that it stands in, its
    constructors, and its line in the file."""

    module: str
    kind: str
    name: str
    comment: list[str]
    lines: list[str]
    sections: tuple[Any, ...]
    constructors: tuple[Any, ...]
    line: int


def file_of(module: str) -> str:
    crate, rest = module.split(".", 1)
    return f"crates/{crate}/{rest.replace('.', '/')}.antt"


def is_own(crate: str) -> bool:
    return (ROOT / f"crates/{crate}").is_dir()


def name_in(line: str) -> tuple[str, str] | None:
    """The kind and the name that a line declares, or None where it declares none."""
    words = line.split()
    kinds = []
    while words and words[0] in MODIFIERS:
        kinds.append(words.pop(0))
    if not words or not (kinds or (len(words) > 1 and words[1] == ":")):
        return None
    kind = next((kind for kind in kinds if kind in ("data", "record")), "definition")
    return kind, words[0]


class Reader:
    """Reads the declarations of a file, line by line."""

    def __init__(self, module: str):
        self.module = module
        self.found: dict[str, Definition] = {}
        self.uses: list[str] = []
        # The comment lines above the next line, the sections that are open, the last definition, and the next one's
        # fixity.
        self.comment: list[str] = []
        self.sections: list[tuple[Any, ...]] = []
        self.current: str | None = None
        self.fixity: list[str] = []

    def read(self, lines: list[str]) -> "Reader":
        at = 0
        while at < len(lines):
            at = self.step(lines, at)
        return self

    def step(self, lines: list[str], at: int) -> int:
        """Reads a line, or the lines of a section's head. The result is the place of the next."""
        line, text = lines[at], lines[at].strip()
        indent = len(line) - len(line.lstrip())
        while text and self.sections and indent < 2 * len(self.sections):
            self.sections.pop()
        if not text:
            self.comment = []
        elif indent > 2 * len(self.sections):
            self.add(line, at + 1)
        elif text.startswith("--"):
            self.comment.append(line)
        elif text.startswith("module _") or text.endswith("mutual"):
            end = at if text.endswith("mutual") else end_of_head(lines, at)
            self.sections.append((tuple(self.comment), tuple(lines[at : end + 1])))
            self.comment, self.current = [], None
            return end + 1
        else:
            self.declare(text, line, at + 1)
        return at + 1

    def add(self, line: str, number: int) -> None:
        """A line of the last definition, with a comment that stands within it."""
        if self.current is None:
            raise SystemExit(f"{file_of(self.module)}: line {number} belongs to no definition: {line}")
        self.found[self.current].lines.extend([*self.comment, line])
        self.comment = []

    def declare(self, text: str, line: str, number: int) -> None:
        if re.match(r"(pub )?(use|mod) ", text):
            self.uses.append(text)
            self.comment = []
        elif re.match(r"infix[lr]? ", text):
            self.fixity = [line]
        elif declares := name_in(text):
            kind, name = declares
            lines, sections = [*self.fixity, line], tuple(self.sections)
            self.found[name] = Definition(self.module, kind, name, self.comment, lines, sections, (), number)
            self.comment, self.current, self.fixity = [], name, []
        else:
            self.add(line, number)


def end_of_head(lines: list[str], at: int) -> int:
    """The last line of the head of a section."""
    while not lines[at].rstrip().endswith("where"):
        at += 1
    return at


def with_constructors(definition: Definition) -> Definition:
    if definition.kind != "data":
        return definition
    indent = 2 * len(definition.sections) + 2
    pattern = re.compile(rf" {{{indent}}}([^\s:(){{}}-]\S*) :")
    return definition._replace(constructors=tuple(m[1] for line in definition.lines if (m := pattern.match(line))))


@functools.cache
def read(module: str) -> tuple[dict[str, Definition], list[str]]:
    """The module as it stands in its file: its definitions and its `use` lines."""
    lines = (ROOT / file_of(module)).read_text(encoding="utf-8").split("\n")
    reader = Reader(module).read(lines)
    return {name: with_constructors(it) for name, it in reader.found.items()}, reader.uses


def is_module(path: str) -> bool:
    return is_own(path.split(".")[0]) and (ROOT / file_of(path)).is_file()


@functools.cache
def declared(path: str) -> Place:
    """What a path below `declared` leads to, as the item of a .rt file: `warg_log.specs.declared.head.Head.Head`."""
    crate, rest = path.split(".specs.declared.")
    words = [word for word in rest.split(".") if word != "TheVariants"]
    for count in range(len(words), -1, -1):
        file = items.file_of(crate, words[:count])
        names = words[count:]
        if file and names:
            for item in items.items_of(file):
                if item.name == names[0] and item.kind in ("struct", "enum"):
                    return Place("rust", file, item.name)
    raise SystemExit(f"{path} leads to no type")


@functools.cache
def place_of(module: str, name: str) -> Place:
    """What a name of a module stands for, seen from outside."""
    if not is_own(module.split(".")[0]):
        return Place("kit", module, name)
    if ".specs.declared." in module:
        return declared(f"{module}.{name}")
    if ".specs.declared" in f"{module}.{name}":
        return Place("module", f"{module}.{name}")
    found, uses = read(module) if is_module(module) else ({}, [])
    if name in found:
        return Place("definition", module, name)
    for it in found.values():
        if name in it.constructors:
            return Place("definition", module, it.name)
    for text in uses:
        if text.startswith("pub use "):
            for own, place in brought(text):
                if own == name:
                    return place
    if is_module(f"{module}.{name}") or (ROOT / file_of(f"{module}.{name}").removesuffix(".antt")).is_dir():
        return Place("module", f"{module}.{name}")
    raise SystemExit(f"{module} has no {name}")


def brought(text: str) -> Iterator[tuple[str, Place]]:
    """The names that a `use` line brings in, each with what it stands for."""
    path = re.sub(r"^(pub )?use ", "", text).removesuffix(";").removeprefix("Rattle.")
    if path.startswith("Prim"):
        return
    found = re.match(r"(\S+?)\.\{(.*)\}$", path)
    if not found:
        module, _, alias = path.partition(" as ")
        yield alias or module.split(".")[-1], Place("module", module)
        return
    for word in filter(None, (it.strip() for it in found[2].split(","))):
        name, _, alias = word.partition(" as ")
        own = alias or name.split(".")[-1]
        yield own, place_of(".".join([found[1], *name.split(".")[:-1]]), name.split(".")[-1])


@functools.cache
def scope_of(module: str) -> Scope:
    """What each name means within a module."""
    found, uses = read(module)
    scope: Scope = {}
    for text in uses:
        if not re.match(r"(pub )?mod ", text):
            scope.update(brought(text))
    for it in found.values():
        scope[it.name] = Place("definition", module, it.name)
        scope.update((name, Place("definition", module, it.name)) for name in it.constructors if name not in found)
    return with_operators(scope)


def with_operators(scope: Scope) -> Scope:
    """The scope with the parts of each operator: `≡` of `◌≡◌`, `if` of `if◌then◌else◌`."""
    parts = {part: place for name, place in scope.items() if "◌" in name for part in name.split("◌") if part}
    return {**parts, **scope}


def member(place: Place, names: list[str]) -> Place:
    """What `place.names` leads to: a name of a module, or the place itself, of which a field is taken."""
    while place.kind == "module" and names:
        if ".specs.declared" in place.module and not re.search(r"\.TheVariants$", place.module):
            place = Place("module", f"{place.module}.{names[0]}")
        else:
            place = place_of(place.module, names[0])
        names = names[1:]
    return place


def definition(place: Place) -> Definition:
    return read(place.module)[0][place.name]


def absolute(word: str) -> Place | None:
    """What a whole path stands for: `Rattle.std.specs.Prelude.map`."""
    words = word.split(".")[1:]
    for count in range(len(words) - 1, 0, -1):
        module = ".".join(words[:count])
        if not is_own(words[0]) or is_module(module) or ".declared" in module:
            return place_of(module, words[count])
    return None


def ghost_scope(uses: Iterable[Item]) -> Scope:
    """What each name means in the clauses below these `ghost use` lines of a .rt file."""
    scope: Scope = {}
    for item in uses:
        if item.kind == "ghost use":
            scope.update(brought(" ".join(item.lines).removeprefix("ghost ")))
    return with_operators(scope)
