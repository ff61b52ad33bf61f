"""How definitions and types are laid out on the pages of the headline."""
import functools
import itertools
import re
import textwrap
from collections.abc import Iterator
from typing import Any

from . import models, specs
from .closure import Closure, source
from .specs import Definition, Place

# How many columns a line may have to which others are joined.
WIDTH = 120


def plain(line: str) -> str:
    """The line without the words that tell the checker how to treat a definition."""
    return re.sub(r"^( *)((abbrev|pub|unfoldable) )+", r"\1", line)


def joined(lines: list[str], indent: int) -> list[str]:
    """The lines, with those that go on from the one above joined to it while they fit. The steps of a `do` stay
    apart."""
    found: list[str] = []
    for line in lines:
        goes_on = found and (len(line) - len(line.lstrip()) > indent or line.strip() == "}")
        above = found[-1] if found else ""
        is_step = "←" in line or "←" in above or above.endswith(" do") or above.lstrip().startswith("--")
        if goes_on and not is_step and "--" not in line and len(found[-1]) + 1 + len(line.strip()) <= WIDTH:
            found[-1] += " " + line.strip()
        else:
            found.append(line)
    return found


def commented(lines: list[str], comment: list[str]) -> list[str]:
    """The lines with their comment: to the right of the first where it fits, otherwise above."""
    first = next(i for i, line in enumerate(lines) if not line.strip().startswith("infix"))
    if len(comment) == 1 and len(lines[first]) + 2 + len(comment[0].strip()) <= WIDTH:
        return [*lines[:first], f"{lines[first]}  {comment[0].strip()}", *lines[first + 1 :]]
    return [*comment, *lines]


def members_joined(lines: list[str]) -> list[str]:
    """The head of a record or of a type by its cases, and what it has between braces. As it stands where a line has a
    comment of its own."""
    if any("--" in line for line in lines) or not lines[0].endswith(" where"):
        return lines
    indent = len(lines[0]) - len(lines[0].lstrip())
    first = min((len(line) - len(line.lstrip()) for line in lines[1:]), default=0)
    members: list[str] = []
    for line in lines[1:]:
        if len(line) - len(line.lstrip()) > first:
            members[-1] += " " + line.strip()
        else:
            members.append(line.strip())
    # A member stays on one line where it can.
    words = " ".join(f"{it};".replace(" ", "\0") for it in members).removesuffix(";")
    text = f"{lines[0].strip().removesuffix(' where')} {{ {words} }}"
    start = " " * indent
    wrapped = textwrap.wrap(text, WIDTH, initial_indent=start, subsequent_indent=f"{start}    ", break_long_words=False)
    return [line.replace("\0", " ") for line in wrapped]


def definition_lines(it: Definition) -> list[str]:
    lines = [plain(line) for line in it.lines]
    if it.kind == "definition":
        lines = joined(lines, 2 * len(it.sections))
    else:
        lines = members_joined(lines)
    return commented(lines, it.comment)


def type_lines(place: Place) -> list[str]:
    """A type of the code: its cases or fields on one line, or what its values are seen as."""
    item = models.item_of(place)
    words = models.body_of(place).replace("pub ", "").replace(", }", " }")
    value = models.value_of(place)
    if value is not None:
        words = f"{words.partition(' {')[0]}, seen as {value[0]}"
    about = " ".join(line.removeprefix("///").strip() for line in item.comments)
    about = re.sub(r"\[(`[^`]*`)\]\([^)]*\)", r"\1", about)
    comment = textwrap.wrap(about, WIDTH - 3, initial_indent="-- ", subsequent_indent="-- ")
    words = re.sub(r"\w \{[^{}]*\}", lambda it: it[0].replace(" ", "\0"), words)
    lines = textwrap.wrap(words, WIDTH, subsequent_indent="    ")
    return commented([line.replace("\0", " ") for line in lines], comment)


def narrow(line: str) -> list[str]:
    """The line, in several where it is too wide."""
    if len(line) <= WIDTH:
        return [line]
    start = line[: len(line) - len(line.lstrip())]
    further = f"{start}-- " if line.startswith(f"{start}--") else f"{start}    "
    return textwrap.wrap(
        line.strip(),
        WIDTH,
        initial_indent=start,
        subsequent_indent=further,
        break_long_words=False,
        break_on_hyphens=False,
    )


def titles(place: Place) -> list[str]:
    """The names under which a definition may be found: its own, and those of its cases."""
    if place.kind == "rust":
        return [place.name, *models.cases_of(place)]
    return [place.name, *specs.definition(place).constructors]


class Meanings:
    """What each name means to a reader who takes the last one above, and where that is not what is meant."""

    def __init__(self, closure: Closure):
        self.words = closure.words
        self.last: dict[str, Place] = {}
        self.types: dict[str, Place] = {}
        names = [place.name for place in closure.kit] + [name for place in closure.order for name in titles(place)]
        self.kit_doubles = {place.name for place in closure.kit if names.count(place.name) > 1}

    def notes(self, places: list[Place]) -> list[str]:
        """What the words of these definitions mean where that is not plain: the names for other files, and those that
        stand for another definition than the last one above."""
        found: dict[str, dict[str, None]] = {}
        for place in places:
            self.last.update(dict.fromkeys(titles(place), place))
            if place.kind == "rust":
                self.types[place.name] = place
            for word, other in self.words[place].items():
                if name := self.unclear(place, word, other):
                    found.setdefault(source(other), {})[name] = None
        return [f"{', '.join(names)} of {where}" for where, names in sorted(found.items())]

    def unclear(self, place: Place, word: str, other: Place) -> str | None:
        if other.kind == "kit":
            return other.name if other.name in self.kit_doubles else None
        if place.kind == "rust":
            return word if other.kind == "rust" and self.types.get(other.name) != other else None
        first, _, rest = word.partition(".")
        if rest and specs.scope_of(place.module)[first].kind == "module":
            return f"{first}."
        name = other.name if "◌" in other.name else first
        return name if self.last.get(name) != other else None


def file_lines(places: list[Place]) -> Iterator[str]:
    """What is taken of a file, each section's line above the definitions that stand in it."""
    within: tuple[Any, ...] = ()
    for place in places:
        if place.kind == "rust":
            yield from type_lines(place)
            continue
        it = specs.definition(place)
        for depth, section in enumerate(it.sections):
            if within[: depth + 1] != it.sections[: depth + 1]:
                comment, lines = section
                yield from commented(joined(list(lines), 2 * depth), list(comment))
        within = it.sections
        yield from definition_lines(it)


def definitions(files: list[tuple[str, list[Place]]], meanings: Meanings) -> Iterator[str]:
    """The definitions by crate and file. The same meanings go on from page to page."""
    crate, last = None, None
    for file, places in files:
        if file.split("/")[1] != crate:
            if crate:
                yield "```"
            crate = file.split("/")[1]
            yield from ["", f"### {crate}", "", "```"]
        if file != last:
            yield f"-- {file}"
        if about := "; ".join(meanings.notes(places)):
            wrapped = functools.partial(textwrap.wrap, width=WIDTH, break_on_hyphens=False)
            yield from wrapped(about, initial_indent="-- Here ", subsequent_indent="--    ")
        last = file
        yield from itertools.chain.from_iterable(map(narrow, file_lines(places)))
    yield "```"
