"""Edits: wrong bodies as files, of mutants/ and of the crates' must-fail/."""
import functools
import os
import re
from typing import Iterator, NamedTuple

from common import ROOT


class Span(NamedTuple):
    """Where a function stands: its file, its first and its last line, counted from 1, and its name."""

    file: str
    first: int
    last: int
    name: str


class EditError(Exception):
    """Why an edit does not apply."""


def read(path: str) -> str:
    with open(path, encoding="utf-8") as it:
        return it.read()


def write(path: str, text: str) -> None:
    with open(path, "w", encoding="utf-8") as it:
        it.write(text)


def span_at(file: str, lines: list[str], at: int) -> Span | None:
    """The function round a line, which is counted from 0, by the layout."""
    for start in range(at, -1, -1):
        head = re.match(r"( *)(?:pub(?:\([a-z]+\))? )?(?:const )?(?:extern \"C\" )?fn (\w+)", lines[start])
        if head:
            ends = (
                i for i in range(start, len(lines)) if re.match(head[1] + r"}|" + head[1] + r"\S.*(;|})$", lines[i])
            )
            end = next(ends, len(lines))
            return Span(file, start + 1, end + 1, head[2]) if at <= end else None
    return None


class Edit:
    """A wrong body: its name, its crate, the function that its path names, if any, and the texts that it changes by
    file."""

    def __init__(self, path: str, crate: str, function: str | None) -> None:
        self.name, self.crate, self.function = os.path.relpath(path, ROOT), crate, function
        self.pairs: list[tuple[str, str, str]] = []
        self.places: list[tuple[str, str, int]] = []
        file = old = ""
        for line in read(path).split("\n"):
            if line.startswith("file: "):
                file = line[len("file: ") :].strip()
            elif line.startswith("old: "):
                old = line[len("old: ") :]
            elif line.startswith("new:"):
                self.pairs.append((file, old, re.sub(r"\A ", "", line[len("new:") :])))

    def made(self, folder: str) -> dict[str, str]:
        """The crate's files that the edit changes, as it makes them."""
        if not self.pairs:
            raise EditError("it changes nothing")
        texts: dict[str, str] = {}
        self.places = []
        for file, old, new in self.pairs:
            if file not in texts:
                if not os.path.isfile(f"{folder}/{file}"):
                    raise EditError(f"there is no file {file}")
                texts[file] = read(f"{folder}/{file}")
            text = texts[file]
            if text.count(old) != 1:
                raise EditError(f"{file} has {text.count(old)} times: {old}")
            self.places.append((file, text, text.find(old)))
            texts[file] = text.replace(old, new)
        return texts

    @functools.cached_property
    def span(self) -> Span | None:
        """The one function that holds all lines of the edit but those of its own proof, if one does. The edit was made
        before."""
        own = f"proofs/{self.proofs()}/"
        places = [it for it in self.places if not it[0].startswith(own)]
        spans = {span_at(file, text.split("\n"), text.count("\n", 0, at)) for file, text, at in places}
        return spans.pop() if len(spans) == 1 else None

    def apply(self, folder: str) -> bool:
        """Writes the edit into the crate, if it applies."""
        try:
            texts = self.made(folder)
        except EditError:
            return False
        for file, text in texts.items():
            write(f"{folder}/{file}", text)
        return True

    def is_alone(self) -> bool:
        """Whether it changes other lines than those of the function that its path names."""
        return not self.function or not self.span or self.span.name != self.function.split("::")[-1]

    def proofs(self) -> str | None:
        """The folder below proofs/ of the function that its path names."""
        return "/".join(self.function.split("::")[1:]) if self.function else None

    def check(self, folder: str) -> None:
        """Refuses an edit that does not apply, or whose path names a function that is not there, or another than the
        one that it changes. An edit of lines outside any function, as of a derive or a clause, changes more than
        one."""
        self.made(folder)
        if not self.function:
            return
        *path, name = self.function.split("::")[1:]
        if self.span and self.span.name != name:
            raise EditError(f"its lines stand in the function {self.span.name}")
        files = {file for file, _, _ in self.pairs} | {home_of(folder, path)}
        if not any(has_function(f"{folder}/{file}", name) for file in files):
            raise EditError(f"no function {name} stands in {' or '.join(sorted(files))}")


def home_of(folder: str, path: list[str]) -> str:
    """The file of the innermost module of a path that has one of its own."""
    modules = [it for it in path if it.islower()]
    for end in range(len(modules), 0, -1):
        for file in (f"src/{'/'.join(modules[:end])}.rt", f"src/{'/'.join(modules[:end])}/mod.rt"):
            if os.path.isfile(f"{folder}/{file}"):
                return file
    return "src/main.rt" if os.path.isfile(f"{folder}/src/main.rt") else "src/lib.rt"


def has_function(path: str, name: str) -> bool:
    return re.search(rf"\bfn {re.escape(name)}\b", read(path)) is not None


def mutants_below(path: str) -> Iterator[Edit]:
    """The edits at or below a path of mutants/; one edit, where the path names it without its suffix."""
    if os.path.isfile(f"{ROOT}/mutants/{path}.edit"):
        parts = path.split("/")[:-1]
        yield Edit(f"{ROOT}/mutants/{path}.edit", parts[0], "::".join(parts))
    for folder, _, names in sorted(os.walk(f"{ROOT}/mutants/{path}")):
        parts = os.path.relpath(folder, f"{ROOT}/mutants").split("/")
        for name in sorted(it for it in names if it.endswith(".edit")):
            yield Edit(f"{folder}/{name}", parts[0], "::".join(parts))


def must_fail_of(crate: str) -> Iterator[Edit]:
    """The edits of a crate's must-fail/."""
    folder = f"{ROOT}/crates/{crate}/must-fail"
    for name in sorted(os.listdir(folder)) if os.path.isdir(folder) else ():
        if name.endswith(".edit"):
            yield Edit(f"{folder}/{name}", crate, None)


def promises() -> list[str]:
    """The paths below mutants/ of the edits that turn a promise, without their suffix: the test command tries these."""
    return read(f"{ROOT}/mutants/promises").split()


def crates_with_mutants() -> list[str]:
    return sorted(it.name for it in os.scandir(f"{ROOT}/mutants") if it.is_dir())


def all_edits() -> Iterator[Edit]:
    for crate in crates_with_mutants():
        yield from mutants_below(crate)
    for crate in sorted(os.listdir(f"{ROOT}/crates")):
        yield from must_fail_of(crate)
