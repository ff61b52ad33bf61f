"""The items of the .rt files: what a file has, what its names stand for, and which item a path leads to.

The files are as `rt fmt` leaves them, so an item is found by its lines: it begins at its indentation and ends at the
first line there that closes it.
"""
import functools
import re
from collections.abc import Iterator, Sequence
from typing import NamedTuple

from .shared import ROOT

HEAD = re.compile(
    r"(?P<vis>pub(?:\(\w+\))? )?(?:const )?"
    r"(?P<kind>fn|struct|enum|trait|type|const|static|mod|impl|use|ghost use|ghost|axiom)\b(?P<rest>.*)"
)
LITERAL = re.compile(r'"(?:[^"\\]|\\.)*"|\'(?:[^\'\\]|\\.)\'|//.*')


class Item(NamedTuple):
    """An item of a file: its kind and name, the comments above it, its lines (attributes too), and its place."""

    kind: str
    name: str
    is_public: bool
    comments: list[str]
    lines: list[str]
    file: str
    line: int


def name_of(kind: str, rest: str) -> str:
    """The name of an item, of an impl all that stands before its body."""
    rest = rest.strip()
    if kind == "impl":
        return rest.removesuffix("{").strip()
    found = re.match(r"[\w]+", rest)
    return found[0] if found else rest


def depth_after(depth: int, line: str) -> int:
    """How many brackets are open after the line."""
    text = LITERAL.sub("", line)
    return depth + sum(text.count(c) for c in "({[") - sum(text.count(c) for c in ")}]")


def end_of(lines: list[str], at: int, indent: int) -> int:
    """The last line of the item that begins at this line."""
    depth = 0
    for i in range(at, len(lines)):
        line = lines[i]
        depth = depth_after(depth, line)
        is_outer = len(line) - len(line.lstrip()) == indent
        text = LITERAL.sub("", line).rstrip()
        if depth == 0 and text and (text[-1] == ";" or (is_outer and text[-1] == "}")):
            return i
    raise SystemExit(f"an item at line {at + 1} does not end: {lines[at]}")


def items_in(file: str, lines: list[str], indent: int, first: int = 0) -> Iterator[Item]:
    """The items of these lines that begin at the indentation."""
    at = 0
    comments: list[str] = []
    attributes: list[str] = []
    while at < len(lines):
        text = lines[at].strip()
        is_here = len(lines[at]) - len(lines[at].lstrip()) == indent
        if not text or not is_here:
            comments, attributes = [], []
        elif text.startswith("//"):
            comments.append(text)
        elif text.startswith("#["):
            end = at
            while not lines[end].rstrip().endswith("]"):
                end += 1
            attributes += lines[at : end + 1]
            at = end
        elif found := HEAD.match(text):
            end = end_of(lines, at, indent)
            own = [line[indent:] for line in attributes + lines[at : end + 1]]
            name = name_of(found["kind"], found["rest"])
            yield Item(found["kind"], name, found["vis"] == "pub ", comments, own, file, first + at + 1)
            comments, attributes, at = [], [], end
        else:
            comments, attributes = [], []
        at += 1


@functools.cache
def items_of(file: str) -> list[Item]:
    """The items of a file, named from the root."""
    return list(items_in(file, (ROOT / file).read_text(encoding="utf-8").split("\n"), 0))


def members_of(item: Item) -> list[Item]:
    """The items within an impl or a trait."""
    lines = [line for line in item.lines if not line.startswith("#[")]
    opened = next(i for i, line in enumerate(lines) if line.rstrip().endswith(("{", "{}")))
    return list(items_in(item.file, lines[opened + 1 : -1], 4, item.line + opened))


def ghost_text(item: Item) -> str:
    """What stands between the braces of a ghost member: what it is, or what its type is."""
    found = re.search(r"[=:] \{ (.*) \};$", " ".join(item.lines))
    if found is None:
        raise SystemExit(f"{item.file}: line {item.line} is no ghost member")
    return found[1]


def head_of(item: Item) -> list[str]:
    """The lines of a function without its body: its signature and its clauses."""
    head = []
    for line in item.lines:
        if line in ("{", "{}"):
            break
        is_last = line.endswith(" {") and not line.startswith(" ") and depth_after(0, line.removesuffix("{")) <= 0
        head.append(line.removesuffix(" {") if is_last else line)
        if is_last:
            break
    return head


def file_of(crate: str, path: Sequence[str]) -> str | None:
    """The file of a module, or None where there is none."""
    name = f"crates/{crate}/src/{'/'.join(path) or 'lib'}.rt"
    return name if (ROOT / name).is_file() else None


def path_of(file: str) -> tuple[str, tuple[str, ...]]:
    """The crate and the module path of a file."""
    parts = file.removesuffix(".rt").split("/")
    return parts[1], () if parts[3:] == ["lib"] else tuple(parts[3:])


def use_paths(text: str) -> Iterator[tuple[list[str], str]]:
    """Each path of a `use` line, with the name that it brings in: `a::{b, c as d, e::{f}}`."""
    text = " ".join(text.split())
    found = re.match(r"([\w:]*?)(?:::)?\{(.*)\}$", text)
    if not found:
        whole, _, alias = text.partition(" as ")
        words = whole.split("::")
        yield words, (alias or words[-1])
        return
    depth, word, words = 0, "", list[str]()
    for c in found[2] + ",":
        depth += (c == "{") - (c == "}")
        if c == "," and depth == 0:
            words.append(word.strip())
            word = ""
        else:
            word += c
    before = found[1].split("::") if found[1] else []
    for word in filter(None, words):
        for path, name in use_paths(word):
            yield (before, before[-1] if name == "self" else name) if path == ["self"] else (before + path, name)


@functools.cache
def uses_of(file: str) -> dict[str, tuple[list[str], bool]]:
    """What the `use` lines of a file bring in: the path of each name, and whether it is public."""
    found = {}
    for item in items_of(file):
        if item.kind == "use":
            text = re.sub(r"^(pub(\(\w+\))? )?use ", "", " ".join(item.lines)).removesuffix(";")
            for path, name in use_paths(text):
                found[name] = (path, item.is_public)
    return found


def is_crate(name: str) -> bool:
    return (ROOT / f"crates/{name}/src/lib.rt").is_file()


def resolve(file: str, path: list[str]) -> Item | str | None:
    """The item or the module that a path in a file leads to: an Item, the file of a module, or None where it is of the
    toolchain's library."""
    crate, module = path_of(file)
    if path[0] == "crate":
        return walk(crate, (), path[1:])
    if path[0] == "self":
        return walk(crate, module, path[1:])
    here = find_in(file, path[0])
    if here is not None:
        return here if len(path) == 1 else (walk(*path_of(here), path[1:]) if isinstance(here, str) else None)
    return walk(path[0], (), path[1:]) if is_crate(path[0]) else None


def find_in(file: str, name: str) -> Item | str | None:
    """The item or the module of this name in a file: its own, or one that a `use` line brings in."""
    crate, module = path_of(file)
    for item in items_of(file):
        if item.name == name and item.kind in ("struct", "enum", "trait", "type", "fn", "const"):
            return item
        if item.name == name and item.kind == "mod":
            return file_of(crate, (*module, name))
    if name in uses_of(file):
        path = uses_of(file)[name][0]
        return None if path == [name] else resolve(file, path)
    return None


def walk(crate: str, module: tuple[str, ...], path: list[str]) -> Item | str | None:
    """The item or the module at a path below a module."""
    file = file_of(crate, module)
    if file is None:
        return None
    if not path:
        return file
    here = find_in(file, path[0])
    if len(path) == 1 or here is None:
        return here
    return walk(*path_of(here), path[1:]) if isinstance(here, str) else None


def variables(head: list[str]) -> set[str]:
    """The names of a function's parameters, type parameters and result."""
    signature = " ".join(head).split(" ensures ")[0]
    return {"result", "self", *re.findall(r"(\w+):", signature), *re.findall(r"[<,] ?(\w+)(?=[:,>])", signature)}


def clauses(head: list[str]) -> list[str]:
    """What is between the braces of each clause."""
    text, found = "\n".join(line for line in head if not line.strip().startswith("//")), []
    for start in re.finditer(r"(requires|ensures)( \w+)? \{", text):
        depth, at = 1, start.end()
        while depth:
            depth += (text[at] == "{") - (text[at] == "}")
            at += 1
        found.append(text[start.end() : at - 1])
    return found
