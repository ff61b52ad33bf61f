"""The pages of docs/api/, one a module of `warg_protocol`, and docs/API.md, which lists them."""
import re
import textwrap
from collections.abc import Iterator

from . import items
from .cited import cited, public_members, reachable
from .closure import file_of as file_of_place
from .items import Item
from .public import Module, Seen, impls_of, is_shown, modules, said_in
from .shared import ROOT, write_or_compare
from .specs import Place

INDEX, FOLDER = "docs/API.md", "docs/api"
CRATE = "warg_protocol"
WIDTH = 120
INTRODUCTION = f"""\
# The API of `{CRATE}`

Each public item that `{CRATE}` re-exports, a page a module. `tools/api` writes these pages from the sources.
[PROGRAMMING](PROGRAMMING.md) shows how the items are used, and [GLOSSARY](GLOSSARY.md) explains the words.

- A function is shown with its clauses: what it requires of a call, and what it ensures. `result` is what it returns,
  `x.now` what a reference points to, and `x.old` and `x.new` what a `&mut` points to before and after. `IfOk result P`
  says P of what `Ok` holds. The names in clauses are definitions: each page ends with the files that define them,
  [DEFINITIONS](DEFINITIONS.md) explains them in words, and [HEADLINE](HEADLINE.md) has them in part.
- Of a trait, `ghost` members are what an implementor says of a type in clauses. Of an impl, only what it says beyond
  the trait is shown.
- What is derived stands above a type. The text of an error's case is the one in its `#[error(..)]`, or what the
  definition `error_text` of its crate says, where its `Display` shows that as `output`.
- Laws are functions whose contract is the law. A call of one has no effect but where its comment says so.

## The modules
"""


def without_links(text: str) -> str:
    return re.sub(r"\[(`[^`\]]*`)\](\([^)]*\))?", r"\1", text)


def comment(item: Item) -> list[str]:
    """The comment of an item as text, without links to items."""
    text = "\n".join(line.removeprefix("///").removeprefix(" ") for line in item.comments if line.startswith("///"))
    return fitted(without_links(text).split("\n")) if text else []


def fitted(lines: list[str]) -> list[str]:
    """The lines of a text, where a paragraph with one that is too wide is wrapped anew."""
    found = []
    for paragraph in "\n".join(lines).split("\n\n"):
        is_wide = any(len(line) > WIDTH for line in paragraph.split("\n"))
        found += [*(wrapped(paragraph.replace("\n", " ")) if is_wide else paragraph.split("\n")), ""]
    return found[:-1]


def block(lines: list[str]) -> list[str]:
    return ["```rust", *lines, "```"]


def paragraph(item: Item) -> list[str]:
    """The comment of an item and a blank line, if it has one."""
    lines = comment(item)
    return [*lines, ""] if lines else []


def function(item: Item) -> list[str]:
    """A function with its attributes, its signature and its clauses."""
    lines = [line for line in items.head_of(item) if not line.startswith("#[tactic")]
    return [*lines[:-1], lines[-1] if lines[-1].endswith(";") else f"{lines[-1]};"]


def type_lines(item: Item) -> list[str]:
    """A struct with its public fields, or an enum with its cases, each with its comment."""
    if item.kind != "struct" or not item.lines[-1].startswith("}"):
        return item.lines
    at = next(i for i, line in enumerate(item.lines) if line.endswith("{"))
    kept, held = [], []
    for line in item.lines[at + 1 : -1]:
        held.append(line)
        if not line.strip().startswith(("//", "#[")):
            kept += held if line.strip().startswith("pub ") else []
            held = []
    count = sum(1 for line in item.lines[at + 1 : -1] if not line.strip().startswith(("//", "#[")))
    shown = sum(1 for line in kept if line.strip().startswith("pub "))
    private = ["    // private fields"] if shown < count else []
    return [*item.lines[: at + 1], *kept, *private, "}"]


def trait_lines(item: Item) -> list[str]:
    """A trait with its members, each with its comment."""
    at = next(i for i, line in enumerate(item.lines) if line.endswith("{"))
    lines = item.lines[: at + 1]
    for it in items.members_of(item):
        if it.kind == "ghost use":
            continue
        shown = function(it) if it.kind == "fn" else it.lines
        lines += ["", *(f"    {line}".rstrip() for line in [*it.comments, *shown])]
    return [line for i, line in enumerate(lines) if line or i > at + 1] + ["}"]


def impl_lines(item: Item) -> list[str]:
    """An impl of a trait: what it says beyond the trait."""
    lines = [f"impl{'' if item.name.startswith('<') else ' '}{item.name} {{"]
    for it in said_in(item):
        lines += [f"    {line}".rstrip() for line in (function(it) if it.kind == "fn" else it.lines)]
    return [*lines, "}"] if len(lines) > 1 else [f"{lines[0]}}}"]


def type_section(name: str, item: Item, seen: Seen) -> Iterator[str]:
    """A type, its methods, and its traits."""
    yield from paragraph(item)
    yield from block(type_lines(item) if item.kind != "trait" else trait_lines(item))
    if item.kind not in ("struct", "enum", "type"):
        return
    traits = []
    for trait, it in impls_of(item):
        if trait:
            traits += [impl_lines(it)] if is_shown(trait, it, seen) else []
            continue
        for method in items.members_of(it):
            if method.is_public and method.kind in ("fn", "const"):
                yield from ["", f"### `{name}::{method.name}`", "", *paragraph(method)]
                yield from block(function(method) if method.kind == "fn" else method.lines)
    if traits:
        yield from ["", f"### Traits of `{name}`", ""]
        yield from block([line for lines in traits for line in ("", *lines)][1:])


def item_section(name: str, item: Item, seen: Seen) -> Iterator[str]:
    kind = {"fn": "function", "type": "type", "const": "constant"}.get(item.kind, item.kind)
    yield from ["", f"## {kind} `{name}`", ""]
    if item.kind == "fn":
        yield from [*paragraph(item), *block(function(item))]
    else:
        yield from type_section(name, item, seen)


def about(file: str) -> list[str]:
    """The comment at the head of a file."""
    lines = (ROOT / file).read_text(encoding="utf-8").split("\n")
    said = [line.removeprefix("//!").removeprefix(" ") for line in lines if line.startswith("//!")]
    return fitted([without_links(line) for line in said])


def about_module(module: Module) -> Iterator[str]:
    """What stands at the head of a module's page."""
    yield from [f"# `{module.path}`", "", *about(module.file)]
    others = [f"`{name}` is `{path}`" for name, path in module.again if path != f"{module.path}::{name}"]
    if others:
        yield from ["", *wrapped(f"Here {', '.join(others)}.")]
    if module.kit:
        names = ", ".join(f"`{name}`" for name in sorted(module.kit))
        yield from ["", *wrapped(f"Re-exported from the toolchain's library: {names}.")]


def words_of(module: Module, seen: Seen) -> Iterator[Place]:
    """What the clauses of a module's items name."""
    for _, item in module.items:
        for file, within, members in public_members(item, seen):
            yield from (place for place, _ in cited(file, within, members) if place.kind in ("definition", "kit"))


def words_section(module: Module, seen: Seen, exports: dict[Place, list[str]]) -> Iterator[str]:
    """The words of the clauses on a module's page, by the file that defines them and those to import them from."""
    by_file: dict[tuple[str, str], set[str]] = {}
    for place in words_of(module, seen):
        file = "" if place.kind == "kit" else file_of_place(place)
        by_file.setdefault((file, ", ".join(f"`{name}`" for name in exports.get(place, []))), set()).add(place.name)
    if not any(file for file, _ in by_file):
        return
    yield from ["", "## Where the words are defined", ""]
    yield "A clause imports these words from the files of `Rattle.warg_protocol.specs` that stand in brackets."
    yield ""
    for file, exported in sorted(by_file, key=lambda it: (not it[0], *it)):
        title = file.removeprefix("crates/").removesuffix(".antt").replace("/specs/", "/")
        where = f"[{title}](../../{file})" if file else "in the toolchain's library"
        names = ", ".join(f"`{name}`" for name in sorted(by_file[file, exported]))
        yield from wrapped(f"- {where}{f' ({exported})' if exported and file else ''}: {names}", "  ")


def module_page(module: Module, seen: Seen, exports: dict[Place, list[str]]) -> str:
    lines = [*about_module(module), "", "[All modules](../API.md)"]
    for name, item in module.items:
        lines += item_section(name, item, seen)
    return "\n".join([*lines, *words_section(module, seen, exports)]) + "\n"


def wrapped(text: str, indent: str = "") -> list[str]:
    return textwrap.wrap(text, WIDTH, subsequent_indent=indent, break_on_hyphens=False, break_long_words=False)


def file_of(module: Module) -> str:
    """The name of a module's page: its path below the crate, which itself has the page of the crate's name."""
    return f"{module.path.removeprefix(f'{CRATE}::').replace('::', '.')}.md"


def first_sentence(module: Module) -> str:
    text = " ".join(about(module.file)).split("  ")[0]
    return re.split(r"(?<=[.:]) (?=[A-Z`])", text)[0]


def contents(module: Module) -> list[str]:
    """A module's lines in the list of modules: what it is, and its items, types first."""
    names = sorted((name for name, _ in module.items), key=lambda name: (not name[0].isupper(), name))
    about_it = first_sentence(module)
    lines = wrapped(f"- [`{module.path}`](api/{file_of(module)})" + (f": {about_it}" if about_it else ""), "  ")
    items_of_it = ", ".join(f"`{name}`" for name in names)
    return lines + (wrapped(f"  Has {items_of_it}.", "  ") if names else [])


def pages() -> dict[str, str]:
    """The text of each page, by its name from the root."""
    seen: Seen = {}
    found, exports = list(modules(CRATE, f"crates/{CRATE}/src/lib.rt", seen)), reachable()
    index = INTRODUCTION + "\n" + "\n".join(line for module in found for line in contents(module)) + "\n"
    return {INDEX: index, **{f"{FOLDER}/{file_of(module)}": module_page(module, seen, exports) for module in found}}


def write(is_compared: bool) -> int:
    """Writes all pages, or compares them with those that stand there. The result is the tool's exit status."""
    found, status = pages(), 0
    (ROOT / FOLDER).mkdir(exist_ok=True)
    for name, text in found.items():
        status |= write_or_compare(name, text, is_compared)
    for path in sorted((ROOT / FOLDER).glob("*.md")):
        name = str(path.relative_to(ROOT))
        if name not in found and is_compared:
            print(f"{name} is of no module")
            status = 1
        elif name not in found:
            path.unlink()
    return status
