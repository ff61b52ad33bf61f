"""The public items of warg_protocol: what its modules have, and the impls of its types."""
import functools
import re
from collections.abc import Iterator

from . import items
from .items import Item
from .shared import ROOT, crates_below, dependencies

# The path of each item and module that was met, by its file and name, or by its file.
Seen = dict[tuple[str, str] | str, str]
KINDS = ("struct", "enum", "trait", "type", "fn", "const")
# Members of impls that are proofs, or repeat what another member says.
PROOFS = re.compile(
    r"(laws|inverse|styled_output|one_\w+|equal_errors|equals|versions_written|versions_read|equivalent_\w+"
    r"|held_by_effects|gives_what_is_held|decodes_reading|memory_\w+|respects_\w+|matches_\w+|total)$"
)


def target(file: str, name: str) -> Item | str | None:
    """What a name that a file exports leads to: an item, the file of a module, or None where it is of the toolchain's
    library."""
    path, _ = items.uses_of(file).get(name, (None, None))
    return items.resolve(file, path) if path else items.find_in(file, name)


def exports(file: str) -> Iterator[tuple[str, Item | str | None]]:
    """The public names of a module, each with what it leads to."""
    for item in items.items_of(file):
        if item.is_public and item.kind in (*KINDS, "mod"):
            yield item.name, item if item.kind != "mod" else items.find_in(file, item.name)
    for name, (_, is_public) in items.uses_of(file).items():
        if is_public:
            yield name, target(file, name)


class Module:
    """A module as users name it: its path, its file, and its items."""

    def __init__(self, path: str, file: str):
        self.path, self.file = path, file
        self.items: list[tuple[str, Item]] = []
        self.kit: list[str] = []
        self.again: list[tuple[str, str]] = []


def modules(path: str, file: str, seen: Seen) -> Iterator[Module]:
    """The module and those below it, each item and each module once, where it comes first."""
    module, below = Module(path, file), []
    for name, leads_to in sorted(exports(file), key=lambda it: (isinstance(it[1], str), it[0])):
        if leads_to is None:
            module.kit.append(name)
        elif key(leads_to) in seen:
            module.again.append((name, seen[key(leads_to)]))
        else:
            seen[key(leads_to)] = f"{path}::{name}"
            if isinstance(leads_to, str):
                below.append((name, leads_to))
            else:
                module.items.append((name, leads_to))
    yield module
    for name, leads_to in below:
        yield from modules(f"{path}::{name}", leads_to, seen)


def key(leads_to: Item | str) -> tuple[str, str] | str:
    return leads_to if isinstance(leads_to, str) else (leads_to.file, leads_to.name)


def self_type(head: str) -> tuple[str, str]:
    """The trait of an impl, if any, and the name of its type: of `<L> Model for AuditedLog<L>`."""
    while head.startswith("<"):
        depth = 0
        for i, c in enumerate(head):
            depth += (c == "<") - (c == ">" and head[i - 1] != "-")
            if depth == 0:
                break
        head = head[i + 1 :].strip()
    trait, _, name = head.rpartition(" for ")
    return trait, re.sub(r"<.*", "", name)


@functools.cache
def impls(crate: str) -> list[tuple[str, tuple[str, str] | str, Item]]:
    """The impls of a crate, each with its trait and the item that it is of."""
    found = []
    for path in sorted((ROOT / f"crates/{crate}/src").rglob("*.rt")):
        file = str(path.relative_to(ROOT))
        for item in items.items_of(file):
            if item.kind == "impl":
                trait, name = self_type(item.name)
                of = items.resolve(file, name.split("::"))
                if isinstance(of, Item):
                    found.append((trait, key(of), item))
    return found


@functools.cache
def crates() -> list[str]:
    below = dependencies("warg_protocol")
    return [crate for crate in crates_below() if crate in below]


def impls_of(item: Item) -> list[tuple[str, Item]]:
    """The impls of a type, those of its own file first."""
    found = [(trait, it) for crate in crates() for trait, of, it in impls(crate) if of == key(item)]
    return sorted(found, key=lambda it: it[1].file != item.file)


def is_public(impl: Item, member: Item) -> bool:
    """Of a model, what values are seen as counts; how that is made of the private fields does not."""
    return member.name == "Value" or not re.match(r"(<.*> )?Model for ", impl.name)


def is_shown(trait: str, item: Item, seen: Seen) -> bool:
    """Whether users can name the trait and the types in it: such as warg_protocol has, or as the toolchain's library
    has. `Drop` says nothing to them."""
    named = [items.resolve(item.file, path.split("::")) for path in re.findall(r"[\w:]+", trait)]
    return trait != "Drop" and all(key(it) in seen for it in named if isinstance(it, Item))


def said_in(impl: Item) -> Iterator[Item]:
    """The members of an impl that say something beyond its trait: types, ghost members, and functions with clauses of
    their own."""
    for it in items.members_of(impl):
        is_ghost = it.kind == "ghost" and not PROOFS.match(it.name) and is_public(impl, it)
        has_clauses = it.kind == "fn" and any(re.match(r"\s+(requires|ensures) ", line) for line in items.head_of(it))
        if it.kind in ("type", "const") or is_ghost or has_clauses:
            yield it
