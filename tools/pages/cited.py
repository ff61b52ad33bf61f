"""The names that a clause or a law of warg_protocol cites, and those of them that its specs/ do not re-export."""
import re
from collections.abc import Iterator

from . import items, specs
from .items import Item
from .names import names_of
from .public import Seen, impls_of, is_shown, modules, said_in
from .shared import ROOT
from .specs import Place

# The files of a crate's specs/ that re-export names.
FOLDER = "crates/warg_protocol/specs"


def reachable() -> dict[Place, list[str]]:
    """The definitions and the types that the specs of warg_protocol re-export, each with the files that do so."""
    found: dict[Place, list[str]] = {}
    for path in sorted((ROOT / FOLDER).glob("*.antt")):
        _, uses = specs.read(f"warg_protocol.specs.{path.stem}")
        for place in {place for text in uses if text.startswith("pub use ") for _, place in specs.brought(text)}:
            found.setdefault(place, []).append(path.stem)
    return found


def texts_of(item: Item) -> list[str]:
    """The clauses of a function, or what a ghost member is or has as its type."""
    if item.kind == "fn":
        return items.clauses(items.head_of(item))
    found = re.search(r"[:=] \{ (.*) \};$", " ".join(item.lines))
    return found[1].split(" } = { ") if found and item.kind == "ghost" else []


def cited(file: str, within: Item | None, members: list[Item]) -> Iterator[tuple[Place, Item]]:
    """What the clauses of these members name: each place, with the member that names it."""
    own = items.members_of(within) if within else []
    scope = specs.ghost_scope([*items.items_of(file), *own])
    names = {it.name for it in own if it.kind == "ghost"} if within and within.kind == "trait" else set()
    for item in members:
        head = items.head_of(item) if item.kind == "fn" else []
        bound = items.variables([within.name if within else "", *head]) | names
        for text in texts_of(item):
            for place in names_of(scope, text, bound).found.values():
                yield place, item


def public_members(item: Item, seen: Seen) -> Iterator[tuple[str, Item | None, list[Item]]]:
    """The public items that may have clauses, each with its file and the impl or the trait that it stands in."""
    if item.kind == "fn":
        yield item.file, None, [item]
    if item.kind == "trait":
        yield item.file, item, items.members_of(item)
    if item.kind in ("struct", "enum", "type"):
        for trait, impl in impls_of(item):
            if not trait:
                yield impl.file, impl, [it for it in items.members_of(impl) if it.is_public]
            elif is_shown(trait, impl, seen):
                yield impl.file, impl, list(said_in(impl))


def missing() -> tuple[dict[Place, set[str]], dict[Place, set[str]]]:
    """Each place that is cited and can't be reached, with what cites it: in clauses, and in ghost members of impls."""
    seen: Seen = {}
    known = reachable()
    in_clauses: dict[Place, set[str]] = {}
    in_impls: dict[Place, set[str]] = {}
    for module in list(modules("warg_protocol", "crates/warg_protocol/src/lib.rt", seen)):
        for name, item in module.items:
            for file, within, members in public_members(item, seen):
                for place, member in cited(file, within, members):
                    where = (place.module, place.name)
                    if place.kind == "kit" or place in known or where in seen:
                        continue
                    is_said = member.kind == "ghost" and within is not None and within.kind == "impl"
                    by = f"{module.path}::{name}" + (f"::{member.name}" if member.name != name else "")
                    (in_impls if is_said else in_clauses).setdefault(place, set()).add(by)
    return in_clauses, {place: by for place, by in in_impls.items() if place not in in_clauses}
