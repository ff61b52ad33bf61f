"""The statements of docs/HEADLINE.md: the functions with their clauses, and what the members of traits are."""
import functools
import textwrap
from collections.abc import Iterable, Sequence

from . import items, specs
from .closure import source
from .items import Item
from .names import Names, names_of
from .specs import Place, Scope

WIDTH = 120


def trait_members(file: str, name: str, wanted: Sequence[str]) -> list[Item]:
    """The ghost members of a trait, in the order of the names: their types, and the comments above them."""
    trait = next(it for it in items.items_of(file) if it.kind == "trait" and it.name == name)
    members = {it.name: it for it in items.members_of(trait) if it.kind == "ghost"}
    return [members[it] for it in wanted]


def impl_of(file: str, head: str) -> Item:
    return next(it for it in items.items_of(file) if it.kind == "impl" and it.name == head)


class Statements:
    """The statements as text, and the names that their clauses cite."""

    def __init__(self) -> None:
        self.roots: dict[Place, None] = {}
        self.lines: list[str] = []

    def cite(self, scope: Scope, text: str, bound: Iterable[str]) -> Names:
        names = names_of(scope, text, bound)
        self.roots.update(dict.fromkeys(names.found.values()))
        return names

    def function(self, file: str, owner: str | None, name: str) -> None:
        """A function with its clauses."""
        within = items.items_of(file)
        uses = list(within)
        if owner:
            impls = [it for it in within if it.kind == "impl" and it.name == owner]
            within = [it for impl in impls for it in items.members_of(impl)]
            uses += within
        item = next(it for it in within if it.kind == "fn" and it.name == name)
        head = items.head_of(item)
        scope = specs.ghost_scope(uses)
        bound = items.variables([owner or "", *head])
        cited: dict[str, list[str]] = {}
        for text in items.clauses(head):
            names = self.cite(scope, text, bound)
            self.cite_types(file, names.unknown)
            for word, place in names.found.items():
                if place.kind != "kit":
                    cited.setdefault(source(place), []).append(word)
        about = "; ".join(f"{', '.join(dict.fromkeys(words))} of {where}" for where, words in sorted(cited.items()))
        wrapped = functools.partial(textwrap.wrap, width=WIDTH, break_on_hyphens=False)
        lines = wrapped(about, initial_indent="// Here ", subsequent_indent="//    ")
        self.lines += ["", "```rust", f"// {file}", *lines, *item.comments, *head, "```"]

    def cite_types(self, file: str, words: list[str]) -> None:
        """The types of the code whose cases a clause names, as `HeadComparison.Same`."""
        for word in words:
            item = items.resolve(file, [word.partition(".")[0]])
            if not isinstance(item, items.Item):
                raise SystemExit(f"{file}: a clause names what is not known: {word}")
            self.roots[Place("rust", item.file, item.name)] = None

    def members(
        self, letter: str, file: str, trait: str, wanted: Sequence[str], kinds: Sequence[tuple[str, str]]
    ) -> None:
        """An item of the list for each member of the trait: what it is of each kind."""
        for member in trait_members(file, trait, wanted):
            about = " ".join(line.removeprefix("//").strip() for line in member.comments)
            cells = [self.member(of, head, member.name) for of, head in kinds]
            self.member_lines(f"{letter}.{member.name}", about, cells)

    def member_lines(self, name: str, about: str, cells: Sequence[str]) -> None:
        """What a member is, and what it is in package logs and in operator logs."""
        wrapped = functools.partial(textwrap.wrap, width=WIDTH, break_on_hyphens=False, break_long_words=False)
        self.lines += wrapped(f"- `{name}`: {about}", subsequent_indent="  ")
        for kind, cell in zip(("package", "operator"), cells, strict=True):
            self.lines += wrapped(f"  - {kind}: {cell}", subsequent_indent="    ")

    def member(self, file: str, head: str, name: str) -> str:
        members = items.members_of(impl_of(file, head))
        item = next(it for it in members if it.kind == "ghost" and it.name == name)
        text = items.ghost_text(item)
        scope = specs.ghost_scope([*items.items_of(file), *members])
        self.cite(scope, text, ())
        place = Names(scope).look_up(text)
        return f"`{place.name}` of `{source(place)}`" if place else f"`{text}`"


PACKAGE = ("crates/warg_package_log/src/validator.rt", "Validator for LogState")
OPERATOR = ("crates/warg_operator_log/src/validator.rt", "Validator for LogState")
PACKAGE_RECORD = ("crates/warg_log_records/src/package.rt", "Record for PackageRecord")
OPERATOR_RECORD = ("crates/warg_log_records/src/operator.rt", "Record for OperatorRecord")


def statements() -> Statements:
    it = Statements()
    it.lines += ["## The statements", "", "`run`, for each kind of log `L` and each verifier `V`:"]
    it.function("crates/warg_replay/src/replay.rt", None, "run")
    it.lines += ["", "Equal heads, as a law of all accepted logs, and as what a program is told of two logs:"]
    it.function("crates/warg_replay/src/audited_log/laws.rt", None, "equal_heads")
    file = "crates/warg_replay/src/audited_log/audited_log.rt"
    it.function(file, "<L: Validator, V: Verifier + Drop> AuditedLog<L, V>", "compare_heads")
    it.roots[Place("rust", file, "AuditedLog")] = None
    it.lines += ["", "With P-256: `run` for signatures that are verified here, and what is proved of their test:"]
    it.function("crates/warg_protocol/src/p256.rt", None, "run_signed")
    it.function("crates/warg_p256/src/laws.rt", None, "verified_exactly")
    it.lines += ["", "What the members are in the two kinds, `LogState` of `warg_protocol::package` and of"]
    it.lines += ["`warg_protocol::operator`:", ""]
    kinds = (PACKAGE, OPERATOR)
    states = [file.replace("validator.rt", "state.rt") for file, _ in kinds]
    cells = [it.member(file, "Model for LogState", "Value") for file in states]
    it.member_lines("L", "What a state itself is seen as.", cells)
    members = ("View", "Offence", "kind", "view", "offence_of")
    it.members("L", "crates/warg_replay/src/validator.rt", "Validator", members, kinds)
    of_record = ("Meaning", "Fault", "read", "fault_of")
    it.members("L.Record", "crates/warg_envelope/src/lib.rt", "Record", of_record, (PACKAGE_RECORD, OPERATOR_RECORD))
    belongs = trait_members("crates/warg_crypto/src/signing.rt", "Verifier", ["belongs"])[0]
    about = " ".join(line.removeprefix("//").strip() for line in belongs.comments)
    it.member_lines("V.belongs", about, ["any", "any"])
    it.cite(specs.ghost_scope(items.items_of("crates/warg_crypto/src/signing.rt")), items.ghost_text(belongs), {"Self"})
    return it
