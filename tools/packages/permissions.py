"""What keys may do in logs of both kinds, and the files that repeat it.

The permissions, their texts and their numbers are those of the definitions of crates/warg_permissions, and what each
lets a key do is said above its case in the code there. The packages, the header's comment, docs/FORMATS.md, and
definitions and proofs that go through all cases repeat that.
"""

import re
import textwrap
from collections.abc import Callable, Iterator
from typing import NamedTuple

from common import ROOT

CRATE = "crates/warg_permissions"
KINDS = {"package": "a package", "operator": "operators"}
WIDTH = 120


class Permission(NamedTuple):
    """A permission: its case, its text, its number in messages, and what it lets a key do."""

    case: str
    text: str
    number: int
    allows: str


class Place(NamedTuple):
    """What a file repeats: the file, a pattern of what stands there once, and what that has to be."""

    file: str
    pattern: str
    wanted: str


def all_of(kind: str) -> list[Permission]:
    """The permissions of a kind, in their order."""
    name = f"{CRATE}/specs/{kind.capitalize()}Permissions.antt"
    specs = (ROOT / name).read_text(encoding="utf-8")
    code = (ROOT / CRATE / f"src/{kind}.rt").read_text(encoding="utf-8")
    listed = re.search(r"^all_permissions = (.*) ∷ \[\]$", specs, re.M)
    cases = listed[1].split(" ∷ ") if listed else []
    numbers = {case: int(it) for case, it in re.findall(r"^number_of (\w+) = (\d+)$", specs, re.M)}
    texts = dict(re.findall(r'^permission_text (\w+) = codes "(\w+)"$', specs, re.M))
    enum = code[code.index("pub enum Permission {") :]
    said = re.findall(r"((?:^    /// .*\n)+)^    (\w+),$", enum[: enum.index("\n}\n")], re.M)
    comments = {case: " ".join(line.strip().removeprefix("/// ") for line in it.splitlines()) for it, case in said}
    allowed = {case: found[1] for case, it in comments.items() if (found := re.fullmatch(r"The key may (.*)\.", it))}
    for what, named in (("number", numbers), ("text", texts), ('comment "The key may .."', allowed)):
        if not cases or set(named) != set(cases):
            raise SystemExit(f"{CRATE}: the permissions that have a {what} are not those that {name} lists")
    return [Permission(it, texts[it], numbers[it], allowed[it]) for it in cases]


def joined(parts: list[str], last: str) -> str:
    """Parts with commas between, and a word before the last."""
    return last.join((", ".join(parts[:-1]), parts[-1])) if parts[1:] else parts[0]


def consed(prefix: str, its: list[Permission]) -> str:
    """The list of the cases, each behind a prefix."""
    return "".join(f"{prefix}{it.case} ∷ " for it in its) + "[]"


def distinct(count: int) -> str:
    """The proof that so many are distinct: that each differs from all behind it."""
    others = "tt"
    told = "tt"
    for _ in range(count):
        told, others = f"({others}, {told})", f"(refl, {others})"
    return told


def of_crates(kind: str, its: list[Permission]) -> Iterator[Place]:
    """What crates repeat."""
    name = f"{kind}_permissions_distinct"
    yield Place(
        f"{CRATE}/proofs/Distinct.antt",
        rf"^pub {name} : .*\nunfolding IsDistinct\n{name} = .*$",
        f"pub {name} : IsDistinct {kind}_permissions.same_permission ({consed(f'{kind}s.', its)})\n"
        f"unfolding IsDistinct\n{name} = {distinct(len(its))}",
    )
    words = "crates/tool_answers/specs/Words.antt"
    cases = ", ".join(it.case for it in its)
    yield Place(words, rf"(?<=declared\.{kind}\.Permission\.TheVariants\.)\{{.*\}}$", f"{{{cases}}}")
    yield Place(words, rf"(?<=^{kind}_order = ).*$", consed("", its))
    found = [f"in_{kind}_order {it.case} = ({place}, omega arith, refl)\n" for place, it in enumerate(its)]
    yield Place(words, rf"(?:^in_{kind}_order \w+ = .*\n)+", "".join(found))
    lemmas = "crates/tool_laws/proofs/RequestLemmas.antt"
    for file in ("crates/weoldrin/specs/Requests.antt", lemmas):
        yield Place(file, rf"(?<=^      order = ){kind}_permission\..*(?=;$)", consed(f"{kind}_permission.", its))
    plain = [f"{kind}_text_plain {kind}_permission.{it.case} = refl\n" for it in its]
    yield Place(lemmas, rf"(?:^{kind}_text_plain \w+\.\w+ = .*\n)+", "".join(plain))
    texts = joined([f"`{it.text}`" for it in its], " and ")
    yield Place("crates/warg_c/src/exports/keys.rt", rf"`\w+`(?:(?:, | and )`\w+`)*(?= of {kind} logs)", texts)


def comment(mark: str, text: str) -> str:
    """The lines of a comment behind a mark, which has the indent."""
    width = WIDTH - len(mark.expandtabs(4))
    return "".join(f"{mark}{line}\n" for line in textwrap.wrap(text, width, break_on_hyphens=False))


def of_packages(kind: str, its: list[Permission]) -> Iterator[Place]:
    """What the packages for Python, JavaScript and Rust repeat."""
    entries = [f'"{it.text}": {it.number}' for it in its]
    head = f"    LogKind.{kind.upper()}: {{"
    line = f"{head}{', '.join(entries)}}},"
    if len(line) > WIDTH:
        line = "\n".join([head, *(f"        {it}," for it in entries), "    },"])
    python = "bindings/python/src/weoldrin/records.py"
    yield Place(python, rf"^    LogKind\.{kind.upper()}: \{{[^}}]*\}},$", line)
    head = f"  [Kind.{kind.upper()}]: new Map([\n"
    pairs = "".join(f'    ["{it.text}", {it.number}],\n' for it in its)
    pattern = rf"^{re.escape(head)}(?:    .*\n)*  \]\),$"
    yield Place("bindings/js/src/records.js", pattern, f"{head}{pairs}  ]),")
    head = f"    {kind.capitalize()}Permission {{\n"
    cases = "".join(
        comment("        /// ", f"{it.allows[0].upper()}{it.allows[1:]}.")
        + f'        {it.case} "{it.text}" {it.number}\n'
        for it in its
    )
    pattern = rf"^{re.escape(head)}(?:        .*\n)*    \}}$"
    yield Place("bindings/rust/src/kind.rs", pattern, f"{head}{cases}    }}")


def of_go(permissions: dict[str, list[Permission]]) -> Iterator[Place]:
    """What the module for Go repeats."""
    constants = "".join(
        comment("\t// ", f"May{it.case} is the permission to {it.allows}, in the log of {KINDS[kind]}.")
        + f'\tMay{it.case} Permission = "{it.text}"\n'
        for kind, its in permissions.items()
        for it in its
    )
    yield Place("bindings/go/values.go", r"^const \(\n\t// May(?:.*\n\t)*.*\n\)$", f"const (\n{constants})")
    width = max(map(len, permissions))
    lines = ""
    for kind, its in permissions.items():
        numbers = ", ".join(f"weoldrin.May{it.case}: {it.number}" for it in its)
        lines += f"\tweoldrin.{kind.capitalize()}:{' ' * (width - len(kind))} {{{numbers}}},\n"
    head = "var permissions = map[weoldrin.Kind]map[weoldrin.Permission]byte{\n"
    pattern = rf"^{re.escape(head)}(?:\t.*\n)*\}}$"
    yield Place("bindings/go/records/records.go", pattern, f"{head}{lines}}}")


def of_documents(permissions: dict[str, list[Permission]]) -> Iterator[Place]:
    """What docs/FORMATS.md says of the numbers."""
    sentences = [
        f"{kind.capitalize()} permissions: {', '.join(f'{it.number} {it.text}' for it in its)}."
        for kind, its in permissions.items()
    ]
    yield Place("docs/FORMATS.md", r"^Package permissions: (?:.+\n)+", textwrap.fill(" ".join(sentences), WIDTH) + "\n")


def places() -> list[Place]:
    """All that is repeated."""
    permissions = {it: all_of(it) for it in KINDS}
    of_kind: list[Callable[[str, list[Permission]], Iterator[Place]]] = [of_crates, of_packages]
    found = [place for call in of_kind for kind, its in permissions.items() for place in call(kind, its)]
    return [*found, *of_go(permissions), *of_documents(permissions)]


def changed(text: str, place: Place) -> str:
    """The text of a file with what it has to repeat."""
    if len(re.findall(place.pattern, text, re.M)) != 1:
        raise SystemExit(f"{place.file} does not list the permissions once, as tools/packages/permissions.py reads it")
    return re.sub(place.pattern, lambda _: place.wanted, text, count=1, flags=re.M)


def texts() -> dict[str, tuple[str, str]]:
    """By file what it is and what it has to be."""
    found: dict[str, tuple[str, str]] = {}
    for place in places():
        if place.file not in found:
            old = (ROOT / place.file).read_text(encoding="utf-8")
            found[place.file] = old, old
        old, new = found[place.file]
        found[place.file] = old, changed(new, place)
    return found


def write() -> None:
    """Writes the lists of permissions anew."""
    for file, (old, new) in texts().items():
        if new != old:
            (ROOT / file).write_text(new, encoding="utf-8")


def faults() -> list[str]:
    """What is said of each file that repeats something else."""
    return [
        f"{file} lists other permissions than {CRATE}: tools/release --copies writes them"
        for file, (old, new) in texts().items()
        if new != old
    ]
