"""The pages of the headline: the statements of `run` and of equal heads, and each definition that they rest on.

docs/HEADLINE.md has the statements and what a lawful log is, docs/HEADLINE_RECORDS.md what bytes say as records, and
docs/HEADLINE_P256.md which signatures belong to a message by ECDSA P-256.
"""
import textwrap
from collections.abc import Iterator
from collections.abc import Set as AbstractSet
from typing import NamedTuple

from .closure import Closure, check_order, in_files
from .layout import Meanings, definitions
from .specs import Place
from .statements import statements

LOGS, RECORDS, P256 = "HEADLINE.md", "HEADLINE_RECORDS.md", "HEADLINE_P256.md"
BUDGET = 1000
WIDTH = 120

# What the other pages begin with: all that these name stands there.
READING = (
    Place("definition", "warg_envelope.specs.Envelopes", "envelope_of"),
    Place("definition", "warg_envelope.specs.Envelopes", "envelope_fault_of"),
    Place("definition", "warg_envelope.specs.Faults", "fault_of"),
    Place("definition", "warg_log_records.specs.PackageReading", "package_record_of"),
    Place("definition", "warg_log_records.specs.OperatorReading", "operator_record_of"),
)
SIGNATURES = (
    Place("definition", "warg_p256.specs.Scheme", "p256_belongs"),
    Place("definition", "warg_p256.specs.Laws", "VerifiedExactly"),
)

INTRODUCTION = """\
# What the headline rests on

This page and the two that it rests on are written by `tools/headline` from the sources. They are the one text to read
in order to judge what is proved of reading a whole log. This one has the statements, and what a lawful log is.
[What bytes say](HEADLINE_RECORDS.md) has the envelopes and records that byte strings are,
[ECDSA P-256](HEADLINE_P256.md) the signatures that are verified here.

> For every list of byte strings and every verifier, `run` gives a state exactly when each string is an envelope and
> each record and entry is lawful by the history before it, and then the history's own state; otherwise it names the
> place of the first offence, and the offence. Two accepted logs with equal heads have equal contents, record for
> record, or two named records collide.

> With ECDSA P-256 nothing is handed in: `run_signed` says the same of the signatures of FIPS 186-5.

[GLOSSARY](GLOSSARY.md) explains the words.

Out of memory is an answer of its own. It names no offence, and says that no string before its place has one.

The checker proves each clause below for the code as it is. What it can't know is whether the clauses say what is meant.
So read the statements first, then the definitions, each against [FORMATS](FORMATS.md) and
[DEFINITIONS](DEFINITIONS.md).

## How to read it

- The statements are as they stand in the code. What is between the braces after `ensures` holds of each call; `result`
  is what the call returns.
- The definitions follow from the bottom up, each once and before it is used, those of the other two pages first. They
  are all that the statements need: proofs and laws are left out. A file's path stands above what is taken from it.
  Where two definitions have one name, the last one above is meant, or the one that a line `Here` names. That line also
  says what a name with a dot stands for: with `fault. of NamedBytesError`, `fault.BadBase64` is the case `BadBase64` of
  `NamedBytesError`.
- A definition has its comment (after `--`), its type (after the first colon) and its value, by cases where its
  arguments are taken apart. The first case that fits counts. Words that only tell the checker how to treat a definition
  (`pub`, `abbrev`, `unfoldable`) are left out, and lines are joined. The fields of a record, and the cases of a type,
  stand between braces.
- `(x : A) → B` is "for each x of A, B"; `(x : A) × B` is "some x of A, with B"; `A → B` is a function, or "if A then
  B"; `A × B` is a pair, or "A and B"; `A ⊎ B` is "A or B"; `A ↔ B` is "exactly if"; `Unit` always holds, and `⊥` never.
  `λ x. e` is the function that gives e for x, and `f x y` applies f to x and y. `x ∷ xs` is a list with its first item,
  `xs ++ ys` is one list after another, and `≡` is equality.
- Numbers of code are whole numbers, a byte is one below 256, and a string, a slice or a `Vec` is a list. `p.field`
  takes a field or, of a pair, the part at `.0` or `.1`. `module _ (x : A) where` makes x a parameter of all that is
  indented below it.
- A type of the code is shown with its cases or fields. Where its values are seen as plain data, that type stands after
  `seen as`.
- The names of the toolchain's own library are listed at the end of each page.
"""

OF_RECORDS = """\
# What bytes say

This page is written by `tools/headline` from the sources: the envelope that a byte string is, and the record that its
content bytes are, or the first fault. [HEADLINE](HEADLINE.md) rests on it, and says how to read it."""

OF_P256 = """\
# Which signatures belong to a message by ECDSA P-256

This page is written by `tools/headline` from the sources: the relation of `run_signed`, after FIPS 186-5 and SEC 1, and
that the test computes it. [HEADLINE](HEADLINE.md) has the statements, and says how to read it. What is named of keys,
signatures and hashes stands in [What bytes say](HEADLINE_RECORDS.md)."""


class Page(NamedTuple):
    """A page in docs/, how it begins, and the definitions on it."""

    name: str
    beginning: list[str]
    places: AbstractSet[Place]


def wrapped(text: str) -> list[str]:
    """An item of a list."""
    return textwrap.wrap(text, WIDTH, subsequent_indent="  ", break_on_hyphens=False)


def library(kit: AbstractSet[Place]) -> Iterator[str]:
    """The names of the toolchain's library, by module."""
    yield from ["", "## Names of the toolchain's library", ""]
    for module in sorted({place.module for place in kit}):
        names = ", ".join(f"`{place.name}`" for place in sorted(kit) if place.module == module)
        yield from wrapped(f"- `{module}`: {names}")


def from_others(page: Page, others: list[Page], named: AbstractSet[Place]) -> Iterator[str]:
    """The names that the page takes from those before it."""
    for other in others:
        names = sorted({place.name for place in named & other.places if place.kind != "kit"})
        if names:
            yield ""
            title = other.beginning[0].removeprefix("# ")
            text = f"From [{title}]({other.name}): {', '.join(f'`{it}`' for it in names)}."
            yield from textwrap.wrap(text, WIDTH, break_on_hyphens=False)


def of_page(page: Page, closure: Closure) -> Iterator[tuple[str, list[Place]]]:
    """The files of which the page has definitions, each with these."""
    for file, found in in_files(closure):
        if places := [it for it in found if it in page.places]:
            yield file, places


def pages() -> dict[str, str]:
    """The pages by name."""
    stated = statements()
    closure = Closure(stated.roots)
    reading = Closure(READING).seen
    signatures = Closure(SIGNATURES).seen - reading
    in_order = [
        Page(RECORDS, OF_RECORDS.split("\n"), reading),
        Page(P256, OF_P256.split("\n"), signatures),
        Page(LOGS, [*INTRODUCTION.split("\n"), *stated.lines], closure.seen - reading - signatures),
    ]
    files = {it.name: list(of_page(it, closure)) for it in in_order}
    check_order([file for it in in_order for file in files[it.name]], closure)
    meanings, found = Meanings(closure), {}
    for at, it in enumerate(in_order):
        parts = set().union(*(closure.parts[place] for _, places in files[it.name] for place in places))
        if it.name == LOGS:
            parts |= set(stated.roots)
        lines = [*it.beginning, "", "## The definitions", *from_others(it, in_order[:at], parts)]
        lines += [*definitions(files[it.name], meanings), *library(parts & closure.kit)]
        if len(lines) > BUDGET:
            raise SystemExit(f"docs/{it.name} would have {len(lines)} lines, {len(lines) - BUDGET} above its budget")
        found[f"docs/{it.name}"] = "\n".join(lines) + "\n"
    return found
