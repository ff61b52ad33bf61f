"""The crates of crates.txt: as a picture, and as the lines of docs/ARCHITECTURE.md that say what each uses.

A comment of crates.txt that ends in no dot is the head of a group: the crates below it stand in one box of the picture.
"""
import re
import shutil
import subprocess
import textwrap
from collections.abc import Iterator
from typing import NamedTuple

from .shared import ROOT, write_or_compare

PAGE = "docs/ARCHITECTURE.md"
GRAPH = "docs/crates.dot"
# The pictures, each with the text that it is drawn from.
PICTURES = {"docs/crates.svg": GRAPH, "docs/record.svg": "docs/record.dot"}
WIDTH = 120
VERSION = re.compile(r"graphviz version ([\d.]+)")
HEAD = """\
// Written by tools/pictures from crates.txt. An arrow leads from a crate to one that it uses. Those that follow from
// others are left out.
digraph crates {
  graph [bgcolor="white", fontname="Helvetica,Arial,sans-serif", fontsize=14, nodesep=0.15, ranksep=0.4]
  node [shape=box, style="rounded,filled", fillcolor="#eef3fa", color="#5b7aa6", fontcolor="#102030",
    fontname="Helvetica,Arial,sans-serif", fontsize=12, height=0.3, margin="0.1,0.04"]
  edge [color="#5b7aa6", arrowsize=0.6]
"""


class Crate(NamedTuple):
    """A crate: its name, the head of its group or nothing, and the names of the crates that it uses."""

    name: str
    group: str
    uses: tuple[str, ...]


def crates() -> list[Crate]:
    """The crates in the order of crates.txt."""
    found, group = [], ""
    for line in (ROOT / "crates.txt").read_text(encoding="utf-8").splitlines():
        if line.startswith("#"):
            group = group if line.endswith(".") else line.removeprefix("#").strip()
        elif line.strip():
            name, _, uses = line.partition(":")
            found.append(Crate(name.split()[0], group, tuple(uses.split())))
    return found


def below(crate: Crate, known: dict[str, Crate]) -> set[str]:
    """The crates of the repository that it stands on, near and far."""
    found = set()
    for name in crate.uses:
        if name in known and name not in found:
            found |= {name} | below(known[name], known)
    return found


def arrows(crate: Crate, known: dict[str, Crate]) -> list[str]:
    """The crates that it uses, but for those that another of them stands on."""
    own = [name for name in crate.uses if name in known]
    far = set().union(*(below(known[name], known) for name in own))
    return sorted(name for name in own if name not in far)


def graph() -> str:
    """The picture of the crates as a text for Graphviz."""
    found = crates()
    known = {it.name: it for it in found}
    lines, groups = [], dict.fromkeys(it.group for it in found)
    for number, group in enumerate(groups):
        names = sorted(it.name for it in found if it.group == group)
        if group:
            lines.append(f"  subgraph cluster_{number} {{")
            lines.append(f'    graph [label="{group}", color="#9aa9bd", fontcolor="#102030", style="rounded"]')
        lines += [f"    {name}" if group else f"  {name}" for name in names]
        lines += ["  }"] if group else []
    lines += [f"  {it.name} -> {name}" for it in sorted(found) for name in arrows(it, known)]
    return HEAD + "\n".join(lines) + "\n}\n"


def uses_lines(crate: Crate, known: dict[str, Crate]) -> list[str]:
    """The lines of the page that say what a crate uses, but for the crates that another of them stands on."""
    near = arrows(crate, known)
    words = ", ".join(f"`{name}`" for name in crate.uses if name not in known or name in near) or "nothing"
    return textwrap.wrap(f"Uses {words}.", WIDTH, initial_indent="  ", subsequent_indent="  ", break_on_hyphens=False)


def page(text: str) -> str:
    """The page with the lines of `Uses` anew: each stands at the end of the item that begins with the crate's name."""
    known, named, lines = {it.name: it for it in crates()}, [], []
    for block in re.split(r"^(?=- |#|\n)", text, flags=re.M):
        if found := re.match(r"- \*\*`(\w+)`\*\*", block):
            named.append(found[1])
            if found[1] not in known:
                raise SystemExit(f"{PAGE} has a crate that crates.txt lacks: {found[1]}")
            kept = re.sub(r"^  Uses `?[\s\S]*", "", block, flags=re.M).rstrip("\n")
            block = "\n".join([kept, *uses_lines(known[found[1]], known)]) + "\n"
        lines.append(block)
    other = sorted((set(known) - set(named)) | {name for name in named if named.count(name) > 1})
    if other:
        raise SystemExit(f"{PAGE} has not just one item of: {', '.join(other)}")
    return "".join(lines)


def version() -> str | None:
    """The version of Graphviz, or None where it is missing."""
    if not shutil.which("dot"):
        return None
    said = subprocess.run(["dot", "-V"], capture_output=True, text=True, check=True)
    found = VERSION.search(said.stdout + said.stderr)
    return found[1] if found else None


def drawn(name: str) -> str:
    return subprocess.run(["dot", "-Tsvg", name], cwd=ROOT, capture_output=True, text=True, check=True).stdout


def shown(picture: str) -> str:
    """What a picture shows, wherever on it that stands, which depends on the machine's fonts."""
    return re.sub(r"-?[\d.]+", "0", re.sub(r' (d|points)="[^"]*"', "", picture))


def pictures(is_compared: bool) -> Iterator[int]:
    """Draws the pictures, or compares them where the version of Graphviz is that which drew them."""
    here = version()
    for picture, name in PICTURES.items():
        path = ROOT / picture
        there = path.read_text(encoding="utf-8") if path.is_file() else ""
        made = VERSION.search(there)
        if here is None:
            print(f"left out: {picture}, since Graphviz is missing")
        elif is_compared and made and made[1] != here:
            print(f"left out: {picture}, which Graphviz {made[1]} drew, and not {here}")
        elif not is_compared or shown(drawn(name)) != shown(there):
            yield write_or_compare(picture, drawn(name), is_compared)


def write(is_compared: bool) -> int:
    """Writes all of this, or compares it with what stands there. The result is the tool's exit status."""
    text = (ROOT / PAGE).read_text(encoding="utf-8")
    statuses = [write_or_compare(PAGE, page(text), is_compared), write_or_compare(GRAPH, graph(), is_compared)]
    return max(*statuses, *pictures(is_compared), 0)
