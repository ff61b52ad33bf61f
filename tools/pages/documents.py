"""What is checked of the documents: the code that they quote, the width of their lines, and their links."""
import functools
import re
import subprocess
from collections.abc import Iterator
from pathlib import Path

from .shared import ROOT

# How many bytes README.md may have.
README_BUDGET = 9000
# How many columns a line of text may have.
WIDTH = 120
# The pages whose code is as the sources have it.
GENERATED = re.compile(r"docs/api/.*\.md")
QUOTED = re.compile(r"<!-- (\S+\.\w+|crates\.txt)((?: \S+)*) -->\n```(\w*)\n(.*?)```\n", re.S)
BLOCK = re.compile(r"^```.*?^```$", re.S | re.M)
LINK = re.compile(r"\]\(([^)\s]+)\)")
SCRIPTS = (".py", ".sh", ".dot")


@functools.cache
def files() -> list[Path]:
    """The files that git knows, or that are new and not ignored."""
    words = ["git", "ls-files", "-z", "--cached", "--others", "--exclude-standard"]
    listed = subprocess.run(words, cwd=ROOT, capture_output=True, text=True, check=True).stdout
    return sorted(path for name in set(filter(None, listed.split("\0"))) if (path := ROOT / name).is_file())


def documents() -> list[Path]:
    return [path for path in files() if path.suffix == ".md"]


def texts() -> Iterator[Path]:
    """The documents and the scripts."""
    for path in files():
        name = str(path.relative_to(ROOT))
        is_tool = name.startswith(("tools/", "bin/", ".ci/")) and not path.suffix
        if path.suffix in (".md", *SCRIPTS) or is_tool or name == "docs/tool.schema.json":
            yield path


def without(pattern: re.Pattern[str], text: str) -> str:
    """The text with empty lines in place of what the pattern finds."""
    return pattern.sub(lambda it: "\n" * it[0].count("\n"), text)


def wide_lines() -> Iterator[str]:
    """What is said of each line that is too wide, but for those that are quoted from a source."""
    for path in texts():
        name, text = str(path.relative_to(ROOT)), path.read_text(encoding="utf-8")
        text = without(BLOCK if GENERATED.match(name) else QUOTED, text)
        for number, line in enumerate(text.split("\n"), 1):
            if len(line) > WIDTH:
                yield f"{name}:{number}: wider than {WIDTH} columns"


@functools.cache
def anchors(path: Path) -> set[str]:
    """The names by which the headings of a page are linked to."""
    found = re.findall(r"^#+ (.*)$", without(BLOCK, path.read_text(encoding="utf-8")), re.M)
    return {re.sub(r"[^\w\- ]", "", title.lower()).replace(" ", "-") for title in found}


def dead_links() -> Iterator[str]:
    """What is said of each link that leads to no file of the repository, or to no heading of it."""
    for path in documents():
        text = re.sub(r"`[^`\n]*`", "", without(BLOCK, path.read_text(encoding="utf-8")))
        for link in LINK.findall(text):
            if "://" in link:
                continue
            name, _, anchor = link.partition("#")
            to = (path.parent / name).resolve() if name else path
            if not to.exists() or (anchor and anchor not in anchors(to)):
                yield f"{path.relative_to(ROOT)}: a link leads nowhere: {link}"


def item(file: str, lines: list[str], name: str) -> list[str]:
    """The lines of the item of this name, with the comments above it, moved to the left."""
    head = rf"\s*(pub )?(fn|struct|enum|type) {name}\b|impl {name}\b|impl .* for {name}\b|{name}:"
    at = next((i for i, it in enumerate(lines) if re.match(head, it)), None)
    if at is None:
        raise SystemExit(f"{file} has no item {name}")
    indent = " " * (len(lines[at]) - len(lines[at].lstrip(" ")))
    start = at
    while start and re.match(indent + r"(///? |#\[)", lines[start - 1]):
        start -= 1
    end = at
    while not re.match(indent + r"(}|\S.*;$)", lines[end]):
        end += 1
    return [it.removeprefix(indent) for it in lines[start : end + 1]]


def excerpt(file: str, names: list[str]) -> str:
    """A whole file, or the items of it with these names."""
    if not (ROOT / file).is_file():
        raise SystemExit(f"there is no file {file}")
    text = (ROOT / file).read_text(encoding="utf-8")
    if not names:
        return text
    return "\n\n".join("\n".join(item(file, text.split("\n"), name)) for name in names) + "\n"


def filled(text: str) -> str:
    """The text of a page, with its quoted blocks as their files have them."""
    return QUOTED.sub(lambda it: f"<!-- {it[1]}{it[2]} -->\n```{it[3]}\n{excerpt(it[1], it[2].split())}```\n", text)


def other_blocks(is_written: bool) -> Iterator[str]:
    """What is said of each page with a block that differs from its file, unless the blocks are filled in."""
    for page in [ROOT / "README.md", *sorted((ROOT / "docs").glob("*.md"))]:
        text = page.read_text(encoding="utf-8")
        new = filled(text)
        if new != text and is_written:
            page.write_text(new, encoding="utf-8")
        elif new != text:
            yield f"{page.relative_to(ROOT)}: a block differs from its file"


def long_readme() -> Iterator[str]:
    size = len((ROOT / "README.md").read_bytes())
    if size > README_BUDGET:
        yield f"README.md has {size} bytes, more than {README_BUDGET}"
