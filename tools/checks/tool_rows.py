"""The rows of conformance/tool/: what the program weoldrin is asked, in which files, and what it answers."""
import functools
import json
import pathlib
import re
import shutil
from typing import Any

from common import ROOT

ROWS = ROOT / "conformance/tool"
# The rows that say which permissions there are.
PERMISSIONS = ROOT / "conformance/values/permissions.rows"
Row = dict[str, Any]


def text_of(value: str | list[str]) -> str:
    """A text as it is, or its lines."""
    return value if isinstance(value, str) else "".join(f"{line}\n" for line in value)


@functools.cache
def permissions(kind: str) -> list[str]:
    """All permissions of a kind, as the row of `permissions` has them."""
    found = re.search(rf"^permissions {kind} = (.*)$", PERMISSIONS.read_text(encoding="utf-8"), re.M)
    if not found:
        raise SystemExit(f"{PERMISSIONS.name} has no row of all permissions of the kind {kind}")
    return found[1].split()


def with_permissions(lines: list[str]) -> list[str]:
    """The lines with all permissions where they ask for them: as words, or each as a line."""
    found = []
    for line in lines:
        each = re.fullmatch(r"\{each (\S+)\}", line)
        all_of = re.compile(r"\{all (\S+)\}")
        found += permissions(each[1]) if each else [all_of.sub(lambda it: " ".join(permissions(it[1])), line)]
    return found


def lay_out(row: Row, folder: pathlib.Path) -> None:
    """The files that a row reads: the examples' inputs, and those that it says itself."""
    for path in (ROOT / "examples").glob("*.hex"):
        shutil.copy(path, folder)
    for name, value in row.get("files", {}).items():
        (folder / name).write_text(text_of(value), encoding="utf-8")
    for name in row.get("folders", []):
        (folder / name).mkdir(exist_ok=True)
    for name in row.get("unreadable", []):
        (folder / name).write_text("", encoding="utf-8")
        (folder / name).chmod(0)


def lacks(row: Row, said: str, seen: str) -> list[str]:
    """The fragments that the row wants in a text, and that are not in it. `said` is `prints` or `says`."""
    return [it for it in row.get(f"{said}_with", []) if it not in seen]


def wanted_of(row: Row) -> tuple[str, str, int]:
    """What the row's run prints, what it says on standard error, and its status."""
    prints = row.get("prints", [])
    if isinstance(prints, dict):
        prints = (ROOT / prints["file"]).read_text(encoding="utf-8")
    if isinstance(prints, list):
        prints = with_permissions(prints)
    return text_of(prints), text_of(row.get("says", [])), row["status"]


def misses(row: Row, folder: pathlib.Path) -> list[str]:
    """The files that are not left as the row says; one that it says nothing of is to be missing."""
    left = {folder / name: None if value is None else text_of(value) for name, value in row.get("leaves", {}).items()}
    return [
        path.name
        for path, text in left.items()
        if (path.read_text(encoding="utf-8") if path.is_file() else None) != text
    ]


def rows_of_tool() -> list[Row]:
    return [row for path in sorted(ROWS.glob("*.json")) for row in json.loads(path.read_text(encoding="utf-8"))]
