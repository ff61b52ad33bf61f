"""The grammar of conformance/README.md: the rows and scripts of a file, and the words of a row."""

import json
import pathlib
import re
from typing import NamedTuple


class Line(NamedTuple):
    """A line without the white space at its ends, or several that were folded."""

    number: int
    text: str


class Block(NamedTuple):
    """A row, or the head of a script with its lines."""

    head: Line
    lines: list[Line]


class Row(NamedTuple):
    """A question, and its answer with the separator."""

    question: str
    wanted: str


def blocks(path: pathlib.Path) -> list[Block]:
    """The blocks of a file, without comments and blank lines."""
    found: list[Block] = []
    is_open = False
    for number, line in enumerate(path.read_text(encoding="utf-8").split("\n"), 1):
        text = line.strip()
        if not is_open and (not text or text.startswith("#")):
            continue
        goes_on = text.endswith("\\")
        text = text.removesuffix("\\")
        if is_open:
            part = found[-1].lines or [found[-1].head]
            longer = Line(part[-1].number, part[-1].text + text)
            if found[-1].lines:
                found[-1].lines[-1] = longer
            else:
                found[-1] = Block(longer, [])
        elif line.startswith(" "):
            found[-1].lines.append(Line(number, text))
        else:
            found.append(Block(Line(number, text), []))
        is_open = goes_on
    return found


def row_of(text: str) -> Row:
    """The row of a text, cut at the first separator outside quotes."""
    inside = False
    place = 0
    while place < len(text):
        sign = text[place]
        if inside and sign == "\\":
            place += 1
        elif sign == '"':
            inside = not inside
        elif not inside and text[place : place + 3] in (" = ", " ! "):
            return Row(text[:place].strip(), text[place:].strip())
        place += 1
    raise ValueError(f"a row without an answer: {text}")


def text_of(word: str) -> str:
    """The text that a word says."""
    return str(json.loads(word)) if word.startswith('"') else word


def quoted(text: str) -> str:
    """A text as it stands in an answer: a JSON string where it has to be."""
    if text and text == text.strip() and not re.search(r'["\\\x00-\x1f\x7f]', text):
        return text
    return json.dumps(text, ensure_ascii=False)


def json_written(value: object) -> str:
    """JSON in its shortest form, with members in the byte order of their names."""
    return json.dumps(_sorted(value), ensure_ascii=False, separators=(",", ":"))


def _sorted(value: object) -> object:
    if isinstance(value, dict):
        return {name: _sorted(value[name]) for name in sorted(value, key=str.encode)}
    return [_sorted(it) for it in value] if isinstance(value, list) else value
