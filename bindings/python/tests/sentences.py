"""What errors say, by the rows of conformance/logs/errors.rows."""

import pathlib
import re
import string
from collections import Counter

from .rows import blocks, row_of, text_of

# A word of a row: a JSON string, or text without a space.
_WORD = re.compile(r'"(?:[^"\\]|\\.)*"|\S+')


def words_of(text: str) -> list[str]:
    """The words of a row, as texts."""
    return [text_of(it) for it in _WORD.findall(text)]


def _form_of(sentence: str, fields: list[str]) -> str:
    """A sentence with `{0}`, `{1}` and so on for the fields that it quotes."""
    form = sentence.replace("{", "{{").replace("}", "}}")
    for place, field in enumerate(fields):
        form = re.sub(rf"(?<![\w{{]){re.escape(field)}(?![\w}}])", f"{{{place}}}", form)
    return form


class Sentences:
    """The sentence of each cause that has a row, also with other fields than the row's, and how many were compared."""

    def __init__(self, path: pathlib.Path) -> None:
        self.rows: dict[str, str] = {}
        self._forms: dict[tuple[str, str], str] = {}
        self.compared: Counter[tuple[str, str]] = Counter()
        for block in blocks(path):
            row = row_of(block.head.text)
            question, sentence = row.question.removeprefix("refusal "), text_of(row.wanted.removeprefix("= "))
            topic, case, *fields = words_of(question)
            self.rows[question] = sentence
            self._forms.setdefault((topic, case), _form_of(sentence, fields))

    def of(self, topic: str, case: str, fields: list[str]) -> str | None:
        """The sentence of a cause; none if no row has the case."""
        form = self._forms.get((topic, case))
        return None if form is None else form.format(*fields)

    def case_of_envelope(self, name: str) -> str | None:
        """The case of a row that has the part of an envelope which a fault is of; none if there is none."""
        cases = (case for topic, case in self._forms if topic == "envelope")
        return next((it for it in cases if it.partition(".")[0] == name.partition(".")[0]), None)

    def is_told(self, topic: str, case: str, fields: list[str], sentence: str) -> bool:
        """Whether a sentence is the whole one of a cause."""
        self.compared[topic, case] += 1
        return sentence == self.of(topic, case, fields)

    def is_told_by_name(self, kind: str, name: str, sentence: str) -> bool:
        """Whether a sentence is the one of an error of this name, whatever its fields. If no row has it, it may be
        any."""
        case = self.case_of_envelope(name)
        cause = (kind, name) if case is None else ("envelope", case)
        if cause not in self._forms:
            return sentence != ""
        self.compared[cause] += 1
        parts = string.Formatter().parse(self._forms[cause])
        form = "".join(re.escape(text) + ("" if field is None else ".*") for text, field, _, _ in parts)
        return re.fullmatch(form, sentence, re.DOTALL) is not None

    def not_compared(self) -> list[str]:
        """The cases of errors of both kinds, and of envelopes, whose sentence was not compared."""
        cases = [it for it in self._forms if it[0] in ("package", "operator", "envelope")]
        return [" ".join(it) for it in cases if it not in self.compared]
