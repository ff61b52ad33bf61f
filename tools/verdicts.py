"""What a check says of wrong bodies: which of them are refused, and by what."""
import os
import re
from typing import NamedTuple

from edits import Edit, Span

# An error in a clause's own text, such as a name that is not in scope: no contract was tried. A law of an impl that
# `search` does not prove is none.
UNREAD = r"^(?:\./)?((?:src|specs)/\S+?):\d+:\d+: error: (?!`[^`]*`: `search`: no proof of )"
# An error in a kept proof, and what it says where the proof names something that is not there any more.
KEPT = r"^(?:\./)?proofs/(\S+)\.antt:\d+:\d+: error: (?:`([^`]+)`: )?(.*)"
GONE = r"`goal\.[^`]*`: module .* has no |record .* has no field |no name that rattle asks for"
OPEN = r"^note: (src/\S+?):(\d+):\d+: it is not proved (.*)"
FALSE = "the facts known there allow values at which this goal is false"
# What a function says that was not tried, since another was not proved. One that calls such a function is tried, by
# that one's contract, and what is open in it is its own.
WAITS = r"which (is|are) not proved|it waits for the proof of|\Acould not tell"
UNFOUND = "`search` did not prove"


class Answer(NamedTuple):
    """An error in a kept proof: its file below proofs/, the goal that it answers, if that was said, and whether it
    names what is gone."""

    path: str
    goal: str
    is_gone: bool
    is_goal_gone: bool

    def is_of(self, edit: Edit) -> bool:
        """Whether it is kept for the edit's function. Functions that call each other in a circle keep theirs in one
        folder."""
        proofs, folder = edit.proofs(), os.path.dirname(self.path)
        if proofs is None or folder == proofs:
            return True
        module, name = os.path.split(proofs)
        return (
            os.path.dirname(folder) == module
            and os.path.basename(folder).startswith("+")
            and self.goal.startswith(f"{name}-")
        )


class Said:
    """What a check says of a crate with edits in it."""

    def __init__(self, text: str, status: int) -> None:
        self.is_proved = status == 0
        self.functions = dict(re.findall(r"^fn (\S+): (.*)", text, re.M))
        self.impls = dict(re.findall(r"^impl (\S+): (.*)", text, re.M))
        self.unread = set(re.findall(UNREAD, text, re.M))
        self.kept = [
            Answer(path, goal, re.search(GONE, f"`{goal}`: {fault}") is not None, "`goal." in fault)
            for path, goal, fault in re.findall(KEPT, text, re.M)
        ]
        self.open = [(file, int(line), FALSE in rest) for file, line, rest in re.findall(OPEN, text, re.M)]

    def verdict(self, edit: Edit) -> str | None:
        """refused, MISFIT, GOT THROUGH, or None where the function's contract was not tried."""
        text = self.functions.get(edit.function, "")
        if self.unread & {file for file, _, _ in edit.pairs}:
            return None
        if text == "proved":
            return "GOT THROUGH"
        if not text or self.waits(edit):
            return None
        return self.verdict_by_kept(edit)

    def waits(self, edit: Edit) -> bool:
        """Whether the edit's function waits for another, with no goal of its own open."""
        text = self.functions.get(edit.function, "")
        return re.search(WAITS, text) is not None and UNFOUND not in text and not self.is_open(edit)

    def verdict_by_kept(self, edit: Edit) -> str:
        """refused or MISFIT: it is one where the kept proof names what is gone, and nothing else is open than what it
        lost."""
        own = [it for it in self.kept if it.is_of(edit)]
        gone = [it for it in own if it.is_gone]
        if any(it.path.endswith("Invariants") for it in gone):
            return "MISFIT"
        return "MISFIT" if gone and len(own) == len(gone) and self.is_open_by_kept(edit) else "refused"

    def is_open_by_kept(self, edit: Edit) -> bool:
        """Whether nothing is open in the edit's function but what its kept answers lost, and nothing is shown false."""
        lost = sum(it.is_goal_gone for it in self.kept if it.is_of(edit))
        return not self.is_shown_false(edit) and len([it for it in self.open if is_within(it, edit.span)]) <= lost

    def is_open(self, edit: Edit) -> bool:
        return any(is_within(it, edit.span) for it in self.open)

    def is_shown_false(self, edit: Edit) -> bool:
        return any(is_false for file, line, is_false in self.open if is_within((file, line, is_false), edit.span))

    def doubtful_answers(self, edit: Edit) -> list[Answer]:
        """The answers of the edit's function that are refused, where nothing else shows that its contract is not
        met."""
        own = [it for it in self.kept if it.is_of(edit)]
        is_by_answers = own and all(it.path.endswith("/Answers") for it in own) and self.is_open_by_kept(edit)
        return own if is_by_answers else []

    def refuted_laws(self) -> list[str]:
        """The laws that are not proved, though all that they cite is: functions of laws, and impls, which have those of
        their trait."""
        laws = {name: text for name, text in self.functions.items() if "laws" in name.split("::")} | self.impls
        return [name for name, text in laws.items() if text != "proved" and not re.search(WAITS, text)]


def is_within(place: tuple[str, int, bool], span: Span | None) -> bool:
    return span is None or (place[0] == span.file and span.first <= place[1] <= span.last)


def left_out(text: str, goals: set[str]) -> str:
    """A file of answers without those of these goals: a signature, and the lines behind it up to the next item."""
    lines, is_out = [], False
    for line in text.split("\n"):
        if re.match(r"(?:abbrev )?(?:pub )?\S+ : |module |use |--", line):
            is_out = any(re.match(rf"(?:abbrev )?(?:pub )?{re.escape(it)} : ", line) for it in goals)
        if not is_out:
            lines.append(line)
    return "\n".join(lines)
