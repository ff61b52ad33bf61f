"""What rows are answered: the standards decide whether a key and a signature are written rightly, other programs what
such ones say."""
from collections.abc import Sequence
from typing import NamedTuple

from p256.forms import numbers_of, point_of
from p256.programs import Case, Program


class Answered(NamedTuple):
    """A case, its answer, and the programs that say otherwise."""

    case: Case
    is_verified: bool
    others: list[str]


def is_written_rightly(case: Case) -> bool:
    """Whether the standards have such a key and such a signature."""
    return point_of(case.key) is not None and numbers_of(case.signature) is not None


def answered(cases: Sequence[Case], asked: Sequence[Program]) -> list[Answered]:
    """The answers. Of a case that is written rightly it is what programs say, of which one may differ from two."""
    votes = {it.name: it.verify(cases) for it in asked}
    found = []
    for place, case in enumerate(cases):
        yes = sum(those[place] for those in votes.values())
        no = len(votes) - yes
        if is_written_rightly(case) and min(yes, no) > (max(yes, no) > 1):
            words = " ".join(it.hex() or "-" for it in case)
            raise SystemExit(f"{yes} programs take this and {no} refuse it: {words}")
        is_verified = is_written_rightly(case) and yes > no
        found.append(
            Answered(case, is_verified, [name for name, those in votes.items() if those[place] != is_verified])
        )
    return found
