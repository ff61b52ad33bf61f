"""The rows of conformance/values/transparency*.rows, answer for answer.

What a registry gives, roots and proofs, is played by the definitions in trees.py, and by the library's trees: those to
which leaves are pushed, and those that are made of saved ones. What a proof shows is asked of comparisons too.
"""

import pathlib
import unittest
from collections.abc import Callable

from weoldrin import (
    BadArgument,
    Checkpoint,
    CheckpointComparison,
    LeafComparison,
    RegistryTrees,
    ShownLeaf,
    compare_checkpoints,
    compare_leaves,
    records,
    saved_leaves,
    verify_absence,
    verify_consistency,
    verify_inclusion,
    verify_presence,
)

from . import trees
from .rows import blocks, quoted, row_of
from .sentences import words_of
from .trees import Leaf, SparseMap, hash_text

ROWS = pathlib.Path(__file__).resolve().parents[3] / "conformance/values"
FILES = sorted(ROWS.glob("transparency*.rows"))
# A hash, to which no proof leads.
ANY = records.sha256_text(b"")
VERIFY: dict[str, Callable[..., bool]] = {
    "verify-inclusion": lambda log, record, place, length, *it: verify_inclusion(
        log, record, int(place), int(length), *it
    ),
    "verify-consistency": lambda old, old_root, new, *it: verify_consistency(int(old), old_root, int(new), *it),
    "verify-presence": verify_presence,
    "verify-absence": verify_absence,
}
PARSE: dict[str, Callable[[str], bool]] = {
    "log-proof": lambda it: verify_inclusion(ANY, ANY, 0, 1, ANY, it),
    "map-proof": lambda it: verify_absence(ANY, ANY, it),
}


def goes_on(old: str, old_root: str, new: str, new_root: str, proof: str) -> bool:
    """Whether a checkpoint goes on from one of fewer leaves, which has the same map."""
    before, after = Checkpoint(old_root, int(old), ANY, 0), Checkpoint(new_root, int(new), ANY, 0)
    found = compare_checkpoints(before, after, proof)
    assert found in (CheckpointComparison.GOES_ON, CheckpointComparison.NOT_SHOWN), found
    return found is CheckpointComparison.GOES_ON


def is_shown(log_id: str, record_id: str, place: str, length: str, root: str, proof: str) -> bool:
    """Whether a leaf is shown twice."""
    shown = ShownLeaf(Checkpoint(root, int(length), ANY, 0), log_id, record_id, proof)
    found = compare_leaves(int(place), shown, shown)
    assert found is not LeafComparison.FORK
    return found is LeafComparison.SAME


def other_verifier(topic: str, words: list[str]) -> Callable[..., bool] | None:
    """The comparison that says the same as a verifier of proofs, where there is one."""
    if topic == "verify-consistency" and int(words[0]) < int(words[2]):
        return goes_on
    return is_shown if topic == "verify-inclusion" else None


def fault(error: BadArgument, wanted: str) -> str:
    """The fault of a proof's text. Of a text that is no hash none is named: then the wanted one is taken for it."""
    if error.name:
        return f"! {error.name}"
    return wanted if wanted not in ("= ok", "! Refused") else "a fault"


def verified(verify: Callable[..., bool], words: list[str], wanted: str) -> str:
    """What the library answers."""
    try:
        return "= ok" if verify(*words) else "! Refused"
    except BadArgument as error:
        return fault(error, wanted)


def parsed(kind: str, text: str, wanted: str) -> str:
    """The same of a text: whether it is a proof."""
    try:
        return "shown" if PARSE[kind](text) else f"= {quoted(text)}"
    except BadArgument as error:
        return f"! {error.name}"


def leaves_of(words: list[str]) -> list[Leaf]:
    """The leaves that pairs of words say."""
    return [Leaf(*it) for it in zip(words[::2], words[1::2], strict=True)]


def given(topic: str, words: list[str]) -> str:
    """What a log or a map gives, by its definition."""
    if topic == "map-proof":
        return trees.short_text(SparseMap(leaves_of(words[1:])).path(Leaf(words[0], "").key()))
    if topic == "map-root":
        return hash_text(SparseMap(leaves_of(words)).root())
    if topic == "log-root":
        return hash_text(trees.log_root([it.of_log() for it in leaves_of(words)]))
    place, hashes = int(words[0]), [it.of_log() for it in leaves_of(words[1:])]
    if topic == "inclusion-proof":
        return trees.text_of(trees.inclusion(place, hashes)) if place < len(hashes) else "none"
    if topic == "consistency-proof":
        return trees.text_of(trees.consistency(place, hashes)) if place <= len(hashes) else "none"
    raise ValueError(f"a strange topic: {topic}")


def given_by(kept: RegistryTrees, topic: str, words: list[str]) -> str:
    """The same by trees of these leaves."""
    if topic in ("map-root", "log-root"):
        return kept.map_root() if topic == "map-root" else kept.log_root()
    if topic == "map-proof":
        return kept.head(words[0]).proof
    try:
        return kept.inclusion(int(words[0])) if topic == "inclusion-proof" else kept.consistency(int(words[0]))
    except IndexError:
        return "none"


def by_library(topic: str, words: list[str]) -> list[str]:
    """The same by both trees of the library, where a row asks for what they give."""
    if topic in VERIFY or topic == "parse":
        return []
    leaves = leaves_of(words if topic.endswith("-root") else words[1:])
    with RegistryTrees() as pushed, RegistryTrees.from_bytes(saved_leaves(leaves)) as made:
        pushed.push_all(leaves)
        return [f"= {quoted(given_by(it, topic, words))}" for it in (pushed, made)]


def answer(topic: str, words: list[str], wanted: str) -> str:
    """The answer to a row, where that is the one that is wanted if the library does not tell more."""
    if topic in VERIFY:
        return verified(VERIFY[topic], words, wanted)
    if topic == "parse":
        return parsed(words[0], words[1], wanted)
    return f"= {quoted(given(topic, words))}"


@unittest.skipUnless(FILES, "there are no rows here")
class Transparency(unittest.TestCase):
    """Each row."""

    def test_rows(self) -> None:
        played = 0
        for path, block in ((path, block) for path in FILES for block in blocks(path)):
            row = row_of(block.head.text)
            topic, *words = words_of(row.question)
            with self.subTest(file=path.name, line=block.head.number):
                self.assertEqual(answer(topic, words, row.wanted), row.wanted)
                for it in by_library(topic, words):
                    self.assertEqual(it, row.wanted)
                other = other_verifier(topic, words)
                if other is not None:
                    self.assertEqual(verified(other, words, row.wanted), row.wanted)
            played += 1
        print(f"\n{played} rows of proofs played")
        self.assertGreater(played, 400)


if __name__ == "__main__":
    unittest.main()
