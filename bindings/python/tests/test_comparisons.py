"""What two checkpoints of a registry are to each other, and two leaves at one place of its log."""

import base64
import unittest
from collections.abc import Callable
from unittest import mock

from weoldrin import (
    BadArgument,
    Checkpoint,
    CheckpointComparison,
    LeafComparison,
    OutOfMemory,
    ShownLeaf,
    compare_checkpoints,
    compare_leaves,
)
from weoldrin._library import CALLS
from weoldrin.registry.following import compared

from .trees import Leaf, SparseMap, consistency, hash_text, id_of, inclusion, log_root, text_of

LENGTH = 9
LEAVES = [Leaf(id_of(f"log {it % 4}"), id_of(f"record {it}")) for it in range(LENGTH)]
LEAVES[4] = Leaf(id_of("log 4"), id_of("record 4"))
# The same registry, but for its leaf at place 4, which is the only one of its log.
FORK = [it if place != 4 else it._replace(record_id=id_of("forked")) for place, it in enumerate(LEAVES)]
NO_TEXTS = ("", "sha256", "sha256:00", "!", id_of("x")[:-1], f"{id_of('x')}0", "\udc80")
# Texts that are none of a proof, and their faults.
FAULTS = (("A", "BadBase64"), ("AA==", "BadLength"), ("A" * 2733, "TooLong"), ("\udc80", "BadBase64"))
CHECKPOINTS, LEAF_CASES = CheckpointComparison, LeafComparison


def checkpoint_of(leaves: list[Leaf]) -> Checkpoint:
    """The checkpoint of leaves, by their definition."""
    root = log_root([it.of_log() for it in leaves])
    return Checkpoint(hash_text(root), len(leaves), hash_text(SparseMap(leaves).root()), len(leaves))


def proof_of(first: int, leaves: list[Leaf]) -> str:
    """The proof that the log of leaves begins with its first ones."""
    return text_of(consistency(first, [it.of_log() for it in leaves]))


def shown(place: int, leaves: list[Leaf]) -> ShownLeaf:
    """The leaf at a place, with its proof."""
    proof = text_of(inclusion(place, [it.of_log() for it in leaves]))
    return ShownLeaf(checkpoint_of(leaves), *leaves[place], proof)


def changed(proof: str) -> str:
    """Another proof of the same length."""
    data = bytearray(base64.b64decode(proof))
    data[-1] ^= 1
    return base64.b64encode(data).decode()


def upper(text: str) -> str:
    """The same hash in capitals."""
    return "sha256:" + text.removeprefix("sha256:").upper()


class Compared(unittest.TestCase):
    """What each test of comparisons needs."""

    def has_fault(self, name: str, call: Callable[[], object]) -> None:
        """A call raises `BadArgument` by a name."""
        with self.assertRaises(BadArgument) as raised:
            call()
        self.assertEqual(raised.exception.name, name)


class Checkpoints(Compared):
    """Two checkpoints."""

    def test_each_two_lengths(self) -> None:
        """Of one registry: the same, one that goes on, and one that goes back."""
        made = [checkpoint_of(LEAVES[:length]) for length in range(LENGTH + 1)]
        for first, old in enumerate(made):
            for second, new in enumerate(made):
                proof = proof_of(first, LEAVES[:second]) if first <= second else ""
                wanted = CHECKPOINTS.SAME if first == second else (
                    CHECKPOINTS.GOES_ON if first < second else CHECKPOINTS.GOES_BACK
                )
                self.assertIs(compare_checkpoints(old, new, proof), wanted)

    def test_same(self) -> None:
        """The time is not looked at, and neither is whether digits are capitals, or the proof."""
        one = checkpoint_of(LEAVES)
        other = Checkpoint(upper(one.log_root), one.log_length, upper(one.map_root), 2**64 - 1)
        self.assertIs(compare_checkpoints(one, other), CHECKPOINTS.SAME)
        self.assertIs(compare_checkpoints(other, one, proof_of(4, LEAVES)), CHECKPOINTS.SAME)

    def test_forked(self) -> None:
        """Of one length, by the root of the log, of the map, or of both; no proof helps."""
        one, other = checkpoint_of(LEAVES), checkpoint_of(FORK)
        own_map = Checkpoint(one.log_root, one.log_length, other.map_root, one.timestamp)
        own_log = Checkpoint(other.log_root, one.log_length, one.map_root, one.timestamp)
        for it in (own_map, own_log, other):
            for proof in ("", proof_of(4, LEAVES)):
                self.assertIs(compare_checkpoints(one, it, proof), CHECKPOINTS.FORK)
                self.assertIs(compare_checkpoints(it, one, proof), CHECKPOINTS.FORK)
        none = Checkpoint(id_of("x"), 0, id_of("y"), 0)
        self.assertIs(compare_checkpoints(checkpoint_of([]), none), CHECKPOINTS.FORK)

    def test_goes_back(self) -> None:
        """Whatever the roots and the proof are."""
        for leaves in (LEAVES, FORK):
            self.assertIs(compare_checkpoints(checkpoint_of(FORK), checkpoint_of(leaves[:8])), CHECKPOINTS.GOES_BACK)
        found = compare_checkpoints(checkpoint_of(LEAVES), checkpoint_of(LEAVES[:8]), proof_of(8, LEAVES))
        self.assertIs(found, CHECKPOINTS.GOES_BACK)

    def test_not_shown(self) -> None:
        """A log that goes on without a proof of it, and one that does not."""
        old, new, proof = checkpoint_of(LEAVES[:6]), checkpoint_of(LEAVES), proof_of(6, LEAVES)
        self.assertIs(compare_checkpoints(old, new, proof), CHECKPOINTS.GOES_ON)
        for it in ("", changed(proof), proof_of(7, LEAVES), proof_of(6, FORK)):
            self.assertIs(compare_checkpoints(old, new, it), CHECKPOINTS.NOT_SHOWN)
        forked = checkpoint_of(FORK)
        for it in ("", proof, proof_of(6, FORK)):
            self.assertIs(compare_checkpoints(old, forked, it), CHECKPOINTS.NOT_SHOWN)
        self.assertIs(compare_checkpoints(checkpoint_of(LEAVES[:4]), forked, proof_of(4, FORK)), CHECKPOINTS.GOES_ON)
        self.assertIs(compare_checkpoints(checkpoint_of([]), new), CHECKPOINTS.GOES_ON)

    def test_lengths(self) -> None:
        """Up to the greatest, and no further."""
        one = checkpoint_of(LEAVES)
        last = Checkpoint(one.log_root, 2**64 - 1, one.map_root, 0)
        self.assertIs(compare_checkpoints(one, last), CHECKPOINTS.NOT_SHOWN)
        self.assertIs(compare_checkpoints(last, one), CHECKPOINTS.GOES_BACK)
        self.assertIs(compare_checkpoints(last, last), CHECKPOINTS.SAME)
        for length in (-1, 2**64, 2**64 + LENGTH):
            beyond = Checkpoint(one.log_root, length, one.map_root, 0)
            self.has_fault("OutOfRange", lambda: compare_checkpoints(one, beyond))
            self.has_fault("OutOfRange", lambda: compare_checkpoints(beyond, one))

    def test_faults(self) -> None:
        """Texts of no form, whatever the case would be."""
        one = checkpoint_of(LEAVES)
        for other in (one, checkpoint_of(FORK), checkpoint_of(LEAVES[:8])):
            for it in NO_TEXTS:
                wrong = Checkpoint(it, other.log_length, other.map_root, 0), Checkpoint(other.log_root, 8, it, 0)
                for its in wrong:
                    self.has_fault("BadText", lambda: compare_checkpoints(one, its))
                    self.has_fault("BadText", lambda: compare_checkpoints(its, one))
            for it, name in FAULTS:
                self.has_fault(name, lambda: compare_checkpoints(one, other, it))
                self.has_fault(name, lambda: compare_checkpoints(other, one, it))

    def test_memory(self) -> None:
        one = checkpoint_of(LEAVES)
        with mock.patch.dict(CALLS, {"compare_checkpoints": lambda *_: 2}):
            self.assertRaises(OutOfMemory, compare_checkpoints, one, one)
        self.assertIs(compare_checkpoints(one, one), CHECKPOINTS.SAME)


class Told(Compared):
    """What a client makes of the checkpoints and the proofs of a registry, which may be any texts."""

    def test_texts_that_are_none(self) -> None:
        """Without a proof that can be read, the lengths and the roots are what is left."""
        one, other, longer = checkpoint_of(LEAVES[:8]), checkpoint_of(FORK[:8]), checkpoint_of(LEAVES)
        self.assertIs(compared(one, longer, proof_of(8, LEAVES)), CHECKPOINTS.GOES_ON)
        for it in ("", "!", "A", "AA==", "\udc80"):
            self.assertIs(compared(one, one, it), CHECKPOINTS.SAME)
            self.assertIs(compared(one, other, it), CHECKPOINTS.FORK)
            self.assertIs(compared(longer, one, it), CHECKPOINTS.GOES_BACK)
            self.assertIs(compared(one, longer, it), CHECKPOINTS.NOT_SHOWN)
            if it:
                self.assertIs(compared(checkpoint_of([]), longer, it), CHECKPOINTS.NOT_SHOWN)
            for text in NO_TEXTS:
                for wrong in (Checkpoint(text, 8, one.map_root, 0), Checkpoint(one.log_root, 8, text, 0)):
                    self.assertIs(compared(one, wrong, it), CHECKPOINTS.NOT_SHOWN)
                    self.assertIs(compared(wrong, wrong, it), CHECKPOINTS.NOT_SHOWN)


class Leaves(Compared):
    """Two leaves."""

    def test_same(self) -> None:
        """At each place that both logs have, in either order."""
        for length in range(1, LENGTH):
            for place in range(length):
                one, other = shown(place, LEAVES[:length]), shown(place, LEAVES)
                self.assertIs(compare_leaves(place, one, other), LEAF_CASES.SAME)
                self.assertIs(compare_leaves(place, other, one), LEAF_CASES.SAME)
        one = shown(4, LEAVES)
        capitals = one._replace(log_id=upper(one.log_id), record_id=upper(one.record_id))
        self.assertIs(compare_leaves(4, one, capitals), LEAF_CASES.SAME)

    def test_forked(self) -> None:
        """Under checkpoints of one length, and of two."""
        other_log = [it._replace(log_id=id_of("log 9")) if it == LEAVES[4] else it for it in LEAVES]
        for length in range(5, LENGTH + 1):
            for fork in (FORK, other_log):
                one, other = shown(4, LEAVES[:length]), shown(4, fork)
                self.assertIs(compare_leaves(4, one, other), LEAF_CASES.FORK)
                self.assertIs(compare_leaves(4, other, one), LEAF_CASES.FORK)
                self.assertIs(compare_leaves(3, shown(3, LEAVES[:length]), shown(3, fork)), LEAF_CASES.SAME)

    def test_not_shown(self) -> None:
        """Where one of the proofs does not hold, or both."""
        one, other = shown(4, LEAVES[:6]), shown(4, FORK)
        wrong = [
            one._replace(proof=""),
            one._replace(proof=changed(one.proof)),
            one._replace(proof=other.proof),
            one._replace(record_id=other.record_id),
            one._replace(log_id=id_of("log 9")),
            one._replace(checkpoint=other.checkpoint),
            shown(3, LEAVES[:6]),
        ]
        for it in wrong:
            for right in (one, other, it):
                self.assertIs(compare_leaves(4, it, right), LEAF_CASES.NOT_SHOWN)
                self.assertIs(compare_leaves(4, right, it), LEAF_CASES.NOT_SHOWN)
        for place in (3, 5, 6, 2**63, 2**64 - 1):
            self.assertIs(compare_leaves(place, one, other), LEAF_CASES.NOT_SHOWN)

    def test_the_map_is_not_looked_at(self) -> None:
        one, other = shown(4, LEAVES[:6]), shown(4, LEAVES)
        no_map = Checkpoint(one.checkpoint.log_root, 6, "none", -1)
        self.assertIs(compare_leaves(4, one._replace(checkpoint=no_map), other), LEAF_CASES.SAME)

    def test_faults(self) -> None:
        """Texts of no form, and numbers that no call takes."""
        one, other = shown(4, LEAVES[:6]), shown(4, FORK)
        for it in NO_TEXTS:
            wrong = [one._replace(log_id=it), one._replace(record_id=it)]
            wrong.append(one._replace(checkpoint=Checkpoint(it, 6, one.checkpoint.map_root, 0)))
            for its in wrong:
                self.has_fault("BadText", lambda: compare_leaves(4, its, other))
                self.has_fault("BadText", lambda: compare_leaves(4, other, its))
        for it, name in FAULTS:
            self.has_fault(name, lambda: compare_leaves(4, one._replace(proof=it), other))
            self.has_fault(name, lambda: compare_leaves(4, other, one._replace(proof=it)))
        both = one._replace(proof="A"), one._replace(proof="AA==")
        self.has_fault("BadBase64", lambda: compare_leaves(4, *both))
        self.has_fault("BadLength", lambda: compare_leaves(4, *both[::-1]))
        for number in (-1, 2**64, 2**64 + 4):
            beyond = one._replace(checkpoint=Checkpoint(one.checkpoint.log_root, number, one.checkpoint.map_root, 0))
            self.has_fault("OutOfRange", lambda: compare_leaves(number, one, other))
            self.has_fault("OutOfRange", lambda: compare_leaves(4, beyond, other))
            self.has_fault("OutOfRange", lambda: compare_leaves(4, other, beyond))

    def test_memory(self) -> None:
        one = shown(4, LEAVES)
        with mock.patch.dict(CALLS, {"compare_leaves": lambda *_: 2}):
            self.assertRaises(OutOfMemory, compare_leaves, 4, one, one)
        self.assertIs(compare_leaves(4, one, one), LEAF_CASES.SAME)


if __name__ == "__main__":
    unittest.main()
