"""What a registry showed twice under one root: two answers about the last record of a log, and two beginnings of its
log."""

import unittest
from collections.abc import Callable
from typing import Any
from unittest import mock

from weoldrin import (
    BeginningComparison,
    Checkpoint,
    HeadComparison,
    LogHead,
    OutOfMemory,
    ShownBeginning,
    compare_beginnings,
    compare_heads,
)
from weoldrin._library import CALLS

from .test_comparisons import FAULTS, FORK, LEAVES, LENGTH, NO_TEXTS, Compared, changed, checkpoint_of, proof_of, upper
from .trees import Leaf, SparseMap, hash_text, id_of, short_text

HEADS, BEGINNINGS = HeadComparison, BeginningComparison
ROOT = hash_text(SparseMap(LEAVES).root())
# Texts that are none of a proof on a map, and their faults.
MAP_FAULTS = (("A", "BadBase64"), ("", "BadLength"), ("A" * 10969, "TooLong"), ("\udc80", "BadBase64"))


def head_of(log_id: str, leaves: list[Leaf]) -> LogHead:
    """The last record of a log, or none, with its proof."""
    records = [it.record_id for it in leaves if it.log_id == log_id]
    return LogHead(records[-1] if records else None, short_text(SparseMap(leaves).path(Leaf(log_id, "").key())))


def beginning(first: int, leaves: list[Leaf]) -> ShownBeginning:
    """The checkpoint of the first leaves, with the proof that the log of all begins with its own."""
    return ShownBeginning(checkpoint_of(leaves[:first]), proof_of(first, leaves))


def told(case: int) -> Callable[..., int]:
    """A call that tells a case of anything: no proofs are known that collide."""

    def call(*passed: Any) -> int:
        passed[-1].value = case
        return 0

    return call


class Heads(Compared):
    """Two answers about the last record of one log."""

    def test_same(self) -> None:
        """A record, or none."""
        for name in ("log 0", "log 3", "log 4", "log 9"):
            one = head_of(id_of(name), LEAVES)
            self.assertEqual(one.record_id is None, name == "log 9")
            self.assertIs(compare_heads(ROOT, id_of(name), one, one), HEADS.SAME)
        one = head_of(id_of("log 0"), LEAVES)
        capitals = one._replace(record_id=upper(id_of("record 8")))
        self.assertIs(compare_heads(upper(ROOT), upper(id_of("log 0")), capitals, one), HEADS.SAME)

    def test_not_shown(self) -> None:
        """Where one of the proofs does not hold, or both."""
        log_id, none_id = id_of("log 4"), id_of("log 9")
        one, none = head_of(log_id, LEAVES), head_of(none_id, LEAVES)
        wrong = [
            one._replace(record_id=None),
            one._replace(record_id=id_of("forked")),
            one._replace(proof=none.proof),
            one._replace(proof=changed(one.proof)),
            head_of(log_id, FORK),
            head_of(log_id, LEAVES[:4]),
            none,
        ]
        for it in wrong:
            for right in (one, it):
                self.assertIs(compare_heads(ROOT, log_id, it, right), HEADS.NOT_SHOWN)
                self.assertIs(compare_heads(ROOT, log_id, right, it), HEADS.NOT_SHOWN)
        for it in (none._replace(record_id=one.record_id), none._replace(proof=one.proof), one):
            self.assertIs(compare_heads(ROOT, none_id, none, it), HEADS.NOT_SHOWN)
            self.assertIs(compare_heads(ROOT, none_id, it, none), HEADS.NOT_SHOWN)
        self.assertIs(compare_heads(checkpoint_of(FORK).map_root, log_id, one, one), HEADS.NOT_SHOWN)

    def test_contradictions(self) -> None:
        """Both contradictions have their names."""
        one = head_of(id_of("log 4"), LEAVES)
        for case, wanted in enumerate(("SAME", "TWO", "ONE_AND_NONE", "NOT_SHOWN")):
            with mock.patch.dict(CALLS, {"compare_heads": told(case)}):
                self.assertEqual(compare_heads(ROOT, id_of("log 4"), one, one).name, wanted)

    def test_faults(self) -> None:
        """Texts of no form. "" is no id here: None says that there is no record."""
        log_id = id_of("log 4")
        one, none = head_of(log_id, LEAVES), head_of(id_of("log 9"), LEAVES)
        for it in NO_TEXTS:
            self.has_fault("BadText", lambda: compare_heads(it, log_id, one, one))
            self.has_fault("BadText", lambda: compare_heads(ROOT, it, one, one))
            for other in (one, none):
                self.has_fault("BadText", lambda: compare_heads(ROOT, log_id, one._replace(record_id=it), other))
                self.has_fault("BadText", lambda: compare_heads(ROOT, log_id, other, one._replace(record_id=it)))
        for it, name in MAP_FAULTS:
            for wrong in (one._replace(proof=it), none._replace(proof=it), LogHead("", it)):
                self.has_fault(name, lambda: compare_heads(ROOT, log_id, wrong, one))
                self.has_fault(name, lambda: compare_heads(ROOT, log_id, none, wrong))
        both = one._replace(proof="A"), one._replace(proof="")
        self.has_fault("BadBase64", lambda: compare_heads(ROOT, log_id, *both))
        self.has_fault("BadLength", lambda: compare_heads(ROOT, log_id, *both[::-1]))

    def test_memory(self) -> None:
        one = head_of(id_of("log 4"), LEAVES)
        with mock.patch.dict(CALLS, {"compare_heads": lambda *_: 2}):
            self.assertRaises(OutOfMemory, compare_heads, ROOT, id_of("log 4"), one, one)
        self.assertIs(compare_heads(ROOT, id_of("log 4"), one, one), HEADS.SAME)


class Beginnings(Compared):
    """Two checkpoints that the log of a newer one is to begin with."""

    def test_each_two_lengths(self) -> None:
        """Of one registry: the same, and two lengths."""
        new, made = checkpoint_of(LEAVES), [beginning(it, LEAVES) for it in range(LENGTH + 1)]
        for first, one in enumerate(made):
            for second, other in enumerate(made):
                wanted = BEGINNINGS.SAME if first == second else BEGINNINGS.TWO_LENGTHS
                self.assertIs(compare_beginnings(new, one, other), wanted)

    def test_forked(self) -> None:
        """Of one log, by the root of the map. Times and capitals are not looked at, and neither is the newer map."""
        new, one = checkpoint_of(LEAVES), beginning(6, LEAVES)
        its = one.checkpoint
        map_root = checkpoint_of(LEAVES[:5]).map_root
        other = one._replace(checkpoint=Checkpoint(its.log_root, 6, map_root, its.timestamp))
        self.assertIs(compare_beginnings(new, one, other), BEGINNINGS.FORK)
        self.assertIs(compare_beginnings(new, other, one), BEGINNINGS.FORK)
        same = one._replace(checkpoint=Checkpoint(upper(its.log_root), 6, upper(its.map_root), 2**64 - 1))
        self.assertIs(compare_beginnings(new, one, same), BEGINNINGS.SAME)
        no_map = Checkpoint(new.log_root, LENGTH, "none", -1)
        self.assertIs(compare_beginnings(no_map, one, other), BEGINNINGS.FORK)

    def test_not_shown(self) -> None:
        """Where one of the proofs does not hold, or both."""
        new, one = checkpoint_of(LEAVES), beginning(6, LEAVES)
        wrong = [
            one._replace(proof=""),
            one._replace(proof=changed(one.proof)),
            one._replace(proof=proof_of(5, LEAVES)),
            one._replace(checkpoint=checkpoint_of(FORK[:6])),
            one._replace(checkpoint=checkpoint_of(LEAVES[:5])),
            beginning(6, FORK),
        ]
        for it in wrong:
            for right in (one, it):
                self.assertIs(compare_beginnings(new, it, right), BEGINNINGS.NOT_SHOWN)
                self.assertIs(compare_beginnings(new, right, it), BEGINNINGS.NOT_SHOWN)
        for other in (checkpoint_of(FORK), checkpoint_of(LEAVES[:8]), checkpoint_of(LEAVES[:5])):
            self.assertIs(compare_beginnings(other, one, one), BEGINNINGS.NOT_SHOWN)

    def test_collision(self) -> None:
        """Each case has its name."""
        new, one = checkpoint_of(LEAVES), beginning(6, LEAVES)
        for case, wanted in enumerate(("SAME", "FORK", "COLLISION", "TWO_LENGTHS", "NOT_SHOWN")):
            with mock.patch.dict(CALLS, {"compare_beginnings": told(case)}):
                self.assertEqual(compare_beginnings(new, one, one).name, wanted)

    def test_faults(self) -> None:
        """Texts of no form, and numbers that no call takes."""
        new, one = checkpoint_of(LEAVES), beginning(6, LEAVES)
        for it in NO_TEXTS:
            wrong = Checkpoint(it, 6, one.checkpoint.map_root, 0), Checkpoint(one.checkpoint.log_root, 6, it, 0)
            for its in wrong:
                self.has_fault("BadText", lambda: compare_beginnings(new, one._replace(checkpoint=its), one))
                self.has_fault("BadText", lambda: compare_beginnings(new, one, one._replace(checkpoint=its)))
            self.has_fault("BadText", lambda: compare_beginnings(wrong[0], one, one))
        for it, name in FAULTS:
            self.has_fault(name, lambda: compare_beginnings(new, one._replace(proof=it), one))
            self.has_fault(name, lambda: compare_beginnings(new, one, one._replace(proof=it)))
        for length in (-1, 2**64, 2**64 + LENGTH):
            beyond = Checkpoint(new.log_root, length, new.map_root, 0)
            self.has_fault("OutOfRange", lambda: compare_beginnings(beyond, one, one))
            self.has_fault("OutOfRange", lambda: compare_beginnings(new, one._replace(checkpoint=beyond), one))
            self.has_fault("OutOfRange", lambda: compare_beginnings(new, one, one._replace(checkpoint=beyond)))

    def test_memory(self) -> None:
        new, one = checkpoint_of(LEAVES), beginning(6, LEAVES)
        with mock.patch.dict(CALLS, {"compare_beginnings": lambda *_: 2}):
            self.assertRaises(OutOfMemory, compare_beginnings, new, one, one)
        self.assertIs(compare_beginnings(new, one, one), BEGINNINGS.SAME)


if __name__ == "__main__":
    unittest.main()
