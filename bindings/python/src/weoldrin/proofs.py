"""What a registry proves of its log and its map. Roots are texts of hashes, ids are texts of ids, proofs are texts of
base64.

`verify_inclusion` and its like say whether the proof holds, and raise `BadArgument` where a text is not of its form, or
where a place or a length is not from 0 to 2**64 - 1. If it is the proof's text, the error's name is the fault:
`TooLong`, `BadBase64`, `BadLength` or `EmptySibling`. So do `compare_checkpoints`, `compare_leaves`, `compare_heads`
and `compare_beginnings`, which say how what a registry signed goes with what it signed before, or with what it showed
to another.

What an accepted proof shows is so of every log of that length and root, and of every map of that root, or two strings
that differ have one hash. No call knows whose root it is, or how long its log is: take a log's length and root, and the
map's root, from one signed checkpoint, and the log's id from `log_id`.
"""

import ctypes
from typing import NamedTuple

from ._library import BAD_ARGUMENT, CALLS, REFUSED, Buffer, checked, number, texts
from .checkpoints import Checkpoint
from .errors import BadArgument
from .trees import LogHead
from .values import BeginningComparison, CheckpointComparison, HeadComparison, LeafComparison

# The trees on which proofs are.
_LOG, _MAP = 0, 1


class ShownLeaf(NamedTuple):
    """A leaf, and the proof that is to show it in the log of a checkpoint."""

    checkpoint: Checkpoint
    log_id: str
    record_id: str
    proof: str
    """As `verify_inclusion` takes it under the length and the root of the checkpoint's log."""


class ShownBeginning(NamedTuple):
    """A checkpoint, and the proof that is to show that the log of a newer one begins with its own."""

    checkpoint: Checkpoint
    proof: str
    """As `verify_consistency` takes it under the length and the root of the newer checkpoint's log."""


def _holds(name: str, tree: int, *arguments: str | int) -> bool:
    """Whether the proof on the tree, which is the last argument, holds."""
    passed = _passed(*arguments)
    status = CALLS[f"verify_{name}"](*passed)
    if status == BAD_ARGUMENT:
        raise _misuse(tree, passed[-2:])
    return False if status == REFUSED else checked(name, status)


def _passed(*arguments: str | int) -> list[bytes | int]:
    """What a call gets for texts and numbers."""
    passed: list[bytes | int] = []
    for it in arguments:
        passed += texts(it) if isinstance(it, str) else [number(it)]
    return passed


def _misuse(tree: int, *proofs: list[bytes | int]) -> BadArgument:
    """What is wrong with the arguments of a call: the fault of the first of its proofs that has one, or another
    text."""
    for it in proofs:
        fault = Buffer().filled("proof_fault", (tree, *it))
        if fault:
            return BadArgument(fault.decode())
    return BadArgument("BadText: a root or an id is not the text of one")


def _case_of(name: str, passed: list[bytes | int], *proofs: list[bytes | int], tree: int = _LOG) -> int:
    """The case that a call gives which compares, with proofs on the tree."""
    case = ctypes.c_uint32(0)
    status = CALLS[name](*passed, case)
    if status == BAD_ARGUMENT:
        raise _misuse(tree, *proofs)
    checked(name, status)
    return case.value


def leaf(log_id: str, record_id: str) -> bytes:
    """The leaf of a log's record in the registry's log: the bytes that are hashed, with a zero before them."""
    found = Buffer().filled("leaf", tuple(texts(log_id, record_id)))
    assert found is not None
    return found


def verify_inclusion(log_id: str, record_id: str, place: int, length: int, root: str, proof: str) -> bool:
    """Whether the leaf of a log's record stands at a place of the registry's log, which has `length` leaves and this
    root."""
    return _holds("inclusion", _LOG, log_id, record_id, place, length, root, proof)


def verify_consistency(old_length: int, old_root: str, new_length: int, new_root: str, proof: str) -> bool:
    """Whether the registry's log of `new_length` leaves begins with the one of `old_length` leaves."""
    return _holds("consistency", _LOG, old_length, old_root, new_length, new_root, proof)


def verify_presence(log_id: str, record_id: str, root: str, proof: str) -> bool:
    """Whether the registry's map says that a log's last record is this one."""
    return _holds("presence", _MAP, log_id, record_id, root, proof)


def verify_absence(log_id: str, root: str, proof: str) -> bool:
    """Whether the registry's map says nothing of a log."""
    return _holds("absence", _MAP, log_id, root, proof)


def compare_checkpoints(old: Checkpoint, new: Checkpoint, proof: str = "") -> CheckpointComparison:
    """How a checkpoint of a registry compares with an older one, by a proof as `verify_consistency` takes it, which is
    looked at where the newer log is longer. Their times are not compared, and whether they are signed is for an
    `OperatorLog` to say."""
    shown = _passed(proof)
    words = [_passed(it.log_length, it.log_root, it.map_root) for it in (old, new)]
    return CheckpointComparison(_case_of("compare_checkpoints", [*words[0], *words[1], *shown], shown))


def compare_leaves(place: int, old: ShownLeaf, new: ShownLeaf) -> LeafComparison:
    """How the leaves compare that are shown at one place of a registry's log under two checkpoints, as two clients may
    have been shown them. Neither checkpoint has to be the older one."""
    words = [
        _passed(checkpoint.log_length, checkpoint.log_root, log_id, record_id, proof)
        for checkpoint, log_id, record_id, proof in (old, new)
    ]
    passed = [number(place), *words[0], *words[1]]
    return LeafComparison(_case_of("compare_leaves", passed, words[0][-2:], words[1][-2:]))


def compare_heads(map_root: str, log_id: str, one: LogHead, other: LogHead) -> HeadComparison:
    """How two answers about the last record of one log compare that are shown under one root of a registry's map, as
    two clients may have been shown them: each a record's id with its proof as `verify_presence` takes it, or None with
    one as `verify_absence` takes it. Raises `BadArgument` where a record's id is ""."""
    words = [_passed(it.record_id or "", it.proof) for it in (one, other)]
    if "" in (one.record_id, other.record_id):
        raise _misuse(_MAP, words[0][-2:], words[1][-2:])
    passed = [*_passed(map_root, log_id), *words[0], *words[1]]
    return HeadComparison(_case_of("compare_heads", passed, words[0][-2:], words[1][-2:], tree=_MAP))


def compare_beginnings(new: Checkpoint, one: ShownBeginning, other: ShownBeginning) -> BeginningComparison:
    """How two checkpoints of a registry compare that the log of a newer one is shown to begin with, as two clients may
    have been shown them. Of the newer one's map nothing is asked, and their times are not compared."""
    words = [
        _passed(checkpoint.log_length, checkpoint.log_root, checkpoint.map_root, proof)
        for checkpoint, proof in (one, other)
    ]
    passed = [*_passed(new.log_length, new.log_root), *words[0], *words[1]]
    return BeginningComparison(_case_of("compare_beginnings", passed, words[0][-2:], words[1][-2:]))
