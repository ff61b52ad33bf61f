"""A package's log, verified down to a registry's signed checkpoint."""

from collections.abc import Sequence
from typing import NamedTuple

from ..checkpoints import SignedCheckpoint
from ..logs import PackageLog, log_id
from ..proofs import verify_inclusion
from .answers import Problem
from .following import Follower, check_known, holds
from .growing import REFUSED, grow
from .told import NoPackage, Told, Unusable
from .trust import Seen


class Package(NamedTuple):
    """A package's log, up to the record that a checkpoint's map says is its last."""

    log_id: str
    log: PackageLog
    envelopes: list[bytes]
    seen: Seen
    checkpoint: SignedCheckpoint


def package(follower: Follower, name: str, have: Sequence[bytes] = ()) -> Package:
    """The log of a package, which goes on from the envelopes that are there already, and from what is trusted.

    Raises `Told`, `NoPackage`, and `Unusable` where what is there is no lawful log."""
    its_id = log_id("package", name)
    checkpoint, head = follower.head(its_id)
    known = follower.trust.logs.get(its_id)
    log = _log_of(have)
    if head.record_id is None:
        if known or have:
            raise Told("rolled back map", f"it has no log {its_id}, which was seen", checkpoint)
        raise NoPackage(name)
    last = log.head()
    there = Seen(last, len(have)) if last else None
    new = grow(follower.registry, log, its_id, there, head.record_id, checkpoint.contents.log_length)
    check_known(log, its_id, known)
    place = _place_of(follower, its_id, head.record_id, known)
    seen = Seen(head.record_id, len(log), place)
    follower.trust.logs[its_id] = seen
    return Package(its_id, log, [*have, *new], seen, checkpoint)


def _log_of(envelopes: Sequence[bytes]) -> PackageLog:
    log = PackageLog()
    for place, it in enumerate(envelopes):
        try:
            log.append(it)
        except REFUSED as error:
            raise Unusable(f"the log that is there: record {place} is refused: {error.name}") from None
    return log


def _place_of(follower: Follower, its_id: str, record_id: str, known: Seen | None) -> int:
    """Where the leaf of a log's last record stands in the registry's log, which is proved. Raises `Told` where there
    is none, or where it does not stand behind the one that was the last before."""
    before = -1 if known is None or known.place is None else known.place
    if known is not None and known.head == record_id and before >= 0:
        return before
    newest = follower.newest or follower.follow()
    place = follower.registry.leaf(its_id, record_id)
    if place is None or not before < place < newest.contents.log_length:
        why = "no leaf is" if place is None else f"the leaf at place {place} is said to be"
        sentence = f"the map has {record_id} as the last record of {its_id}, and {why} of it"
        raise Told("left out leaf", sentence, newest)
    _check_leaf(follower, place, its_id, record_id)
    return place


def _check_leaf(follower: Follower, place: int, its_id: str, record_id: str) -> None:
    """Raises `Told` where it is not proved that a leaf stands there."""
    for _ in range(8):
        newest = follower.newest or follower.follow()
        try:
            checkpoint, proof = follower.registry.inclusion(place, newest.contents.log_length)
        except Problem as problem:
            if problem.name != "NotNewest":
                raise
            follower.newest = None
            continue
        follower.check_same(newest, checkpoint)
        it = newest.contents
        if holds(verify_inclusion, its_id, record_id, place, it.log_length, it.log_root, proof):
            return
        break
    raise Told("false proof", f"the leaf of {its_id} at place {place} is not proved", newest)
