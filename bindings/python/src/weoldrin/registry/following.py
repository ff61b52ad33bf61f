"""Follows a registry's checkpoints: each is signed by a key that the operator log lets sign, the operator log is lawful
and stands under it, and its log goes on from that of the last one that was seen."""

import time
from collections.abc import Callable

from ..checkpoints import Checkpoint, SignedCheckpoint
from ..errors import BadArgument, UnknownAlgorithm
from ..logs import Log, OperatorLog, log_id
from ..proofs import compare_checkpoints, verify_absence, verify_presence
from ..records import key_id
from ..values import CheckpointComparison
from .answers import Head, Problem, Registry
from .growing import grow
from .told import BadAnswer, Told
from .trust import Seen, Trust

# A checkpoint may be so many seconds old, and ahead of this machine's clock.
OLDEST, AHEAD = 3_600, 600
# What a checkpoint is to the one before it in a registry that keeps what it signed.
GOING_ON = (CheckpointComparison.SAME, CheckpointComparison.GOES_ON)
# The errors by which a registry says that it has no checkpoint of a length.
NOT_THERE = ("NoLeaf", "NoCheckpoint")
# How often the newest checkpoint may change while something under it is asked.
_TRIES = 8


def holds(verify: Callable[..., bool], *arguments: object) -> bool:
    """Whether a proof holds. A text that is none holds nothing."""
    try:
        return verify(*arguments)
    except BadArgument:
        return False


def is_signed(log: OperatorLog, it: SignedCheckpoint) -> bool:
    """Whether a checkpoint is signed by a key that the operator log lets sign."""
    try:
        return log.verify_checkpoint(it.contents, it.key_id, it.signature)
    except (BadArgument, UnknownAlgorithm):
        return False


def compared(old: Checkpoint, new: Checkpoint, proof: str = "") -> CheckpointComparison:
    """How the library compares a checkpoint with an older one. A text that is none of a proof or of a root shows
    nothing."""
    try:
        return compare_checkpoints(old, new, proof)
    except BadArgument:
        found = compared(old, new) if proof else CheckpointComparison.NOT_SHOWN
        return CheckpointComparison.NOT_SHOWN if found is CheckpointComparison.GOES_ON else found


class Follower:
    """Follows a registry, and keeps in a `Trust` what was seen. Whatever is told leaves that as it was."""

    def __init__(self, registry: Registry, trust: Trust, *, oldest: float = OLDEST) -> None:
        self.registry, self.trust, self._oldest = registry, trust, oldest
        self._before: SignedCheckpoint | None = None
        self.newest: SignedCheckpoint | None = None
        """The checkpoint that was followed to since this was made."""

    def follow(self) -> SignedCheckpoint:
        """Goes on to the newest checkpoint, and gives it. Raises `Told`."""
        self._before = seen = self.trust.checkpoint
        name = log_id("operator")
        head = self._head_of_operator(seen, name)
        if head.record_id is None:
            raise Told("unsigned checkpoint", "its map has no operator log, so no key may sign it", head.checkpoint)
        self.check_head(head, name)
        operator, key, count = self._operator_at(head.record_id, name, head.checkpoint.contents.log_length)
        with operator:
            check_signed(operator, head.checkpoint)
            state = _state_of(operator)
        if seen is not None:
            _check_goes_on(seen, head)
        self._check_time(head.checkpoint)
        known = self.trust.operator
        place = known.place if known and known.head == head.record_id else None
        self.trust.key, self.trust.state = key, state
        self.trust.operator, self.trust.checkpoint = Seen(head.record_id, count, place), head.checkpoint
        self.newest = head.checkpoint
        return head.checkpoint

    def head(self, name: str) -> tuple[SignedCheckpoint, Head]:
        """The newest checkpoint, and what its map says of a log, which is proved."""
        for _ in range(_TRIES):
            newest = self.newest or self.follow()
            try:
                head = self.registry.head(name, length=newest.contents.log_length)
            except Problem as problem:
                if problem.name != "NotNewest":
                    raise
                self.newest = None
                continue
            if head.checkpoint.contents.log_length == newest.contents.log_length:
                self.check_same(newest, head.checkpoint)
                self.check_head(head, name)
                return newest, head
            self.newest = None
        raise BadAnswer("no answer is under the checkpoint that was asked for")

    def check_same(self, newest: SignedCheckpoint, other: SignedCheckpoint) -> None:
        """Raises `Told` where a checkpoint is none of the same length, or a signed one that has other roots."""
        if newest.contents.log_length != other.contents.log_length:
            raise BadAnswer("the answer is under another checkpoint than was asked for")
        if compared(newest.contents, other.contents) is not CheckpointComparison.SAME:
            assert self.trust.state is not None
            with OperatorLog.from_json(self.trust.state) as operator:
                check_signed(operator, other)
            raise _forked(newest, other)

    def check_head(self, head: Head, name: str) -> None:
        """Raises `Told` where a checkpoint's map is not proved to say so of a log."""
        if stands(head, name, head.checkpoint.contents.map_root):
            return
        if self._before is not None and stands(head, name, self._before.contents.map_root):
            raise Told("old proof", f"what is said of {name} was so under an older checkpoint", head.checkpoint)
        raise Told("false proof", f"what is said of {name} is not proved", head.checkpoint)

    def _head_of_operator(self, seen: SignedCheckpoint | None, name: str) -> Head:
        try:
            return self.registry.head(name, None if seen is None else seen.contents.log_length)
        except Problem as problem:
            if seen is not None and problem.name in NOT_THERE:
                raise denied(self.registry, seen) from None
            raise

    def _operator_at(self, record_id: str, name: str, length: int) -> tuple[OperatorLog, str, int]:
        """The operator log up to a record, the id of the key that begins it, and how many records it has."""
        trust = self.trust
        if trust.state is not None and trust.key is not None:
            log, known, key = OperatorLog.from_json(trust.state), trust.operator, trust.key
        else:
            log, known, key = OperatorLog(), None, None
        new = grow(self.registry, log, name, known, record_id, length)
        if key is None:
            with OperatorLog() as none:
                key = key_id(none.ask(new[0]).key)
            check_known(log, name, trust.operator)
        if trust.key not in (None, key):
            raise Told("other operator", f"the operator log begins with the key {key}, and not with {trust.key}")
        return log, key, len(new) + (known.count if known else 0)

    def _check_time(self, it: SignedCheckpoint) -> None:
        age = time.time() - it.contents.timestamp
        if age > self._oldest:
            raise Told("stale checkpoint", f"it is {age:.0f} seconds old", it, subject=f"{it.contents.timestamp}")
        if age < -AHEAD:
            why = f"its time is {-age:.0f} seconds ahead of the clock"
            raise Told("checkpoint ahead", why, it, subject=f"{it.contents.timestamp}")


def denied(registry: Registry, seen: SignedCheckpoint) -> Told:
    """That a registry has no checkpoint of the length of one that it signed, with the newest that it shows."""
    length, newest = seen.contents.log_length, None
    try:
        newest = registry.checkpoint()
    except (Problem, BadAnswer):
        pass
    if newest is None or newest.contents.log_length < length:
        name, why = "rolled back registry", f"it signed {length} leaves, and has fewer now"
    else:
        name, why = "forked registry", f"it signed {length} leaves, and says that it did not"
    return Told(name, why, *(it for it in (seen, newest) if it), subject=f"{length}")


def check_signed(log: OperatorLog, it: SignedCheckpoint) -> None:
    """Raises `Told` where a checkpoint is not signed by a key that the operator log lets sign."""
    if is_signed(log, it):
        return
    if log.holds(it.key_id, "commit"):
        raise Told("unsigned checkpoint", f"the signature does not belong to the key {it.key_id}", it)
    held = log.permissions(it.key_id)
    why = "no record of the operator log names" if held is None else "has commit no more, or never had it"
    raise Told("key without commit", f"it is signed by a key that {why}: {it.key_id}", it)


def check_known(log: Log, name: str, known: Seen | None) -> None:
    """Raises `Told` where a log, which has all its records, does not go on from what is known of it."""
    if known is None:
        return
    if len(log) < known.count:
        raise Told("rolled back map", f"it has {len(log)} records of {name}, and {known.count} were seen")
    record = log.record(known.count - 1)
    if record is None or record.id != known.head:
        raise Told("forked log", f"record {known.count - 1} of {name} is another than was seen, {known.head}")


def stands(head: Head, name: str, root: str) -> bool:
    """Whether what a map says of a log is proved under a root of it."""
    if head.record_id is None:
        return holds(verify_absence, name, root, head.proof)
    return holds(verify_presence, name, head.record_id, root, head.proof)


def _forked(old: SignedCheckpoint, new: SignedCheckpoint) -> Told:
    lengths = old.contents.log_length, new.contents.log_length
    why = "two signed checkpoints of {} leaves have other roots" if lengths[0] == lengths[1] else (
        "the log of {1} leaves is not shown to go on from that of {0}, which was signed"
    )
    return Told("forked registry", why.format(*lengths), old, new, subject=f"{lengths[0]}")


def _check_goes_on(seen: SignedCheckpoint, head: Head) -> None:
    """Raises `Told` where a signed checkpoint does not go on from the one that was seen."""
    old, new = seen.contents, head.checkpoint.contents
    found = compared(old, new, head.consistency or "")
    if found is CheckpointComparison.GOES_BACK:
        why = f"it signed {old.log_length} leaves, and then {new.log_length}"
        raise Told("rolled back registry", why, seen, head.checkpoint, subject=f"{old.log_length}")
    if found not in GOING_ON:
        raise _forked(seen, head.checkpoint)
    if new.timestamp < old.timestamp:
        why = f"its time is {old.timestamp - new.timestamp} seconds before that of one that was seen"
        raise Told("stale checkpoint", why, seen, head.checkpoint, subject=f"{new.timestamp}")


def _state_of(log: OperatorLog) -> str:
    try:
        return log.to_json()
    except BadArgument:
        raise Told("unlawful record", "the operator log has a time before 1970, which no registry takes") from None
