"""`weoldrin gossip A B`: compares the checkpoints that two monitors saw. Two signed ones of one length with other
roots, and one that the registry's newest, or the leaves that the other monitor read, are not shown to go on from, are
the evidence of a fork."""

import argparse
from typing import NamedTuple

from ..checkpoints import SignedCheckpoint
from ..errors import BadArgument, UnknownAlgorithm
from ..logs import OperatorLog
from ..printing import print_lines, tell
from ..signatures import verify
from ..trees import RegistryTrees, saved_leaves
from ..values import CheckpointComparison
from . import asking
from . import trust as trusted
from .answers import Problem, checkpoint_in
from .database import leaves_in, sight_in
from .fetch import opened
from .following import GOING_ON, NOT_THERE, Follower, compared, denied, is_signed
from .told import BadAnswer, Told, Unusable
from .trust import Trust

_LONGEST = 64 * 2**20
_SQLITE = b"SQLite format 3\0"


class Sight(NamedTuple):
    """What a monitor saw."""

    name: str
    checkpoints: dict[int, SignedCheckpoint]
    """By their lengths."""
    trust: Trust | None
    url: str | None
    """That of the registry, where it is known."""
    has_leaves: bool = False
    """Whether it is a monitor's file, which has the leaves that were read."""

    @property
    def newest(self) -> SignedCheckpoint:
        """The longest checkpoint."""
        return self.checkpoints[max(self.checkpoints)]


def sight_of(name: str, seconds: float) -> Sight:
    """What is seen in a monitor's file, or in the lines of checkpoints of a file or of a URL."""
    if name.startswith(("http://", "https://")):
        answer = asking.ask(asking.address_of(name, has_query=True), "", longest=_LONGEST, seconds=seconds)
        if answer.status != 200:
            raise Unusable(f"{name}: it answers with status {answer.status}")
        return _sight_of_lines(name, answer.body)
    try:
        with open(name, "rb") as file:
            data = file.read(_LONGEST) if file.peek(16)[:16] != _SQLITE else None
    except OSError as error:
        raise Unusable(f"{name}: {error.strerror}") from None
    if data is not None:
        return _sight_of_lines(name, data)
    texts, trust, url = sight_in(name)
    sight = _sight_of_lines(name, "\n".join(texts).encode())
    try:
        trusting = None if trust is None else Trust.from_json(trust)
        return sight._replace(trust=trusting, url=url, has_leaves=True)
    except ValueError:
        raise Unusable(f"{name}: what is trusted in it is spoiled") from None


def _sight_of_lines(name: str, data: bytes) -> Sight:
    found: dict[int, SignedCheckpoint] = {}
    try:
        for line in data.split(b"\n"):
            if line.strip():
                it = checkpoint_in(asking.json_of(line))
                found.setdefault(it.contents.log_length, it)
    except BadAnswer:
        raise Unusable(f"{name}: it has no checkpoints, a line each, and is no file of a monitor") from None
    if not found:
        raise Unusable(f"{name}: it has no checkpoint")
    return Sight(name, found, None, None)


def _is_evidence(operator: OperatorLog, it: SignedCheckpoint) -> bool:
    """Whether a checkpoint is signed by a key of the operator log. It may have lost commit since."""
    if is_signed(operator, it):
        return True
    key = operator.public_key(it.key_id)
    try:
        return key is not None and verify(key, it.contents.message(), it.signature)
    except (BadArgument, UnknownAlgorithm):
        return False


def _check_signed(operator: OperatorLog, sight: Sight, it: SignedCheckpoint) -> None:
    if not _is_evidence(operator, it):
        why = f"{sight.name} has a checkpoint of {it.contents.log_length} leaves that no key of the operator log signed"
        raise Told("unsigned checkpoint", why, it)


def compare(operator: OperatorLog, left: Sight, right: Sight) -> int:
    """How many lengths both saw. Raises `Told` where they saw other roots of one."""
    common = sorted(left.checkpoints.keys() & right.checkpoints.keys())
    for length in common:
        one, other = left.checkpoints[length], right.checkpoints[length]
        if compared(one.contents, other.contents) is not CheckpointComparison.SAME:
            _check_signed(operator, left, one)
            _check_signed(operator, right, other)
            raise Told("forked registry", f"two signed checkpoints of {length} leaves have other roots", one, other)
    for sight in (left, right):
        _check_signed(operator, sight, sight.newest)
    return len(common)


def _check_leaves(shorter: Sight, longer: Sight) -> None:
    """Raises `Told` where the leaves that the monitor of the longer view read are those that it saw signed, and do not
    go on from the shorter one. A view without leaves shows nothing, nor do others than were signed."""
    old, new = shorter.newest, longer.newest
    if not longer.has_leaves:
        return
    try:
        saved = saved_leaves(leaves_in(longer.name, new.contents.log_length))
    except BadArgument:
        return
    with RegistryTrees.from_bytes(saved) as trees:
        if (len(trees), trees.log_root()) != (new.contents.log_length, new.contents.log_root):
            return
        proof = trees.consistency(old.contents.log_length)
    if compared(old.contents, new.contents, proof) is CheckpointComparison.GOES_ON:
        return
    why = f"the log of {new.contents.log_length} leaves, which {longer.name} read, does not go on from that of"
    raise Told("forked registry", f"{why} {old.contents.log_length}, which {shorter.name} saw", old, new)


def _check_shown(follower: Follower, sight: Sight) -> None:
    """Raises `Told` where the registry does not show that its newest log goes on from that of a checkpoint."""
    old, length = sight.newest, sight.newest.contents.log_length
    try:
        new, proof = follower.registry.consistency(length)
    except Problem as problem:
        if problem.name in NOT_THERE:
            raise denied(follower.registry, old) from None
        raise
    assert follower.trust.state is not None
    with OperatorLog.from_json(follower.trust.state) as operator:
        if not is_signed(operator, new):
            raise Told("unsigned checkpoint", "no key that may sign signed the registry's newest", new)
    if compared(old.contents, new.contents, proof) not in GOING_ON:
        why = f"the log of {new.contents.log_length} leaves is not shown to go on from that of {length}"
        raise Told("forked registry", f"{why}, which {sight.name} saw", old, new)


def run(asked: argparse.Namespace) -> int:
    """Compares what two monitors saw."""
    left, right = sight_of(asked.left, asked.seconds), sight_of(asked.right, asked.seconds)
    trust = next((it.trust for it in (left, right) if it.trust and it.trust.state), None)
    asked.url = asked.registry or left.url or right.url
    follower = None
    if trust is None or trust.state is None:
        if asked.url is None:
            raise Unusable("neither has an operator log: name the registry by --registry URL")
        trust = Trust() if asked.trust is None else trusted.read_trust(asked.trust)
        follower = opened(asked, trust)
        follower.follow()
    assert trust.state is not None
    with OperatorLog.from_json(trust.state) as operator:
        common = compare(operator, left, right)
    lengths = left.newest.contents.log_length, right.newest.contents.log_length
    if lengths[0] != lengths[1]:
        if asked.url is None:
            tell("weoldrin: the lengths differ, and no registry is named that could prove anything of them")
            raise Unusable("name the registry by --registry URL")
        follower = follower or opened(asked, trust)
        shorter, longer = sorted((left, right), key=lambda it: it.newest.contents.log_length)
        try:
            for sight in (left, right):
                _check_shown(follower, sight)
        except Told as told:
            # A registry that is shorter proves nothing of the longer log, whose leaves may show more.
            if told.name == "rolled back registry":
                _check_leaves(shorter, longer)
            raise
    print_lines([f"one view {lengths[0]} {lengths[1]} common {common}"])
    return 0
