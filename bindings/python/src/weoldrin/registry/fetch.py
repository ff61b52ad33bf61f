"""`weoldrin fetch URL NAME`: a package's log, verified down to a signed checkpoint of the registry."""

import argparse
import contextlib
import datetime

from ..checkpoints import SignedCheckpoint
from ..errors import BadArgument
from ..logs import log_id
from ..printing import print_lines, tell
from . import trust as trusted
from .answers import Registry
from .following import Follower
from .logfile import add, hold_log
from .packages import package
from .told import Told, Unusable
from .trust import Trust


def opened(asked: argparse.Namespace, trust: Trust) -> Follower:
    """Who follows the registry that words name, by what is trusted of it."""
    pin = asked.operator
    if pin is not None:
        if not trusted.is_hash(pin):
            raise Unusable("--operator: it is no id of a key, sha256: and 64 hex digits")
        if trust.key not in (None, pin):
            raise Told("other operator", f"the key {trust.key} is trusted, and not {pin}")
        trust.key = pin
    return Follower(Registry(asked.url, asked.seconds), trust, oldest=asked.oldest)


def tell_first_use(key: str | None, was_pinned: bool) -> None:
    """Says by whose key the operator log begins, where nobody had said so."""
    if key is not None and not was_pinned:
        tell(
            f"weoldrin: trusted on first use: the operator log begins with the key {key}. Have this id from the "
            "operators by another way"
        )


def check_name(name: str) -> None:
    """Raises `Unusable` where a name is none of a package."""
    try:
        log_id("package", name)
    except BadArgument:
        raise Unusable(f"{name}: it is no name of a package, as example:math") from None


def time_text(it: SignedCheckpoint) -> str:
    """The time of a checkpoint."""
    try:
        at = datetime.datetime.fromtimestamp(it.contents.timestamp, datetime.timezone.utc)
    except (OverflowError, ValueError, OSError):
        return str(it.contents.timestamp)
    return at.strftime("%Y-%m-%dT%H:%M:%SZ")


def run(asked: argparse.Namespace) -> int:
    """Fetches a package's log, and prints that it is verified."""
    check_name(asked.name)
    with contextlib.ExitStack() as held:
        beside = None if asked.trust is None else trusted.hold(asked.trust, held)
        trust = Trust() if asked.trust is None else trusted.read_trust(asked.trust)
        file = None if asked.out in (None, "-") else hold_log(asked.out, held)
        have = [] if file is None else file.envelopes()
        follower = opened(asked, trust)
        was_pinned = trust.key is not None
        found = package(follower, asked.name, have)
        if file is not None:
            add(file, found.envelopes[len(have) :])
        if beside is not None:
            trusted.write(asked.trust, beside, trust.to_json())
        tell_first_use(trust.key, was_pinned)
    length, seen = found.checkpoint.contents.log_length, found.seen
    line = f"ok {seen.count} {seen.head} under {length} {time_text(found.checkpoint)} leaf {seen.place}"
    if asked.out == "-":
        print_lines(it.hex() for it in found.envelopes)
        tell(line)
    else:
        print_lines([line])
    return 0
