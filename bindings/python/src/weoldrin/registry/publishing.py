"""`weoldrin publish URL NAME ENTRY..`: a record of a package's log, on the head that the registry serves, which is
verified before."""

import argparse
import contextlib
import hashlib
import os
import time
from collections.abc import Sequence
from typing import TYPE_CHECKING, NamedTuple

from .. import making, records
from .._files import open_regular
from ..errors import NoEnvelope, Refused, UnknownAlgorithm
from ..logs import PackageLog, log_id, record_id
from ..making import NoRecord
from ..printing import print_lines, tell
from ..values import LogKind
from . import trust as trusted
from .answers import Problem, Registry
from .fetch import check_name, opened, tell_first_use
from .following import Follower
from .growing import REFUSED
from .packages import package
from .told import BadAnswer, NoAnswer, NoPackage, Told, Unusable, Unwritten
from .trust import Trust, is_hash

if TYPE_CHECKING:
    from ..p256 import SigningKey

_PART = 2**20
# A log that has begun has a checkpoint within so many seconds, and is asked for so often.
_WAIT, _PAUSE = 20.0, 0.25
# The id of any key.
_ANY_ID = records.key_id("")
# How often a record is sent of which no answer comes, and the seconds between.
_SENDINGS, _BETWEEN = 3, 1.0


class Unlawful(Exception):
    """The log does not take a record: at which place, why, and in what words."""

    def __init__(self, place: int, name: str, sentence: str) -> None:
        super().__init__(place, name, sentence)
        self.place, self.name, self.sentence = place, name, sentence


class Served(NamedTuple):
    """The log of a package as it is served: verified up to its last record under a checkpoint, and lawful behind it."""

    log: PackageLog
    envelopes: list[bytes]
    seen: int
    """How many records had been seen before; all that there are where none had."""
    length: int
    """The length of the checkpoint."""


class Standing(NamedTuple):
    """A record that stands, and the index that the registry says its leaf has."""

    record_id: str
    leaf: int


def digest_of_file(path: str) -> str:
    """The text of the digest of a file's bytes; a text of a digest is its own. Raises `NoRecord`."""
    if is_hash(path):
        return path
    digest = hashlib.sha256()
    try:
        with open(path, "rb", opener=open_regular) as file:
            while part := file.read(_PART):
                digest.update(part)
    except (OSError, ValueError) as error:
        raise NoRecord(f"{path}: {getattr(error, 'strerror', None) or error}") from None
    return f"sha256:{digest.hexdigest()}"


def entries_of(words: Sequence[str]) -> list[bytes]:
    """The entries that words say, as `making.entry_of`, where the content of a release is that of a file. Raises
    `Unusable`."""
    found = []
    for place, it in enumerate(words):
        try:
            found.append(making.entry_of(LogKind.PACKAGE, it, digest_of_file))
        except NoRecord as error:
            raise Unusable(f"entry {place}: {error}") from None
    return found


def served(follower: Follower, name: str) -> Served:
    """The log of a package, as `package` has it verified, and the lawful records that are served behind it, which no
    checkpoint has yet. Raises `Told`, and `NoAnswer` where it has begun, and no checkpoint has it for long.

    A log that no checkpoint has is not gone on from: it may be another's, and a record does not say of which log it is.
    """
    its_id, end = log_id("package", name), time.monotonic() + _WAIT
    known = follower.trust.logs.get(its_id)
    while True:
        try:
            found = package(follower, name)
            break
        except NoPackage:
            assert follower.newest is not None
            if next(follower.registry.records(its_id, 0), None) is None:
                return Served(PackageLog(), [], 0, follower.newest.contents.log_length)
        if time.monotonic() > end:
            raise NoAnswer(f"the log of {name} has begun, and no checkpoint has it yet")
        time.sleep(_PAUSE)
        follower.newest = None
    envelopes = found.envelopes
    for envelope in follower.registry.records(its_id, len(envelopes)):
        try:
            found.log.append(envelope)
        except REFUSED as error:
            sentence = f"record {len(envelopes)} of {its_id}: {error.name}: {error.sentence}"
            raise Told("unlawful record", sentence) from None
        envelopes.append(envelope)
    seen = len(envelopes) if known is None else known.count
    return Served(found.log, envelopes, seen, found.checkpoint.contents.log_length)


def _first(key: "SigningKey", entries: Sequence[bytes]) -> list[bytes]:
    """The entries of a log's first record: an init of the key that signs it, and others."""
    init = records.init(key.public_key)
    return [*entries] if entries and entries[0] == init else [init, *entries]


def standing(at: Served, key: "SigningKey", entries: Sequence[bytes]) -> str | None:
    """The id of the record of a log that has these entries: its last one, or one that came since it was seen. So the
    record of a run that got no answer is found. Behind the last record, its entries would be refused, or do nothing."""
    first = min(at.seen, len(at.envelopes) - 1)
    with PackageLog() as log:
        for place, envelope in enumerate(at.envelopes):
            head = log.head()
            # It was verified.
            log.append(envelope, lambda _: True)
            last = log.last()
            assert last is not None
            wanted = entries if place else _first(key, entries)
            if place >= first and _id_of(records.contents(head, last.timestamp, wanted)) == log.head():
                return log.head()
    return None


def _id_of(contents: bytes) -> str | None:
    """The id of the record of these contents, whoever signs it; none where they are none of a record."""
    try:
        return record_id(LogKind.PACKAGE, records.envelope(contents, _ANY_ID, "ecdsa-p256:"))
    except NoEnvelope:
        return None


def next_record(at: Served, key: "SigningKey", entries: Sequence[bytes]) -> bytes:
    """The envelope of the record of these entries that comes next, which the log has taken. Raises `Unlawful`, and
    `Unusable` where there is nothing to publish."""
    last, place = at.log.last(), len(at.log)
    if last is None:
        entries = _first(key, entries)
    if not entries:
        raise Unusable("there is nothing to publish: the log has begun, and no entry is named")
    # The last record's clock may be ahead of this one, and time does not go back in a log.
    now = max(time.time_ns(), last.timestamp if last else 0)
    try:
        return making.next_envelope(at.log, key, now, entries)
    except NoEnvelope as error:
        raise Unusable(f"the words make no record: {error.name}: {error.sentence}") from None
    except (Refused, UnknownAlgorithm) as error:
        raise Unlawful(place, error.name, error.sentence) from None


def send(registry: Registry, name: str, at: Served, envelope: bytes) -> Standing:
    """Sends a record until there is an answer, a few times. Raises a `Problem` where it does not stand, `BadAnswer`,
    and `NoAnswer` where it is not known whether it stands: the same may be sent again."""
    its_id, left = record_id(LogKind.PACKAGE, envelope), _SENDINGS
    while True:
        try:
            found = registry.publish(name, log_id("package", name), its_id, envelope)
            break
        except (NoAnswer, BadAnswer) as error:
            left -= 1
            if not left:
                tell(f"weoldrin: whether the record {its_id} stands is not known; the same words publish it once")
                raise error from None
            time.sleep(_BETWEEN)
    if found.place != len(at.envelopes) or found.leaf < at.length:
        raise BadAnswer("the record is said to stand where other records do")
    return Standing(its_id, found.leaf)


def publish(follower: Follower, name: str, key: "SigningKey", entries: Sequence[bytes]) -> Standing:
    """Publishes a record of a package's log, of these entries, and before them an init where it begins the log. Raises
    `Told`, `NoAnswer`, `Unlawful`, `Problem` and `Unusable`."""
    return _published(follower, name, key, entries, served(follower, name))


def _published(follower: Follower, name: str, key: "SigningKey", entries: Sequence[bytes], at: Served) -> Standing:
    its_id = standing(at, key, entries)
    if its_id is None:
        return send(follower.registry, name, at, next_record(at, key, entries))
    place = follower.registry.leaf(log_id("package", name), its_id)
    if place is None:
        raise BadAnswer("a record that is served has no leaf")
    return Standing(its_id, place)


def _key_in(path: str, begins: bool) -> "SigningKey":
    """The key in a file, which is made where it is not there and the log begins. Raises `Unusable` and `Unwritten`."""
    is_there = os.path.lexists(path)
    if not is_there and not begins:
        raise Unusable(f"{path}: it is not there, and the log has begun: a new key can't sign for it")
    try:
        return making.key_of(path) if is_there else _new_key(path)
    except NoRecord as error:
        raise Unusable(str(error)) from None


def _new_key(path: str) -> "SigningKey":
    try:
        from ..p256 import SigningKey
    except ImportError:
        raise Unusable("the package cryptography signs, and it is not installed") from None
    key = SigningKey.generate()
    try:
        key.save_new(path)
    except FileExistsError:
        # Another process made it meanwhile.
        return making.key_of(path)
    except OSError as error:
        raise Unwritten(f"{path}: it could not be made: {error.strerror}") from None
    tell(f"weoldrin: made the key {records.key_id(key.public_key)} in {path}: keep a copy of it")
    return key


def run(asked: argparse.Namespace) -> int:
    """Publishes a record, and prints its id and its leaf's index."""
    check_name(asked.name)
    entries = entries_of(asked.entries)
    with contextlib.ExitStack() as held:
        beside = None if asked.trust is None else trusted.hold(asked.trust, held)
        trust = Trust() if asked.trust is None else trusted.read_trust(asked.trust)
        follower = opened(asked, trust)
        was_pinned = trust.key is not None
        at = served(follower, asked.name)
        key = _key_in(asked.key, not at.envelopes)
        if beside is not None:
            # Before anything is sent: by what was seen then, a run that got no answer is gone on from.
            trusted.write(asked.trust, beside, trust.to_json())
        tell_first_use(trust.key, was_pinned)
    if not at.envelopes:
        tell(f"weoldrin: the registry has no log of {asked.name}, which begins by this record")
    try:
        found = _published(follower, asked.name, key, entries, at)
    except Unlawful as it:
        print_lines([f"refused {it.place} {it.name}"])
        tell(f"weoldrin: the log would not take it: {it.sentence}")
        return 1
    except Problem as problem:
        if problem.name != "NotNext":
            raise
        raise Problem(problem.status, problem.name, "another record came first; the same words go on from it") from None
    print_lines([f"ok {found.record_id} leaf {found.leaf}"])
    return 0
