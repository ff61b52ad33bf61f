"""Goes on with a log to the record that a checkpoint's map names, and says what it is where it does not get there."""

from collections.abc import Iterator

from ..errors import NoEnvelope, Refused, UnknownAlgorithm
from ..logs import Log, log_of
from ..values import LogKind
from .answers import Leaf, Registry
from .told import BadAnswer, Told
from .trust import Seen

# What a record is refused by.
REFUSED = (NoEnvelope, Refused, UnknownAlgorithm)
# So many leaves are gone through to say what a log is that is not reached.
_LEAVES = 50_000


def _walk(registry: Registry, start: int, end: int) -> Iterator[Leaf]:
    """The leaves from a place on up to a length."""
    place, more = start, True
    while place < end:
        if not more:
            raise Told("left out leaf", f"{end} leaves are signed, and {place} are served")
        leaves, more = registry.leaves(place)
        for leaf in leaves[: end - place]:
            yield leaf
            place += 1


def grow(registry: Registry, log: Log, log_id: str, known: Seen | None, until: str, length: int) -> list[bytes]:
    """Appends to a log, which has the records that are known of it, those that follow, up to one. Gives their
    envelopes. Raises `Told` where it is not reached; `length` is how many leaves the registry's log has."""
    new: list[bytes] = []
    if log.head() == until:
        return new
    for envelope in registry.records(log_id, known.count if known else 0):
        try:
            log.append(envelope)
        except REFUSED:
            break
        new.append(envelope)
        if log.head() == until:
            return new
    raise _explained(registry, log.KIND, log_id, known, until, length)


def _explained(registry: Registry, kind: LogKind, log_id: str, known: Seen | None, until: str, length: int) -> Told:
    """What a log is that does not go on from what is known of it to a record: it is fetched once more, whole."""
    ids: list[str] = []
    with log_of(kind) as log:
        for envelope in registry.records(log_id, 0):
            try:
                log.append(envelope)
            except REFUSED as error:
                return Told("unlawful record", f"record {len(ids)} of {log_id}: {error.name}: {error.sentence}")
            ids.append(log.head() or "")
    own, other = _by_leaves(registry, log_id, ids, length)
    if other:
        return Told("wrong name", f"the log that is served for {log_id} is {other}")
    if known is not None:
        if len(ids) < known.count:
            return Told("rolled back log", f"{len(ids)} records of {log_id} are served, and {known.count} were seen")
        if ids[known.count - 1] != known.head:
            return Told("forked log", f"record {known.count - 1} of {log_id} is another than was seen, {known.head}")
        if until in ids[: known.count]:
            last = ids.index(until)
            return Told(
                "rolled back map", f"it has record {last} of {log_id} as the last, and {known.count} records were seen"
            )
    if until in ids:
        return BadAnswer("two answers of one log differ")
    if not ids:
        return Told("missing record", f"no record of {log_id} is served, and the last one is {until}")
    if own[: len(ids)] == ids:
        return Told("rolled back log", f"{len(ids)} records of {log_id} are served, and the last one, {until}, is not")
    return Told("replaced record", f"the log that is served for {log_id} does not have its last record, {until}")


def _by_leaves(registry: Registry, log_id: str, ids: list[str], length: int) -> tuple[list[str], str]:
    """The records that the registry's log has of a log, among its last leaves, and the other log that has the last of
    the records that are served, if one has it in its place."""
    own, other = [], ""
    for leaf in _walk(registry, max(0, length - _LEAVES), length):
        if leaf.log_id == log_id:
            own.append(leaf.record_id)
        elif ids and leaf.record_id == ids[-1]:
            other = leaf.log_id
    return own, "" if ids and ids[-1] in own else other
