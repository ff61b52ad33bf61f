"""What logs are asked and say: questions, records, releases, comparisons, and the kinds of logs."""

import enum
from collections.abc import Callable
from typing import NamedTuple


class SignatureCheck(NamedTuple):
    """What has to be verified before a record can be appended: whether the signature belongs to the message under the
    key."""

    key: str
    """The text of the signer's key: the algorithm's name, a colon, base64."""
    message: bytes
    """What was signed."""
    signature: str
    """The signature's text, in the form of the key's."""


Verify = Callable[[SignatureCheck], bool]


class Record(NamedTuple):
    """A record that a log keeps."""

    envelope: bytes
    """The record's envelope, written anew: it has the contents, the key id and the signature that were appended, and
    nothing else that stood in those bytes."""
    id: str


class Last(NamedTuple):
    """What is known of a log's last record beside its id."""

    timestamp: int
    """Its time, in nanoseconds since 1970."""
    version: int
    """Its version of the protocol."""
    length: int | None
    """How many records the log has; none where it was resumed and not told."""


class Release(NamedTuple):
    """A release. Times are those of the records, in nanoseconds since 1970."""

    version: str
    record_id: str
    """The id of the record that released it."""
    by: str
    """The id of the key that signed that record."""
    timestamp: int
    content: str | None
    """The digest of the content; none if the release was yanked."""
    yanked_by: str | None
    """The id of the key that signed the yank."""
    yanked_timestamp: int | None

    @property
    def yanked(self) -> bool:
        """Whether the release was yanked."""
        return self.yanked_by is not None


class Link(NamedTuple):
    """The place of an entry: of its record in the log, and of the entry in the record, from 0."""

    record: int
    entry: int


class Namespace(NamedTuple):
    """A namespace: one that is imported has the name of the registry that it is imported from."""

    imported_from: str | None


class Relation(enum.Enum):
    """How two logs stand to each other, by the contents of their records."""

    SAME = 0
    LEFT_IS_PREFIX = 1
    RIGHT_IS_PREFIX = 2
    FORK = 3
    COLLISION = 4


class Comparison(NamedTuple):
    """How two logs compare. `left` and `right` are the places where they part; both are 0 for equal logs."""

    relation: Relation
    left: int
    right: int


class CheckpointComparison(enum.Enum):
    """How one checkpoint of a registry compares with an older one."""

    SAME = 0
    """The lengths and both roots are equal."""
    GOES_ON = 1
    """The newer log is longer, and the proof shows that it begins with the older one."""
    GOES_BACK = 2
    """The newer log is shorter than the older one: a rollback."""
    FORK = 3
    """The lengths are equal and a root differs: no list of leaves has both. Two signatures show that the registry
    forked."""
    NOT_SHOWN = 4
    """The newer log is longer, and the proof does not show that it begins with the older one."""


class LeafComparison(enum.Enum):
    """How the leaves compare that are shown at one place of a registry's log under two checkpoints."""

    SAME = 0
    """Both proofs hold, and the leaves are one."""
    FORK = 1
    """Both proofs hold, and the leaves differ: neither log begins with the other one, or two strings collide."""
    NOT_SHOWN = 2
    """One of the proofs does not hold."""


class HeadComparison(enum.Enum):
    """How two answers about the last record of one log compare that are shown under one root of a registry's map."""

    SAME = 0
    """Both proofs hold, and the answers are one: one record, or none."""
    TWO = 1
    """Both proofs hold, of two records: two strings collide."""
    ONE_AND_NONE = 2
    """Both proofs hold, of a record and of none: two strings collide."""
    NOT_SHOWN = 3
    """One of the proofs does not hold."""


class BeginningComparison(enum.Enum):
    """How two checkpoints of a registry compare that the log of a newer one is shown to begin with."""

    SAME = 0
    """Both proofs hold, and the lengths and both roots are equal."""
    FORK = 1
    """Both proofs hold, the lengths and the logs' roots are equal, and the maps' roots differ: no list of leaves has
    both. Two signatures show that the registry forked."""
    COLLISION = 2
    """Both proofs hold, the lengths are equal, and the logs' roots differ: two strings collide."""
    TWO_LENGTHS = 3
    """Both proofs hold, and the lengths differ: nothing is said against the two."""
    NOT_SHOWN = 4
    """One of the proofs does not hold."""


class LogKind(enum.Enum):
    """The kinds of logs."""

    PACKAGE = 0
    OPERATOR = 1


def kind_of(kind: LogKind | str) -> LogKind:
    """A kind of logs: one of `LogKind`, or its word, "package" or "operator". Raises `ValueError` for anything else."""
    if isinstance(kind, LogKind):
        return kind
    for it in LogKind:
        if kind == it.name.lower():
            return it
    raise ValueError(f'a log is of Kind.PACKAGE or Kind.OPERATOR, or "package" or "operator", and not of {kind!r}')


# The names of 0.1.0 for these.
Kind = LogKind
Question = SignatureCheck
