"""What a publisher can do about a record that was refused."""

from __future__ import annotations

from weoldrin import LogKind

_ADVICE = {
    "FirstEntryIsNotInit": "Begin the log with a record whose first entry is an init.",
    "InitialRecordDoesNotInit": "Begin the log with a record whose first entry is an init.",
    "KeyIDNotRecognized": "Sign with a key that the log knows, or have such a key grant something to yours first.",
    "InitialEntryAfterBeginning": "Leave the init out: the log has begun, and further keys come in by grants.",
    "UnauthorizedAction": "Have a key that holds the permission sign, or ask its owner for a grant.",
    "PermissionNotFoundToRevoke": "Leave out what the key does not hold, and name each permission once.",
    "SignatureError": "Sign with the key that the record names, as a record of this kind of log.",
    "ProtocolVersionNotAllowed": "Write version 1 into the record.",
    "OldVersion": "Write version 1 into the record.",
    "TimestampLowerThanPrevious": "Take the head's time for the record's, where your clock is behind it.",
    "TimeAhead": "Set your clock, and sign again.",
    "TimeBeforeEpoch": "Set your clock, and sign again.",
    "EmptyGrant": "Name a permission in the grant.",
    "ReleaseOfReleased": "Choose another version: a released one stays so, also if it is yanked.",
    "YankOfUnreleased": "Look for the version among the releases.",
    "YankOfYanked": "Nothing is left to do.",
    "InvalidNamespace": "Choose words of lower-case letters and digits, a letter first, with dashes between.",
    "NamespaceAlreadyDefined": "Choose another name: each is defined or imported once.",
    "UnknownAlgorithm": "Sign with a key of ECDSA P-256.",
}


def advice_on(name: str, kind: LogKind) -> str:
    """A sentence on an offence or a fault of this name."""
    other = f"Write the envelope anew: it is no record of the log of {'a package' if kind.value == 0 else 'operators'}."
    return _ADVICE.get(name, other)
