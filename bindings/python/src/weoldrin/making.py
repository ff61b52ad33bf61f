"""The next record of a log, by words and a key's file: `python3 -m weoldrin make KIND LOG TIME ENTRY.. --key FILE`.

It takes the words of the tool's `make`, and signs by itself: FILE is a private key of P-256 as PEM, without a password,
as `bin/weoldrin-sign new` and `openssl genpkey` write it. The package `cryptography` signs.
"""

import argparse
import datetime
import os
import pathlib
import re
import stat
import sys
import time
from collections.abc import Callable, Iterable
from typing import TYPE_CHECKING

from . import records
from ._words import Once, Words
from .auditing import append_all, envelopes_of
from .errors import Error, Refused
from .logs import Log, log_of
from .printing import print_lines, tell
from .values import LogKind

if TYPE_CHECKING:
    from .p256 import SigningKey

_NANOS = 1_000_000_000
# So much is read of a key's file.
_LONGEST_KEY = 65_536
# Of more digits than these no number is small enough.
_SECONDS = re.compile(r"\+?0*([0-9]{1,20})\.\+?0*([0-9]{1,10})")
_DATE = re.compile(
    r"([0-9]{4}-[0-9]{2}-[0-9]{2})[Tt ]([0-9]{2}:[0-9]{2}:)([0-9]{2})(?:\.([0-9]{1,9}))?"
    r"([Zz]|[+-][0-9]{2}:[0-5][0-9])"
)
_EPOCH = datetime.datetime(1970, 1, 1, tzinfo=datetime.timezone.utc)


class NoRecord(ValueError):
    """Words that say no record, or a key that signs none. `str` is a sentence."""


def time_of(word: str) -> int:
    """The time that a word says, in nanoseconds since 1970.

    `now`; a date, a time of day and an offset of RFC 3339, whose second may have nine digits behind a point; or seconds
    since 1970, a point and nanoseconds. The 60th second of a leap second is the one before it. Raises `NoRecord`.
    """
    if word == "now":
        return time.time_ns()
    if (it := _SECONDS.fullmatch(word)) and int(it[1]) < 2**64 and int(it[2]) < 2**32:
        since_1970 = int(it[1]) * _NANOS + int(it[2])
        if since_1970 < 2**63 * _NANOS:
            return since_1970
    elif it := _DATE.fullmatch(word):
        date, clock, second, fraction, offset = it.groups()
        # Python 3.10 reads no Z.
        offset = offset.upper().replace("Z", "+00:00")
        try:
            at = datetime.datetime.fromisoformat(f"{date}T{clock}{'59' if second == '60' else second}{offset}")
        except ValueError:
            at = None
        if at is not None:
            passed = at - _EPOCH
            return (passed.days * 86_400 + passed.seconds) * _NANOS + int((fraction or "").ljust(9, "0"))
    raise NoRecord("the time is not now, nor as 2026-11-28T14:00:00Z, nor seconds as 1700000000.0")


def _split(words: str) -> tuple[str, str, str]:
    verb, space, rest = words.partition(" ")
    if not space:
        raise NoRecord("a word is missing")
    subject, _, rest = rest.partition(" ")
    return verb, subject, rest


def digest_of_text(content: str) -> str:
    """The text of the digest of a content that is text."""
    return records.sha256_text(content.encode())


def entry_of(kind: LogKind, words: str, digest_of: Callable[[str], str] = digest_of_text) -> bytes:
    """The entry that words say: `init KEY`, `grant KEY PERMISSION..`, `revoke KEY_ID PERMISSION..`; of a package's log
    `release VERSION CONTENT` and `yank VERSION`; of an operator's `define NAMESPACE` and `import NAMESPACE REGISTRY`.

    A KEY is the text of a key, and not its id. Of a release's content, which is text, the record has the digest, or
    what `digest_of` gives for it. Raises `NoRecord`, also of a word that is missing or too many: what is released can't
    be released again.
    """
    verb, subject, rest = _split(words)
    if verb in ("init", "grant") and (":" not in subject or subject.startswith("sha256:")):
        raise NoRecord("a word is no key's text, as ecdsa-p256:BASE64")
    if (verb in ("grant", "revoke") and not rest.split()) or (verb in ("release", "import") and not rest):
        raise NoRecord("a word is missing")
    if (verb in ("init", "yank", "define") and rest) or (verb == "import" and " " in rest):
        raise NoRecord("there is a word too many")
    try:
        match verb, kind:
            case "init", _:
                return records.init(subject)
            case "grant", _:
                return records.grant(kind, subject, rest.split())
            case "revoke", _:
                return records.revoke(kind, subject, rest.split())
            case "release", LogKind.PACKAGE:
                return records.release(subject, digest_of(rest))
            case "yank", LogKind.PACKAGE:
                return records.yank(subject)
            case "define", LogKind.OPERATOR:
                return records.define_namespace(subject)
            case "import", LogKind.OPERATOR:
                return records.import_namespace(subject, rest)
    except UnicodeEncodeError:
        raise NoRecord("a word is no UTF-8") from None
    except (KeyError, ValueError):
        raise NoRecord("a word is no permission") from None
    raise NoRecord("it begins with no entry's word")


def next_envelope(log: Log, key: "SigningKey", timestamp: int, entries: Iterable[bytes]) -> bytes:
    """The envelope of the record of these entries that comes next in a log, signed by a key. It is appended, so that it
    is one that the log takes. Raises `Refused`."""
    contents = records.contents(log.head(), timestamp, entries)
    envelope = records.signed(log.KIND, contents, key.public_key, key.sign)
    log.append(envelope)
    return envelope


def key_of(path: str) -> "SigningKey":
    """The private key in a file, of which a warning is told where others may use it. Raises `NoRecord`."""
    try:
        from .p256 import SigningKey
    except ImportError:
        raise NoRecord("the package cryptography signs, and it is not installed") from None
    try:
        with open(path, "rb") as file:
            mode, pem = os.fstat(file.fileno()).st_mode, file.read(_LONGEST_KEY)
        key = SigningKey.from_pem(pem)
    except OSError as error:
        raise NoRecord(f"{path}: {error.strerror}") from None
    except (TypeError, ValueError):
        # Without a password, `cryptography` raises TypeError of a key that has one.
        raise NoRecord(f"{path}: it holds no private key of P-256 as PEM without a password") from None
    if stat.S_ISREG(mode) and mode & (stat.S_IRWXG | stat.S_IRWXO):
        _warn(f"{path}: others than its owner may use this key; chmod 600 lets none")
    return key


def _read(path: str) -> list[bytes]:
    """The envelopes of the log in a file. A log that is not there yet has none."""
    try:
        if path == "-":
            if sys.stdin is None:
                raise NoRecord("standard input: it is closed")
            return list(envelopes_of(sys.stdin.buffer))
        with pathlib.Path(path).open("rb") as lines:
            return list(envelopes_of(lines))
    except FileNotFoundError:
        return []
    except NoRecord:
        raise
    except OSError as error:
        raise NoRecord(f"{path}: {error.strerror}") from None
    except ValueError as error:
        raise NoRecord(f"{path}: {error}") from None


def add_command(commands: "argparse._SubParsersAction[Words]") -> None:
    """Adds the command `make` to those of a parser."""
    command = commands.add_parser(
        "make",
        help="the next record of a log, signed by a key's file",
        description="Prints the line of the record that comes next in a log, signed by a key of ECDSA P-256.",
        epilog="Status: 0 made, 1 the log refuses it, 2 wrong words, or a key or a log that can't be used, 3 the line "
        "could not be written.",
    )
    command.add_argument("kind", choices=["package", "operator"])
    command.add_argument("log", metavar="LOG", help="a file, which may be missing yet; - is standard input")
    command.add_argument("time", metavar="TIME", help="now, as 2026-11-28T14:00:00Z, or seconds as 1700000000.0")
    command.add_argument("entries", nargs="*", metavar="ENTRY", help="an entry in one word, as 'yank 1.0.0'")
    command.add_argument("--key", action=Once, required=True, metavar="FILE", help="the private key, as PEM")


def _warn(sentence: str) -> None:
    tell(f"weoldrin: {sentence}")


def _line(asked: argparse.Namespace) -> tuple[str, int]:
    kind = LogKind[asked.kind.upper()]
    timestamp, entries = time_of(asked.time), []
    for place, words in enumerate(asked.entries):
        try:
            entries.append(entry_of(kind, words))
        except NoRecord as error:
            raise NoRecord(f"entry {place}: {error}") from None
    key, envelopes = key_of(asked.key), _read(asked.log)
    with log_of(kind) as log:
        taken, run_error = append_all(log, envelopes)
        if run_error is not None:
            _warn(f"{asked.log}: record {taken}: {run_error.sentence}")
            return f"refused {taken} {run_error.name}", 1
        try:
            return next_envelope(log, key, timestamp, entries).hex(), 0
        except Refused as error:
            _warn(f"{asked.log}: record {taken}: {error.sentence}")
            return f"refused {taken} {error.name}", 1


def run(asked: argparse.Namespace) -> int:
    """Prints the line of the record that is asked for, or the audit's where the log refuses it. Gives the status."""
    try:
        line, status = _line(asked)
    except (NoRecord, Error) as error:
        _warn(str(error))
        return 2
    try:
        print_lines([line])
    except OSError as error:
        _warn(f"standard output could not be written: {error.strerror}")
        return 3
    return status
