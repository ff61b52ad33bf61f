"""The words `fetch`, `publish`, `lock`, `check`, `monitor` and `gossip` of the command `weoldrin`."""

import argparse
import json
import os

from .._words import Once, Words
from ..errors import NoLibrary
from ..printing import print_lines, tell
from . import fetch, gossip, lock, monitor, publishing
from .answers import Problem
from .following import OLDEST
from .told import NoAnswer, NoPackage, Told, Unusable, Unwritten

_STATUS = "Status: 0 verified, 1 refused or told, 2 wrong words or files that can't be used, 3 no answer, or a failed "
_STATUS += "read or write."


def _number(word: str) -> int:
    if not word.isdecimal() or len(word) > 9:
        raise argparse.ArgumentTypeError(f"{word!r} is no number")
    return int(word)


def _positive(word: str) -> int:
    found = _number(word)
    if found == 0:
        raise argparse.ArgumentTypeError("0 is too few")
    return found


def _add_common(command: argparse.ArgumentParser, has_trust: bool = True) -> None:
    command.add_argument("--operator", action=Once, metavar="KEY_ID", help="the key that begins the operator log")
    old, whole = "how old a checkpoint may be", "within which an answer has to be there whole"
    command.add_argument("--oldest", type=_positive, default=OLDEST, metavar="SECONDS", help=old)
    command.add_argument("--seconds", type=_positive, default=60, help=whole)
    if has_trust:
        command.add_argument("--trust", action=Once, metavar="FILE", help="what was seen before, and is kept")


def _parser() -> argparse.ArgumentParser:
    parser = Words(prog="weoldrin", description="Asks a registry, and believes it nothing.", epilog=_STATUS)
    commands = parser.add_subparsers(dest="command", required=True)

    def added(name: str, text: str) -> argparse.ArgumentParser:
        return commands.add_parser(name, help=text, description=f"{text[0].upper()}{text[1:]}.", epilog=_STATUS)

    command = added("fetch", "fetches a package's log, verified down to a signed checkpoint")
    command.add_argument("url", metavar="URL")
    command.add_argument("name", metavar="NAME", help="the package's, as example:math")
    command.add_argument("--out", action=Once, metavar="LOG", help="the log's file, which is gone on from; - prints it")
    _add_common(command)
    _add_publish(added("publish", "publishes a record of a package's log, which begins by it where there is none"))
    command = added("lock", "locks the versions that meet requirements")
    command.add_argument("url", metavar="URL")
    command.add_argument("requirements", metavar="REQUIREMENTS", help="a file of lines: NAME and a requirement")
    command.add_argument("--out", action=Once, required=True, metavar="FILE", help="the file of locked versions")
    _add_common(command)
    command = added("check", "says whether locked versions stand")
    command.add_argument("url", metavar="URL")
    command.add_argument("file", metavar="FILE", help="the file that lock wrote")
    _add_common(command, has_trust=False)
    _add_monitor(added("monitor", "follows a registry's checkpoints, leaves and logs"))
    command = added("gossip", "compares what two monitors saw")
    for side in ("left", "right"):
        command.add_argument(side, metavar=side.upper(), help="a monitor's file, or what --saw wrote, or its URL")
    command.add_argument("--registry", action=Once, metavar="URL", help="the registry, which is asked for proofs")
    command.add_argument("--json", action="store_true", help="what is told is an object of JSON, with the evidence")
    _add_common(command)
    return parser


def _add_publish(command: argparse.ArgumentParser) -> None:
    command.add_argument("url", metavar="URL")
    command.add_argument("name", metavar="NAME", help="the package's, as example:math")
    words = "as make takes them, as 'yank 1.0.0', but 'release VERSION FILE', with a file or its digest as sha256:.."
    command.add_argument("entries", nargs="*", metavar="ENTRY", help=words)
    made = "the private key, as PEM, which is made where it is not there and the log begins"
    command.add_argument("--key", action=Once, required=True, metavar="FILE", help=made)
    _add_common(command)


def _add_monitor(command: argparse.ArgumentParser) -> None:
    command.add_argument("url", metavar="URL")
    command.add_argument("--database", action=Once, required=True, metavar="FILE", help="what is seen, in SQLite")
    command.add_argument("--once", action="store_true", help="by one step, and no further")
    command.add_argument("--every", type=_positive, default=60, metavar="SECONDS", help="how often it is asked")
    command.add_argument("--json", action="store_true", help="each line is an object of JSON")
    command.add_argument("--webhook", action=Once, metavar="URL", help="where what is told is sent, as JSON")
    command.add_argument("--saw", action=Once, metavar="FILE", help="where the checkpoints are written, for gossip")
    most = "how many leaves are read at most"
    command.add_argument("--most", type=_number, default=20_000_000, metavar="LEAVES", help=most)
    workers = "how many processes replay logs"
    command.add_argument("--workers", type=_positive, default=os.cpu_count() or 1, help=workers)
    _add_common(command, has_trust=False)


_RUN = {
    "fetch": fetch.run,
    "publish": publishing.run,
    "lock": lock.run_lock,
    "check": lock.run_check,
    "monitor": monitor.run,
    "gossip": gossip.run,
}


def _run(asked: argparse.Namespace) -> int:
    """Runs a command. What is told is printed, and all else is said on standard error."""
    try:
        return _RUN[asked.command](asked)
    except Told as it:
        evidence = [checkpoint.to_json() for checkpoint in it.evidence]
        print_lines([_object_of(it)] if getattr(asked, "json", False) else [str(it), *evidence])
    except NoPackage as it:
        print_lines(["none"])
        tell(f"weoldrin: {it.args[0]}")
    except Problem as it:
        tell(f"weoldrin: the registry refuses: {it}")
    return 1


def _object_of(it: Told) -> str:
    evidence = [json.loads(checkpoint.to_json()) for checkpoint in it.evidence]
    return json.dumps({"told": it.word, "name": it.name, "sentence": it.sentence, "evidence": evidence})


def main(words: list[str]) -> int:
    """Runs the words of a command line, and gives the exit status."""
    try:
        return _run(_parser().parse_args(words))
    except Unusable as error:
        tell(f"weoldrin: {error.args[0]}")
        return 2
    except (NoAnswer, Unwritten, NoLibrary) as error:
        tell(f"weoldrin: {error.args[0]}")
    except OSError as error:
        tell(f"weoldrin: standard output could not be written: {error.strerror}")
    except MemoryError:
        tell("weoldrin: out of memory")
    except KeyboardInterrupt:
        pass
    return 3
