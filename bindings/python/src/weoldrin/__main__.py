"""python3 -m weoldrin: audits logs whose records are signed by ECDSA P-256, and makes records."""

import argparse
import os
import sys

from . import Empty, Verdict, audit_many, library_version, making, print_lines, processes
from ._words import Once, Words
from .printing import tell


def _parser() -> argparse.ArgumentParser:
    parser = Words(
        prog="python3 -m weoldrin",
        description="Audits logs of a Warg registry. A log is a file with an envelope a line, in hex.",
        epilog="Status: 0 all accepted, 1 one was refused or is empty, 2 wrong words or a file that could not be read, "
        "3 the verdicts could not be written.",
    )
    parser.add_argument("--version", action="version", version=f"weoldrin {library_version()}")
    commands = parser.add_subparsers(dest="command", required=True)
    command = commands.add_parser(
        "audit",
        help="the verdict on each log",
        description="Prints a line a log: its verdict, by ECDSA P-256 signatures, which the library verifies.",
    )
    command.add_argument("kind", choices=["package", "operator"])
    command.add_argument("logs", nargs="+", metavar="LOG")
    command.add_argument("--allow-empty", action="store_true", help="take a log of no records")
    command.add_argument("--workers", type=int, action=Once, help="how many processes read the logs")
    making.add_command(commands)
    return parser


def _status(verdict: Verdict) -> int:
    """What a verdict has the command end with."""
    if verdict.accepted:
        return 0
    return 1 if verdict.fault is None or isinstance(verdict.fault, Empty) else 2


def main(words: list[str] | None = None) -> int:
    """Runs the words of a command line, and gives the exit status."""
    asked = _parser().parse_args(words)
    if asked.command == "make":
        return making.run(asked)
    workers, allowed = max(1, min(asked.workers or os.cpu_count() or 1, len(asked.logs))), asked.allow_empty
    if workers == 1:
        verdicts = audit_many(asked.logs, asked.kind, workers=1, allow_empty=allowed)
    else:
        with processes(workers) as executor:
            verdicts = audit_many(asked.logs, asked.kind, executor=executor, allow_empty=allowed)
    try:
        print_lines(str(it) for it in verdicts)
    except OSError as error:
        tell(f"weoldrin: standard output could not be written: {error.strerror}")
        return 3
    return max(_status(it) for it in verdicts)


if __name__ == "__main__":
    sys.exit(main())
