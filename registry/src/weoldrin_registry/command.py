"""The command `weoldrin-registry`.

    weoldrin-registry serve [DATABASE] [--key FILE] [--new] [--settings FILE] [--host HOST] [--port PORT]
                            [--static FOLDER]
    weoldrin-registry begin [DATABASE] --key FILE     begins the operator log by a key, which may then sign checkpoints
    weoldrin-registry new-key FILE                    makes a key

`serve` prints the address on standard output when it answers, and a line for each request on standard error. With
`--new` it makes the key and begins the operator log by it before, where they are not there yet, which is for the first
start alone. Status: 0 done, 1 refused, 2 wrong words or settings, 3 the storage or the network failed.
"""

from __future__ import annotations

import argparse
import pathlib
import sys

from weoldrin import Error, printing

from .beginning import begin, begin_new
from .problems import Problem
from .serve import serve
from .settings import BadSettings, from_file
from .signing import new_key
from .storage import StorageError


def _parser(name: str) -> argparse.ArgumentParser:
    parser = argparse.ArgumentParser(name, description=__doc__, formatter_class=argparse.RawDescriptionHelpFormatter)
    commands = parser.add_subparsers(dest="command", required=True)
    for it in ("serve", "begin"):
        command = commands.add_parser(it)
        command.add_argument("database", nargs="?")
        command.add_argument("--key")
        command.add_argument("--settings", type=pathlib.Path)
    serving = commands.choices["serve"]
    serving.add_argument(
        "--new", action="store_true", help="makes the key and begins the operator log, where they are not there yet"
    )
    serving.add_argument("--host")
    serving.add_argument("--port", type=int)
    serving.add_argument("--static")
    commands.add_parser("new-key").add_argument("file", type=pathlib.Path)
    return parser


def run(words: argparse.Namespace) -> int:
    """Runs the words of the command."""
    if words.command == "new-key":
        new_key(words.file)
        return 0
    given = {it: getattr(words, it, None) for it in ("database", "key", "host", "port", "static")}
    settings = from_file(words.settings, **given)
    if words.command == "begin":
        print(begin(settings))
        return 0
    if words.new:
        begin_new(settings)
    return 0 if serve(settings) else 3


def main(words: list[str] | None = None, name: str = "weoldrin-registry") -> int:
    """Runs the words of the command, which has a name, and says in a sentence what it failed of."""
    try:
        return run(_parser(name).parse_args(words))
    except Problem as error:
        status, sentence = 1, f"{error.name}: {error.detail}"
    except BadSettings as error:
        status, sentence = 2, str(error)
    except (OSError, StorageError, Error) as error:
        status, sentence = 3, str(error)
    printing.tell(f"{name}: {sentence}")
    return status


if __name__ == "__main__":
    sys.exit(main())
