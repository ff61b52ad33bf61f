"""The command `weoldrin`: the program that the wheel carries, in the place of this process, for the words that ask a
registry this package, and for `serve` the package of the registry."""

import os
import signal
import sys

from . import _native
from .printing import tell

# What Python has ignored since it began, and the program is to find as the shell left it.
_IGNORED = ("SIGPIPE", "SIGXFSZ")
# What asks a registry, for which the program has no network.
_OF_REGISTRIES = ("fetch", "publish", "lock", "check", "monitor", "gossip")


def main() -> int:
    """Runs the program with the words of the command line. It returns where that can't be done, with the status 3, and
    where the words ask a registry, or serve one."""
    if len(sys.argv) > 1 and sys.argv[1] in _OF_REGISTRIES:
        from .registry import command

        return command.main(sys.argv[1:])
    if sys.argv[1:2] == ["serve"]:
        return _serve(sys.argv[1:])
    program = _native.found("weoldrin")
    if program is None:
        tell(
            f"weoldrin: this package has no program for {_native.machine()}: the wheel for Linux on x86-64 with glibc "
            "2.34 or later has it. `python3 -m weoldrin` audits logs by the library"
        )
        return 3
    for name in _IGNORED:
        signal.signal(getattr(signal, name), signal.SIG_DFL)
    try:
        os.execv(program, ["weoldrin", *sys.argv[1:]])
    except OSError as error:
        tell(f"weoldrin: {program} can't be run: {error.strerror}")
        return 3


def _serve(words: list[str]) -> int:
    """Runs the command of the package that serves a registry."""
    try:
        from weoldrin_registry import command
    except ImportError as error:
        tell(
            "weoldrin: serve needs the package weoldrin-registry, and what that needs: pip install ./registry, from a "
            f"clone of the repository ({error})"
        )
        return 3
    return command.main(words, "weoldrin")


if __name__ == "__main__":
    sys.exit(main())
