"""Prints what strangers wrote: nothing of it reaches a terminal, or a reader of lines, as more than a sign."""

import errno
import io
import os
import re
import sys
from collections.abc import Iterable
from typing import TextIO

# The last two numbers of each plane are given to no character for good.
_LAST = "".join(chr(plane + it) for plane in range(0, 0x110000, 0x10000) for it in (0xFFFE, 0xFFFF))
# Control characters, separators of lines, marks of direction and of the byte order, and what is no character.
_HIDDEN = "\x00-\x1f\x7f-\x9f\u061c\u200e\u200f\u2028-\u202e\u2066-\u2069\ufeff\ud800-\udfff\ufdd0-\ufdef" + _LAST
_ESCAPED = re.compile(rf"[\\{_HIDDEN}]")


def printable(text: str) -> str:
    """A text as it is printed: `\\u{1b}` in place of a control character, a separator of lines, a mark of direction or
    a number that is no character, and two backslashes for one. Two texts that are printed alike are one."""
    return _ESCAPED.sub(lambda it: "\\\\" if it[0] == "\\" else f"\\u{{{ord(it[0]):x}}}", text)


def print_lines(lines: Iterable[str], *, has_to_be_read: bool = False) -> None:
    """Prints lines to standard output. Where its reader has closed it, the rest is left out in silence, unless it has
    to be read.

    A letter that its encoding does not have is written by its number. Raises `OSError` where a line can't be written
    for another reason, also where the caller closed standard output.
    """
    if sys.stdout is None:
        raise OSError(errno.EBADF, os.strerror(errno.EBADF))
    if isinstance(sys.stdout, io.TextIOWrapper):
        sys.stdout.reconfigure(errors="backslashreplace")
    try:
        for line in lines:
            print(line)
        sys.stdout.flush()
    except BrokenPipeError:
        _drop(sys.stdout)
        if has_to_be_read:
            raise
    except OSError:
        _drop(sys.stdout)
        raise


def tell(sentence: str) -> None:
    """Prints a sentence to standard error, if the caller has left one open that takes it, and never elsewhere."""
    if sys.stderr is None:
        return
    try:
        print(printable(sentence), file=sys.stderr, flush=True)
    except OSError:
        _drop(sys.stderr)


def _drop(stream: TextIO) -> None:
    """Has what a stream still holds go nowhere, so that the interpreter does not fail of it at its end."""
    nowhere = os.open(os.devnull, os.O_WRONLY)
    os.dup2(nowhere, stream.fileno())
    os.close(nowhere)
