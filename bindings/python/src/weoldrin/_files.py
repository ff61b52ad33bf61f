"""The files of logs, and of what is kept beside them."""

import contextlib
import errno
import fcntl
import os
import secrets
import stat
from collections.abc import Iterable, Iterator
from typing import NamedTuple


class RecordLine(NamedTuple):
    """A line of a log's file that stands for a record."""

    number: int
    """Which line of the file it is, from 1."""
    digits: bytes
    """What stands in it, without its end."""
    end: int
    """How many bytes of the file there are up to its end."""


def record_lines(lines: Iterable[bytes]) -> Iterator[RecordLine]:
    """The lines that stand for records, as the tool reads them: each ends with a line feed, which the last may lack,
    and a carriage return before that is dropped. Lines that begin with `#` are passed over, and so is the last of the
    others if it is blank."""
    at, held = 0, None
    for number, line in enumerate(lines, 1):
        at += len(line)
        if not line.startswith(b"#"):
            if held is not None:
                yield held
            held = RecordLine(number, line.removesuffix(b"\n").removesuffix(b"\r"), at)
    if held is not None and held.digits:
        yield held


def lines_of(text: bytes) -> list[bytes]:
    """The lines of a text, each with its line feed. Nothing but a line feed ends a line."""
    *whole, last = text.split(b"\n")
    lines = [it + b"\n" for it in whole]
    return [*lines, last] if last else lines


def open_regular(path: str, flags: int) -> int:
    """Opens a regular file, as an opener of `open`, and waits for no writer of another kind of file."""
    file = os.open(path, flags | os.O_NONBLOCK | os.O_CLOEXEC)
    if not stat.S_ISREG(os.fstat(file).st_mode):
        os.close(file)
        raise OSError(errno.EINVAL, "it is no regular file")
    return file


def _is_at(path: str, file: int) -> bool:
    """Whether an open file is the one of a path."""
    with contextlib.suppress(FileNotFoundError):
        return os.path.samestat(os.fstat(file), os.stat(path, follow_symlinks=False))
    return False


def _check_own(path: str, file: int) -> None:
    """Raises `OSError` where the open file of a path is none that was made here: it may be another's by a hard link."""
    found, name = os.fstat(file), os.path.basename(path)
    if not stat.S_ISREG(found.st_mode):
        raise OSError(errno.EINVAL, f"{name} is no regular file")
    if found.st_nlink > 1:
        raise OSError(errno.EMLINK, f"{name} has several hard links")


@contextlib.contextmanager
def held_beside(path: str) -> Iterator[int]:
    """The file PATH.new, held by this process alone until the end. Whoever comes meanwhile waits.

    It is where the file of the path is written anew. The name is one, so what a killed process left there is taken
    over, and nothing stays.
    """
    beside = f"{path}.new"
    while True:
        file = os.open(beside, os.O_RDWR | os.O_CREAT | os.O_NOFOLLOW | os.O_NONBLOCK | os.O_CLOEXEC, 0o666)
        try:
            fcntl.flock(file, fcntl.LOCK_EX)
            # It may have been renamed or removed by whoever held it.
            if _is_at(beside, file):
                _check_own(beside, file)
                break
        except BaseException:
            os.close(file)
            raise
        os.close(file)
    try:
        yield file
    finally:
        if _is_at(beside, file):
            os.unlink(beside)
        # A process that was forked meanwhile has the file too, and would hold it on.
        fcntl.flock(file, fcntl.LOCK_UN)
        os.close(file)


def replace(path: str, file: int, data: bytes) -> None:
    """Puts bytes in the place of what the file of a path holds, in one step and for good, by the file that is held
    beside it."""
    os.ftruncate(file, 0)
    rest = memoryview(data)
    while rest:
        rest = rest[os.write(file, rest) :]
    os.fsync(file)
    os.replace(f"{path}.new", path)
    flush_folder(os.path.dirname(path))


def make_private(path: str, data: bytes) -> None:
    """Makes a file of these bytes for its owner alone, all or nothing and for good. Raises `FileExistsError` where
    there is a file, which is left as it is, and `OSError`.

    It is written under another name, so that nobody sees half of it, and whoever is killed leaves none of this name.
    """
    folder, name = os.path.split(path)
    beside = os.path.join(folder, f".{name}.{secrets.token_hex(8)}.new")
    file = os.open(beside, os.O_WRONLY | os.O_CREAT | os.O_EXCL | os.O_NOFOLLOW | os.O_CLOEXEC, 0o600)
    try:
        with open(file, "wb") as stream:
            stream.write(data)
            stream.flush()
            os.fsync(file)
        # A rename would replace what is there.
        os.link(beside, path)
    finally:
        os.unlink(beside)
    flush_folder(folder)


def flush_folder(folder: str) -> None:
    """Has the names of a folder on the disk."""
    opened = os.open(folder or ".", os.O_RDONLY | os.O_DIRECTORY | os.O_CLOEXEC)
    try:
        os.fsync(opened)
    finally:
        os.close(opened)
