"""Adds to a log's file as the tool's `append` does, by the steps of docs/FORMATS.md, "Adding to a log": under its lock,
all or nothing."""

import contextlib
import errno
import fcntl
import os
import secrets
import stat
from collections.abc import Iterator, Sequence

from .._files import flush_folder, lines_of, open_regular
from ..auditing import envelopes_of
from ..faults import BadLine
from .told import NoAnswer, Unusable, Unwritten


class LogFile:
    """A log's file whose lock is held."""

    def __init__(self, path: str) -> None:
        self.path = path
        self._text = b""
        self._mode: os.stat_result | None = None
        self._read()

    def _read(self) -> None:
        try:
            with open(self.path, "rb", opener=open_regular) as file:
                self._text, mode = file.read(), os.fstat(file.fileno())
        except FileNotFoundError:
            return
        if mode.st_nlink > 1:
            raise Unusable(f"{self.path}: it has several hard links")
        if not mode.st_mode & 0o222 or not os.access(self.path, os.W_OK):
            raise Unusable(f"{self.path}: it may not be written")
        self._mode = mode

    def envelopes(self) -> list[bytes]:
        """The envelopes that the file has."""
        try:
            return list(envelopes_of(lines_of(self._text)))
        except BadLine as error:
            raise Unusable(f"{self.path}: {error}") from None

    def add(self, envelopes: Sequence[bytes]) -> None:
        """Puts the file with these envelopes behind its own in its place."""
        if not envelopes:
            return
        old = self._text.rstrip(b"\r\n")
        text = (old + b"\n" if old else b"") + b"".join(it.hex().encode() + b"\n" for it in envelopes)
        if list(envelopes_of(lines_of(text))) != [*self.envelopes(), *envelopes]:
            raise Unusable(f"{self.path}: a blank line stands before its end")
        folder, name = os.path.split(self.path)
        beside = os.path.join(folder, f".{name}.{secrets.token_hex(8)}.new")
        file = os.open(beside, os.O_WRONLY | os.O_CREAT | os.O_EXCL | os.O_CLOEXEC, 0o666)
        try:
            with open(file, "wb") as stream:
                self._keep_mode(file)
                stream.write(text)
                stream.flush()
                os.fsync(file)
            os.replace(beside, self.path)
        except BaseException:
            with contextlib.suppress(FileNotFoundError):
                os.unlink(beside)
            raise
        flush_folder(folder)

    def _keep_mode(self, file: int) -> None:
        """Gives a new file the owner, the group and the permissions of the old one."""
        if self._mode is not None:
            if os.fstat(file).st_uid != self._mode.st_uid or os.fstat(file).st_gid != self._mode.st_gid:
                os.fchown(file, self._mode.st_uid, self._mode.st_gid)
            os.fchmod(file, stat.S_IMODE(self._mode.st_mode))


@contextlib.contextmanager
def locked(path: str) -> Iterator[None]:
    """Holds the lock of a log's file. Raises `NoAnswer` where another program has it."""
    folder, name = os.path.split(path)
    lock = os.path.join(folder, f".{name}.lock")
    while True:
        file = os.open(lock, os.O_RDWR | os.O_CREAT | os.O_NOFOLLOW | os.O_CLOEXEC, 0o666)
        try:
            fcntl.flock(file, fcntl.LOCK_EX | fcntl.LOCK_NB)
            if os.path.samestat(os.fstat(file), os.stat(lock, follow_symlinks=False)):
                break
        except OSError as error:
            os.close(file)
            if error.errno in (errno.EAGAIN, errno.EACCES):
                raise NoAnswer(f"{path}: busy: another program adds to it") from None
            raise
        os.close(file)
    try:
        yield
    finally:
        os.close(file)


def hold_log(path: str, held: contextlib.ExitStack) -> LogFile:
    """The file of a log, whose lock is held until the end. Raises `Unusable` and `Unwritten`."""
    real = os.path.realpath(path)
    try:
        held.enter_context(locked(real))
        return LogFile(real)
    except FileNotFoundError:
        raise Unusable(f"{path}: its folder is missing") from None
    except OSError as error:
        raise Unwritten(f"{path}: {error.strerror or error}") from None


def add(file: LogFile, envelopes: Sequence[bytes]) -> None:
    """Adds envelopes to a file. Raises `Unwritten`, and leaves it as it was."""
    try:
        file.add(envelopes)
    except OSError as error:
        raise Unwritten(f"{file.path}: it could not be written, and is as it was: {error.strerror}") from None
