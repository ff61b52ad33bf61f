"""What a call is refused for. Whatever is raised, the log is as it was."""

from .printing import printable


class Error(Exception):
    """What a call is refused for. `name` and `sentence` are the library's own; `str` is both, as they are printed.

    A sentence quotes what strangers wrote, such as a key id, to the letter: `printable(error.sentence)` is fit for a
    terminal and a line of a log, as `str(error)` is.
    """

    def __init__(self, text: str = "") -> None:
        super().__init__(text)
        self.name, _, self.sentence = text.partition(": ")

    def __str__(self) -> str:
        return printable(str(self.args[0])) if self.args else ""


class NotOpen(Error):
    """The log was closed, or the trees of the registry."""

    def __init__(self, text: str = "") -> None:
        super().__init__(text or "NotOpen: the log was closed")


class OutOfMemory(Error, MemoryError):
    """There was no memory. The same call may be made again."""


class NoEnvelope(Error):
    """The bytes are no envelope of a record of the log's kind."""


class Refused(Error):
    """The record is unlawful, or its signature does not belong."""


class UnknownAlgorithm(Error):
    """The key is of another algorithm than the library verifies. The sentence says what to do."""

    def __init__(self, text: str = "") -> None:
        super().__init__(
            text
            or "UnknownAlgorithm: the library verifies keys of ecdsa-p256 alone; verify the signature by other means, "
            "and append a record by ask(envelope) and append_answered, or by append(envelope, verify)"
        )


class BadArgument(Error, ValueError):
    """An argument is not of its form, or the log is none that has this call. The name and the sentence say which."""

    def __init__(self, text: str = "") -> None:
        super().__init__(text or "BadArgument: an argument is not of its form, or the log has no such call")


class NoLibrary(Error):
    """The library, which decides, is not there for this machine, or can't be loaded. Records are written without it,
    and nothing is judged. The sentence says where it is had."""


class Busy(Error):
    """A handler of a signal used a log whose call it interrupted. The interrupted call goes on when the handler
    ends."""

    def __init__(self, text: str = "") -> None:
        super().__init__(
            text or "Busy: a call of this log was interrupted by a signal, and its handler can't use the log meanwhile"
        )


class Forked(Error):
    """The log is of another process, of which this one is a copy that `fork` made.

    It may have been in the middle of a call of another thread, which this process does not have. Make the log anew from
    its envelopes, or go on from the text of `to_json` that was made before.
    """

    def __init__(self, text: str = "") -> None:
        super().__init__(
            text or "Forked: the log was made by another process, before fork; make it anew, or go on by from_json"
        )
