"""Why the audit of a file is no yes: what is wrong with the file, or with what was kept of it, each by a name of its
own.

A fault is of its file alone. `audit`, `audit_many` and `audit_new` raise none of them: they stand in the verdicts.
"""

from .printing import printable


class Fault(Exception):
    """Why the audit of a file is no yes. Its class is its name; `str` is a sentence, as it is printed. Two faults that
    say the same are equal."""

    def __eq__(self, other: object) -> bool:
        return type(self) is type(other) and isinstance(other, Fault) and self.args == other.args

    def __hash__(self) -> int:
        return hash((type(self), self.args))


class Missing(Fault):
    """There is no such file."""

    def __str__(self) -> str:
        return "there is no such file"


class Unreadable(Fault):
    """The file could not be read: it is a folder, it is closed to the reader, a read failed, or it is more than there
    is memory for."""

    def __init__(self, why: str) -> None:
        super().__init__(why)
        self.why = why

    def __str__(self) -> str:
        return printable(f"it can't be read: {self.why}")


class BadLine(Fault, ValueError):
    """A line is no even number of hex digits. `line` is its place among the lines that stand for records, from 0, as
    `warg_audit` counts them, and `number` that among all lines of the file, from 1. `cause` is what is likely the
    matter, if that is known."""

    def __init__(self, line: int, number: int, cause: str = "") -> None:
        super().__init__(line, number, cause)
        self.line, self.number, self.cause = line, number, cause

    def __str__(self) -> str:
        return f"bad line {self.line}: {self.cause}" if self.cause else f"bad line {self.line}"


class Empty(Fault):
    """There is no record. A download that failed leaves such a file."""

    def __str__(self) -> str:
        return "empty"


class Unfinished(Fault):
    """The last line has no line feed yet: it is being written, or was cut off. The records before it were taken.
    `number` is that of the line, from 1."""

    def __init__(self, number: int) -> None:
        super().__init__(number)
        self.number = number

    def __str__(self) -> str:
        return f"unfinished line {self.number}"


class RolledBack(Fault):
    """The file is shorter than it was: each whole line of it was read before, and `left` of the `records` that were
    read are left. Who was shown the others is shown another past now."""

    def __init__(self, records: int, left: int) -> None:
        super().__init__(records, left)
        self.records, self.left = records, left

    def __str__(self) -> str:
        return f"rolled back {self.records} {self.left}"


class Rewritten(Fault):
    """The file does not begin with the bytes that were read before, of `records` records."""

    def __init__(self, records: int) -> None:
        super().__init__(records)
        self.records = records

    def __str__(self) -> str:
        return f"rewritten {self.records}"


class SpoiledState(Fault):
    """The file of the state holds none of a log of this kind. Where it is no loss that all before is forgotten, remove
    it: the log is then audited from its first record."""

    def __init__(self, why: str) -> None:
        super().__init__(why)
        self.why = why

    def __str__(self) -> str:
        return printable(f"spoiled state: {self.why}")


class Unsaved(Fault):
    """The state could not be kept. Records that are counted as new were found lawful, and are new again the next time;
    where the folder takes no file beside that of the state, nothing was audited."""

    def __init__(self, why: str) -> None:
        super().__init__(why)
        self.why = why

    def __str__(self) -> str:
        return printable(f"unsaved: {self.why}")
