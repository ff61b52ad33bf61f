"""What a registry is told of, each by a name of its own, and why a command ends otherwise."""

from ..checkpoints import SignedCheckpoint
from ..printing import printable

# By its name what is told, and the word under which a monitor tells it.
WORDS = {
    "forked registry": "fork",
    "forked log": "fork",
    "replaced record": "fork",
    "false map": "fork",
    "rolled back registry": "rollback",
    "rolled back map": "rollback",
    "rolled back log": "rollback",
    "stale checkpoint": "stale",
    "checkpoint ahead": "stale",
    "unlawful record": "unlawful",
    "wrong name": "wrong name",
    "missing record": "missing",
    "left out leaf": "missing",
    "unsigned checkpoint": "unsigned",
    "key without commit": "unsigned",
    "other operator": "unsigned",
    "old proof": "unproved",
    "false proof": "unproved",
    "bad answer": "bad answer",
}


class Told(Exception):
    """What a registry is told of: a name of `WORDS`, a sentence, and the signed checkpoints that are the evidence.

    A sentence may quote what strangers wrote, to the letter; `str` is fit to be printed. `subject` tells one case from
    the next, where the name alone does not.
    """

    def __init__(self, name: str, sentence: str, *evidence: SignedCheckpoint, subject: str = "") -> None:
        super().__init__(name, sentence)
        self.name, self.sentence, self.evidence, self.subject = name, sentence, evidence, subject

    @property
    def word(self) -> str:
        """The word under which a monitor tells it."""
        return WORDS[self.name]

    def __str__(self) -> str:
        return printable(f"{self.name}: {self.sentence}")


class BadAnswer(Told):
    """An answer that is none: too long, a redirection, or of another form than docs/HTTP.md says."""

    def __init__(self, sentence: str) -> None:
        super().__init__("bad answer", sentence)
        # By which it is made anew where it comes from another process.
        self.args = (sentence,)


class NoPackage(Exception):
    """A registry has no records of a package, which is proved."""

    def __init__(self, name: str) -> None:
        super().__init__(f"none: the registry has no log of {name}")

    def __str__(self) -> str:
        return printable(str(self.args[0]))


class _Ended(Exception):
    def __str__(self) -> str:
        return printable(str(self.args[0]))


class NoAnswer(_Ended):
    """A registry did not answer: there is no connection, it was too slow, or it said that it can't now."""


class Unusable(_Ended):
    """Words or files that can't be used."""


class Unwritten(_Ended):
    """A file could not be read or written."""
