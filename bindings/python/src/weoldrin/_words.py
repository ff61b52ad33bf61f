"""The words of the commands."""

import argparse
from collections.abc import Sequence
from typing import Any, NoReturn

from .printing import printable


class Words(argparse.ArgumentParser):
    """Options have their whole names. Of words that can't be used a sentence is printed, whatever stands in them."""

    def __init__(self, **kept: Any) -> None:
        super().__init__(allow_abbrev=False, **kept)

    def error(self, message: str) -> NoReturn:
        super().error(printable(message))


class Once(argparse.Action):
    """The value of an option that is given once."""

    def __call__(
        self,
        parser: argparse.ArgumentParser,
        found: argparse.Namespace,
        value: str | Sequence[Any] | None,
        option: str | None = None,
    ) -> None:
        """Keeps the value, unless there is one."""
        if getattr(found, self.dest) is not None:
            parser.error(f"{option} is given twice")
        setattr(found, self.dest, value)
