"""Lines on standard error: what strangers wrote is escaped, so that each line is one."""

from __future__ import annotations

import datetime
import logging
import traceback

from weoldrin import printing

# So many calls of an error are printed, the last ones.
_CALLS = -8


def tell(sentence: str) -> None:
    """Prints a line with the time."""
    now = datetime.datetime.now(datetime.timezone.utc)
    printing.tell(f"{now:%Y-%m-%dT%H:%M:%S.%f}Z {sentence}")


def tell_error(error: BaseException) -> None:
    """Prints an error that nobody foresaw, with the calls that it came from, on one line."""
    tell("".join(traceback.format_exception(type(error), error, error.__traceback__, _CALLS)).strip())


class Lines(logging.Handler):
    """Has what the server's own parts log be such lines."""

    def emit(self, record: logging.LogRecord) -> None:
        """Prints a line."""
        tell(f"{record.name}: {self.format(record)}")
