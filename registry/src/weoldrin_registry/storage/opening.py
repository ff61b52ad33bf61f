"""Opens the storage that the settings name."""

from __future__ import annotations

import pathlib

from ..settings import Settings
from . import Storage
from .sqlite import SqliteStorage


def opened(settings: Settings) -> Storage:
    """The storage. Raises a `StorageError` where it can't be opened."""
    if settings.database.startswith(("postgresql://", "postgres://")):
        # The package psycopg is needed for this alone.
        from .postgres import PostgresStorage

        return PostgresStorage(settings.database, settings.lock_seconds)
    return SqliteStorage(pathlib.Path(settings.database), settings.lock_seconds)
