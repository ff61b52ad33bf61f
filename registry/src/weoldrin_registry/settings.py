"""What a registry is set to: where it keeps its logs, its key, and its limits."""

from __future__ import annotations

import dataclasses
import pathlib
import sys
from dataclasses import dataclass
from typing import Any

if sys.version_info >= (3, 11):
    import tomllib
else:
    import tomli as tomllib


class BadSettings(Exception):
    """The settings can't be used. The text says why."""


@dataclass(frozen=True)
class Settings:
    """What a registry is set to. Each of these may stand in the file of settings, by its name."""

    database: str = "registry.sqlite"
    """The file of SQLite, or the address of a database of PostgreSQL, as `postgresql://..`."""
    key: str = ""
    """The file (PEM) of the key that signs checkpoints. Without one there are none."""
    operator_key_id: str = ""
    """The id of the key that may begin the operator log. Without one it is that of `key`."""
    static: str = ""
    """A clone of the repository, whose page is served. Without one it is the page that came with the package."""
    host: str = "127.0.0.1"
    port: int = 8080

    body_bytes: int = 256 * 1024
    """A body's bytes."""
    body_seconds: float = 30.0
    """How long a body may take to come."""
    head_seconds: float = 10.0
    """How long the line and the headers of a request may take to come."""
    idle_seconds: float = 15.0
    """How long a connection may stand between two requests."""
    answer_seconds: float = 60.0
    """How long an answer may take to be read."""
    connections: int = 256
    """How many connections are served at once. As many more are told that there are too many."""
    threads: int = 8
    """How many requests that write, and how many that read, are worked on at once."""
    lock_seconds: float = 5.0
    """How long the lock of the storage is waited for."""

    answer_bytes: int = 1024 * 1024
    """The bytes of the envelopes of an answer, but for its first one."""
    answer_records: int = 1000
    """The envelopes of an answer, and the packages of one."""
    answer_leaves: int = 10_000
    """The leaves of an answer."""
    fetch_logs: int = 1000
    """The logs that one request may ask for."""
    logs_per_key: int = 1000
    """The logs that one key may begin."""
    ahead_seconds: int = 300
    """How far a record's time may be ahead of the clock."""

    handle_bytes: int = 256 * 1024 * 1024
    """The bytes of the logs that are kept in memory."""
    state_records: int = 64
    """After how many records a log's state is saved anew, at least."""
    checkpoint_seconds: float = 1.0
    """The time between two checkpoints, at least."""
    renew_seconds: float = 60.0
    """After which time the newest checkpoint is signed anew, where no record has come."""
    kept_checkpoints: int = 2
    """Under how many checkpoints there are proofs, 16 at most: the newest one, and those of lengths before it. Each
    has trees of its own in memory."""


# What some of them are at most.
_MOST = {"kept_checkpoints": 16}


def _checked(name: str, value: Any) -> Any:
    """A value of a file, of the type that its setting has."""
    default = {it.name: it.default for it in dataclasses.fields(Settings)}.get(name)
    if default is None:
        raise BadSettings(f"there is no setting {name}")
    if isinstance(default, float) and type(value) is int:
        value = float(value)
    if type(value) is not type(default):
        raise BadSettings(f"{name} is no {type(default).__name__}")
    if not isinstance(value, str) and not value > 0 and name != "port":
        raise BadSettings(f"{name} is not above 0")
    if name in _MOST and value > _MOST[name]:
        raise BadSettings(f"{name} is above {_MOST[name]}")
    return value


def from_file(path: pathlib.Path | None, **given: str | int | None) -> Settings:
    """The settings of a file of TOML, and over them what is given by words. Raises `BadSettings`."""
    found: dict[str, Any] = {}
    if path is not None:
        try:
            found = tomllib.loads(path.read_text(encoding="utf-8"))
        except (OSError, ValueError) as error:
            raise BadSettings(f"{path}: {error}") from None
    found |= {name: value for name, value in given.items() if value is not None}
    return Settings(**{name: _checked(name, value) for name, value in found.items()})
