"""Begins a registry: its key, and the operator log by it."""

from __future__ import annotations

import contextlib
import pathlib
import time

from weoldrin import LogKind, records

from .lines import tell
from .problems import Problem
from .publishing import log_name
from .registry import Registry
from .settings import BadSettings, Settings
from .signing import KeyExists, new_key, signer_in
from .storage.opening import opened


def begin(settings: Settings) -> str:
    """Appends the first record of the operator log, and gives its id. Raises a `Problem` where there is one."""
    if not settings.key:
        raise BadSettings("begin needs a key")
    signer = signer_in(pathlib.Path(settings.key))
    contents = records.contents(None, time.time_ns(), [records.init(signer.public_key)])
    envelope = records.signed(LogKind.OPERATOR, contents, signer.public_key, signer.sign)
    registry = Registry(settings)
    try:
        return registry.publish(log_name(LogKind.OPERATOR), envelope)[0].record_id
    finally:
        registry.stop()


def begin_new(settings: Settings) -> None:
    """Makes the key, and begins the operator log by it, where they are not there yet, and says so.

    No log is begun among records that are there, nor where the settings name another key for that. No key is made then
    that could not sign. Several processes may do so at once: one makes the key, and one begins the log. Raises
    `BadSettings` and a `StorageError`.
    """
    if not settings.key:
        raise BadSettings("--new needs --key, the file of the key")
    path = pathlib.Path(settings.key)
    # In this order: what another process begins meanwhile has its key before it has a record.
    count, has_operators = _standing(settings)
    if not path.exists():
        if count and not settings.operator_key_id:
            raise BadSettings(f"{path} is not there, and a new key can't sign for the {count} records that are there")
        _make_key(path)
    if settings.operator_key_id:
        if not has_operators:
            tell(f"no log is begun: the settings name the key that may begin it, {settings.operator_key_id}")
    elif not count:
        _begin_log(settings)
    elif not has_operators:
        tell("no log is begun among the records that are there: `weoldrin-registry begin` begins the operator log")


def _standing(settings: Settings) -> tuple[int, bool]:
    """How many records there are, and whether those of the operator log are among them."""
    with contextlib.closing(opened(settings)) as storage:
        return storage.length(), storage.log(log_name(LogKind.OPERATOR).log_id) is not None


def _make_key(path: pathlib.Path) -> None:
    try:
        tell(f"made the key {new_key(path).key_id} in {path}: keep a copy of it")
    except KeyExists:
        # Another process made it meanwhile, or it leads nowhere, which is told where it is read.
        pass


def _begin_log(settings: Settings) -> None:
    try:
        tell(f"began the operator log by the key in {settings.key}: {begin(settings)}")
    except Problem as problem:
        if problem.name != "NotNext":
            raise
        tell("another process began the operator log meanwhile")
