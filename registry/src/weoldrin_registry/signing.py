"""The key that signs checkpoints."""

from __future__ import annotations

import pathlib

from weoldrin import p256, records

from .settings import BadSettings


class KeyExists(BadSettings):
    """There is a file where a key was to be made."""


class Signer:
    """A key of ECDSA P-256."""

    def __init__(self, key: p256.SigningKey) -> None:
        self.public_key, self.key_id = key.public_key, records.key_id(key.public_key)
        self.sign = key.sign


def signer_in(path: pathlib.Path) -> Signer:
    """The key in a file. Raises `BadSettings`."""
    try:
        return Signer(p256.SigningKey.from_pem(path.read_bytes()))
    except FileNotFoundError:
        raise BadSettings(f"there is no key {path}: `serve --new` makes one for a new registry") from None
    except (OSError, ValueError, TypeError) as error:
        raise BadSettings(f"{path} has no key: {error}") from None


def new_key(path: pathlib.Path) -> Signer:
    """Makes a key in a new file, for its owner alone. Raises `KeyExists` where there is a file, which is left as it is,
    and `BadSettings`."""
    key = p256.SigningKey.generate()
    try:
        key.save_new(path)
    except FileExistsError as error:
        raise KeyExists(f"{path} can't be made: {error.strerror}") from None
    except OSError as error:
        raise BadSettings(f"{path} can't be made: {error.strerror}") from None
    return Signer(key)
