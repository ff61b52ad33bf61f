"""ECDSA P-256 by the package `cryptography`, which nothing else imports."""

from __future__ import annotations

import os

from cryptography.exceptions import InvalidSignature, UnsupportedAlgorithm
from cryptography.hazmat.primitives import hashes, serialization
from cryptography.hazmat.primitives.asymmetric import ec

from . import p256
from ._files import make_private

_SCHEME = ec.ECDSA(hashes.SHA256())


def belongs(point: bytes, message: bytes, signature: bytes) -> bool:
    """Whether the signature belongs to the message under the key of a point."""
    try:
        key = ec.EllipticCurvePublicKey.from_encoded_point(ec.SECP256R1(), point)
        key.verify(signature, message, _SCHEME)
    except (ValueError, InvalidSignature):
        return False
    return True


class SigningKey:
    """A private key."""

    def __init__(self, key: ec.EllipticCurvePrivateKeyWithSerialization) -> None:
        if not isinstance(key.curve, ec.SECP256R1):
            raise ValueError("the key is none of P-256")
        self._key = key
        point = key.public_key().public_bytes(serialization.Encoding.X962, serialization.PublicFormat.CompressedPoint)
        self.public_key = p256.text_of(point)
        """The text of the public key."""

    @classmethod
    def generate(cls) -> SigningKey:
        """A new key."""
        key = ec.generate_private_key(ec.SECP256R1())
        assert isinstance(key, ec.EllipticCurvePrivateKeyWithSerialization)
        return cls(key)

    @classmethod
    def from_pem(cls, pem: bytes, password: bytes | None = None) -> SigningKey:
        """A key that was saved as PEM, as `openssl ecparam -genkey -name prime256v1` writes it. Raises `ValueError` of
        what is none of P-256, and `TypeError` where a password is missing, or not wanted."""
        try:
            key = serialization.load_pem_private_key(pem, password)
        except UnsupportedAlgorithm as error:
            raise ValueError("the key is none of P-256") from error
        if not isinstance(key, ec.EllipticCurvePrivateKeyWithSerialization):
            raise ValueError("the key is none of P-256")
        return cls(key)

    def to_pem(self) -> bytes:
        """The key as PEM (PKCS 8), without a password."""
        return self._key.private_bytes(
            serialization.Encoding.PEM, serialization.PrivateFormat.PKCS8, serialization.NoEncryption()
        )

    def save_new(self, path: str | os.PathLike[str]) -> None:
        """Saves the key as PEM in a new file, for its owner alone, all or nothing. Raises `FileExistsError` where there
        is a file, which is left as it is, and `OSError`."""
        make_private(os.fspath(path), self.to_pem())

    def sign(self, message: bytes) -> str:
        """The text of a signature of the message."""
        return p256.text_of(self._key.sign(message, _SCHEME))
