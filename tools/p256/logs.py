"""Logs with signatures of ECDSA P-256: keys with numbers of one's own choice, and records' lines in their parts."""
from __future__ import annotations

import base64
import hashlib
import importlib.machinery
import importlib.util
import pathlib
from types import ModuleType

from common import ROOT
from p256.curve import BASE, ORDER, multiple
from p256.forms import compressed, signature_of, uncompressed

EXAMPLES = ROOT / "examples/p256"
SCHEME = "ecdsa-p256"


def module_of(path: pathlib.Path) -> ModuleType:
    """The module of a file without an ending."""
    loader = importlib.machinery.SourceFileLoader(path.name, str(path))
    spec = importlib.util.spec_from_loader(path.name, loader)
    assert spec
    module = importlib.util.module_from_spec(spec)
    loader.exec_module(module)
    return module


sign = module_of(ROOT / "bin/weoldrin-sign")


def text_of(data: bytes, scheme: str = SCHEME) -> str:
    """The text of a key or a signature."""
    return f"{scheme}:{base64.b64encode(data).decode()}"


def id_of(key: str) -> str:
    """The id of a key by its text."""
    return "sha256:" + hashlib.sha256(key.encode()).hexdigest()


class Key:
    """The key of a private number, by a form of its point (33 bytes, 65, or 65 of the hybrid form) and a name."""

    def __init__(self, secret: int, form: str = "compressed", scheme: str = SCHEME) -> None:
        point = multiple(secret, BASE)
        assert point
        whole = uncompressed(point)
        forms = {
            "compressed": compressed(point),
            "uncompressed": whole,
            "hybrid": bytes([6 + point.y % 2]) + whole[1:],
        }
        self.secret, self.bytes = secret, forms[form]
        self.text = text_of(self.bytes, scheme)
        self.id = id_of(self.text)

    def sign(self, message: bytes) -> bytes:
        """A signature, whose nonce is no secret."""
        point = multiple(self.secret + 1, BASE)
        assert point
        r, hashed = point.x % ORDER, int.from_bytes(hashlib.sha256(message).digest(), "big")
        return signature_of(r, (hashed + r * self.secret) * pow(self.secret + 1, -1, ORDER) % ORDER)


class Line:
    """A record's line in its parts: the content bytes, the id of the key, and the signature's bytes, of which there are
    none in a record that is to be signed."""

    def __init__(self, line: str) -> None:
        envelope = bytes.fromhex(line.split()[0])
        self.content: bytes
        self.content, behind = sign.cut_field(1, envelope)
        key_id, behind = sign.cut_field(2, behind)
        signature = sign.cut_field(3, behind)[0] if behind else b""
        self.key_id, self.signature = key_id.decode(), base64.b64decode(signature.partition(b":")[2])

    def message(self, kind: str = "package") -> bytes:
        """What is signed."""
        return f"WARG-{kind.upper()}-RECORD-SIGNATURE-V0:".encode() + self.content

    def by(self, key_id: str, signature: bytes, scheme: str = SCHEME) -> str:
        """The line of the same content under the id of a key and a signature."""
        parts = [self.content, key_id.encode(), text_of(signature, scheme).encode()]
        return b"".join(sign.field(number, part) for number, part in enumerate(parts, 1)).hex()

    def with_signature(self, signature: bytes) -> str:
        """The line with another signature."""
        return self.by(self.key_id, signature)
