"""The parts of logs, written from docs/FORMATS.md alone, so that they share no code with what reads logs."""
import base64
import hashlib
from collections.abc import Iterable


def sha256(data: bytes) -> bytes:
    return hashlib.sha256(data).digest()


def varint(number: int) -> bytes:
    low = b""
    while number >= 128:
        low += bytes([number % 128 + 128])
        number //= 128
    return low + bytes([number])


def number_field(number: int, value: int) -> bytes:
    return varint(number * 8) + varint(value) if value else b""


def bytes_field(number: int, value: bytes) -> bytes:
    return varint(number * 8 + 2) + varint(len(value)) + value


def text_field(number: int, value: str) -> bytes:
    return bytes_field(number, value.encode())


def hash_text(data: bytes) -> str:
    return "sha256:" + sha256(data).hex()


def key_text(name: str) -> str:
    return "toy:" + base64.b64encode(name.encode()).decode()


def init(name: str) -> bytes:
    return bytes_field(1, text_field(1, key_text(name)) + text_field(2, "sha256"))


def grant(name: str, permissions: bytes) -> bytes:
    return bytes_field(2, text_field(1, key_text(name)) + bytes_field(2, permissions))


def release(version: str) -> bytes:
    return bytes_field(4, text_field(1, version) + text_field(2, hash_text(version.encode())))


def yank(version: str) -> bytes:
    return bytes_field(5, text_field(1, version))


def define(namespace: str) -> bytes:
    return bytes_field(4, text_field(1, namespace))


def import_(namespace: str, registry: str) -> bytes:
    return bytes_field(5, text_field(1, namespace) + text_field(2, registry))


def contents(prev: str | None, seconds: int, entries: Iterable[bytes], version: int = 0) -> bytes:
    link = text_field(1, prev) if prev else b""
    time = bytes_field(3, number_field(1, seconds))
    return link + number_field(2, version) + time + b"".join(bytes_field(4, entry) for entry in entries)


def envelope(name: str, content: bytes, kind: str = "PACKAGE") -> bytes:
    message = f"WARG-{kind}-RECORD-SIGNATURE-V0:".encode() + content
    signature = "toy:" + base64.b64encode(sha256(name.encode() + message)).decode()
    key_id = hash_text(key_text(name).encode())
    return bytes_field(1, content) + text_field(2, key_id) + text_field(3, signature)
