"""Logs that the tests drop, by the toy scheme: what tools/make_log does not print."""
import base64
import hashlib
import pathlib
import subprocess

from served import ROOT

EXAMPLES = ROOT / "examples"


def varint(number: int) -> bytes:
    low = b""
    while number >= 128:
        low += bytes([number % 128 + 128])
        number //= 128
    return low + bytes([number])


def field(number: int, value: bytes | str) -> bytes:
    data = value.encode() if isinstance(value, str) else value
    return varint(number * 8 + 2) + varint(len(data)) + data


def hash_text(data: bytes) -> str:
    return f"sha256:{hashlib.sha256(data).hexdigest()}"


def key_text(name: str) -> str:
    return f"toy:{base64.b64encode(name.encode()).decode()}"


def init(name: str) -> bytes:
    return field(1, field(1, key_text(name)) + field(2, "sha256"))


def release(version: str) -> bytes:
    return field(4, field(1, version) + field(2, hash_text(version.encode())))


def contents(prev: str | None, seconds: int, entries: list[bytes]) -> bytes:
    link = field(1, prev) if prev else b""
    time = field(3, varint(8) + varint(seconds) if seconds else b"")
    return link + varint(2 * 8) + varint(1) + time + b"".join(field(4, it) for it in entries)


def envelope(name: str, content: bytes, kind: str = "PACKAGE") -> str:
    """An envelope's line, signed by the toy scheme."""
    message = f"WARG-{kind}-RECORD-SIGNATURE-V0:".encode() + content
    signature = base64.b64encode(hashlib.sha256(name.encode() + message).digest()).decode()
    signer = field(2, hash_text(key_text(name).encode()))
    return f"{(field(1, content) + signer + field(3, f'toy:{signature}')).hex()}\n"


def record_id(content: bytes, kind: str = "PACKAGE") -> str:
    return hash_text(f"WARG-{kind}-LOG-RECORD-V0:".encode() + content)


# What strangers may write: markup, a mark that turns the direction, a line's end, and a very long text.
MARKUP = '<img src=x onerror="document.title=1"><script>document.title=2</script>'
HOSTILE = [
    MARKUP,
    "\u202e\u0007gnp.exe",
    "a\nb\u2028c",
    "&lt;b&gt; &#x41;",
    "{{1+1}} ${1+1} javascript:alert(1)",
    "x" * 20_000,
]


def made(*words: str) -> bytes:
    """What tools/make_log prints."""
    return subprocess.run([ROOT / "tools/make_log", *words], stdout=subprocess.PIPE, check=True).stdout


def hostile_log() -> bytes:
    """An operator log whose registries and keys are named by such texts."""
    lines: list[str] = []
    prev = None
    for place, text in enumerate(HOSTILE):
        key = field(2, field(1, f"{text.replace(':', ';')}:AAAA") + field(2, bytes([1])))
        entries = [key, field(5, field(1, "a" * (place + 1)) + field(2, text))]
        content = contents(prev, place, entries if place else [init("alice"), *entries])
        prev = record_id(content, "OPERATOR")
        lines.append(envelope("alice", content, "OPERATOR"))
    return "".join(lines).encode()


def refused_by_text() -> bytes:
    """A package log whose second record is signed under a key id that is markup."""
    first = contents(None, 1, [init("alice")])
    second = contents(record_id(first), 2, [release("1.0.0")])
    signed = field(1, second) + field(2, MARKUP) + field(3, "toy:AAAA")
    return f"{envelope('alice', first)}{signed.hex()}\n".encode()


def written_otherwise() -> bytes:
    """A log whose bytes are those of no careful writer: members that do not count, one in two pieces, permissions in
    both forms, fields that no one knows, and a time of more nanoseconds than a second has."""
    grant = field(2, field(1, key_text("bob")) + varint(2 * 8) + varint(2) + field(2, bytes([1, 1])))
    version, content = field(1, "3.0.0"), field(2, hash_text(b"3.0.0"))
    pieces = field(5, field(1, "9.9.9")) + field(4, version) + varint(9 * 8) + varint(7) + field(4, content)
    time = field(3, varint(8) + varint(1)) + field(3, varint(2 * 8) + varint(2_000_000_005 - 1_000_000_000))
    entries = [field(4, it) for it in (init("alice"), grant, pieces)]
    return envelope("alice", varint(2 * 8) + varint(1) + time + b"".join(entries)).encode()


def changed(data: bytes) -> bytes:
    """A log whose last record yanks another version, 1.1.0, than the one that was signed."""
    *lines, last = data.splitlines()
    old, new = (it.encode().hex().encode() for it in ("1.0.0", "1.1.0"))
    assert last.count(old) == 1
    return b"".join(it + b"\n" for it in [*lines, last.replace(old, new)])


def without_last(data: bytes) -> bytes:
    """A log without its last record."""
    return b"".join(data.splitlines(keepends=True)[:-1])


def forked() -> bytes:
    """A log that begins as examples/package_releases.hex does, with another third record."""
    lines = (EXAMPLES / "package_releases.hex").read_bytes().splitlines(keepends=True)[:2]
    second = bytes.fromhex(lines[1].decode().strip())
    # The contents are the first field: its length is a number of two bytes.
    size = second[1] - 128 + 128 * second[2]
    prev = record_id(second[3 : 3 + size])
    return b"".join(lines) + envelope("alice", contents(prev, 9, [release("6.6.6")])).encode()


def forged_at_end(count: int) -> bytes:
    """A log of so many records, of which the last one has a signature of another."""
    *lines, last = made(str(count)).decode().split()
    # A digit of base64, of which another bit is set.
    other = bytearray.fromhex(last)
    other[-10] = ord("A") if other[-10] != ord("A") else ord("B")
    return "".join(f"{it}\n" for it in [*lines, other.hex()]).encode()


def write(folder: pathlib.Path, name: str, data: bytes) -> pathlib.Path:
    """A file of a log."""
    path = folder / name
    path.write_bytes(data)
    return path
