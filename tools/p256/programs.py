"""Other programs that sign and verify: the package `cryptography`, the program `openssl`, Java's SunEC and Go's
crypto/ecdsa. Each has code of its own for the curve but for the first two, which are two versions of one library."""

import functools
import os
import pathlib
import shutil
import subprocess
import tempfile
from collections.abc import Callable, Sequence
from concurrent.futures import ThreadPoolExecutor
from typing import NamedTuple

from cryptography.exceptions import InvalidSignature
from cryptography.hazmat.primitives import hashes, serialization
from cryptography.hazmat.primitives.asymmetric import ec

from p256.forms import point_of, public_key_info, uncompressed

HERE = pathlib.Path(__file__).resolve().parent
_SCHEME = ec.ECDSA(hashes.SHA256())


class Case(NamedTuple):
    """What is asked: whether a signature belongs to a message under a key."""

    key: bytes
    message: bytes
    signature: bytes


class Task(NamedTuple):
    """What is to be signed: a message, by the private key of this number."""

    secret: int
    message: bytes


class Program(NamedTuple):
    """A program that signs and verifies many at once."""

    name: str
    sign: Callable[[Sequence[Task]], list[bytes]]
    verify: Callable[[Sequence[Case]], list[bool]]


def _private_key(secret: int) -> ec.EllipticCurvePrivateKey:
    return ec.derive_private_key(secret, ec.SECP256R1())


def _pkcs8(secret: int) -> bytes:
    key = _private_key(secret)
    assert isinstance(key, ec.EllipticCurvePrivateKeyWithSerialization)
    form = serialization.PrivateFormat.PKCS8
    return key.private_bytes(serialization.Encoding.DER, form, serialization.NoEncryption())


@functools.lru_cache(maxsize=4096)
def _public_key(key: bytes) -> ec.EllipticCurvePublicKey | None:
    try:
        return ec.EllipticCurvePublicKey.from_encoded_point(ec.SECP256R1(), key)
    except ValueError:
        return None


def is_verified(case: Case) -> bool:
    """What `cryptography` says of a case, whatever its bytes are."""
    key = _public_key(case.key)
    try:
        if key is not None:
            key.verify(case.signature, case.message, _SCHEME)
    except InvalidSignature:
        return False
    return key is not None


def side_by_side(one: Callable[[Case], bool], cases: Sequence[Case]) -> list[bool]:
    """What a verifier says of each case, with as many at once as there are processors."""
    with ThreadPoolExecutor(os.cpu_count()) as workers:
        return list(workers.map(one, cases))


def _openssl(words: list[str], message: bytes, **files: bytes) -> subprocess.CompletedProcess[bytes]:
    """Runs `openssl dgst -sha256`, with files of these names and bytes, on a message."""
    with tempfile.TemporaryDirectory() as folder:
        for name, data in files.items():
            (pathlib.Path(folder) / name).write_bytes(data)
        command = ["openssl", "dgst", "-sha256", "-keyform", "DER", *words]
        return subprocess.run(command, input=message, capture_output=True, cwd=folder, check=False)


def is_verified_by_openssl(case: Case) -> bool:
    """What the program `openssl` says of a case. It reads at most 72 bytes of a signature."""
    words = ["-verify", "key", "-signature", "signature"]
    done = _openssl(words, case.message, key=public_key_info(case.key), signature=case.signature)
    return done.returncode == 0 and done.stdout == b"Verified OK\n"


def _signed_by_openssl(task: Task) -> bytes:
    done = _openssl(["-sign", "key"], task.message, key=_pkcs8(task.secret))
    done.check_returncode()
    return done.stdout


def _hex(data: bytes) -> str:
    return data.hex() or "-"


def _answers(command: Sequence[str | os.PathLike[str]], lines: list[str]) -> list[str]:
    """What a program answers, a line for each."""
    text = "".join(f"{it}\n" for it in lines)
    answers = subprocess.run(command, input=text, capture_output=True, text=True, check=True).stdout.split()
    if len(answers) != len(lines):
        raise SystemExit(f"{command[0]} answers {len(answers)} lines of {len(lines)}")
    return answers


def _of_lines(name: str, command: Sequence[str | os.PathLike[str]], key_of: Callable[[bytes], bytes]) -> Program:
    """A program that reads lines, with the form that it takes a key in."""

    def sign(tasks: Sequence[Task]) -> list[bytes]:
        lines = [f"sign {_hex(_pkcs8(it.secret))} {_hex(it.message)}" for it in tasks]
        return [bytes.fromhex(it) for it in _answers(command, lines)]

    def verify(cases: Sequence[Case]) -> list[bool]:
        lines = [f"verify {_hex(key_of(it.key))} {_hex(it.message)} {_hex(it.signature)}" for it in cases]
        return [it == "yes" for it in _answers(command, lines)]

    return Program(name, sign, verify)


def _java_key(key: bytes) -> bytes:
    """Java reads uncompressed points alone, so that a compressed one is written so."""
    point = point_of(key)
    return public_key_info(uncompressed(point) if point else key)


CRYPTOGRAPHY = Program(
    "cryptography",
    lambda tasks: [_private_key(it.secret).sign(it.message, _SCHEME) for it in tasks],
    lambda cases: [is_verified(it) for it in cases],
)
OPENSSL = Program(
    "openssl",
    lambda tasks: [_signed_by_openssl(it) for it in tasks],
    lambda cases: side_by_side(is_verified_by_openssl, cases),
)
JAVA = _of_lines("java", ["java", HERE / "Answers.java"], _java_key)
GO = _of_lines("go", ["go", "run", HERE / "answers.go"], lambda key: key)


def programs() -> list[Program]:
    """Those that are there."""
    return [CRYPTOGRAPHY, *(it for it in (OPENSSL, JAVA, GO) if shutil.which(it.name))]
