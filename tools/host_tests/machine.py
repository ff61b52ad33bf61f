"""What this machine has, and Debian's packages of what it lacks."""

import functools
import os
import pathlib
import re
import shutil
import subprocess
import sys
from collections.abc import Callable

CC = os.environ.get("CC", "cc")
# A compiler of C for 64-bit ARM, and what runs its programs.
CROSS, QEMU = "aarch64-linux-gnu-gcc", "qemu-aarch64"
# The least Node that is tested with.
LEAST_NODE = 20
PROGRAM = "int main(void) { return 0; }"


def succeeds(*words: str, text: str = "") -> bool:
    """Whether a command is there and succeeds."""
    try:
        return subprocess.run(words, input=text.encode(), capture_output=True, check=False).returncode == 0
    except OSError:
        return False


def compiles(*flags: str, text: str = PROGRAM, compiler: str = CC) -> bool:
    """Whether the compiler links a program."""
    return succeeds(compiler, "-x", "c", "-o", os.devnull, "-", *flags, text=text)


def has_openssl() -> bool:
    """Whether OpenSSL 3 is there to be compiled with."""
    return compiles("-lcrypto", text='#include <openssl/ec.h>\nint main(void) { return EVP_EC_gen("P-256") == 0; }')


def has_sanitizers() -> bool:
    """Whether the compiler has the address sanitizer, and the one of undefined behaviour."""
    return compiles("-fsanitize=address,undefined")


def has_go() -> bool:
    """Whether there is a Go of 1.19 or later, with cgo."""
    done = subprocess.run(["go", "env", "GOVERSION"], capture_output=True, check=False) if shutil.which("go") else None
    found = re.match(rb"go1\.(\d+)", done.stdout) if done else None
    return found is not None and int(found[1]) >= 19 and compiles()


def interpreter_with(*modules: str) -> str | None:
    """A Python that has these modules, the one that runs this first."""
    tried = [sys.executable, shutil.which("python3") or "python3", "/usr/bin/python3"]
    return next((it for it in tried if succeeds(it, "-c", "".join(f"import {name}\n" for name in modules))), None)


@functools.cache
def interpreters() -> tuple[str | None, str | None]:
    """A Python that has `cryptography`, and one that has Dask too."""
    return interpreter_with("cryptography"), interpreter_with("cryptography", "distributed")


@functools.cache
def backend() -> str | None:
    """A Python that builds the package: it has pip and hatchling."""
    return interpreter_with("pip", "hatchling.build")


@functools.cache
def registry_interpreter() -> str | None:
    """A Python that has what the registry server needs, and what its tests do."""
    needed = ("starlette", "uvicorn", "h11", "prometheus_client", "jsonschema", "yaml", "cryptography")
    return interpreter_with(*needed)


def has_registry() -> bool:
    """Whether there is one."""
    return registry_interpreter() is not None


def has_postgres() -> bool:
    """Whether there is a server of PostgreSQL, and that Python reaches it."""
    python = registry_interpreter()
    is_served = any(pathlib.Path("/usr/lib/postgresql").glob("*/bin/initdb"))
    return is_served and python is not None and succeeds(python, "-c", "import psycopg")


def has_python() -> bool:
    """Whether there is an interpreter for each test of Python."""
    return None not in interpreters()


def has_pip() -> bool:
    """Whether there is one, and each has pip."""
    return all(it is not None and succeeds(it, "-m", "pip", "--version") for it in interpreters())


def has_node() -> bool:
    """Whether there is a Node that is new enough."""
    node = shutil.which("node")
    done = subprocess.run([node, "--version"], capture_output=True, check=False) if node else None
    found = re.match(rb"v(\d+)\.", done.stdout) if done else None
    return found is not None and int(found[1]) >= LEAST_NODE


def offered(package: str) -> str | None:
    """The version of one of Debian's packages that this machine's apt would install; none where it knows of none."""
    words, kept = ["apt-cache", "policy", package], os.environ | {"LC_ALL": "C"}
    done = subprocess.run(words, capture_output=True, check=False, env=kept) if shutil.which("apt-cache") else None
    found = re.search(rb"^  Candidate: (\S+)$", done.stdout, re.M) if done else None
    return None if found is None or found[1] == b"(none)" else found[1].decode()


def offers_node() -> bool:
    """Whether Debian has a Node for this machine that is new enough: Debian 12 has 18."""
    found = re.match(r"(?:\d+:)?(\d+)\.", offered("nodejs") or "")
    return found is not None and int(found[1]) >= LEAST_NODE


def has_node_program(name: str) -> bool:
    """Whether a program is there that comes with Node, where Node is there or can be had."""
    return bool(shutil.which(name)) or not (has_node() or offers_node())


# Debian's packages, and whether what they bring is there.
NEEDED: dict[str, Callable[[], object]] = {
    "gcc": lambda: compiles() and has_sanitizers() and shutil.which("nm"),
    "libc6-dev": compiles,
    "g++": lambda: shutil.which("c++"),
    "libssl-dev": has_openssl,
    "make": lambda: shutil.which("make"),
    "pkg-config": lambda: shutil.which("pkg-config"),
    "valgrind": lambda: shutil.which("valgrind"),
    "cargo": lambda: succeeds("cargo", "--version"),
    "python3-cryptography": has_python,
    "python3-distributed": has_python,
    "python3-pip": has_pip,
    "openssl": lambda: shutil.which("openssl"),
    "python3-hatchling": lambda: backend() is not None,
    "python3-starlette": has_registry,
    "python3-uvicorn": has_registry,
    "python3-h11": has_registry,
    "python3-prometheus-client": has_registry,
    "python3-jsonschema": has_registry,
    "python3-yaml": has_registry,
    "python3-psycopg": has_postgres,
    "postgresql": has_postgres,
    "golang-go": has_go,
    "cmake": lambda: shutil.which("cmake"),
    "binutils": lambda: shutil.which("readelf"),
    "dpkg": lambda: shutil.which("dpkg-deb"),
    # Where Node is too old, none of Debian 12 is newer.
    "nodejs": lambda: has_node() or not offers_node(),
    "npm": lambda: has_node_program("npm"),
    "node-typescript": lambda: has_node_program("tsc"),
    "chromium": lambda: shutil.which("chromium"),
    "firefox-esr": lambda: shutil.which("firefox-esr"),
    "gcc-aarch64-linux-gnu": lambda: shutil.which(CROSS),
    "libc6-dev-arm64-cross": lambda: compiles(compiler=CROSS),
    "qemu-user": lambda: shutil.which(QEMU),
}
