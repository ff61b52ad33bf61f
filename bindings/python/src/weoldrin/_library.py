"""The library's calls, as include/warg.h declares them. WEOLDRIN_LIBRARY names another file of the library."""

import ctypes
import functools
import operator
import os
from collections.abc import Callable
from typing import Any

from . import _native
from .errors import BadArgument, Error, NoEnvelope, NoLibrary, NotOpen, OutOfMemory, Refused, UnknownAlgorithm

OK, TOO_SMALL, NO_ENVELOPE, REFUSED, NONE, BAD_ARGUMENT, UNKNOWN_ALGORITHM = 0, 3, 4, 5, 6, 7, 8

# What is taken for bytes.
Bytes = bytes | bytearray | memoryview

# The greatest number that a call takes. `ctypes` passes a greater one on without its upper digits.
GREATEST = 2**64 - 1

NO_ID = "BadText: an id is not the text of one"
_RESUMED = "Resumed: the log was resumed, and its records are elsewhere"
# What is said of a bad argument where the library says nothing of it.
_MISUSES = {
    "append": "BadQuestion: the parts are those of no question",
    "chain": _RESUMED,
    "checkpoint_message": "BadText: a root is not the text of one",
    "compare": _RESUMED,
    "holds": "UnknownPermission: logs of this kind have no such permission",
    "latest": "BadRequirement: the text is no requirement of versions, such as >=1.2, <2",
    "leaf": NO_ID,
    "length": _RESUMED,
    "record": _RESUMED,
    "registry_head": NO_ID,
    "registry_push": NO_ID,
    "registry_resume": "BadLength: the bytes are no multiple of 64",
    "release": "BadVersion: the text is no version, such as 1.2.0",
    "verify": "BadText: the text of the key or of the signature can't be read",
    "verify_checkpoint": "BadText: a root is not the text of one, or the key's id or the signature can't be read",
}

_RAISED: dict[int, type[Error]] = {
    1: NotOpen,
    2: OutOfMemory,
    NO_ENVELOPE: NoEnvelope,
    REFUSED: Refused,
    BAD_ARGUMENT: BadArgument,
    UNKNOWN_ALGORITHM: UnknownAlgorithm,
}


class Log(ctypes.Structure):
    """A `struct warg_log`. All 0 is none."""

    _fields_ = [("at", ctypes.c_void_p), ("is_open", ctypes.c_bool)]


class Asked(ctypes.Structure):
    """A `struct warg_asked`."""

    _fields_ = [("key_len", ctypes.c_size_t), ("message_len", ctypes.c_size_t), ("signature_len", ctypes.c_size_t)]


class Kept(ctypes.Structure):
    """A `struct warg_kept`."""

    _fields_ = [("envelope_len", ctypes.c_size_t), ("id_len", ctypes.c_size_t)]


class Head(ctypes.Structure):
    """A `struct warg_head`."""

    _fields_ = [
        ("seconds", ctypes.c_int64),
        ("count", ctypes.c_size_t),
        ("nanos", ctypes.c_uint32),
        ("version", ctypes.c_uint32),
        ("is_counted", ctypes.c_uint32),
    ]


class Release(ctypes.Structure):
    """A `struct warg_release`."""

    _fields_ = [
        ("version_len", ctypes.c_size_t),
        ("record_id_len", ctypes.c_size_t),
        ("key_id_len", ctypes.c_size_t),
        ("state_len", ctypes.c_size_t),
        ("seconds", ctypes.c_int64),
        ("yanked_seconds", ctypes.c_int64),
        ("nanos", ctypes.c_uint32),
        ("yanked_nanos", ctypes.c_uint32),
        ("is_yanked", ctypes.c_uint32),
    ]


class Link(ctypes.Structure):
    """A `struct warg_link`."""

    _fields_ = [("record_index", ctypes.c_size_t), ("entry_index", ctypes.c_size_t)]


class Comparison(ctypes.Structure):
    """A `struct warg_comparison`."""

    # The first field is named `is` in C, which is a keyword here.
    _fields_ = [("case", ctypes.c_uint32), ("left", ctypes.c_size_t), ("right", ctypes.c_size_t)]


class Registry(ctypes.Structure):
    """A `struct warg_registry`. All 0 is none."""

    _fields_ = [("at", ctypes.c_void_p), ("is_open", ctypes.c_bool)]


class Roots(ctypes.Structure):
    """A `struct warg_roots`."""

    _fields_ = [("log_root_len", ctypes.c_size_t), ("map_root_len", ctypes.c_size_t)]


class LogHead(ctypes.Structure):
    """A `struct warg_log_head`."""

    _fields_ = [("record_id_len", ctypes.c_size_t), ("proof_len", ctypes.c_size_t)]


_LOG, _SIZE, _USED = ctypes.POINTER(Log), ctypes.c_size_t, ctypes.POINTER(ctypes.c_size_t)
_REGISTRY, _U32, _U64 = ctypes.POINTER(Registry), ctypes.c_uint32, ctypes.c_uint64
# Bytes that are read, bytes that are written, and how many were written.
_IN: list[Any] = [ctypes.c_char_p, _SIZE]
_OUT: list[Any] = [ctypes.c_void_p, _SIZE, _USED]
# A checkpoint without its time, and a leaf that is shown: the length and the root, both ids, and the proof.
_CHECKPOINT: list[Any] = [_U64, *_IN, *_IN]
_SHOWN: list[Any] = [_U64, *_IN, *_IN, *_IN, *_IN]
# A checkpoint that another one is shown to go on from: with the proof.
_BEGINNING: list[Any] = [*_CHECKPOINT, *_IN]

_CALLS: dict[str, list[Any]] = {
    "open": [_LOG, _U32],
    "close": [_LOG],
    "ask": [_LOG, *_IN, *_OUT, ctypes.POINTER(Asked)],
    "append": [_LOG, *_IN, *_IN, ctypes.POINTER(Asked), ctypes.c_bool, *_OUT],
    "append_signed": [_LOG, *_IN, *_OUT],
    "verify": [*_IN, *_IN, *_IN],
    "head": [_LOG, *_OUT],
    "head_of": [_LOG, ctypes.POINTER(Head)],
    "length": [_LOG, _USED],
    "record": [_LOG, _SIZE, *_OUT, ctypes.POINTER(Kept)],
    "id": [_U32, *_IN, *_OUT],
    "latest": [_LOG, *_IN, *_OUT, ctypes.POINTER(Release)],
    "release": [_LOG, *_IN, *_OUT, ctypes.POINTER(Release)],
    "releases": [_LOG, _SIZE, *_OUT, ctypes.POINTER(Release)],
    "namespace": [_LOG, *_IN, *_OUT, ctypes.POINTER(_U32)],
    "holds": [_LOG, *_IN, *_IN],
    "permissions": [_LOG, *_IN, *_OUT],
    "key": [_LOG, *_IN, *_OUT],
    "chain": [_LOG, *_IN, *_IN, ctypes.POINTER(Link), _SIZE, _USED],
    "compare": [_LOG, _LOG, ctypes.POINTER(Comparison)],
    "save": [_LOG, *_OUT],
    "resume": [_LOG, _U32, *_IN, *_OUT],
    "resume_counted": [_LOG, _U32, *_IN, _SIZE, *_OUT],
    "log_id": [_U32, *_IN, *_OUT],
    "leaf": [*_IN, *_IN, *_OUT],
    "verify_inclusion": [*_IN, *_IN, _U64, _U64, *_IN, *_IN],
    "verify_consistency": [_U64, *_IN, _U64, *_IN, *_IN],
    "verify_presence": [*_IN, *_IN, *_IN, *_IN],
    "verify_absence": [*_IN, *_IN, *_IN],
    "proof_fault": [_U32, *_IN, *_OUT],
    "compare_checkpoints": [*_CHECKPOINT, *_CHECKPOINT, *_IN, ctypes.POINTER(_U32)],
    "compare_leaves": [_U64, *_SHOWN, *_SHOWN, ctypes.POINTER(_U32)],
    "compare_heads": [*_IN, *_IN, *_IN, *_IN, *_IN, *_IN, ctypes.POINTER(_U32)],
    "compare_beginnings": [_U64, *_IN, *_BEGINNING, *_BEGINNING, ctypes.POINTER(_U32)],
    "checkpoint_message": [_U64, *_IN, *_IN, _U64, *_OUT],
    "verify_checkpoint": [_LOG, _U64, *_IN, *_IN, _U64, *_IN, *_IN],
    "registry_open": [_REGISTRY],
    "registry_close": [_REGISTRY],
    "registry_push": [_REGISTRY, *_IN, *_IN, ctypes.POINTER(_U64)],
    "registry_length": [_REGISTRY, ctypes.POINTER(_U64)],
    "registry_roots": [_REGISTRY, *_OUT, ctypes.POINTER(Roots)],
    "registry_inclusion": [_REGISTRY, _U64, *_OUT],
    "registry_consistency": [_REGISTRY, _U64, *_OUT],
    "registry_head": [_REGISTRY, *_IN, *_OUT, ctypes.POINTER(LogHead)],
    "registry_save": [_REGISTRY, *_OUT],
    "registry_resume": [_REGISTRY, *_IN],
    "version": [*_OUT],
}


class Calls(dict[str, Callable[..., int]]):
    """All calls, by their names in C without `warg_`, each looked up when it is first made, which is when the library
    is loaded. They let go of the interpreter's lock while they run."""

    @functools.cached_property
    def _library(self) -> ctypes.CDLL:
        path = os.environ.get("WEOLDRIN_LIBRARY") or _native.found("libwarg.so")
        if path is None:
            raise NoLibrary(
                f"NoLibrary: this package has no library for {_native.machine()}: a wheel for Linux with glibc 2.17 or "
                "later has it, and the environment's WEOLDRIN_LIBRARY may name another one"
            )
        try:
            return ctypes.CDLL(str(path))
        except OSError as error:
            raise NoLibrary(f"NoLibrary: {path} can't be loaded: {error}") from None

    def __missing__(self, name: str) -> Callable[..., int]:
        call = getattr(self._library, f"warg_{name}")
        call.argtypes, call.restype = _CALLS[name], None if name in ("close", "registry_close") else _U32
        self[name] = call
        return self[name]


CALLS = Calls()


class Buffer:
    """Room that calls write to; it grows as they ask."""

    __slots__ = ("_bytes", "_used")

    def __init__(self) -> None:
        self._bytes = ctypes.create_string_buffer(4096)
        self._used = ctypes.c_size_t(0)

    def filled(
        self, name: str, before: tuple[Any, ...], after: tuple[Any, ...] = (), room: int = 0
    ) -> bytes | None:
        """What a call of this name writes, whose arguments stand before and after the buffer; none where it says that
        there is none.

        An error's text finds `room`, and at least 4096 bytes.
        """
        call = CALLS[name]
        if len(self._bytes) < room:
            self._grow(room)
        status = call(*before, self._bytes, len(self._bytes), self._used, *after)
        while status == TOO_SMALL:
            self._grow(self._used.value)
            status = call(*before, self._bytes, len(self._bytes), self._used, *after)
        if status == OK:
            return ctypes.string_at(self._bytes, self._used.value)
        if status == NONE:
            return None
        raise _raised(name, status, ctypes.string_at(self._bytes, self._used.value).decode())

    def _grow(self, size: int) -> None:
        self._bytes = ctypes.create_string_buffer(size)


def checked(name: str, status: int) -> bool:
    """Whether a call that writes no text was done, and not answered by "none"."""
    if status in (OK, NONE):
        return status == OK
    raise _raised(name, status)


def _raised(name: str, status: int, text: str = "") -> Error:
    """What a call of this name is refused for, with what the library says of it."""
    if status == BAD_ARGUMENT and not text:
        text = _MISUSES.get(name, "")
    return _RAISED[status](text)


def bytes_of(data: Bytes) -> bytes:
    """The bytes that are there, whatever a class of its own says of their number."""
    if type(data) is bytes:
        return data
    try:
        return memoryview(data).tobytes()
    except TypeError:
        raise TypeError(f"bytes are wanted, not {type(data).__name__}") from None


def text_bytes(text: str, errors: str = "strict") -> bytes:
    """The bytes of a text in UTF-8, whatever a class of its own says of them."""
    if not isinstance(text, str):
        raise TypeError(f"a text is wanted, not {type(text).__name__}")
    return str.encode(text, errors=errors)


def texts(*given: str) -> list[bytes | int]:
    """What a call gets for texts: the bytes of each, and their number.

    What is no text, as half a surrogate pair, is none for the library either.
    """
    passed: list[bytes | int] = []
    for it in given:
        text = text_bytes(it, "surrogatepass")
        passed += [text, len(text)]
    return passed


def number(given: int) -> int:
    """What a call gets for a number. Raises `BadArgument` where it is not from 0 to `GREATEST`."""
    if 0 <= operator.index(given) <= GREATEST:
        return given
    raise BadArgument(f"OutOfRange: {given} is not from 0 to {GREATEST}")
