"""Asks a server over HTTP, which may be hostile: an answer has a bound on its length and a time by which it has to be
there whole. No redirection is followed."""

import http.client
import io
import json
import re
import socket
import time
import urllib.parse
from typing import TYPE_CHECKING, Any, NamedTuple, NoReturn, cast

from .told import BadAnswer, NoAnswer, Unusable

if TYPE_CHECKING:
    from _typeshed import WriteableBuffer

# So many bytes an answer may have beside its body.
_HEAD = 65_536
_PART = 65_536
# No number of more digits is below 2^64.
_DIGITS = 20
_HOST = re.compile(r"[A-Za-z0-9.:_-]+")
_PATH = re.compile(r"[A-Za-z0-9._~%/:@!$&'()*+,;=?-]*")


class Address(NamedTuple):
    """Where a server is asked."""

    is_secret: bool
    """Whether by TLS."""
    host: str
    port: int | None
    path: str
    """What stands before each path of a request."""

    def __str__(self) -> str:
        host = f"[{self.host}]" if ":" in self.host else self.host
        port = "" if self.port is None else f":{self.port}"
        return f"{'https' if self.is_secret else 'http'}://{host}{port}{self.path}"


def address_of(url: str, *, has_query: bool = False) -> Address:
    """The address that a URL says: that of a registry, or of one thing, which may have a query. Raises `Unusable`."""
    try:
        parts = urllib.parse.urlsplit(url)
        host, port = parts.hostname or "", parts.port
    except ValueError:
        raise Unusable(f"{url}: it is no URL") from None
    is_plain = not (parts.fragment or parts.username or parts.password) and (has_query or not parts.query)
    if parts.scheme not in ("http", "https") or not is_plain or not _HOST.fullmatch(host):
        raise Unusable(f"{url}: it is no URL of http or https that can be used here")
    path = f"{parts.path}?{parts.query}" if parts.query else parts.path if has_query else parts.path.rstrip("/")
    if not _PATH.fullmatch(path):
        raise Unusable(f"{url}: its path has characters that have to be escaped")
    return Address(parts.scheme == "https", host, port, path)


class Answer(NamedTuple):
    """What a server answers."""

    status: int
    headers: http.client.HTTPMessage
    body: bytes


class _Reader(io.RawIOBase):
    """What comes out of a socket, up to a time and to a number of bytes."""

    def __init__(self, inner: socket.socket, end: float, left: int) -> None:
        super().__init__()
        self._inner, self._end, self._left = inner, end, left

    def readable(self) -> bool:
        return True

    def readinto(self, buffer: "WriteableBuffer") -> int:
        """Waits no longer than the time that is left of all."""
        self._inner.settimeout(_left_until(self._end))
        count = self._inner.recv_into(buffer)
        self._left -= count
        if self._left < 0:
            raise BadAnswer("the answer is too long")
        return count


class _Bounded:
    """A socket as `http.client` uses it, each of whose waits ends at one time."""

    def __init__(self, inner: socket.socket, end: float, longest: int) -> None:
        self._inner, self._end, self._longest = inner, end, longest

    def sendall(self, data: bytes) -> None:
        """Sends all by that time."""
        self._inner.settimeout(_left_until(self._end))
        self._inner.sendall(data)

    def makefile(self, *_: object) -> io.BufferedReader:
        """What is read of it."""
        return io.BufferedReader(_Reader(self._inner, self._end, self._longest))

    def close(self) -> None:
        """Does nothing: whoever opened the socket closes it."""


def _left_until(end: float) -> float:
    left = end - time.monotonic()
    if left <= 0:
        raise TimeoutError
    return left


def ask(
    address: Address,
    path: str,
    body: bytes | None = None,
    headers: dict[str, str] | None = None,
    *,
    longest: int,
    seconds: float,
) -> Answer:
    """The answer to a `GET`, or to a `POST` of a body, of at most so many bytes and within so many seconds, from the
    first packet to the last. Raises `NoAnswer`, and `BadAnswer` where it is none of HTTP or too long."""
    end = time.monotonic() + seconds
    kind = http.client.HTTPSConnection if address.is_secret else http.client.HTTPConnection
    connection = kind(address.host, address.port, timeout=seconds)
    try:
        connection.connect()
        inner = connection.sock
        with inner:
            connection.sock = cast(Any, _Bounded(inner, end, longest + _HEAD))
            sent = {"Connection": "close", **(headers or {})}
            connection.request("GET" if body is None else "POST", address.path + path, body, sent)
            response = connection.getresponse()
            return Answer(response.status, response.headers, _body_of(response, longest))
    except TimeoutError:
        raise NoAnswer(f"{address}: it was too slow: {seconds:g} seconds have passed") from None
    except OSError as error:
        raise NoAnswer(f"{address}: {error.strerror or error or type(error).__name__}") from None
    except (http.client.HTTPException, ValueError, OverflowError) as error:
        raise BadAnswer(f"the answer is none of HTTP: {type(error).__name__}") from None


def _body_of(response: http.client.HTTPResponse, longest: int) -> bytes:
    """The whole body, in parts: a server may announce more than there is memory for."""
    body = bytearray()
    while part := response.read(_PART):
        body += part
        if len(body) > longest:
            raise BadAnswer("the answer is too long")
    if response.length:
        raise BadAnswer("the answer is cut off")
    return bytes(body)


def json_of(body: bytes) -> object:
    """The value of a text of JSON. Raises `BadAnswer`, also where it is nested too deep, or has a number of more
    digits than any here has."""

    def refuse(constant: str) -> NoReturn:
        raise ValueError(constant)

    def whole(digits: str) -> int:
        if len(digits) > _DIGITS:
            raise ValueError("a long number")
        return int(digits)

    try:
        return json.loads(body.decode(), parse_int=whole, parse_float=float, parse_constant=refuse)
    except (ValueError, RecursionError):
        raise BadAnswer("the answer is no JSON that can be read") from None
