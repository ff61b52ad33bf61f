"""A connection: what uvicorn's does, with bounds on how many there are and on how long a client may take."""

from __future__ import annotations

import asyncio
import enum
import socket
import sys
from http import HTTPStatus
from typing import Any

import h11
from starlette.types import Receive, Scope, Send
from uvicorn.protocols.http.h11_impl import H11Protocol

from .problems import CONTENT_TYPE, document, unavailable
from .settings import Settings

# What is told of a request that can't be read, by what h11 makes of it.
_NAMES = {
    HTTPStatus.BAD_REQUEST: "BadRequest",
    HTTPStatus.REQUEST_TIMEOUT: "TooSlow",
    HTTPStatus.REQUEST_HEADER_FIELDS_TOO_LARGE: "TooLongHead",
    HTTPStatus.SERVICE_UNAVAILABLE: "TooManyConnections",
}


class _Part(enum.Enum):
    """What a client may have to send."""

    REQUEST = enum.auto()
    """A request, of which nothing is there."""
    HEAD = enum.auto()
    """The rest of a request's line and headers."""
    BODY = enum.auto()
    """The rest of a body that nobody reads."""


def _raw(status: HTTPStatus, detail: str) -> bytes:
    """An answer to what is no request."""
    body = document(status, _NAMES[status], detail, {})
    head = f"HTTP/1.1 {status.value} {status.phrase}\r\nContent-Type: {CONTENT_TYPE}\r\n"
    return f"{head}Content-Length: {len(body)}\r\nConnection: close\r\n\r\n".encode() + body


async def _surplus(scope: Scope, receive: Receive, send: Send) -> None:
    """Answers where there are too many connections."""
    problem = unavailable("TooManyConnections", "there are too many connections").with_headers(Connection="close")
    await problem.response()(scope, receive, send)


class Connection(H11Protocol):  # type: ignore[misc]
    """A connection."""

    settings = Settings()
    _deadline: asyncio.TimerHandle | None = None
    _awaited: _Part | None = None
    _reader: asyncio.TimerHandle | None = None
    _unread = 0

    def connection_made(self, transport: Any) -> None:
        """Counts it, and waits for its first request."""
        super().connection_made(transport)
        # asyncio does so for sockets that were made with the number of TCP, and for no others.
        transport.get_extra_info("socket").setsockopt(socket.IPPROTO_TCP, socket.TCP_NODELAY, 1)
        self._reader = self.loop.call_later(self.settings.answer_seconds, self._check_reader)
        if len(self.connections) > 2 * self.settings.connections:
            self._end(HTTPStatus.SERVICE_UNAVAILABLE, "there are too many connections")
            return
        if len(self.connections) > self.settings.connections:
            self.app = _surplus
        self._watch()

    def connection_lost(self, exc: Exception | None) -> None:
        """Ends what waits."""
        for it in (self._deadline, self._reader):
            if it is not None:
                it.cancel()
        super().connection_lost(exc)

    def data_received(self, data: bytes) -> None:
        """Reads on. What is no HTTP at all is told so."""
        try:
            super().data_received(data)
        except ValueError:
            # Of a length with thousands of digits.
            self._end(HTTPStatus.BAD_REQUEST, "the request's headers can't be read")
        self._watch()

    def send_400_response(self, msg: str) -> None:
        """Answers a request that can't be read. uvicorn calls this while it handles what h11 raised."""
        hint = getattr(sys.exc_info()[1], "error_status_hint", HTTPStatus.BAD_REQUEST)
        if self.cycle is not None and self.cycle.response_started and self._is_at_work():
            self.transport.abort()
        elif hint == HTTPStatus.REQUEST_HEADER_FIELDS_TOO_LARGE:
            self._end(HTTPStatus.REQUEST_HEADER_FIELDS_TOO_LARGE, "the request's line and headers are too long")
        else:
            self._end(HTTPStatus.BAD_REQUEST, "the request can't be read")

    def _is_at_work(self) -> bool:
        """Whether a request is being answered."""
        return self.cycle is not None and not self.cycle.response_complete

    def _next_part(self) -> _Part | None:
        """What has to come next; nothing while a request is answered."""
        if self._is_at_work():
            return None
        if self.conn.their_state is h11.SEND_BODY:
            return _Part.BODY
        return _Part.HEAD if self.conn.trailing_data[0] else _Part.REQUEST

    def _watch(self) -> None:
        """Sets the deadline for what has to come next, unless it runs."""
        part = self._next_part()
        if part is self._awaited:
            return
        self._awaited = part
        if self._deadline is not None:
            self._deadline.cancel()
        if part is not None and not self.transport.is_closing():
            self._deadline = self.loop.call_later(self._seconds(part), self._end_slow)

    def _seconds(self, part: _Part) -> float:
        """How long a part may take to come."""
        if part is _Part.BODY:
            return self.settings.body_seconds
        return self.settings.head_seconds if part is _Part.HEAD else self.settings.idle_seconds

    def _end_slow(self) -> None:
        if self._awaited is _Part.HEAD:
            self._end(HTTPStatus.REQUEST_TIMEOUT, "the request did not come in time")
        else:
            self.transport.abort()

    def _end(self, status: HTTPStatus, detail: str) -> None:
        """Answers, and ends the connection."""
        if not self.transport.is_closing():
            self.transport.write(_raw(status, detail))
            self.transport.close()

    def _check_reader(self) -> None:
        """Ends a connection whose client has read nothing of an answer for so long."""
        unread = self.transport.get_write_buffer_size()
        if unread and unread == self._unread:
            self.transport.abort()
            return
        self._unread = unread
        self._reader = self.loop.call_later(self.settings.answer_seconds, self._check_reader)


def protocol_of(settings: Settings) -> type[Connection]:
    """The class of the connections of a server with these settings."""
    return type("Connection", (Connection,), {"settings": settings})
