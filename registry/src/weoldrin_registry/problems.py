"""Errors as documents (RFC 9457)."""

from __future__ import annotations

import json
from collections.abc import Mapping
from http import HTTPStatus

from starlette.responses import Response

CONTENT_TYPE = "application/problem+json"


def document(status: HTTPStatus, name: str, detail: str, members: Mapping[str, object]) -> bytes:
    """The document of an error. Half a surrogate pair, which a stranger's text may have, is written by its number."""
    common = {"type": "about:blank", "title": status.phrase, "status": status.value, "detail": detail, "name": name}
    return json.dumps({**common, **members}, separators=(",", ":")).encode()


class Problem(Exception):
    """What a request is refused for: a status, a name by which programs tell errors apart, and a sentence."""

    def __init__(self, status: HTTPStatus, name: str, detail: str, **members: object) -> None:
        super().__init__(f"{status.value} {name}: {detail}")
        self.status, self.name, self.detail, self.members = status, name, detail, members
        self.headers: dict[str, str] = {}

    def with_headers(self, **headers: str) -> Problem:
        """The same with headers, in whose names `_` stands for `-`."""
        self.headers |= {name.replace("_", "-"): value for name, value in headers.items()}
        return self

    def response(self) -> Response:
        """The answer."""
        body = document(self.status, self.name, self.detail, self.members)
        return Response(body, self.status.value, self.headers, CONTENT_TYPE)


def bad_request(name: str, detail: str) -> Problem:
    """What is wrong with the request itself."""
    return Problem(HTTPStatus.BAD_REQUEST, name, detail)


def not_found(name: str, detail: str) -> Problem:
    """What is not there."""
    return Problem(HTTPStatus.NOT_FOUND, name, detail)


def unavailable(name: str, detail: str, seconds: int = 1) -> Problem:
    """What can't be done now, and may be tried again after some seconds."""
    return Problem(HTTPStatus.SERVICE_UNAVAILABLE, name, detail).with_headers(Retry_After=str(seconds))
