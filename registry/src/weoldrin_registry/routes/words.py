"""Reads requests: words of the query, numbers, ids, bodies."""

from __future__ import annotations

import asyncio
import json
import re
from http import HTTPStatus
from urllib.parse import parse_qsl

from starlette.requests import Request
from starlette.responses import Response

from ..problems import Problem, bad_request, not_found
from ..registry import Registry

_ID = re.compile(r"sha256:[0-9a-f]{64}")
_DIGITS = re.compile(r"[0-9]{1,19}")
_GREATEST = 2**63 - 1


def registry_of(request: Request) -> Registry:
    """The registry that answers."""
    found = request.app.state.registry
    assert isinstance(found, Registry)
    return found


def query(request: Request, *names: str) -> dict[str, str]:
    """The words of the query. Raises a `Problem` for others than these."""
    text = request.scope["query_string"].decode("latin-1")
    try:
        pairs = parse_qsl(text, keep_blank_values=True, strict_parsing=bool(text), errors="strict", max_num_fields=8)
    except ValueError:
        raise bad_request("BadQuery", "the query can't be read") from None
    found = dict(pairs)
    if len(found) != len(pairs) or not found.keys() <= set(names):
        raise bad_request("BadQuery", f"the words of the query are {', '.join(names) or 'none'}, each once")
    return found


def whole(text: str) -> int | None:
    """A number of decimal digits below 2^63; none where it is none."""
    value = int(text) if _DIGITS.fullmatch(text) else None
    return value if value is not None and value <= _GREATEST else None


def number(words: dict[str, str], name: str) -> int | None:
    """A number of the query; none where it is left out."""
    if name not in words:
        return None
    value = whole(words[name])
    if value is None:
        raise bad_request("BadQuery", f"{name} is no number below 2^63")
    return value


def is_id(text: str) -> bool:
    """Whether a text is that of an id, as it is written."""
    return _ID.fullmatch(text) is not None


async def body_of(request: Request, most: int, seconds: float) -> bytes:
    """The body. Raises a `Problem` where it is too long, or too slow."""
    too_long = Problem(HTTPStatus.REQUEST_ENTITY_TOO_LARGE, "TooLong", f"a body has at most {most} bytes")
    length = request.headers.get("content-length")
    if length is not None and (whole(length) is None or int(length) > most):
        raise too_long

    async def read() -> bytes:
        found = bytearray()
        async for part in request.stream():
            found += part
            if len(found) > most:
                raise too_long
        return bytes(found)

    try:
        return await asyncio.wait_for(read(), seconds)
    except asyncio.TimeoutError:
        sentence = f"the body did not come within {seconds:g} s"
        raise Problem(HTTPStatus.REQUEST_TIMEOUT, "TooSlow", sentence).with_headers(Connection="close") from None


def content_type(request: Request) -> str:
    """The type that the body is said to be of, without what stands behind it."""
    return request.headers.get("content-type", "").partition(";")[0].strip().lower()


def unknown_type(*types: str) -> Problem:
    """That the body is of another type than these."""
    return Problem(HTTPStatus.UNSUPPORTED_MEDIA_TYPE, "UnknownType", f"a body is of {' or '.join(types)}")


def json_text(value: object) -> str:
    """The text of a value, as answers have it."""
    return json.dumps(value, separators=(",", ":"))


def json_answer(value: object, status: int = 200, headers: dict[str, str] | None = None) -> Response:
    """An answer of JSON."""
    return Response(json_text(value), status, headers, "application/json")


def has_tag(request: Request, tag: str) -> bool:
    """Whether the asker has what has this tag."""
    told = request.headers.get("if-none-match", "")
    return any(it.strip().removeprefix("W/") == tag for it in told.split(","))


def checkpoint_json(text: str) -> object:
    """The value of a checkpoint that was kept as a text."""
    return json.loads(text)


def no_checkpoint(of: str = "") -> Problem:
    """That there is no checkpoint."""
    return not_found("NoCheckpoint", f"there is no checkpoint{of} yet")
