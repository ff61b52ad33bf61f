"""Envelopes of logs."""

from __future__ import annotations

import base64
import json
from http import HTTPStatus

from starlette.requests import Request
from starlette.responses import Response

from weoldrin import LogKind

from ..problems import Problem, bad_request
from ..publishing import log_name, no_log
from ..registry import Registry
from ..storage import LogRow
from .words import body_of, content_type, has_tag, is_id, json_answer, number, query, registry_of, unknown_type, whole

_PROTOBUF = "application/protobuf"


async def package_records(request: Request) -> Response:
    """Envelopes of a package's log."""
    return await _records(request, log_name(LogKind.PACKAGE, request.path_params["name"]).log_id)


async def operator_records(request: Request) -> Response:
    """Envelopes of the operator log."""
    return await _records(request, log_name(LogKind.OPERATOR).log_id)


async def log_records(request: Request) -> Response:
    """Envelopes of a log, by its id."""
    return await _records(request, request.path_params["log_id"])


async def _records(request: Request, log_id: str) -> Response:
    start, registry = number(query(request, "from"), "from") or 0, registry_of(request)
    row = await registry.read(registry.storage.log, log_id) if is_id(log_id) else None
    if row is None:
        raise no_log()
    is_protobuf = _takes_protobuf(request)
    tag = f'"{row.head}{"+protobuf" if is_protobuf else ""}"'
    headers = {"ETag": tag, "Cache-Control": "no-cache", "Vary": "Accept", "Weoldrin-Count": str(row.length)}
    if has_tag(request, tag):
        return Response(status_code=HTTPStatus.NOT_MODIFIED, headers=headers)
    found = await registry.read(_bounded, registry, row, start)
    if found and start + len(found) < row.length:
        headers["Link"] = f'<{request.scope["path"]}?from={start + len(found)}>; rel="next"'
    if is_protobuf:
        return Response(b"".join(_varint(len(it)) + it for it in found), 200, headers, _PROTOBUF)
    return Response("".join(f"{it.hex()}\n" for it in found), 200, headers, "text/plain")


def _bounded(registry: Registry, row: LogRow, start: int) -> list[bytes]:
    """The records from a place on that fit into an answer: of those alone that the row has."""
    settings = registry.settings
    most = min(settings.answer_records, row.length - start)
    return registry.storage.records(row.log_id, start, most, settings.answer_bytes) if most > 0 else []


def _takes_protobuf(request: Request) -> bool:
    ranges = request.headers.get("accept", "").split(",")
    return any(it.partition(";")[0].strip().lower() == _PROTOBUF for it in ranges)


def _varint(value: int) -> bytes:
    low = bytearray()
    while value >= 128:
        low.append(value % 128 + 128)
        value //= 128
    return bytes([*low, value])


# Many logs


async def fetch_logs(request: Request) -> Response:
    """Envelopes of many logs, from those on that the asker has."""
    query(request)
    registry = registry_of(request)
    settings = registry.settings
    body = await body_of(request, settings.body_bytes, settings.body_seconds)
    if content_type(request) != "application/json":
        raise unknown_type("application/json")
    asked = _asked(body)
    if len(asked) > settings.fetch_logs:
        sentence = f"one request asks for at most {settings.fetch_logs} logs"
        raise Problem(HTTPStatus.REQUEST_ENTITY_TOO_LARGE, "TooMany", sentence)
    return json_answer(await registry.read(_fetched, registry, asked))


def _asked(body: bytes) -> dict[str, int]:
    """The logs that are asked for, and how many records of each the asker has."""
    try:
        value = json.loads(body.decode())
    except (ValueError, RecursionError):
        raise bad_request("BadBody", "the body is no JSON") from None
    logs = value.get("logs") if isinstance(value, dict) and value.keys() == {"logs"} else None
    if not isinstance(logs, dict):
        raise bad_request("BadBody", "the body has no object logs, or has more members")
    for it, count in logs.items():
        if not is_id(it) or type(count) is not int or whole(str(count)) is None:
            raise bad_request("BadBody", "logs has a name that is no id, or a value that is no number below 2^63")
    return logs


def _fetched(registry: Registry, asked: dict[str, int]) -> dict[str, object]:
    settings, rows = registry.settings, registry.storage.logs(list(asked))
    found: dict[str, object] = {}
    left, bytes_left, has_more = settings.answer_records, settings.answer_bytes, False
    for log_id, row in rows.items():
        start = asked[log_id]
        wanted = row.length - start
        if wanted <= 0:
            continue
        if found and (left <= 0 or bytes_left <= 0):
            has_more = True
            break
        envelopes = registry.storage.records(log_id, start, min(left, wanted), bytes_left)
        size = sum(map(len, envelopes))
        if found and size > bytes_left:
            has_more = True
            break
        left, bytes_left, has_more = left - len(envelopes), bytes_left - size, has_more or len(envelopes) < wanted
        texts = [base64.b64encode(it).decode() for it in envelopes]
        found[log_id] = {"head": row.head, "count": row.length, "envelopes": texts}
    return {"logs": found, "unknown": [it for it in asked if it not in rows], "more": has_more}
