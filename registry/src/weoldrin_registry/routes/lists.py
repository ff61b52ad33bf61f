"""Names, leaves and checkpoints; health and metrics."""

from __future__ import annotations

import hashlib
from http import HTTPStatus

from starlette.requests import Request
from starlette.responses import Response

from .. import __version__, metrics
from ..problems import bad_request, not_found
from ..publishing import Published, no_log
from ..registry import Registry
from .words import has_tag, is_id, json_answer, json_text, no_checkpoint, number, query, registry_of, whole

_LONGEST = 128
# What never changes.
_FOR_EVER = "public, max-age=31536000, immutable"


async def health(request: Request) -> Response:
    """That the registry answers."""
    query(request)
    registry = registry_of(request)
    length, newest = await registry.read(_lengths, registry)
    return json_answer({"status": "ok", "version": __version__, "logLength": length, "checkpointLength": newest})


def _lengths(registry: Registry) -> tuple[int, int | None]:
    newest = registry.checkpoints.current()
    return registry.storage.length(), newest.length if newest else None


async def metrics_text(request: Request) -> Response:
    """What Prometheus reads."""
    query(request)
    registry = registry_of(request)
    return Response(await registry.read(_measured, registry), 200, None, metrics.CONTENT_TYPE)


def _measured(registry: Registry) -> bytes:
    found, newest = registry.metrics, registry.checkpoints.current()
    count, size = registry.handles.size()
    found.handles.set(count)
    found.handle_bytes.set(size)
    found.leaves.set(registry.storage.length())
    found.checkpoint_leaves.set(newest.length if newest else 0)
    found.checkpoint_time.set(newest.signed.contents.timestamp if newest else 0)
    return found.text()


async def names(request: Request) -> Response:
    """Packages, by the beginning of their names."""
    words = query(request, "prefix", "after")
    prefix, after = words.get("prefix", ""), words.get("after", "")
    if max(len(prefix), len(after)) > _LONGEST or "\0" in prefix + after:
        raise bad_request("BadQuery", f"prefix and after have at most {_LONGEST} characters")
    registry = registry_of(request)
    most = registry.settings.answer_records
    rows = await registry.read(registry.storage.names, prefix, after, most + 1)
    listed = [{"name": it.name, "logId": it.log_id, "head": it.head, "count": it.length} for it in rows[:most]]
    answer: dict[str, object] = {"names": listed}
    if len(rows) > most:
        answer["next"] = rows[most - 1].name
    return json_answer(answer)


async def leaves(request: Request) -> Response:
    """Leaves of the registry's log."""
    start, registry = number(query(request, "from"), "from") or 0, registry_of(request)
    most = registry.settings.answer_leaves
    rows = await registry.read(registry.storage.leaves, start, most + 1)
    headers = {"Cache-Control": "no-cache"}
    if len(rows) > most:
        headers["Link"] = f'<{request.scope["path"]}?from={start + most}>; rel="next"'
    lines = [f"{log_id} {record_id}\n" for log_id, record_id in rows[:most]]
    return Response("".join(lines), 200, headers, "text/plain")


async def leaf(request: Request) -> Response:
    """Where a record of a log stands: in its log, and its leaf in the registry's log."""
    words, registry = query(request, "log", "record"), registry_of(request)
    log_id, record_id = words.get("log", ""), words.get("record", "")
    if not is_id(log_id) or not is_id(record_id):
        raise bad_request("BadQuery", "log or record is missing, or no id")
    standing = await registry.read(registry.storage.place, log_id, record_id)
    if standing is None:
        if await registry.read(registry.storage.log, log_id) is None:
            raise no_log()
        raise not_found("NoRecord", "the log has no such record")
    return _kept(request, json_text(Published(record_id, log_id, *standing).members()), _FOR_EVER)


async def newest_checkpoint(request: Request) -> Response:
    """The newest checkpoint."""
    query(request)
    registry = registry_of(request)
    newest = await registry.read(registry.checkpoints.current)
    if newest is None:
        raise no_checkpoint()
    return _kept(request, newest.text, "no-cache")


async def checkpoint(request: Request) -> Response:
    """The first checkpoint of a length."""
    query(request)
    length, registry = whole(request.path_params["length"]), registry_of(request)
    if length is None:
        raise not_found("NotFound", "the length of a checkpoint is a number below 2^63")
    text = await registry.read(registry.storage.checkpoint, length)
    if text is None:
        raise no_checkpoint(" of this length")
    return _kept(request, text, _FOR_EVER)


def _kept(request: Request, text: str, kept: str) -> Response:
    """An answer of JSON that may be kept so, with a tag."""
    headers = {"ETag": f'"{hashlib.sha256(text.encode()).hexdigest()}"', "Cache-Control": kept}
    if has_tag(request, headers["ETag"]):
        return Response(status_code=HTTPStatus.NOT_MODIFIED, headers=headers)
    return Response(text, 200, headers, "application/json")
