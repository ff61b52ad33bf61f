"""Publishing records."""

from __future__ import annotations

from starlette.background import BackgroundTask
from starlette.requests import Request
from starlette.responses import Response

from weoldrin import LogKind

from .. import envelopes
from ..problems import bad_request
from ..publishing import LogName, log_name
from .words import body_of, checkpoint_json, content_type, json_answer, query, registry_of, unknown_type

_PROTOBUF, _JSON = "application/protobuf", "application/json"


async def publish_package_record(request: Request) -> Response:
    """Appends a record to a package's log."""
    return await _published(request, log_name(LogKind.PACKAGE, request.path_params["name"]))


async def publish_operator_record(request: Request) -> Response:
    """Appends a record to the operator log."""
    return await _published(request, log_name(LogKind.OPERATOR))


async def _published(request: Request, log: LogName) -> Response:
    query(request)
    registry = registry_of(request)
    envelope = await _envelope(request)
    new, newest = await registry.written(registry.publish, log, envelope)
    members = new.members()
    if newest is not None:
        members["checkpoint"] = checkpoint_json(newest.text)
    response = json_answer(members, 201, {"Location": f"{request.scope['path']}s?from={new.place}"})
    if registry.handles.is_due(log.log_id):
        response.background = BackgroundTask(registry.saved, log)
    return response


async def _envelope(request: Request) -> bytes:
    """The envelope of the body."""
    settings, kind = registry_of(request).settings, content_type(request)
    if kind not in (_PROTOBUF, _JSON):
        # What is too long is told so first, before any of it is read.
        await body_of(request, settings.body_bytes, settings.body_seconds)
        raise unknown_type(_PROTOBUF, _JSON)
    body = await body_of(request, settings.body_bytes, settings.body_seconds)
    if kind == _PROTOBUF:
        return body
    try:
        return envelopes.from_json(body)
    except ValueError as error:
        raise bad_request("BadBody", str(error)) from None
