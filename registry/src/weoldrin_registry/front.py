"""What stands before all routes: requests of no good form, errors as documents, a line for each request."""

from __future__ import annotations

import time
from http import HTTPStatus

from starlette.exceptions import HTTPException
from starlette.requests import ClientDisconnect, Request
from starlette.responses import Response
from starlette.types import ASGIApp, Message, Receive, Scope, Send

from weoldrin import Error, OutOfMemory

from .lines import tell, tell_error
from .problems import Problem, bad_request, not_found, unavailable
from .registry import Registry
from .storage import DiskFull, Locked, StorageError, Unreachable

# What a line says in place of a status where the client went away.
_NO_STATUS = 0
# The bytes of a part of a path: a file's name has no more.
_LONGEST_PART = 255


def problem_of(error: Exception) -> Problem:
    """What is told of an error."""
    if isinstance(error, Problem):
        return error
    if isinstance(error, DiskFull):
        return Problem(HTTPStatus.INSUFFICIENT_STORAGE, "DiskFull", "there is no room on the registry's disk")
    if isinstance(error, Locked):
        return unavailable("Busy", "another writer has the lock of the storage")
    if isinstance(error, Unreachable):
        return unavailable("NoStorage", "the storage can't be reached now")
    if isinstance(error, OutOfMemory):
        return unavailable("OutOfMemory", "there is no memory for this now")
    if isinstance(error, HTTPException):
        return _of_routing(error)
    return Problem(HTTPStatus.INTERNAL_SERVER_ERROR, "Internal", "the registry failed; its operator can see of what")


def _of_routing(error: HTTPException) -> Problem:
    if error.status_code == HTTPStatus.METHOD_NOT_ALLOWED:
        found = Problem(HTTPStatus.METHOD_NOT_ALLOWED, "BadMethod", "this address has no such method")
        return found.with_headers(**{"Allow": (error.headers or {}).get("Allow", "GET, HEAD")})
    return not_found("NotFound", "there is no such address")


async def told(request: Request, error: Exception) -> Response:
    """The answer to a request that failed."""
    found = problem_of(error)
    request.scope["weoldrin.problem"] = found.name
    if isinstance(error, (StorageError, Error)):
        tell(f"{type(error).__name__}: {error}")
    return found.response()


def _check(scope: Scope) -> None:
    """Refuses a path that can name no file, and a body that no route reads."""
    if "\0" in scope["path"] or max(len(it.encode()) for it in scope["path"].split("/")) > _LONGEST_PART:
        raise not_found("NotFound", "there is no such address")
    if scope["method"] not in ("GET", "HEAD"):
        return
    for name, value in scope["headers"]:
        if name == b"transfer-encoding" or (name == b"content-length" and value.strip(b"0")):
            raise bad_request("BodyBehindGet", "a GET has no body")


class Front:
    """The application, behind what is the same for all requests."""

    def __init__(self, app: ASGIApp, registry: Registry) -> None:
        self._app, self._registry = app, registry

    async def __call__(self, scope: Scope, receive: Receive, send: Send) -> None:
        if scope["type"] != "http":
            await self._app(scope, receive, send)
            return
        began, status, size = time.perf_counter(), _NO_STATUS, 0
        ended: float | None = None

        async def sent(message: Message) -> None:
            nonlocal status, size, ended
            if message["type"] == "http.response.start":
                status = message["status"]
                if status >= 400 and any(name == b"expect" for name, _ in scope["headers"]):
                    # The client may leave its body out, and what it sends then would be taken for it.
                    message["headers"] = [*message["headers"], (b"connection", b"close")]
            size += len(message.get("body", b""))
            await send(message)
            # What is done behind the answer is no part of its time.
            ended = time.perf_counter()

        try:
            _check(scope)
            await self._app(scope, receive, sent)
        except Problem as error:
            scope["weoldrin.problem"] = error.name
            await error.response()(scope, receive, sent)
        except ClientDisconnect:
            pass
        except Exception as error:
            # It was answered where it was raised.
            tell_error(error)
        finally:
            self._note(scope, status, size, (ended or time.perf_counter()) - began)

    def _note(self, scope: Scope, status: int, size: int, seconds: float) -> None:
        """Counts a request, and prints its line."""
        call, metrics = getattr(scope.get("endpoint"), "__name__", "none"), self._registry.metrics
        metrics.requests.labels(call, str(status)).inc()
        metrics.seconds.labels(call).observe(seconds)
        name = scope.get("weoldrin.problem", "-")
        if name != "-":
            metrics.problems.labels(name).inc()
        client = ":".join(map(str, scope.get("client") or ("-",)))
        query = scope["query_string"].decode("latin-1")
        target = scope.get("raw_path", b"").decode("latin-1") + (f"?{query}" if query else "")
        tell(f"{client} {scope['method']} {target} {status} {size} {seconds * 1000:.1f} {name}")
