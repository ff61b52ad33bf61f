"""The application (ASGI)."""

from __future__ import annotations

from collections.abc import AsyncIterator
from contextlib import asynccontextmanager

from starlette.applications import Starlette
from starlette.exceptions import HTTPException
from starlette.routing import BaseRoute, Route
from starlette.types import ASGIApp

from weoldrin import Error

from . import page
from .front import Front, told
from .problems import Problem
from .registry import Registry
from .routes import lists, proofs, publish, records
from .storage import StorageError


def _routes() -> list[BaseRoute]:
    return [
        Route("/v1/health", lists.health),
        Route("/v1/metrics", lists.metrics_text),
        Route("/v1/package/{name}/record", publish.publish_package_record, methods=["POST"]),
        Route("/v1/operator/record", publish.publish_operator_record, methods=["POST"]),
        Route("/v1/package/{name}/records", records.package_records),
        Route("/v1/operator/records", records.operator_records),
        Route("/v1/logs/{log_id}/records", records.log_records),
        Route("/v1/fetch/logs", records.fetch_logs, methods=["POST"]),
        Route("/v1/names", lists.names),
        Route("/v1/leaves", lists.leaves),
        Route("/v1/leaf", lists.leaf),
        Route("/v1/checkpoint", lists.newest_checkpoint),
        Route("/v1/checkpoint/{length}", lists.checkpoint),
        Route("/v1/proof/inclusion", proofs.inclusion),
        Route("/v1/proof/consistency", proofs.consistency),
        Route("/v1/proof/map", proofs.head),
    ]


def application(registry: Registry) -> ASGIApp:
    """The application that answers from a registry, which it starts and stops."""

    @asynccontextmanager
    async def lifespan(_: Starlette) -> AsyncIterator[None]:
        registry.start()
        try:
            yield
        finally:
            registry.stop()

    errors = {it: told for it in (Problem, HTTPException, StorageError, Error, Exception)}
    app = Starlette(
        routes=[*_routes(), *page.routes(registry.settings.static)], exception_handlers=errors, lifespan=lifespan
    )
    app.router.redirect_slashes = False
    app.state.registry = registry
    return Front(app, registry)
