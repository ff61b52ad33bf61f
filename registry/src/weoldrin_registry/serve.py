"""Serves a registry."""

from __future__ import annotations

import logging
import resource
import socket
import sys
from collections.abc import Callable
from typing import Any

import uvicorn

from .app import application
from .lines import Lines
from .protocol import protocol_of
from .registry import Registry
from .settings import Settings

# Files that are open beside connections: the storage's, of each thread, and what is served.
_OTHER_FILES = 128


class Server(uvicorn.Server):  # type: ignore[misc]
    """A server that says when it answers."""

    def __init__(self, config: uvicorn.Config, started: Callable[[], None]) -> None:
        super().__init__(config)
        self._say_started = started

    async def startup(self, sockets: list[socket.socket] | None = None) -> None:
        """Begins to answer."""
        await super().startup(sockets)
        if self.started:
            self._say_started()


def _bound_files(settings: Settings) -> None:
    """Sees that there are as many open files as connections may need. Raises `OSError`."""
    wanted = 2 * settings.connections + _OTHER_FILES + 4 * settings.threads
    soft, hard = resource.getrlimit(resource.RLIMIT_NOFILE)
    if soft == resource.RLIM_INFINITY or soft >= wanted:
        return
    if hard != resource.RLIM_INFINITY and hard < wanted:
        raise OSError(f"{settings.connections} connections need {wanted} open files, and {hard} may be opened")
    resource.setrlimit(resource.RLIMIT_NOFILE, (wanted, hard))


def _socket(settings: Settings) -> socket.socket:
    family = socket.AF_INET6 if ":" in settings.host else socket.AF_INET
    return socket.create_server((settings.host, settings.port), family=family, backlog=1024)


def serve(settings: Settings) -> bool:
    """Serves until it is stopped, and prints the address first. Whether it came to serve. Raises `OSError`."""
    handler = Lines()
    logger = logging.getLogger("uvicorn")
    logger.handlers, logger.propagate = [handler], False
    logger.setLevel(logging.ERROR)
    _bound_files(settings)
    # What computes in Python lets others go on sooner, as those that come back from the library.
    sys.setswitchinterval(0.001)
    listening = _socket(settings)
    host, port = listening.getsockname()[:2]
    address = f"http://[{host}]:{port}" if ":" in host else f"http://{host}:{port}"
    registry = Registry(settings)
    kept: dict[str, Any] = {
        "http": protocol_of(settings),
        "ws": "none",
        "loop": "asyncio",
        "lifespan": "on",
        "log_config": None,
        "access_log": False,
        "server_header": False,
        "headers": [("X-Content-Type-Options", "nosniff")],
        "timeout_keep_alive": settings.idle_seconds,
    }
    server = Server(uvicorn.Config(application(registry), **kept), lambda: print(address, flush=True))
    server.run(sockets=[listening])
    return bool(server.started)
