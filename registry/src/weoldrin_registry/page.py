"""The page on which logs are checked: of the wheel, of the sources, or of a folder that is named."""

from __future__ import annotations

import pathlib

from starlette.requests import Request
from starlette.responses import RedirectResponse, Response
from starlette.routing import BaseRoute, Mount, Route
from starlette.staticfiles import StaticFiles

from .lines import tell

_HERE = pathlib.Path(__file__).resolve().parent
# The folder of the sources, where the package is used from there, as an editable install does.
_SOURCES = _HERE.parent.parent
# What the page loads, and a file of each without which it is none.
_SERVED = {
    "web": "index.html",
    "bindings/js/src": "index.js",
    "examples": "p256/package.hex",
    "dist/wasm": "libwarg.wasm",
}


def _folders() -> list[pathlib.Path]:
    """Where the page may be: in the wheel, in the archive of the sources, and in the repository."""
    if not (_SOURCES / "hatch_build.py").is_file():
        return [_HERE / "_page"]
    return [_HERE / "_page", _SOURCES / "page", _SOURCES.parent]


def found(folder: str) -> pathlib.Path | None:
    """The folder of the page and of what it loads: the one that is named, or the one that came with the package. None
    where a part of it is missing."""
    folders = [pathlib.Path(folder)] if folder else _folders()
    return next((it for it in folders if all((it / part / file).is_file() for part, file in _SERVED.items())), None)


async def page(_: Request) -> Response:
    """Leads to the page."""
    return RedirectResponse("/static/web/index.html")


def routes(folder: str) -> list[BaseRoute]:
    """What serves the page. Where it is not found, nothing, which is said."""
    root = found(folder)
    if root is None:
        where = folder or "this installation"
        tell(f"the page is not served: {where} does not have its files; --static names a clone of the repository")
        return []
    mounted = [Mount(f"/static/{it}", StaticFiles(directory=root / it, check_dir=False)) for it in _SERVED]
    return [Route("/", page), *mounted]
