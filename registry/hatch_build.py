"""What hatchling does beside copying the package: the page on which logs are checked, and what it loads, get into the
wheel, and into the archive of the sources.

In an editable install nothing is copied: the package finds the repository from its own place. Where the page is not
whole, here or in the repository around this folder, the wheel is built without it, which is said, also at each start.
"""

from __future__ import annotations

import pathlib
from typing import Any

from hatchling.builders.hooks.plugin.interface import BuildHookInterface

HERE = pathlib.Path(__file__).resolve().parent
# What the page loads, and nothing that tests or measures it.
PARTS = (
    "web/index.html",
    "web/style.css",
    "web/src",
    "bindings/js/src",
    "dist/wasm/libwarg.wasm",
    "examples/p256/package.hex",
)
# In the archive of the sources the page lies in page/, and in the repository at the top.
ROOT = next((root for root in (HERE / "page", HERE.parent) if all((root / it).exists() for it in PARTS)), None)


class CustomBuildHook(BuildHookInterface):
    """The hook: hatchling finds it by its base."""

    PLUGIN_NAME = "custom"

    def initialize(self, version: str, build_data: dict[str, Any]) -> None:
        """Says what gets into a wheel, or into the archive of the sources, beside what lies here."""
        if self.target_name == "wheel" and version == "editable":
            return
        if ROOT is None:
            self.app.display_warning("the page is not here: an installed copy will not serve it")
            return
        to = "page" if self.target_name == "sdist" else "weoldrin_registry/_page"
        for it in PARTS:
            build_data["force_include"][str(ROOT / it)] = f"{to}/{it}"
