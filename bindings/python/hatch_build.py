"""What hatchling does beside copying the package: the library of dist/, and the program `weoldrin`, get into the wheel
of the machines that run them, and into the archive of the sources.

The environment's WEOLDRIN_WHEEL names the wheel that is built by the last part of its name: `manylinux2014_x86_64`,
`manylinux_2_34_x86_64`, as many more as dist/ has machines, or `any`, which has neither. Otherwise it is the first one
of `wheels()` that runs on the machine that builds it. In an editable install nothing is copied: the package finds dist/
from its own place. WEOLDRIN_LIBRARY names another file of the library.
"""

from __future__ import annotations

import os
import pathlib
import platform
import re
import sys
from typing import Any

from hatchling.builders.hooks.plugin.interface import BuildHookInterface

HERE = pathlib.Path(__file__).resolve().parent
# In the repository what is built for each machine lies in dist/, and in the archive of the sources in native/.
NATIVE = next(it for it in (HERE / "native", HERE.parent.parent / "dist") if it.is_dir())
LIBRARY, PROGRAM = "libwarg.so", "weoldrin"
# The version of glibc that a name stands for.
NAMED = {"manylinux2014": (2, 17)}


def needed(path: pathlib.Path) -> tuple[int, int]:
    """The version of glibc that a library or a program needs at least, by the names of versions that it has."""
    found = re.findall(rb"\0GLIBC_(\d+)\.(\d+)(?=[\0.])", path.read_bytes())
    return max(((int(first), int(second)) for first, second in found), default=(2, 0))


def glibc_of(tag: str) -> tuple[int, int]:
    """The version of glibc that the machines have which take a wheel of this name."""
    name = re.sub("_(x86_64|aarch64)$", "", tag)
    if name in NAMED:
        return NAMED[name]
    found = re.fullmatch(r"manylinux_(\d+)_(\d+)", name)
    if not found:
        raise SystemExit(f"weoldrin has no wheel {tag}, but {', '.join(wheels())}")
    return int(found[1]), int(found[2])


def files(tag: str) -> dict[pathlib.Path, str]:
    """What is built for a machine and goes into its wheel, and where: all that needs no later glibc than the name
    promises."""
    if tag == "any":
        return {}
    machine = "aarch64" if tag.endswith("aarch64") else "x86_64"
    of_dist = NATIVE / f"{machine}-linux" / LIBRARY
    library = pathlib.Path(os.environ.get("WEOLDRIN_LIBRARY") or of_dist)
    if not library.is_file():
        raise SystemExit(f"there is no library {library}: the wheel {tag} is left out")
    found = {library: f"weoldrin/_native/{LIBRARY}"}
    program = of_dist.with_name(PROGRAM)
    if program.is_file():
        found[program] = f"weoldrin/_native/{PROGRAM}"
    fitting = {path: to for path, to in found.items() if needed(path) <= glibc_of(tag)}
    if library not in fitting:
        raise SystemExit(f"{library} needs a later glibc than the name {tag} promises")
    return fitting


def wheels() -> list[str]:
    """The wheels of a version, the best of each machine first. Where a program needs a later glibc than the library,
    there is a wheel with it and one without."""
    found = []
    for folder in sorted(it.name for it in NATIVE.iterdir() if (it / LIBRARY).is_file()):
        machine = folder.partition("-")[0]
        program = NATIVE / folder / PROGRAM
        if program.is_file() and needed(program) > NAMED["manylinux2014"]:
            found.append("manylinux_{}_{}_{}".format(*needed(program), machine))
        found.append(f"manylinux2014_{machine}")
    return [*found, "any"]


def of_this_machine() -> str:
    """The wheel that runs here."""
    name, version = platform.libc_ver()
    if sys.platform != "linux" or name != "glibc":
        return "any"
    first, second = (int(it) for it in version.split(".")[:2])
    fitting = (it for it in wheels() if it.endswith(f"_{platform.machine()}") and glibc_of(it) <= (first, second))
    return next(fitting, "any")


class CustomBuildHook(BuildHookInterface):
    """The hook: hatchling finds it by its base."""

    PLUGIN_NAME = "custom"

    def initialize(self, version: str, build_data: dict[str, Any]) -> None:
        """Says what gets into a wheel, or into the archive of the sources, beside what lies here."""
        included = build_data["force_include"]
        if self.target_name == "sdist":
            for it in sorted(NATIVE.glob("*-linux/*")):
                if it.name in (LIBRARY, PROGRAM):
                    included[str(it)] = f"native/{it.parent.name}/{it.name}"
        elif version != "editable":
            tag = os.environ.get("WEOLDRIN_WHEEL") or of_this_machine()
            build_data["tag"] = f"py3-none-{tag}"
            build_data["pure_python"] = tag == "any"
            included.update({str(path): to for path, to in files(tag).items()})
