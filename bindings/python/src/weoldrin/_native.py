"""What of the package is made for one machine: the library, and the program `weoldrin`."""

import pathlib
import platform
import sys

_HERE = pathlib.Path(__file__).resolve().parent
# The folder of the sources, where the package is used from there, as an editable install does.
_SOURCES = _HERE.parent.parent


def found(name: str) -> pathlib.Path | None:
    """The file of this name that is made for this machine: of the wheel, or of the sources that an editable install
    leads to. None where the wheel is one for all machines, or the sources have nothing for this one."""
    folders = [_HERE / "_native"]
    if sys.platform == "linux" and (_SOURCES / "hatch_build.py").is_file():
        machine = f"{platform.machine()}-linux"
        folders += [_SOURCES / "native" / machine, _SOURCES.parent.parent / "dist" / machine]
    return next((path for it in folders if (path := it / name).is_file()), None)


def machine() -> str:
    """What this machine is, in words."""
    c_library = " ".join(platform.libc_ver()).strip()
    return f"{platform.system()} on {platform.machine()}" + (f" with {c_library}" if c_library else "")
