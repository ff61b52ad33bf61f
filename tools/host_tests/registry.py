"""The tests of the registry server."""
import pathlib

from common import ROOT
from host_tests import web
from host_tests.machine import registry_interpreter, succeeds
from host_tests.runs import Hosts, counted_of_unittest


def test(hosts: Hosts, wheel: pathlib.Path | None) -> None:
    """The package, as pip installs it beside that of Python, of which this is the wheel."""
    python = registry_interpreter()
    if python is None:
        why = "no Python here has starlette, uvicorn, h11, prometheus_client, jsonschema, yaml and cryptography"
        hosts.leave_out("registry", why)
        return
    package, installed = ROOT / "registry", hosts.folder / "installed-registry"
    kept = {"PYTHONPATH": str(installed), "PYTHONDONTWRITEBYTECODE": "1"}
    if wheel and succeeds(python, "-c", "import pip, hatchling.build"):
        words = [python, "-m", "pip", "install", "-q", "--no-deps", "--no-build-isolation", "--target", str(installed)]
        hosts.run("registry: pip install", [*words, str(wheel), str(package)], {"PIP_NO_INDEX": "1"})
    else:
        hosts.leave_out("registry: pip", "it is not installed, or no Python here has hatchling (python3-hatchling)")
        sources = (ROOT / "bindings/python/src", package / "src")
        kept |= {"PYTHONPATH": ":".join(map(str, sources)), "WEOLDRIN_LIBRARY": str(hosts.library / "libwarg.so")}
    kept["WEOLDRIN_BROWSERS"] = " ".join(web.browsers_there(hosts, "registry"))
    words = [python, "-m", "unittest", "discover", "-v", "-s", str(package / "tests"), "-t", str(package)]
    hosts.run("registry: unittest", words, kept, counted_of_unittest)
