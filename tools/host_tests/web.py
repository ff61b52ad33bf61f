"""The tests of the page of web/."""
import shutil
import sys

from common import ROOT
from host_tests.machine import offered
from host_tests.runs import Hosts, counted_of_edits, counted_of_unittest

BROWSERS = ("chromium", "firefox-esr")


def browsers_there(hosts: Hosts, part: str) -> list[str]:
    """The browsers that this machine has, for the tests of a part. Of the others it is said that they are missing."""
    there = [it for it in BROWSERS if shutil.which(it)]
    for browser in BROWSERS:
        if browser not in there:
            hosts.lack(f"{part}: {browser}", "it is not installed", offered(browser) is not None)
    return there


def test(hosts: Hosts) -> None:
    """The page, in each browser that is there, and wrong edits of it in one."""
    library = hosts.library.parent / "wasm/libwarg.wasm"
    if not library.is_file():
        hosts.leave_out("web", f"there is no {library}")
        return
    there = browsers_there(hosts, "web")
    if not there:
        return
    words = [sys.executable, "-m", "unittest", "discover", "-v", "-s", str(ROOT / "web/tests")]
    kept = {"WEOLDRIN_BROWSERS": " ".join(there), "WEOLDRIN_LIBRARY": str(library), "PYTHONDONTWRITEBYTECODE": "1"}
    hosts.run("web: unittest", words, kept, counted_of_unittest)
    if "chromium" in there:
        words = [sys.executable, str(ROOT / "web/tests/wrong_edits.py")]
        hosts.run("web: wrong edits", words, kept, counted_of_edits)
