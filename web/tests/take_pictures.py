"""Takes the pictures of the page's screens anew, in docs/pictures/, by Chromium.

    python3 web/tests/take_pictures.py
"""
import pathlib
import sys
import tempfile

import logs
from browsers import Chromium, begun, end_all
from canned import Canned
from logs import EXAMPLES
from page import JUDGED
from served import ROOT, Edited, Served
from small_png import smaller
from test_checkpoints import MADE
from test_proofs import CHECKPOINT, INCLUSION, MATH, RECORD
from test_registry import CLOCK

FOLDER = ROOT / "docs/pictures"
# A picture is no larger.
MOST = 80_000


class Pictures:
    """A browser, and the pictures that are taken of it."""

    def __init__(self, browser: Chromium, address: str) -> None:
        self.browser, self.address = browser, address

    def begin(self, width: int, height: int, is_dark: bool = False) -> None:
        """Opens the page anew, of a size."""
        self.browser.resize(width, height)
        self.browser.darken(is_dark)
        self.browser.open(self.address)
        self.browser.wait('performance.getEntriesByName("weoldrin-ready").length')

    def drop(self, *paths: pathlib.Path, are_toys: bool = True) -> None:
        """Drops logs."""
        self.browser.run(f"document.getElementById('toy').checked = {str(are_toys).lower()}")
        self.browser.drop(list(paths))
        self.browser.wait(JUDGED.format(len(paths)))

    def take(self, name: str, at: str, wanted: str = "body") -> None:
        """Takes a picture, with an element at the top, once another one is there."""
        self.browser.wait(f"document.querySelector({wanted!r})")
        self.browser.run(f"document.querySelector({at!r}).scrollIntoView()")
        self.browser.run("await new Promise((done) => requestAnimationFrame(() => requestAnimationFrame(done)))")
        data = smaller(self.browser.picture())
        if len(data) > MOST:
            raise SystemExit(f"{name}.png has {len(data)} bytes")
        (FOLDER / f"{name}.png").write_bytes(data)


def take_all(pictures: Pictures, folder: pathlib.Path) -> None:
    browser = pictures.browser
    pictures.begin(720, 800)
    pictures.drop(EXAMPLES / "p256/package.hex", are_toys=False)
    pictures.take("web-verdict", "#results", ".columns")
    pictures.take("web-records", "#shown", ".columns")
    browser.run("document.getElementById('tab-keys').click()")
    pictures.take("web-keys", "#shown", ".tree li")
    browser.run("document.getElementById('tab-releases').click()")
    browser.resize(720, 420)
    pictures.take("web-releases", "#shown", "#panel-releases tbody tr")
    pictures.begin(720, 620)
    pictures.drop(EXAMPLES / "package_forged.hex")
    browser.run("document.querySelector('.card details').open = true")
    pictures.take("web-refused", "#results")
    pictures.begin(720, 760)
    pictures.drop(EXAMPLES / "package_releases.hex", logs.write(folder, "another_copy.hex", logs.forked()))
    pictures.take("web-fork", "#compare", ".sides")
    pictures.begin(720, 800)
    fields = {"checkpoint": str(CHECKPOINT).replace("'", '"'), "log-name": MATH, "record-id": RECORD, "leaf": "2"}
    for name, value in {**fields, "proof": INCLUSION}.items():
        browser.run(f"document.getElementById({name!r}).value = {value!r}")
    browser.run("document.getElementById('proof-form').requestSubmit()")
    pictures.take("web-checkpoint", "#proofs", "#proof-said [data-holds]")
    pictures.begin(720, 640)
    pictures.drop(EXAMPLES / "operator_namespaces.hex")
    browser.run("document.getElementById('tab-namespaces').click()")
    pictures.take("web-namespaces", "#shown", "#panel-namespaces tbody tr")
    pictures.begin(720, 620)
    operators = logs.write(folder, "operators.hex", MADE["log"].encode())
    pictures.drop(operators, logs.write(folder, "checkpoint.json", MADE["published"].encode()), are_toys=False)
    pictures.take("web-signed", "#results", "[data-signer=signed]")
    pictures.begin(360, 740, is_dark=True)
    pictures.drop(EXAMPLES / "p256/package.hex", are_toys=False)
    pictures.take("web-narrow-dark", "#results", ".columns")


def take_registry(browser: Chromium) -> None:
    """The picture of a package of a registry, of canned answers, by a page whose clock is theirs."""
    served, canned = Edited(CLOCK), Canned()
    try:
        pictures = Pictures(browser, served.address)
        pictures.begin(720, 860)
        browser.wait("document.getElementById('other').open")
        browser.run("document.getElementById('package').value = 'example:math'")
        browser.run(f"document.getElementById('registry').value = {canned.address!r}")
        browser.run("document.getElementById('verify-form').requestSubmit()")
        pictures.take("web-registry", "#verify", "[data-verdict=verified]")
    finally:
        canned.close()
        served.close()


def main() -> int:
    """Takes all."""
    FOLDER.mkdir(exist_ok=True)
    browser = begun("chromium")
    assert isinstance(browser, Chromium)
    served = Served()
    try:
        with tempfile.TemporaryDirectory() as folder:
            take_all(Pictures(browser, served.address), pathlib.Path(folder))
        take_registry(browser)
    finally:
        end_all()
        served.close()
    return 0


if __name__ == "__main__":
    sys.exit(main())
