"""What the tests of the page share: a browser for each of them, and what they do with it."""
import json
import os
import pathlib
import tempfile
import unittest
from collections.abc import Callable

from browsers import Browser, begun, is_there
from served import Served

# That so many logs have their verdicts.
JUDGED = "document.querySelectorAll('.card').length === {0} && !document.querySelector('.card.busy')"
MOST = 16_777_216
NAMES = os.environ.get("WEOLDRIN_BROWSERS", "chromium firefox-esr").split()
Loading = Callable[[unittest.TestLoader, unittest.TestSuite, str | None], unittest.TestSuite]


class PageTests(unittest.TestCase):
    """What holds in each browser."""

    browser_name = ""
    browser: Browser
    served: Served
    kept: tempfile.TemporaryDirectory[str]
    folder: pathlib.Path

    @classmethod
    def setUpClass(cls) -> None:
        if not is_there(cls.browser_name):
            raise unittest.SkipTest(f"{cls.browser_name} is not installed")
        cls.browser = begun(cls.browser_name)
        cls.served = Served()
        cls.kept = tempfile.TemporaryDirectory(prefix="weoldrin-")
        cls.folder = pathlib.Path(cls.kept.name)

    @classmethod
    def tearDownClass(cls) -> None:
        cls.served.close()
        cls.kept.cleanup()

    def setUp(self) -> None:
        self.browser.resize(1000, 900)
        self.opened(self.served.address)

    def opened(self, address: str) -> None:
        """Opens the page, and waits until it is ready, or says why it will not be."""
        self.browser.open(address)
        self.browser.wait('performance.getEntriesByName("weoldrin-ready").length || !at("trouble").hidden')

    def text(self, selector: str) -> str:
        """The text that an element shows."""
        found: str = self.browser.run(f"return document.querySelector({json.dumps(selector)})?.innerText ?? ''")
        return found

    def dropped(self, *paths: pathlib.Path, count: int = 0) -> str:
        """Drops files, waits for their verdicts, and gives what the list says."""
        self.browser.drop(list(paths))
        self.browser.wait(JUDGED.format(count or len(paths)))
        return self.text("#verdicts")

    def fetched(self, address: str, count: int = 1) -> str:
        """Has a log be fetched from an address, waits for so many verdicts, and gives what the list says."""
        self.browser.run(f"at('address').value = new URL({json.dumps(address)}, location.href).href")
        self.browser.run("document.querySelector('#by-address').requestSubmit()")
        self.browser.wait(JUDGED.format(count))
        return self.text("#verdicts")

    def clicked(self, selector: str, text: str = "") -> None:
        """Clicks on the first element that is there with a text in it."""
        words = (json.dumps(selector), json.dumps(text))
        script = f"[...document.querySelectorAll({words[0]})].find((it) => it.textContent.includes({words[1]})).click()"
        self.browser.run(script)

    def proved(self, what: str, **fields: str) -> str:
        """Fills the form of proofs in, and gives what is said."""
        script = f"at('what').value = {json.dumps(what)}; at('what').dispatchEvent(new Event('change'));"
        for name, value in fields.items():
            script += f"at({json.dumps(name.replace('_', '-'))}).value = {json.dumps(value)};"
        script += "at('proof-form').requestSubmit();"
        self.browser.run(script)
        self.browser.wait("at('proof-said').textContent !== ''")
        return self.text("#proof-said")

    def with_toys(self) -> None:
        """Has toy signatures be taken."""
        self.browser.run("at('toy').checked = true")

    def looks(self) -> list[str]:
        """How the verdicts look, in their order."""
        looks = "return [...document.querySelectorAll('.card')].map((it) => it.dataset.look)"
        found: list[str] = self.browser.run(looks)
        return found

    def tab(self, name: str, wanted: str) -> str:
        """What stands in a tab, once this is there."""
        self.browser.run(f"at('tab-{name}').click()")
        self.browser.wait(f"document.querySelector({json.dumps(f'#panel-{name} {wanted}')})")
        return self.text(f"#panel-{name}")


def in_each(*parts: type[PageTests]) -> Loading:
    """What loads the tests of these classes, for each browser by itself."""

    def load(loader: unittest.TestLoader, _tests: unittest.TestSuite, _pattern: str | None) -> unittest.TestSuite:
        found = unittest.TestSuite()
        for name in NAMES:
            for part in parts:
                title = f"{part.__name__}In{name.partition('-')[0].title()}"
                words = {"browser_name": name, "__module__": part.__module__}
                found.addTests(loader.loadTestsFromTestCase(type(title, (part,), words)))
        return found

    return load
