"""Who reaches the page, and where it runs."""
import pathlib
import re
import subprocess
from typing import Any

import logs
from browsers import UNSAFE
from logs import EXAMPLES
from page import JUDGED, PageTests, in_each
from served import ROOT, Edit, Edited, Tested
from test_checkpoints import MADE

# The engines that run the page, from these versions on.
RUN_IT = "Chromium 97, Firefox 114, Safari 16.4"
RULES = (pathlib.Path(__file__).parent / "rules.js").read_text(encoding="utf-8")


class Reached(PageTests):
    """The keyboard, readers of screens, narrow and dark pages."""

    def keep(self, rules_of: str) -> None:
        found: list[Any] = self.browser.run(RULES)
        self.assertEqual(found, [], rules_of)

    def every_screen(self) -> None:
        self.keep("the empty page")
        self.with_toys()
        fork = logs.write(self.folder, "fork.hex", logs.forked())
        self.dropped(EXAMPLES / "package_releases.hex", fork, EXAMPLES / "package_forged.hex")
        self.browser.run("document.querySelector('details').open = true")
        for name, wanted in [("records", ".record"), ("keys", ".tree li"), ("releases", "tbody tr")]:
            self.tab(name, wanted)
            self.keep(name)
        bad = logs.write(self.folder, "hostile.hex", logs.hostile_log())
        self.dropped(bad, count=4)
        self.clicked("#whole")
        self.clicked(".card:last-child button", "Show")
        self.tab("namespaces", "tbody tr")
        self.keep("namespaces")
        self.dropped(logs.write(self.folder, "it.json", MADE["published"].encode()), count=5)
        self.clicked(".card:last-child button", "Check a proof on it")
        self.browser.run("at('what').value = 'none'; at('what').dispatchEvent(new Event('change'));")
        self.browser.run("at('proof-form').requestSubmit()")
        self.browser.wait("at('proof-said').textContent !== ''")
        self.keep("a checkpoint")

    def test_rules(self) -> None:
        self.every_screen()

    def test_rules_at_360_pixels(self) -> None:
        self.browser.resize(360, 700)
        self.assertEqual(self.browser.run("return innerWidth"), 360)
        self.every_screen()

    def test_rules_in_the_dark(self) -> None:
        self.browser.darken(True)
        try:
            # Firefox darkens a page a little later than it is told to.
            self.browser.wait("matchMedia('(prefers-color-scheme: dark)').matches")
            self.every_screen()
        finally:
            self.browser.darken(False)

    def test_keyboard(self) -> None:
        # To the example, and on by keys alone.
        self.browser.run("document.activeElement?.blur()")
        for _ in range(12):
            self.browser.press("Tab")
            if self.browser.run("return document.activeElement.id") == "example":
                break
        self.assertEqual(self.browser.run("return document.activeElement.id"), "example")
        self.browser.press("Enter")
        self.browser.wait(JUDGED.format(1))
        self.assertEqual(self.browser.run("return document.activeElement.id"), "example")
        self.browser.run("at('tab-records').focus()")
        moves = {"ArrowRight": "keys", "End": "releases", "Home": "records", "ArrowLeft": "releases"}
        for key, tab in moves.items():
            self.browser.press(key)
            self.assertEqual(self.browser.run("return document.activeElement.id"), f"tab-{tab}")
            self.assertFalse(self.browser.run(f"return at('panel-{tab}').hidden"))
        self.browser.press("Tab")
        self.assertEqual(self.browser.run("return document.activeElement.id"), "panel-releases")

    def test_pages(self) -> None:
        self.with_toys()
        self.dropped(logs.write(self.folder, "some.hex", logs.made("250")))
        self.tab("records", ".record")
        shown = "return [document.querySelectorAll('.record').length, document.querySelector('ol.line').start]"
        self.assertEqual(self.browser.run(shown), [100, 0])
        self.assertIn("0 to 99 of 250", self.text("#panel-records .pager"))
        self.browser.run("document.querySelector('#panel-records [aria-label^=Last]').focus()")
        self.browser.press("Enter")
        self.browser.wait("document.querySelector('.record .number').textContent === '200'")
        self.assertEqual(self.browser.run(shown), [50, 200])
        # A button that is of no use any more keeps the focus.
        self.assertEqual(self.browser.run("return document.activeElement.textContent"), "Last")
        self.assertEqual(self.browser.run("return document.activeElement.getAttribute('aria-disabled')"), "true")


class Places(PageTests):
    """Where the page is served from, and what an engine lacks."""

    def test_one_file(self) -> None:
        path = self.folder / "weoldrin.html"
        subprocess.run([Tested.root / "tools/web", "--file", path], check=True)
        self.opened(path.as_uri())
        self.assertEqual(self.text("#trouble"), "")
        self.dropped(EXAMPLES / "p256/package.hex")
        self.assertEqual(self.looks(), ["good"])
        self.opened(path.as_uri())
        self.clicked("#example")
        self.browser.wait(JUDGED.format(1))
        self.assertEqual(self.looks(), ["good"])
        again = self.folder / "again.html"
        subprocess.run([Tested.root / "tools/web", "--file", again], check=True)
        self.assertEqual(again.read_bytes(), path.read_bytes())

    def test_sources_opened_as_a_file(self) -> None:
        self.browser.open((Tested.root / "web/index.html").as_uri())
        self.browser.wait("at('unopened').checkVisibility({ visibilityProperty: true })")
        said = self.text("#unopened")
        self.assertIn("run tools/web, which serves it, or tools/web --file", said)
        self.assertIn(f"the browser is too old: {RUN_IT} and later ones run it.", said)

    def test_engines(self) -> None:
        """One list says everywhere which engines run the page and the package."""
        page = [Tested.root / "web/index.html", Tested.root / "bindings/js/src/engine.js"]
        for path in (*page, ROOT / "web/README.md", ROOT / "bindings/js/README.md"):
            text = " ".join(path.read_text(encoding="utf-8").split())
            self.assertIn(RUN_IT, text, path)
            if path in page:
                self.assertEqual(len(re.findall("(?:Chromium|Firefox|Safari) [0-9]", text)), 3, path)

    def of_edited(self, *edits: Edit) -> str:
        """What a page with these edits says of an example."""
        served = Edited(*edits)
        try:
            self.opened(served.address)
            self.browser.drop([EXAMPLES / "p256/package.hex"])
            self.browser.wait(JUDGED.format(1))
            self.assertEqual(self.looks(), ["fault"])
            self.assertIn(self.text("#trouble")[:40], self.text("#verdicts"))
            return self.text("#trouble")
        finally:
            served.close()

    def test_no_vectors(self) -> None:
        said = self.of_edited(("bindings/js/src/engine.js", "65, 0, 253, 15, 11", "65, 0, 253, 255, 11"))
        self.assertIn(f"this engine has no WebAssembly with vectors of 128 bits (SIMD); {RUN_IT}", said)

    def test_no_module(self) -> None:
        said = self.of_edited(("web/src/main.js", "../dist/wasm/libwarg.wasm", "../dist/wasm/nothing.wasm"))
        self.assertIn("the library's module can't be had: the server answers 404. Serve the whole repository", said)

    def test_no_module_in_the_file(self) -> None:
        said = self.of_edited(("web/src/main.js", "../dist/wasm/libwarg.wasm", "../examples/leaves.txt"))
        self.assertIn("what is had is no library", said)

    def test_without_web_crypto(self) -> None:
        # A host that is not named localhost: no engine takes that for a safe place.
        self.opened(self.served.address.replace("localhost", UNSAFE))
        self.assertFalse(self.browser.run("return isSecureContext"))
        self.dropped(EXAMPLES / "p256/package.hex")
        self.assertEqual(self.looks(), ["good"])
        self.assertIn("This page was not served safely (by HTTPS, or from localhost)", self.text("#note"))


load_tests = in_each(Reached, Places)
