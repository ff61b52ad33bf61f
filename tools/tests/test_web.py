"""Tests of tools/web and of what it makes: what is served, and that the one file's policy lets its own scripts run and
no others. The page itself is tested in web/tests.
"""
import base64
import hashlib
import http.client
import pathlib
import re
import subprocess
import sys
import tempfile
import unittest
import urllib.parse

TOOLS = pathlib.Path(__file__).resolve().parents[1]
sys.path.insert(0, str(TOOLS))

import web_page
from host_tests.runs import counted_of_edits

ROOT = TOOLS.parent
LIBRARY = ROOT / "dist/wasm/libwarg.wasm"


class Serving(unittest.TestCase):
    """What the server answers."""

    process: subprocess.Popen[str]
    host: str

    @classmethod
    def setUpClass(cls) -> None:
        words = [str(TOOLS / "web"), "--no-browser"]
        cls.process = subprocess.Popen(words, stdout=subprocess.PIPE, text=True)
        assert cls.process.stdout
        cls.host = urllib.parse.urlsplit(cls.process.stdout.readline().split()[4]).netloc

    @classmethod
    def tearDownClass(cls) -> None:
        cls.process.terminate()
        cls.process.wait()
        assert cls.process.stdout
        cls.process.stdout.close()

    def asked(self, path: str) -> tuple[int, str, bytes]:
        """The status of an answer, its type, and its bytes."""
        connection = http.client.HTTPConnection(self.host, timeout=20)
        connection.request("GET", path)
        answer = connection.getresponse()
        found = answer.status, answer.getheader("Content-Type", ""), answer.read()
        connection.close()
        return found

    def test_what_the_page_loads(self) -> None:
        for path, kind in [
            ("/web/", "text/html"),
            ("/web/src/main.js", "text/javascript"),
            ("/web/style.css", "text/css"),
            ("/bindings/js/src/index.js", "text/javascript"),
            ("/dist/wasm/libwarg.wasm", "application/wasm"),
            ("/examples/p256/package.hex", ""),
        ]:
            with self.subTest(path):
                status, said, data = self.asked(path)
                self.assertEqual((status, bool(data)), (200, True))
                self.assertTrue(said.startswith(kind), said)

    def test_nothing_else(self) -> None:
        for path in ["/README.md", "/.git/config", "/web/src/", "/web/../README.md", "/web/%2e%2e/README.md", "//etc"]:
            with self.subTest(path):
                self.assertEqual(self.asked(path)[0], 404)

    def test_the_way_to_the_page(self) -> None:
        self.assertEqual(self.asked("/")[0], 302)


class OneFile(unittest.TestCase):
    """The page as one file."""

    def test_policy(self) -> None:
        page = web_page.one_file(LIBRARY)
        self.assertEqual(page, web_page.one_file(LIBRARY))
        found = re.search(r'http-equiv="Content-Security-Policy" content="([^"]*)"', page)
        assert found
        for name, element in [("script-src", "script"), ("style-src", "style")]:
            texts = re.findall(rf"<{element}(?: id=\"weoldrin-script\")?>(.*?)</{element}>", page, re.S)
            hashes = {f"'sha256-{base64.b64encode(hashlib.sha256(it.encode()).digest()).decode()}'" for it in texts}
            policy = next(it.split() for it in found[1].split(";") if it.strip().startswith(name))
            self.assertEqual(set(policy[1:]) - {"'wasm-unsafe-eval'"}, hashes)
        self.assertNotIn("unsafe-inline", page)
        self.assertNotIn('src="', page.replace(web_page.script(), ""))

    def test_form_that_is_not_known(self) -> None:
        with tempfile.TemporaryDirectory() as folder:
            path = pathlib.Path(folder) / "main.js"
            made = web_page.Script()
            path.write_text('export const a = 1;\nimport "./x.js";\n', encoding="utf-8")
            made.number(path)
            self.assertIsNotNone(web_page.FORBIDDEN.search("".join(made.texts)))


class Words(unittest.TestCase):
    """What is refused."""

    def test_library_that_is_missing(self) -> None:
        words = [str(TOOLS / "web"), "--library", "nothing.wasm", "--no-browser"]
        done = subprocess.run(words, capture_output=True, text=True, check=False)
        self.assertEqual((done.returncode, done.stderr), (2, "web: there is no nothing.wasm\n"))

    def test_count_of_wrong_edits(self) -> None:
        count = counted_of_edits
        self.assertEqual(count("seen: a (test_a): x\nNOT SEEN: b (test_b)\nseen: c (test_c): y\n"), (2, 1, 0))
        self.assertEqual(count("left out: chromium is not installed\n"), (0, 0, 0))


if __name__ == "__main__":
    unittest.main()
