"""Checkpoints that are dropped beside operator logs, and who signed them."""
import json
import pathlib
from typing import Any

import logs
from logs import EXAMPLES
from page import JUDGED, PageTests, in_each

PRINTED = pathlib.Path(__file__).parent / "signed_checkpoint.json"
MADE: dict[str, str] = json.loads(PRINTED.read_text(encoding="utf-8"))
PUBLISHED: dict[str, Any] = json.loads(MADE["published"])
HOSTILE_NAME = "<img src=x onerror=document.title=3>.json"


def changed(**members: object) -> str:
    """The signed checkpoint with other members."""
    return json.dumps({**PUBLISHED, **members})


class Checkpoints(PageTests):
    """What the page says of a checkpoint that is dropped."""

    def written(self, name: str, text: str) -> pathlib.Path:
        """A file of a text. Half a surrogate pair is written as it is, which is no UTF-8."""
        return logs.write(self.folder, name, text.encode("utf-8", "surrogatepass"))

    def operators(self, name: str = "operators.hex") -> pathlib.Path:
        """The registry's operator log."""
        return self.written(name, MADE["log"])

    def states(self) -> list[str]:
        """What is said of the signers of all checkpoints, by names of the page's own."""
        script = "return [...document.querySelectorAll('.card [data-signer]')].map((it) => it.dataset.signer)"
        found: list[str] = self.browser.run(script)
        return found

    def test_signed(self) -> None:
        said = self.dropped(self.operators(), self.written("checkpoint.json", MADE["published"]))
        self.assertEqual(self.looks(), ["good", "good"])
        sentence = "It is signed by a key that may sign checkpoints by the operator log operators.hex."
        self.assertIn(sentence, said)
        self.assertIn(PUBLISHED["keyId"][:19], said)
        self.assertIn("ecdsa-p256:", said)
        self.assertIn("18,446,744,073,709,551,615", said)
        self.assertIn("2023-11-14 22:13:20 UTC", said)
        self.assertEqual(
            self.text("#said"), f"checkpoint.json: a checkpoint of 18,446,744,073,709,551,615 leaves. {sentence}"
        )

    def test_log_behind_its_checkpoint(self) -> None:
        said = self.dropped(self.written("checkpoint.json", MADE["published"]))
        self.assertEqual(self.looks(), ["warn"])
        self.assertIn("Check the registry's operator log too", said)
        self.dropped(EXAMPLES / "p256/package.hex", count=2)
        self.assertEqual(self.states(), ["no-log"])
        self.dropped(self.operators(), count=3)
        self.assertEqual(self.looks(), ["good", "good", "good"])
        self.assertIn("It is signed by a key that may sign", self.text("#said"))
        self.assertTrue(self.browser.run("return at('compare').hidden === false"))
        self.assertNotIn("checkpoint.json", self.text("#compare"))
        self.clicked(".card:last-child button", "Remove")
        self.browser.wait("document.querySelector('.card [data-signer=no-log]')")
        self.assertEqual(self.looks(), ["warn", "good"])

    def test_not_signed(self) -> None:
        for state, text, sentence in [
            ("not-belonging", MADE["other"], "The signature does not belong to this checkpoint"),
            ("may-not", MADE["unpermitted"], "the key that stands with it holds defineNamespace, and not commit"),
            ("no-key", MADE["unknown"], "the operator log operators.hex has no key of the id"),
            ("no-key", changed(keyId=""), "has no key of the id"),
            ("unreadable", changed(signature="ecdsa-p256:!"), "can't be read"),
            ("unreadable", changed(signature=""), "can't be read"),
            ("unreadable", changed(keyId="\ud800"), "can't be read"),
            ("not-belonging", changed(signature="ecdsa-p384:AAAA"), "does not belong to this checkpoint"),
        ]:
            with self.subTest(text):
                self.opened(self.served.address)
                said = self.dropped(self.operators(), self.written("checkpoint.json", text))
                self.assertEqual((self.looks(), self.states()), (["good", "bad"], [state]))
                self.assertIn(sentence, said)
                self.assertIn("Not signed", said)
                self.assertNotIn("It is signed by a key", said)

    def test_what_is_not_known(self) -> None:
        self.with_toys()
        plain = json.dumps(PUBLISHED["contents"])
        toys, refused = EXAMPLES / "operator_namespaces.hex", self.written("refused.hex", MADE["log"] * 2)
        for state, text, path, sentence in [
            ("algorithm", MADE["algorithm"], self.operators(), "of another algorithm than ecdsa-p256"),
            ("unsigned", plain, self.operators(), "No signature stands with it."),
            ("toys", MADE["published"], toys, "which anyone can forge"),
            ("refused", MADE["published"], refused, "The file of the operator log refused.hex is refused"),
        ]:
            with self.subTest(state):
                self.opened(self.served.address)
                self.with_toys()
                said = self.dropped(path, self.written("checkpoint.json", text))
                self.assertEqual((self.looks()[1], self.states()), ("warn", [state]))
                self.assertIn(sentence, said)
                self.assertIn("Signer not known", said)

    def test_operator_logs_that_disagree(self) -> None:
        content = logs.contents(None, 1, [logs.init("alice")])
        others = self.written("toys.hex", logs.envelope("alice", content, "OPERATOR"))
        self.with_toys()
        self.dropped(self.operators(), self.operators("again.hex"), self.written("it.json", MADE["published"]))
        self.assertEqual((self.looks()[2], self.states()), ("good", ["signed", "signed"]))
        self.dropped(others, count=4)
        self.assertEqual((self.looks()[2], self.states()), ("warn", ["signed", "signed", "toys"]))

    def test_what_is_no_checkpoint(self) -> None:
        wrong = changed(contents={**PUBLISHED["contents"], "logRoot": "sha256:00"})
        for text, sentence in [
            ("{", "The file begins as JSON does, and is none"),
            ('{"\ud800":1}', "The file begins as JSON does, and is none"),
            ('{"head":1}', "The file is JSON, and no checkpoint: that has logRoot"),
            (changed(keyId=7), "one of its members is of another type"),
            (changed(contents=[]), "one of its members is of another type"),
            (wrong, "a checkpoint whose roots are no hashes"),
            (" " * 65_536 + MADE["published"], "A checkpoint has 65,536 at most."),
        ]:
            with self.subTest(text[:40]):
                self.opened(self.served.address)
                said = self.dropped(self.operators(), self.written("it.json", text))
                self.assertEqual((self.looks(), self.states()), (["good", "fault"], []))
                self.assertIn(sentence, said)

    def test_hostile_checkpoint(self) -> None:
        text = changed(keyId=logs.MARKUP, signature="<script>document.title=2</script>", more=logs.HOSTILE)
        said = self.dropped(self.operators(HOSTILE_NAME), self.written("\u202ea.json", text))
        self.assertEqual(self.states(), ["no-key"])
        self.assertIn(HOSTILE_NAME, said)
        self.assertIn("<img src=x onerror=", said)
        self.assertIn("\\u{202e}a.json", said)
        self.assertNotIn("\u202e", self.text("body"))
        made = "return document.querySelectorAll('#verdicts img, #verdicts script').length"
        self.assertEqual(self.browser.run(made), 0)
        self.assertEqual(self.browser.run("return document.title"), "Weoldrin: check a log")

    def test_proof_on_it(self) -> None:
        self.browser.drop([self.operators(), self.written("it.json", f"\n{MADE['published']}\n")])
        self.browser.wait(JUDGED.format(2))
        self.clicked(".card:last-child button", "Check a proof on it")
        self.assertEqual(self.browser.run("return at('checkpoint').value"), MADE["published"])
        self.assertEqual(self.browser.run("return document.activeElement.id"), "what")
        self.browser.run("at('what').value = 'none'; at('what').dispatchEvent(new Event('change'));")
        self.browser.run("at('proof-form').requestSubmit()")
        self.browser.wait("at('proof-said').textContent !== ''")
        said = self.text("#proof-said")
        self.assertIn("It is signed by a key that may sign checkpoints by the operator log that is shown.", said)
        self.assertIn(PUBLISHED["keyId"][:19], said)


load_tests = in_each(Checkpoints)
