"""A package of a registry, verified from its name down to a signed checkpoint, and registries that lie."""
import json
import pathlib
import unittest
from typing import Any

import logs
from browsers import begun, is_there
from canned import MADE, Answer, Canned, Lie, problem
from page import PageTests, in_each
from served import Edit, Edited

RULES = (pathlib.Path(__file__).parent / "rules.js").read_text(encoding="utf-8")
MATH, NONE = "example:math", "example:none"
IDS, HEADS, KEYS = MADE["logIds"], MADE["heads"], MADE["keys"]
NEWEST, OLDER, FORK = (MADE["answers"][it] for it in ("newest", "older", "fork"))
# The canned checkpoints are of one time, and the page's clock is a minute later. It waits for eight seconds.
CLOCK: Edit = ("web/src/verifying.js", "Math.floor(Date.now() / 1000)", "1_700_000_060")
SOON: Edit = ("web/src/asking.js", "const SECONDS = 60;", "const SECONDS = 8;")
STEPS = ["name", "operators", "signed", "fresh", "head", "leaf", "records"]
WATCH = """
document.seen = [];
new MutationObserver(() => {
  document.seen.push(document.body.innerText);
  if (document.querySelector("[data-verdict], .card")) document.seen.push("Verified");
}).observe(document.body, { subtree: true, childList: true, characterData: true, attributes: true });
"""


def with_answer(part: str, **members: object) -> Lie:
    """A lie that gives other members in the answers of some paths."""

    def lie(path: str, answer: Answer) -> Answer:
        if part not in path:
            return answer
        return 200, json.dumps({**json.loads(answer[1]), **members}).encode()

    return lie


def instead(part: str, answer: Answer | bool) -> Lie:
    """A lie that gives another answer on some paths."""
    return lambda path, found: answer if part in path else found


class OfRegistry(PageTests):
    """What the page says of a package of a registry."""

    canned: Canned

    @classmethod
    def setUpClass(cls) -> None:
        if not is_there(cls.browser_name):
            raise unittest.SkipTest(f"{cls.browser_name} is not installed")
        cls.browser = begun(cls.browser_name)
        cls.served = Edited(CLOCK, SOON)
        cls.addClassCleanup(cls.served.close)
        cls.canned = Canned()
        cls.addClassCleanup(cls.canned.close)

    @classmethod
    def tearDownClass(cls) -> None:
        """Nothing: what was begun ends by itself."""

    def setUp(self) -> None:
        super().setUp()
        self.canned.begin("newest")
        self.browser.run("localStorage.clear()")

    def begun(self, name: str = MATH) -> None:
        """Has a package be asked for."""
        self.browser.wait("at('other').open")
        self.browser.run("performance.clearMarks('weoldrin-verified')")
        self.browser.run(f"at('registry').value = {self.canned.address!r}; at('package').value = {json.dumps(name)}")
        self.browser.run("at('verify-form').requestSubmit()")

    def verified(self, name: str = MATH) -> str:
        """Has a package be verified, and gives what is said at the end."""
        self.begun(name)
        self.browser.wait("performance.getEntriesByName('weoldrin-verified').length")
        return self.text("#verify-said")

    def steps(self) -> list[str]:
        """The steps that are shown."""
        script = "return [...document.querySelectorAll('#steps > li')].map((it) => it.dataset.step)"
        found: list[str] = self.browser.run(script)
        return found

    def not_verified(self, word: str, *sentences: str, name: str = MATH, after: int | None = None) -> None:
        """Nothing is verified, by the word, with these sentences, after so many steps that hold."""
        before = self.looks()
        said = self.verified(name)
        self.assertIn(f"Not verified. {word}: ", said)
        shown = self.text("#steps li:last-child")
        for it in (f"{word}: ", *sentences):
            self.assertIn(it, shown)
        steps = self.steps()
        self.assertEqual(steps[-1], "failed")
        if after is not None:
            self.assertEqual(steps[:-1], STEPS[:after])
        self.assertEqual(self.looks(), before)
        self.assertFalse(self.browser.run("return Boolean(document.querySelector('[data-verdict]'))"))
        self.assertNotIn("Verified:", self.text("body"))

    def test_verified(self) -> None:
        said = self.verified()
        self.assertEqual(said, f"Verified: {MATH} has 4 records under a signed checkpoint of 8 leaves.")
        self.assertEqual(self.steps(), STEPS)
        self.assertIn(KEYS["first"], self.text("#operator-key"))
        self.assertIn("No page can know whether this is the key of the right operators", self.text("#operator-key"))
        self.assertIn("seen none of this registry before", self.text("#operator-key"))
        steps = self.text("#steps")
        for it in (IDS["math"][:19], KEYS["signer"][:19], "which is 60 seconds ago", HEADS["math"][:19], "at place 7"):
            self.assertIn(it, steps)
        # The log is shown as one that is dropped.
        self.assertEqual(self.looks(), ["good"])
        self.assertIn(f"Its last record is {HEADS['math']}", self.text("#verdicts"))
        self.assertIn("2.0.0", self.tab("releases", "tbody tr"))
        self.assertIn("2023-11-14", self.tab("records", ".record"))
        # Logs come by their pages, and nothing is asked but what is there to be read.
        pages = [it for it in self.canned.asked if it.startswith(f"/v1/logs/{IDS['math']}")]
        self.assertEqual(pages, [f"/v1/logs/{IDS['math']}/records?from={it}" for it in (0, 2)])
        self.assertTrue(all(it.startswith("/v1/") for it in self.canned.asked), self.canned.asked)

    def test_absent(self) -> None:
        said = self.verified(NONE)
        self.assertIn(f"Absent: the registry has no log of {NONE}, by a signed checkpoint of 8 leaves", said)
        self.assertEqual(self.steps(), STEPS[:4])
        self.assertEqual(self.looks(), [])
        self.assertNotIn("Verified:", self.text("body"))
        # It is not absent by what is said of another one, nor by a proof of none.
        self.canned.lie = with_answer(f"map?log={IDS['math']}", **NEWEST["map"][IDS["none"]])
        self.not_verified("false proof", "does not hold under the checkpoint", after=4)
        self.canned.lie = with_answer(f"map?log={IDS['none']}", proof=NEWEST["map"][IDS["math"]]["proof"])
        self.not_verified("false proof", name=NONE, after=4)
        self.canned.lie = with_answer(f"map?log={IDS['none']}", proof="?")
        self.not_verified("false proof", name=NONE, after=4)

    def test_no_name(self) -> None:
        for name in ("math", "Example:math", "example:math?from=1", "../checkpoint"):
            self.canned.asked.clear()
            self.not_verified("no name", "such as example:math", name=name, after=0)
            self.assertEqual(self.canned.asked, [])

    def test_nothing_before_the_last_step(self) -> None:
        self.browser.run(WATCH)
        self.canned.held = f"{IDS['math']}/records?from=2"
        self.begun()
        self.browser.wait("document.querySelector('#steps [data-step=leaf]')")
        self.assertEqual(self.steps(), STEPS[:-1])
        self.browser.run("await new Promise((done) => setTimeout(done, 300))")
        seen = "\n".join(self.browser.run("return document.seen"))
        self.assertIn("at place 7", seen)
        self.assertNotIn("Verified", seen)
        self.canned.let_go.set()
        self.browser.wait("document.querySelector('[data-verdict=verified]')")

    def test_log_of_another_name(self) -> None:
        self.canned.begin("newest", logs={**NEWEST["logs"], IDS["math"]: NEWEST["logs"][IDS["text"]]})
        self.not_verified("wrong name", f"is served for {IDS['math']} is {IDS['text']}", after=6)
        self.canned.begin("newest")
        self.canned.lie = with_answer(f"map?log={IDS['math']}", logId=IDS["text"])
        self.not_verified("wrong name", "is of another log than", after=4)
        self.canned.lie = with_answer(f"map?log={IDS['math']}", **NEWEST["map"][IDS["text"]])
        self.not_verified("false proof", after=4)

    def test_records_that_are_not_those(self) -> None:
        lines = NEWEST["logs"][IDS["math"]]
        changed = lines[2].replace(b"1.1.0".hex(), b"9.1.0".hex())
        self.assertNotEqual(changed, lines[2])
        for word, sentence, served in [
            ("unlawful record", "SignatureError", [*lines[:2], changed, lines[3]]),
            ("unlawful record", "RecordHashDoesNotMatch", [*lines[:1], *lines[2:]]),
            ("unlawful record", "ProtobufEnvelope", [*lines[:3], "00"]),
            ("replaced record", "does not have its last record", FORK["logs"][IDS["math"]]),
            ("rolled back log", "3 records of", lines[:3]),
            ("missing record", "no record of", []),
            ("bad answer", "no envelope in hex", [*lines[:3], "0g"]),
        ]:
            with self.subTest(word, sentence=sentence):
                self.canned.begin("newest", logs={**NEWEST["logs"], IDS["math"]: served})
                self.not_verified(word, sentence, after=6)
        # The operator log is replayed as well.
        operators = NEWEST["logs"][IDS["operator"]]
        self.canned.begin("newest", logs={**NEWEST["logs"], IDS["operator"]: operators[:1]})
        self.not_verified("rolled back log", "1 records of", after=1)

    def test_records_behind_the_checkpoint(self) -> None:
        """Those of no checkpoint yet are left."""
        self.canned.begin("older", logs=NEWEST["logs"])
        self.assertIn("has 3 records under a signed checkpoint of 7 leaves", self.verified())
        self.assertNotIn("2.0.0", self.tab("releases", "tbody tr"))

    def test_checkpoint_not_signed(self) -> None:
        for word, name, sentence in [
            ("unsigned checkpoint", "changed", f"does not belong to the key {KEYS['signer']}"),
            ("key without commit", "defines", f"has commit no more, or never had it: {KEYS['defines']}"),
            ("key without commit", "unknown", f"no record of the operator log names: {KEYS['unknown']}"),
            ("stale checkpoint", "stale", "it is 4060 seconds old"),
            ("checkpoint ahead", "ahead", "3940 seconds ahead"),
        ]:
            with self.subTest(name):
                self.canned.begin("newest", checkpoint=MADE["checkpoints"][name])
                self.not_verified(word, sentence, after=3 if name in ("stale", "ahead") else 2)
        absent = {**NEWEST["map"], IDS["operator"]: NEWEST["map"][IDS["none"]]}
        self.canned.begin("newest", map=absent)
        self.not_verified("unsigned checkpoint", "has no operator log", after=1)
        contents = {**NEWEST["checkpoint"]["contents"], "logLength": 2**53}
        self.canned.begin("newest", checkpoint={**NEWEST["checkpoint"], "contents": contents})
        self.not_verified("bad answer", "a number of its checkpoint", after=1)

    def test_another_checkpoint_below(self) -> None:
        """What is said of the package has to stand under the checkpoint that was verified."""
        part = f"map?log={IDS['math']}"
        self.canned.lie = with_answer(part, checkpoint=OLDER["checkpoint"], **OLDER["map"][IDS["math"]])
        self.not_verified("bad answer", "under another checkpoint", after=4)
        self.canned.lie = with_answer(part, checkpoint=FORK["checkpoint"], **FORK["map"][IDS["math"]])
        self.not_verified("forked registry", "two signed checkpoints of 8 leaves", after=4)
        forged = {**FORK["checkpoint"], "signature": NEWEST["checkpoint"]["signature"]}
        self.canned.lie = with_answer(part, checkpoint=forged, **FORK["map"][IDS["math"]])
        self.not_verified("unsigned checkpoint", after=4)
        self.canned.lie = with_answer("inclusion", checkpoint=FORK["checkpoint"])
        self.not_verified("forked registry", after=5)

    def test_proofs_of_a_liar(self) -> None:
        old = OLDER["map"][IDS["math"]]
        for part, members, after in [
            (f"map?log={IDS['operator']}", {"proof": old["proof"]}, 1),
            (f"map?log={IDS['math']}", old, 4),
            ("inclusion", {"proof": NEWEST["inclusion"][0]}, 5),
            ("inclusion", {"proof": "AAAA"}, 5),
        ]:
            with self.subTest(part, members=members):
                self.canned.begin("newest")
                self.canned.lie = with_answer(part, **members)
                self.not_verified("false proof", "does not hold", after=after)
        for answer, sentence in [
            ((200, b'{"registryIndex":8}'), "the leaf at place 8 is said to be"),
            (problem(404, "NoRecord"), "no leaf is of it"),
        ]:
            self.canned.lie = instead("/v1/leaf?", answer)
            self.not_verified("left out leaf", sentence, after=5)

    def test_answers_that_are_none(self) -> None:
        part = f"map?log={IDS['math']}"
        wrong: list[tuple[str, str, Answer | bool]] = [
            ("bad answer", "the answer is no JSON", (200, b"<html>")),
            ("bad answer", "the answer is no UTF-8", (200, b"\xff")),
            ("bad answer", "the answer has no checkpoint", (200, b"[]")),
            ("bad answer", "the answer has no checkpoint", (200, b"null")),
            ("bad answer", "a number of its checkpoint", (200, b'{"checkpoint":null}')),
            ("bad answer", "longer than the 65536 bytes", (200, b" " * 65_537)),
            ("bad answer", "the answer leads elsewhere", (307, b"")),
            ("bad answer", "the answer is no JSON", (404, b"Not Found")),
            ("refused", "404 NoLog: it is a test", problem(404, "NoLog")),
            ("no answer", "with status 500", problem(500, "Internal")),
            ("no answer", "with status 503", (503, b"")),
            ("bad answer", "longer than the 65536 bytes", True),
            ("no answer", "did not come within 8 seconds", False),
        ]
        for word, sentence, answer in wrong:
            with self.subTest(sentence, answer=str(answer)[:40]):
                self.canned.begin("newest")
                self.canned.lie = instead(part, answer)
                self.not_verified(word, sentence, after=4)
                self.canned.let_go.set()
        self.canned.begin("newest")
        self.canned.lie = instead(f"{IDS['math']}/records?from=2", True)
        self.not_verified("bad answer", "bytes that are read of it here", after=6)

    def test_rules_of_a_registry(self) -> None:
        """The keyboard asks for a package, and keeps its place; a verdict and a fault keep the rules for readers."""
        self.browser.resize(360, 700)
        self.browser.wait("at('other').open")
        self.browser.run(f"at('registry').value = {self.canned.address!r}; at('package').value = {MATH!r}")
        self.browser.run("at('package').focus()")
        self.browser.press("Enter")
        self.browser.wait("document.querySelector('[data-verdict=verified]')")
        self.assertEqual(self.browser.run("return document.activeElement.id"), "package")
        self.assertEqual(self.browser.run(RULES), [])
        self.canned.begin("others")
        self.not_verified("other operator")
        self.assertEqual(self.browser.run(RULES), [])

    def test_no_registry(self) -> None:
        self.browser.wait("at('other').open")
        self.browser.run("at('registry').value = 'http://127.0.0.1:9/'; at('package').value = 'example:math'")
        self.browser.run("at('verify-form').requestSubmit()")
        self.browser.wait("performance.getEntriesByName('weoldrin-verified').length")
        self.assertIn("no answer: the registry can't be reached", self.text("#verify-said"))

    def test_newer_checkpoint_meanwhile(self) -> None:
        """A checkpoint that is not the newest one any more is followed by the next."""
        self.canned.begin("older")

        def lie(path: str, answer: Answer) -> Answer:
            if f"map?log={IDS['math']}&length=7" not in path:
                return answer
            self.canned.begin("newest")
            return problem(409, "NotNewest")

        self.canned.lie = lie
        self.assertIn("has 4 records under a signed checkpoint of 8 leaves", self.verified())
        self.assertEqual(self.steps(), STEPS[1:])
        self.canned.lie = instead(f"map?log={IDS['math']}", problem(409, "NotNewest"))
        self.not_verified("no answer", "changed each time")

    def test_what_was_seen(self) -> None:
        self.canned.begin("older")
        self.verified()
        self.canned.begin("newest")
        self.opened(self.served.address)
        self.assertIn("of 8 leaves", self.verified())
        self.assertIn("goes on from the one of 7 leaves that this browser saw before", self.text("#steps"))
        self.assertIn("This browser saw the same key before.", self.text("#operator-key"))
        self.assertTrue(any("from=7" in it for it in self.canned.asked))
        self.canned.begin("others")
        self.not_verified("other operator", KEYS["unknown"], KEYS["first"], after=1)
        self.canned.begin("older")
        self.not_verified("rolled back registry", "it signed 8 leaves, and shows 7 now")
        self.canned.begin("fork")
        self.not_verified("forked registry", "two signed checkpoints of 8 leaves", after=3)
        self.canned.begin("newest", checkpoint=MADE["checkpoints"]["earlier"])
        self.not_verified("stale checkpoint", "before that of the one", after=3)
        self.canned.begin("others")
        self.not_verified("other operator")
        self.clicked("#verified button", "Forget what this browser saw")
        self.browser.wait("document.querySelector('[data-verdict=verified]')")
        self.assertIn(KEYS["unknown"], self.text("#operator-key"))
        self.assertIn("seen none of this registry before", self.text("#operator-key"))

    def test_consistency_and_old_proofs(self) -> None:
        for name in ("older", "newest"):
            self.canned.begin("older")
            self.browser.run("localStorage.clear()")
            self.verified()
            self.canned.begin(name)
            if name == "newest":
                self.canned.lie = with_answer(f"map?log={IDS['operator']}", consistency=NEWEST["consistency"][6])
                self.not_verified("forked registry", "is not shown to go on from that of 7", after=3)
                self.canned.lie = with_answer(f"map?log={IDS['math']}", **OLDER["map"][IDS["math"]])
                self.not_verified("old proof", "was so under the checkpoint that this browser saw before", after=4)
        # What was refused leaves what was seen as it was.
        self.canned.begin("newest")
        self.verified()
        self.assertIn("goes on from the one of 7 leaves", self.text("#steps"))

    def test_another_package_meanwhile(self) -> None:
        """The one that was asked for last is told of, and no other."""
        self.canned.held = f"{IDS['math']}/records"
        self.begun()
        self.browser.wait("document.querySelector('#steps [data-step=leaf]')")
        self.assertIn("Absent:", self.verified(NONE))
        self.canned.let_go.set()
        self.browser.run("await new Promise((done) => setTimeout(done, 300))")
        self.assertIn("Absent:", self.text("#verify-said"))
        self.assertEqual((self.looks(), self.steps()), ([], STEPS[:4]))

    def test_hostile_answers(self) -> None:
        checkpoint: dict[str, Any] = {**NEWEST["checkpoint"], "keyId": logs.MARKUP, "signature": "\u202e"}
        self.canned.begin("newest", checkpoint=checkpoint)
        self.not_verified("key without commit", "<img src=x onerror=", after=2)
        self.canned.begin("newest")
        for text in logs.HOSTILE:
            detail = json.dumps({"name": "NoLog", "detail": text}).encode()
            self.canned.lie = instead(f"map?log={IDS['math']}", (404, detail))
            self.not_verified("refused", after=4)
        self.assertNotIn("\u202e", self.text("body"))
        self.assertEqual(self.browser.run("return document.querySelectorAll('#verify img, #verify script').length"), 0)
        self.assertEqual(self.browser.run("return document.title"), "Weoldrin: check a log")


load_tests = in_each(OfRegistry)
