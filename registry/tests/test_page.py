"""The page in real browsers, as the server serves it, on what the server answers: logs, checkpoints and proofs. What
is changed on the way is told.
"""

import json
import pathlib
import sys
import tempfile
import unittest
import urllib.request
from typing import Any

from weoldrin import PackageLog, log_id, records

from .relay import Lie, Relay, no_lie
from .served import REPOSITORY, Client, Key, Process, begin, checkpoint_of, new_key, next_record, release

sys.path.insert(0, str(REPOSITORY / "web/tests"))

from browsers import begun, is_there
from page import PageTests, in_each

NAME, OTHER = "acme:math", "acme:text"
RECORDS = 4
LOG, OPERATORS = f"/v1/package/{NAME}/records", "/v1/operator/records"
HOLDS, HOLDS_NOT = "The proof holds", "The proof does not hold."


class OnServer(PageTests):
    """The page of a registry that has a log of a package, another one, and a checkpoint over them."""

    process: Process
    client: Client
    relay: Relay
    checkpoint: dict[str, Any]
    head: str

    @classmethod
    def setUpClass(cls) -> None:
        if not is_there(cls.browser_name):
            raise unittest.SkipTest(f"{cls.browser_name} is not installed")
        cls.browser = begun(cls.browser_name)
        cls.kept = tempfile.TemporaryDirectory(prefix="weoldrin-")
        cls.addClassCleanup(cls.kept.cleanup)
        cls.folder = pathlib.Path(cls.kept.name)
        key = new_key(cls.folder)
        # What is signed anew would be another checkpoint than the one that was asked for.
        cls.process = Process(cls.folder, settings="checkpoint_seconds = 0.1\nrenew_seconds = 3600\n")
        cls.addClassCleanup(cls.process.stop)
        # The server ends a connection on which nothing is asked while the browser is slow.
        cls.client = cls.process.client(is_kept=False)
        cls.addClassCleanup(cls.client.close)
        begin(cls.client, key)
        for name, count in ((OTHER, 2), (NAME, RECORDS)):
            cls.head = cls._publish(name, count)
        cls.checkpoint = checkpoint_of(cls.client, RECORDS + 3)
        cls.relay = Relay(cls.process.port)
        cls.addClassCleanup(cls.relay.end)

    @classmethod
    def tearDownClass(cls) -> None:
        """Nothing: what was begun ends by itself."""

    @classmethod
    def _publish(cls, name: str, count: int) -> str:
        """Publishes a log of so many records, and gives its head."""
        key = Key.generate()
        with PackageLog() as log:
            for place in range(count):
                entry = release(f"{place}.0.0") if place else records.init(key.public_key)
                envelope = next_record(log, key, entry, seconds=place)
                log.append(envelope)
                assert cls.client.post(f"/v1/package/{name}/record", envelope).status == 201
            return log.head() or ""

    def setUp(self) -> None:
        self.browser.resize(1000, 900)
        self.relay.lie = no_lie
        self.address = f"http://127.0.0.1:{self.process.port}"
        self.opened(f"{self.address}/")

    def lied(self, lie: Lie) -> None:
        """Opens the page behind the relay, which lies from then on."""
        self.address, self.relay.lie = self.relay.address, lie
        self.opened(f"{self.address}/")

    def asked(self, path: str) -> Any:
        """What is answered, by the relay where the page is behind it."""
        with urllib.request.urlopen(f"{self.address}{path}", timeout=60) as answer:
            return json.loads(answer.read())

    def proof(self, path: str, what: str, **fields: str) -> str:
        """What the page says of a proof that is answered."""
        answer = self.asked(f"/v1/proof/{path}")
        self.browser.run("at('proof-said').textContent = ''")
        return self.proved(what, checkpoint=json.dumps(answer["checkpoint"]), proof=answer["proof"], **fields)

    def test_logs(self) -> None:
        self.assertEqual(self.browser.run("return location.pathname"), "/static/web/index.html")
        said = self.fetched(LOG)
        self.assertEqual(self.looks(), ["good"])
        self.assertIn(f"Each of its {RECORDS} records follows the rules, and each signature belongs", said)
        self.assertIn("3.0.0", self.tab("releases", "li, tr"))
        self.clicked("#proof-form button", "Last record")
        self.assertEqual(self.browser.run("return at('record-id').value"), self.head)
        self.fetched(f"/v1/logs/{log_id('package', OTHER)}/records", 2)
        self.fetched("/v1/package/acme:none/records", 3)
        self.assertEqual(self.looks(), ["good", "good", "fault"])
        self.assertIn("the server answers 404", self.text("#verdicts"))

    def test_checkpoint(self) -> None:
        self.fetched(OPERATORS)
        for count, path in ((2, "/v1/checkpoint"), (3, f"/v1/checkpoint/{RECORDS + 3}")):
            said = self.fetched(path, count)
            self.assertEqual(self.looks(), ["good"] * count)
            self.assertIn("It is signed by a key that may sign checkpoints by the operator log records.", said)
            self.assertIn(self.checkpoint["keyId"][:19], said)

    def test_proofs(self) -> None:
        self.fetched(OPERATORS)
        length, its_id = RECORDS + 3, log_id("package", NAME)
        for leaf in (length - 1, 3):
            standing = self.asked(f"/v1/proof/inclusion?leaf={leaf}")
            place = self.asked(f"/v1/leaf?log={standing['logId']}&record={standing['recordId']}")
            self.assertEqual((standing["logId"], place["registryIndex"]), (its_id, leaf))
            fields = {"log_name": NAME, "record_id": standing["recordId"], "leaf": str(leaf)}
            said = self.proof(f"inclusion?leaf={leaf}&length={length}", "inclusion", **fields)
            self.assertIn(HOLDS, said)
            self.assertIn("It is signed by a key that may sign", said)
        self.assertIn(HOLDS, self.proof(f"map?log={its_id}", "head", log_name=NAME, record_id=self.head))
        none = log_id("package", "acme:none")
        self.assertIn(HOLDS, self.proof(f"map?log={none}", "absence", log_name="acme:none"))
        old = json.dumps(self.asked(f"/v1/checkpoint/{length}"))
        self.assertIn(HOLDS, self.proof(f"consistency?from={length}", "consistency", old_checkpoint=old))

    def test_changed_record(self) -> None:
        lines = self.client.get(LOG).body.splitlines(keepends=True)
        changed = [it.replace(b".0.0".hex().encode(), b".7.0".hex().encode()) for it in lines]
        wrong = {
            "changed": [*lines[:2], changed[2], lines[3]],
            "the last one changed": [*lines[:3], changed[3]],
            "left out": [*lines[:1], *lines[2:]],
            "moved": [*lines[:1], *lines[:0:-1]],
        }
        for name, served in wrong.items():
            with self.subTest(name):
                self.lied(lambda path, body: b"".join(served) if path == LOG else body)
                said = self.fetched(LOG)
                self.assertEqual(self.looks(), ["bad"])
                self.assertIn("Refused", said)
                if "changed" in name:
                    self.assertIn("The signature does not belong to this record", said)
                    place = next(at for at, it in enumerate(served) if it != lines[at])
                    self.assertIn(f"refused at record {place}", self.text("#said"))

    def test_older_log(self) -> None:
        """A log without its last record is lawful, and not the one of the checkpoint; nor is another's."""
        others = self.client.get(f"/v1/package/{OTHER}/records").body
        for lie in (
            lambda path, body: body[: body.rindex(b"\n", 0, -1) + 1] if path == LOG else body,
            lambda path, body: others if path == LOG else body,
        ):
            self.lied(lie)
            self.fetched(LOG)
            self.assertEqual(self.looks(), ["good"])
            self.clicked("#proof-form button", "Last record")
            shown = self.browser.run("return at('record-id').value")
            self.assertNotEqual(shown, self.head)
            path = f"map?log={log_id('package', NAME)}"
            self.assertIn(HOLDS_NOT, self.proof(path, "head", log_name=NAME, record_id=shown))
            self.assertIn(HOLDS, self.proof(path, "head", log_name=NAME, record_id=self.head))

    def test_changed_checkpoint(self) -> None:
        contents = self.checkpoint["contents"]
        others: list[dict[str, object]] = [
            {"logLength": contents["logLength"] + 1}, {"mapRoot": contents["logRoot"]}, {"timestamp": 0},
        ]
        for it in others:
            changed = json.dumps({**self.checkpoint, "contents": {**contents, **it}}).encode()
            self.lied(lambda path, body: changed if path == "/v1/checkpoint" else body)
            self.fetched(OPERATORS)
            said = self.fetched("/v1/checkpoint", 2)
            self.assertEqual(self.looks(), ["good", "bad"], it)
            self.assertIn("The signature does not belong to this checkpoint", said)

    def test_changed_proof(self) -> None:
        """A proof of another leaf, and a map that is said to lack a log."""
        standing = self.asked("/v1/proof/inclusion?leaf=3")
        other, absent = (self.asked(f"/v1/proof/{it}")["proof"] for it in (
            "inclusion?leaf=4", f"map?log={log_id('package', 'acme:none')}",
        ))

        def lie(path: str, body: bytes) -> bytes:
            for start, proof in (("/v1/proof/inclusion", other), ("/v1/proof/map", absent)):
                if path.startswith(start):
                    return json.dumps({**json.loads(body), "proof": proof}).encode()
            return body

        self.lied(lie)
        fields = {"log_name": NAME, "record_id": standing["recordId"], "leaf": "3"}
        self.assertIn(HOLDS_NOT, self.proof("inclusion?leaf=3", "inclusion", **fields))
        path = f"map?log={log_id('package', NAME)}"
        self.assertIn(HOLDS_NOT, self.proof(path, "absence", log_name=NAME))
        self.assertIn(HOLDS_NOT, self.proof(path, "head", log_name=NAME, record_id=self.head))

    def verified(self, name: str) -> str:
        """Has the registry that serves the page be asked for a package by its name alone, and gives what is said."""
        self.browser.wait("at('verify').nextElementSibling === at('open')")
        self.assertFalse(self.browser.run("return at('other').open || at('registry').required"))
        self.browser.run("performance.clearMarks('weoldrin-verified')")
        self.browser.run(f"at('package').value = {json.dumps(name)}; at('verify-form').requestSubmit()")
        self.browser.wait("performance.getEntriesByName('weoldrin-verified').length")
        return self.text("#verify-said")

    def lines_of(self, its_id: str) -> list[bytes]:
        """The lines of a log, by a connection of its own: the client's is ended where the browser takes its time."""
        with urllib.request.urlopen(f"{self.address}/v1/logs/{its_id}/records", timeout=60) as answer:
            return list(answer)

    def test_package(self) -> None:
        leaves = f"under a signed checkpoint of {RECORDS + 3} leaves"
        self.assertEqual(self.verified(NAME), f"Verified: {NAME} has {RECORDS} records {leaves}.")
        self.assertEqual(self.looks(), ["good"])
        self.assertIn(f"Its last record is {self.head}", self.text("#verdicts"))
        self.assertIn("3.0.0", self.tab("releases", "tbody tr"))
        # The key that began the operator log is the one that signs here.
        self.assertIn(self.checkpoint["keyId"], self.text("#operator-key"))
        self.assertIn("Absent: the registry has no log of acme:none, by a", self.verified("acme:none"))
        self.assertIn("This browser saw the same key before.", self.text("#operator-key"))
        self.assertIn("that this browser saw before", self.text("#steps"))
        self.assertIn("Not verified. no name: ", self.verified("acme"))
        self.assertEqual(self.looks(), ["good"])

    def test_package_of_a_liar(self) -> None:
        its_id, other = log_id("package", NAME), log_id("package", OTHER)
        records_of = f"/v1/logs/{its_id}/records"
        lines, others = self.lines_of(its_id), self.lines_of(other)
        contents = self.checkpoint["contents"]
        unsigned = {**self.checkpoint, "contents": {**contents, "timestamp": contents["timestamp"] + 1}}
        absent = self.asked(f"/v1/proof/map?log={log_id('package', 'acme:none')}")

        def served(*pages: bytes) -> Lie:
            of_pages = dict(zip(("0", str(len(pages[0].split()))), (*pages, b"")))
            return lambda path, body: of_pages.get(path.rpartition("=")[2], b"") if records_of in path else body

        def with_members(part: str, **members: object) -> Lie:
            return lambda path, body: json.dumps({**json.loads(body), **members}).encode() if part in path else body

        lies: list[tuple[str, Lie]] = [
            ("wrong name", served(b"".join(others))),
            ("rolled back log", served(b"".join(lines[:-1]))),
            ("unlawful record", served(b"".join([*lines[:2], lines[3]]))),
            ("missing record", served(b"")),
            ("unsigned checkpoint", with_members("/v1/proof/map", checkpoint=unsigned)),
            ("false proof", with_members(f"map?log={its_id}", recordId=None, proof=absent["proof"])),
            ("bad answer", lambda path, body: b"<html>" if "/v1/leaf" in path else body),
        ]
        for word, lie in lies:
            self.lied(lie)
            self.assertIn(f"Not verified. {word}: ", self.verified(NAME))
            self.assertEqual(self.looks(), [])
            self.assertNotIn("Verified:", self.text("body"))


load_tests = in_each(OnServer)

if __name__ == "__main__":
    unittest.main()
