"""Checkpoints, and proofs on them."""
import json
import pathlib

import logs
from logs import EXAMPLES
from page import PageTests, in_each

MATH = "example:math"
RECORD = "sha256:afd313a285f317c19c8d040b6f32149b7d186762b58ff012389512a833d75762"
LAST = "sha256:b815e026c7420c2dcd4ed9ef48651113d419edde222fe4bfd6d4666d31b3118b"
# What bin/weoldrin proves of examples/leaves.txt: of all its leaves, and of the first four.
CHECKPOINT = {
    "logLength": 6,
    "logRoot": "sha256:ae9d306bfb2ce60ca46446c43dcf673f009d040a52f567594f8f68494cd386b4",
    "mapRoot": "sha256:68fac01e90005f6c631d3004b435af79b2b2db784b0a68245f05f6555a4149dd",
}
OLD = {
    "logLength": 4,
    "logRoot": "sha256:49aeb8641a4c5f8fa0b84f5c1eda5a03f21cdca6f9a84f0d4ba3adefe0c547c1",
    "mapRoot": "sha256:9dbf7c6b47031184689de9c95a45294d0facc52b16174938cf8351dc9afd1979",
}
INCLUSION = (
    "H3s35Lav4g5dpebpU52N8KU0M3AV+ItOY1lY4FJfcu+bgFTH6M7uNT48XnGivieDN8/23DDgzfMSPKPvQc7o9znGYjmOBn1xMPWBmEsO5Yv3"
    "AaKA1kOSPuGf0zDcB7Q0"
)
CONSISTENCY = "OcZiOY4GfXEw9YGYSw7li/cBooDWQ5I+4Z/TMNwHtDQ="
PRESENCE = "//////////////////////////////////////////7pgvW+fJghgJsQy/+MubkuZ2YfiT1AuZqkJ2otb9nUIw=="
NOTHING = f"sha256:{'0' * 64}"
ABSENCE = (
    "/////////////////////////////////////////+64edB5jsEtFyC1WcpVzo6D3SYGCLcA82I5FK4SQTpc1i/8OXLE/e9oiSK9yuCqzlG6yqPe"
    "TsjFSHf272mBVJlc"
)


class Proofs(PageTests):
    """A checkpoint, and proofs on it."""

    def test_proofs_hold(self) -> None:
        checkpoint = json.dumps(CHECKPOINT)
        said = self.proved(
            "inclusion", checkpoint=checkpoint, log_name=MATH, record_id=RECORD, leaf="2", proof=INCLUSION
        )
        self.assertIn("The proof holds: the record stands at that place", said)
        self.assertRegex(said, r"Leaves of the registry's log\s+6\s")
        self.assertRegex(said, r"Id of the log\s+sha256:")
        said = self.proved("consistency", checkpoint=checkpoint, old_checkpoint=json.dumps(OLD), proof=CONSISTENCY)
        self.assertIn("The proof holds: the registry's log goes on", said)
        said = self.proved("head", checkpoint=checkpoint, log_name=MATH, record_id=LAST, proof=PRESENCE)
        self.assertIn("The proof holds: the record is the last one", said)
        said = self.proved("absence", checkpoint=checkpoint, log_name=NOTHING, proof=ABSENCE)
        self.assertIn("The proof holds: the registry's map has nothing", said)

    def test_proofs_that_do_not_hold(self) -> None:
        checkpoint = json.dumps(CHECKPOINT)
        words = {"checkpoint": checkpoint, "log_name": MATH, "record_id": RECORD, "leaf": "2", "proof": INCLUSION}
        for name, value in [("leaf", "3"), ("log_name", "operator"), ("record_id", LAST), ("proof", CONSISTENCY)]:
            with self.subTest(name):
                self.assertIn("The proof does not hold.", self.proved("inclusion", **{**words, name: value}))
        said = self.proved("consistency", checkpoint=json.dumps(OLD), old_checkpoint=checkpoint, proof=CONSISTENCY)
        self.assertIn("The proof does not hold.", said)
        self.assertIn("The proof does not hold.", self.proved("head", **{**words, "proof": PRESENCE}))

    def test_what_can_not_be_read(self) -> None:
        words = {"checkpoint": json.dumps(CHECKPOINT), "log_name": MATH, "record_id": RECORD, "leaf": "2"}
        for name, value, sentence in [
            ("checkpoint", "", "Paste a checkpoint first."),
            ("checkpoint", "{", "The checkpoint is no JSON."),
            ("checkpoint", "{}", "The checkpoint lacks a member"),
            ("log_name", "math", "No log has that name."),
            ("log_name", "Example:math", "No log has that name."),
            ("leaf", "two", "Say at which place it stands, in digits."),
            ("proof", "?", "The proof is no base64."),
            ("proof", "AAAA", "The proof has not as many bytes as it should"),
            ("record_id", "<b>", "A root or an id is no hash"),
        ]:
            with self.subTest(value):
                self.browser.run("at('proof-said').textContent = ''")
                self.assertIn(sentence, self.proved("inclusion", **{**words, "proof": INCLUSION, name: value}))

    def test_record_of_the_log_that_is_shown(self) -> None:
        self.with_toys()
        self.dropped(EXAMPLES / "package_releases.hex")
        self.clicked("#proof-form button", "Last record")
        self.assertEqual(self.browser.run("return at('record-id').value"), LAST)

    def test_signed_checkpoint(self) -> None:
        made = pathlib.Path(__file__).parent / "signed_checkpoint.json"
        found = json.loads(made.read_text(encoding="utf-8"))
        said = self.proved("none", checkpoint=found["published"])
        self.assertIn("It is signed. Check the registry's operator log too", said)
        self.dropped(logs.write(self.folder, "operators.hex", found["log"].encode()))
        self.browser.run("at('proof-said').textContent = ''")
        self.assertIn("It is signed by a key that may sign", self.proved("none", checkpoint=found["published"]))
        self.browser.run("at('proof-said').textContent = ''")
        said = self.proved("none", checkpoint=found["other"])
        self.assertIn("The signature does not belong to this checkpoint under the key", said)
        self.browser.run("at('proof-said').textContent = ''")
        self.assertIn("has no key of the id", self.proved("none", checkpoint=found["unknown"]))


load_tests = in_each(Proofs)
