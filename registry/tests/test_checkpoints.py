"""Checkpoints and proofs of a registry that is served: what a client and a monitor see."""

import pathlib
import sqlite3
import tempfile
import time
import unittest
from typing import Any
from unittest import mock

from weoldrin import (
    Checkpoint,
    LogKind,
    OperatorLog,
    SignedCheckpoint,
    log_id,
    records,
    verify_absence,
    verify_consistency,
    verify_inclusion,
    verify_presence,
)
from weoldrin.registry.answers import Registry
from weoldrin.registry.following import Follower
from weoldrin.registry.packages import package
from weoldrin.registry.trust import Trust

from .served import (
    Client,
    Key,
    Process,
    Served,
    begin,
    checkpoint_of,
    new_key,
    operator_record,
    package_record,
    release,
)

ALICE = Key.generate()
OPERATOR = log_id("operator")


def operator_log(client: Client) -> OperatorLog:
    """The operator log, as a client audits it."""
    log = OperatorLog()
    for it in client.get("/v1/operator/records").envelopes:
        log.append(it)
    return log


def signed(value: Any) -> SignedCheckpoint:
    """A checkpoint that was answered."""
    contents = value["contents"]
    it = Checkpoint(contents["logRoot"], contents["logLength"], contents["mapRoot"], contents["timestamp"])
    return SignedCheckpoint(it, value["keyId"], value["signature"])


class Proofs(Served):
    """What is proved under checkpoints."""

    def _see(self, value: Any) -> Checkpoint:
        """The contents of a checkpoint, which is signed."""
        it = signed(value)
        self.assertTrue(operator_log(self.client).verify_checkpoint(it.contents, it.key_id, it.signature))
        return it.contents

    def test_all(self) -> None:
        self.refused(self.client.get("/v1/checkpoint"), 404, "NoCheckpoint")
        for target in ("inclusion?leaf=0", "consistency?from=0", f"map?log={OPERATOR}"):
            self.refused(self.client.get(f"/v1/proof/{target}"), 404, "NoCheckpoint")
        first = package_record(None, ALICE, records.init(ALICE.public_key))
        for it in range(3):
            self.published(self.client.post(f"/v1/package/early:{'abc'[it]}/record", first))
        time.sleep(0.5)
        self.refused(self.client.get("/v1/checkpoint"), 404, "NoCheckpoint")
        begin(self.client, self.key)
        seen = [self._see(checkpoint_of(self.client, 4))]
        heads: dict[str, str] = {}
        for number in range(12):
            name = f"a:log-x{number % 5}"
            head = heads.get(name)
            entry = release(f"{number}.0.0") if head else records.init(ALICE.public_key)
            new = self.published(self.client.post(f"/v1/package/{name}/record", package_record(head, ALICE, entry)))
            heads[name] = new["recordId"]
            if "checkpoint" in new:
                self.assertGreater(new["checkpoint"]["contents"]["logLength"], new["registryIndex"])
            seen.append(self._see(checkpoint_of(self.client, number + 5)))
        self._check_consistency(seen)
        self._check_before(seen[-2], seen[-1], heads)
        self._check_inclusion(seen[-1])
        self._check_map(seen[-1], heads)

    def _check_consistency(self, seen: list[Checkpoint]) -> None:
        newest = seen[-1]
        for old in seen:
            answer = self.client.get(f"/v1/proof/consistency?from={old.log_length}&to={newest.log_length}").json
            self.assertEqual(self._see(answer["checkpoint"]), newest)
            ends = (old.log_length, old.log_root, newest.log_length, newest.log_root)
            self.assertTrue(verify_consistency(*ends, answer["proof"]))
            kept = self.client.get(f"/v1/checkpoint/{old.log_length}")
            self.assertIn("immutable", kept.headers["cache-control"])
            self.assertEqual(signed(kept.json).contents, old)
            same = self.client.get(f"/v1/checkpoint/{old.log_length}", If_None_Match=kept.headers["etag"])
            self.assertEqual(same.status, 304)
            if old not in seen[-2:]:
                for target in (f"consistency?from=0&to={old.log_length}", f"inclusion?leaf=0&length={old.log_length}",
                               f"map?log={OPERATOR}&length={old.log_length}"):
                    told = self.refused(self.client.get(f"/v1/proof/{target}"), 409, "NotNewest")
                    self.assertEqual(self._see(told["checkpoint"]), newest)
        for none in (1, 2, 3, newest.log_length + 1, 2**63 - 1):
            self.refused(self.client.get(f"/v1/proof/consistency?from={none}"), 404, "NoCheckpoint")
            self.refused(self.client.get(f"/v1/proof/map?log={OPERATOR}&from={none}"), 404, "NoCheckpoint")
            self.refused(self.client.get(f"/v1/checkpoint/{none}"), 404, "NoCheckpoint")
        self.assertEqual(self.client.get("/v1/proof/consistency?from=0").json["proof"], "")
        for target in ("inclusion", "consistency", "map", "map?log=x", "inclusion?leaf=x", "map?log=sha256:00"):
            self.refused(self.client.get(f"/v1/proof/{target}"), 400, "BadQuery")

    def _check_before(self, before: Checkpoint, newest: Checkpoint, heads: dict[str, str]) -> None:
        """Checks what is proved under the checkpoint before the newest one."""
        length = before.log_length
        self.assertEqual(length, newest.log_length - 1)
        old = self.client.get("/v1/checkpoint/5").json["contents"]
        for place, line in enumerate(self.client.get("/v1/leaves").body.decode().splitlines()[:length]):
            answer = self.client.get(f"/v1/proof/inclusion?leaf={place}&length={length}&from=5").json
            self.assertEqual(f"{answer['logId']} {answer['recordId']}", line)
            self.assertEqual(self._see(answer["checkpoint"]), before)
            ends = (length, before.log_root)
            self.assertTrue(verify_inclusion(answer["logId"], answer["recordId"], place, *ends, answer["proof"]))
            self.assertTrue(verify_consistency(5, old["logRoot"], *ends, answer["consistency"]))
        answer = self.client.get(f"/v1/proof/consistency?from=5&to={length}").json
        self.assertEqual(self._see(answer["checkpoint"]), before)
        self.assertTrue(verify_consistency(5, old["logRoot"], length, before.log_root, answer["proof"]))
        for name, head in heads.items():
            its_id = log_id(LogKind.PACKAGE, name)
            answer = self.client.get(f"/v1/proof/map?log={its_id}&length={length}").json
            self.assertEqual(self._see(answer["checkpoint"]), before)
            # The last record that came stands under the newest one alone.
            self.assertEqual(answer["recordId"] == head, name != "a:log-x1")
            self.assertTrue(verify_presence(its_id, answer["recordId"], before.map_root, answer["proof"]))
        none = log_id("package", "a:none")
        answer = self.client.get(f"/v1/proof/map?log={none}&length={length}").json
        self.assertTrue(verify_absence(none, before.map_root, answer["proof"]))
        for target in (f"inclusion?leaf={length}&length={length}", f"inclusion?leaf={2**63 - 1}&length={length}"):
            self.refused(self.client.get(f"/v1/proof/{target}"), 404, "NoLeaf")
        self.refused(self.client.get(f"/v1/proof/consistency?from=3&to={length}"), 404, "NoCheckpoint")
        self.refused(self.client.get(f"/v1/proof/consistency?from=99&to={length}"), 404, "NoCheckpoint")
        # It does not go on from the newest one, and there is nothing wrong with that.
        for target in (f"consistency?from={length + 1}&to={length}",
                       f"map?log={none}&length={length}&from={length + 1}"):
            told = self.refused(self.client.get(f"/v1/proof/{target}"), 409, "NotNewest")
            self.assertEqual(self._see(told["checkpoint"]), newest)

    def _check_inclusion(self, newest: Checkpoint) -> None:
        lines = self.client.get("/v1/leaves").body.decode().splitlines()
        self.assertEqual(len(lines), newest.log_length)
        old = self.client.get("/v1/checkpoint/5").json["contents"]
        for place, line in enumerate(lines):
            answer = self.client.get(f"/v1/proof/inclusion?leaf={place}&length={newest.log_length}&from=5").json
            self.assertEqual(f"{answer['logId']} {answer['recordId']}", line)
            ends = (newest.log_length, newest.log_root)
            self.assertTrue(verify_inclusion(answer["logId"], answer["recordId"], place, *ends, answer["proof"]))
            self.assertTrue(verify_consistency(5, old["logRoot"], *ends, answer["consistency"]))
        self.refused(self.client.get(f"/v1/proof/inclusion?leaf={newest.log_length}"), 404, "NoLeaf")

    def _check_map(self, newest: Checkpoint, heads: dict[str, str]) -> None:
        operators = {"": self.client.get("/v1/operator/records").headers["etag"].strip('"')}
        for name, head in (heads | operators).items():
            its_id = log_id(LogKind.PACKAGE, name) if name else OPERATOR
            answer = self.client.get(f"/v1/proof/map?log={its_id}").json
            self.assertEqual((answer["logId"], answer["recordId"]), (its_id, head))
            self.assertNotIn("consistency", answer)
            self.assertTrue(verify_presence(its_id, head, newest.map_root, answer["proof"]))
        none = log_id("package", "a:none")
        answer = self.client.get(f"/v1/proof/map?log={none}&from=0").json
        self.assertEqual((answer["recordId"], answer["consistency"]), (None, ""))
        self.assertTrue(verify_absence(none, newest.map_root, answer["proof"]))


class Renewed(Served):
    """A checkpoint that is signed anew."""

    SETTINGS = "checkpoint_seconds = 0.2\nrenew_seconds = 1.2\n"

    def test_the_newest(self) -> None:
        begin(self.client, self.key)
        first = checkpoint_of(self.client, 1)
        until = time.monotonic() + 20
        while (other := checkpoint_of(self.client, 1)) == first:
            self.assertLess(time.monotonic(), until)
            time.sleep(0.1)
        self.assertGreater(other["contents"]["timestamp"], first["contents"]["timestamp"])
        for it in ("logRoot", "logLength", "mapRoot"):
            self.assertEqual(other["contents"][it], first["contents"][it])
        found = signed(other)
        log = operator_log(self.client)
        self.assertTrue(log.verify_checkpoint(found.contents, found.key_id, found.signature))
        self.assertEqual(self.client.get("/v1/checkpoint/1").json, first)
        # It goes on to be proved under as it was signed the last time, also while the next one is signed anew.
        head = self.client.get("/v1/operator/records").headers["etag"].strip('"')
        other = self.client.get("/v1/checkpoint").json
        entry = records.grant("operator", ALICE.public_key, "commit")
        self.published(self.client.post("/v1/operator/record", operator_record(head, self.key, entry)))
        last = checkpoint_of(self.client, 2)
        until = time.monotonic() + 20
        while checkpoint_of(self.client, 2) == last:
            self.assertLess(time.monotonic(), until)
            time.sleep(0.1)
        answer = self.client.get(f"/v1/proof/map?log={OPERATOR}&length=1").json
        self.assertEqual((answer["checkpoint"]["contents"]["logLength"], answer["recordId"]), (1, head))
        self.assertGreaterEqual(answer["checkpoint"]["contents"]["timestamp"], other["contents"]["timestamp"])


class Overtaken(Served):
    """A client under whose checkpoint another one comes while it asks."""

    def test_it_goes_on(self) -> None:
        begin(self.client, self.key)
        first = package_record(None, ALICE, records.init(ALICE.public_key))
        head = self.published(self.client.post("/v1/package/a:b/record", first))["recordId"]
        checkpoint_of(self.client, 2)
        follower = Follower(Registry(f"http://127.0.0.1:{self.process.port}"), Trust())
        newest = follower.follow()
        self.assertEqual(newest.contents.log_length, 2)
        self.published(self.client.post("/v1/package/a:b/record", package_record(head, ALICE, release("1.0.0"))))
        checkpoint_of(self.client, 3)
        with mock.patch.object(Follower, "follow", side_effect=AssertionError):
            found = package(follower, "a:b")
        self.assertEqual((found.checkpoint, found.seen.head, found.seen.place), (newest, head, 1))
        # Beyond what is kept, it begins anew.
        self.published(self.client.post("/v1/package/a:c/record", first))
        checkpoint_of(self.client, 4)
        self.assertEqual(package(follower, "a:b").checkpoint.contents.log_length, 4)


class OneASecond(Served):
    """How often there is a new one."""

    SETTINGS = ""

    def test_lengths(self) -> None:
        began = time.monotonic()
        begin(self.client, self.key)
        seen: set[int] = set()
        for number in range(120):
            first = package_record(None, ALICE, records.init(ALICE.public_key))
            self.published(self.client.post(f"/v1/package/a:x{number}/record", first))
            seen.add(self.client.get("/v1/health").json["checkpointLength"] or 0)
        self.assertLessEqual(len(seen - {0}), (time.monotonic() - began) / 0.9 + 1)


class Keys(unittest.TestCase):
    """Who may sign, and what a process that begins makes of what is stored."""

    def setUp(self) -> None:
        self._folder = tempfile.TemporaryDirectory()
        self.addCleanup(self._folder.cleanup)
        self.folder = pathlib.Path(self._folder.name)
        self.key = new_key(self.folder)

    def _process(self, settings: str = "") -> Process:
        process = Process(self.folder, settings=f"checkpoint_seconds = 0.1\n{settings}")
        self.addCleanup(process.stop)
        return process

    def test_a_key_that_may_not(self) -> None:
        cold, client = Key.generate(), self._process("").client()
        client.close()
        process = self._process(f'operator_key_id = "{records.key_id(cold.public_key)}"\n')
        client = process.client()
        answer = client.post("/v1/operator/record", operator_record(None, self.key, records.init(self.key.public_key)))
        self.assertEqual(answer.problem, (403, "NotOperator"))
        head = begin(client, cold)
        time.sleep(0.5)
        self.assertEqual(client.get("/v1/checkpoint").problem, (404, "NoCheckpoint"))
        grant = records.grant("operator", self.key.public_key, "commit")
        answer = client.post("/v1/operator/record", operator_record(head, cold, grant))
        head = answer.json["recordId"]
        newest = signed(checkpoint_of(client, 2))
        self.assertEqual(newest.key_id, records.key_id(self.key.public_key))
        # The key loses the permission: what was signed stays, and nothing new is signed.
        revoke = records.revoke("operator", records.key_id(self.key.public_key), "commit")
        head = client.post("/v1/operator/record", operator_record(head, cold, revoke)).json["recordId"]
        time.sleep(0.5)
        self.assertEqual(client.get("/v1/health").json["logLength"], 3)
        self.assertEqual(signed(client.get("/v1/checkpoint").json), newest)
        # A process that begins does not serve what the operator log does not show any more.
        process.kill()
        client.close()
        client = self._process().client()
        self.assertEqual(client.get("/v1/checkpoint").problem, (404, "NoCheckpoint"))
        self.assertEqual(signed(client.get("/v1/checkpoint/2").json), newest)
        # Another grant, and all goes on from what was.
        client.post("/v1/operator/record", operator_record(head, cold, grant))
        other = signed(checkpoint_of(client, 4)).contents
        proof = client.get("/v1/proof/consistency?from=2").json["proof"]
        ends = (2, newest.contents.log_root, 4, other.log_root)
        self.assertTrue(verify_consistency(*ends, proof))
        client.close()

    def test_times_never_go_back(self) -> None:
        process = self._process()
        client = process.client()
        begin(client, self.key)
        contents = checkpoint_of(client, 1)["contents"]
        client.close()
        process.kill()
        # As if the clock had stood an hour ahead when this one was signed.
        late = Checkpoint(contents["logRoot"], 1, contents["mapRoot"], contents["timestamp"] + 3600)
        text = SignedCheckpoint(late, records.key_id(self.key.public_key), self.key.sign(late.message())).to_json()
        with sqlite3.connect(self.folder / "logs.sqlite") as file:
            file.execute("UPDATE checkpoints SET text = ?, renewed = ?", (text, text))
        client = self._process().client()
        self.assertEqual(checkpoint_of(client, 1)["contents"]["timestamp"], late.timestamp)
        first = package_record(None, ALICE, records.init(ALICE.public_key))
        self.assertEqual(client.post("/v1/package/a:b/record", first).status, 201)
        self.assertEqual(checkpoint_of(client, 2)["contents"]["timestamp"], late.timestamp)
        # Nor does the clock that bounds the times of records.
        contents_ahead = records.contents(None, (late.timestamp + 100) * 10**9, [records.init(ALICE.public_key)])
        ahead = records.signed(LogKind.PACKAGE, contents_ahead, ALICE.public_key, ALICE.sign)
        self.assertEqual(client.post("/v1/package/a:c/record", ahead).status, 201)
        client.close()

    def test_leaves_that_were_changed(self) -> None:
        process = self._process()
        client = process.client()
        begin(client, self.key)
        first = package_record(None, ALICE, records.init(ALICE.public_key))
        client.post("/v1/package/a:b/record", first)
        client.post("/v1/package/a:c/record", first)
        checkpoint_of(client, 3)
        client.close()
        process.kill()
        with sqlite3.connect(self.folder / "logs.sqlite") as file:
            file.execute("DELETE FROM records WHERE leaf = 2")
            file.execute("DELETE FROM leaves WHERE leaf = 2")
        self.assertRaisesRegex(RuntimeError, "there are fewer than 3 leaves", self._process)
        with sqlite3.connect(self.folder / "logs.sqlite") as file:
            file.execute("INSERT INTO leaves SELECT 2, log, ? FROM leaves LIMIT 1", (records.sha256_text(b""),))
        self.assertRaisesRegex(RuntimeError, "the leaves are not those of the checkpoint of length 3", self._process)


if __name__ == "__main__":
    unittest.main()
