"""Lies of a registry that was honest before, told over HTTP: each is told by its name, by a monitor and by who fetches.

The server is the real one. A relay before it changes its answers, and has its key: a registry that lies signs what it
likes. Without the lie the same is accepted.
"""

import base64
import contextlib
import dataclasses
import io
import json
import pathlib
import shutil
import tempfile
import time
import unittest

from weoldrin import Checkpoint, PackageLog, RegistryTrees, SignedCheckpoint, log_id, record_id, records
from weoldrin.registry import command

from .relay import Lie, Relay, no_lie
from .served import Client, Key, Process, checkpoint_of, new_key, next_record, operator_record, release

OPERATOR = log_id("operator")
DAY = 86_400
Leaf = tuple[str, str]


def run(*words: str) -> tuple[int, str]:
    """The status of a command, and what it prints."""
    out = io.StringIO()
    with contextlib.redirect_stdout(out), contextlib.redirect_stderr(io.StringIO()):
        status = command.main(list(words))
    return status, out.getvalue()


def changed(body: bytes, **members: object) -> bytes:
    """An answer of JSON with other members."""
    return json.dumps({**json.loads(body), **members}).encode()


def word_of(path: str, name: str) -> str:
    """A word of the query of an address."""
    return next(it.partition("=")[2] for it in path.partition("?")[2].split("&") if it.startswith(f"{name}="))


class Signed:
    """A lie about what is signed: a checkpoint of other leaves or of another map, with the proofs under it, in place of
    the honest one, which has as many leaves."""

    def __init__(self, key: Key, leaves: list[Leaf], mapped: list[Leaf] | None = None, age: int = 0) -> None:
        self.leaves, self._log, self._map = leaves, RegistryTrees(), RegistryTrees()
        self._log.push_all(leaves)
        # The last leaf of each log is the one that the map has.
        self._map.push_all(leaves if mapped is None else mapped)
        now = int(time.time()) - age
        contents = Checkpoint(self._log.log_root(), len(leaves), self._map.map_root(), now)
        self.checkpoint = SignedCheckpoint(contents, records.key_id(key.public_key), key.sign(contents.message()))

    def __call__(self, path: str, body: bytes) -> bytes:
        if path == "/v1/checkpoint":
            return self.checkpoint.to_json().encode()
        if path.startswith("/v1/leaves?"):
            return "".join(f"{' '.join(it)}\n" for it in self.leaves[int(word_of(path, "from")) :]).encode()
        if not path.startswith("/v1/proof/") or "checkpoint" not in json.loads(body):
            return body
        members: dict[str, object] = {"checkpoint": json.loads(self.checkpoint.to_json())}
        if "from=" in path:
            going_on = self._log.consistency(int(word_of(path, "from")))
            members["proof" if "/consistency?" in path else "consistency"] = going_on
        if path.startswith("/v1/proof/map?"):
            head = self._map.head(word_of(path, "log"))
            members |= {"recordId": head.record_id, "proof": head.proof}
        elif path.startswith("/v1/proof/inclusion?"):
            members["proof"] = self._log.inclusion(int(word_of(path, "leaf")))
        return changed(body, **members)


def served(its_id: str, envelopes: list[bytes]) -> Lie:
    """A lie about a log: these are served as its records."""

    def lie(path: str, body: bytes) -> bytes:
        if path.startswith(f"/v1/logs/{its_id}/records?"):
            return "".join(f"{it.hex()}\n" for it in envelopes[int(word_of(path, "from")) :]).encode()
        log = json.loads(body)["logs"].get(its_id) if path == "/v1/fetch/logs" else None
        if log is None:
            return body
        # The answer has all that follow what the asker has.
        new = envelopes[log["count"] - len(log["envelopes"]) :]
        logs = {its_id: {**log, "envelopes": [base64.b64encode(it).decode() for it in new]}}
        return changed(body, logs={**json.loads(body)["logs"], **logs})

    return lie


def both(first: Lie, second: Lie) -> Lie:
    """Two lies at once."""
    return lambda path, body: second(path, first(path, body))


class Lies(unittest.TestCase):
    """A registry of packages behind a relay, a monitor of it, and a client."""

    folder: pathlib.Path
    key: Key
    bob: Key
    process: Process
    client: Client
    relay: Relay

    @classmethod
    def setUpClass(cls) -> None:
        folder = tempfile.TemporaryDirectory()
        cls.addClassCleanup(folder.cleanup)
        cls.folder = pathlib.Path(folder.name)
        cls.key, cls.bob = new_key(cls.folder), Key.generate()
        # What is signed anew would be another checkpoint than the one that was asked for.
        cls.process = Process(cls.folder, settings="checkpoint_seconds = 0.05\nrenew_seconds = 3600\n")
        cls.addClassCleanup(cls.process.stop)
        cls.client = cls.process.client()
        cls.addClassCleanup(cls.client.close)
        cls.relay = Relay(cls.process.port)
        cls.addClassCleanup(cls.relay.end)
        # Bob had the permission to sign checkpoints, and lost it.
        head, bob = None, cls.bob.public_key
        grant = records.grant("operator", bob, "commit")
        revoke = records.revoke("operator", records.key_id(bob), "commit")
        for it in (records.init(cls.key.public_key), grant, revoke):
            answer = cls.client.post("/v1/operator/record", operator_record(head, cls.key, it))
            assert answer.status == 201, answer
            head = answer.json["recordId"]

    def setUp(self) -> None:
        """Has two packages of this test's own, which are seen behind an honest relay."""
        self.seen = self.folder / self._testMethodName
        self.seen.mkdir()
        space = self._testMethodName.replace("_", "-")
        self.name, self.other_name = f"{space}:one", f"{space}:two"
        self.one, self.two = (log_id("package", it) for it in (self.name, self.other_name))
        self.logs = {self.name: PackageLog(), self.other_name: PackageLog()}
        # By one key the first records of both would be one record.
        self.keys = {it: Key.generate() for it in self.logs}
        for name, count in ((self.name, 3), (self.other_name, 5)):
            releases = [release(f"1.{it}.0") for it in range(1, count)]
            self._publish(name, records.init(self.keys[name].public_key), *releases)
        self.relay.lie = no_lie
        self.assertEqual(self._told(), ("", ""))

    def _next(self, name: str, log: PackageLog, entry: bytes) -> bytes:
        """The record of a package that comes next in a log, which is appended to it."""
        envelope = next_record(log, self.keys[name], entry)
        log.append(envelope)
        return envelope

    def _publish(self, name: str, *entries: bytes) -> None:
        """Publishes records, and waits for a checkpoint that has them."""
        for it in entries:
            answer = self.client.post(f"/v1/package/{name}/record", self._next(name, self.logs[name], it))
            self.assertEqual(answer.status, 201, answer)
        checkpoint_of(self.client, answer.json["registryIndex"] + 1, 120)

    def _leaves(self) -> list[Leaf]:
        lines = self.client.get("/v1/leaves").body.decode().splitlines()
        return [(it.split()[0], it.split()[1]) for it in lines]

    def _envelopes(self, its_id: str) -> list[bytes]:
        return self.client.get(f"/v1/logs/{its_id}/records").envelopes

    def _other(self, envelopes: list[bytes], count: int) -> list[bytes]:
        """The package's log, if it went on from some records with so many others than the registry has."""
        with PackageLog() as log:
            for it in envelopes:
                log.append(it)
            return [*envelopes, *(self._next(self.name, log, release(f"7.{it}.0")) for it in range(count))]

    def _told(self) -> tuple[str, str]:
        """What the monitor tells first, and the client; nothing where all is accepted."""
        url, seen = self.relay.address, self.seen / "seen.sqlite"
        status, printed = run("monitor", url, "--database", str(seen), "--once", "--json", "--workers", "1")
        self.assertIn(status, (0, 1), printed)
        first = str(json.loads(printed.splitlines()[0])["name"]) if status else ""
        return first, self._told_to_client()

    def _told_to_client(self) -> str:
        words = "--trust", str(self.seen / "trust.json"), "--out", str(self.seen / "one.hex")
        status, printed = run("fetch", self.relay.address, self.name, *words)
        self.assertIn(status, (0, 1), printed)
        return printed.partition(":")[0] if status else ""

    def _check(self, name: str, lie: Lie) -> None:
        """Behind the same past, honest answers are accepted, and the lie is told by its name."""
        before = shutil.copytree(self.seen, self.seen / "before")
        self.assertEqual(self._told(), ("", ""))
        shutil.copytree(before, self.seen, dirs_exist_ok=True)
        self.relay.lie = lie
        self.assertEqual(self._told(), (name, name))
        # The client keeps nothing of it.
        self.relay.lie = no_lie
        self.assertEqual(self._told_to_client(), "")

    def test_forked_log(self) -> None:
        past, forked = self._leaves(), self._other(self._envelopes(self.one)[:-2], 3)
        new = [(self.one, record_id("package", it)) for it in forked[-3:]]
        self._publish(self.name, *(release(f"2.{it}.0") for it in range(3)))
        self._check("forked log", both(Signed(self.key, [*past, *new]), served(self.one, forked)))

    def test_rolled_back_map(self) -> None:
        self._publish(self.other_name, release("2.0.0"))
        leaves = self._leaves()
        older = [it for it in leaves if it[0] == self.one][1]
        self._check("rolled back map", Signed(self.key, leaves, [*leaves, older]))

    def test_wrong_name(self) -> None:
        self._publish(self.name, release("2.0.0"))
        self._check("wrong name", served(self.one, self._envelopes(self.two)))

    def test_stale(self) -> None:
        self._publish(self.name, release("2.0.0"))
        self._check("stale checkpoint", Signed(self.key, self._leaves(), age=2 * DAY))

    def test_unsigned(self) -> None:
        self._publish(self.name, release("2.0.0"))
        lie = Signed(self.key, self._leaves())
        lie.checkpoint = dataclasses.replace(lie.checkpoint, signature=self.key.sign(b"other"))
        self._check("unsigned checkpoint", lie)

    def test_lost_permission(self) -> None:
        self._publish(self.name, release("2.0.0"))
        self._check("key without commit", Signed(self.bob, self._leaves()))

    def test_left_out_leaf(self) -> None:
        """The map has a record that has no leaf, and that is served."""
        self._publish(self.other_name, release("2.0.0"))
        leaves, shown = self._leaves(), self._other(self._envelopes(self.one), 1)
        last = self.one, record_id("package", shown[-1])
        self._check("left out leaf", both(Signed(self.key, leaves, [*leaves, last]), served(self.one, shown)))

    def test_replaced_record(self) -> None:
        self._publish(self.name, release("2.0.0"))
        self._check("replaced record", served(self.one, self._other(self._envelopes(self.one)[:-1], 1)))

    def test_old_proof(self) -> None:
        """What the server answered of the map before, under its newest checkpoint."""
        target = "/v1/proof/map?log="
        old = {it: self.client.get(f"{target}{it}").json for it in (self.one, self.two, OPERATOR)}
        self._publish(self.name, release("2.0.0"))

        def lie(path: str, body: bytes) -> bytes:
            if not path.startswith(target):
                return body
            kept = old[word_of(path, "log")]
            return changed(body, recordId=kept["recordId"], proof=kept["proof"])

        self._check("old proof", lie)

    def test_honest_key(self) -> None:
        """By the right key, with the right leaves and records, a relay that makes all answers itself tells no lie."""
        self._publish(self.name, release("2.0.0"))
        self._check("", both(Signed(self.key, self._leaves()), served(self.one, self._envelopes(self.one))))


if __name__ == "__main__":
    unittest.main()
