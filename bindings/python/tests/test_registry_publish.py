"""`weoldrin publish`: a record is published once, on the head that was verified, and whatever a registry answers."""

import json
import os
import pathlib
import unittest
from unittest import mock

from weoldrin import PackageLog, log_id, p256, records
from weoldrin.making import NoRecord
from weoldrin.registry import Follower
from weoldrin.registry import Registry as Asked
from weoldrin.registry import Trust, asking, publish, publishing
from weoldrin.registry.told import NoAnswer

from . import registries
from .registries import ONE, TWO, Query, Reply, changed, honest, json_reply, problem, run
from .test_registry_client import LIES, ClientTest

NEW = log_id("package", "a:new")


class PublishTest(ClientTest):
    """A registry of two packages, a publisher who holds all in both, and files."""

    def setUp(self) -> None:
        super().setUp()
        # Nothing is waited for where a record is sent again.
        for name in ("_BETWEEN", "_PAUSE"):
            patch = mock.patch.object(publishing, name, 0.0)
            patch.start()
            self.addCleanup(patch.stop)
        self.key, self.content = str(self.folder / "key.pem"), self.folder / "a file"
        self.content.write_bytes(b"what is released")
        self.released = f"release 2.0.0 {self.content}"

    def by_alice(self) -> None:
        """The key's file has the key of who began the logs."""
        self.registry.alice.save_new(self.key)

    def publish(self, *words: str, name: str = "a:one") -> tuple[int, str, str]:
        """Publishes a record by what is trusted."""
        return run("publish", self.served.url, name, *words, "--key", self.key, "--trust", self.trust)

    def posted(self) -> int:
        """How often a record was sent."""
        return sum(it.endswith("/record") for it in self.served.asked)

    def twisted(self, twist: registries.Twist) -> None:
        """A registry of the same past that changes its answers to records that are sent."""
        self.served.registry = honest()
        self.registry.twist = lambda path, *rest: twist(path, *rest) if path.endswith("/record") else rest[1]


class Publish(PublishTest):
    """What is published."""

    def test_new(self) -> None:
        """A key and a log, where there are none; the next record goes on from it, with no checkpoint between."""
        status, printed, said = self.publish(self.released, name="a:new")
        self.assertEqual((status, printed), (0, f"ok {self.registry.heads[NEW]} leaf 12\n"), said)
        key = p256.SigningKey.from_pem(pathlib.Path(self.key).read_bytes())
        its_id = records.key_id(key.public_key)
        self.assertIn(f"made the key {its_id} in {self.key}", said)
        self.assertIn("trusted on first use", said)
        self.assertIn("the registry has no log of a:new, which begins by this record", said)
        self.assertEqual(os.stat(self.key).st_mode & 0o777, 0o600)
        log = self.registry.log(NEW)
        assert isinstance(log, PackageLog)
        release = log.release("2.0.0")
        assert release is not None
        self.assertEqual((len(log), release.content), (1, records.sha256_text(b"what is released")))
        self.assertEqual((release.by, log.permissions(its_id)), (its_id, ["release", "yank"]))
        self.registry.sign()
        self.assertEqual(self.publish("yank 2.0.0", f"release 2.1.0 {ONE}", name="a:new")[::2], (0, ""))
        status, printed, said = self.publish("yank 2.1.0", name="a:new")
        self.assertEqual((status, printed, said), (0, f"ok {self.registry.heads[NEW]} leaf 14\n", ""))
        self.registry.sign()
        self.assertRegex(self.fetch(name="a:new")[1], f"^ok 3 {self.registry.heads[NEW]} under 15 .* leaf 14\n$")

    def test_begin_alone(self) -> None:
        """A log is begun by no more than an init, or by the one that is named; and one that has begun, by nothing."""
        self.by_alice()
        self.assertEqual(self.publish(name="a:new")[0], 0)
        self.assertEqual(self.publish(f"init {self.registry.alice.public_key}", self.released, name="a:named")[0], 0)
        self.registry.sign()
        self.assertEqual(self.publish(name="a:new")[:2], (0, f"ok {self.registry.heads[NEW]} leaf 12\n"))
        status, printed, said = self.publish()
        self.assertEqual((status, printed), (2, ""))
        self.assertIn("there is nothing to publish", said)
        self.assertEqual((len(self.registry.logs[NEW]), self.posted()), (1, 2))

    def test_words(self) -> None:
        """Words that say no record, and files that can't be used, are told before anything is asked."""
        missing, folder = f"{self.folder}/none", str(self.folder)
        wrong = ["", "yank", "release 2.0.0", f"release 2.0.0 {missing}", f"release 2.0.0 {folder}", "define a"]
        wrong += ["grant sha256:0 release", f"grant {self.registry.alice.public_key} commit", "release 2.0.0 \ud800"]
        self.by_alice()
        for it in wrong:
            status, printed, said = self.publish("yank 1.1.0", it)
            self.assertEqual((status, printed, self.served.asked), (2, "", []), it)
            self.assertIn("entry 1: ", said)
        self.assertEqual(self.publish(self.released, name="one")[0], 2)
        status, _, said = self.publish(f"release one {self.content}")
        self.assertEqual((status, "the words make no record: " in said), (2, True), said)
        self.assertEqual(self.posted(), 0)

    def test_digests(self) -> None:
        """A digest stands for a file that is not there, and one of that name is named otherwise."""
        digest = records.sha256_text(b"elsewhere")
        self.assertEqual(publishing.digest_of_file(digest), digest)
        path = self.folder / digest
        path.write_bytes(b"x" * 3_000_000)
        self.assertEqual(publishing.digest_of_file(str(path)), records.sha256_text(b"x" * 3_000_000))
        os.mkfifo(self.folder / "pipe")
        self.assertRaises(NoRecord, publishing.digest_of_file, str(self.folder / "pipe"))

    def test_keys(self) -> None:
        """No key is made for a log that has begun, none over a file, and one that may not sign is told by the log."""
        status, printed, said = self.publish(self.released)
        self.assertEqual((status, printed, pathlib.Path(self.key).exists()), (2, "", False))
        self.assertIn("a new key can't sign for it", said)
        path = pathlib.Path(self.key)
        for is_link in (False, True):
            if is_link:
                path.symlink_to(self.folder / "none")
            else:
                path.touch()
            self.assertEqual(self.publish(self.released, name="a:new")[:2], (2, ""))
            path.unlink()
        p256.SigningKey.generate().save_new(self.key)
        status, printed, said = self.publish(self.released)
        self.assertEqual((status, printed), (1, "refused 4 UnauthorizedAction\n"))
        self.key = f"{self.folder}/no/key.pem"
        self.assertEqual(self.publish(self.released, name="a:new")[0], 3)
        self.assertEqual(self.posted(), 0)

    def test_saved(self) -> None:
        """A key is saved whole or not at all, for its owner alone, and never over a file."""
        key, path = self.registry.alice, self.folder / "new.pem"
        with mock.patch("os.fsync", side_effect=OSError(28, "full")), self.assertRaises(OSError):
            key.save_new(path)
        self.assertEqual({it.name for it in self.folder.iterdir()}, {"a file"})
        before = os.umask(0)
        try:
            key.save_new(path)
        finally:
            os.umask(before)
        self.assertEqual((path.stat().st_mode & 0o777, path.read_bytes()), (0o600, key.to_pem()))
        self.assertRaises(FileExistsError, p256.SigningKey.generate().save_new, path)
        self.assertEqual(path.read_bytes(), key.to_pem())
        self.assertEqual({it.name for it in self.folder.iterdir()}, {"a file", "new.pem"})

    def test_clock(self) -> None:
        """A record's time is not before that of the one before it, whatever this machine's clock says."""
        self.by_alice()
        last = self.registry.log(ONE).last()
        assert last is not None
        with mock.patch("time.time_ns", return_value=1):
            self.assertEqual(self.publish(self.released)[0], 0)
        last_new = self.registry.log(ONE).last()
        assert last_new is not None
        self.assertEqual(last_new.timestamp, last.timestamp)

    def test_offences(self) -> None:
        """What the log refuses is not sent."""
        self.by_alice()
        for words, name in (("yank 7.0.0", "YankOfUnreleased"), (f"release 1.1.0 {ONE}", "ReleaseOfReleased")):
            status, printed, said = self.publish(words)
            self.assertEqual((status, printed), (1, f"refused 4 {name}\n"), said)
        self.assertEqual(self.posted(), 0)

    def test_in_python(self) -> None:
        follower, entries = Follower(Asked(self.served.url), Trust()), [records.yank("1.1.0")]
        found = publish(follower, "a:one", self.registry.alice, entries)
        self.assertEqual(found, (self.registry.heads[ONE], 12))


class Refusals(PublishTest):
    """What a registry refuses."""

    def setUp(self) -> None:
        super().setUp()
        self.by_alice()

    def test_refused(self) -> None:
        """Each with status 1, and a sentence; nothing is sent twice."""
        refusals = [(403, "NotOperator"), (413, "TooLong"), (422, "TimeAhead"), (429, "TooManyLogs"), (400, "BadBody")]
        for status, name in refusals:
            self.served.asked.clear()
            self.twisted(lambda *_, of=(status, name): problem(*of, advice="none"))
            found = self.publish(self.released)
            self.assertEqual((found[:2], self.posted()), ((1, ""), 1))
            self.assertIn(f"the registry refuses: {status} {name}: a sentence", found[2])

    def test_another_head(self) -> None:
        """A record that came meanwhile is told, and the same words go on from it."""
        self.twisted(lambda *_: problem(409, "NotNext", head=None, count=0))
        status, printed, said = self.publish(self.released)
        self.assertEqual((status, printed, self.posted()), (1, "", 1))
        self.assertIn("409 NotNext: another record came first; the same words go on from it", said)
        self.served.registry = honest()
        self.registry.release(ONE, "1.9.0")
        self.assertEqual(self.publish(self.released)[:2], (0, f"ok {self.registry.heads[ONE]} leaf 13\n"))

    def test_later(self) -> None:
        """A registry that can't answer now is asked a few times."""
        for status in (500, 503, 507, 408, 429):
            self.served.asked.clear()
            self.twisted(lambda *_, of=status: problem(of, "Busy"))
            found = self.publish(self.released)
            self.assertEqual((found[:2], self.posted()), ((3, ""), 3), status)
            self.assertIn("is not known; the same words publish it once", found[2])
            self.assertIn(f"with status {status}", found[2])
        self.twisted(lambda *_: (429, {"Content-Type": "text/html"}, b"<p>"))
        self.assertEqual(self.publish(self.released)[0], 3)


class LostAnswers(PublishTest):
    """Answers that get lost: a record is published once."""

    def setUp(self) -> None:
        super().setUp()
        self.by_alice()
        self.lost = 0
        real = asking.ask

        def ask(address: asking.Address, path: str, *rest: object, **more: object) -> asking.Answer:
            answer = real(address, path, *rest, **more)  # type: ignore[arg-type]
            if path.endswith("/record") and self.lost:
                self.lost -= 1
                raise NoAnswer("it was lost")
            return answer

        patch = mock.patch.object(asking, "ask", ask)
        patch.start()
        self.addCleanup(patch.stop)

    def test_sent_again(self) -> None:
        """A few times, until there is an answer."""
        for count, leaf in ((1, 12), (2, 13)):
            self.lost = count
            status, printed, said = self.publish(f"release 3.{count}.0 {ONE}")
            self.assertEqual((status, printed), (0, f"ok {self.registry.heads[ONE]} leaf {leaf}\n"), said)
        self.assertEqual((len(self.registry.logs[ONE]), self.posted()), (6, 5))

    def test_run_again(self) -> None:
        """The next run finds what the first one published, also behind another record, and under a checkpoint."""
        grant = f"grant {p256.SigningKey.generate().public_key} release"
        cases = [("a:one", others, signs) for others in (0, 2) for signs in (False, True)]
        for name, others, signs in [*cases, ("a:new", 0, True)]:
            with self.subTest(f"{name} {others} {signs}"):
                self.served.registry, self.lost = honest(), 3
                pathlib.Path(self.trust).unlink(missing_ok=True)
                self.assertEqual(self.fetch()[0], 0)
                its_id = log_id("package", name)
                self.assertEqual(self.publish(grant, name=name)[:2], (3, ""))
                count, wanted = len(self.registry.logs[its_id]), f"ok {self.registry.heads[its_id]} leaf 12\n"
                for place in range(others):
                    self.registry.release(its_id, f"5.{place}.0")
                if signs:
                    self.registry.sign()
                self.assertEqual(self.publish(grant, name=name)[:2], (0, wanted))
                self.assertEqual(len(self.registry.logs[its_id]), count + others)

    def test_another_time(self) -> None:
        """What was revoked meanwhile may be granted again: that is another record."""
        bob = p256.SigningKey.generate().public_key
        grant, revoke = f"grant {bob} release", f"revoke {records.key_id(bob)} release"
        for words in (grant, revoke, grant, grant):
            self.assertEqual(self.publish(words)[0], 0)
            self.registry.sign()
        self.assertEqual(len(self.registry.logs[ONE]), 7)


class Hostile(PublishTest):
    """A registry that lies."""

    def setUp(self) -> None:
        super().setUp()
        self.by_alice()

    def test_lies(self) -> None:
        """Whatever `fetch` is told of, nothing is sent after, and nothing is kept."""
        self.assertEqual(self.fetch()[0], 0)
        before = self.files()
        for lie, *_ in LIES:
            with self.subTest(lie.__name__):
                self.served.registry = honest()
                lie(self.registry)
                self.served.asked.clear()
                status, printed, said = self.publish(self.released)
                told, fetched = printed.partition(":")[0], self.fetch()[1].partition(":")[0]
                self.assertEqual((status, told, self.posted()), (1, fetched, 0), said)
                self.assertEqual(self.files(), before)

    def test_of_another_log(self) -> None:
        """Records of another log that no checkpoint has under this name are not gone on from: the record that would
        be signed would be lawful there."""
        self.registry.logs[NEW] = self.registry.logs[TWO]
        with mock.patch.object(publishing, "_WAIT", 0.2):
            status, printed, said = self.publish("yank 1.1.0", name="a:new")
        self.assertEqual((status, printed, self.posted()), (3, "", 0))
        self.assertIn("the log of a:new has begun, and no checkpoint has it yet", said)
        self.registry.logs[ONE] = [*self.registry.logs[ONE], *self.registry.logs[TWO][1:]]
        status, printed, said = self.publish("yank 1.1.0")
        self.assertEqual((status, printed.partition(":")[0], self.posted()), (1, "unlawful record", 0))

    def test_waiting(self) -> None:
        """A log that has begun is gone on from as soon as a checkpoint has it."""
        self.registry.begin(NEW)

        def twist(path: str, query: Query, reply: Reply) -> Reply:
            if path.startswith("/v1/logs/") and self.registry.length == 12:
                self.registry.sign()
            return reply

        self.registry.twist = twist
        self.assertEqual(self.publish(self.released, name="a:new")[:2], (0, f"ok {self.registry.heads[NEW]} leaf 13\n"))

    def test_answers(self) -> None:
        """Answers to a record that are none of it."""
        wrong: list[Reply] = [(201, {}, b""), (201, {}, b"{}"), (201, {}, b"[" * 9_000), (302, {"Location": "/"}, b"")]
        wrong += [(200, {}, b"{}"), (409, {}, b"NotNext"), (404, {}, b"{}"), problem(409, "NotNext", published=7)]
        for it in wrong:
            self._refused(lambda *_: it)
        other = records.sha256_text(b"other")
        members: list[dict[str, object]] = [{"recordId": other}, {"logId": TWO}, {"registryIndex": "12"}]
        members += [{"registryIndex": it} for it in (True, -1, 2**63, 11, None)]
        members += [{"place": it} for it in (3, 5, None)]
        for more in members:
            self._refused(lambda path, query, reply: _lying(reply, more))

    def _refused(self, twist: registries.Twist) -> None:
        self.twisted(twist)
        status, printed, said = self.publish(self.released)
        self.assertEqual((status, printed.partition(":")[0]), (1, "bad answer"), said)

    def test_texts(self) -> None:
        """What a stranger wrote moves no cursor, and is one line."""
        self.twisted(lambda *_: json_reply({"name": "X\x1b[2J", "detail": "\n\u202e\x9b"}, 422))
        status, printed, said = self.publish(self.released)
        self.assertEqual((status, printed, said.count("\n")), (1, "", 2))
        self.assertNotRegex(said, "[\x1b\u202e\x9b]")

    def test_leaf_denied(self) -> None:
        """A record that stands, and is said to have no leaf."""
        self.assertEqual(self.publish(self.released)[0], 0)
        self.registry.twist = lambda path, query, reply: (
            problem(404, "NoRecord") if path == "/v1/leaf" and self.registry.heads[ONE] in query["record"] else reply
        )
        status, printed, said = self.publish(self.released)
        self.assertEqual((status, printed.partition(":")[0]), (1, "bad answer"), said)


def _lying(reply: Reply, members: dict[str, object]) -> Reply:
    """An answer to a record that is sent, or sent again, with other members."""
    if reply[0] == 201:
        return changed(reply, **members)
    return problem(409, "NotNext", published={**json.loads(reply[2])["published"], **members})


if __name__ == "__main__":
    unittest.main()
