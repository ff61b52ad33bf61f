"""`weoldrin fetch`, `lock` and `check`: what an honest registry has is fetched, and each lie is told by its name."""

import json
import os
import pathlib
import tempfile
import unittest
from collections.abc import Callable
from typing import Any
from unittest import mock

from weoldrin import audit, records

from . import lies, registries
from .registries import ONE, OPERATOR, TWO, Registry, honest, run, serving

# What is told of each lie to one who has asked before, and to one who has not.
LIES: list[tuple[Callable[[Registry], None], str, str]] = [
    (lies.wrong_name, "wrong name", "wrong name"),
    (lies.wrong_proof, "wrong name", "wrong name"),
    (lies.copied, "forked log", ""),
    (lies.forked_log, "forked log", ""),
    (lies.rolled_back_map, "rolled back map", ""),
    (lies.unmapped, "rolled back map", "none"),
    (lies.rolled_back, "rolled back registry", ""),
    (lies.rolled_back_silently, "rolled back registry", ""),
    (lies.forked_registry, "forked registry", ""),
    (lies.forked_longer, "forked registry", ""),
    (lies.forked_map, "forked registry", ""),
    (lies.denying, "forked registry", ""),
    (lies.stale, "stale checkpoint", "stale checkpoint"),
    (lies.older_time, "stale checkpoint", ""),
    (lies.ahead, "checkpoint ahead", "checkpoint ahead"),
    (lies.unsigned, "unsigned checkpoint", "unsigned checkpoint"),
    (lies.without_commit, "key without commit", "key without commit"),
    (lies.lost_commit, "key without commit", "key without commit"),
    (lies.left_out_leaf, "left out leaf", "left out leaf"),
    (lies.denied_leaf, "left out leaf", "left out leaf"),
    (lies.leaf_of_another, "false proof", "false proof"),
    (lies.leaf_behind_all, "left out leaf", "left out leaf"),
    (lies.leaf_seen_before, "left out leaf", "false proof"),
    (lies.replaced_record, "replaced record", "replaced record"),
    (lies.old_proof, "old proof", "false proof"),
    (lies.old_proof_of_package, "old proof", "false proof"),
    (lies.false_proof, "false proof", "false proof"),
    (lies.held_back, "rolled back log", "rolled back log"),
    (lies.cut_off, "rolled back log", "rolled back log"),
    (lies.unlawful, "unlawful record", "unlawful record"),
    (lies.gone, "rolled back log", "missing record"),
    (lies.hidden, "false proof", "false proof"),
    (lies.forked_operator, "forked log", ""),
    (lies.split_map, "forked registry", "forked registry"),
    (lies.split_unsigned, "key without commit", "key without commit"),
    (lies.false_leaf, "false proof", "false proof"),
    (lies.junk, "unlawful record", "unlawful record"),
    (lies.hostile, "unlawful record", "unlawful record"),
]


class ClientTest(unittest.TestCase):
    """A registry, and the files of a client."""

    def setUp(self) -> None:
        # Where there is one, by a folder that has no disk, whose flushing would take most of the time.
        folder = tempfile.TemporaryDirectory(dir="/dev/shm" if os.access("/dev/shm", os.W_OK) else None)
        self.addCleanup(folder.cleanup)
        self.folder = pathlib.Path(folder.name)
        # Python 3.10 has no enterContext.
        context = serving(honest())
        self.served = context.__enter__()
        self.addCleanup(context.__exit__, None, None, None)
        self.trust, self.out = str(self.folder / "trust.json"), str(self.folder / "one.hex")

    @property
    def registry(self) -> Registry:
        """What is served."""
        it: Registry = self.served.registry
        return it

    def fetch(self, *more: str, name: str = "a:one") -> tuple[int, str, str]:
        """Fetches a package by what is trusted."""
        return run("fetch", self.served.url, name, "--trust", self.trust, *more)

    def files(self) -> dict[str, bytes]:
        """What the folder has."""
        return {it.name: it.read_bytes() for it in self.folder.iterdir()}


class Clocks(ClientTest):
    """A client whose clock moves."""

    def test_limits(self) -> None:
        """A checkpoint may be an hour old, and ten minutes ahead. What is refused for it leaves all as it was."""
        signed = self.registry.signed[-1].contents.timestamp
        self.assertEqual(self.fetch("--out", self.out)[0], 0)
        told = {0: "", 3_600: "", 3_601: "stale checkpoint", -600: "", -601: "checkpoint ahead"}
        told |= {-7_200: "checkpoint ahead", 90 * 86_400: "stale checkpoint", 1: ""}
        for seconds, name in told.items():
            with self.subTest(seconds), mock.patch("time.time", return_value=signed + seconds):
                before = self.files()
                status, printed, said = self.fetch("--out", self.out)
                self.assertEqual((status, printed.partition(":")[0]), (1, name) if name else (0, "ok 4 sha256"), said)
                self.assertEqual(self.files(), before)
        with mock.patch("time.time", return_value=signed + 7_200):
            self.assertEqual(self.fetch("--oldest", "7200")[0], 0)


class Fetch(ClientTest):
    """What is fetched."""

    def test_honest(self) -> None:
        """The log is written, gone on from, and what was seen is kept."""
        status, printed, said = self.fetch("--out", self.out)
        head = self.registry.heads[ONE]
        self.assertEqual(status, 0, said)
        self.assertRegex(printed, rf"^ok 4 {head} under 12 \d{{4}}-\S+Z leaf 5\n$")
        key = records.key_id(self.registry.alice.public_key)
        self.assertIn(f"trusted on first use: the operator log begins with the key {key}", said)
        self.assertEqual(audit(self.out, "package").records, 4)
        kept = json.loads(pathlib.Path(self.trust).read_text(encoding="utf-8"))
        self.assertEqual((kept["operator"]["key"], kept["operator"]["seen"]["count"]), (key, 2))
        self.assertEqual(kept["logs"], {ONE: {"head": head, "count": 4, "place": 5}})
        self.registry.release(ONE, "2.0.0")
        self.registry.sign()
        # A record that no checkpoint has yet is left for the next time.
        self.registry.release(ONE, "3.0.0")
        self.served.asked.clear()
        status, printed, said = self.fetch("--out", self.out)
        self.assertEqual((status, said), (0, ""))
        self.assertRegex(printed, "^ok 5 sha256:[0-9a-f]{64} under 13 .* leaf 12\n$")
        self.assertEqual(audit(self.out, "package").records, 5)
        self.assertFalse([it for it in self.served.asked if "records?from=0" in it], self.served.asked)
        self.assertEqual(self.fetch("--out", self.out)[0], 0)
        self.assertEqual({it for it in self.files() if it.endswith(".new")}, set())

    def test_first(self) -> None:
        """Without files, to standard output, and by a pinned key."""
        status, printed, said = run("fetch", self.served.url, "a:two", "--out", "-")
        self.assertEqual((status, printed), (0, "".join(f"{it.hex()}\n" for it in self.registry.logs[TWO])))
        self.assertIn("ok 6 ", said)
        key = records.key_id(self.registry.alice.public_key)
        self.assertEqual(run("fetch", self.served.url, "a:two", "--operator", key)[2], "")
        other = run("fetch", self.served.url, "a:two", "--operator", records.sha256_text(b"other"))
        self.assertEqual((other[0], other[1][:16]), (1, "other operator: "))
        self.assertEqual(run("fetch", self.served.url, "a:two", "--operator", "other")[0], 2)
        self.assertEqual(self.fetch()[0], 0)
        self.assertEqual(self.fetch("--operator", records.sha256_text(b"other"))[0], 1)

    def test_none(self) -> None:
        """A package that is none, which is proved; a name that is none; a registry that has no checkpoint yet."""
        self.assertEqual(self.fetch(name="a:three")[:2], (1, "none\n"))
        self.assertEqual(self.fetch(name="three")[0], 2)
        self.registry.signed.clear()
        status, printed, said = run("fetch", self.served.url, "a:one")
        self.assertEqual((status, printed), (1, ""))
        self.assertIn("NoCheckpoint", said)
        self.served.shutdown()
        self.served.server_close()
        self.assertEqual(self.fetch()[0], 3)

    def test_leaf(self) -> None:
        """The leaf is asked for by log and record, once, and no others are read."""
        for is_known in (False, True):
            self.served.asked.clear()
            self.assertRegex(self.fetch()[1], " leaf 5\n$")
            asked = [it for it in self.served.asked if it.startswith("/v1/leaf")]
            wanted = f"/v1/leaf?log={ONE}&record={self.registry.heads[ONE]}"
            self.assertEqual(asked, [] if is_known else [wanted])
        # A leaf that was not looked for when the log was seen.
        path = pathlib.Path(self.trust)
        path.write_text(path.read_text(encoding="utf-8").replace('"place": 5', '"place": null'), encoding="utf-8")
        self.assertRegex(self.fetch()[1], " leaf 5\n$")
        self.assertEqual(json.loads(path.read_text(encoding="utf-8"))["logs"][ONE]["place"], 5)

    def test_moving(self) -> None:
        """New checkpoints that come between two answers are followed."""
        def twist(path: str, query: registries.Query, reply: registries.Reply) -> registries.Reply:
            if path == "/v1/proof/map" and query["log"] == OPERATOR and len(self.registry.leaves) < 15:
                self.registry.release(TWO, f"3.{len(self.registry.leaves)}.0")
                self.registry.sign()
            return reply

        self.registry.twist = twist
        status, printed, said = self.fetch()
        self.assertEqual((status, said[:8]), (0, "weoldrin"), printed)
        self.assertIn(" under 15 ", printed)


class Lies(ClientTest):
    """Each lie by its name. Nothing that is kept changes."""

    def test_after_honest(self) -> None:
        self.assertEqual(self.fetch("--out", self.out)[0], 0)
        before = self.files()
        for lie, name, _ in LIES:
            with self.subTest(lie.__name__):
                self.served.registry = honest()
                lie(self.registry)
                status, printed, said = self.fetch("--out", self.out)
                self.assertEqual((status, printed.partition(":")[0]), (1, name), said)
                self.assertEqual(self.files(), before)

    def test_evidence(self) -> None:
        """Behind what is told stand the signed checkpoints."""
        self.assertEqual(self.fetch()[0], 0)
        seen = self.registry.signed[-1]
        lies.forked_longer(self.registry)
        told, *evidence = self.fetch()[1].splitlines()
        self.assertTrue(told.startswith("forked registry: "))
        self.assertEqual(evidence, [it.to_json() for it in (seen, self.registry.signed[-1])])

    def test_without_file(self) -> None:
        """Those that are told by what is trusted alone, where the log is in no file."""
        by_trust = (lies.forked_log, lies.rolled_back_map, lies.cut_off, lies.replaced_record)
        for lie, name, _ in (it for it in LIES if it[0] in by_trust):
            with self.subTest(lie.__name__):
                self.served.registry = honest()
                pathlib.Path(self.trust).unlink(missing_ok=True)
                self.assertEqual(self.fetch()[0], 0)
                lie(self.registry)
                status, printed, said = self.fetch()
                self.assertEqual((status, printed.partition(":")[0]), (1, name), said)

    def test_at_first(self) -> None:
        """Those that one can be told of who never asked before."""
        for lie, _, name in LIES:
            with self.subTest(lie.__name__):
                self.served.registry = honest()
                lie(self.registry)
                status, printed, said = run("fetch", self.served.url, "a:one")
                told = printed.strip().partition(":")[0] if status else ""
                self.assertEqual((status, told), (1 if name else 0, name), said)
                self.assertNotRegex(printed + said, "[\x1b\u202e]")


class Trusted(ClientTest):
    """The file of what is trusted."""

    def test_malformed(self) -> None:
        """What is none is refused, and is left as it is."""
        self.assertEqual(self.fetch()[0], 0)
        path = pathlib.Path(self.trust)
        good = path.read_text(encoding="utf-8")
        members = json.loads(good)
        spoiled = ["", "{}", "null", "[]", good[:-40], good.replace('"count": 4', '"count": -4'), "[" * 100_000]
        spoiled += [good.replace('"count": 4', f'"count": {"9" * 10_000}'), good.replace(ONE, ONE.upper())]
        spoiled.append(good.replace('"count": 4', '"count": true'))
        spoiled += [json.dumps({**members, it: 7}) for it in ("operator", "checkpoint", "logs", "other")]
        spoiled.append(json.dumps({**members, "operator": {**members["operator"], "state": {}}}))
        spoiled.append(json.dumps({**members, "checkpoint": {**members["checkpoint"], "signature": 7}}))
        for text in spoiled:
            path.write_text(text, encoding="utf-8")
            status, printed, said = self.fetch()
            self.assertEqual((status, printed), (2, ""), text[:100])
            self.assertIn("it is no file of what is trusted", said)
            self.assertEqual(path.read_text(encoding="utf-8"), text)

    def test_places(self) -> None:
        """A folder that is missing, a folder in its place, and a log that is none."""
        self.assertEqual(run("fetch", self.served.url, "a:one", "--trust", f"{self.folder}/no/trust")[0], 2)
        self.assertEqual(run("fetch", self.served.url, "a:one", "--out", f"{self.folder}/no/log")[0], 2)
        self.assertEqual(run("fetch", self.served.url, "a:one", "--trust", str(self.folder))[0], 3)
        self.assertFalse(pathlib.Path(self.out).exists())
        first = self.registry.logs[ONE][0].hex()
        texts = {"# it\n": 0, f"{first}\n\n": 0, first: 0, f"{first}\r\n": 0, f"{first}\n\n# it\n": 2}
        for text, status in texts.items():
            pathlib.Path(self.out).write_text(text, encoding="ascii")
            self.assertEqual((self.fetch("--out", self.out)[0], audit(self.out, "package").fault), (status, None))
        pathlib.Path(self.out).chmod(0o444)
        self.assertEqual(self.fetch("--out", self.out)[0], 2)
        pathlib.Path(self.out).chmod(0o644)
        pathlib.Path(self.out).write_text("zz\n", encoding="ascii")
        self.assertEqual(self.fetch("--out", self.out)[0], 2)
        pathlib.Path(self.out).write_text(f"{self.registry.logs[TWO][1].hex()}\n", encoding="ascii")
        self.assertEqual(self.fetch("--out", self.out)[0], 2)

    def test_urls(self) -> None:
        wrong = ["ftp://x", "http://", "http://u:p@x", "http://x/?q", "http://x:99999", "x", "http://["]
        wrong.append("http://x/\x1b")
        for url in wrong:
            status, printed, said = run("fetch", url, "a:one")
            self.assertEqual((status, printed, "\x1b" in said), (2, "", False), url)


class Lock(ClientTest):
    """Locked versions."""

    def setUp(self) -> None:
        super().setUp()
        self.wanted, self.locked = self.folder / "requirements", str(self.folder / "lock.json")
        self.wanted.write_text("# What is needed.\na:one >=1.1, <2\n\n  a:two *\n", encoding="utf-8")

    def _lock(self) -> tuple[int, str, str]:
        return run("lock", self.served.url, str(self.wanted), "--out", self.locked)

    def test_stands(self) -> None:
        """What is locked stands while the logs go on, and a yank is told."""
        status, printed, _ = self._lock()
        contents = [records.sha256_text(it) for it in (b"1.3.0", b"1.5.0")]
        self.assertEqual((status, printed), (0, f"a:one 1.3.0 {contents[0]}\na:two 1.5.0 {contents[1]}\n"))
        self.registry.release(ONE, "1.9.0")
        self.registry.sign()
        status, printed, said = run("check", self.served.url, self.locked)
        self.assertEqual((status, said), (0, ""))
        self.assertRegex(printed, "^a:one 1.3.0 ok 5 .*\na:two 1.5.0 ok 6 .*\nunder 13 ")
        self.registry.publish(ONE, records.yank("1.3.0"))
        self.registry.sign()
        status, printed, _ = run("check", self.served.url, self.locked)
        self.assertEqual((status, printed.split()[2]), (1, "yanked"))

    def test_lies(self) -> None:
        """A check tells each lie that one is told of who asked before."""
        self.assertEqual(self._lock()[0], 0)
        for lie, name, at_first in LIES:
            with self.subTest(lie.__name__):
                self.served.registry = honest()
                lie(self.registry)
                status, printed, said = run("check", self.served.url, self.locked)
                self.assertEqual(status, 1, said)
                self.assertIn(printed.partition(":")[0], (name, at_first))

    def test_none(self) -> None:
        """A requirement that nothing meets locks nothing."""
        self.wanted.write_text("a:one >=9\na:three *\n", encoding="utf-8")
        self.assertEqual(self._lock()[:2], (1, "a:one none\na:three none\n"))
        self.assertFalse(pathlib.Path(self.locked).exists())
        for text in ("a:one wrong\n", "one *\n", "", "a:one *\na:one *\n", "a:one"):
            self.wanted.write_text(text, encoding="utf-8")
            self.assertEqual(self._lock()[0], 2, text)

    def test_malformed(self) -> None:
        self.assertEqual(self._lock()[0], 0)
        path = pathlib.Path(self.locked)
        good = json.loads(path.read_text(encoding="utf-8"))
        other = json.loads(json.dumps(good).replace("a:one", "a:six"))
        spoiled: list[Any] = [{}, [], None, {**good, "packages": {}}, {**good, "packages": {"a:one": {}}}]
        spoiled.append({**good, "logs": {}})
        for it in (*spoiled, {**good, "checkpoint": None}, {**good, "packages": 7}):
            path.write_text(json.dumps(it), encoding="utf-8")
            self.assertEqual(run("check", self.served.url, self.locked)[0], 2, it)
        path.write_text(json.dumps(other), encoding="utf-8")
        self.assertNotEqual(run("check", self.served.url, self.locked)[0], 0)
        # The logs of two packages exchanged.
        one, two = (good["packages"][it] for it in ("a:one", "a:two"))
        exchanged = {"a:one": {**one, "log": TWO}, "a:two": {**two, "log": ONE}}
        path.write_text(json.dumps({**good, "packages": exchanged}), encoding="utf-8")
        self.assertEqual(run("check", self.served.url, self.locked)[0], 2)
        self.assertEqual(run("check", self.served.url, f"{self.locked}.none")[0], 2)


class Commands(ClientTest):
    """The words."""

    def test_help(self) -> None:
        for it in ("fetch", "lock", "check", "monitor", "gossip"):
            status, printed, _ = run(it, "--help")
            self.assertEqual(status, 0)
            self.assertIn("Status: 0 ", printed)
        wrong: list[list[str]] = [[], ["fetch"], ["fetch", "x", "y", "--trust", "a", "--trust", "b"], ["monitor", "x"]]
        for words in wrong:
            self.assertEqual(run(*words)[0], 2)


if __name__ == "__main__":
    unittest.main()
