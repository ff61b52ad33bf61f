"""`weoldrin monitor` and `weoldrin gossip`: an honest registry is followed, and each lie is told once, by its name."""

import contextlib
import dataclasses
import importlib.util
import json
import pathlib
import sqlite3
import subprocess
import sys
import unittest
from collections.abc import Callable
from concurrent.futures import Executor, ThreadPoolExecutor
from typing import Any
from unittest import mock

from weoldrin import RegistryTrees, records
from weoldrin.registry import monitor as monitors
from weoldrin.registry import replaying
from weoldrin.registry.answers import Leaf
from weoldrin.registry.answers import Registry as Asked
from weoldrin.registry.database import Database
from weoldrin.registry.following import Follower
from weoldrin.registry.replaying import Replayer
from weoldrin.registry.told import WORDS, Unusable

from . import lies, registries
from .registries import ONE, OPERATOR, TWO, Registry, honest, run, serving
from .test_registry_client import ClientTest

# What is told of each lie; nothing of those that are told to one who asks for the log of one package alone.
LIES: list[tuple[Callable[[Registry], None], str]] = [
    (lies.wrong_name, "wrong name"),
    (lies.wrong_proof, ""),
    (lies.copied, "wrong name"),
    (lies.forked_log, "forked log"),
    (lies.rolled_back_map, "rolled back map"),
    (lies.unmapped, "rolled back map"),
    (lies.rolled_back, "rolled back registry"),
    (lies.rolled_back_silently, "rolled back registry"),
    (lies.forked_registry, "forked registry"),
    (lies.forked_longer, "forked registry"),
    (lies.forked_map, "forked registry"),
    (lies.denying, "forked registry"),
    (lies.stale, "stale checkpoint"),
    (lies.older_time, "stale checkpoint"),
    (lies.ahead, "checkpoint ahead"),
    (lies.unsigned, "unsigned checkpoint"),
    (lies.without_commit, "key without commit"),
    (lies.lost_commit, "key without commit"),
    (lies.left_out_leaf, "left out leaf"),
    (lies.short_leaves, "left out leaf"),
    (lies.other_leaves, "left out leaf"),
    (lies.replaced_record, "replaced record"),
    (lies.old_proof, "old proof"),
    (lies.old_proof_of_package, ""),
    (lies.false_proof, "false proof"),
    (lies.held_back, "missing record"),
    (lies.cut_off, "rolled back log"),
    (lies.unlawful, "unlawful record"),
    (lies.gone, "missing record"),
    (lies.false_map, "false map"),
    (lies.hidden, ""),
    (lies.forked_operator, "forked log"),
    (lies.split_map, ""),
    (lies.false_leaf, "left out leaf"),
    (lies.junk, "replaced record"),
    (lies.hostile, "unlawful record"),
]


class MonitorTest(ClientTest):
    """A registry and a monitor's file."""

    # What the file holds after the first step.
    begun = b""

    def setUp(self) -> None:
        super().setUp()
        self.database = str(self.folder / "seen.sqlite")

    def monitor(self, *more: str) -> tuple[int, list[dict[str, Any]], str]:
        """One step: the status, the lines, and what is said on standard error."""
        words = ["--database", self.database, "--once", "--json", "--workers", "1"]
        status, printed, said = run("monitor", self.served.url, *words, *more)
        return status, [json.loads(it) for it in printed.splitlines()], said

    def begin(self) -> None:
        """Has an honest registry, which was followed from nothing."""
        self.served.registry = honest()
        for path in self.folder.iterdir():
            path.unlink()
        if not MonitorTest.begun:
            self.assertEqual(self.monitor()[0], 0)
            MonitorTest.begun = pathlib.Path(self.database).read_bytes()
        pathlib.Path(self.database).write_bytes(MonitorTest.begun)

    def begin_many(self) -> None:
        """Has the registry begin many logs, the last of which it does not serve."""
        for place in range(205):
            name = records.sha256_text(str(place).encode())
            self.registry.begin(name)
        self.registry.sign()
        del self.registry.logs[name][:]

    def rows(self, question: str) -> list[tuple[Any, ...]]:
        """What the file has."""
        with contextlib.closing(sqlite3.connect(self.database)) as file:
            return file.execute(question).fetchall()


class Honest(MonitorTest):
    """What is followed."""

    def test_steps(self) -> None:
        status, lines, said = self.monitor()
        root = self.registry.signed[-1].contents.log_root
        self.assertEqual((status, lines), (0, [{"followed": 12, "logRoot": root, "logs": 3, "records": 12}]))
        self.assertIn("trusted on first use", said)
        for version in ("2.0.0", "2.1.0"):
            self.registry.release(ONE, version)
            self.registry.sign()
        self.registry.release(ONE, "3.0.0")
        self.served.asked.clear()
        status, lines, said = self.monitor()
        self.assertEqual((status, lines[0]["followed"], lines[0]["records"], said), (0, 14, 14, ""))
        self.assertIn("/v1/leaves?from=12", self.served.asked)
        self.assertNotIn("/v1/leaves?from=0", self.served.asked)
        self.assertEqual(self.monitor()[1], lines)
        self.assertEqual(self.rows("SELECT length FROM checkpoints ORDER BY length"), [(12,), (14,)])
        self.assertEqual(self.rows("SELECT * FROM told"), [])

    def test_nothing_yet(self) -> None:
        self.served.registry = Registry()
        status, lines, _ = self.monitor()
        self.assertEqual((status, lines[0]["followed"]), (0, 0))

    def test_processes(self) -> None:
        """Many logs by several processes."""
        self.begin_many()
        status, lines, said = self.monitor("--workers", "2")
        self.assertEqual((status, [it.get("name") for it in lines]), (1, ["missing record", None]), said)
        self.assertEqual((lines[1]["logs"], lines[1]["records"]), (208, 216))

    def test_too_many(self) -> None:
        """A registry that takes fewer logs at once is asked for fewer."""
        def twist(path: str, query: registries.Query, reply: registries.Reply) -> registries.Reply:
            if path == "/v1/fetch/logs" and len(json.loads(reply[2])["logs"]) > 1:
                return registries.problem(413, "TooMany")
            return reply

        self.registry.twist = twist
        self.assertEqual(self.monitor()[1][-1]["records"], 12)

    def test_nothing_new(self) -> None:
        """No trees are made for a checkpoint whose roots were made."""
        self.assertEqual(self.monitor()[0], 0)
        with mock.patch.object(RegistryTrees, "from_bytes", side_effect=AssertionError):
            self.registry.sign()
            self.assertEqual(self.monitor()[0], 0)
            self.registry.release(ONE, "2.0.0")
            self.registry.sign()
            self.assertRaises(AssertionError, self.monitor)
        # What was read by then is not asked for again.
        self.served.asked.clear()
        self.assertEqual(self.monitor()[0], 0)
        self.assertFalse([it for it in self.served.asked if it.startswith("/v1/leaves")])

    def test_bound(self) -> None:
        """No more leaves are read than are wanted."""
        status, lines, _ = self.monitor("--most", "11")
        self.assertEqual((status, lines[0]["name"], lines[1]["logs"]), (1, "bad answer", 0))
        self.assertNotIn("/v1/leaves?from=0", self.served.asked)

    def test_reader(self) -> None:
        """What is told to a reader that has gone is told again."""
        self.begin()
        lies.forked_registry(self.registry)
        words = ["monitor", self.served.url, "--database", self.database, "--once"]
        code = "import sys; from weoldrin.registry.command import main; sys.exit(main(sys.argv[1:]))"
        command = [sys.executable, "-c", code]
        with subprocess.Popen([*command, *words], stdout=subprocess.PIPE, stderr=subprocess.PIPE) as process:
            assert process.stdout is not None
            process.stdout.close()
            self.assertEqual(process.wait(60), 3)
        self.assertEqual(run(*words)[1].split(":")[0], "fork")


class Clocks(MonitorTest):
    """A monitor whose clock moves."""

    def test_jumps(self) -> None:
        """What is told by a wrong clock is told once, as stale, and by the right one all is followed."""
        self.begin()
        signed = self.registry.signed[-1].contents.timestamp
        told = {3_600: "", 3_601: "stale checkpoint", -600: "", -601: "checkpoint ahead"}
        for seconds, name in told.items():
            with self.subTest(seconds), mock.patch("time.time", return_value=signed + seconds):
                status, lines, said = self.monitor()
                names = [name, None] if name else [None]
                self.assertEqual((status, [it.get("name") for it in lines]), (int(bool(name)), names), said)
                self.assertEqual((self.monitor()[0], len(self.monitor()[1])), (status, 1))
            self.registry.release(ONE, f"2.{abs(seconds)}.0")
            self.registry.sign()
            status, lines, said = self.monitor()
            self.assertEqual((status, [it.get("name") for it in lines]), (0, [None]), said)
            signed = self.registry.signed[-1].contents.timestamp
        words = [json.loads(text)["told"] for (text,) in self.rows("SELECT text FROM told")]
        self.assertEqual(words, ["stale", "stale"])


class Lies(MonitorTest):
    """Each lie by its name."""

    def test_lies(self) -> None:
        for lie, name in LIES:
            with self.subTest(lie.__name__):
                self.begin()
                lie(self.registry)
                self.served.hooked.clear()
                status, lines, said = self.monitor("--webhook", f"{self.served.url}/hook")
                told = lines[:-1]
                self.assertEqual(status, int(bool(name)), said)
                self.assertEqual([it["name"] for it in told][:1], [name] if name else [], told)
                self.assertEqual([it["told"] for it in told], [WORDS[it["name"]] for it in told])
                self.assertEqual(self.served.hooked, told)
                # It is told once, and the status says so on.
                status, lines, said = self.monitor("--webhook", f"{self.served.url}/hook")
                self.assertEqual((status, len(lines)), (int(bool(name)), 1), lines)
                self.assertEqual(len(self.served.hooked), len(told))

    def test_at_first(self) -> None:
        """Those that are found from nothing."""
        for lie, name in LIES:
            if name in ("unlawful record", "left out leaf", "false map", "replaced record", "missing record"):
                with self.subTest(lie.__name__):
                    self.served.registry = honest()
                    pathlib.Path(self.database).unlink(missing_ok=True)
                    lie(self.registry)
                    self.assertEqual((self.monitor()[1][0]["name"]), name)

    def test_evidence(self) -> None:
        """A fork's evidence is both signed checkpoints."""
        self.begin()
        seen = self.registry.signed[-1]
        lies.forked_registry(self.registry)
        told = self.monitor()[1][0]
        self.assertEqual(told["evidence"], [json.loads(it.to_json()) for it in (seen, self.registry.signed[-1])])
        status, printed, _ = run("monitor", self.served.url, "--database", self.database, "--once")
        self.assertEqual((status, printed[:9]), (1, "followed "))

    def test_hostile_text(self) -> None:
        """A line has no sign of a stranger's."""
        self.begin()
        lies.hostile(self.registry)
        status, printed, _ = run("monitor", self.served.url, "--database", self.database, "--once")
        self.assertEqual((status, printed.count("\n"), printed[:26]), (1, 2, "unlawful: unlawful record:"))
        self.assertIn("\\u{1b}[2J\\u{a}\\u{202e}", printed)

    def test_healed(self) -> None:
        """What was missing and comes is followed."""
        self.begin()
        self.registry.release(ONE, "2.0.0")
        self.registry.sign()
        kept = self.registry.logs[ONE].pop()
        self.assertEqual(self.monitor()[0], 1)
        self.registry.logs[ONE].append(kept)
        self.assertEqual(self.monitor()[0], 0)

    def test_webhook(self) -> None:
        """What a webhook does not take is sent again."""
        self.begin()
        lies.forked_registry(self.registry)
        self.served.takes_hooks = False
        hook = "--webhook", f"{self.served.url}/hook"
        _, lines, said = self.monitor(*hook)
        self.assertEqual(len(lines), 2)
        self.assertIn("weoldrin: the webhook answers with status 503", said)
        self.served.takes_hooks = True
        self.served.hooked.clear()
        self.assertEqual(len(self.monitor(*hook)[1]), 1)
        self.monitor(*hook)
        self.assertEqual([it["number"] for it in self.served.hooked], [1])

    def test_files(self) -> None:
        """A file that is none of a monitor, another registry, and one that another monitor has."""
        self.begin()
        self.served.registry = Registry()
        for name in (OPERATOR, ONE):
            self.registry.begin(name)
        self.registry.sign()
        self.assertIn(self.monitor()[1][0]["name"], ("rolled back registry", "false proof"))
        pathlib.Path(self.database).write_bytes(b"no database" * 100)
        self.assertEqual(self.monitor()[0], 2)
        pathlib.Path(self.database).unlink()
        with contextlib.closing(sqlite3.connect(self.database)) as file:
            file.execute("CREATE TABLE other (it TEXT)")
        self.assertEqual(self.monitor()[0], 2)


class Long(MonitorTest):
    """A monitor that makes one step after another, with trees that go on."""

    def setUp(self) -> None:
        super().setUp()
        self.seen = Database(self.database)
        self.addCleanup(self.seen.close)
        self.made = 0
        replayer = Replayer(self.served.url, 60, 1)

        def trees(saved: bytes) -> RegistryTrees:
            self.made += 1
            return RegistryTrees.from_bytes(saved)

        patch = mock.patch.object(monitors, "RegistryTrees", mock.Mock(from_bytes=trees))
        patch.start()
        self.addCleanup(patch.stop)
        asked = Asked(self.served.url)
        self.long = monitors.Monitor(self.seen, lambda: Follower(asked, self.seen.trust()), replayer, 1000)
        self.addCleanup(self.long.close)

    def _step(self, *names: str) -> None:
        """A step, and what is told in it."""
        self.assertEqual([it.name for it in self.long.step()], [*names])

    def _grow(self, version: str) -> None:
        self.registry.release(ONE, version)
        self.registry.sign()

    def _check_read(self, count: int) -> None:
        """So many leaves count, under the newest checkpoint."""
        self.assertEqual((self.seen.read(), self.seen.counted()), (count, count))

    def test_goes_on(self) -> None:
        with mock.patch.object(monitors, "_TAKEN", 5):
            self._step()
            for number in range(3):
                self._check_read(12 + number)
                self._grow(f"2.{number}.0")
                self._step()
                self._step()
        self.assertEqual(self.made, 1)
        it = self.registry.signed[-1].contents
        self.assertEqual(self.seen.kept("roots"), f"15 {it.log_root} {it.map_root}")
        self.long.close()
        self.long.close()
        self._grow("3.0.0")
        self._step()
        self.assertEqual(self.made, 2)

    def test_false_leaves(self) -> None:
        """What was read and is not signed is dropped, from the trees too, and is read anew."""
        self._step()
        lies.other_leaves(self.registry)
        self._step("left out leaf")
        self._check_read(12)
        self._step("left out leaf")
        self.registry.twist = None
        self._step()
        self._check_read(13)
        self.assertEqual(self.made, 3)

    def test_false_map(self) -> None:
        """A map that is false stays so, until a checkpoint has the right one."""
        self._step()
        lies.false_map(self.registry)
        for _ in range(2):
            self._step("false map")
        self._check_read(13)
        del self.registry.heads[next(it for it in self.registry.heads if it not in self.registry.logs)]
        self._grow("3.0.0")
        self._step()
        self.assertEqual(self.made, 1)

    def test_spoiled(self) -> None:
        """A leaf in the file that is none: where the trees go on, and where they are made anew."""
        self._step()
        with self.seen.step():
            self.seen.add_leaves(12, [Leaf("sha256:0", "sha256:1")])
        self._grow("2.0.0")
        for _ in range(2):
            self.assertRaisesRegex(Unusable, "a leaf in it is spoiled", self.long.step)
            self.long.close()


class Executors(MonitorTest):
    """A monitor that is given who replays."""

    def _check(self, executor: Executor, workers: int) -> None:
        """All logs are replayed by an executor, which is not ended."""
        self.begin_many()
        replayer = Replayer(self.served.url, 60, workers, executor)
        asked = Asked(self.served.url)
        with contextlib.closing(Database(self.database)) as seen, contextlib.closing(replayer):
            monitor = monitors.Monitor(seen, lambda: Follower(asked, seen.trust()), replayer, 1000)
            with contextlib.closing(monitor):
                self.assertEqual([it.name for it in monitor.step()], ["missing record"])
            self.assertEqual(seen.counts(), (208, 216))
        self.assertEqual(executor.submit(int, "7").result(), 7)

    def test_threads(self) -> None:
        """However few workers are said to be there, none of this monitor's own replay."""
        for workers in (1, 2):
            with ThreadPoolExecutor(2) as threads, mock.patch.object(threads, "map", side_effect=threads.map) as map_:
                pathlib.Path(self.database).unlink(missing_ok=True)
                self.served.registry = honest()
                with mock.patch.object(replaying, "ProcessPoolExecutor", side_effect=AssertionError):
                    self._check(threads, workers)
                self.assertEqual([len(it.args[-1]) for it in map_.mock_calls], [2, 1] if workers == 1 else [3])

    @unittest.skipUnless(importlib.util.find_spec("distributed"), "Dask is not installed")
    def test_dask(self) -> None:
        from distributed import Client, LocalCluster

        two = {"n_workers": 2, "threads_per_worker": 1, "dashboard_address": None}
        with LocalCluster(**two) as cluster, Client(cluster) as client:  # type: ignore[no-untyped-call]
            self._check(client.get_executor(), 2)


class Gossip(MonitorTest):
    """What two monitors saw."""

    def setUp(self) -> None:
        super().setUp()
        self.monitor("--saw", str(self.folder / "left"))
        self.left = str(self.folder / "left.sqlite")
        pathlib.Path(self.left).write_bytes(pathlib.Path(self.database).read_bytes())

    def _compared(self, *words: str) -> tuple[int, dict[str, Any] | str]:
        status, printed, said = run("gossip", *words, "--json")
        return status, json.loads(printed) if printed.startswith("{") else printed or said

    def test_one_view(self) -> None:
        self.assertEqual(self._compared(self.left, self.database), (0, "one view 12 12 common 1\n"))
        self.registry.release(ONE, "2.0.0")
        self.registry.sign()
        self.monitor()
        self.assertEqual(self._compared(self.left, self.database), (0, "one view 12 13 common 1\n"))
        lines = str(self.folder / "left")
        self.assertEqual(self._compared(lines, self.database), (0, "one view 12 13 common 1\n"))
        self.assertEqual(self._compared(lines, lines)[0], 2)
        self.assertEqual(self._compared(lines, lines, "--registry", self.served.url)[0], 0)

    def test_fork(self) -> None:
        """Two views of one length, and of two."""
        split = self.registry.copy()
        for it, version in ((self.registry, "2.0.0"), (split, "3.0.0")):
            it.release(ONE, version)
            it.sign()
        left, right = self.registry.signed[-1], split.signed[-1]
        self.monitor()
        with serving(split) as other:
            run("monitor", other.url, "--database", self.left, "--once")
            status, told = self._compared(self.database, self.left)
            assert isinstance(told, dict)
            self.assertEqual((status, told["name"]), (1, "forked registry"))
            self.assertEqual(told["evidence"], [json.loads(it.to_json()) for it in (left, right)])
            split.release(ONE, "4.0.0")
            longer = split.sign()
            pathlib.Path(self.left).unlink()
            saw = str(self.folder / "longer")
            run("monitor", other.url, "--database", self.left, "--once", "--saw", saw)
        # A registry that is shorter proves nothing of the longer log, but the leaves that a monitor read may.
        evidence = {"forked registry": (left, longer), "rolled back registry": (longer, left)}
        for file, name in ((self.left, "forked registry"), (saw, "rolled back registry")):
            for words in ((self.database, file), (file, self.database)):
                status, told = self._compared(*words, "--registry", self.served.url)
                assert isinstance(told, dict)
                self.assertEqual((status, told["name"]), (1, name))
                self.assertEqual(told["evidence"], [json.loads(it.to_json()) for it in evidence[name]])
        self.registry.release(TWO, "4.0.0")
        newest = self.registry.sign()
        status, told = self._compared(self.database, self.left, "--registry", self.served.url)
        assert isinstance(told, dict)
        self.assertEqual((status, told["name"]), (1, "forked registry"))
        self.assertEqual(told["evidence"], [json.loads(it.to_json()) for it in (longer, newest)])

    def test_rolled_back(self) -> None:
        """Leaves that go on from the shorter view show no fork, nor do such as were not signed."""
        older, other = self.registry.copy(), records.sha256_text(b"other")
        self.registry.release(ONE, "2.0.0")
        newest = self.registry.sign()
        self.monitor()
        longer = dataclasses.replace(newest.contents, log_length=20)
        signature = self.registry.alice.sign(longer.message())
        text = dataclasses.replace(newest, contents=longer, signature=signature).to_json()
        self.served.registry = older
        seen = pathlib.Path(self.database).read_bytes()
        spoiled = f"UPDATE leaves SET record = '{other}' WHERE place = 3", "UPDATE leaves SET record = 'none'"
        # The checkpoint is signed, and of more leaves than its root is of.
        for change in ("SELECT 1", f"INSERT INTO checkpoints VALUES (20, '{text}')", *spoiled, "DELETE FROM leaves"):
            with self.subTest(change):
                pathlib.Path(self.database).write_bytes(seen)
                with contextlib.closing(sqlite3.connect(self.database)) as file, file:
                    file.execute(change)
                status, told = self._compared(self.left, self.database)
                assert isinstance(told, dict)
                self.assertEqual((status, told["name"]), (1, "rolled back registry"))

    def test_unsigned(self) -> None:
        """A monitor can't accuse a registry by what that did not sign."""
        forged = self.registry.copy()
        forged.signer = forged.alice.generate()
        lies.forked_registry(forged)
        path = self.folder / "forged"
        path.write_text(forged.signed[-1].to_json(), encoding="utf-8")
        status, told = self._compared(self.database, str(path))
        assert isinstance(told, dict)
        self.assertEqual((status, told["name"]), (1, "unsigned checkpoint"))
        for text in ("", "{}", "[" * 100_000, "no JSON\n"):
            path.write_text(text, encoding="utf-8")
            self.assertEqual(self._compared(self.database, str(path))[0], 2)

    def test_url(self) -> None:
        """What a monitor saw, from a server."""
        text = (self.folder / "left").read_bytes()
        self.registry.twist = lambda path, query, reply: (200, {}, text) if path == "/saw" else reply
        self.assertEqual(self._compared(self.database, f"{self.served.url}/saw")[0], 0)


if __name__ == "__main__":
    unittest.main()
