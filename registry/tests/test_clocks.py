"""A registry whose clock moves, also between two starts, and what its client and its monitor say by theirs."""

import contextlib
import io
import json
import pathlib
import sqlite3
import tempfile
import time
import unittest
from unittest import mock

from weoldrin import records
from weoldrin.registry import command

from .served import Client, Key, Process, begin, checkpoint_of, new_key, package_record, release

ALICE = Key.generate()
HOUR, AHEAD = 3_600, 600
# Has the clock of a registry be ahead by the seconds that a file says.
_MOVED = """
import sys, time
file, real = sys.argv.pop(1), time.time
time.time = lambda: real() + int(open(file).read())
from weoldrin_registry.command import main
sys.exit(main())
"""


class Moved(Process):
    """A registry whose clock is moved."""

    def __init__(self, folder: pathlib.Path) -> None:
        self.PROGRAM = ("-c", _MOVED, str(folder / "clock"))
        super().__init__(folder, settings="checkpoint_seconds = 0.1\n")


class Clocks(unittest.TestCase):
    """A registry whose clock moves."""

    def setUp(self) -> None:
        folder = tempfile.TemporaryDirectory()
        self.addCleanup(folder.cleanup)
        self.folder = pathlib.Path(folder.name)
        self.key = new_key(self.folder)
        self.heads: list[str] = []

    def _move(self, seconds: int) -> None:
        """Has the registry's clock be ahead by so much, from one moment to the next."""
        (self.folder / "moved").write_text(str(seconds), encoding="utf-8")
        (self.folder / "moved").replace(self.folder / "clock")

    def _start(self) -> tuple[Process, Client]:
        process = Moved(self.folder)
        self.addCleanup(process.stop)
        client = process.client()
        self.addCleanup(client.close)
        return process, client

    def _publish(self, client: Client) -> int:
        """Publishes a record, and gives the time of a checkpoint that has it."""
        entry = release(f"{len(self.heads)}.0.0") if self.heads else records.init(ALICE.public_key)
        envelope = package_record(self.heads[-1] if self.heads else None, ALICE, entry)
        answer = client.post("/v1/package/a:b/record", envelope)
        self.assertEqual(answer.status, 201, answer)
        self.heads.append(answer.json["recordId"])
        self.assertEqual(client.get("/v1/health").status, 200)
        return int(checkpoint_of(client, len(self.heads) + 1)["contents"]["timestamp"])

    def _told(self, port: int, who: str, seconds: int) -> str:
        """What a client tells by a clock that is ahead by so much, where a monitor tells something too, or neither."""
        url, real, out = f"http://127.0.0.1:{port}", time.time, io.StringIO()
        monitor = ["monitor", url, "--database", str(self.folder / f"{who}.sqlite"), "--once"]
        fetch = ["fetch", url, "a:b", "--trust", str(self.folder / f"{who}.json")]
        moved = mock.patch("time.time", lambda: real() + seconds)
        with moved, contextlib.redirect_stderr(io.StringIO()):
            with contextlib.redirect_stdout(io.StringIO()):
                status = command.main(monitor)
            with contextlib.redirect_stdout(out):
                self.assertEqual(command.main(fetch), status, out.getvalue())
        return out.getvalue().partition(":")[0] if status else ""

    def _all_told(self, who: str) -> set[str]:
        """What a monitor has told of all."""
        with contextlib.closing(sqlite3.connect(self.folder / f"{who}.sqlite")) as file:
            return {json.loads(text)["name"] for (text,) in file.execute("SELECT text FROM told")}

    def test_it_moves(self) -> None:
        self._move(0)
        process, client = self._start()
        begin(client, self.key)
        last = 0
        for ahead, is_begun_anew in ((0, 0), (HOUR, 0), (0, 0), (-HOUR, 1), (0, 1), (2 * HOUR, 1), (HOUR, 0)):
            with self.subTest(ahead=ahead, is_begun_anew=is_begun_anew):
                if is_begun_anew:
                    process.stop()
                self._move(ahead)
                if is_begun_anew:
                    process, client = self._start()
                now = int(time.time()) + ahead
                timestamp = self._publish(client)
                self.assertGreaterEqual(timestamp, max(last, now))
                self.assertLess(timestamp, max(last, now) + 60)
                last = timestamp
                # Who goes by that time takes it. For others it is ahead, or old, and nothing else.
                offset = last - int(time.time())
                self.assertEqual(self._told(process.port, "own", offset), "")
                told = "checkpoint ahead" if offset > AHEAD else ""
                self.assertEqual(self._told(process.port, "right", 0), told)
                self.assertEqual(self._told(process.port, "late", offset + HOUR + 60), "stale checkpoint")
        found = [self._all_told(who) for who in ("own", "right", "late")]
        self.assertEqual(found, [set(), {"checkpoint ahead"}, {"stale checkpoint"}])


if __name__ == "__main__":
    unittest.main()
