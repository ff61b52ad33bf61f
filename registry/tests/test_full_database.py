"""A disk that is full under PostgreSQL: under its tables, and under its own log, without which it ends."""

import contextlib
import os
import subprocess
import unittest

from weoldrin import Checkpoint, record_id, records, verify_consistency

from .database import Server, check_installed
from .served import Answer, begin, checkpoint_of, package_record, release
from .test_checkpoints import operator_log, signed
from .test_processes import ALICE, Processes


class FullDatabase(Processes):
    """A disk that is full under a database."""

    test_two_of_one_file = test_a_lock_that_is_held = None  # type: ignore[assignment]

    def setUp(self) -> None:
        check_installed()
        super().setUp()
        self.server = Server("-c", "wal_recycle=off", "-c", "min_wal_size=2MB")
        self.addCleanup(self.server.stop)
        self.server.data.mkdir()
        options = "size=64m,mode=700,uid=postgres,gid=postgres"
        words = ["mount", "-t", "tmpfs", "-o", options, "tmpfs", str(self.server.data)]
        if subprocess.run(words, capture_output=True, check=False).returncode:
            self.assertFalse(os.environ.get("WARG_ALL_HOSTS") and not os.getuid(), "no small disk can be mounted")
            self.skipTest("no small disk can be mounted here")
        self.addCleanup(lambda: subprocess.run(["umount", str(self.server.data)], check=True))
        self.addCleanup(self.server.end)
        # Its log is of short files, of which none is made before it is needed.
        self.server.begin("--wal-segsize=1")
        self.database = self.server.database()
        self.process, self.client = self._process(settings="checkpoint_seconds = 0.1\n")
        self.heads: list[str] = []

    def _next(self, entries: int) -> bytes:
        """A record that comes next, of so many releases."""
        if not self.heads:
            return package_record(None, ALICE, records.init(ALICE.public_key))
        versions = [release(f"{len(self.heads)}.{it}.0") for it in range(entries)]
        return package_record(self.heads[-1], ALICE, *versions)

    def _publish(self, envelope: bytes) -> Answer:
        """The answer to a record, which counts where it is acknowledged."""
        answer = self.client.post("/v1/package/a:b/record", envelope)
        told = answer.json.get("published", answer.json)
        if "place" in told:
            self.assertEqual(told["place"], len(self.heads))
            self.heads.append(told["recordId"])
        return answer

    def _fill(self) -> None:
        """Takes all room of the disk."""
        with contextlib.suppress(OSError), open(self.server.data / "filled", "wb", buffering=0) as file:
            while True:
                file.write(bytes(4096))

    def _empty(self) -> None:
        """Gives the room back, and starts the server where it has ended."""
        (self.server.data / "filled").unlink()
        assert self.server.process
        if self.server.process.poll() is not None:
            self.server.start()
        self.server.ask("SELECT 1")

    def _see(self) -> Checkpoint:
        """All that was acknowledged is there, and nothing else, under a checkpoint that is signed."""
        found = self.client.get("/v1/package/a:b/records")
        self.assertEqual([record_id("package", it) for it in found.envelopes], self.heads)
        self.assertEqual(len(self.client.get("/v1/leaves").body.splitlines()), len(self.heads) + 1)
        newest = signed(checkpoint_of(self.client, len(self.heads) + 1))
        its_log = operator_log(self.client)
        self.assertTrue(its_log.verify_checkpoint(newest.contents, newest.key_id, newest.signature))
        return newest.contents

    def test_a_full_disk(self) -> None:
        begin(self.client, self.key)
        self.assertEqual([self._publish(self._next(100)).status for _ in range(4)], [201] * 4)
        seen = [self._see()]
        # There is no room for tables: what stands can be read.
        self._fill()
        for _ in range(3):
            self.assertEqual(self._publish(self._next(100)).problem, (507, "DiskFull"))
        self.assertEqual(self.client.get("/v1/health").status, 200)
        self.assertEqual(self._see(), seen[0])
        self._empty()
        self.assertEqual(self._publish(self._next(100)).status, 201)
        seen.append(self._see())
        # There is none for the server's log: it ends, and whether the record stands is not known.
        self._fill()
        self.server.ask("SELECT pg_switch_wal()")
        envelope = self._next(1)
        answer = self._publish(envelope)
        self.assertEqual((*answer.problem, answer.headers["retry-after"]), (503, "NoStorage", "1"))
        for it in ("health", "checkpoint", "package/a:b/records", "leaves", "proof/consistency?from=6"):
            answer = self.client.get(f"/v1/{it}")
            self.assertTrue(answer.status == 200 or answer.problem == (503, "NoStorage"), answer)
        assert self.server.process
        with contextlib.suppress(subprocess.TimeoutExpired):
            self.server.process.wait(20)
        self._empty()
        # The same registry goes on, and has the record once.
        self.assertIn(self._publish(envelope).status, (201, 409))
        self.assertEqual(self._publish(self._next(100)).status, 201)
        newest = self._see()
        for old in seen:
            proof = self.client.get(f"/v1/proof/consistency?from={old.log_length}").json["proof"]
            ends = (old.log_length, old.log_root, newest.log_length, newest.log_root)
            self.assertTrue(verify_consistency(*ends, proof))


# They are tested where they stand.
del Processes

if __name__ == "__main__":
    unittest.main()
