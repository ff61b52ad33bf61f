"""Registries of one file, and of a disk that is full."""

import pathlib
import sqlite3
import tempfile
import unittest
from typing import Any

from weoldrin import records

from .served import Client, Key, Process, begin, checkpoint_of, new_key, package_record, release
from .test_checkpoints import signed

ALICE = Key.generate()


class Processes(unittest.TestCase):
    """Registries of one file, and of a disk that is full."""

    database = ""

    def setUp(self) -> None:
        self._folder = tempfile.TemporaryDirectory()
        self.addCleanup(self._folder.cleanup)
        self.folder = pathlib.Path(self._folder.name)
        self.key = new_key(self.folder)

    def _process(self, **kept: Any) -> tuple[Process, Client]:
        process = Process(self.folder, database=self.database, **kept)
        self.addCleanup(process.stop)
        client = process.client()
        self.addCleanup(client.close)
        return process, client

    def test_two_of_one_file(self) -> None:
        clients = [self._process(settings="checkpoint_seconds = 0.05\n")[1] for _ in range(2)]
        begin(clients[0], self.key)
        head, length = None, 0
        for number in range(30):
            client = clients[number % 2]
            entry = release(f"{number}.0.0") if head else records.init(ALICE.public_key)
            answer = client.post("/v1/package/a:b/record", package_record(head, ALICE, entry))
            self.assertEqual((answer.status, answer.json.get("place")), (201, number), answer)
            head = answer.json["recordId"]
            # What one process has shown, the other does not go behind.
            found = clients[1 - number % 2].get("/v1/checkpoint")
            if found.status == 200:
                self.assertGreaterEqual(found.json["contents"]["logLength"], length)
                length = found.json["contents"]["logLength"]
        newest = [signed(checkpoint_of(it, 31)) for it in clients]
        self.assertEqual(*(it.contents.log_root for it in newest))
        self.assertEqual(len(clients[0].get("/v1/leaves").body.splitlines()), 31)
        # Each proves under the one before the newest that it has shown, whichever has made them.
        clients[0].post("/v1/package/a:b/record", package_record(head, ALICE, release("30.0.0")))
        for it in clients:
            checkpoint_of(it, 32)
            shown = it.get("/v1/proof/inclusion?leaf=30&length=31&from=1").json
            self.assertEqual(signed(shown["checkpoint"]).contents.log_length, 31)
            self.assertEqual(shown["recordId"], head)

    def test_a_lock_that_is_held(self) -> None:
        _, client = self._process(settings="lock_seconds = 0.2\ncheckpoint_seconds = 0.1\n")
        begin(client, self.key)
        first = package_record(None, ALICE, records.init(ALICE.public_key))
        with sqlite3.connect(self.folder / "logs.sqlite", isolation_level=None) as file:
            file.execute("BEGIN IMMEDIATE")
            answer = client.post("/v1/package/a:b/record", first)
            self.assertEqual(answer.problem, (503, "Busy"))
            self.assertEqual(answer.headers["retry-after"], "1")
            self.assertEqual(client.get("/v1/package/a:b/records").problem, (404, "NoLog"))
            file.execute("ROLLBACK")
        self.assertEqual(client.post("/v1/package/a:b/record", first).status, 201)

    def test_a_full_disk(self) -> None:
        process, client = self._process(settings="checkpoint_seconds = 0.1\n", files=1_500_000)
        begin(client, self.key)
        checkpoint_of(client, 1)
        heads: list[str] = []
        full = 0
        while full < 3:
            entries = [release(f"{len(heads)}.{it}.0") for it in range(100)]
            if not heads:
                entries = [records.init(ALICE.public_key)]
            envelope = package_record(heads[-1] if heads else None, ALICE, *entries)
            answer = client.post("/v1/package/a:b/record", envelope)
            if answer.status == 201:
                self.assertEqual(answer.json["place"], len(heads))
                heads.append(answer.json["recordId"])
            else:
                self.assertEqual(answer.problem, (507, "DiskFull"))
                full += 1
        self.assertGreater(len(heads), 5)
        # What stands can be read all the same, and its newest checkpoint.
        self.assertEqual(client.get("/v1/package/a:b/records?from=9").headers["weoldrin-count"], str(len(heads)))
        self.assertEqual(client.get("/v1/health").status, 200)
        length = client.get("/v1/checkpoint").json["contents"]["logLength"]
        process.kill()
        client.close()
        # With room again, all that was acknowledged stands, and it goes on.
        _, client = self._process(settings="checkpoint_seconds = 0.1\n")
        answer = client.get("/v1/package/a:b/records")
        told = answer.headers["weoldrin-count"], answer.headers["etag"]
        self.assertEqual(told, (str(len(heads)), f'"{heads[-1]}"'))
        new = client.post("/v1/package/a:b/record", package_record(heads[-1], ALICE, release("999.0.0")))
        self.assertEqual(new.json["place"], len(heads))
        self.assertEqual(new.json["registryIndex"], len(heads) + 1)
        checkpoint_of(client, len(heads) + 2)
        self.assertEqual(client.get(f"/v1/proof/consistency?from={length}").status, 200)


if __name__ == "__main__":
    unittest.main()
