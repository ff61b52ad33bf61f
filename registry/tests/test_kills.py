"""A registry that is killed again and again while publishers with real keys publish: each acknowledged record stands
once, with its leaf, under a checkpoint that goes on from every earlier one.

It is killed 60 times, or on a machine that is too busy for that as often as it can be in a time, and prints how often.
WEOLDRIN_KILLS in the environment says how often it is killed however long that takes.
"""

import http.client
import os
import pathlib
import random
import signal
import tempfile
import threading
import time
import unittest
from collections import Counter

from weoldrin import Checkpoint, PackageLog, SignedCheckpoint, log_id, record_id, records, verify_consistency

from .served import Answer, Client, Key, Process, begin, checkpoint_of, new_key, package_record, release
from .test_checkpoints import operator_log, signed

_WANTED = os.environ.get("WEOLDRIN_KILLS")
KILLS = int(_WANTED or 60)
# Where no number is wanted: the seconds after which no more are begun, and how many there are all the same.
SECONDS, LEAST = float("inf") if _WANTED else 75.0, 6
PUBLISHERS = 4
# A lock is waited for as long as a busy machine may take.
SETTINGS = "checkpoint_seconds = 0.05\nstate_records = 8\nlock_seconds = 60\n"
# So long something may take on a busy machine.
PATIENCE = 300
# A log that two of them share, so that each is overtaken by the other.
SHARED = "shared:log"


class Publisher(threading.Thread):
    """Publishes releases one after another, whatever happens to the registry."""

    def __init__(self, number: int, killed: "Killed") -> None:
        super().__init__(daemon=True)
        self._killed, self._key, self._random = killed, killed.keys[number], random.Random(number)
        self._names = [SHARED, f"own:log-x{number}"]
        self.acknowledged: list[tuple[str, str, int, int]] = []
        self.seen: list[SignedCheckpoint] = []
        self.error: BaseException | None = None
        self._number = number

    def run(self) -> None:
        """Publishes until it is told to end."""
        try:
            count = 0
            while not self._killed.has_ended.is_set():
                client = Client(self._killed.port_of(self._number), PATIENCE)
                try:
                    while not self._killed.has_ended.is_set():
                        count += 1
                        self._publish(client, self._random.choice(self._names), f"{count}.{self._number}.0")
                except (OSError, http.client.HTTPException):
                    time.sleep(0.02)
                finally:
                    client.close()
        except BaseException as error:
            self.error = error

    def _publish(self, client: Client, name: str, version: str) -> None:
        """Publishes a release, on what the log then is."""
        head = None
        answer = self._answered(client.get(f"/v1/package/{name}/records?from=1000000"))
        if answer.status == 200:
            head = answer.headers["etag"].strip('"')
        while True:
            entries = [release(version)]
            if head is None:
                others = [it for it in self._killed.keys if it is not self._key]
                grants = [records.grant("package", it.public_key, "release") for it in others]
                entries = [records.init(self._key.public_key), *grants]
            envelope = package_record(head, self._key, *entries)
            answer = self._answered(client.post(f"/v1/package/{name}/record", envelope))
            if answer.status == 201:
                told = answer.json
                assert told["recordId"] == record_id("package", envelope)
                self.acknowledged.append((name, told["recordId"], told["place"], told["registryIndex"]))
                if "checkpoint" in told:
                    self.seen.append(signed(told["checkpoint"]))
                return
            if answer.status != 409:
                # Such a version was published before an answer got lost.
                assert answer.problem == (422, "ReleaseOfReleased"), answer
                return
            head = answer.json["head"]

    def _answered(self, answer: Answer) -> Answer:
        """An answer of a registry whose database answers."""
        if self._killed.MAY_FAIL and answer.status == 503:
            raise ConnectionError(answer.problem)
        return answer


class Killed(unittest.TestCase):
    """What stands in the end."""

    KILLS, SERVERS = KILLS, 1
    # Whether a registry may say that it can't answer now.
    MAY_FAIL = False
    database = ""

    def setUp(self) -> None:
        self._folder = tempfile.TemporaryDirectory()
        self.addCleanup(self._folder.cleanup)
        self.folder = pathlib.Path(self._folder.name)
        self.key, self.keys = new_key(self.folder), [Key.generate() for _ in range(PUBLISHERS)]
        self.has_ended, self.seen, self.killed = threading.Event(), list[SignedCheckpoint](), 0
        self.processes: list[Process] = []
        self.addCleanup(self._end)
        self.publishers = [Publisher(it, self) for it in range(PUBLISHERS)]

    def port_of(self, number: int) -> int:
        """The port of the server that a publisher has."""
        return self.processes[number % self.SERVERS].port

    def test_all(self) -> None:
        chosen = random.Random(1)
        self.processes += [self._begun() for _ in range(self.SERVERS)]
        client = self.processes[0].client()
        begin(client, self.key)
        client.close()
        for it in self.publishers:
            it.start()
        until = time.monotonic() + SECONDS
        while self.killed < self.KILLS and (self.killed < LEAST or time.monotonic() < until):
            self._go_on()
            time.sleep(chosen.uniform(0, 0.5))
            self._look()
            self._kill(chosen)
        self._go_on()
        self.has_ended.set()
        for it in self.publishers:
            it.join(PATIENCE)
            self._raise_of(it)
        self._check()
        # Later versions of uvicorn end by the signal.
        for process in self.processes:
            self.assertIn(process.stop(), (0, -signal.SIGTERM))

    def _end(self) -> None:
        """Ends what a test that failed has left."""
        self.has_ended.set()
        for it in self.processes:
            it.kill()

    def _begun(self) -> Process:
        return Process(self.folder, settings=SETTINGS, database=self.database)

    def _kill(self, chosen: random.Random) -> None:
        """Kills a server, and at times all of them, and starts it again."""
        those = [*range(self.SERVERS)]
        if chosen.random() < 0.75:
            those = [chosen.choice(those)]
        for it in those:
            self.processes[it].kill()
        for it in those:
            self.processes[it] = self._begun()
        self.killed += len(those)

    def _go_on(self) -> None:
        """Waits until each publisher has had another record acknowledged, so that those who publish are killed."""
        until = time.monotonic() + PATIENCE
        for it, count in [(it, len(it.acknowledged)) for it in self.publishers]:
            while len(it.acknowledged) == count:
                self._raise_of(it)
                self.assertLess(time.monotonic(), until, "nobody acknowledges records")
                time.sleep(0.005)

    @staticmethod
    def _raise_of(publisher: Publisher) -> None:
        if publisher.error:
            raise publisher.error

    def _look(self) -> None:
        """Sees the newest checkpoint of each server, as a monitor does."""
        for process in self.processes:
            client = process.client(PATIENCE)
            answer = client.get("/v1/checkpoint")
            if answer.status == 200:
                self.seen.append(signed(answer.json))
            client.close()

    def _check(self) -> None:
        clients = [it.client(PATIENCE) for it in self.processes]
        acknowledged = [one for it in self.publishers for one in it.acknowledged]
        leaves = self._leaves(clients[0])
        self.assertEqual(Counter(leaves).most_common(1)[0][1], 1)
        # Also those of which only a record without an answer stands.
        names = [it["name"] for it in clients[0].get("/v1/names").json["names"]]
        ids = {name: self._ids(clients[0], name) for name in names}
        for name, its_id, place, index in acknowledged:
            self.assertEqual(ids[name][place], its_id)
            self.assertEqual(ids[name].count(its_id), 1)
            self.assertEqual(leaves[index], f"{log_id('package', name)} {its_id}")
        # No leaf without a record, and no record without a leaf.
        stand = {f"{log_id('package', name)} {it}" for name, found in ids.items() for it in found}
        self.assertEqual(stand, set(leaves[1:]))
        seen = self._seen(clients[0])
        for client in clients:
            self._check_goes_on(client, seen, len(leaves))
            client.close()
        print(f"{self.killed} kills, {len(acknowledged)} acknowledged records, {len(seen)} checkpoints seen")

    def _seen(self, client: Client) -> dict[int, Checkpoint]:
        """The checkpoints that were seen, by their lengths. Each is signed, none was seen behind a longer one, and no
        two have one length and other roots."""
        found: dict[int, Checkpoint] = {}
        with operator_log(client) as log:
            for one_saw in (self.seen, *(it.seen for it in self.publishers)):
                lengths = [it.contents.log_length for it in one_saw]
                self.assertEqual(lengths, sorted(lengths))
                for it in one_saw:
                    self.assertTrue(log.verify_checkpoint(it.contents, it.key_id, it.signature))
                    first = found.setdefault(it.contents.log_length, it.contents)
                    self.assertEqual((first.log_root, first.map_root), (it.contents.log_root, it.contents.map_root))
        self.assertGreater(len(found), 1)
        return found

    def _check_goes_on(self, client: Client, seen: dict[int, Checkpoint], length: int) -> None:
        """The newest checkpoint of a server has all leaves, and goes on from all that were seen."""
        newest = signed(checkpoint_of(client, length, PATIENCE))
        self.assertEqual(newest.contents.log_length, length)
        self.assertEqual(client.get("/v1/health").json["logLength"], length)
        with operator_log(client) as log:
            self.assertTrue(log.verify_checkpoint(newest.contents, newest.key_id, newest.signature))
        for old in seen.values():
            proof = client.get(f"/v1/proof/consistency?from={old.log_length}").json["proof"]
            ends = (old.log_length, old.log_root, newest.contents.log_length, newest.contents.log_root)
            self.assertTrue(verify_consistency(*ends, proof))

    def _leaves(self, client: Client) -> list[str]:
        found: list[str] = []
        while lines := client.get(f"/v1/leaves?from={len(found)}").body.decode().splitlines():
            found += lines
        return found

    def _ids(self, client: Client, name: str) -> list[str]:
        """The ids of a log's records, which is lawful."""
        found: list[bytes] = []
        while more := client.get(f"/v1/package/{name}/records?from={len(found)}").envelopes:
            found += more
        with PackageLog() as log:
            for it in found:
                log.append(it)
            self.assertEqual(len(log), len(found))
            return [it.id for it in log.records()]


if __name__ == "__main__":
    unittest.main()
