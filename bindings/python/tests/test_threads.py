"""Logs in eight threads: one each, one for all, and one that is closed while others use it."""

import threading
import unittest
from collections.abc import Callable

from weoldrin import Error, NotOpen, PackageLog, Relation, Verify, p256

from . import published

THREADS = 8


def in_threads(work: Callable[[], None]) -> list[BaseException]:
    """Runs the work in all threads at once, and gives what was raised."""
    raised: list[BaseException] = []

    def run() -> None:
        try:
            work()
        except BaseException as error:
            raised.append(error)

    threads = [threading.Thread(target=run) for _ in range(THREADS)]
    for thread in threads:
        thread.start()
    for thread in threads:
        thread.join()
    return raised


class Threads(unittest.TestCase):
    """Envelopes of one log, in many threads."""

    def setUp(self) -> None:
        self.envelopes = published.envelopes(30, p256.SigningKey.generate(), p256.SigningKey.generate())

    def test_a_log_each(self) -> None:
        heads = []

        def work() -> None:
            with PackageLog() as log:
                for envelope in self.envelopes:
                    log.append(envelope)
                heads.append(log.head())

        self.assertEqual(in_threads(work), [])
        self.assertEqual((len(heads), len(set(heads))), (THREADS, 1))

    def test_one_log(self) -> None:
        """Each record is taken by one thread, and refused to all that come too early or too late."""
        for verify in (None, p256.verify):
            with self.subTest(verify=verify):
                self._one_log(verify)

    def _one_log(self, verify: Verify | None) -> None:
        log, taken = PackageLog(), []

        def work() -> None:
            for place, envelope in enumerate(self.envelopes):
                while len(log) <= place:
                    try:
                        log.append(envelope, verify)
                        taken.append(place)
                    except Error:
                        pass

        self.assertEqual(in_threads(work), [])
        self.assertEqual(taken, list(range(30)))
        self.assertEqual(len(log), 30)

    def test_answers(self) -> None:
        """Each thread has the answer to its own question, and not to another's."""
        log, places = PackageLog(), iter(range(1, 1 + THREADS))
        for envelope in self.envelopes:
            log.append(envelope)

        def work() -> None:
            version = f"1.{next(places)}.0"
            for _ in range(2000):
                found = log.release(version)
                assert found is not None and found.version == version, found

        self.assertEqual(in_threads(work), [])

    def test_two_logs(self) -> None:
        """Two logs are compared from both sides at once, which waits for no other lock for ever."""
        left, right = PackageLog(), PackageLog()
        for envelope in self.envelopes:
            left.append(envelope)
            right.append(envelope)

        def work() -> None:
            for _ in range(200):
                assert left.compare(right).relation is Relation.SAME
                assert right.compare(left).relation is Relation.SAME

        self.assertEqual(in_threads(work), [])

    def test_closed_meanwhile(self) -> None:
        log = PackageLog()
        log.append(self.envelopes[0])
        started = threading.Barrier(THREADS)

        def work() -> None:
            if started.wait() == 0:
                log.close()
            for _ in range(100):
                try:
                    log.head()
                except NotOpen:
                    return
            assert False, "the log stayed open"

        raised = in_threads(work)
        self.assertLess(len(raised), THREADS)
        self.assertRaises(NotOpen, log.head)


if __name__ == "__main__":
    unittest.main()
