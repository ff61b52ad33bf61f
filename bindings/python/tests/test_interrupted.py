"""Logs whose calls are interrupted by signals, and logs in processes that `fork` made."""

import contextlib
import os
import signal
import subprocess
import sys
import threading
import time
import unittest
import unittest.mock
import warnings
from collections.abc import Callable, Iterator

from weoldrin import Busy, Forked, PackageLog, p256
from weoldrin._library import CALLS

from . import published


@contextlib.contextmanager
def calls_wait(name: str, wait: Callable[[], object]) -> Iterator[None]:
    """Calls of this name wait, in the middle of the library as it were, while the log is theirs."""
    real = CALLS[name]

    def waiting(*arguments: object) -> int:
        wait()
        return real(*arguments)

    with unittest.mock.patch.dict(CALLS, {name: waiting}):
        yield


class Signals(unittest.TestCase):
    """A handler that uses the log whose call it interrupted."""

    def setUp(self) -> None:
        self.log = PackageLog()
        for envelope in published.envelopes(3, p256.SigningKey.generate(), p256.SigningKey.generate()):
            self.log.append(envelope)
        self.raised: list[str] = []
        old = signal.signal(signal.SIGALRM, self._handle)
        self.addCleanup(signal.signal, signal.SIGALRM, old)

    def _handle(self, *_: object) -> None:
        other = PackageLog()
        calls: list[Callable[[], object]]
        calls = [self.log.head, self.log.__len__, lambda: self.log.holds("x", "yank")]
        calls += [lambda: self.log.chain("x", "yank")]
        calls += [lambda: self.log.compare(other), lambda: other.compare(self.log), self.log.to_json]
        for call in calls:
            try:
                call()
            except Busy as error:
                self.raised.append(error.name)
        self.raised.append("" if len(other) else "other")

    def test_busy(self) -> None:
        head = self.log.head()
        with calls_wait("head", lambda: signal.raise_signal(signal.SIGALRM)):
            self.assertEqual(self.log.head(), head)
        self.assertEqual(self.raised, ["Busy"] * 7 + ["other"])
        # Between calls a handler may use it.
        self.raised.clear()
        self._handle()
        self.assertEqual(self.raised, ["other"])

    def test_real_calls(self) -> None:
        """Signals that come at any time: each handler is told, or has its answer, and none waits for ever."""
        envelopes = published.envelopes(100, p256.SigningKey.generate(), p256.SigningKey.generate())
        log, seen = PackageLog(), {"Busy": 0, "answer": 0}

        def handle(*_: object) -> None:
            try:
                log.head()
                seen["answer"] += 1
            except Busy:
                seen["Busy"] += 1

        signal.signal(signal.SIGALRM, handle)
        signal.setitimer(signal.ITIMER_REAL, 0.0003, 0.0003)
        try:
            end = time.monotonic() + 30
            while seen["Busy"] < 20 and time.monotonic() < end:
                log = PackageLog()
                for envelope in envelopes:
                    log.append(envelope)
        finally:
            signal.setitimer(signal.ITIMER_REAL, 0)
        self.assertGreaterEqual(seen["Busy"], 20)
        self.assertEqual(len(log), 100)

    def test_interrupts(self) -> None:
        """A call that a handler ends by an exception leaves the log to the next."""

        def interrupt(*_: object) -> None:
            raise KeyboardInterrupt

        signal.signal(signal.SIGALRM, interrupt)
        with calls_wait("head", lambda: signal.raise_signal(signal.SIGALRM)), self.assertRaises(KeyboardInterrupt):
            self.log.head()
        self.assertEqual(len(self.log), 3)
        answers: list[int] = []
        thread = threading.Thread(target=lambda: answers.append(len(self.log)), daemon=True)
        thread.start()
        thread.join(60)
        self.assertEqual(answers, [3])


def in_child(work: Callable[[], None]) -> int:
    """The status of a child that does some work, which a hang makes 124."""
    with warnings.catch_warnings():
        warnings.simplefilter("ignore", DeprecationWarning)
        child = os.fork()
    if child == 0:
        signal.signal(signal.SIGALRM, lambda *_: os._exit(124))
        signal.alarm(30)
        try:
            work()
            os._exit(0)
        except BaseException:
            os._exit(1)
    return os.waitstatus_to_exitcode(os.waitpid(child, 0)[1])


class Forks(unittest.TestCase):
    """A process that was made while another thread was in a call."""

    def test_forked(self) -> None:
        envelopes = published.envelopes(2, p256.SigningKey.generate(), p256.SigningKey.generate())
        log, idle = PackageLog(), PackageLog()
        log.append(envelopes[0])
        inside, done = threading.Event(), threading.Event()

        def work() -> None:
            calls: list[Callable[[], object]]
            calls = [log.head, log.__len__, lambda: log.append(envelopes[1]), lambda: log.chain("x", "yank")]
            calls += [lambda: log.compare(idle), lambda: idle.compare(log), idle.head, log.to_json]
            for call in calls:
                with self.assertRaisesRegex(Forked, "^Forked: the log was made by another process"):
                    call()
            # Closing and forgetting it does nothing, and a new one is as ever.
            log.close()
            log.__del__()
            with PackageLog() as new:
                new.append(envelopes[0])

        def wait() -> None:
            inside.set()
            done.wait(60)

        with calls_wait("head", wait):
            thread = threading.Thread(target=log.head)
            thread.start()
            inside.wait(60)
            status = in_child(work)
            done.set()
            thread.join()
        self.assertEqual(status, 0)
        log.append(envelopes[1])
        self.assertEqual(len(log), 2)

    def test_spawned_pool(self) -> None:
        """A pool of forked processes makes its own logs."""
        program = """
import multiprocessing
from weoldrin import Forked, PackageLog
log = PackageLog()
def work(_):
    try:
        log.head()
    except Forked as error:
        return error.name, PackageLog().head()
with multiprocessing.get_context("fork").Pool(2) as pool:
    print(set(pool.map(work, range(4))), log.head())
"""
        done = subprocess.run([sys.executable, "-c", program], capture_output=True, text=True, check=False, timeout=60)
        self.assertEqual((done.stdout, done.stderr), ("{('Forked', None)} None\n", ""))


if __name__ == "__main__":
    unittest.main()
