"""The trees of a registry whose calls are interrupted by signals, in processes that `fork` made, and at the end of an
interpreter."""

import os
import signal
import subprocess
import sys
import threading
import unittest
from collections.abc import Callable

from weoldrin import Forked, RegistryTrees

from .test_interrupted import calls_wait, in_child
from .test_registry_threads import LEAVES, ROOT
from .trees import id_of


class Signals(unittest.TestCase):
    """A handler that uses the trees whose call it interrupted, or ends the waiting for it."""

    def setUp(self) -> None:
        self.kept = RegistryTrees()
        self.addCleanup(self.kept.close)
        self.kept.push_all(LEAVES)
        self.addCleanup(signal.signal, signal.SIGALRM, signal.getsignal(signal.SIGALRM))

    def _interrupting(self, inside: threading.Event) -> Callable[[], None]:
        """Has the thread interrupt the main one, and then wait for what comes of it."""
        main = threading.get_ident()

        def interrupt() -> None:
            signal.pthread_kill(main, signal.SIGALRM)
            inside.wait(0.2)

        return interrupt

    def test_a_handler_has_its_answer(self) -> None:
        answers: list[object] = []
        signal.signal(signal.SIGALRM, lambda *_: answers.extend([len(self.kept), self.kept.log_root()]))
        with calls_wait("registry_head", self._interrupting(threading.Event())):
            self.assertEqual(self.kept.head(LEAVES[0].log_id).record_id, LEAVES[39].record_id)
        self.assertEqual(answers, [40, ROOT])

    def test_interrupts(self) -> None:
        """What was begun is done, and the next call comes behind it."""
        inside = threading.Event()

        def interrupt(*_: object) -> None:
            inside.set()
            raise KeyboardInterrupt

        signal.signal(signal.SIGALRM, interrupt)
        with calls_wait("registry_push", self._interrupting(inside)), self.assertRaises(KeyboardInterrupt):
            self.kept.push(*LEAVES[0])
        self.assertEqual(len(self.kept), 41)
        self.assertEqual(self.kept.push(*LEAVES[1]), 41)

    def test_interrupts_of_what_waits(self) -> None:
        """What waits for another call is done all the same."""
        go_on = threading.Event()

        def interrupt(*_: object) -> None:
            raise KeyboardInterrupt

        signal.signal(signal.SIGALRM, interrupt)
        with calls_wait("registry_roots", lambda: go_on.wait(60)):
            thread = threading.Thread(target=self.kept.log_root)
            thread.start()
            signal.setitimer(signal.ITIMER_REAL, 0.1)
            with self.assertRaises(KeyboardInterrupt):
                self.kept.push(*LEAVES[0])
            go_on.set()
            thread.join(60)
        self.assertEqual(len(self.kept), 41)


class Forks(unittest.TestCase):
    """A process that was made while another thread was in a call."""

    def test_forked(self) -> None:
        kept, idle = RegistryTrees(), RegistryTrees()
        kept.push_all(LEAVES)
        inside, done = threading.Event(), threading.Event()

        def work() -> None:
            calls: list[Callable[[], object]]
            calls = [kept.__len__, kept.log_root, lambda: kept.push(*LEAVES[0]), lambda: idle.inclusion(0)]
            for call in calls:
                with self.assertRaisesRegex(Forked, "^Forked: the registry was made by another process"):
                    call()
            # Closing and forgetting them does nothing, and new ones are as ever.
            kept.close()
            kept._finalizer()
            with RegistryTrees() as new:
                assert new.push_all(LEAVES) == 40 and new.log_root() == ROOT

        def wait() -> None:
            inside.set()
            done.wait(60)

        with calls_wait("registry_head", wait):
            thread = threading.Thread(target=kept.head, args=[id_of("log 0")])
            thread.start()
            inside.wait(60)
            status = in_child(work)
            done.set()
            thread.join()
        self.assertEqual(status, 0)
        self.assertEqual((kept.log_root(), len(idle)), (ROOT, 0))
        kept.close()
        idle.close()


# What each program of the tests below begins with.
BEGINNING = """
import atexit, threading, time
from weoldrin import NotOpen, RegistryTrees
LEAVES = [("sha256:" + f"{it % 3:064x}", "sha256:" + f"{it:064x}") for it in range(5000)]
kept = RegistryTrees()
kept.push_all(LEAVES[:10])
"""


class Ends(unittest.TestCase):
    """Interpreters that end while trees are open."""

    def _prints(self, program: str, wanted: str, first: str = "") -> None:
        words = [sys.executable, "-X", "dev", "-c", first + BEGINNING + program]
        done = subprocess.run(words, capture_output=True, text=True, check=False, timeout=300, env=os.environ)
        self.assertEqual((done.returncode, done.stdout, done.stderr), (0, wanted, ""))

    def test_open_ones(self) -> None:
        """They keep no interpreter from its end, nor do some that push."""
        self._prints("print(len(kept))", "10\n")
        self._prints("threading.Thread(target=lambda: kept.push_all(LEAVES * 9), daemon=True).start()", "")
        self._prints("threading.Thread(target=lambda: [kept.push(*it) for it in LEAVES], daemon=True).start()", "")

    def test_the_last_calls(self) -> None:
        """Functions that are called at the end may use them, also the very last, and threads that end later."""
        self._prints("atexit.register(lambda: print(kept.push(*LEAVES[0]), len(kept)))", "10 11\n")
        first = "import atexit\natexit.register(lambda: print(kept.push(*LEAVES[0]), len(kept)))"
        self._prints("", "10 11\n", first)
        self._prints("threading.Thread(target=lambda: [time.sleep(0.1), print(len(kept))]).start()", "10\n")

    def test_after_the_last(self) -> None:
        """Objects that are forgotten when nothing runs any more are told, and wait for nothing."""
        program = """
class Late:
    def __del__(self, kept=kept, NotOpen=NotOpen):
        try:
            kept.log_root()
        except NotOpen as error:
            print(error, flush=True)
        kept.close()
late = [Late()]
late.append(late)
"""
        self._prints(program, "NotOpen: the registry was closed\n")


if __name__ == "__main__":
    unittest.main()
