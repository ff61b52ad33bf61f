"""The trees of a registry in many threads, and those that are forgotten: the library's registry stays on a thread of
its own."""

import functools
import gc
import threading
import time
import unittest
import weakref
from collections.abc import Callable
from unittest import mock

from weoldrin import Busy, Error, NotOpen, RegistryTrees
from weoldrin._library import CALLS
from weoldrin._own_thread import OwnThread

from .test_interrupted import calls_wait
from .test_threads import THREADS, in_threads
from .trees import Leaf, hash_text, id_of, log_root

NAMES = ("open", "close", "push", "length", "roots", "inclusion", "consistency", "head", "save", "resume")
LEAVES = [Leaf(id_of(f"log {it % 3}"), id_of(f"record {it}")) for it in range(40)]
ROOT = hash_text(log_root([it.of_log() for it in LEAVES]))


class Called:
    """The threads that made each call of the library, while this is entered."""

    def __init__(self) -> None:
        self.threads: dict[str, set[int]] = {it: set() for it in NAMES}
        self._patch = mock.patch.dict(CALLS, {f"registry_{it}": self._seen(it) for it in NAMES})

    def _seen(self, name: str) -> Callable[..., int]:
        real = CALLS[f"registry_{name}"]

        def seen(*arguments: object) -> int:
            self.threads[name].add(threading.get_ident())
            return real(*arguments)

        return seen

    def __enter__(self) -> "Called":
        self._patch.start()
        return self

    def __exit__(self, *_: object) -> None:
        self._patch.stop()


def names_of_threads() -> list[str]:
    """The names of the registries' threads that there are."""
    return [it.name for it in threading.enumerate() if it.name == "weoldrin registry"]


class Threads(unittest.TestCase):
    """Trees that many threads use."""

    def test_all_calls_are_of_one_thread(self) -> None:
        """Whoever makes them, and of two registries of two threads."""
        with Called() as called:
            kept = RegistryTrees.from_bytes(b"")
            waiting = iter(LEAVES)

            def work() -> None:
                for it in waiting:
                    kept.push(*it)
                    assert kept.head(it.log_id).record_id
                    kept.consistency(len(kept))
                    kept.inclusion(0)
                    kept.checkpoint(0)
                    kept.to_bytes()

            self.assertEqual(in_threads(work), [])
            in_threads(kept.close)
            self.assertEqual(len(set.union(*called.threads.values())), 1)
            self.assertNotIn(set(), called.threads.values())
            self.assertNotIn(threading.get_ident(), called.threads["open"])
            with RegistryTrees(), RegistryTrees():
                self.assertGreaterEqual(len(called.threads["open"]), 2)
        self.assertEqual(names_of_threads(), [])

    def test_many_push(self) -> None:
        """Each leaf has a place of its own, and those of one `push_all` stand together."""
        with RegistryTrees() as kept:
            places: list[int] = []

            def work() -> None:
                length = kept.push_all(LEAVES)
                places.extend(range(length - len(LEAVES), length))
                places.append(kept.push(*LEAVES[0]))

            self.assertEqual(in_threads(work), [])
            self.assertEqual(sorted(places), list(range(THREADS * (len(LEAVES) + 1))))
            self.assertEqual(len(kept), len(places))

    def test_answers(self) -> None:
        """Each thread has the answer to its own question, and not to another's."""
        with RegistryTrees() as kept:
            kept.push_all(LEAVES)
            proofs, heads = [kept.inclusion(it) for it in range(40)], [kept.head(id_of(f"log {it}")) for it in range(4)]

            def work() -> None:
                for it in range(200):
                    assert kept.inclusion(it % 40) == proofs[it % 40]
                    assert kept.head(id_of(f"log {it % 4}")) == heads[it % 4]

            self.assertEqual(in_threads(work), [])
            self.assertEqual(kept.log_root(), ROOT)

    def test_closed_meanwhile(self) -> None:
        for _ in range(20):
            kept, started = RegistryTrees(), threading.Barrier(THREADS)

            def work() -> None:
                if started.wait() == 0:
                    kept.close()
                while True:
                    try:
                        kept.push(*LEAVES[0])
                    except NotOpen:
                        return

            self.assertEqual(in_threads(work), [])
            self.assertRaises(NotOpen, kept.log_root)
        self.assertEqual(names_of_threads(), [])

    def test_a_call_behind_the_last(self) -> None:
        """One that is asked for when the thread has ended is refused, and one that waits then too."""
        own, begun, go_on = OwnThread("weoldrin registry"), threading.Event(), threading.Event()

        def wait() -> None:
            begun.set()
            go_on.wait(60)

        raised: list[BaseException] = []

        def ask(work: Callable[[], object]) -> None:
            try:
                own.made(work)
            except Error as error:
                raised.append(error)

        threads = [threading.Thread(target=ask, args=[it]) for it in (wait, int)]
        threads[0].start()
        begun.wait(60)
        own.end(int)
        threads[1].start()
        time.sleep(0.05)
        go_on.set()
        for it in threads:
            it.join(60)
            self.assertFalse(it.is_alive())
        own.join()
        ask(int)
        self.assertEqual([type(it) for it in raised], [NotOpen, NotOpen])

    def test_the_own_thread(self) -> None:
        """A stranger's code that the collector runs on the thread is told, and does not wait for itself."""
        kept, raised = RegistryTrees(), list[BaseException]()

        def use() -> int:
            kept.close()
            try:
                kept.log_root()
            except Error as error:
                raised.append(error)
            return 0

        own = kept._own
        own.made(use)
        self.assertEqual([type(it) for it in raised], [Busy])
        own.join()
        self.assertRaises(NotOpen, kept.log_root)
        self.assertEqual(names_of_threads(), [])

    def test_a_thread_of_the_same_number(self) -> None:
        """One that has the number of the thread that has ended is another one."""
        kept, numbers, raised = RegistryTrees(), list[int | None](), list[str]()
        thread = kept._own._thread
        kept.close()

        def use() -> None:
            numbers.append(threading.get_ident())
            try:
                kept.log_root()
            except Error as error:
                raised.append(error.name)

        for _ in range(100):
            other = threading.Thread(target=use)
            other.start()
            other.join()
        self.assertEqual(set(raised), {"NotOpen"})
        if thread.ident not in numbers:
            self.skipTest("no other thread has got its number")


class Forgotten(unittest.TestCase):
    """Trees that nobody has any more, and what is not kept for long."""

    def _are_closed(self, called: Called) -> None:
        until = time.monotonic() + 60
        while names_of_threads() and time.monotonic() < until:
            time.sleep(0.001)
        self.assertEqual(names_of_threads(), [])
        self.assertEqual(called.threads["close"], called.threads["open"])

    def test_closed(self) -> None:
        with Called() as called, calls_wait("registry_close", lambda: time.sleep(0.1)):
            kept = RegistryTrees()
            kept.close()
            self.assertEqual(names_of_threads(), [])
            self.assertEqual(called.threads["close"], called.threads["open"])

    def test_forgotten(self) -> None:
        with Called() as called:
            kept = RegistryTrees()
            kept.push_all(LEAVES)
            del kept
            self._are_closed(called)

    def test_collected(self) -> None:
        """Also by a collection on another thread."""
        with Called() as called:
            kept, circle = RegistryTrees(), list[object]()
            circle += [kept, circle]
            del kept, circle
            thread = threading.Thread(target=gc.collect)
            thread.start()
            thread.join()
            self._are_closed(called)

    def test_one_that_was_not_begun(self) -> None:
        with mock.patch.dict(CALLS, {"registry_open": lambda *_: 2}):
            self.assertRaises(MemoryError, RegistryTrees)
        until = time.monotonic() + 60
        while names_of_threads() and time.monotonic() < until:
            time.sleep(0.001)
        self.assertEqual(names_of_threads(), [])

    def test_what_is_asked_and_given(self) -> None:
        """The thread keeps neither what it was asked for, nor what it gave or raised."""

        class Thing:
            """What can be watched."""

        class Wrong(BaseException):
            """The same, to be raised."""

        def wrong() -> None:
            error = Wrong()
            things.append(weakref.ref(error))
            raise error

        own, things = OwnThread("weoldrin registry"), list[weakref.ref[object]]()
        gc.disable()
        try:
            asked = Thing()
            given = own.made(functools.partial(lambda _: Thing(), asked))
            things += [weakref.ref(asked), weakref.ref(given)]
            with self.assertRaises(Wrong):
                own.made(wrong)
            del asked, given
            until = time.monotonic() + 60
            while any(it() for it in things) and time.monotonic() < until:
                time.sleep(0.001)
            self.assertEqual([it() for it in things], [None] * 3)
        finally:
            gc.enable()
            own.end(int)
            own.join()


if __name__ == "__main__":
    unittest.main()
