"""The trees that checkpoints are made of are those of the stored leaves, in their order, by the definitions."""

import importlib.util
import itertools
import pathlib
import random
import tempfile
import threading
import unittest
from collections.abc import Iterator
from contextlib import contextmanager
from types import ModuleType
from typing import Any
from unittest import mock

from weoldrin import NotOpen, OutOfMemory, RegistryTrees, SignedCheckpoint, verify_inclusion, verify_presence
from weoldrin_registry import trees as trees_module
from weoldrin_registry.handles import Damaged
from weoldrin_registry.registry import Registry
from weoldrin_registry.settings import Settings
from weoldrin_registry.trees import Kept, Ring

_DEFINITIONS = pathlib.Path(__file__).resolve().parents[2] / "bindings/python/tests/trees.py"


def _definitions() -> ModuleType:
    """The definitions that the Python package is tested by."""
    found = importlib.util.spec_from_file_location("definitions", _DEFINITIONS)
    assert found and found.loader
    module = importlib.util.module_from_spec(found)
    found.loader.exec_module(module)
    return module


BY = _definitions()


class Stored:
    """A storage of leaves alone, and what it was asked for."""

    def __init__(self, count: int) -> None:
        chosen = random.Random(3)
        self.all = [(BY.id_of(f"log {chosen.randrange(20)}"), BY.id_of(f"record {it}")) for it in range(count)]
        self.asked: list[tuple[int, int]] = []

    def leaves(self, start: int, most: int) -> list[tuple[str, str]]:
        """The leaves from an index on."""
        self.asked.append((start, most))
        return self.all[start : start + most]


class Rings(unittest.TestCase):
    """Trees over a part of 50 leaves, which are read ten at once."""

    KEPT = 1

    def setUp(self) -> None:
        self.others = threading.enumerate()
        self.stored = Stored(50)
        storage: Any = self.stored
        self.made = Ring(storage, self.KEPT)
        self.addCleanup(self.made.drop)
        many = mock.patch.object(trees_module, "_MANY", 10)
        many.start()
        self.addCleanup(many.stop)

    def _threads(self) -> list[str]:
        """The names of the threads that this test has begun: there is one for each of the trees that are open."""
        return [it.name for it in threading.enumerate() if it not in self.others]

    def _trees(self) -> list[RegistryTrees]:
        """All trees, those of the newest checkpoint last."""
        return [it.trees for it in self.made._all]

    def _reached(self, length: int, time: int = 7) -> RegistryTrees:
        """Those of a length, as which a checkpoint is taken."""
        trees = self.made.reached(length)
        contents = trees.checkpoint(time)
        self.made.accept(Kept(SignedCheckpoint(contents, "", ""), f"{length} at {time}"), True)
        return trees

    @contextmanager
    def _dropped(self) -> Iterator[None]:
        """Drops them where something fails, as who calls does."""
        try:
            yield
        except BaseException:
            self.made.drop()
            raise

    def _check(self, trees: RegistryTrees, length: int) -> None:
        """Compares the trees with those of the first leaves."""
        leaves = [BY.Leaf(*it) for it in self.stored.all[:length]]
        by, contents = BY.SparseMap(leaves), trees.checkpoint(7)
        log_root = BY.hash_text(BY.log_root([it.of_log() for it in leaves]))
        self.assertEqual((contents.log_root, contents.log_length), (log_root, length))
        self.assertEqual((contents.map_root, contents.timestamp), (BY.hash_text(by.root()), 7))
        for place, (log_id, record_id) in enumerate(self.stored.all[:length]):
            self.assertTrue(verify_inclusion(log_id, record_id, place, length, log_root, trees.inclusion(place)))
        for log_id, record_id in {it.log_id: it.record_id for it in leaves}.items():
            head, proof = trees.head(log_id)
            self.assertEqual(head, record_id)
            self.assertTrue(verify_presence(log_id, record_id, contents.map_root, proof))


class Trees(Rings):
    """Those of one checkpoint."""

    def test_they_go_on(self) -> None:
        for length in (0, 1, 2, 2, 9, 10, 11, 20, 43, 50):
            self.stored.asked.clear()
            before = self._trees()
            trees = self._reached(length)
            self.assertEqual([trees], before or [trees])
            self._check(trees, length)
        # What is there is not read again, and no more than is wanted.
        self.assertEqual(self.stored.asked, [(43, 7)])
        self.assertEqual(self._threads(), ["weoldrin registry"])

    def test_they_are_made_at_once(self) -> None:
        """Of leaves that are read in pieces, without a push for each; ids may have capitals."""
        log_id, record_id = self.stored.all[7]
        self.stored.all[7] = log_id[:7] + log_id[7:].upper(), record_id[:7] + record_id[7:].upper()
        with mock.patch.object(RegistryTrees, "push_all", side_effect=AssertionError):
            trees = self._reached(43)
        self.assertEqual(self.stored.asked, [(0, 10), (10, 10), (20, 10), (30, 10), (40, 3)])
        self.stored.all[7] = log_id, record_id
        self._check(trees, 43)
        with RegistryTrees() as pushed:
            pushed.push_all(self.stored.all[:43])
            self.assertEqual(trees.to_bytes(), pushed.to_bytes())
            self.assertEqual(trees.consistency(17), pushed.consistency(17))
        # From here on each new leaf is pushed.
        with mock.patch.object(RegistryTrees, "from_bytes", side_effect=AssertionError):
            self._check(self._reached(50), 50)

    def test_one_log(self) -> None:
        """Of many records, each of which is the last one of a time."""
        log_id = BY.id_of("log")
        self.stored.all = [(log_id, BY.id_of(f"record {it}")) for it in range(50)]
        for length in (1, 50, 12, 13):
            self._check(self._reached(length), length)
            self.assertEqual(self._reached(length).head(log_id).record_id, BY.id_of(f"record {length - 1}"))

    def test_they_are_made_anew(self) -> None:
        many = self._reached(43)
        few = self._reached(12)
        self._check(few, 12)
        self.assertRaises(NotOpen, len, many)
        self._check(self._reached(13), 13)
        self.assertEqual(self._threads(), ["weoldrin registry"])

    def test_other_leaves(self) -> None:
        """They are told, and no trees are left that have some of them: whether they go on or are made anew."""
        log_id, record_id = self.stored.all[15]
        for length, leaf, sentence in (
            (60, (log_id, record_id), "there are fewer than 60 leaves"),
            (20, ("", record_id), "a leaf behind the first 10 is none"),
            (20, (log_id, "record"), "a leaf behind the first 10 is none"),
        ):
            for before in (0, 10):
                self.stored.all[15] = leaf
                with self.assertRaisesRegex(Damaged, sentence), self._dropped():
                    if before:
                        self._reached(before)
                    self._reached(length)
                self.assertEqual(self._trees(), [])
                self.assertEqual(self._threads(), [])
        self._check(self._reached(15), 15)

    def test_memory(self) -> None:
        """Where memory is refused, the next ones are made anew."""
        trees = self._reached(15)
        with mock.patch.object(RegistryTrees, "push_all", side_effect=OutOfMemory):
            with self.assertRaises(OutOfMemory), self._dropped():
                self._reached(30)
        self.assertRaises(NotOpen, len, trees)
        with mock.patch.object(RegistryTrees, "from_bytes", side_effect=OutOfMemory):
            with self.assertRaises(OutOfMemory), self._dropped():
                self._reached(30)
        self.assertEqual(self._trees(), [])
        self._check(self._reached(30), 30)

    def test_they_are_closed(self) -> None:
        trees = self._reached(15)
        self.made.drop()
        self.assertRaises(NotOpen, len, trees)
        self.assertEqual(self._threads(), [])
        self._check(self._reached(4), 4)

    def test_a_registry_that_stops(self) -> None:
        with tempfile.TemporaryDirectory() as folder:
            registry = Registry(Settings(database=f"{folder}/logs.sqlite"))
            trees = registry.checkpoints._ring.reached(0)
            self.assertEqual(self._threads(), ["weoldrin registry"] * 2)
            registry.stop()
        self.assertRaises(NotOpen, len, trees)
        self.assertEqual(self._threads(), [])


class Several(Rings):
    """Those of three checkpoints."""

    KEPT = 3

    def _check_kept(self, *lengths: int) -> None:
        """Checks that trees stand for these lengths, and for no other."""
        for length in range(51):
            found = self.made.of(length)
            self.assertEqual(found is not None, length in lengths, length)
            if found is not None:
                self.assertEqual(found.checkpoint and found.checkpoint.length, length)
                self._check(found.trees, length)
        self.assertEqual(self._threads(), ["weoldrin registry"] * 3)

    def test_the_oldest_go_on(self) -> None:
        kept: list[int] = []
        for length in (5, 9, 20, 21, 50):
            self.stored.asked.clear()
            before = self._trees()
            self._reached(length)
            self.assertEqual(self._trees(), before[1:] + before[:1] if before else self._trees())
            kept.append(length)
            self._check_kept(*kept[-3:])
        # The others are not touched, and those that go on have what is there already.
        self.assertEqual(self.stored.asked, [(9, 10), (19, 10), (29, 10), (39, 10), (49, 1)])

    def test_one_that_is_renewed(self) -> None:
        for length in (5, 9, 20):
            self._reached(length)
        for time in (8, 9):
            before = self._trees()
            self._reached(20, time)
            self.assertEqual(self._trees(), before)
            self._check_kept(5, 9, 20)
            texts = [found.checkpoint.text for it in (5, 9, 20) if (found := self.made.of(it)) and found.checkpoint]
            self.assertEqual(texts, ["5 at 7", "9 at 7", f"20 at {time}"])
        # Those that were made beside the first ones have its text too.
        self.made.drop()
        self._reached(9)
        self._reached(9, 8)
        self._reached(20)
        texts = [it.checkpoint.text for it in self.made._all if it.checkpoint]
        self.assertEqual(texts, ["9 at 8", "9 at 8", "20 at 7"])

    def test_they_are_made_at_once(self) -> None:
        with mock.patch.object(RegistryTrees, "push_all", side_effect=AssertionError):
            self._reached(43)
        # The leaves are read once for all.
        self.assertEqual(self.stored.asked, [(0, 10), (10, 10), (20, 10), (30, 10), (40, 3)])
        self.assertEqual([len(it) for it in self._trees()], [43] * 3)
        self._check_kept(43)
        self._reached(50)
        self._check_kept(43, 50)
        # Where the newest have more leaves, none of those before them stand.
        self._reached(44)
        self._check_kept(44)

    def test_trees_that_are_ahead(self) -> None:
        """Of a checkpoint that was not kept, since another process was first: they go on, and no others."""
        for length in (5, 9, 20):
            self._reached(length)
        ahead = self.made.reached(30)
        self.assertIsNone(self.made.of(30))
        self.assertIs(self.made.reached(31), ahead)
        self.assertIs(self._reached(40), ahead)
        self._check_kept(9, 20, 40)

    def test_memory(self) -> None:
        """Where it is refused for some, none are left."""
        make, numbers = RegistryTrees.from_bytes, itertools.count()

        def refused(saved: bytes) -> RegistryTrees:
            if next(numbers) == 1:
                raise OutOfMemory
            return make(saved)

        with mock.patch.object(RegistryTrees, "from_bytes", refused):
            with self.assertRaises(OutOfMemory), self._dropped():
                self._reached(30)
        self.assertEqual((self._trees(), self._threads()), ([], []))
        self._reached(30)
        self._check_kept(30)


if __name__ == "__main__":
    unittest.main()
