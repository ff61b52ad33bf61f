"""The trees of a registry against their definitions, and each proof against the verifier of its kind."""

import copy
import pickle
import random
import threading
import unittest
from collections.abc import Callable
from unittest import mock

from weoldrin import (
    BadArgument,
    Checkpoint,
    NotOpen,
    OutOfMemory,
    RegistryTrees,
    saved_leaves,
    verify_absence,
    verify_consistency,
    verify_inclusion,
    verify_presence,
)
from weoldrin._library import CALLS

from . import trees
from .trees import EMPTY, Leaf, SparseMap, hash_text, id_of, short_text, text_of

LENGTH = 70
# More leaves than the room for what calls write has at first.
MANY = 200
ABSENT = [id_of(f"none {it}") for it in range(5)]


class Checked(unittest.TestCase):
    """What is compared of trees."""

    def check_map(self, kept: RegistryTrees, leaves: list[Leaf], most: int = 1000) -> None:
        """The map of the leaves, its root, and the proofs of some of its heads and of logs that it has not."""
        defined, root = SparseMap(leaves), kept.map_root()
        self.assertEqual(root, hash_text(defined.root()))
        heads = {it.log_id: it.record_id for it in leaves}
        for log_id, record_id in list(heads.items())[:most]:
            head = kept.head(log_id)
            self.assertEqual(head, (record_id, short_text(defined.path(Leaf(log_id, "").key()))))
            self.assertTrue(verify_presence(log_id, record_id, root, head.proof))
            self.assertFalse(verify_absence(log_id, root, head.proof))
        for log_id in ABSENT:
            head = kept.head(log_id)
            self.assertEqual(head, (None, short_text(defined.path(Leaf(log_id, "").key()))))
            self.assertTrue(verify_absence(log_id, root, head.proof))

    def check_inclusion(self, kept: RegistryTrees, leaves: list[Leaf], place: int) -> None:
        """The proof of the leaf at a place."""
        proof, root = kept.inclusion(place), kept.log_root()
        self.assertEqual(proof, text_of(trees.inclusion(place, [it.of_log() for it in leaves])))
        self.assertTrue(verify_inclusion(*leaves[place], place, len(leaves), root, proof))

    def check_consistency(self, kept: RegistryTrees, leaves: list[Leaf], first: int, old_root: str) -> None:
        """The proof that the log begins with its first leaves, of which this was the root."""
        proof, root = kept.consistency(first), kept.log_root()
        self.assertEqual(proof, text_of(trees.consistency(first, [it.of_log() for it in leaves])))
        self.assertTrue(verify_consistency(first, old_root, len(leaves), root, proof))


class AsDefined(Checked):
    """Trees of each length, and of some hundreds of leaves."""

    def test_each_length(self) -> None:
        chosen = random.Random(3)
        leaves: list[Leaf] = []
        with RegistryTrees() as kept:
            roots = [kept.log_root()]
            self.assertEqual((roots, kept.map_root()), ([hash_text(trees.digest(b""))], hash_text(EMPTY[256])))
            self.check_consistency(kept, leaves, 0, roots[0])
            self.check_map(kept, leaves)
            for length in range(1, LENGTH + 1):
                leaves.append(Leaf(id_of(f"log {chosen.randrange(20)}"), id_of(f"record {length}")))
                self.assertEqual(kept.push(*leaves[-1]), length - 1)
                self.assertEqual(len(kept), length)
                roots.append(kept.log_root())
                self.assertEqual(roots[-1], hash_text(trees.log_root([it.of_log() for it in leaves])))
                for place in range(length):
                    self.check_inclusion(kept, leaves, place)
                for first, old_root in enumerate(roots):
                    self.check_consistency(kept, leaves, first, old_root)
                if length % 7 == 0:
                    self.check_map(kept, leaves)

    def test_hundreds(self) -> None:
        """At lengths about powers of two and at others."""
        chosen = random.Random(5)
        leaves: list[Leaf] = []
        roots = {0: hash_text(trees.digest(b""))}
        with RegistryTrees() as kept:
            for length in (1, 2, 100, 255, 256, 257, 511, 512, 600):
                count = length - len(leaves)
                new = [Leaf(id_of(f"log {chosen.randrange(200)}"), id_of(str(chosen.random()))) for _ in range(count)]
                self.assertEqual(kept.push_all(new), length)
                leaves += new
                self.assertEqual(kept.log_root(), hash_text(trees.log_root([it.of_log() for it in leaves])))
                for place in {0, 1, length // 2, length - 1, chosen.randrange(length)} & set(range(length)):
                    self.check_inclusion(kept, leaves, place)
                for first, old_root in roots.items():
                    self.check_consistency(kept, leaves, first, old_root)
                self.check_map(kept, leaves, 30)
                roots[length] = kept.log_root()

    def test_keys_that_are_close(self) -> None:
        chosen = random.Random(7)
        for _ in range(20):
            keys = [chosen.getrandbits(256)]
            leaves: list[Leaf] = []
            while len(keys) < 12:
                keys.append(chosen.choice(keys) ^ 1 << chosen.choice([0, 1, 7, 8, 100, 247, 254, 255]))
            with RegistryTrees() as kept:
                for number, key in enumerate([*keys, *keys[:3]]):
                    leaves.append(Leaf(f"sha256:{key:064x}", id_of(str(number))))
                    kept.push(*leaves[-1])
                    if number % 3 == 0:
                        self.check_map(kept, leaves)
                self.check_map(kept, leaves)

    def test_two_at_once(self) -> None:
        """Each has its own leaves."""
        leaves = [Leaf(id_of(f"log {it % 3}"), id_of(f"record {it}")) for it in range(8)]
        with RegistryTrees() as one, RegistryTrees() as other:
            for place, it in enumerate(leaves):
                one.push(*it)
                other.push(*leaves[-1 - place])
            self.assertEqual(len(one), len(other))
            for kept, its_leaves in ((one, leaves), (other, leaves[::-1])):
                self.assertEqual(kept.log_root(), hash_text(trees.log_root([it.of_log() for it in its_leaves])))
                self.check_map(kept, its_leaves)
                self.check_inclusion(kept, its_leaves, 5)

    def test_checkpoint(self) -> None:
        with RegistryTrees() as kept:
            for length in range(3):
                found = kept.checkpoint(1_700_000_000 + length)
                self.assertEqual(found, Checkpoint(kept.log_root(), length, kept.map_root(), 1_700_000_000 + length))
                self.assertIn(kept.map_root().encode(), found.message())
                kept.push(id_of("log"), id_of(str(length)))


def saved_of(leaves: list[Leaf]) -> bytes:
    """The bytes of leaves by their definition."""
    return b"".join(bytes.fromhex(text.removeprefix("sha256:")) for it in leaves for text in it)


class Saved(Checked):
    """Trees that are made of the bytes of leaves."""

    def setUp(self) -> None:
        chosen = random.Random(9)
        self.leaves = [Leaf(id_of(f"log {chosen.randrange(30)}"), id_of(f"record {it}")) for it in range(MANY)]

    def check(self, kept: RegistryTrees, leaves: list[Leaf], pushed: RegistryTrees) -> None:
        """Compares trees with those to which the same leaves were pushed."""
        self.assertEqual(kept.checkpoint(5), pushed.checkpoint(5))
        self.assertEqual(len(kept), len(leaves))
        for log_id in {*(it.log_id for it in leaves), *ABSENT}:
            self.assertEqual(kept.head(log_id), pushed.head(log_id))
        for place in range(len(leaves)):
            self.assertEqual(kept.inclusion(place), pushed.inclusion(place))
        for first in range(len(leaves) + 1):
            self.assertEqual(kept.consistency(first), pushed.consistency(first))
        self.assertEqual((kept.to_bytes(), pushed.to_bytes()), (saved_of(leaves), saved_of(leaves)))

    def test_each_length(self) -> None:
        """And they go on as those do to which all leaves were pushed."""
        saved = saved_of(self.leaves)
        with RegistryTrees() as pushed:
            for length in range(20):
                with RegistryTrees.from_bytes(saved[: 64 * length]) as kept:
                    self.check(kept, self.leaves[:length], pushed)
                    self.assertEqual(kept.push(*self.leaves[length]), length)
                    pushed.push(*self.leaves[length])
                    self.check(kept, self.leaves[: length + 1], pushed)

    def test_many(self) -> None:
        with RegistryTrees() as pushed:
            pushed.push_all(self.leaves)
            with RegistryTrees.from_bytes(pushed.to_bytes()) as kept:
                self.check(kept, self.leaves, pushed)
                self.assertEqual(kept.push_all(self.leaves[:50]), MANY + 50)
                pushed.push_all(self.leaves[:50])
                self.check(kept, self.leaves + self.leaves[:50], pushed)

    def test_as_defined(self) -> None:
        leaves = self.leaves[:40]
        with RegistryTrees.from_bytes(saved_of(leaves)) as kept:
            self.assertEqual(kept.log_root(), hash_text(trees.log_root([it.of_log() for it in leaves])))
            self.check_map(kept, leaves, 5)
            for place in (0, 17, 39):
                self.check_inclusion(kept, leaves, place)
            for first in (0, 1, 31, 40):
                root = hash_text(trees.log_root([it.of_log() for it in leaves[:first]]))
                self.check_consistency(kept, leaves, first, root)

    def test_leaves_that_come_again(self) -> None:
        """A leaf may come twice, and a head come back."""
        one, other = self.leaves[0], self.leaves[0]._replace(record_id=id_of("other"))
        leaves = [one, one, other, self.leaves[1], other, one]
        with RegistryTrees() as pushed, RegistryTrees.from_bytes(saved_of(leaves)) as kept:
            pushed.push_all(leaves)
            self.check(kept, leaves, pushed)
            self.assertEqual(kept.head(one.log_id).record_id, one.record_id)

    def test_keys_that_are_close(self) -> None:
        keys = [int(self.leaves[0].log_id[7:], 16) ^ (1 << bit if bit >= 0 else 0) for bit in (-1, 0, 1, 8, 128, 255)]
        leaves = [Leaf(f"sha256:{key:064x}", id_of(str(it))) for it, key in enumerate([*keys, *keys[2:4]])]
        with RegistryTrees() as pushed, RegistryTrees.from_bytes(saved_of(leaves)) as kept:
            pushed.push_all(leaves)
            self.check(kept, leaves, pushed)

    def test_saved_leaves(self) -> None:
        """They are the bytes of trees, whatever the case of digits."""
        self.assertEqual(saved_leaves(iter(self.leaves)), saved_of(self.leaves))
        self.assertEqual(saved_leaves([]), b"")
        own = id_of("log")
        capitals = own[:7] + own[7:].upper()
        self.assertEqual(saved_leaves([(capitals, own)]), saved_of([Leaf(own, own)]))
        wrong = ["", "log", own[:-1], f"{own}0", own.upper(), f" {own}", f"{own}\n", f"{own[:-2]} 0", f"{own[:-1]}g"]
        for it in [*wrong, f"{own[:-1]}\u0661", "sha256:\udc80", "sha512:00"]:
            for leaf in ((it, own), (own, it)):
                with self.assertRaises(BadArgument) as caught:
                    saved_leaves([self.leaves[0], leaf])
                self.assertEqual(str(caught.exception), "BadText: an id is not the text of one")
                with RegistryTrees() as kept:
                    self.assertRaises(BadArgument, kept.push, *leaf)
        for other in (None, 7, own.encode()):
            self.assertRaises(TypeError, saved_leaves, [(own, other)])
        self.assertRaises(ValueError, saved_leaves, [(own, own, own)])

    def test_what_bytes_are(self) -> None:
        """Any view of bytes, and what is given stays as it was."""
        saved = saved_of(self.leaves[:3])
        for it in (bytearray(saved), memoryview(saved), memoryview(bytearray(b"x" + saved))[1:]):
            with RegistryTrees.from_bytes(it) as kept:
                given = kept.to_bytes()
                kept.push(*self.leaves[3])
                self.assertEqual((given, kept.to_bytes()), (saved, saved_of(self.leaves[:4])))
                self.assertIs(type(given), bytes)

    def test_lengths(self) -> None:
        """Those that are no multiple of 64, of which nothing stays."""
        others = threading.enumerate()
        saved = saved_of(self.leaves)
        for length in (1, 32, 63, 65, 96, 127, len(saved) - 1):
            with self.assertRaises(BadArgument) as caught:
                RegistryTrees.from_bytes(saved[:length])
            self.assertEqual(str(caught.exception), "BadLength: the bytes are no multiple of 64")
        for it in ("", 64, None, [0] * 64):
            self.assertRaises(TypeError, RegistryTrees.from_bytes, it)
        for thread in set(threading.enumerate()) - set(others):
            thread.join(20)
        self.assertEqual(set(threading.enumerate()) - set(others), set())

    def test_memory(self) -> None:
        """A call to which memory is refused may be made again."""
        saved = saved_of(self.leaves)
        with RegistryTrees.from_bytes(saved) as kept:
            with mock.patch.dict(CALLS, {it: lambda *_: 2 for it in ("registry_save", "registry_resume")}):
                self.assertRaises(OutOfMemory, kept.to_bytes)
                self.assertRaises(OutOfMemory, RegistryTrees.from_bytes, saved)
            self.assertEqual(kept.to_bytes(), saved)

    def test_classes(self) -> None:
        """What a class of its own makes is of that class."""

        class Own(RegistryTrees):
            """Trees of a class of their own."""

        with Own.from_bytes(saved_of(self.leaves)) as kept:
            self.assertIs(type(kept), Own)
            self.assertEqual(len(kept), MANY)


class Refused(Checked):
    """What is refused leaves the trees as they were."""

    def setUp(self) -> None:
        self.kept = RegistryTrees()
        self.addCleanup(self.kept.close)
        self.leaves = [Leaf(id_of(f"log {it % 3}"), id_of(f"record {it}")) for it in range(8)]
        self.assertEqual(self.kept.push_all(self.leaves), 8)
        self.before = self.kept.checkpoint(0)

    def _is_as_it_was(self) -> None:
        self.assertEqual(self.kept.checkpoint(0), self.before)
        self.check_map(self.kept, self.leaves)

    def test_places(self) -> None:
        for place in (-1, 8, 2**63, 2**64 - 1, 2**64, 2**64 + 1, -(2**64)):
            with self.assertRaisesRegex(IndexError, f"^there is no leaf at place {place}$"):
                self.kept.inclusion(place)
        for first in (-1, 9, 2**63, 2**64 - 1, 2**64, 2**64 + 1, -(2**64)):
            with self.assertRaisesRegex(IndexError, f"^the log has no beginning of {first} leaves$"):
                self.kept.consistency(first)
        self.assertEqual((self.kept.consistency(0), self.kept.consistency(8)), ("", ""))
        with RegistryTrees() as none:
            self.assertRaises(IndexError, none.inclusion, 0)
            self.assertEqual(none.consistency(0), "")
            self.assertRaises(IndexError, none.consistency, 1)

    def test_ids(self) -> None:
        own, whole = id_of("log"), id_of("record")
        wrong = ["", "log", own[:-1], f"{own}0", own.upper(), f"\0{own}", f"{own}\0", "sha256:\udc80", "sha512:00"]
        for it in wrong:
            calls: list[Callable[[], object]]
            calls = [lambda: self.kept.push(it, whole), lambda: self.kept.push(own, it), lambda: self.kept.head(it)]
            for call in calls:
                with self.assertRaises(BadArgument) as caught:
                    call()
                self.assertEqual(str(caught.exception), "BadText: an id is not the text of one")
        self._is_as_it_was()

    def test_types(self) -> None:
        own = id_of("log")
        calls: list[Callable[[], object]]
        calls = [lambda: self.kept.push(own, b"x"), lambda: self.kept.head(None)]  # type: ignore[arg-type]
        calls += [lambda: self.kept.inclusion("1"), lambda: self.kept.consistency(1.0)]  # type: ignore[arg-type]
        calls += [lambda: self.kept.push_all([(own, own), (own, 1)])]  # type: ignore[list-item]
        for call in calls:
            self.assertRaises(TypeError, call)
        with self.assertRaises(ValueError):
            self.kept.push_all([(own, own), (own, own, own)])  # type: ignore[list-item]
        self._is_as_it_was()

    def test_one_of_many(self) -> None:
        """Those before it stay, and none behind it is taken."""
        new = [Leaf(id_of("log 0"), id_of("new")), Leaf(id_of("log 9"), id_of("newer"))]
        self.assertRaises(BadArgument, self.kept.push_all, [*new, (id_of("log"), "record"), new[0]])
        self.leaves += new
        self.assertEqual(len(self.kept), 10)
        self.check_map(self.kept, self.leaves)
        self.assertEqual(self.kept.push_all([]), 10)

    def test_memory(self) -> None:
        """A push to which memory is refused may be made again."""
        new, push = Leaf(id_of("log 0"), id_of("new")), CALLS["registry_push"]
        with mock.patch.dict(CALLS, {"registry_push": lambda *_: 2}):
            self.assertRaises(OutOfMemory, self.kept.push, *new)
            self.assertRaises(OutOfMemory, self.kept.push_all, [new, new])
        self._is_as_it_was()
        self.assertIs(CALLS["registry_push"], push)
        self.assertEqual(self.kept.push(*new), 8)
        names = ("registry_roots", "registry_inclusion", "registry_consistency", "registry_head", "registry_open")
        with mock.patch.dict(CALLS, {it: lambda *_: 2 for it in names}):
            calls: list[Callable[[], object]]
            calls = [self.kept.log_root, lambda: self.kept.checkpoint(0), lambda: self.kept.inclusion(0)]
            calls += [lambda: self.kept.consistency(1), lambda: self.kept.head(new.log_id), RegistryTrees]
            for call in calls:
                self.assertRaises(OutOfMemory, call)
        self.leaves.append(new)
        self.check_map(self.kept, self.leaves)

    def test_closed(self) -> None:
        self.kept.close()
        self.kept.close()
        own = id_of("log")
        calls: list[Callable[[], object]]
        calls = [self.kept.__len__, self.kept.log_root, self.kept.map_root, lambda: self.kept.checkpoint(0)]
        calls += [lambda: self.kept.push(own, own), lambda: self.kept.push_all([(own, own)])]
        calls += [lambda: self.kept.push_all([]), lambda: self.kept.head(own), self.kept.to_bytes]
        calls += [lambda: self.kept.inclusion(0), lambda: self.kept.inclusion(-1), lambda: self.kept.consistency(9)]
        for call in calls:
            with self.assertRaises(NotOpen) as caught:
                call()
            self.assertEqual(str(caught.exception), "NotOpen: the registry was closed")
        self.assertTrue(self.kept)

    def test_copies(self) -> None:
        self.assertTrue(RegistryTrees())
        calls: list[Callable[[object], object]] = [copy.copy, copy.deepcopy, pickle.dumps]
        for call in calls:
            self.assertRaises(TypeError, call, self.kept)
        self._is_as_it_was()


if __name__ == "__main__":
    unittest.main()
