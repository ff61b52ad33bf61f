"""All proofs of small logs and maps, made by their definitions: each is accepted where it belongs, and nowhere else."""

import itertools
import unittest
from collections.abc import Sequence

from weoldrin import BadArgument, verify_absence, verify_consistency, verify_inclusion, verify_presence

from . import trees
from .trees import Leaf, SparseMap, hash_text, id_of, short_parts, short_text, text_of

LEAVES = [Leaf(id_of(f"log {place % 3}"), id_of(f"record {place}")) for place in range(33)]
HASHES = [it.of_log() for it in LEAVES]
ROOTS = [trees.log_root(HASHES[:size]) for size in range(34)]
EXTREMES = (0, 1, 2**63, 2**64 - 1)
# Hashes of nothing else.
STRANGE = [trees.digest(f"strange {place}".encode()) for place in range(257)]
# How many hashes a proof on a log has at most.
MOST = 64


def shows_leaf(place: int, at: int, length: int, root: bytes, proof: Sequence[bytes]) -> bool:
    """Whether the leaf of a place is shown to stand at another one of a log."""
    return verify_inclusion(*LEAVES[place], at, length, hash_text(root), text_of(proof))


def goes_on(old: int, old_root: bytes, new: int, new_root: bytes, proof: Sequence[bytes]) -> bool:
    """Whether a log is shown to begin with another."""
    return verify_consistency(old, hash_text(old_root), new, hash_text(new_root), text_of(proof))


class Inclusion(unittest.TestCase):
    """Proofs that a leaf stands at a place of a log."""

    def test_all_of_32_leaves(self) -> None:
        for size in range(1, 33):
            for place in range(size):
                self._is_of_its_place(place, size, trees.inclusion(place, HASHES[:size]))

    def _is_of_its_place(self, place: int, size: int, proof: list[bytes]) -> None:
        root, form = ROOTS[size], trees.inclusion_form(place, size)
        for other in range(34):
            self.assertEqual(shows_leaf(place, other, size, root, proof), other == place)
            self.assertEqual(other < 33 and shows_leaf(other, place, size, root, proof), other == place)
            # In a tree of that size; and where the size is another than the root's, if the path has the same form
            # there.
            self.assertEqual(shows_leaf(place, place, other, ROOTS[other], proof), other == size)
            is_alike = place < other and trees.inclusion_form(place, other) == form
            self.assertEqual(shows_leaf(place, place, other, root, proof), is_alike)

    def test_each_hash_counts(self) -> None:
        for size in range(1, 33):
            for place in range(size):
                for proof in trees.forged(trees.inclusion(place, HASHES[:size])):
                    self.assertFalse(shows_leaf(place, place, size, ROOTS[size], proof))

    def test_extremes(self) -> None:
        for place, size in itertools.product(EXTREMES, EXTREMES):
            self.assertEqual(shows_leaf(0, place, size, HASHES[0], []), (place, size) == (0, 1))
            # A tree of which only one path is known.
            form = trees.inclusion_form(place, size) if place < size else []
            root = trees.climb(HASHES[0], STRANGE[: len(form)], form)
            for count in range(MOST + 1):
                is_shown = shows_leaf(0, place, size, root, STRANGE[:count])
                self.assertEqual(is_shown, place < size and count == len(form))
        self.assertEqual(len(trees.inclusion_form(0, 2**64 - 1)), MOST)


class Consistency(unittest.TestCase):
    """Proofs that a log begins with an older one."""

    def test_all_of_16_leaves(self) -> None:
        for new in range(17):
            for old in range(new + 1):
                proof = trees.consistency(old, HASHES[:new])
                for lengths in itertools.product(range(18), range(18)):
                    self._is_of_its_lengths(lengths, (old, new), proof)

    def _is_of_its_lengths(self, lengths: tuple[int, int], own: tuple[int, int], proof: list[bytes]) -> None:
        old, new = lengths
        is_own = lengths == own if proof else old in (0, new)
        self.assertEqual(goes_on(old, ROOTS[old], new, ROOTS[new], proof), is_own)
        # With roots of other lengths it is accepted only where it has the same form.
        if proof:
            is_alike = 0 < old < new and trees.consistency_form(*lengths) == trees.consistency_form(*own)
            self.assertEqual(goes_on(old, ROOTS[own[0]], new, ROOTS[own[1]], proof), is_alike)

    def test_each_hash_counts(self) -> None:
        for new in range(17):
            for old in range(new + 1):
                for proof in trees.forged(trees.consistency(old, HASHES[:new])):
                    self.assertFalse(goes_on(old, ROOTS[old], new, ROOTS[new], proof))

    def test_each_root_counts(self) -> None:
        for new in range(1, 17):
            for old in range(new + 1):
                proof = trees.consistency(old, HASHES[:new])
                self.assertFalse(goes_on(old, STRANGE[0], new, ROOTS[new], proof))
                # From no leaves any log goes on.
                self.assertEqual(goes_on(old, ROOTS[old], new, STRANGE[0], proof), old == 0)

    def test_empty_proofs_of_extremes(self) -> None:
        for old, new in itertools.product(EXTREMES, EXTREMES):
            is_all = old == new and old > 0
            self.assertEqual(goes_on(old, ROOTS[0], new, ROOTS[0], []), old in (0, new))
            self.assertEqual(goes_on(old, ROOTS[5], new, ROOTS[5], []), is_all)
            self.assertFalse(goes_on(old, ROOTS[5], new, ROOTS[6], []))
            self.assertEqual(goes_on(old, ROOTS[0], new, ROOTS[5], []), old == 0 < new)

    def test_long_proofs_of_extremes(self) -> None:
        for old, new in itertools.product(EXTREMES[1:], EXTREMES[1:]):
            # The old lengths are powers of two, whose roots begin the way up; all hashes are to the right of it.
            count = len(trees.consistency_form(old, new)) - 1 if old < new else 0
            root = trees.climb(ROOTS[5], STRANGE[:count], [False] * count)
            for length in range(1, MOST + 1):
                is_shown = goes_on(old, ROOTS[5], new, root, STRANGE[:length])
                self.assertEqual(is_shown, length == count)

    def test_the_longest(self) -> None:
        """The proof that a tree of 2**64 - 1 leaves goes on from 3 has 65 hashes, which are too many."""
        for size, count in ((2**63, 64), (2**64 - 1, 65)):
            start, *form = trees.consistency_form(3, size)
            self.assertEqual((start, len(form) + 1), (False, count))
            first, *others = STRANGE[:count]
            old_form = [it for it in form if it]
            old = trees.climb(first, [it for it, is_left in zip(others, form, strict=True) if is_left], old_form)
            new = trees.climb(first, others, form)
            if count > MOST:
                self.assertRaises(BadArgument, goes_on, 3, old, size, new, [first, *others])
            else:
                self.assertTrue(goes_on(3, old, size, new, [first, *others]))


class Maps(unittest.TestCase):
    """Proofs of what a map says of a log."""

    def setUp(self) -> None:
        names = [f"log {place}" for place in range(50)]
        keys = [trees.digest(it.encode()) for it in names]
        # Each has a neighbour that shares the first 255 bits.
        both = [it for key in keys for it in (key, trees.turned(key, 0))]
        self.leaves = [Leaf(hash_text(it), id_of(f"record {place}")) for place, it in enumerate(both)]
        self.others = [id_of(f"another log {place}") for place in range(20)]

    def _is_told(self, leaf: Leaf, root: bytes, proof: str) -> bool:
        return verify_presence(*leaf, hash_text(root), proof)

    def _is_absent(self, log_id: str, root: bytes, proof: str) -> bool:
        return verify_absence(log_id, hash_text(root), proof)

    def test_maps(self) -> None:
        for count in (0, 1, 2, 3, 100):
            sparse = SparseMap(self.leaves[:count])
            root = sparse.root()
            for leaf in self.leaves[:count]:
                proof = short_text(sparse.path(leaf.key()))
                self.assertTrue(self._is_told(leaf, root, proof))
                self.assertFalse(self._is_told(Leaf(leaf.log_id, id_of("another")), root, proof))
                self.assertFalse(self._is_absent(leaf.log_id, root, proof))
            for log_id in [*(it.log_id for it in self.leaves[count:]), *self.others]:
                proof = short_text(sparse.path(Leaf(log_id, "").key()))
                self.assertTrue(self._is_absent(log_id, root, proof))
                self.assertFalse(self._is_told(Leaf(log_id, id_of("record 0")), root, proof))

    def test_a_proof_is_of_one_log(self) -> None:
        leaves = self.leaves[:4]
        sparse = SparseMap(leaves)
        root = sparse.root()
        for leaf, other in itertools.product([*leaves, Leaf(self.others[0], id_of("record 0"))], leaves):
            proof = short_text(sparse.path(leaf.key()))
            self.assertEqual(self._is_told(other, root, proof), leaf == other)
            self.assertFalse(self._is_absent(other.log_id, root, proof))

    def test_each_sibling_counts(self) -> None:
        sparse = SparseMap(self.leaves)
        root, leaf, absent = sparse.root(), self.leaves[0], self.others[0]
        path = sparse.path(leaf.key())
        for it in self._wrong(path):
            self.assertFalse(self._is_told(leaf, root, short_text(it)))
        path = sparse.path(Leaf(absent, "").key())
        for it in self._wrong(path):
            self.assertFalse(self._is_absent(absent, root, short_text(it)))

    def _wrong(self, path: list[bytes]) -> list[list[bytes]]:
        """Other paths of 256 siblings, of which one is changed, dropped, doubled, or swapped with the next."""
        found = list(trees.changed(path))
        for place in range(256):
            found.append([*path[:place], *path[place + 1 :], path[-1]])
            found.append([*path[: place + 1], *path[place:]][:256])
            found.append([*path[:place], *path[place : place + 2][::-1], *path[place + 2 :]])
        return [it for it in found if it != path]

    def test_each_hash_of_the_text_counts(self) -> None:
        sparse = SparseMap(self.leaves)
        root, leaf = sparse.root(), self.leaves[0]
        bits, hashes = short_parts(sparse.path(leaf.key()))
        self.assertGreater(len(hashes), 4)
        for it in itertools.chain(trees.changed(hashes), trees.swapped(hashes)):
            self.assertFalse(self._is_told(leaf, root, text_of([bits, *it])))
        for it in itertools.chain(trees.dropped(hashes), trees.doubled(hashes)):
            self.assertRaises(BadArgument, self._is_told, leaf, root, text_of([bits, *it]))

    def test_no_sibling_is_empty(self) -> None:
        """256 hashes are the most."""
        for leaf in (self.leaves[0], self.leaves[1]):
            form = trees.key_form(leaf.key())
            path = STRANGE[:256]
            root = trees.climb(leaf.of_map(), path, form)
            self.assertTrue(self._is_told(leaf, root, short_text(path)))
            self.assertFalse(self._is_told(leaf, STRANGE[0], short_text(path)))
            root = trees.climb(trees.EMPTY[0], path, form)
            self.assertTrue(self._is_absent(leaf.log_id, root, short_text(path)))
            for count in (0, 255, 257):
                text = text_of([bytes(32), *STRANGE[:count]])
                self.assertRaises(BadArgument, self._is_absent, leaf.log_id, root, text)


if __name__ == "__main__":
    unittest.main()
