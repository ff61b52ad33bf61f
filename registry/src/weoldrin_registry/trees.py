"""The trees that stand as the newest checkpoint says, and as the few before it say.

Trees only go on, so each checkpoint that is kept has its own. The oldest go on to the next one: so each leaf is pushed
once to each, and the others stay as they are.
"""

from __future__ import annotations

from collections.abc import Callable
from concurrent.futures import ThreadPoolExecutor
from typing import NamedTuple

from weoldrin import BadArgument, RegistryTrees, SignedCheckpoint, saved_leaves

from .handles import Damaged
from .storage import Storage

# How many leaves are read at once.
_MANY = 10_000


class Kept(NamedTuple):
    """A checkpoint that is kept, and its text."""

    signed: SignedCheckpoint
    text: str

    @property
    def length(self) -> int:
        """How many leaves it has."""
        return self.signed.contents.log_length


class Standing:
    """Trees, and the checkpoint as which they stand. It has none while it is being made."""

    def __init__(self, trees: RegistryTrees) -> None:
        self.trees = trees
        self.checkpoint: Kept | None = None
        self.is_verified = False
        """Whether the checkpoint's key might sign when it was taken up."""


class Ring:
    """Trees over the leaves of a storage, of ascending lengths. Whoever calls has a lock, and drops them all where a
    call fails: some may then have leaves of no checkpoint."""

    def __init__(self, storage: Storage, count: int) -> None:
        self._storage, self._count = storage, count
        self._all: list[Standing] = []

    def __bool__(self) -> bool:
        """Whether there are any."""
        return bool(self._all)

    def of(self, length: int) -> Standing | None:
        """Those of a checkpoint of a length; none where it is not kept."""
        those = (it for it in reversed(self._all) if it.checkpoint is not None and it.checkpoint.length == length)
        return next(those, None)

    def reached(self, length: int) -> RegistryTrees:
        """The trees over the first leaves, of so many, which are the newest from then on.

        The oldest go on to them. Where the newest have more leaves, or there are none, all are made anew.
        """
        if self._all and len(self._all[-1].trees) > length:
            self.drop()
        if not self._all:
            self._make(length)
        if len(self._all[-1].trees) < length:
            # Trees that are ahead of each checkpoint go on themselves.
            oldest = self._all.pop(0 if self._all[-1].checkpoint else -1)
            self._all.append(Standing(oldest.trees))
            self._read_leaves(len(oldest.trees), length, oldest.trees.push_all)
        return self._all[-1].trees

    def accept(self, checkpoint: Kept, is_verified: bool) -> None:
        """Has all trees of its length stand as a checkpoint says."""
        for it in self._all:
            if len(it.trees) == checkpoint.length:
                it.checkpoint, it.is_verified = checkpoint, is_verified

    def drop(self) -> None:
        """Gives the memory of all back."""
        for it in self._all:
            it.trees.close()
        self._all.clear()

    def _make(self, length: int) -> None:
        """Makes all over the same leaves, at once."""
        saved = bytearray()
        self._read_leaves(0, length, lambda leaves: saved.extend(saved_leaves(leaves)))
        leaves = bytes(saved)

        def add() -> None:
            self._all.append(Standing(RegistryTrees.from_bytes(leaves)))

        with ThreadPoolExecutor(self._count, "trees") as threads:
            made = [threads.submit(add) for _ in range(self._count)]
        for it in made:
            it.result()

    def _read_leaves(self, start: int, length: int, take: Callable[[list[tuple[str, str]]], object]) -> None:
        """Has the leaves taken from a place on up to a length, some at once."""
        while start < length:
            leaves = self._storage.leaves(start, min(_MANY, length - start))
            if not leaves:
                raise Damaged(f"there are fewer than {length} leaves")
            try:
                take(leaves)
            except BadArgument:
                raise Damaged(f"a leaf behind the first {start} is none") from None
            start += len(leaves)
