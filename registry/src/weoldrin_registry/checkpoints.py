"""Makes checkpoints, and proves what stands under the newest one, and under the few before it.

Trees stand as each of these says: roots and proofs are those that the library makes of the leaves, in the order in
which the storage gives them. The library has verified the signature of each checkpoint that is served, and each proof
but the empty one, that a log goes on from no leaves. When a checkpoint is made is decided here.
"""

from __future__ import annotations

import threading
import time
from collections.abc import Iterator
from contextlib import contextmanager
from typing import NamedTuple

from weoldrin import (
    Checkpoint,
    LogHead,
    LogKind,
    OperatorLog,
    RegistryTrees,
    SignedCheckpoint,
    log_id,
    verify_absence,
    verify_consistency,
    verify_inclusion,
    verify_presence,
)

from .handles import Damaged, Handles
from .settings import Settings
from .signing import Signer
from .storage import Overtaken, Storage, StorageError
from .trees import Kept, Ring

_OPERATOR = log_id(LogKind.OPERATOR)
# How long no checkpoint is tried after one that could not be kept: the trees are made anew for the next one.
_PAUSE = 10.0
# How often one is tried where another process is as quick.
_TRIALS = 4


class Leaf(NamedTuple):
    """A leaf, and the proof of it."""

    log_id: str
    record_id: str
    proof: str


class Checkpoints:
    """The checkpoints of a registry. All calls may be made by many threads; they wait for each other."""

    def __init__(self, storage: Storage, handles: Handles, settings: Settings, signer: Signer | None) -> None:
        self._storage, self._handles, self._settings, self._signer = storage, handles, settings, signer
        self._lock = threading.Lock()
        self._ring = Ring(storage, settings.kept_checkpoints)
        self._newest: Kept | None = None
        self._is_verified = False
        self._seen_at = self._paused_until = float("-inf")

    # Making them

    def make(self) -> Kept | None:
        """Makes a checkpoint where there are new leaves, or where the newest is old, and gives the newest.

        It does nothing so soon after the last one, without a key, and where the operator log does not let the key
        sign. Raises a `StorageError` where it could not be kept.
        """
        with self._lock:
            newest = self._current()
            since = time.monotonic() - self._seen_at
            is_paused = time.monotonic() < self._paused_until
            if since < self._settings.checkpoint_seconds or is_paused or not self.may_sign():
                return newest
            is_old = newest is None or since >= self._settings.renew_seconds
            length, last = self._storage.length(), self._newest
            if length > (last.length if last else 0) or (last and is_old):
                with self._kept_whole():
                    self._make(length)
            return self._current()

    def current(self) -> Kept | None:
        """The newest checkpoint, whichever process made it. Raises `Damaged` where it is not one of these leaves."""
        with self._lock:
            return self._current()

    @contextmanager
    def held(self) -> Iterator[Kept | None]:
        """The newest checkpoint, which no other one follows meanwhile."""
        with self._lock:
            yield self._current()

    def is_due(self) -> bool:
        """Whether the last one was seen so long ago that another may be made."""
        return time.monotonic() - self._seen_at >= self._settings.checkpoint_seconds

    def may_sign(self) -> bool:
        """Whether there is a key, and the operator log lets it sign, as it stands now."""
        if self._signer is None:
            return False
        with self._operators() as log:
            return log.holds(self._signer.key_id, "commit")

    def now(self) -> float:
        """The time in seconds since 1970, which is never before that of the newest checkpoint."""
        newest = self._newest
        return max(time.time(), newest.signed.contents.timestamp if newest else 0)

    def close(self) -> None:
        """Gives the memory of the trees back."""
        with self._lock:
            self._ring.drop()

    def _make(self, length: int) -> None:
        """Signs a checkpoint of so many leaves, and keeps it."""
        trees, before = self._ring.reached(length), self._newest
        for _ in range(_TRIALS):
            last = before.signed.contents.timestamp if before else 0
            contents = trees.checkpoint(max(int(time.time()), last))
            if before is not None:
                _check_goes_on(before.signed.contents, contents, trees.consistency(before.length))
            made = self._signed(contents)
            try:
                self._storage.add_checkpoint(made.text, length, before.text if before else None)
            except Overtaken:
                before = _read(self._storage.newest() or "")
                if before.length >= length:
                    self._adopt(before)
                    return
            else:
                self._accept(made, True)
                return
        raise StorageError("other writers were first each time")

    def _signed(self, contents: Checkpoint) -> Kept:
        """A checkpoint with its signature, as the library has verified it."""
        assert self._signer
        made = SignedCheckpoint(contents, self._signer.key_id, self._signer.sign(contents.message()))
        if not self._is_signed(made):
            raise Damaged("a checkpoint that was signed just now is none by the operator log")
        return Kept(made, made.to_json())

    def _is_signed(self, it: SignedCheckpoint) -> bool:
        with self._operators() as log:
            return log.verify_checkpoint(it.contents, it.key_id, it.signature)

    @contextmanager
    def _operators(self) -> Iterator[OperatorLog]:
        """The operator log, as it stands now."""
        with self._handles.used(LogKind.OPERATOR, _OPERATOR) as handle:
            row = self._storage.log(_OPERATOR)
            if row is not None and row.length != handle.count:
                self._handles.go_on(handle, row)
            assert isinstance(handle.log, OperatorLog)
            yield handle.log

    # The newest one, and its trees

    def _current(self) -> Kept | None:
        text = self._storage.newest()
        if text is None:
            return None
        if self._newest is None or self._newest.text != text or not self._ring:
            with self._kept_whole():
                self._adopt(_read(text))
        # One that is signed by a key that may not sign any more is signed anew, and not served.
        return self._newest if self._is_verified else None

    def _adopt(self, found: Kept) -> None:
        """Takes a checkpoint that was kept for the newest, if it is one of these leaves, and goes on from the last one
        where that has trees still."""
        trees, before = self._ring.reached(found.length), self._newest
        is_verified = self._may_stand(found, trees)
        if before is not None and self._ring.of(before.length):
            _check_goes_on(before.signed.contents, found.signed.contents, trees.consistency(before.length))
        self._accept(found, is_verified)

    def _may_stand(self, found: Kept, trees: RegistryTrees) -> bool:
        """Whether a checkpoint is signed by a key that may sign. Raises `Damaged` where it is not that of the trees."""
        contents = found.signed.contents
        if trees.checkpoint(contents.timestamp) != contents:
            raise Damaged(f"the leaves are not those of the checkpoint of length {found.length}")
        return self._is_signed(found.signed)

    def _accept(self, newest: Kept, is_verified: bool) -> None:
        if self._newest is None or newest.text != self._newest.text:
            self._seen_at = time.monotonic()
        self._newest, self._is_verified = newest, is_verified
        self._ring.accept(newest, is_verified)

    @contextmanager
    def _kept_whole(self) -> Iterator[None]:
        """Drops all trees where what is done with them fails: some may then have leaves of no checkpoint."""
        try:
            yield
        except BaseException:
            self._ring.drop()
            self._paused_until = time.monotonic() + _PAUSE
            raise

    # Proofs under it, or under one before it, in `held`

    def kept(self, length: int) -> Kept | None:
        """The checkpoint of a length, as it was signed the last time, where trees stand as it says: the newest, or one
        of the few before it. None of these where its key may not sign any more, as the operator log stands now."""
        newest = self._newest
        if newest is not None and newest.length == length:
            return newest
        found = self._ring.of(length)
        if found is None:
            return None
        last = _read(self._storage.renewed(length) or "")
        if found.checkpoint != last:
            # Another process signed it anew before it made the next one.
            self._ring.accept(last, self._may_stand(last, found.trees))
        with self._operators() as log:
            may_sign = log.holds(last.signed.key_id, "commit")
        return last if found.is_verified and may_sign else None

    def inclusion(self, under: Kept, leaf: int) -> Leaf:
        """That a leaf stands at its place under a checkpoint."""
        ((its_log, its_record),) = self._storage.leaves(leaf, 1)
        contents, proof = under.signed.contents, self._standing(under).inclusion(leaf)
        if not verify_inclusion(its_log, its_record, leaf, contents.log_length, contents.log_root, proof):
            raise Damaged(f"leaf {leaf} is not under the checkpoint of length {under.length}")
        return Leaf(its_log, its_record, proof)

    def consistency(self, under: Kept, first: int) -> str | None:
        """That a checkpoint goes on from the one of a length, or from no leaves; none where that length is greater, or
        has no checkpoint."""
        text = self._storage.checkpoint(first)
        if first > under.length or (first > 0 and text is None):
            return None
        proof = self._standing(under).consistency(first)
        if text is not None:
            _check_goes_on(_read(text).signed.contents, under.signed.contents, proof)
        return proof

    def head(self, under: Kept, of: str) -> LogHead:
        """A log's last record under a checkpoint."""
        root = under.signed.contents.map_root
        found = self._standing(under).head(of)
        if found.record_id is None:
            holds = verify_absence(of, root, found.proof)
        else:
            holds = verify_presence(of, found.record_id, root, found.proof)
        if not holds:
            raise Damaged(f"the head of {of} is not under the checkpoint of length {under.length}")
        return found

    def _standing(self, under: Kept) -> RegistryTrees:
        found = self._ring.of(under.length)
        if found is None or len(found.trees) != under.length:
            raise StorageError("the trees do not stand as the checkpoint says")
        return found.trees


def _read(text: str) -> Kept:
    return Kept(SignedCheckpoint.from_json(text), text)


def _check_goes_on(old: Checkpoint, new: Checkpoint, proof: str) -> None:
    """Raises `Damaged` where the library does not see that one checkpoint's log goes on from the other's."""
    if not verify_consistency(old.log_length, old.log_root, new.log_length, new.log_root, proof):
        raise Damaged(f"the checkpoint of length {new.log_length} does not go on from that of {old.log_length}")
