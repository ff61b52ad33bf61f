"""A thread that makes calls for all others, for what has to stay on one thread."""

from __future__ import annotations

import os
import queue
import sys
import threading
from collections.abc import Callable
from typing import Any, Generic, TypeVar, cast

from .errors import Busy, Forked, NotOpen

T = TypeVar("T")

_CLOSED = "NotOpen: the registry was closed"


class Call(Generic[T]):
    """A call that is asked for, and what became of it."""

    __slots__ = ("_given", "_is_made", "_raised", "_work", "is_last")

    def __init__(self, work: Callable[[], T], is_last: bool = False) -> None:
        self._work, self.is_last, self._given = work, is_last, cast(T, None)
        self._raised: BaseException | None = None
        self._is_made = threading.Lock()
        self._is_made.acquire()

    def make(self) -> None:
        """Makes it."""
        try:
            self._given = self._work()
        except BaseException as error:
            self._raised = error
        self._is_made.release()

    def refuse(self) -> None:
        """Says that it is not made any more."""
        self._raised = NotOpen(_CLOSED)
        self._is_made.release()

    def outcome(self) -> T:
        """Waits for it, and gives what it gave, or raises what it raised."""
        self._is_made.acquire()
        if self._raised is None:
            return self._given
        try:
            raise self._raised
        finally:
            # An error has the frames that it came through, and so this call.
            self._raised = None


class OwnThread:
    """A thread that makes calls one after another, whoever asks for them.

    No lock is held while a call waits for its turn. So a handler of a signal may ask for one though it interrupted
    another, and what is forgotten ends its thread from wherever that is seen. The thread is no reason for the
    interpreter to go on: when that ends, whatever the thread does is left as it is.
    """

    def __init__(self, name: str) -> None:
        self._calls: queue.SimpleQueue[Call[Any]] = queue.SimpleQueue()
        self._is_ended, self._process = False, os.getpid()
        self._thread = threading.Thread(target=self._serve, name=name, daemon=True)
        self._thread.start()

    def made(self, work: Callable[[], T]) -> T:
        """What a call gives, which the thread makes behind those that were asked for before."""
        if os.getpid() != self._process:
            raise Forked(
                "Forked: the registry was made by another process, before fork; make it anew, and push its leaves"
            )
        if self._is_own():
            raise Busy("Busy: the registry's own thread can't wait for itself")
        if sys.is_finalizing():
            raise NotOpen(_CLOSED)
        call = Call(work)
        self._ask(call)
        return call.outcome()

    def end(self, last: Callable[[], object]) -> None:
        """Has the thread make one more call, and end. It waits for nothing. In another process it does nothing."""
        if os.getpid() == self._process:
            self._ask(Call(last, is_last=True))

    def join(self) -> None:
        """Waits until the thread has ended, where it can be waited for."""
        if os.getpid() == self._process and not self._is_own() and not sys.is_finalizing():
            self._thread.join()

    def _is_own(self) -> bool:
        """Whether the thread itself asks: the collector may run a stranger's code on any thread. A number of a thread
        would not tell, which another one has when this has ended."""
        return threading.current_thread() is self._thread

    def _ask(self, call: Call[Any]) -> None:
        self._calls.put(call)
        # Either the thread sees it, which looks for the last time when this was set, or it is refused here.
        if self._is_ended:
            self._refuse_all()

    def _serve(self) -> None:
        try:
            is_last = False
            while not is_last:
                call = self._calls.get()
                call.make()
                is_last = call.is_last
                # What was asked for, and given, is not kept until the next one.
                del call
        finally:
            self._is_ended = True
            self._refuse_all()

    def _refuse_all(self) -> None:
        """Refuses each call that waits."""
        while True:
            try:
                self._calls.get_nowait().refuse()
            except queue.Empty:
                return
