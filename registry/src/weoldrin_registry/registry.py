"""A registry: its storage, its logs in memory, its checkpoints, and the threads that work for it."""

from __future__ import annotations

import asyncio
import pathlib
import threading
from collections.abc import Callable
from concurrent.futures import ThreadPoolExecutor
from typing import TypeVar

from weoldrin import Error

from .checkpoints import Checkpoints
from .handles import Handles
from .lines import tell, tell_error
from .metrics import Metrics
from .publishing import LogName, Published, Publisher
from .settings import Settings
from .signing import signer_in
from .storage import Storage, StorageError
from .storage.opening import opened
from .trees import Kept

T = TypeVar("T")


class Registry:
    """What requests are answered from."""

    def __init__(self, settings: Settings) -> None:
        self.settings, self.metrics = settings, Metrics()
        signer = signer_in(pathlib.Path(settings.key)) if settings.key else None
        operator_key_id = settings.operator_key_id or (signer.key_id if signer else "")
        self.storage: Storage = opened(settings)
        self.handles = Handles(self.storage, settings.handle_bytes, settings.state_records)
        self.publisher = Publisher(self.storage, self.handles, settings, operator_key_id)
        self.checkpoints = Checkpoints(self.storage, self.handles, settings, signer)
        # Requests that write wait for the lock of the storage: those that read do not stand behind them.
        self._writers = ThreadPoolExecutor(settings.threads, "writer")
        self._readers = ThreadPoolExecutor(settings.threads, "reader")
        self._stopped, self._keeper = threading.Event(), threading.Thread(target=self._keep, name="keeper", daemon=True)

    def start(self) -> None:
        """Makes the trees, and has checkpoints made from then on. Raises a `StorageError` where what is stored is not
        what was written."""
        self.checkpoints.current()
        if not self.checkpoints.may_sign():
            tell("no checkpoints are made: there is no key, or the operator log does not let it sign")
        self._keeper.start()

    def stop(self) -> None:
        """Ends what was begun, and closes the storage."""
        self._stopped.set()
        if self._keeper.is_alive():
            self._keeper.join()
        self._writers.shutdown()
        self._readers.shutdown()
        self.checkpoints.close()
        self.storage.close()

    async def written(self, call: Callable[..., T], *arguments: object) -> T:
        """What a call that writes gives, made by a thread for such."""
        return await asyncio.get_running_loop().run_in_executor(self._writers, call, *arguments)

    async def read(self, call: Callable[..., T], *arguments: object) -> T:
        """What a call that reads gives, made by a thread for such."""
        return await asyncio.get_running_loop().run_in_executor(self._readers, call, *arguments)

    def publish(self, log: LogName, envelope: bytes) -> tuple[Published, Kept | None]:
        """Appends a record, and gives a checkpoint that has it, where one could be made by then."""
        new = self.publisher.publish(log, envelope, self.checkpoints.now())
        self.metrics.records.labels(log.kind.name.lower()).inc()
        if not self.checkpoints.is_due():
            return new, None
        newest = self._made()
        return new, newest if newest and newest.length > new.leaf else None

    async def saved(self, log: LogName) -> None:
        """Saves the state of a log, where that is due. Whatever fails, nothing is lost."""
        await self.written(self._save, log)

    def _save(self, log: LogName) -> None:
        try:
            self.handles.save(log.kind, log.log_id)
        except (StorageError, Error) as error:
            tell(f"the state of {log.log_id} was not saved: {error}")

    def _made(self) -> Kept | None:
        """A checkpoint. The record stands, whether one can be made or not."""
        try:
            return self.checkpoints.make()
        except (StorageError, Error) as error:
            tell(f"no checkpoint was made: {error}")
        except Exception as error:
            # Whatever it is, records are taken, and the next one may be made.
            tell_error(error)
        self.metrics.failed_checkpoints.inc()
        return None

    def _keep(self) -> None:
        """Makes checkpoints until the registry is stopped."""
        while not self._stopped.wait(self.settings.checkpoint_seconds):
            if self.checkpoints.is_due():
                self._made()
