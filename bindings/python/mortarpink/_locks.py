"""The lock of a bitmap, which calls that read share."""

from __future__ import annotations

import threading
from typing import Callable


class SharedLock:
    """A lock that one thread has alone, or that calls that read have together.

    The gate is held by a thread that has the lock alone, and by each reader while it begins. A reader holds a lock of its
    own during its call, and a call that writes waits for the locks of all readers. All these locks are reentrant, since a
    handler of a signal may call between the steps of any call. If it raises an exception, no reader and no lock is left.
    """

    def __init__(self) -> None:
        self.gate = threading.RLock()
        self._readers: set[threading._RLock] = set()

    def read(self, before: Callable[[], None], call: Callable[..., int], *arguments: object) -> int:
        """Runs `before` alone, and then a call at the same time as other readers. Returns what the call returns."""
        reader = threading.RLock()
        try:
            with reader:
                with self.gate:
                    before()
                    self._readers.add(reader)
                return call(*arguments)
        finally:
            self._readers.discard(reader)

    def write(self, call: Callable[..., int], *arguments: object) -> int:
        """Runs a call while no other thread reads, and returns what it returns."""
        with self.gate:
            self.wait()
            return call(*arguments)

    def wait(self) -> None:
        """Waits until no other thread reads. The gate is held, so that none begins."""
        for reader in tuple(self._readers):
            with reader:
                pass

    def forget_readers(self) -> None:
        """Forgets the readers in the child of a fork, which has no other threads. Readers change nothing."""
        self._readers.clear()
