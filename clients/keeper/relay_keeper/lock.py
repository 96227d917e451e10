"""A lock on a file, so that two keepers never write the same store. The system takes it away when
its holder ends, however that ends."""
from __future__ import annotations

import fcntl
import os
import pathlib
from typing import Optional

from .store import LeaseLost


class Lock:
    def __init__(self, path: pathlib.Path):
        self._path = path
        self._descriptor: Optional[int] = None

    def take(self) -> bool:
        """False if another program holds it."""
        descriptor = os.open(self._path, os.O_RDWR | os.O_CREAT | os.O_CLOEXEC, 0o600)
        try:
            fcntl.flock(descriptor, fcntl.LOCK_EX | fcntl.LOCK_NB)
        except BlockingIOError:
            os.close(descriptor)
            return False
        self._descriptor = descriptor
        return True

    def check(self) -> None:
        """`LeaseLost` if it was not taken, or if its file is another one by now, which somebody
        else may lock."""
        try:
            if self._descriptor is not None:
                if os.path.samestat(os.stat(self._path), os.fstat(self._descriptor)):
                    return
        except FileNotFoundError:
            pass
        raise LeaseLost(f"the lock {self._path} is lost")

    def close(self) -> None:
        if self._descriptor is not None:
            os.close(self._descriptor)
            self._descriptor = None
