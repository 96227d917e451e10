"""A store in files: a folder of them for one relay."""
from __future__ import annotations

import pathlib
from typing import Dict, List, Optional

from .files import Files
from .lock import Lock
from .names import is_name
from .state import Entry, Json, Older, State
from .store import Store, StoreFailed


class Folder(Store):
    def __init__(self, path: pathlib.Path, history: int, apart: float):
        super().__init__(str(path), history, apart)
        self._path, self._lock = path, Lock(path / "lock")
        self._rooms: Dict[str, Files] = {}

    def take(self) -> bool:
        self._path.mkdir(parents=True, exist_ok=True)
        return self._lock.take()

    def check(self) -> None:
        self._lock.check()

    def close(self) -> None:
        self._lock.close()

    def get(self, room: str) -> Optional[State]:
        return self._of(room).get()

    def put(self, state: State) -> Optional[int]:
        self._lock.check()
        return self._of(state.room).put(state)

    def mark(self, room: str, epoch: int, revision: int) -> None:
        self._lock.check()
        self._of(room).mark(epoch, revision)

    def list(self) -> List[Entry]:
        if not self._path.is_dir():
            raise StoreFailed(f"there is no folder {self._path}")
        names = (path.name[: -len(".json")] for path in self._path.glob("*.json"))
        return [self._of(name).entry() for name in sorted(names) if is_name(name)]

    def older(self, room: str) -> List[Older]:
        return self._of(room).older()

    def document(self, room: str, older: Older) -> Json:
        return self._of(room).document(older)

    def set_aside(self, room: str) -> Optional[str]:
        self._lock.check()
        return self._of(room).set_aside()

    # Beside the newest state, so beside a keeper that runs too.

    def write_aside(self, room: str, document: Json) -> str:
        return self._of(room).write_aside(document)

    def drop_aside(self, room: str, time: str) -> None:
        self._of(room).drop_aside(time)

    def _of(self, room: str) -> Files:
        if room not in self._rooms:
            self._rooms[room] = Files(self._path, room, self.history, self.apart)
        return self._rooms[room]
