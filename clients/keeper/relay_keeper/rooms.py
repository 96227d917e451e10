"""The rooms that a keeper is in."""
from __future__ import annotations

import asyncio
from typing import Callable, Dict, Iterator, Optional, Tuple

from .room import Means, Room, Silence

MESSAGES, FEWEST = 128, 8
"""The number of messages that are heard between two looks, of all rooms together, and of each one
at least."""


class Rooms:
    """`lost` is told when the connection of a room is lost."""

    def __init__(self, means: Means, lost: Callable[[], None] = lambda: None):
        self._means, self._lost, self._silence = means, lost, Silence(means.url)
        self._rooms: "Dict[str, Tuple[Room, asyncio.Task[None]]]" = {}
        self.failed: "asyncio.Future[None]" = asyncio.get_running_loop().create_future()
        """Fails with what ended a room that was not left."""
        self.failed.add_done_callback(lambda failed: failed.cancelled() or failed.exception())

    def __len__(self) -> int:
        return len(self._rooms)

    def __iter__(self) -> Iterator[Room]:
        return iter([room for room, _ in self._rooms.values()])

    def get(self, name: str) -> Optional[Room]:
        return self._rooms[name][0] if name in self._rooms else None

    def enter(self, name: str) -> Room:
        room = Room(name, self._means, self._rush, self._lost, self._silence)
        keeping = asyncio.ensure_future(room.keep())
        keeping.add_done_callback(self._ended)
        self._rooms[name] = room, keeping
        return room

    async def leave(self, room: Room) -> None:
        """Once everything that was heard is written."""
        _, keeping = self._rooms[room.name]
        await room.close()
        await asyncio.wait([keeping])
        self._rooms.pop(room.name, None)

    async def close(self) -> None:
        """Leaves all of them."""
        await asyncio.gather(*[self.leave(room) for room in self])

    def _rush(self) -> int:
        return max(MESSAGES // max(len(self._rooms), 1), FEWEST)

    def _ended(self, keeping: "asyncio.Task[None]") -> None:
        error = None if keeping.cancelled() else keeping.exception()
        if error is not None and not self.failed.done():
            self.failed.set_exception(error)
