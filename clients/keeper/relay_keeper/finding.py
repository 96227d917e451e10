"""The rooms that the keeper is in, by the list that the operator's port gives.

The list is asked for every few seconds. The keeper is in a room while others are, since a room in
which anybody is makes no place for another one. One that nobody is in is read there, if its newest
revision is not in the store. When a run of the relay begins, the kept documents are put back, and
clients are let in (putting_back.py).
"""
from __future__ import annotations

import asyncio
import contextlib
import functools
import logging
from concurrent.futures import Executor
from typing import Callable, Dict, List, Optional, Tuple, TypeVar

from .admin import Admin, Listed, NoAnswer
from .names import Chosen
from .putting_back import Came, PuttingBack
from .reading import keep_once
from .room import Means, Room
from .rooms import Rooms
from .store import Store

EVERY = 2.0
"""Seconds from one list to the next one."""
PATIENCE = 5.0
"""Seconds that a new run of the relay waits for what was heard of the one before."""
SOON, LATER = 0.1, 0.5
"""Seconds after which a relay is asked again that may have ended or did not answer, at least and at
most."""

log = logging.getLogger("relay_keeper")
T = TypeVar("T")


class Finding:
    def __init__(self, admin: Admin, chosen: Chosen, means: Means, every: float = EVERY):
        self._admin, self._chosen, self._every = admin, chosen, every
        self._store: Store = means.store
        self._disk: Executor = means.disk
        self.rooms = Rooms(means, self._doubt)
        self._doubts = asyncio.Event()  # whether the relay still is in the run that was met last
        self._doubts.set()
        self._is_silent = False  # the relay did not answer, and that was told
        self._epoch: Optional[int] = None  # the run that was met last, if that is known
        self._listed: Dict[str, Listed] = {}  # the rooms that it had
        self._kept: Dict[str, Tuple[Optional[int], int]] = {}
        # the run and the revision that the store has of the rooms that the keeper is not in
        self.ready: "asyncio.Future[List[asyncio.Future[None]]]"
        self.ready = asyncio.get_running_loop().create_future()
        """The relay is open. Gives when each of the rooms is ready that it had then."""

    async def find(self) -> None:
        """Until it is cancelled. Fails with what the store does."""
        loop, silences = asyncio.get_running_loop(), 0
        while True:
            begun = loop.time()
            silences = 0 if await self.look() else silences + 1
            await asyncio.sleep(min(SOON * 2**silences, self._every, LATER))
            if not silences:
                with contextlib.suppress(asyncio.TimeoutError):
                    left = max(begun + self._every - loop.time(), 0)
                    await asyncio.wait_for(self._doubts.wait(), left)

    async def look(self) -> bool:
        """Asks for the list once. False if the relay did not answer."""
        try:
            await self._look()
        except NoAnswer as error:
            if not self._is_silent:
                log.warning("%s", error)
            self._is_silent = True
            self._doubt()
            return False
        self._is_silent = False
        if not self.ready.done():
            self.ready.set_result([room.ready for room in self.rooms])
        return True

    async def _look(self) -> None:
        listed = await self._off(self._admin.rooms)
        if self._is_another_run(listed):
            await self._meet(listed)
            listed = await self._off(self._admin.rooms)
        elif not listed:
            await self._off(self._admin.open)
        await self._be_in(listed)

    def _doubt(self) -> None:
        self._doubts.set()

    def _is_another_run(self, listed: Dict[str, Listed]) -> bool:
        """True if it may be one. Within a run a room's revision only rises, and a room that is no
        longer listed made place."""
        fell = (
            name not in listed or listed[name].revision < before.revision
            for name, before in self._listed.items()
        )
        return self._doubts.is_set() or any(fell)

    async def _meet(self, listed: Dict[str, Listed]) -> None:
        """The relay may be in a new run: gives it the kept documents, and opens it."""
        self._doubts.clear()
        putting = PuttingBack(self._admin, self._store)
        epoch = await self._off(lambda: putting.epoch(listed))
        if epoch is None or epoch != self._epoch:
            await self._end_run()
            came: Came = await self._off(lambda: putting.put_back(self._chosen, listed, epoch))
            self._epoch = came.epoch
            entries = await self._off(self._store.list)
            self._kept = {it.room: (it.epoch, it.revision) for it in entries}
        await self._off(self._admin.open)

    async def _end_run(self) -> None:
        """Writes what was heard of the run before to the store, before that is read for this
        one."""
        ending = [asyncio.ensure_future(room.end_run(self._epoch)) for room in self.rooms]
        if ending:
            done, late = await asyncio.wait(ending, timeout=PATIENCE)
            for task in done:
                task.result()
            if late:
                log.warning("%d rooms are not written yet: the relay is opened without", len(late))

    async def _be_in(self, listed: Dict[str, Listed]) -> None:
        """Enters and leaves rooms."""
        self._listed = {name: it for name, it in listed.items() if name in self._chosen}
        leaving = [self._leave(room) for room in self.rooms if self._is_done(room)]
        await asyncio.gather(*leaving)
        empty = []
        for name, it in self._listed.items():
            if self.rooms.get(name) is None and it.sessions > 0:
                self.rooms.enter(name)
            elif self.rooms.get(name) is None and it.revision > 0:
                empty.append(name)
        await self._read([name for name in empty if not self._has(name)])
        if self._epoch is None:
            self._epoch = next((room.run for room in self.rooms if room.run is not None), None)

    async def _read(self, rooms: List[str]) -> None:
        """Keeps those that nobody is in, as far as that takes no longer than a list waits."""
        begun = asyncio.get_running_loop().time()
        for name in rooms:
            if asyncio.get_running_loop().time() - begun > self._every:
                break
            read = functools.partial(keep_once, self._admin, self._store, name, self._epoch)
            try:
                tag = await self._off(read)
            except NoAnswer:
                raise
            except (OSError, ValueError) as error:
                log.error("%s: the store is behind the room: %s", name, error)
                continue
            if tag is not None and self._epoch in (None, tag.epoch):
                self._epoch, self._kept[name] = tag.epoch, (tag.epoch, tag.revision)
            elif tag is not None:
                self._doubt()
                break

    def _is_done(self, room: Room) -> bool:
        """The room is gone, or only the keeper is in it and has kept it."""
        it = self._listed.get(room.name)
        return it is None or (it.sessions <= 1 and room.has_kept(it.revision))

    def _has(self, name: str) -> bool:
        """The store has what the room has."""
        newest = (self._epoch, self._listed[name].revision)
        return self._epoch is not None and self._kept.get(name) == newest

    async def _leave(self, room: Room) -> None:
        await self.rooms.leave(room)
        self._kept[room.name] = room.kept

    async def _off(self, work: Callable[[], T]) -> T:
        """In another thread."""
        return await asyncio.get_running_loop().run_in_executor(self._disk, work)
