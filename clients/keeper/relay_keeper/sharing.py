"""The rooms that a relay of several has: those that its clients want, as long as they do.

The relay lets clients into no room by itself. A room that one was refused at is taken, if no other
relay has it, and asked for else. The keeper is in each room that its relay has, from the moment
that it is open, but begins none: one that the store does not know may be wanted by those alone who
only watch. A room is given up if nobody else is in it for a while, or if nobody begins it. So is
one that another keeper asks for, unless it was taken just now: two proxies that disagree for a
moment do not move it to and fro.
"""
from __future__ import annotations

import asyncio
import functools
import logging
from concurrent.futures import Executor, ThreadPoolExecutor
from typing import Any, Callable, Coroutine, Dict, List, Optional, TypeVar

from .admin import Admin, Listed, NoAnswer
from .moving import Moving, NotOpened
from .room import Means
from .rooms import Rooms
from .shared import Shared
from .store import StoreFailed

LOOK, LIST, SOON = 0.1, 1.0, 0.2
"""Seconds from one look at what is wanted to the next one; from one list of the rooms; and from one
list while there is an open room that nobody began."""
WANTED = 5.0
"""Seconds for which a room is wanted that a client was refused at."""
STAY = 10.0
"""Seconds for which a relay has a room at least before it is given to another one."""
STILL = 0.1
"""Seconds for which the revision of a room has to stand, whose sessions were ended: then their
wills are done."""
AGAIN = 1.0
"""Seconds until a room is asked for again, or what failed is tried again, or a room is taken back
that was given to another relay."""
ENTERING = 5.0
"""Seconds after which a room that was opened is begun, and the keeper is in it."""
STARTING = 60.0
"""Seconds that the relay may take to begin."""
MOVES, CLOSED = 3, 12
"""The number of requests that are made side by side for rooms that are taken or given up, since the
relay answers few operators at once; and the number of rooms that are closed and not given up
yet."""
SILENCES = 3
"""The number of times in a row that it does not answer until it is held to be gone."""

log = logging.getLogger("relay_keeper")
T = TypeVar("T")


class Gone(Exception):
    """The relay does not answer."""


class Sharing:
    def __init__(self, admin: Admin, means: Means, store: Shared, idle: float):
        self._admin, self._store, self._disk, self._idle = admin, store, means.disk, idle
        self._moving, self._moving_threads = Moving(admin, store), ThreadPoolExecutor(MOVES)
        self._closing = asyncio.Semaphore(CLOSED)
        self._loop = asyncio.get_running_loop()
        self.rooms = Rooms(means)
        self._taken: Dict[str, float] = {}  # when each room was that the relay has
        self._empty: Dict[str, float] = {}  # since when nobody is in it but the keeper
        self._wanted: Dict[str, float] = {}  # until when a room is that the relay does not have
        self._later: Dict[str, float] = {}  # when a room may be taken again
        self._asked: Dict[str, float] = {}  # when another keeper was asked for it last
        self._said: Dict[str, str] = {}  # why it cannot be taken, or given up
        self._moves: "Dict[str, asyncio.Task[None]]" = {}  # the rooms that are taken or given up
        self._failed: "asyncio.Future[None]" = self._loop.create_future()
        self._list_at = 0.0

    async def share(self) -> None:
        """Until it is cancelled. Fails with `Gone`, and with what the store does."""
        await self._begin()
        silences = 0
        while True:
            try:
                await self._look()
                silences = 0
            except NoAnswer as error:
                silences += 1
                if silences == SILENCES:
                    raise Gone(str(error)) from error
            await asyncio.wait([self._failed], timeout=LOOK)
            if self._failed.done():
                self._failed.result()

    async def end(self) -> None:
        """Gives all rooms up."""
        await asyncio.gather(*self._moves.values(), return_exceptions=True)
        await asyncio.gather(*[self._give_up(room) for room in list(self._taken)])

    def cancel(self) -> None:
        for move in self._moves.values():
            move.cancel()
        self._moving_threads.shutdown(wait=False)

    async def _begin(self) -> None:
        """Waits for the relay. What rooms it has are closed, and taken if they can be."""
        started = self._loop.time()
        while True:
            try:
                listed = await self._off(self._admin.rooms)
                break
            except NoAnswer as error:
                if self._loop.time() - started >= STARTING:
                    raise Gone(str(error)) from error
                await asyncio.sleep(LOOK)
        for room in listed:
            await self._off(lambda: self._admin.exclude(room), self._moving_threads)
            self._wanted[room] = self._loop.time() + WANTED
        await self._off(self._moving.begin)

    async def _look(self) -> None:
        wanted = await self._off(self._admin.wanted)
        asked = await self._off(self._store.asked_for)
        now = self._loop.time()
        self._wanted.update((it, now + WANTED) for it in wanted if it not in self._taken)
        for room, until in list(self._wanted.items()):
            if until < now:
                self._forget(room)
            elif self._later.get(room, now) <= now:
                self._move(room, self._take)
        for room in asked:
            if now - self._taken.get(room, now) >= STAY:
                self._move(room, self._give)
        if now >= self._list_at:
            self._list_at = now + LIST
            listed = await self._off(self._admin.rooms)
            self._enter_begun(listed)
            self._find_empty(listed)
            if self._not_entered():
                self._list_at = now + SOON

    def _not_entered(self) -> List[str]:
        """Rooms that are open and that the keeper is not in, since nobody began them."""
        taken = [room for room in self._taken if room not in self._moves]
        return [room for room in taken if self.rooms.get(room) is None]

    def _enter_begun(self, listed: Dict[str, Listed]) -> None:
        for room in self._not_entered():
            if room in listed:
                self.rooms.enter(room)

    def _find_empty(self, listed: Dict[str, Listed]) -> None:
        now = self._loop.time()
        for room in [room for room, at in self._taken.items() if now - at > ENTERING]:
            if room not in listed:
                self._move(room, self._give_up)  # nobody began it, or the relay is in another run
            elif listed[room].sessions > 1:
                self._empty.pop(room, None)
            elif now - self._empty.setdefault(room, now) >= self._idle:
                self._move(room, self._give_up)

    def _move(self, room: str, move: Callable[[str], Coroutine[Any, Any, None]]) -> None:
        """Begins it, unless the room is being moved."""
        if room not in self._moves:
            self._moves[room] = asyncio.ensure_future(move(room))
            self._moves[room].add_done_callback(lambda moved: self._moved(room, moved))

    def _moved(self, room: str, move: "asyncio.Task[None]") -> None:
        del self._moves[room]
        error = None if move.cancelled() else move.exception()
        if error is not None and not self._failed.done():
            self._failed.set_exception(error)

    async def _take(self, room: str) -> None:
        try:
            is_taken = await self._off(lambda: self._moving.take(room), self._moving_threads)
        except (NoAnswer, NotOpened, StoreFailed, ValueError) as error:
            self._say(room, f"not opened: {error}")
            self._later[room] = self._loop.time() + AGAIN
            return
        if not is_taken:
            await self._ask_for(room)
            return
        is_begun = await self._is_begun(room)
        self._forget(room)
        self._taken[room] = self._loop.time()
        if is_begun:
            self.rooms.enter(room)
        else:
            self._list_at = 0.0

    async def _is_begun(self, room: str) -> bool:
        """Its document was put back, or a client began it. If that is not told, the list of the
        rooms tells it later."""
        try:
            tag = await self._off(lambda: self._admin.tag(room), self._moving_threads)
        except NoAnswer:
            return False
        return tag is not None

    async def _ask_for(self, room: str) -> None:
        if self._loop.time() - self._asked.get(room, -AGAIN) >= AGAIN:
            self._asked[room] = self._loop.time()
            await self._off(lambda: self._store.ask_for(room))
            # So it is wanted again only if a client is refused again.
            await self._off(lambda: self._admin.exclude(room), self._moving_threads)

    async def _give(self, room: str) -> None:
        """To the keeper that asked for it."""
        await self._give_up(room)
        self._later[room] = self._loop.time() + AGAIN

    async def _give_up(self, room: str) -> None:
        async with self._closing:
            while True:
                try:
                    await self._close(room)
                    await self._finish(room)
                    break
                except (NoAnswer, StoreFailed, ValueError) as error:
                    self._say(room, f"closed, and not given up yet: {error}")
                    await asyncio.sleep(AGAIN)
        self._forget(room)

    async def _close(self, room: str) -> None:
        exclude = functools.partial(self._admin.exclude, room)
        await self._off(exclude, self._moving_threads)
        kept = self.rooms.get(room)
        if kept is not None:
            await self.rooms.leave(kept)
            # Until then the keeper was refused too, and no client may have been.
            await self._off(exclude, self._moving_threads)

    async def _finish(self, room: str) -> None:
        """Once the wills of its sessions are done, writes its last state and unlocks it."""
        finish = functools.partial(self._moving.finish, room)
        seen = await self._off(lambda: self._admin.tag(room), self._moving_threads)
        while seen is not None:
            await asyncio.sleep(STILL)
            tag = await self._off(lambda: self._admin.tag(room), self._moving_threads)
            if tag == seen and await self._off(finish, self._moving_threads):
                break
            seen = tag
        await self._off(lambda: self._store.give_room(room))

    def _forget(self, room: str) -> None:
        """Forgets what is noted of it."""
        for times in (self._taken, self._empty, self._wanted, self._later, self._asked):
            times.pop(room, None)
        self._said.pop(room, None)

    def _say(self, room: str, what: str) -> None:
        if self._said.get(room) != what:
            self._said[room] = what
            log.error("%s: %s", room, what)

    async def _off(self, work: Callable[[], T], threads: Optional[Executor] = None) -> T:
        """In another thread."""
        return await self._loop.run_in_executor(threads or self._disk, work)
