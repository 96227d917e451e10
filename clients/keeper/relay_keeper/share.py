"""A keeper beside one relay of several, from its start to its end. However it ends, it ends its
relay, which must not go on with rooms whose locks are free."""
from __future__ import annotations

import asyncio
import contextlib
import logging
import threading
from dataclasses import dataclass
from typing import Any, Callable, List

from .admin import Admin, NoAnswer
from .keeping import first, until_stopped
from .notify import notify
from .pace import Pace
from .room import Means
from .shared import ANSWER, CHECK, Shared
from .sharing import Sharing

log = logging.getLogger("relay_keeper")


@dataclass(frozen=True)
class Group:
    """Says what is shared, and how."""

    url: str
    store: Shared
    pace: Callable[[], Pace]
    admin: Admin
    idle: float
    """Seconds after which an empty room is given up."""


async def share(group: Group) -> None:
    """Until SIGTERM or SIGINT: then all rooms are written and given up. Fails with `LeaseLost`,
    `Gone`, and whatever else ends the relay with it."""

    async def work(means: Means, stopping: "asyncio.Future[Any]") -> None:
        await _share(group, means, stopping)

    await until_stopped(group.url, group.store, group.pace, work)


async def _share(group: Group, means: Means, stopping: "asyncio.Future[Any]") -> None:
    notify("READY=1", "STATUS=has the locks of the rooms that its relay has")
    print("ready", flush=True)
    sharing, watch = Sharing(group.admin, means, group.store, group.idle), Watch(group)
    looking = asyncio.ensure_future(sharing.share())
    tasks: "List[asyncio.Future[Any]]" = [stopping, watch.lost, sharing.rooms.failed, looking]
    try:
        await first(*tasks)
        looking.cancel()
        await first(asyncio.ensure_future(sharing.end()), *tasks[1:3])
    finally:
        notify("STOPPING=1")
        await asyncio.get_running_loop().run_in_executor(None, watch.end)
        looking.cancel()
        sharing.cancel()
        await asyncio.gather(looking, return_exceptions=True)
        await sharing.rooms.close()


class Watch:
    """Asks the database once a second whether this keeper has its locks, in a thread of its own. If
    it does not, or if no answer comes, the relay is stopped at once."""

    def __init__(self, group: Group):
        self._admin, self._store = group.admin, group.store
        self._loop = asyncio.get_running_loop()
        self.lost: "asyncio.Future[None]" = self._loop.create_future()
        """Fails with `LeaseLost` once the relay is stopped."""
        self.lost.add_done_callback(lambda lost: lost.cancelled() or lost.exception())
        self._ended = threading.Event()
        self._thread = threading.Thread(target=self._watch, daemon=True)
        self._thread.start()

    def end(self) -> None:
        """Stops the relay."""
        self._ended.set()
        self._stop()

    def _watch(self) -> None:
        while not self._ended.wait(CHECK):
            late = threading.Timer(ANSWER, self._store.cut)
            late.daemon = True
            late.start()
            try:
                self._store.check()
            except Exception as error:
                self._stop()
                self._loop.call_soon_threadsafe(self._tell, error)
                return
            finally:
                late.cancel()

    def _tell(self, error: Exception) -> None:
        if not self.lost.done():
            self.lost.set_exception(error)

    def _stop(self) -> None:
        with contextlib.suppress(NoAnswer):
            self._admin.stop()
