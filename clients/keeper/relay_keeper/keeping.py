"""A keeper, from its start to its end."""
from __future__ import annotations

import asyncio
import logging
import signal
from concurrent.futures import ThreadPoolExecutor
from dataclasses import dataclass
from typing import Any, Callable, Coroutine, List, Optional

from .admin import Admin
from .finding import Finding
from .names import Chosen
from .notify import notify
from .pace import Pace
from .room import Means
from .rooms import Rooms
from .store import Store

THREADS = 8
"""The number of documents that are written side by side, since each waits for the disk."""
LEASE = 0.5
"""Seconds after which a lease is asked for again that another keeper holds."""
CHECK = 5.0
"""Seconds after which a keeper looks whether it still holds the lease."""

log = logging.getLogger("relay_keeper")


@dataclass(frozen=True)
class Asked:
    """Says what is to be kept, and how."""

    url: str
    store: Store
    pace: Callable[[], Pace]
    rooms: Callable[[], List[str]]
    """The rooms that are kept without an operator's port, once the store is there."""
    chosen: Chosen
    admin: Optional[Admin]
    every: float
    """Seconds from one list of the operator's port to the next one."""


Work = Callable[[Means, "asyncio.Future[Any]"], Coroutine[Any, Any, None]]
"""The work of a keeper once it has the lease, until the future is done."""


async def keep(asked: Asked) -> None:
    """Until SIGTERM or SIGINT. Then everything that was heard is written. Fails with what closed a
    board, if something did, and with `LeaseLost`."""

    async def work(means: Means, stopping: "asyncio.Future[Any]") -> None:
        await _keep(asked, means, stopping)

    await until_stopped(asked.url, asked.store, asked.pace, work)


async def until_stopped(url: str, store: Store, pace: Callable[[], Pace], work: Work) -> None:
    """Waits for the lease of the store, and then works, until SIGTERM or SIGINT."""
    stop = asyncio.Event()
    for sign in (signal.SIGTERM, signal.SIGINT):
        asyncio.get_running_loop().add_signal_handler(sign, stop.set)
    stopping = asyncio.ensure_future(stop.wait())
    with ThreadPoolExecutor(THREADS) as disk:
        means = Means(url, store, disk, pace)
        leased = await first(stopping, asyncio.ensure_future(_lease(means)))
        if leased is not stopping:
            await work(means, stopping)
    stopping.cancel()


async def _keep(asked: Asked, means: Means, stopping: "asyncio.Future[Any]") -> None:
    beside: "List[asyncio.Future[None]]" = [asyncio.ensure_future(_check(means))]
    if asked.admin is None:
        rooms = Rooms(means)
        ready = _all([rooms.enter(name).ready for name in asked.rooms()])
    else:
        finding = Finding(asked.admin, asked.chosen, means, asked.every)
        rooms, ready = finding.rooms, _found(finding)
        beside.append(asyncio.ensure_future(finding.find()))
    telling = asyncio.ensure_future(_tell_ready(rooms, asyncio.ensure_future(ready)))
    try:
        await first(stopping, rooms.failed, *beside)
    finally:
        notify("STOPPING=1")
        for task in (*beside, telling):
            task.cancel()
        await asyncio.gather(*beside, telling, return_exceptions=True)
        await rooms.close()
    if rooms.failed.done():
        rooms.failed.result()


async def first(*tasks: "asyncio.Future[Any]") -> "asyncio.Future[Any]":
    """The one that is done first. Fails as it does."""
    done, _ = await asyncio.wait(tasks, return_when=asyncio.FIRST_COMPLETED)
    first = next(task for task in tasks if task in done)
    first.result()
    return first


async def _lease(means: Means) -> None:
    """Waits for the lease of the store."""
    loop, is_told = asyncio.get_running_loop(), False
    while not await loop.run_in_executor(means.disk, means.store.take):
        if not is_told:
            log.info("another keeper runs on %s: this one waits until it ends", means.store.where)
            notify("STATUS=waits for another keeper to end")
        is_told = True
        await asyncio.sleep(LEASE)


async def _check(means: Means) -> None:
    """Fails once the lease is lost."""
    while True:
        await asyncio.sleep(CHECK)
        await asyncio.get_running_loop().run_in_executor(means.disk, means.store.check)


async def _all(ready: "List[asyncio.Future[None]]") -> None:
    await asyncio.gather(*ready)


async def _found(finding: Finding) -> None:
    await _all(await finding.ready)


async def _tell_ready(rooms: Rooms, ready: "asyncio.Future[None]") -> None:
    await ready
    notify("READY=1", f"STATUS=keeps rooms, and is in {len(rooms)}")
    print("ready", flush=True)
