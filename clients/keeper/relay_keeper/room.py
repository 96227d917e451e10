"""One room: its newest document goes to the store, and back into the room when a run of the relay
begins.

While something is unwritten the room is looked at every `LOOK`, and the newest document is written
once that is due (pace.py). A room that changes fast is muted: after `rush` messages the keeper
watches nothing until it looks again, and then asks for the whole document. So what a room costs is
bounded, however fast it is edited, and no queue of old patches builds up in the sockets.
"""
from __future__ import annotations

import asyncio
import logging
from collections import deque
from concurrent.futures import Executor
from dataclasses import dataclass
from typing import Callable, Deque, Optional, Set, Tuple, TypeVar

import relay_client
from relay_client.values import same

from .pace import Pace
from .reading import told_aside
from .state import Json, State, now
from .store import Store, as_text

LOOK = 0.05
"""Seconds from one look at a room of which something is unwritten to the next one."""
AGAIN = 1.0
"""Seconds after which a write is tried again that the store refused."""
REFUSED = 3.0
"""Seconds for which the relay has to refuse a room until that is told."""

WHOLE: relay_client.View = [""]
NOTHING: relay_client.View = []
ENDED = object()

log = logging.getLogger("relay_keeper")
T = TypeVar("T")


@dataclass(frozen=True)
class Seen:
    """A document, and the run of the relay and the revision that it is of."""

    epoch: int
    rev: int
    document: Json


@dataclass(frozen=True)
class Means:
    """The means by which the rooms of a relay are kept."""

    url: str
    store: Store
    disk: Executor
    """The executor whose threads write to the store."""
    pace: Callable[[], Pace]
    """Makes the pace of another room."""


class Silence:
    """Says that nothing answers at the address of the relay: one line for all rooms, until each of
    them that found it so has an answer."""

    def __init__(self, url: str):
        self._url = url
        self._rooms: Set[str] = set()

    def begin(self, room: str, cause: relay_client.HandshakeFailed) -> None:
        if not self._rooms:
            log.warning("%s; it is tried again", cause.at(self._url))
        self._rooms.add(room)

    def end(self, room: str) -> None:
        self._rooms.discard(room)


class Room:
    """`rush` tells how many messages are heard between two looks. `lost` is told when there is no
    connection, and `silence` when nothing answers."""

    def __init__(
        self,
        name: str,
        means: Means,
        rush: Callable[[], int],
        lost: Callable[[], None],
        silence: Silence,
    ):
        self.name, self._means, self._rush, self._lost = name, means, rush, lost
        self._silence = silence
        self._store, self._pace = means.store, means.pace()
        self._loop = asyncio.get_running_loop()
        self._run: Optional[int] = None  # of which the store is, as the keeper has seen to
        self._rev = 0  # the revision that was written last
        self._heard_of, self._heard = -1, 0  # the run and the revision that was heard last
        self._unwritten: Deque[Seen] = deque()  # the newest document of each run that was seen
        self._work, self._writing = asyncio.Event(), asyncio.Lock()
        self._messages = 0  # that were heard since the last look
        self._muted = False
        self._is_behind = False  # the store refused the last write
        self._refused: Optional[float] = None  # since when the relay refuses the room
        self._is_told = False  # and that was told
        self._ended: Optional[Exception] = None
        self._closing = False
        self.ready: "asyncio.Future[None]" = self._loop.create_future()
        """The room has its document, and the store has the room's."""
        self._board = relay_client.connect(
            f"{means.url}/rooms/{name}",
            view=WHOLE,
            on_change=self._hear,
            on_state=self._enter,
            first_wait=0.02,  # a keeper comes back before other clients do
            longest_wait=0.5,
        )

    def has_kept(self, revision: int) -> bool:
        """The keeper is in the room, and the store has this revision of it."""
        is_in = self.run is not None and self.ready.done()
        return is_in and not self._unwritten and self._rev == revision

    @property
    def run(self) -> Optional[int]:
        """The run of the relay that the keeper is in, by this room; None if it is not in it."""
        return self._board.epoch if self._board.state == "open" else None

    @property
    def kept(self) -> Tuple[Optional[int], int]:
        """The run and the revision that was written last."""
        return self._run, self._rev

    async def keep(self) -> None:
        """Until the room is closed; then everything that was heard is written. Fails with what
        closed the board, if something else did, and with `LeaseLost`."""
        while not self._closing and self._ended is None:
            await self._work.wait()
            self._work.clear()
            begun = self._loop.time()
            await self._listen()
            wait = LOOK if not self._is_due() or await self._sync() else AGAIN
            if self._unwritten:
                self._work.set()
            await asyncio.sleep(begun + wait - self._loop.time())
        await self._sync()
        if self._ended is not None:
            raise self._ended

    async def end_run(self, epoch: Optional[int]) -> None:
        """That run of the relay has ended. Waits until all that was heard of it is written: the
        connection is lost behind the last of it."""
        while epoch is not None and self.run == epoch:
            await asyncio.sleep(LOOK)
        await self._sync()

    async def close(self) -> None:
        """Leaves the room. `keep` ends soon."""
        self._closing = True
        if not self.ready.done():
            self.ready.set_result(None)
        self._work.set()
        await self._board.close()

    # What the board tells.

    def _hear(self, change: relay_client.Change) -> None:
        epoch = self._board.epoch
        if not change.slots or epoch is None:
            return  # muted
        [[document]] = change.slots
        self._count(epoch, change)
        newest = self._unwritten[-1] if self._unwritten else None
        if newest is not None and newest.epoch == epoch and newest.rev <= change.rev:
            self._unwritten.pop()
        self._unwritten.append(Seen(epoch, change.rev, document))
        self._work.set()
        if self._messages >= self._rush() and not self._muted:
            self._muted = True
            self._watch(NOTHING)

    def _count(self, epoch: int, change: relay_client.Change) -> None:
        """Counts what edits brought by this change."""
        moment, self._messages = self._loop.time(), self._messages + 1
        if change.patch is None:
            heard = self._heard if self._heard_of == epoch else 0
            self._pace.missed(moment, change.rev - heard)
        else:
            self._pace.patch(moment, len(as_text(change.patch).encode()))
        self._heard_of, self._heard = epoch, change.rev

    def _enter(self, state: relay_client.State, cause: Optional[Exception]) -> None:
        if state == "closed":
            self._silence.end(self.name)
            self._ended = cause
            self._work.set()
        elif state == "open":
            self._silence.end(self.name)
            self._refused, self._is_told = None, False
        elif state == "waiting":
            self._lost()
            self._warn(cause)

    def _warn(self, cause: Optional[Exception]) -> None:
        """Says that nothing answers; and once that the relay refuses this room, if it goes on doing
        so: one that is closed does until it has its documents."""
        if not isinstance(cause, relay_client.HandshakeFailed):
            return
        if cause.reason == "unreachable":
            self._silence.begin(self.name, cause)
            return
        self._silence.end(self.name)
        moment = self._loop.time()
        self._refused = moment if self._refused is None else self._refused
        if moment - self._refused >= REFUSED and not self._is_told:
            self._is_told = True
            log.warning("%s: %s", self.name, cause)

    def _watch(self, view: relay_client.View) -> "asyncio.Task[relay_client.Slots]":
        watching = asyncio.ensure_future(self._board.watch(view))
        # `_hear` is told.
        watching.add_done_callback(lambda shown: shown.cancelled() or shown.exception())
        return watching

    async def _listen(self) -> None:
        """Asks for the newest document of a muted room, and waits a while for it."""
        self._messages = 0
        if self._muted and not self._closing:
            self._muted = False
            await asyncio.wait([self._watch(WHOLE)], timeout=LOOK)

    # What is done about it.

    def _is_due(self) -> bool:
        """True if what is unwritten is to be written. That of a run that has begun, and that of one
        that has ended, does not wait."""
        if not self._unwritten:
            return False
        is_one = len(self._unwritten) == 1 and self._unwritten[-1].epoch == self._run
        return self._is_behind or not is_one or self._pace.is_due(self._loop.time())

    async def _sync(self) -> bool:
        """Writes the newest document of each run. Whether the store took it: else it is kept, to be
        written later."""
        async with self._writing:
            return await self._write()

    async def _write(self) -> bool:
        while self._unwritten:
            seen = self._unwritten[0]
            self._pace.begin()
            try:
                await self._take(seen)
            except (OSError, ValueError) as error:
                said = "the store is behind the room, and it is tried again"
                log.error("%s: %s: %s", self.name, said, error)
                self._is_behind = True
                return False
            self._is_behind = False
            if self._unwritten[0] is not seen:
                break  # edits came meanwhile
            self._unwritten.popleft()
        return True

    async def _take(self, seen: Seen) -> None:
        is_begun = self._run == seen.epoch and 0 < seen.rev and self._rev <= seen.rev
        if not is_begun and not await self._begin(seen):
            return
        if seen.rev > 0 and self._run == seen.epoch:
            state = State(self.name, seen.epoch, seen.rev, seen.document, now())
            written = await self._on_disk(lambda: self._store.put(state))
            if written is not None:
                self._pace.wrote(written)
        self._rev = seen.rev
        if not self.ready.done():
            self.ready.set_result(None)

    async def _begin(self, seen: Seen) -> bool:
        """The first document of a run of the relay, or of this keeper: that of the store is put
        back, or set aside if another client was first. False if that run ended meanwhile."""
        kept = await self._on_disk(lambda: self._store.get(self.name))
        is_of_this_run = kept is not None and kept.epoch == seen.epoch and seen.rev > 0
        if kept is not None and not is_of_this_run:
            found = seen.document
            if seen.rev == 0 and not same(kept.document, found):
                found = await self._put_back(kept.document, seen)
            if found is ENDED:
                return False
            if not same(kept.document, found):
                aside = await self._on_disk(lambda: self._store.set_aside(self.name))
                told_aside(self.name, aside)
            await self._on_disk(lambda: self._store.mark(self.name, seen.epoch, 0))
        self._run = seen.epoch
        return True

    async def _put_back(self, document: Json, seen: Seen) -> Json:
        """The document that the room has then; `ENDED` if that run of the relay ended meanwhile, or
        the keeper ends. The base has the edit done only in a room in which none was ever
        accepted."""
        patch = [{"op": "add", "path": "", "value": document}]
        try:
            while True:
                try:
                    await self._board.edit(patch, base=0, epoch=seen.epoch, undo=False)
                    log.info("%s: put back", self.name)
                    return document
                except (relay_client.Unknown, relay_client.Refused, ValueError) as failed:
                    error = failed
                [[found]] = await self._board.watch(WHOLE)
                if self._board.epoch != seen.epoch:
                    return ENDED
                if self._board.rev != 0:
                    return found
                if not isinstance(error, relay_client.Unknown):
                    log.error("%s: cannot be put back: %s", self.name, error)
                    return found
        except relay_client.Closed:
            return ENDED

    async def _on_disk(self, work: Callable[[], T]) -> T:
        """In another thread, since the store may be slow."""
        return await self._loop.run_in_executor(self._means.disk, work)
