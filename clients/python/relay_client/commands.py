"""The commands of `relay-client` for a room: get, watch, edit."""
from __future__ import annotations

import asyncio
import contextlib
import json
import os
import stat
import sys
from typing import Any, Callable, List, Optional, TypeVar

from .board import Board
from .changes import Change
from .faults import Closed, HandshakeFailed, Refused
from .link import NO_ROOM, settle
from .pointers import without_watch
from .values import Json, Patch, State, View
from .warning import warning

Answer = TypeVar("Answer")


class NoAnswer(Exception):
    """The relay gave no answer within the timeout."""


class NoRoom(Exception):
    """There is no room yet of the name that is to be watched."""


class Room:
    """A board, for whoever waits for one answer. A handshake that fails before the first slots is
    final; later the client comes back by itself, and warns on standard error. One that `reads` only
    watches, and so begins no room. One that `waits` comes back too once it was told that the room
    to watch is not there yet. `hears` is told of each change, and of None if there can be no
    more."""

    def __init__(
        self,
        url: str,
        view: View,
        timeout: float,
        hears: Callable[[Optional[Change]], None],
        *,
        reads: bool = True,
        waits: bool = False,
    ):
        self._timeout, self._warn, self._hears = timeout, warning(), hears
        self._waits, self._comes_back = waits, False
        self._failed: "asyncio.Future[None]" = asyncio.get_running_loop().create_future()
        self._failed.add_done_callback(lambda failed: failed.cancelled() or failed.exception())
        # The board's own patience is the longer one, so that `NoAnswer` comes first.
        self.board = Board(
            without_watch(url),
            view=view,
            read_only=reads,
            on_change=hears,
            on_state=self._turned,
            patience=timeout + 10,
        )

    def _turned(self, state: State, cause: Optional[Exception]) -> None:
        if state == "closed" and cause is not None:
            settle(self._failed, cause)
            self._hears(None)
        elif self._comes_back or self.board.ready.done():
            self._warn(state, cause)
        elif isinstance(cause, HandshakeFailed):
            self._refused(state, cause)

    def _refused(self, state: State, cause: HandshakeFailed) -> None:
        if cause.status != NO_ROOM:
            settle(self._failed, cause)
        elif self._waits:
            self._comes_back = True
            self._warn(state, cause)
        else:
            settle(self._failed, NoRoom(str(cause)))

    def unread(self) -> None:
        """Nobody reads any more what is printed."""
        settle(self._failed, BrokenPipeError())
        self._hears(None)

    async def answer(self, coming: "asyncio.Future[Answer]") -> Answer:
        """Its result. Fails with the cause if there is no connection, and with `NoAnswer`."""
        either: "List[asyncio.Future[Any]]" = [coming, self._failed]
        first = asyncio.FIRST_COMPLETED
        await asyncio.wait(either, timeout=self._timeout, return_when=first)
        if self._comes_back:
            await asyncio.wait(either, return_when=first)
        if not coming.done():
            coming.cancel()
            self.check()
            raise NoAnswer(f"no answer within {self._timeout:g} seconds")
        if isinstance(coming.exception(), Closed):
            self.check()
        return coming.result()

    def check(self) -> None:
        """Fails with the cause if there can be no answer."""
        if self._failed.done():
            self._failed.result()


async def get(url: str, pointers: List[str], timeout: float) -> None:
    """Prints the value at each pointer. Refused, as `missing`, if one leads to nothing: then none
    is printed, so that line k is always of pointer k. `NoRoom` if there is no room of this
    name."""
    room = Room(url, [*pointers], timeout, lambda change: None)
    async with room.board:
        slots = await room.answer(room.board.ready)
    for at, slot in enumerate(slots):
        if not slot:
            raise Refused("missing", at)
    for [value] in slots:
        write(value)


async def watch(url: str, pointers: List[str], timeout: float) -> None:
    """Prints what the pointers show, and then each change, until nobody reads it any more. Waits
    for a room that is not there yet."""
    changes: "asyncio.Queue[Optional[Change]]" = asyncio.Queue()
    room = Room(url, [*pointers], timeout, changes.put_nowait, waits=True)
    _when_closed(room.unread)
    async with room.board:
        await room.answer(room.board.ready)
        while (change := await changes.get()) is not None:
            write({"rev": change.rev, "slots": change.slots})
        room.check()


async def edit(url: str, patch: Patch, base: Optional[int], timeout: float) -> None:
    """Prints the revision that the patch made."""
    room = Room(url, [], timeout, lambda change: None, reads=False)
    async with room.board as board:
        done = board.edit(patch) if base is None else board.edit(patch, base=base)
        write({"rev": await room.answer(done)})


def write(value: Json) -> None:
    """One line, as the relay writes JSON: compact, and member names in byte order."""
    line = json.dumps(value, ensure_ascii=False, separators=(",", ":"), sort_keys=True)
    sys.stdout.buffer.write(f"{line}\n".encode())
    sys.stdout.buffer.flush()


def _when_closed(closed: Callable[[], None]) -> None:
    """Calls `closed` once nobody reads standard output any more, if that is a pipe. Without this a
    quiet room would keep the command until its next change."""
    loop, out = asyncio.get_running_loop(), sys.stdout.fileno()

    def gone() -> None:
        loop.remove_reader(out)
        closed()

    if stat.S_ISFIFO(os.fstat(out).st_mode):
        with contextlib.suppress(NotImplementedError):  # by the event loop of Windows
            loop.add_reader(out, gone)
