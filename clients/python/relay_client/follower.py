"""The slots of a view as the relay shows them, kept right over lost connections and restarts
(docs/PROTOCOL.md, "What a client does").

What is held is what the relay has shown: slots, and the view, the revision and the run of the relay
of which they are. They change together, and only by a snapshot or a patch.
"""
from __future__ import annotations

import asyncio
from dataclasses import dataclass, replace
from typing import Callable, List, Optional

from .faults import Closed, Refused, Superseded
from .link import Astray, RoomLink, settle
from .patch import DoesNotFit, applied
from .requests import Asked, Message
from .values import Patch, Slots, View


@dataclass(frozen=True)
class Wanted:
    """A view that was asked for, by the number of its asking."""

    number: int
    view: View


@dataclass(frozen=True)
class Held:
    of: Wanted
    slots: Slots
    rev: int
    epoch: int


@dataclass(frozen=True)
class Hearer:
    """A listener that is told what becomes of the slots."""

    took: Callable[[Optional[Held], Held, Optional[Patch], bool], None]
    """Something else is held than before; by which patch, if it was no snapshot, and whether that
    was of one revision."""
    present: Callable[[], None]
    """After a loss, what is held is what the view shows."""
    refused: Callable[[Refused], None]
    """There is no view that the relay takes."""


@dataclass
class _Waiter:
    number: int
    only: Optional[View]
    """The view of which the slots have to be; None if those of a later one will do."""
    shown: "asyncio.Future[Slots]"


class Follower:
    def __init__(self, view: View, link: RoomLink, hearer: Hearer):
        self._link, self._on = link, hearer
        self.held: Optional[Held] = None
        self._wanted = Wanted(0, view)  # the view that was asked for last
        self._taken: Optional[Wanted] = None
        """That which the newest `watching` or `resumed` of this connection is about."""
        self._resumed_by_patch = False  # the patch that comes next is of all that was missed
        self._waiters: List[_Waiter] = []
        self._ended: Optional[Exception] = None

    def watch(self, view: View) -> "asyncio.Future[Slots]":
        """The slots of that view: `Superseded` if those of another one come in their place."""
        return self._watch(view, view)

    def watch_again(self) -> "asyncio.Future[Slots]":
        """The view that is wanted, anew: its slots are of the room's revision."""
        return self._watch(self._wanted.view, None)

    def _watch(self, view: View, only: Optional[View]) -> "asyncio.Future[Slots]":
        self._wanted = Wanted(self._wanted.number + 1, view)
        shown = self.shown(only)
        if self._link.welcome is not None:
            self._link.ask(self._watching())
        return shown

    def shown(self, only: Optional[View] = None) -> "asyncio.Future[Slots]":
        """The slots of the view that was asked for last, or of a later one, when they are there."""
        shown: "asyncio.Future[Slots]" = asyncio.get_running_loop().create_future()
        # Nobody has to look at it.
        shown.add_done_callback(lambda shown: shown.cancelled() or shown.exception())
        if self._ended is not None:
            shown.set_exception(Closed())
        else:
            self._waiters.append(_Waiter(self._wanted.number, only, shown))
        return shown

    def end(self, cause: Optional[Exception]) -> None:
        self._ended = cause or Closed()
        waiters, self._waiters = self._waiters, []
        for waiter in waiters:
            settle(waiter.shown, self._ended)

    # What the link tells.

    def entered(self) -> None:
        """The first request of a connection goes on where the slots are, if they are those of the
        view that is wanted."""
        held = self.held
        is_here = held is not None and held.of is self._wanted
        self._link.ask_first(self._resuming(held) if held and is_here else self._watching())

    def lost(self) -> None:
        self._taken, self._resumed_by_patch = None, False

    def astray(self) -> None:
        if self.held is not None:
            # There is nothing to resume.
            self.held = replace(self.held, of=Wanted(-1, self.held.of.view))

    def told(self, message: Message) -> None:
        if message["kind"] == "snapshot":
            self._take(message["rev"], message["view"])
        else:
            self._follow(message["rev"], message["patch"])

    def _watching(self) -> Asked:
        wanted = self._wanted

        def answered(reply: Message) -> None:
            if reply["kind"] == "watching":
                self._taken = wanted
            else:
                self._refuse(wanted, Refused.by(reply))

        return Asked({"do": "watch", "view": wanted.view}, answered)

    def _resuming(self, held: Held) -> Asked:
        def answered(reply: Message) -> None:
            if reply["kind"] != "resumed":
                # `future`: an epoch was given to two runs, and what is held is of the other one.
                self._link.ask(self._watching())
                return
            self._taken = held.of
            self._resumed_by_patch = reply["how"] == "patch"
            if reply["how"] == "nothing":
                self._on.present()

        request = {"do": "resume", "epoch": held.epoch, "rev": held.rev, "view": held.of.view}
        return Asked(request, answered)

    def _refuse(self, wanted: Wanted, refused: Refused) -> None:
        """A view that the relay does not take: the one before it stays. Without any there is
        nothing to be had."""
        for waiter in self._waiters:
            if waiter.number == wanted.number:
                settle(waiter.shown, refused)
        self._waiters = [waiter for waiter in self._waiters if waiter.number != wanted.number]
        if self._wanted is not wanted:
            return
        if self.held is None:
            self._on.refused(refused)
        elif self._taken is not None:
            self._wanted = self._taken
        else:
            self._wanted = self.held.of
            self._link.ask(self._watching())

    def _take(self, rev: int, slots: Slots) -> None:
        welcome = self._link.welcome
        if self._taken is None or welcome is None or len(slots) != len(self._taken.view):
            raise Astray()
        self._show(Held(self._taken, slots, rev, welcome["epoch"]), None)

    def _follow(self, rev: int, patch: Patch) -> None:
        held = self.held
        if held is None or rev <= held.rev or self._taken is not held.of:
            raise Astray()
        try:
            slots: Slots = applied(held.slots, patch)
        except DoesNotFit as error:
            raise Astray() from error
        self._show(replace(held, slots=slots, rev=rev), patch)

    def _show(self, held: Held, patch: Optional[Patch]) -> None:
        before, self.held = self.held, held
        single, self._resumed_by_patch = patch is not None and not self._resumed_by_patch, False
        for waiter in self._waiters:
            if waiter.number > held.of.number or waiter.shown.done():
                continue
            if waiter.only in (None, held.of.view):
                waiter.shown.set_result(held.slots)
            else:
                waiter.shown.set_exception(Superseded())
        self._waiters = [waiter for waiter in self._waiters if waiter.number > held.of.number]
        self._on.took(before, held, patch, single)
